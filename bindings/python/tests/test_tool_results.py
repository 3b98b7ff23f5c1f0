"""Results that aren't their method's: `InvalidResult` with the place, whatever a server or a host answers."""
import asyncio
import random

from helping import Case, joined, logged, patience, rows
from test_tool_random import ODD, is_allowed, places_of, value_at, with_value
from test_tool_server import Host, hosting
from tool_wires import table

from bullmyrtle import Error, Server
from bullmyrtle.mcp import Context, InvalidResult, ToolClient, ToolServer, UnknownVersion

INITIALIZED = {
    "protocolVersion": "2025-06-18",
    "capabilities": {"tools": {}},
    "serverInfo": {"name": "s", "version": "1", "title": "S"},
    "instructions": "none",
}
ABOUT = {"name": "a", "title": "A", "description": "It."}
TEXT = {"type": "text", "text": "t"}
RESOURCE = {"uri": "a://1", "mimeType": "text/plain", "text": "t"}
PARTS = [
    TEXT,
    {"type": "image", "data": "aaaa", "mimeType": "image/png"},
    {"type": "audio", "data": "aaaa", "mimeType": "audio/wav"},
    {"type": "resource", "resource": {"uri": "a://1", "mimeType": "image/png", "blob": "aaaa"}},
    {"type": "resource_link", "uri": "a://1", "name": "a"},
]

#: Of each call: its method, a result that is right, and the members that it may leave out.
CALLS = {
    "initialize": (lambda it: it.initialize(), INITIALIZED, ["serverInfo.title", "instructions"]),
    "tools/list": (
        lambda it: it.list_tools(),
        {
            "tools": [{**ABOUT, "inputSchema": {}, "outputSchema": {}, "annotations": {}}] * 4,
            "nextCursor": None,
        },
        ["nextCursor", "title", "description", "outputSchema", "annotations"],
    ),
    "tools/call": (
        lambda it: it.call_tool("a"),
        {"content": PARTS, "structuredContent": {"a": 1}, "isError": False, "_meta": {"a": 1}},
        [
            "content",
            "structuredContent",
            "structuredContent.a",
            "isError",
            "_meta",
            "_meta.a",
            "content[3].resource.mimeType",
        ],
    ),
    "resources/list": (
        lambda it: it.list_resources(),
        {"resources": [{"uri": "a://1", **ABOUT, "mimeType": "a/b", "size": 1.5}], "nextCursor": None},
        ["nextCursor", "title", "description", "mimeType", "size"],
    ),
    "resources/templates/list": (
        lambda it: it.list_resource_templates(),
        {"resourceTemplates": [{"uriTemplate": "a://{x}", **ABOUT, "mimeType": "a/b"}], "nextCursor": None},
        ["nextCursor", "title", "description", "mimeType"],
    ),
    "resources/read": (lambda it: it.read_resource("a://1"), {"contents": [RESOURCE]}, ["mimeType"]),
    "resources/subscribe": (lambda it: it.subscribe_resource("a://1"), {}, []),
    "resources/unsubscribe": (lambda it: it.unsubscribe_resource("a://1"), {}, []),
    "prompts/list": (
        lambda it: it.list_prompts(),
        {"prompts": [{**ABOUT, "arguments": [{**ABOUT, "required": True}]}], "nextCursor": None},
        ["nextCursor", "title", "description", "arguments", "required"],
    ),
    "prompts/get": (
        lambda it: it.get_prompt("a"),
        {"description": "It.", "messages": [{"role": "user", "content": TEXT}]},
        ["description"],
    ),
    "completion/complete": (
        lambda it: it.complete({"type": "ref/prompt", "name": "a"}, "b", ""),
        {"completion": {"values": ["a"], "total": 1.5, "hasMore": False}},
        ["total", "hasMore"],
    ),
    "logging/setLevel": (lambda it: it.set_logging_level("info"), {}, []),
    "ping": (lambda it: it.send_ping(), {}, []),
}

#: Results of a server, and what is said of them.
ROWS = [tuple(it) for it in table("results")["wrong"]]


def answering(results):
    """A server that answers each method with what is given for it."""
    server = Server(framing="lines")

    def answer(params, request):
        found = results[request.method]
        return found(params) if callable(found) else found

    for method in results:
        server.method(method)(answer)
    server.method("notifications/initialized")(lambda params: None)
    return server


class Servers(Case):
    """What a server answers a `ToolClient`."""

    async def test_right_ones(self):
        results = {method: result for method, (_, result, _) in CALLS.items()}
        async with joined(answering(results), ToolClient()) as client:
            found = {method: await call(client) for method, (call, _, _) in CALLS.items()}
        self.assertEqual(found["tools/list"], results["tools/list"]["tools"])
        self.assertEqual((found["tools/call"].text, found["tools/call"].structured), ("t", {"a": 1}))
        self.assertEqual(found["resources/read"], [RESOURCE])

    async def test_what_may_be_missing(self):
        """Parts of a later version's kind, and what a server leaves out or writes as null."""
        lenient = {
            "tools/list": {"tools": [{"name": "a", "inputSchema": {}, "title": None, "more": 5}]},
            "tools/call": {
                "content": [{"type": "hologram", "text": 5}],
                "structuredContent": None,
                "more": 5,
            },
        }
        async with joined(answering(lenient), ToolClient()) as client:
            self.assertEqual([it["name"] for it in await client.list_tools()], ["a"])
            self.assertEqual((await client.call_tool("a")).content[0]["type"], "hologram")
            for empty in ({}, {"content": None}):
                lenient["tools/call"] = empty
                self.assertEqual((await client.call_tool("a")).content, [])

    @rows(ROWS)
    async def test_wrong_ones(self, method, result, words):
        """The text begins with the method and the place."""
        with self.assertRaises(InvalidResult) as caught:
            async with joined(answering({method: result}), ToolClient()) as client:
                await CALLS[method][0](client)
        place = words if words.startswith(" ") else "." + words
        self.assertTrue(str(caught.exception).startswith(f"{method}: result{place}"), caught.exception)

    async def test_each_type_at_each_place(self):
        """Nothing but `InvalidResult`, and that with the place, where the type isn't one that may be there."""
        results, count = {}, 0
        async with joined(
            answering({method: lambda _, it=method: results[it] for method in CALLS}), ToolClient()
        ) as it:
            for method, (call, right, optional) in CALLS.items():
                for place, keys in places_of(right):
                    for odd in ODD:
                        results[method] = with_value(right, keys, odd)
                        with self.subTest(method, result=results[method]):
                            await self.check(call(it), place, keys, value_at(right, keys), odd, optional)
                        count += 1
        self.assertGreater(count, 1_500)

    async def check(self, call, place, keys, right, odd, optional):
        is_optional = place in optional or (keys and keys[-1] in optional) or right is None
        is_free = keys[:1] in (("capabilities",), ("_meta",), ("structuredContent",)) and len(keys) > 1
        try:
            await asyncio.wait_for(call, patience(20))
        except UnknownVersion:
            self.assertEqual((place, type(odd)), ("protocolVersion", str))
        except InvalidResult as fault:
            self.assertIn("result" + (f".{place}" if place else "")[:20], str(fault))
            self.assertFalse(is_free)
        else:
            is_right = is_free or is_allowed(place, right, odd) or (odd is None and is_optional)
            # (a cursor is a text; a part may be of a type that isn't known, and then it is anything)
            self.assertTrue(
                is_right or (right is None and isinstance(odd, str)) or place.endswith(".type"), (place, odd)
            )

    async def test_pages(self):
        asked = []

        def tools(params):
            asked.append(params)
            return {"tools": [], "nextCursor": str(len(asked))}

        with self.assertRaises(InvalidResult) as caught:
            async with joined(answering({"tools/list": tools}), ToolClient()) as client:
                await client.list_tools()
        self.assertEqual(
            str(caught.exception), "tools/list: there are more than 1,000 pages, so they may never end"
        )
        self.assertEqual(len(asked), 1_000)

    async def test_a_thousand_pages(self):
        def tools(params):
            page = int((params or {"cursor": "1"})["cursor"])
            about = {"tools": [{"name": str(page), "inputSchema": {}}]}
            return about if page == 1_000 else {**about, "nextCursor": str(page + 1)}

        async with joined(answering({"tools/list": tools}), ToolClient()) as client:
            self.assertEqual(len(await client.list_tools()), 1_000)

    async def test_random_ones(self):
        """Whatever a server answers, a call ends, with a result or an error of the package."""
        chance = random.Random(7)
        rights = [right for _, right, _ in CALLS.values()]

        def some(params):
            if chance.random() < 0.05:
                raise Error(chance.choice([1, -32603]), "no", chance.choice(ODD))
            right = chance.choice(rights)
            for _ in range(chance.randint(0, 3)):
                keys = chance.choice([keys for _, keys in places_of(right)])
                right = with_value(right, keys, chance.choice(ODD))
            return right

        async with joined(answering({method: some for method in CALLS}), ToolClient()) as client:
            for _ in range(1_000):
                method = chance.choice(list(CALLS))
                with self.subTest(method):
                    try:
                        await asyncio.wait_for(CALLS[method][0](client), patience(20))
                    except (InvalidResult, UnknownVersion, Error):
                        pass

    async def test_what_is_asked_of_a_host(self):
        """Params of a server's questions that aren't what they should be are -32602; the functions get none of them."""
        server, asked = Server(framing="lines"), []
        client = ToolClient(
            sampling=lambda params: asked.append(params),
            elicitation=lambda message, schema: asked.append(message),
        )
        async with joined(server, client):
            codes = []
            for method in ("sampling/createMessage", "elicitation/create"):
                for params in (
                    None,
                    [],
                    [1],
                    {},
                    {"messages": 5},
                    {"message": 5},
                    {"message": "a", "requestedSchema": 5},
                ):
                    try:
                        await server.session.call(method, params)
                    except Error as error:
                        codes.append(error.code)
            self.assertEqual((codes, asked), ([-32602] * 14, []))


class Hosts(Case):
    """What a host answers a tool's question."""

    async def test_wrong_ones(self):
        server = ToolServer("asks")

        @server.tool
        async def samples(context: Context):
            return await context.sample("?")

        @server.tool(thread=True)
        def elicits(context: Context):
            return context.elicit("?", {"type": "object"}).action

        @server.tool
        async def lists(context: Context):
            return await context.list_roots()

        rows = [
            ("samples", [], "sampling/createMessage: result must be an object, got array"),
            ("samples", {"role": "user", "model": "m"}, "sampling/createMessage: result lacks content"),
            (
                "samples",
                {"role": "user", "model": "m", "content": {"type": "text", "text": 1}},
                "sampling/createMessage: result.content.text must be a string, got integer",
            ),
            ("elicits", 5, "elicitation/create: result must be an object, got integer"),
            ("elicits", {}, "elicitation/create: result lacks action"),
            (
                "elicits",
                {"action": "maybe"},
                'elicitation/create: result.action must be "accept", "decline" or "cancel"',
            ),
            (
                "elicits",
                {"action": "accept", "content": 5},
                "elicitation/create: result.content must be an object",
            ),
            (
                "lists",
                {"roots": [{"uri": 5}]},
                "roots/list: result.roots[0].uri must be a string, got integer",
            ),
            ("lists", {}, "roots/list: result lacks roots"),
        ]
        for name, reply, words in rows:
            host = Host(sampling_createMessage=reply, elicitation_create=reply, roots_list=reply)
            with logged() as log, self.subTest(name, reply=reply):
                async with hosting(server, host, sampling={}, elicitation={}, roots={}):
                    result = await host.call("tools/call", {"name": name})
                self.assertTrue(result["isError"])
                self.assertTrue(result["content"][0]["text"].startswith(words), result)
                self.assertEqual(log.texts, [])
