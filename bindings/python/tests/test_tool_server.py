"""A tool server and its host in memory: what version 2025-06-18 of the protocol has, by its sections, and older ones.

test_tool_versions.py has what differs from version to version.
"""
import asyncio
import base64
import contextlib
import dataclasses
import enum
import threading
import time
import typing

from helping import SECONDS, Case, joined, logged, patience, rows
from tool_wires import table

from bullmyrtle import Client, Error, InvalidParams, Server, mcp
from bullmyrtle._signatures.checker import CHECKED, Checker
from bullmyrtle.mcp import Context, Image, ToolClient, ToolResult, ToolServer

PIXEL = b"\x89PNG"


class Host(Client):
    """A plain client that keeps what it is told, for the messages as they are on the wire."""

    def __init__(self, **replies):
        super().__init__(framing="lines")
        self.told, self.asked, self.replies = [], [], replies
        self.fallback(self.came)
        self.method("notifications/cancelled")(
            lambda params: self.told.append(("notifications/cancelled", params))
        )

    def came(self, params, request):
        if request.is_notification:
            self.told.append((request.method, params))
            return None
        self.asked.append((request.method, params))
        reply = self.replies.get(request.method.replace("/", "_"))
        if isinstance(reply, Error):
            raise reply
        return reply(params) if callable(reply) else reply

    def of(self, method):
        return [params for name, params in self.told if name == method]

    async def begin(self, version="2025-06-18", **capabilities):
        about = {"protocolVersion": version, "capabilities": capabilities}
        result = await self.call("initialize", {**about, "clientInfo": {"name": "host", "version": "1"}})
        self.notify("notifications/initialized")
        return result


@contextlib.asynccontextmanager
async def hosting(server, host=None, version="2025-06-18", **capabilities):
    host = host or Host()
    async with joined(server, host):
        host.begun = await host.begin(version, **capabilities)
        await host.call("ping")
        yield host


async def fault_of(call):
    try:
        return await call
    except Error as error:
        return error.code, error.message


class Life(Case):
    """basic/lifecycle, basic/utilities/ping"""

    @rows(
        [
            ("2025-11-25", "2025-11-25"),
            ("2025-06-18", "2025-06-18"),
            ("2025-03-26", "2025-03-26"),
            ("2024-11-05", "2024-11-05"),
            ("2030-01-01", "2025-11-25"),
        ]
    )
    async def test_versions(self, asked, agreed):
        server = ToolServer("words", title="Words")
        async with hosting(server, version=asked) as host:
            self.assertEqual(host.begun["protocolVersion"], agreed)
            self.assertEqual("title" in host.begun["serverInfo"], agreed >= "2025-06-18")

    def test_what_is_no_setting(self):
        for bad in ({"versions": ["2020-01-01"]}, {"versions": []}, {"page_size": 0}):
            with self.assertRaises(ValueError):
                ToolServer("words", **bad)
        with self.assertRaises(TypeError):
            ToolServer("words", nothing=1)


class Color(enum.Enum):
    RED = "red"
    BLUE = "blue"


@dataclasses.dataclass
class Point:
    x: float
    y: float = 0.0


@dataclasses.dataclass
class Tree:
    name: str
    parts: typing.List["Tree"] = dataclasses.field(default_factory=list)


def wrapped(schema):
    return {"type": "object", "properties": {"result": schema}, "required": ["result"]}


class Schemas(Case):
    """server/tools: inputSchema, outputSchema"""

    async def tool_of(self, function, version="2025-06-18", **options):
        server = ToolServer("schemas")
        server.tool(**options)(function)
        async with hosting(server, version=version) as host:
            return (await host.call("tools/list"))["tools"][0]

    async def test_of_annotations(self):
        def everything(
            text: str,
            count: int,
            size: float,
            sure: bool,
            words: typing.List[str],
            table: typing.Dict[str, int],
            color: Color,
            kind: typing.Literal["a", "b"],
            point: Point,
            maybe: typing.Optional[int] = None,
            anything=3,
        ):
            """Does everything.

            Args:
                text: the text,
                    in two lines
                count (int): how many
            """

        tool = await self.tool_of(everything)
        self.assertEqual((tool["name"], tool["description"]), ("everything", "Does everything."))
        schema = tool["inputSchema"]
        point = {
            "type": "object",
            "properties": {"x": {"type": "number"}, "y": {"type": "number", "default": 0.0}},
            "required": ["x"],
        }
        self.assertEqual(
            schema,
            {
                "type": "object",
                "properties": {
                    "text": {"type": "string", "description": "the text, in two lines"},
                    "count": {"type": "integer", "description": "how many"},
                    "size": {"type": "number"},
                    "sure": {"type": "boolean"},
                    "words": {"type": "array", "items": {"type": "string"}},
                    "table": {"type": "object", "additionalProperties": {"type": "integer"}},
                    "color": {"type": "string", "enum": ["red", "blue"]},
                    "kind": {"type": "string", "enum": ["a", "b"]},
                    "point": {"$ref": "#/$defs/Point"},
                    "maybe": {"anyOf": [{"type": "integer"}, {"type": "null"}], "default": None},
                    "anything": {"default": 3},
                },
                "required": ["text", "count", "size", "sure", "words", "table", "color", "kind", "point"],
                "additionalProperties": False,
                "$defs": {"Point": point},
            },
        )

    async def test_two_classes_of_one_name(self):
        @dataclasses.dataclass
        class Point:
            z: str

        first = globals()["Point"]

        def function(one, other):
            return f"{one.x} {other.z}"

        function.__annotations__.update(one=first, other=Point)
        schema = (await self.tool_of(function))["inputSchema"]
        self.assertEqual(schema["properties"]["one"], {"$ref": "#/$defs/Point"})
        self.assertEqual(schema["properties"]["other"], {"$ref": "#/$defs/Point2"})
        self.assertEqual(sorted(schema["$defs"]["Point2"]["properties"]), ["z"])

    async def test_of_a_class_in_itself(self):
        def count(tree: Tree) -> int:
            return 1 + sum(count(it) for it in tree.parts)

        server = ToolServer("trees")
        server.tool(count)
        async with hosting(server) as host:
            tree = {"name": "a", "parts": [{"name": "b"}, {"name": "c", "parts": [{"name": "d"}]}]}
            result = await host.call("tools/call", {"name": "count", "arguments": {"tree": tree}})
            self.assertEqual(result["structuredContent"], {"result": 4})
            tree["parts"][1]["parts"][0]["name"] = 5
            fault = await fault_of(host.call("tools/call", {"name": "count", "arguments": {"tree": tree}}))
            self.assertIn("arguments.tree.parts[1].parts[0].name", fault[1])

    @rows(
        [
            *((kind, None) for kind in (str, None, typing.Any, Image, typing.List[Image], ToolResult)),
            (int, wrapped({"type": "integer"})),
            (typing.List[int], wrapped({"type": "array", "items": {"type": "integer"}})),
            (typing.Dict[str, int], {"type": "object", "additionalProperties": {"type": "integer"}}),
            (dict, {"type": "object"}),
        ]
    )
    async def test_of_results(self, kind, expected):
        def function():
            pass

        function.__annotations__["return"] = kind
        self.assertEqual((await self.tool_of(function)).get("outputSchema"), expected)
        self.assertNotIn("outputSchema", await self.tool_of(function, version="2025-03-26"))

    async def test_given_by_hand(self):
        schema = {"type": "object", "properties": {"n": {"type": "integer", "minimum": 1}}}
        options = {
            "title": "T",
            "description": "D",
            "annotations": {"readOnlyHint": True},
            "input_schema": schema,
        }
        tool = await self.tool_of(lambda arguments: str(arguments), name="it", **options)
        expected = {"name": "it", "title": "T", "description": "D", "annotations": {"readOnlyHint": True}}
        self.assertEqual(tool, {**expected, "inputSchema": schema})
        older = await self.tool_of(lambda arguments: str(arguments), "2024-11-05", name="it", **options)
        self.assertEqual(older, {"name": "it", "description": "D", "inputSchema": schema})

    @rows([bytearray, complex, typing.Callable[[], int], [int]])
    def test_what_has_none(self, kind):
        def function(a):
            pass

        function.__annotations__["a"] = kind
        with self.assertRaisesRegex(TypeError, "'a'"):
            ToolServer("s").tool(function)

    def test_parameters_without_names_have_none(self):
        with self.assertRaises(TypeError):
            ToolServer("s").tool(lambda *many: None)

    # Words of JSON Schema, with values that each allows and forbids (draft 2020-12, validation vocabulary).
    WORDS = [tuple(it) for it in table("schemas")["words"]]

    @rows(WORDS)
    def test_the_words(self, schema, allowed, forbidden):
        check = Checker(schema)
        for value in allowed:
            check(value, "it")
        for value in forbidden:
            with self.assertRaises(InvalidParams, msg=value):
                check(value, "it")

    def test_each_word_has_a_row(self):
        self.assertEqual({word for schema, *_ in self.WORDS for word in schema} - {"$defs"}, set(CHECKED))


class Tools(Case):
    """server/tools: tools/call"""

    async def called(self, server, name, arguments=None, host=None, version="2025-06-18", meta=None):
        async with hosting(server, host, version) as it:
            params = {"name": name, **({} if arguments is None else {"arguments": arguments})}
            call = it.call("tools/call", {**params, **({} if meta is None else {"_meta": meta})})
            result = await fault_of(call)
            await asyncio.sleep(0.02)
            return result

    def server(self):
        server = ToolServer("tools")

        @server.tool
        def join(
            words: typing.List[str], point: typing.Optional[Point] = None, color: Color = Color.RED
        ) -> str:
            return " ".join(words) + (f" {point.x}" if point else "") + f" {color.value}"

        @server.tool
        async def later(seconds: float = 0) -> str:
            await asyncio.sleep(seconds)
            return "late"

        @server.tool(thread=True)
        def threaded() -> bool:
            return threading.current_thread() is not threading.main_thread()

        return server

    @rows(
        [
            ("join", {"words": ["a", "b"]}, "a b red"),
            ("join", {"words": [], "point": {"x": 1}, "color": "blue"}, " 1 blue"),
            ("later", None, "late"),
            ("threaded", {}, "true"),
        ]
    )
    async def test_each_kind(self, name, arguments, text):
        self.assertEqual(
            (await self.called(self.server(), name, arguments))["content"], [{"type": "text", "text": text}]
        )

    @rows(
        [
            ({}, "arguments lacks words"),
            ({"words": "a"}, "arguments.words must be an array, got string"),
            ({"words": ["a", 7]}, "arguments.words[1] must be a string, got integer"),
            ({"words": [], "more": 1}, 'arguments has a member "more", which isn\'t allowed'),
            ({"words": [], "color": "green"}, 'arguments.color must be "red" or "blue", got "green"'),
            ({"words": [], "point": {"x": "1"}}, "arguments.point.x must be a number, got string"),
        ]
    )
    async def test_wrong_arguments(self, arguments, words):
        fault = await self.called(self.server(), "join", arguments)
        self.assertEqual(fault, (-32602, f"Invalid params: {words}"))

    async def test_it_raises_what_nobody_meant(self):
        server = ToolServer("tools")
        server.tool(name="unmeant")(lambda: {}["x"])
        with logged() as log:
            self.assertEqual(
                await self.called(server, "unmeant"),
                {"content": [{"type": "text", "text": "KeyError: 'x'"}], "isError": True},
            )
        self.assertEqual(len(log.texts), 1)

    async def test_results(self):
        server = ToolServer("tools")
        image = {"type": "image", "data": base64.b64encode(PIXEL).decode(), "mimeType": "image/png"}
        server.tool(name="image")(lambda: Image(PIXEL, mime_type="image/png"))
        embedded = mcp.EmbeddedResource("x:1", "t")
        server.tool(name="hand")(lambda: ToolResult([embedded], {"a": 1}, True, {"m": 1}))

        @server.tool
        def point() -> Point:
            return Point(1.5)

        @server.tool
        def broken() -> int:
            return "not a number"

        self.assertEqual(await self.called(server, "image"), {"content": [image]})
        part = {"type": "resource", "resource": {"uri": "x:1", "mimeType": "text/plain", "text": "t"}}
        hand = {"content": [part], "structuredContent": {"a": 1}, "isError": True, "_meta": {"m": 1}}
        self.assertEqual(await self.called(server, "hand"), hand)
        result = await self.called(server, "point")
        self.assertEqual(result["structuredContent"], {"x": 1.5, "y": 0.0})
        self.assertEqual(result["content"], [{"type": "text", "text": '{"x":1.5,"y":0.0}'}])
        with logged() as log:
            result = await self.called(server, "broken")
        self.assertTrue(result["isError"])
        self.assertIn("the result.result must be an integer, got string", result["content"][0]["text"])
        self.assertEqual(len(log.texts), 1)

    async def test_progress_of_a_thread(self):
        server, host = ToolServer("tools"), Host()
        server.tool(name="work", thread=True)(lambda ctx: ctx.report_progress(0.5))
        await self.called(server, "work", host=host, meta={"progressToken": 7})
        self.assertEqual(host.of("notifications/progress"), [{"progressToken": 7, "progress": 0.5}])

    @rows(["waits", "looks"])
    async def test_it_is_cancelled(self, name):
        """There is no answer, and nothing of it is left."""
        server, began, ended = ToolServer("tools"), [], []

        @server.tool
        async def waits():
            began.append("waits")
            try:
                await asyncio.sleep(60)
            finally:
                ended.append("waits")

        @server.tool(thread=True)
        def looks(context: Context):
            began.append("looks")
            while not context.is_cancelled:
                time.sleep(0.001)
            ended.append("looks")

        async with hosting(server) as host:
            call = host.call("tools/call", {"name": name, "arguments": {}})
            # (a thread may begin late, and one that has not begun never does)
            await self.until(lambda: began)
            host.notify("notifications/cancelled", {"requestId": call.key, "reason": "no longer"})
            await host.call("ping")
            self.assertFalse(call.done())
            await self.until(lambda: ended == [name])
            counts = server.session._transport.connection.counts()
            self.assertEqual((counts.open, counts.waiting), (0, 0))

    async def test_time_limits(self):
        server, ended = ToolServer("tools"), []

        @server.tool(timeout=0.05)
        async def waits(seconds: float):
            try:
                await asyncio.sleep(seconds)
            finally:
                ended.append("waits")
            return "in time"

        @server.tool(thread=True, timeout=0.05)
        def looks(context: Context):
            while not context.is_cancelled:
                time.sleep(0.001)

        self.assertEqual(
            (await self.called(server, "waits", {"seconds": 0}))["content"][0]["text"], "in time"
        )
        late = [{"type": "text", "text": "The tool took longer than 0.05 seconds"}]
        with logged():
            for name, arguments in (("waits", {"seconds": 60}), ("looks", {})):
                self.assertEqual(
                    await self.called(server, name, arguments), {"content": late, "isError": True}
                )
        self.assertEqual(ended, ["waits", "waits"])

    async def test_what_never_ends(self):
        server = ToolServer("tools", grace=0.1)
        go_on = threading.Event()
        server.tool(name="never", thread=True, timeout=0.05)(lambda: go_on.wait(SECONDS))
        with logged():
            async with hosting(server) as host:
                start = time.monotonic()
                self.assertTrue((await host.call("tools/call", {"name": "never"}))["isError"])
                self.assertEqual(await host.call("ping"), {})
                self.assertLess(time.monotonic() - start, patience(5))
                go_on.set()

    async def test_middleware(self):
        server, seen = self.server(), []

        @server.middleware
        def watch(request, params):
            if request.method == "tools/call" and params["name"] == "later":
                raise Error(-32000, "forbidden")
            result = yield
            seen.append((request.method, result))

        self.assertEqual(await self.called(server, "later"), (-32000, "forbidden"))
        self.assertIn(("tools/call", await self.called(server, "threaded")), seen)

    def test_a_name_twice(self):
        server = self.server()
        with self.assertRaises(ValueError):
            server.tool(name="join")(lambda: None)
        server.remove_tool("join")
        server.tool(name="join")(lambda: None)


class Resources(Case):
    """server/resources"""

    async def test_they_are_listed_and_read_by_a_tool(self):
        server = ToolServer("resources")

        @server.resource("config://app", title="Settings", mime_type="text/x-settings")
        def config():
            """The settings."""
            return "a=1"

        @server.resource("notes://{name}")
        def note(name, context: Context):
            return {"name": name, "version": context.version}

        @server.tool
        async def reads(uri: str, context: Context) -> str:
            return (await context.read_resource(uri))[0]["text"]

        @server.resource("data://pixel")
        async def pixel():
            return PIXEL

        async with hosting(server) as host:
            about = {"name": "config", "title": "Settings", "description": "The settings."}
            first = {"uri": "config://app", **about, "mimeType": "text/x-settings"}
            second = {"uri": "data://pixel", "name": "pixel"}
            self.assertEqual((await host.call("resources/list"))["resources"], [first, second])
            blob = {"mimeType": "application/octet-stream", "blob": base64.b64encode(PIXEL).decode()}
            found = (await host.call("resources/read", {"uri": "data://pixel"}))["contents"]
            self.assertEqual(found, [{"uri": "data://pixel", **blob}])
            words = '{"name":"a","version":"2025-06-18"}'
            for uri, text in (("config://app", "a=1"), ("notes://a", words)):
                self.assertEqual(
                    (await host.call("tools/call", {"name": "reads", "arguments": {"uri": uri}}))["content"][
                        0
                    ]["text"],
                    text,
                )

    async def test_subscriptions(self):
        server = ToolServer("resources")
        server.resource("a://1")(lambda: "1")
        async with hosting(server) as host, hosting(server) as other:
            self.assertEqual(await host.call("resources/subscribe", {"uri": "a://1"}), {})
            self.assertEqual((await fault_of(host.call("resources/subscribe", {"uri": "b"})))[0], -32002)
            server.resource_updated("a://1")
            server.resource_updated("a://2")
            self.assertEqual(await host.call("resources/unsubscribe", {"uri": "a://1"}), {})
            server.resource_updated("a://1")
            server.resource("a://3")(lambda: "3")
            server.remove_resource("a://3")
            await asyncio.gather(host.call("ping"), other.call("ping"))
            self.assertEqual(host.of("notifications/resources/updated"), [{"uri": "a://1"}])
            self.assertEqual(other.of("notifications/resources/updated"), [])
            self.assertEqual(len(other.of("notifications/resources/list_changed")), 2)

    @rows([("a://{x}", lambda: 1), ("a://1", lambda x: 1)])
    def test_what_does_not_fit(self, uri, function):
        server = ToolServer("resources")
        with self.assertRaises(TypeError):
            server.resource(uri)(function)


class Prompts(Case):
    """server/prompts, server/utilities/completion"""

    async def test_what_is_listed(self):
        server = ToolServer("prompts")

        @server.prompt(title="Review")
        def review(code: str, language: str = "python"):
            """Reviews code.

            Args:
                code: what to review
            """

        @server.prompt
        async def talk():
            return "Hello"

        async with hosting(server) as host:
            message = {"role": "user", "content": {"type": "text", "text": "Hello"}}
            self.assertEqual(await host.call("prompts/get", {"name": "talk"}), {"messages": [message]})
            self.assertEqual(host.begun["capabilities"]["prompts"], {"listChanged": True})
            arguments = [{"name": "code", "description": "what to review", "required": True}]
            arguments.append({"name": "language", "required": False})
            about = {"name": "review", "title": "Review", "description": "Reviews code."}
            self.assertEqual(
                (await host.call("prompts/list"))["prompts"],
                [{**about, "arguments": arguments}, {"name": "talk"}],
            )

    async def test_many_completions(self):
        server = ToolServer("prompts")
        server.prompt(name="review")(lambda code: code)

        @server.completion("review", "code")
        async def codes(value, arguments):
            return [f"{arguments.get('language')} {it}" for it in range(150)]

        async with hosting(server) as host:
            about = {
                "ref": {"type": "ref/prompt", "name": "review"},
                "argument": {"name": "code", "value": ""},
            }
            about["context"] = {"arguments": {"language": "perl"}}
            many = (await host.call("completion/complete", about))["completion"]
            self.assertEqual((len(many["values"]), many["total"], many["hasMore"]), (100, 150, True))
            self.assertEqual(many["values"][0], "perl 0")


class Asking(Case):
    """client/sampling, client/elicitation, client/roots, server/utilities/logging"""

    async def test_what_the_host_is_asked(self):
        server = ToolServer("asks")

        @server.tool
        async def asks(context: Context):
            user = await context.elicit("Which one?", Point)
            return [user.action, user.content]

        @server.tool(thread=True)
        def asks_in_thread(context: Context):
            return [context.sample(["a"])["role"], context.elicit("b", {"type": "object"}).action]

        model = {"role": "assistant", "model": "m", "content": {"type": "text", "text": "Ys"}}
        host = Host(
            sampling_createMessage=model, elicitation_create={"action": "accept", "content": {"x": 1}}
        )
        async with hosting(server, host, sampling={}, elicitation={}):
            for name, text in (("asks", '["accept",{"x":1}]'), ("asks_in_thread", '["assistant","accept"]')):
                self.assertEqual((await host.call("tools/call", {"name": name}))["content"][0]["text"], text)
        properties = {"x": {"type": "number"}, "y": {"type": "number", "default": 0.0}}
        schema = {"type": "object", "properties": properties, "required": ["x"]}
        asked = {"message": "Which one?", "requestedSchema": schema}
        self.assertEqual(host.asked[0], ("elicitation/create", asked))

    async def test_what_can_not_be_elicited(self):
        """Only texts, numbers, booleans and choices of them, side by side."""
        server = ToolServer("asks")

        @server.tool
        async def asks(context: Context):
            await context.elicit("?", Tree)

        @dataclasses.dataclass
        class Wish:
            size: int
            color: Color = Color.RED
            sure: bool = False

        @server.tool
        async def wishes(context: Context):
            await context.elicit("?", Wish)

        host = Host(elicitation_create={"action": "cancel"})
        with logged():
            async with hosting(server, host, elicitation={}):
                result = await host.call("tools/call", {"name": "asks"})
                self.assertTrue(result["isError"])
                self.assertIn("parts", result["content"][0]["text"])
                await host.call("tools/call", {"name": "wishes"})
        ((_, params),) = host.asked
        color = {"type": "string", "enum": ["red", "blue"], "default": "red"}
        properties = {
            "size": {"type": "integer"},
            "color": color,
            "sure": {"type": "boolean", "default": False},
        }
        schema = {"type": "object", "properties": properties, "required": ["size"]}
        self.assertEqual(params["requestedSchema"], schema)

    async def test_logging(self):
        server = ToolServer("logs")
        server.tool(name="logs")(lambda context: context.debug("a"))
        async with hosting(server) as host:
            self.assertEqual(await host.call("logging/setLevel", {"level": "error"}), {})
            server.log("info", "c")
            await host.call("tools/call", {"name": "logs"})
            server.log("emergency", "d")
            await host.call("ping")
            told = host.of("notifications/message")
            self.assertEqual(told, [{"level": "emergency", "data": "d"}])
            with self.assertRaises(ValueError):
                server.log("loud", "x")


class Hosts(Case):
    """What a `ToolClient` does with a server."""

    async def test_a_whole_session(self):
        server = ToolServer("words", "1", page_size=2)
        told = []

        @server.tool
        async def count(text: str, context: Context) -> int:
            words = text.split()
            for at, _ in enumerate(words, 1):
                context.report_progress(at, len(words))
            context.info("counted")
            return len(words)

        @server.tool
        async def title(text: str, context: Context) -> str:
            reply = await context.sample(f"A title for {text}")
            said = await context.elicit("Take it?", {"type": "object", "properties": {}})
            roots = await context.list_roots()
            return f"{reply['content']['text']} {said.action} {roots[0]['uri']}"

        @server.tool
        async def waits():
            await asyncio.sleep(60)

        server.resource("a://1")(lambda: "one")
        server.resource("b://{x}")(lambda x: x)
        server.prompt(name="hello")(lambda name: f"Hello {name}")
        server.completion("hello", "name")(lambda value: [value + "!"])
        client = ToolClient(
            sampling=lambda params: "Flowers",
            elicitation=lambda message, schema: {},
            roots=["file:///work"],
            log=told.append,
        )
        async with joined(server, client):
            about = await client.initialize()
            self.assertEqual((about["serverInfo"]["name"], client.protocol_version), ("words", "2025-11-25"))
            names = [it["name"] for it in await client.list_tools()]
            self.assertEqual(names, ["count", "title", "waits"])
            reached = []
            result = await client.call_tool(
                "count", {"text": "a b c"}, progress=lambda *it: reached.append(it)
            )
            self.assertEqual((result.text, result.structured, result.is_error), ("3", {"result": 3}, False))
            self.assertEqual(reached, [(1, 3, None), (2, 3, None), (3, 3, None)])
            self.assertEqual(told, [{"level": "info", "data": "counted"}])
            self.assertEqual(
                (await client.call_tool("title", {"text": "roses"})).text, "Flowers accept file:///work"
            )
            with self.assertRaises(asyncio.TimeoutError):
                await asyncio.wait_for(client.call_tool("waits"), 0.05)
            with self.assertRaises(Error):
                await client.call_tool("nothing")
            self.assertEqual([it["uri"] for it in await client.list_resources()], ["a://1"])
            self.assertEqual(len(await client.list_resource_templates()), 1)
            self.assertEqual((await client.read_resource("b://x"))[0]["text"], "x")
            await client.subscribe_resource("a://1")
            await client.unsubscribe_resource("a://1")
            self.assertEqual([it["name"] for it in await client.list_prompts()], ["hello"])
            prompt = await client.get_prompt("hello", {"name": "Ys"})
            self.assertEqual(prompt["messages"][0]["content"]["text"], "Hello Ys")
            ref = {"type": "ref/prompt", "name": "hello"}
            self.assertEqual((await client.complete(ref, "name", "a"))["values"], ["a!"])
            await client.set_logging_level("error")
            await client.send_ping()
            client.roots_changed(["file:///other"])

    async def test_pages_that_go_round(self):
        server = Server(framing="lines")
        server.method("tools/list")(lambda params: {"tools": [], "nextCursor": "again"})
        async with joined(server, ToolClient()) as client:
            with self.assertRaises(ValueError):
                await client.list_tools()

    def test_a_version_that_is_not_known(self):
        server = ToolServer("old", versions=["2024-11-05"])

        async def main(**more):
            client = ToolClient(**more)
            async with joined(server, client):
                await client.initialize()
                return client.protocol_version

        self.assertEqual(self.wait(main()), "2024-11-05")
        with self.assertRaises(mcp.UnknownVersion):
            self.wait(main(versions=["2025-06-18"]))

    async def test_a_user_that_declines(self):
        server = ToolServer("asks")

        @server.tool
        async def asks(context: Context):
            said = await context.elicit("?", {"type": "object", "properties": {}})
            reply = await context.sample("?")
            return f"{said.action} {reply}"

        client = ToolClient(sampling=lambda params: None, elicitation=lambda message, schema: None)
        async with joined(server, client):
            await client.initialize()
            result = await client.call_tool("asks")
        self.assertEqual((result.is_error, result.text), (True, "User rejected sampling request"))
