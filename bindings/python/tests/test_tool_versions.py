"""The four versions of the Model Context Protocol, message by message: what each has of what the newest one has."""
import copy
import warnings

from helping import Case, joined, logged, rows
from test_tool_server import Host, fault_of, hosting
from tool_wires import table, talking

from bullmyrtle import InvalidParams
from bullmyrtle.mcp import Audio, Context, Icon, Image, ResourceLink, ToolClient, ToolServer

VERSIONS = ["2024-11-05", "2025-03-26", "2025-06-18", "2025-11-25"]
TABLE = table("versions")
#: The version that has a member of a message first; the table of docs/language_servers.md.
SINCE = TABLE["since"]
#: What the newest version is answered to initialize, and to each request.
INITIALIZED, ANSWERS = TABLE["initialized"], TABLE["answers"]


def older(message, version):
    """What a version has of a message of the newest one."""
    made = copy.deepcopy(message)
    for path, since in SINCE.items():
        if version < since:
            *outer, name = path.split(".")
            inner = made
            for it in outer:
                inner = inner.get(it, {})
            for it in inner if isinstance(inner, list) else [inner]:
                it.pop(name, None)
    return made


def make_server():
    icon = Icon("https://example.com/a.png", "image/png", ["48x48"], "dark")
    shown = {"title": "T", "icons": [icon]}
    server = ToolServer(
        "s", "1", description="About", website="https://example.com", instructions="I", **shown
    )

    @server.tool(description="D", annotations={"readOnlyHint": True}, **shown)
    def count(text: str) -> int:
        return len(text.split())

    server.resource("a://1", name="one", mime_type="a/b", **shown)(lambda: "1")
    server.resource("a://x/{y}", name="some", **shown)(lambda y: y)
    server.prompt(name="hello", **shown)(lambda name: f"Hello {name}")
    server.completion("hello", "name")(lambda value: [value + "!"])
    return server


class Messages(Case):
    """Each request of each version, and its whole answer."""

    @rows(VERSIONS)
    async def test_answers(self, version):
        async with hosting(make_server(), version=version) as host:
            begun = {"protocolVersion": version, **older(INITIALIZED, version)}
            self.assertEqual(host.begun, begun)
            for method, params, answer in ANSWERS:
                with self.subTest(version, method=method):
                    self.assertEqual(await host.call(method, params), older(answer, version))

    async def test_parts(self):
        """Sounds are there since 2025-03-26, links since 2025-06-18, and their icons since 2025-11-25."""
        link = ResourceLink("a://1", "one", title="T", icons=[Icon("data:image/png;base64,")])
        server = ToolServer("parts")
        server.tool(name="parts")(
            lambda: ["t", Image(b"i", mime_type="a/b"), Audio(b"s", mime_type="a/c"), link]
        )
        sound = {"type": "audio", "data": "cw==", "mimeType": "a/c"}
        linked = {"type": "resource_link", "uri": "a://1", "name": "one", "title": "T"}
        for version in VERSIONS:
            expected = [{"type": "text", "text": "t"}, {"type": "image", "data": "aQ==", "mimeType": "a/b"}]
            words = {"type": "text", "text": "(audio of type a/c, 1 bytes)"}
            expected.append(words if version < "2025-03-26" else sound)
            if version < "2025-06-18":
                expected.append({"type": "text", "text": "one: a://1"})
            else:
                icons = {"icons": [{"src": "data:image/png;base64,"}]} if version >= "2025-11-25" else {}
                expected.append({**linked, **icons})
            with self.subTest(version):
                async with hosting(server, version=version) as host:
                    self.assertEqual(await host.call("tools/call", {"name": "parts"}), {"content": expected})

    @rows(VERSIONS)
    async def test_notifications(self, version):
        """What the server says without being asked: a message of progress has its words since 2025-03-26."""
        server = make_server()

        @server.tool
        def told(context: Context):
            context.report_progress(1, 2, "half")
            context.error("e")
            server.resource_updated("a://1")
            server.remove_prompt("hello")

        host = Host()
        async with hosting(server, host, version):
            await host.call("resources/subscribe", {"uri": "a://1"})
            await host.call("tools/call", {"name": "told", "_meta": {"progressToken": 1}})
            await host.call("ping")
        progress = {"progressToken": 1, "progress": 1, "total": 2}
        words = {"message": "half"} if version >= "2025-03-26" else {}
        expected = [
            ("notifications/progress", {**progress, **words}),
            ("notifications/message", {"level": "error", "data": "e"}),
            ("notifications/resources/updated", {"uri": "a://1"}),
            ("notifications/prompts/list_changed", None),
        ]
        self.assertEqual(host.told, expected)

    async def test_wrong_arguments(self):
        """Since 2025-11-25 a result that the model reads; -32602 before, and for an unknown tool or no object always."""
        server = make_server()

        @server.tool
        def odd(text: str):
            raise InvalidParams("odd")

        @server.tool
        async def later(text: str):
            raise InvalidParams("odd")

        server.tool(name="thread", thread=True)(odd)
        wrong = "Invalid params: arguments.text must be a string, got integer"
        for version in VERSIONS:
            with self.subTest(version), logged() as log:
                async with hosting(server, version=version) as host:
                    for name in ("count", "odd", "later", "thread"):
                        for text, words in ((7, wrong), ("a", "odd")):
                            if (name, text) == ("count", "a"):
                                continue
                            found = await fault_of(
                                host.call("tools/call", {"name": name, "arguments": {"text": text}})
                            )
                            if version >= "2025-11-25":
                                content = [{"type": "text", "text": words}]
                                self.assertEqual(found, {"content": content, "isError": True})
                            else:
                                self.assertEqual(found, (-32602, words))
                    for params in ({"name": "none"}, {"name": "count", "arguments": [1]}, {"name": 5}, {}):
                        self.assertEqual((await fault_of(host.call("tools/call", params)))[0], -32602)
                    for method, params in (
                        ("prompts/get", {"name": "hello"}),
                        ("resources/read", {"uri": 5}),
                    ):
                        self.assertEqual((await fault_of(host.call(method, params)))[0], -32602)
            self.assertEqual(log.texts, [])

    @rows(VERSIONS)
    async def test_wrong_params(self, version):
        """What a session begins with, and a list, is answered -32602 where its params are wrong, in each version; and
        the session can still begin."""
        about = {"protocolVersion": version, "capabilities": {}, "clientInfo": {"name": "h", "version": "1"}}
        wrong = [None, [], {}, {**about, "protocolVersion": 20251125}]
        for name in about:
            wrong += [{it: value for it, value in about.items() if it != name}]
            wrong += [{**about, name: it} for it in (None, [], 7)]
        async with talking(make_server(), begin=False) as talk:
            for params in wrong:
                with self.subTest(version, params=params):
                    self.assertEqual((await talk.ask("initialize", params))["error"]["code"], -32602)
                    early = await talk.ask("tools/list")
                    self.assertEqual(early["error"]["code"], -32600)
            self.assertEqual((await talk.ask("initialize", about))["result"]["protocolVersion"], version)
            for what in ("tools", "prompts", "resources", "resources/templates"):
                with self.subTest(version, list=what):
                    refused = await talk.ask(f"{what}/list", [])
                    self.assertEqual(refused["error"]["code"], -32602)
                    self.assertIn("result", await talk.ask(f"{what}/list", {}))
                    self.assertIn("result", await talk.ask(f"{what}/list"))

    @rows(VERSIONS)
    async def test_a_client_and_a_server(self, asked):
        """Each pair agrees on the version that the client asks for, or else on the server's newest."""
        for has in VERSIONS:
            server, client = ToolServer("s", versions=[has]), ToolClient(versions=[asked, *VERSIONS])
            async with joined(server, client):
                await client.initialize()
                self.assertEqual(client.protocol_version, has)

    @rows(VERSIONS)
    async def test_what_a_client_says_of_itself(self, version):
        icon = Icon("https://example.com/a.png")
        shown = {"title": "T", "description": "D", "icons": [icon], "website": "https://example.com"}
        more = {
            "title": "T",
            "description": "D",
            "icons": [{"src": icon.src}],
            "websiteUrl": "https://example.com",
        }
        server, seen = ToolServer("s"), []

        @server.middleware
        def watch(request, params):
            seen.append(params)
            yield

        async with joined(server, ToolClient(name="c", version="2", versions=[version], **shown)) as client:
            await client.initialize()
        expected = {"name": "c", "version": "2"}
        expected.update({} if version < "2025-06-18" else {"title": "T"} if version < "2025-11-25" else more)
        self.assertEqual(seen[0]["clientInfo"], expected)


class Registered(Case):
    """What a program says when it registers something."""

    async def test_names_of_tools(self):
        for name in ("a", "a_b-c.X9", "a" * 128):
            with warnings.catch_warnings():
                warnings.simplefilter("error")
                ToolServer("s").tool(name=name)(lambda: None)
        for name in ("", "a b", "a/b", "\u00e9", "a" * 129, "a\n"):
            server = ToolServer("s")
            with self.subTest(name), self.assertWarns(UserWarning) as caught:
                # (of no name, the function's own is taken)
                server.tool(name=name or "<lambda>")(lambda: None)
            self.assertIn("letters, digits, and _ - . are what hosts take", str(caught.warning))
            self.assertEqual(caught.filename, __file__)
            async with talking(server) as talk:
                answer = await talk.ask("tools/call", {"name": name or "<lambda>"})
                self.assertEqual(answer["result"], {"content": []})

    @rows([{"src": "file:///a.png"}, {"src": "javascript:0"}, {"src": "data:", "theme": "blue"}])
    def test_icons(self, bad):
        with self.assertRaises(ValueError):
            Icon(**bad)
