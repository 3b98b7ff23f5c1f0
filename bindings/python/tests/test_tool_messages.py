"""Every message of each version of the Model Context Protocol, over lines and over HTTP: each that the specification as
data has is sent, and the judge finds nothing in it, by that version's rules and shapes."""
import asyncio

from asgi_server import served
from helping import Case, rows

from bullmyrtle.judge import Talk
from bullmyrtle.judge._tested import Tapped, joined_by
from bullmyrtle.judge._versions import MCP
from bullmyrtle.mcp import Context, ToolClient, ToolServer
from bullmyrtle.mcp._model import MODELS

#: What a host may send too, and this package's doesn't: its own requests are never tasks.
NOT_BY_CLIENTS = {"notifications/tasks/status"}
NOT_BY_SERVERS = {f"tasks/{it}" for it in ("get", "list", "result", "cancel")}
PAGE, FORM = "https://example.com/pay", {"type": "object", "properties": {"x": {"type": "number"}}}


def make_server():
    server = ToolServer("all", "1")
    server.resource("a://1", name="one")(lambda: "1")
    server.resource("a://x/{y}", name="some")(lambda y: y)
    server.prompt(name="hello")(lambda name: f"Hello {name}")
    server.completion("hello", "name")(lambda value: [value + "!"])

    @server.tool
    async def tells(context: Context) -> str:
        context.report_progress(1, 2, "half")
        context.error("e")
        server.resource_updated("a://1")
        server.tool(name="new")(lambda: None)
        server.resource("a://2")(lambda: "2")
        server.prompt(name="new")(lambda: "new")
        return "told"

    @server.tool
    async def asks(context: Context) -> str:
        await context.request.call("ping")
        await context.list_roots()
        meta = {"_meta": {"progressToken": "s"}}
        hello = [{"role": "user", "content": {"type": "text", "text": "Hello"}}]
        await context.request.call("sampling/createMessage", {"messages": hello, "maxTokens": 1, **meta})
        if context.version >= "2025-06-18":
            await context.elicit("How many?", FORM)
        if context.version >= "2025-11-25":
            await context.sample("Hello", tools=["later"], tool_choice="auto")
            await context.elicit_page("Pay", PAGE, "page")
            server.elicitation_complete("page")
        return "asked"

    @server.tool
    async def gives_up(context: Context) -> str:
        """Asks the model, which answers late, and doesn't wait for it."""
        asked = asyncio.ensure_future(context.sample("wait"))
        await server.is_asked.wait()
        asked.cancel()
        return "given up"

    @server.tool
    async def waits(context: Context) -> str:
        server.waiting.set()
        await asyncio.sleep(60)
        return "late"

    @server.tool(task="optional")
    async def later(context: Context) -> str:
        context.report_progress(1)
        return "later"

    return server


def make_client(version, server, **more):
    async def sampled(params):
        if params["messages"][0]["content"]["text"] == "wait":
            server.is_asked.set()
            await asyncio.sleep(60)
        token = params.get("_meta", {}).get("progressToken")
        if token is not None:
            client.notify("notifications/progress", {"progressToken": token, "progress": 1})
        return "Hello"

    client = ToolClient(
        versions=[version],
        sampling=sampled,
        sampling_tools=True,
        elicitation=lambda message, schema: {"x": 7},
        page=lambda message, url: True,
        roots=["file:///a"],
        log=lambda params: None,
        **more,
    )

    return client


async def say_all(client, server, version):
    """Each message that there is."""
    await client.send_ping()
    await client.set_logging_level("debug")
    await client.list_tools()
    await client.list_resources()
    await client.list_resource_templates()
    await client.list_prompts()
    await client.read_resource("a://1")
    await client.subscribe_resource("a://1")
    await client.get_prompt("hello", {"name": "Ann"})
    await client.complete({"type": "ref/prompt", "name": "hello"}, "name", "A")
    await client.call_tool("tells", progress=lambda *_: None)
    await client.call_tool("asks")
    client.roots_changed()
    await client.call_tool("gives_up")
    call = asyncio.ensure_future(client.call_tool("waits"))
    await server.waiting.wait()
    call.cancel()
    await asyncio.wait({call})
    await client.unsubscribe_resource("a://1")
    if version >= "2025-11-25":
        task = await client.call_tool_as_task("later", ttl=60)
        await task.refresh()
        await task.result()
        await client.list_tasks()
        other = await client.call_tool_as_task("waits_as_task")
        await other.cancel()
    await client.send_ping()


class Heard:
    """An application between a client and a server over HTTP, which hears the messages of both."""

    def __init__(self, app, told):
        self._app, self._told = app, told
        self.close = app.close

    async def __call__(self, scope, receive, send):
        body, rest, is_stream = [], b"", False

        async def hear():
            message = await receive()
            if message["type"] == "http.request" and scope["method"] == "POST":
                body.append(message.get("body", b""))
                if not message.get("more_body"):
                    self._told("client", b"".join(body))
            return message

        async def say(message):
            nonlocal rest, is_stream
            if message["type"] == "http.response.start":
                is_stream = (b"content-type", b"text/event-stream") in message["headers"]
            elif is_stream:
                *events, rest = (rest + message["body"]).split(b"\n\n")
                for event in events:
                    data = [it[6:] for it in event.split(b"\n") if it.startswith(b"data: ")]
                    if any(data):
                        self._told("server", b"\n".join(data))
            elif message["body"]:
                self._told("server", message["body"])
            await send(message)

        await self._app(scope, hear, say)


class Messages(Case):
    async def check(self, version, framing, talking):
        """Whether all was said, and whether the judge finds something."""
        talk, found, said = Talk(f"mcp:{version}", framing, shapes=True), [], set()

        def told(side, data):
            if data is None:
                found.extend(talk.ended(side))
                return
            found.extend(talk.saw(side, data))
            said.update(
                (side, entry.method) for it in talk.new for entry in it.message.entries if entry.method
            )

        server = make_server()

        @server.tool(task="required")
        async def waits_as_task() -> str:
            await asyncio.sleep(60)
            return "late"

        server.is_asked, server.waiting = asyncio.Event(), asyncio.Event()
        await talking(server, told)
        talk.close()
        self.assertEqual([(it.side, it.rule, it.level, it.words) for it in found], [])
        wanted = set()
        for method, (to, *_) in MODELS[version].methods.items():
            if to in ("server", "both") and method not in NOT_BY_CLIENTS:
                wanted.add(("client", method))
            if to in ("client", "both") and method not in NOT_BY_SERVERS:
                wanted.add(("server", method))
        self.assertEqual(wanted - said, set())
        self.assertEqual(said - wanted, set())

    @rows(MCP)
    async def test_lines(self, version):
        async def talking(server, told):
            client = make_client(version, server)
            async with joined_by(server, client, Tapped.pair_of(told)):
                await client.initialize()
                await say_all(client, server, version)

        await self.check(version, "lines", talking)

    @rows(MCP)
    async def test_http(self, version):
        async def talking(server, told):
            async with served(Heard(server.asgi(), told)) as it:
                async with make_client(version, server, url=it.url) as client:
                    await say_all(client, server, version)

        await self.check(version, "contents", talking)
