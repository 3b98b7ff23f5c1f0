"""The tool server of the sessions in tool_rows/, in Python; tool_server.mjs is the same in JavaScript."""
import asyncio
import json
import sys

from bullmyrtle import Error, InvalidParams
from bullmyrtle.mcp import (
    Audio,
    Context,
    EmbeddedResource,
    Image,
    PageElicitation,
    ResourceLink,
    ToolError,
    ToolResult,
    ToolServer,
    UrlElicitationRequired,
)

PAGE = "https://example.com/pay"
TEXTS = {
    "type": "object",
    "properties": {"text": {"type": "string"}},
    "required": ["text"],
    "additionalProperties": False,
}
FORM = {"type": "object", "properties": {"x": {"type": "number"}}, "required": ["x"]}


def add_results(server):
    image, link = Image(b"i", mime_type="a/b"), ResourceLink("a://1", "one", title="T")
    parts = ["t", image, Audio(b"s", mime_type="a/c"), link, EmbeddedResource("x:1", "t")]
    server.tool(name="count", input_schema=TEXTS)(lambda text: {"words": len(text.split())})
    server.tool(name="nothing")(lambda: None)
    server.tool(name="array")(lambda: [1, "a"])
    server.tool(name="parts")(lambda: parts)
    server.tool(name="hand")(lambda: ToolResult(["no"], {"a": 1}, True, {"m": 1}))

    @server.tool
    def told():
        raise ToolError("no such city")

    @server.tool
    def refused():
        raise Error(-32001, "no")

    @server.tool
    def odd():
        raise InvalidParams("Invalid params: arguments.a is odd")


def add_what_tells(server):
    @server.tool
    async def work(context: Context):
        for progress in (1, 2, 2, 1, 3):
            context.report_progress(progress, 3, "on")
            await asyncio.sleep(0)

    @server.tool
    async def waits():
        await asyncio.sleep(60)

    @server.tool
    def logs(context: Context):
        context.log("debug", "a")
        context.log("info", {"b": 1})
        context.log("alert", "c", "mine")

    server.tool(name="touch")(lambda: server.resource_updated("a://1"))
    server.tool(name="come")(lambda: (server.tool(name="new")(lambda: "new"), None)[1])
    server.tool(name="go")(lambda: server.remove_tool("new"))

    @server.tool
    def paid():
        for it in ("one", "two"):
            server.elicitation_complete(it)


def add_what_asks(server):
    @server.tool
    async def samples(context: Context):
        return (await context.sample("Name a town", 20, systemPrompt="Be brief"))["content"]["text"]

    @server.tool
    async def elicits(context: Context):
        said = await context.elicit("Which one?", FORM)
        return [said.action, said.content]

    @server.tool
    async def roots(context: Context):
        return await context.list_roots()

    @server.tool
    async def pays(context: Context):
        return (await context.elicit_page("Pay", PAGE, "one")).action

    @server.tool
    def needs():
        raise UrlElicitationRequired([PageElicitation("Pay", PAGE, "two")])


def add_tasks(server):
    """Adds what may be called as a task."""
    server.tool(name="later", input_schema=TEXTS, task="optional")(lambda text: {"words": len(text.split())})

    @server.tool(task="optional")
    async def fails():
        raise ToolError("no such city")

    @server.tool(task="optional")
    async def asks(context: Context):
        return (await context.sample("Name a town", 20))["content"]["text"]

    @server.tool(task="optional")
    async def tells(context: Context):
        context.report_progress(1, 2, "on")
        context.log("info", "a", "mine")

    @server.tool(task="required")
    async def stays():
        await asyncio.sleep(3600)


def make_server(page_size, has_tasks):
    """The server; a page of its lists has so many items, and some sessions are with tasks."""
    server = ToolServer("table", "1", instructions="I", page_size=page_size, grace=0.01)
    add_results(server)
    add_what_tells(server)
    add_what_asks(server)
    if has_tasks:
        add_tasks(server)
    server.resource("a://1", name="one", mime_type="a/b")(lambda: "1")
    server.resource("b://1", name="bytes")(lambda: b"\x89PNG")
    server.resource("n://{folder}/{name}", name="note")(lambda folder, name: {"folder": folder, "name": name})
    server.resource("path:///{+path}", name="path")(lambda path: path)
    server.prompt(name="hello", description="Greets.")(lambda name, other="": f"Hello {name}")
    image = {"role": "assistant", "content": Image(b"i", mime_type="a/b")}
    bye = {"role": "user", "content": {"type": "text", "text": "Bye"}}
    server.prompt(name="talk")(lambda: ["Hello", image, bye])
    server.completion("hello", "name")(lambda value: [value + "!"])
    server.completion("n://{folder}/{name}", "folder")(lambda value, arguments: [value, arguments["name"]])
    return server


sys.exit(make_server(*map(json.loads, sys.argv[1:])).run())
