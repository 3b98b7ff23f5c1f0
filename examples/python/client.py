"""Starts the spelling server and the tool server of this folder, calls them, and answers what they call back."""
import asyncio
import os
import pathlib
import sys
import tempfile

from bullmyrtle import Client, Error
from bullmyrtle.lsp import uri_of
from bullmyrtle.mcp import ToolClient

HERE = os.path.dirname(os.path.abspath(__file__))
TEXT = "Roses are red.\nVoilets are are blue, and roses are not."


def command(name):
    # (a client starts whatever it likes; with words of its own, it starts these by another command)
    return [*(sys.argv[1:] or [sys.executable]), os.path.join(HERE, name)]


class Editor(Client):
    """What an editor does with a language server."""

    def __init__(self):
        super().__init__(command("spelling_server.py"), protocol="lsp")
        self.reached = {kind: asyncio.Event() for kind in ("begin", "report", "end", "diagnostics")}
        self.method("workspace/configuration")(lambda params: ["times" for _ in params["items"]])
        self.method("window/workDoneProgress/create")(lambda params: None)
        self.method("textDocument/publishDiagnostics")(self.diagnostics)
        self.method("$/progress")(self.progress)

    def diagnostics(self, params):
        for it in params["diagnostics"]:
            start = it["range"]["start"]
            print(f"line {start['line'] + 1}, column {start['character'] + 1}: {it['message']}")
        print("faults in version", params["version"], "-", len(params["diagnostics"]))
        self.reached["diagnostics"].set()

    def progress(self, params):
        print("progress:", params["value"]["kind"])
        self.token = params["token"]
        self.reached[params["value"]["kind"]].set()

    async def wait_for(self, kind):
        await self.reached[kind].wait()
        self.reached[kind].clear()

    def count(self, *arguments):
        for it in self.reached.values():
            it.clear()
        return self.call("workspace/executeCommand", {"command": "count", "arguments": arguments})


async def edit(folder):
    file = pathlib.Path(folder, "notes.txt")
    file.write_text(TEXT, encoding="utf-8")
    pathlib.Path(folder, "words.txt").write_text("and are blue not red roses violets", encoding="utf-8")
    document = {"textDocument": {"uri": uri_of(file)}}
    able = {"window": {"workDoneProgress": True}, "general": {"positionEncodings": ["utf-8", "utf-16"]}}
    async with Editor() as editor:
        about = {"processId": os.getpid(), "rootUri": uri_of(folder), "capabilities": able}
        able = (await editor.call("initialize", about))["capabilities"]
        print("encoding:", able["positionEncoding"])
        editor.notify("initialized", {})
        await editor.wait_for("end")
        opened = {**document["textDocument"], "languageId": "text", "version": 1, "text": TEXT}
        editor.notify("textDocument/didOpen", {"textDocument": opened})
        await editor.wait_for("diagnostics")
        place = {**document, "position": {"line": 0, "character": 7}}
        print("hover:", (await editor.call("textDocument/hover", place))["contents"])
        line = {"start": {"line": 1, "character": 0}, "end": {"line": 1, "character": 0}}
        asked = {**document, "range": line, "context": {"diagnostics": []}}
        changes = []
        for it in await editor.call("textDocument/codeAction", asked):
            print("action:", it["title"])
            (change,) = it["edit"]["changes"][uri_of(file)]
            changes.append({"range": change["range"], "text": change["newText"]})
        # (in this order the second change comes before what the first one has moved)
        about = {**document["textDocument"], "version": 2}
        editor.notify("textDocument/didChange", {"textDocument": about, "contentChanges": changes})
        await editor.wait_for("diagnostics")
        place = {**document, "position": {"line": 1, "character": 3}}
        print("complete:", [it["label"] for it in await editor.call("textDocument/completion", place)])
        print("words:", await editor.count())
        call = editor.count(60)
        await editor.wait_for("report")
        editor.notify("window/workDoneProgress/cancel", {"token": editor.token})
        print("words:", await call)
        call = editor.count(60)
        await editor.wait_for("report")
        editor.notify("$/cancelRequest", {"id": call.key})
        try:
            await call
        except Error as error:
            await editor.wait_for("end")
            print("cancelled:", error.message)
        await editor.call("shutdown")
        editor.notify("exit")
    print("status:", await editor.close())


async def use():
    """What a tool host does with the tool server."""

    def sample(params):
        print("asked:", params["messages"][0]["content"]["text"])
        return "Flowers"

    async with ToolClient(command("tool_server.py"), sampling=sample) as client:
        print("server:", client.server["serverInfo"]["name"], client.protocol_version)
        print("tools:", ", ".join(it["name"] for it in await client.list_tools()))
        for name, arguments in (("count", {"text": TEXT}), ("title", {"text": TEXT}), ("count", {"text": 7})):
            result = await client.call_tool(name, arguments)
            if result.is_error:
                print(f"{name}: error, {result.text}")
            else:
                print(f"{name}:", result.text, result.structured)
    print("status:", await client.close())


async def main():
    with tempfile.TemporaryDirectory() as folder:
        await edit(folder)
    await use()


if __name__ == "__main__":
    asyncio.run(main())
