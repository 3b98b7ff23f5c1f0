"""The examples, run as a user runs them, and what they do with bad params."""
import os
import tempfile

from helping import TOP, Case, command, environment, logged, ran

from bullmyrtle import Client, Error
from bullmyrtle.mcp import ToolClient

EXAMPLES = os.path.join(TOP, "examples", "python")


class Examples(Case):
    def test_the_client_drives_both(self):
        words = command(os.path.join(EXAMPLES, "client.py"))
        ended = ran(words)
        with open(os.path.join(EXAMPLES, "client.out"), encoding="utf-8") as it:
            self.assertEqual((ended.stdout.decode(), ended.stderr, ended.returncode), (it.read(), b"", 0))

    async def test_what_is_shorter_does_the_same(self):
        """The servers of a few lines, and the longer ones beside them, which make each message themselves."""

        async def hover(name):
            async with Client(command(os.path.join(EXAMPLES, name)), env=environment()) as editor:
                editor.method("workspace/configuration")(lambda params: ["words"])
                await editor.call("initialize", {"processId": None, "rootUri": None, "capabilities": {}})
                editor.notify("initialized", {})
                document = {
                    "uri": "file:///a",
                    "languageId": "text",
                    "version": 1,
                    "text": "a rose is a rose",
                }
                editor.notify("textDocument/didOpen", {"textDocument": document})
                place = {"textDocument": {"uri": "file:///a"}, "position": {"line": 0, "character": 3}}
                result = await editor.call("textDocument/hover", place)
                await editor.call("shutdown")
                editor.notify("exit")
            return result, await editor.close()

        async def use(name):
            async with ToolClient(
                command(os.path.join(EXAMPLES, name)), env=environment(), sampling=lambda params: "Flowers"
            ) as client:
                tools = [it["name"] for it in await client.list_tools()]
                count = (await client.call_tool("count", {"text": "a b"})).text
                return (tools, count, (await client.call_tool("title", {"text": "roses"})).text)

        self.assertEqual(await hover("language_server.py"), ({"contents": "rose: 2"}, 0))
        self.assertEqual(await hover("language_server_by_hand.py"), ({"contents": "words: 2"}, 0))
        self.assertEqual(await use("tool_server.py"), (["count", "title"], "2", "Flowers"))
        self.assertEqual(await use("tool_server_by_hand.py"), (["count", "title"], "2 words", "Flowers"))

    async def test_what_is_read_later_is_looked_at_again(self):
        """A document that was opened before the folder's words were read is looked at again behind that."""
        with tempfile.TemporaryDirectory() as room:
            for name, text in {"notes.txt": "Voilets are are blue.", "words.txt": "violets are blue"}.items():
                with open(os.path.join(room, name), "w", encoding="utf-8") as it:
                    it.write(text)
            found = []
            editor = Client(command(os.path.join(EXAMPLES, "spelling_server.py")), env=environment())
            editor.method("textDocument/publishDiagnostics")(
                lambda params: found.append(len(params["diagnostics"]))
            )
            async with editor:
                uri = f"file://{room}/notes.txt"
                about = {"processId": None, "rootUri": f"file://{room}", "capabilities": {}}
                await editor.call("initialize", about)
                document = {"uri": uri, "languageId": "text", "version": 1, "text": "Voilets are are blue."}
                editor.notify("textDocument/didOpen", {"textDocument": document})
                await self.until(lambda: found == [1])
                editor.notify("initialized", {})
                await self.until(lambda: found == [1, 2])
                await editor.call("shutdown")
                editor.notify("exit")

    def test_they_are_short(self):
        """At most ten lines of a user's own, but for blank ones, in what a stranger writes first."""
        with open(os.path.join(EXAMPLES, "language_server.py"), encoding="utf-8") as it:
            lines = [line for line in it if line.strip() and not line.startswith(('"""', "#"))]
        self.assertLessEqual(len(lines), 10)

    async def code_of(self, client, method, params):
        with self.assertRaises(Error) as caught:
            await client.call(method, params)
        return caught.exception.code

    async def test_faults(self):
        place = {"textDocument": {"uri": "x"}, "position": {"line": 0, "character": 0}}
        with logged():
            server = command(os.path.join(EXAMPLES, "language_server_by_hand.py"))
            async with Client(server, env=environment()) as client:
                self.assertEqual(await self.code_of(client, "textDocument/hover", place), -32002)
                await client.call("initialize", {"capabilities": {}})
                self.assertEqual(await self.code_of(client, "initialize", {"capabilities": {}}), -32600)
                for method, params in (
                    ("textDocument/hover", place),
                    ("textDocument/hover", {"textDocument": 7, "position": place["position"]}),
                    ("textDocument/hover", {}),
                    ("workspace/executeCommand", {"command": "x"}),
                ):
                    self.assertEqual(await self.code_of(client, method, params), -32602, params)
                self.assertEqual(await self.code_of(client, "exit", {}), -32601)
                # (an exit without a shutdown)
                client.notify("exit")
            self.assertEqual(await client.close(), 1)
            server = command(os.path.join(EXAMPLES, "tool_server_by_hand.py"))
            async with Client(server, env=environment(), framing="lines") as tools:
                self.assertEqual(await tools.call("ping"), {})
                self.assertEqual(await self.code_of(tools, "tools/list", {}), -32600)
                begun = {"protocolVersion": "2025-06-18", "capabilities": {}, "clientInfo": {}}
                for wrong in ({"protocolVersion": 5}, {"capabilities": None}, {"clientInfo": "x"}):
                    self.assertEqual(
                        await self.code_of(tools, "initialize", {**begun, **wrong}), -32602, wrong
                    )
                await tools.call("initialize", {**begun, "more": 1})
                self.assertEqual(await self.code_of(tools, "initialize", begun), -32600)
                for params in ({"cursor": "x"}, []):
                    self.assertEqual(await self.code_of(tools, "tools/list", params), -32602, params)
                for arguments in ({}, {"arguments": None}, {"arguments": "x"}, {"arguments": {"text": 1}}):
                    params = {"name": "count", **arguments}
                    self.assertEqual(await self.code_of(tools, "tools/call", params), -32602, params)
                self.assertEqual(await self.code_of(tools, "tools/call", {}), -32602)
            self.assertEqual(await tools.close(), 0)
