"""`python3 -m bullmyrtle.mcp`: what a tool server has, by hand, and the entries for hosts' settings."""
import asyncio
import contextlib
import io
import json
import os
import sys
import tempfile
from unittest import mock

from asgi_server import served
from helping import PACKAGE, Case, ran
from test_tool_http import words

from bullmyrtle.mcp import Bearer, _command

TOOLS = '''
import sys
from typing import List

from bullmyrtle.mcp import ToolError, ToolServer

server = ToolServer("words", "1.0")


@server.tool
def count(text: str, words: List[str], twice: bool = False) -> int:
    """Counts some words.

    Args:
        text: the text
    """
    return sum(text.split().count(it) for it in words) * (1 + twice)


@server.tool
def fail():
    raise ToolError("it failed")


@server.resource("words://{letter}")
def listed(letter):
    return []


@server.prompt
def summary(text: str):
    return text


sys.exit(server.run())
'''
LISTED = """\
words 1.0, MCP 2025-11-25
tools
  count - Counts some words.
    text: string - the text
    words: array
    twice: boolean, may be left out
  fail
resources
  words://{letter}
prompts
  summary
"""


class Commands(Case):
    def setUp(self):
        paths = mock.patch.dict(os.environ, {"PYTHONPATH": PACKAGE})
        paths.start()
        self.addCleanup(paths.stop)
        folder = tempfile.TemporaryDirectory()
        self.addCleanup(folder.cleanup)
        self.file = os.path.join(folder.name, "tools.py")
        with open(self.file, "w") as file:
            file.write(TOOLS)

    def run_(self, *words, status=0):
        """Runs the command here, and gives what it writes to the standard output."""
        out, error = io.StringIO(), io.StringIO()
        with contextlib.redirect_stdout(out), contextlib.redirect_stderr(error):
            try:
                found = _command.run(words)
            except SystemExit as end:
                found = end.code
        self.said = error.getvalue()
        self.assertEqual(found, status, self.said)
        return out.getvalue()

    def run_apart(self, *words, input=None, status=0):
        """The same in a process of its own."""
        done = ran([sys.executable, "-m", "bullmyrtle.mcp", *words], input, text=True)
        self.assertEqual(done.returncode, status, done.stderr)
        self.said = done.stderr
        return done.stdout

    def test_list(self):
        self.assertEqual(self.run_apart(self.file), LISTED)

    def test_call(self):
        words = ["call", "count", "text=a 7 a", 'words=["a", "7"]']
        self.assertEqual(self.run_(self.file, *words, "twice=true"), "6\n")
        # (what the schema says is a text isn't read as JSON)
        self.assertEqual(self.run_(self.file, "call", "count", "text=7", 'words=["7"]'), "1\n")
        wrong = self.run_(self.file, "call", "count", "text=a", "words=a", status=1)
        self.assertIn("arguments.words must be an array", wrong)
        self.assertEqual(self.run_(self.file, "call", "fail", status=1), "it failed\n")
        self.run_(self.file, "call", "nothing", status=1)
        self.assertIn("Unknown tool: nothing", self.said)

    def test_settings(self):
        for host, member in (("claude", "mcpServers"), ("vscode", "servers")):
            entry = json.loads(self.run_(self.file, "settings", host))[member]["words"]
            self.assertEqual((entry["command"], entry["args"]), (sys.executable, [self.file]))
            self.assertEqual(entry.get("type"), "stdio" if host == "vscode" else None)
        # (what it says starts the server)
        ping = b'{"jsonrpc":"2.0","id":1,"method":"ping"}\n'
        words, env = [entry["command"], *entry["args"]], {**os.environ, **entry["env"]}
        done = ran(words, ping, env=env, cwd="/")
        self.assertEqual(json.loads(done.stdout), {"jsonrpc": "2.0", "id": 1, "result": {}})
        entry = json.loads(self.run_("--judged", self.file, "settings"))["mcpServers"]["words"]
        self.assertEqual(entry["args"][:4], ["-m", "bullmyrtle.judge", "--rules", "mcp"])

    def test_the_judge(self):
        self.assertEqual(
            self.run_apart("--judged", self.file, "call", "count", "text=a", 'words=["a"]'), "1\n"
        )
        self.assertIn("judge: found: 0 must, 0 should", self.said)
        wrong = '{"jsonrpc":"2.0","id":1,"method":"ping"}\n{"jsonrpc":"2.0","id":1,"result":{}}\n'
        said = self.run_apart(self.file, "judge", input=wrong)
        self.assertEqual(json.loads(said)["result"], {})
        self.assertIn("judge: found: 1 must", self.said)

    def test_what_is_wrong(self):
        for wrong in (
            [],
            ["nothing.py"],
            [self.file, "x"],
            [self.file, "call"],
            [self.file, "list", "x"],
            [self.file, "settings", "x"],
            [self.file, "bridge"],
            ["--header", "a: b", self.file],
            ["--judged", "http://localhost/"],
            ["http://localhost/", "judge"],
            ["--header", "a", "http://localhost/"],
        ):
            self.run_(*wrong, status=2)
        self.run_("http://127.0.0.1:9/", status=1)
        self.assertIn("python3 -m bullmyrtle.mcp: HTTP: ", self.said)
        with open(self.file, "w") as file:
            file.write("print('no server')")
        self.run_(self.file, status=1)

    async def test_a_url(self):
        bearer = Bearer({"one": "ann"}.get, "http://localhost/mcp")
        token = ["--header", "Authorization: Bearer one"]
        async with served(words().asgi(bearer=bearer)) as it:

            def use():
                self.assertIn("words 1.0, MCP 2025-11-25", self.run_(*token, it.url))
                self.assertEqual(self.run_(*token, it.url, "call", "count", "text=a b"), "2\n")
                self.run_(it.url, status=1)
                self.assertIn("status 401", self.said)
                entry = json.loads(self.run_(*token, it.url, "settings", "vscode"))["servers"]["words"]
                about = {"type": "http", "url": it.url, "headers": {"Authorization": "Bearer one"}}
                self.assertEqual(entry, about)

            await asyncio.get_running_loop().run_in_executor(None, use)

    async def test_the_bridge(self):
        about = {
            "protocolVersion": "2025-11-25",
            "capabilities": {},
            "clientInfo": {"name": "t", "version": "1"},
        }
        lines = [
            {"jsonrpc": "2.0", "id": "a", "method": "initialize", "params": about},
            {"jsonrpc": "2.0", "method": "notifications/initialized"},
            {"jsonrpc": "2.0", "id": "b", "method": "ping"},
            {
                "jsonrpc": "2.0",
                "id": "c",
                "method": "tools/call",
                "params": {"name": "count", "arguments": {"text": "a"}},
            },
        ]
        given = "\n".join(["", *map(json.dumps, lines), "no message", ""])
        async with served(words().asgi()) as it:
            said = await asyncio.get_running_loop().run_in_executor(
                None, lambda: self.run_apart(it.url, "bridge", input=given)
            )
            came = {json.dumps(it["id"]): it for it in map(json.loads, said.splitlines())}
            self.assertEqual(sorted(came), ['"a"', '"b"', '"c"', "null"])
            self.assertEqual(came["null"]["error"]["code"], -32700)
            self.assertEqual(came['"c"']["result"]["structuredContent"], {"result": 1})
            self.assertEqual(it.app.sessions, 0)
