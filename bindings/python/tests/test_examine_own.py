"""The package's own servers and clients have no finding. BULLMYRTLE_EXAMINE=all tries each case; without it, of those that need a
session of their own, one in six."""
import os
import sys
from unittest import mock

from helping import PACKAGE, TOP, Case, patience, rows

from bullmyrtle.examine._reading import asked, chosen, read_all
from bullmyrtle.examine._runner import Runner
from bullmyrtle.examine._session import Plan
from bullmyrtle.examine._targets import Client, Command
from bullmyrtle.judge._rules import LEVELS
from bullmyrtle.judge._versions import MCP

EDITOR = """
import asyncio, sys
from bullmyrtle import Client
client = Client(sys.argv[1:], protocol="lsp", grace=1)
client.method("workspace/configuration")(lambda params: [None for _ in params["items"]])
async def main():
    async with client:
        await client.call("initialize", dict(capabilities=dict(), processId=None, rootUri=None))
        client.notify("initialized", dict())
        await asyncio.sleep(600)
asyncio.run(main())
"""
HOST = """
import asyncio, sys
from bullmyrtle.mcp import ToolClient
async def main():
    async with ToolClient(sys.argv[1:]) as client:
        await client.list_tools()
        await asyncio.sleep(600)
asyncio.run(main())
"""
SERVER = "import bullmyrtle; server = bullmyrtle.Server(); server.run()"
# A language server that asks for what it is let, so that the cases with odd answers to that are tried.
ASKING = """
from bullmyrtle.lsp import LanguageServer
server = LanguageServer("asking", "1")
server.feature("workspace/didChangeWatchedFiles", {"watchers": []})(lambda params: None)
server.feature("textDocument/hover")(lambda params: None)
@server.feature("initialized")
async def ask(ls, params):
    await ls.configuration("asking")
    async with ls.progress("asking"):
        pass
server.start_io()
"""
# A tool server that has one version.
OF_ONE = "import sys; from bullmyrtle.mcp import ToolServer; ToolServer('one', versions=sys.argv[1:]).run()"
# A tool server that has tasks.
TASKED = """
from bullmyrtle.mcp import ToolServer
server = ToolServer("tasked", "1")
@server.tool(task="optional")
def length(text: str) -> int:
    return len(text)
server.run()
"""
EVERY = 1 if os.environ.get("BULLMYRTLE_EXAMINE") == "all" else 6


def is_well(it):
    """Whether a verdict is none that counts here."""
    return it.level not in LEVELS


def is_for_all(case):
    """Whether a case needs nothing that some servers don't have, or don't ask for."""
    return not case.needs and not (case.start == "dynamic" and case.replied)


class Own(Case):
    def check(self, target, rules, side, only=""):
        framing = "lines" if rules.startswith("mcp") else "frames"
        every = chosen(read_all(), rules, side, framing, only)
        alone = [it for it in every if it.is_alone]
        cases = [it for it in every if not it.is_alone] + alone[:: 1 if only else EVERY]
        runner = Runner(target, Plan(rules, framing, side, patience(30.0)), 2)
        with mock.patch.dict(os.environ, {"PYTHONPATH": PACKAGE}):
            verdicts = list(runner.verdicts(cases))
        self.assertEqual(len(verdicts), len(cases))
        bad = [it for it in verdicts if not is_well(it)]
        self.assertEqual([], [f"{it.level}: {it.case.name}: {it.words}" for it in bad])
        untried = [it.case.name for it in verdicts if it.level == "not tried" and is_for_all(it.case)]
        self.assertEqual([], untried)
        return verdicts

    def server(self, name):
        return Command([sys.executable, os.path.join(TOP, "examples", "python", name)])

    def test_server(self):
        self.check(Command([sys.executable, "-c", SERVER]), "jsonrpc", "server")

    def test_language_server(self):
        self.check(self.server("language_server.py"), "lsp", "server")

    @rows(["client/registerCapability", "workspace/configuration", "window/workDoneProgress"])
    def test_a_language_server_that_asks(self, method):
        target = Command([sys.executable, "-c", ASKING])
        tried = self.check(target, "lsp", "server", method)
        self.assertEqual([], [it.words for it in tried if it.level == "not tried"])
        self.assertTrue(tried)

    def test_tool_server(self):
        self.check(self.server("tool_server.py"), "mcp", "server")

    @rows(["2024-11-05", "2025-03-26", "2025-06-18"])
    def test_tool_server_by_older_versions(self, version):
        """What these alone have, and how a session begins."""
        for only in ("later request", "batch", "a session begins"):
            tried = self.check(self.server("tool_server.py"), f"mcp:{version}", "server", only)
            self.assertTrue(tried, (version, only))

    @rows(MCP)
    def test_the_version_that_was_agreed_on(self, version):
        """Plain "mcp" asks what the agreed version has; what only the newest one has isn't tried."""
        is_newest, has_batches = version == "2025-11-25", version == "2025-03-26"
        why = "declares no tasks" if is_newest else f"agreed on {version}"
        wanted = {
            "initialize with its own version": "ok",
            "a batch of two requests": "ok",
            "a batch of an array": "ok" if has_batches else None,
            "the later request tasks/list": None if is_newest else "ok",
            "the later request tasks/cancel": None if is_newest else "ok",
            "tasks/get without a task": f"not tried: it {why}",
        }
        target = Command([sys.executable, "-c", OF_ONE, version])
        runner = Runner(target, Plan("mcp", "lines", "server", patience(30.0)), 2)
        with mock.patch.dict(os.environ, {"PYTHONPATH": PACKAGE}), self.subTest(version):
            runner.check()
            self.assertEqual(runner.rules, "mcp" if is_newest else f"mcp:{version}")
            cases = asked(read_all(), "mcp", runner.rules, "server", "lines")
            names = [it.name for it in cases]
            self.assertEqual(len(names), len(set(names)))
            own = chosen(read_all(), f"mcp:{version}", "server", "lines")
            self.assertEqual([], [it.name for it in own if it.name not in names])
            found = dict.fromkeys(wanted)
            for it in runner.verdicts([it for it in cases if it.name in wanted]):
                found[it.case.name] = f"{it.level}: {it.words}" if it.words else it.level
            self.assertEqual(found, wanted)
            # (where there are batches, nothing else than an array answers one)
            (batch,) = [it for it in cases if it.name == "a batch of two requests"]
            self.assertEqual(len(batch.outcomes) == 1, has_batches)

    def test_a_tool_server_with_tasks(self):
        tried = self.check(Command([sys.executable, "-c", TASKED]), "mcp", "server", "task")
        self.assertEqual([], [it.case.name for it in tried if it.level == "not tried"])

    def test_client(self):
        self.check(Client([sys.executable, "-c", EDITOR, "{}"]), "lsp", "client")

    def test_tool_client(self):
        self.check(Client([sys.executable, "-c", HOST, "{}"]), "mcp", "client")
