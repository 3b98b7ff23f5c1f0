"""The examiner's cases for tool servers, over HTTP: none has a finding. BULLMYRTLE_EXAMINE=all tries each case."""
import asyncio
import contextlib
import os
import sys
import threading
from unittest import mock

from asgi_server import served
from helping import PACKAGE, SECONDS, Case, patience, ran
from test_examine_own import is_well

from bullmyrtle import Error
from bullmyrtle.examine._reading import chosen, read_all
from bullmyrtle.examine._runner import Runner
from bullmyrtle.examine._session import Plan
from bullmyrtle.examine._targets import Command, bridge_to
from bullmyrtle.mcp import ToolServer

EVERY = 1 if os.environ.get("BULLMYRTLE_EXAMINE") == "all" else 24


@contextlib.contextmanager
def over_http(server):
    """Serves a tool server in another thread, and gives its URL."""
    ready, url, end = threading.Event(), [], []

    async def main():
        async with served(server.asgi()) as it:
            done = asyncio.Event()
            end.append((asyncio.get_running_loop(), done))
            url.append(it.url)
            ready.set()
            await done.wait()

    thread = threading.Thread(target=lambda: asyncio.run(main()))
    thread.start()
    assert ready.wait(SECONDS), "the server does not begin"
    try:
        yield url[0]
    finally:
        loop, done = end[0]
        loop.call_soon_threadsafe(done.set)
        thread.join(patience(20))


class OverHttp(Case):
    def test_tool_server(self):
        """By a bridge, so that all cases are tried that are for lines."""
        server = ToolServer("words", "1.0")

        @server.tool
        def length(text: str) -> int:
            return len(text)

        with over_http(server) as url, mock.patch.dict(os.environ, {"PYTHONPATH": PACKAGE}):
            self.examine(url, "mcp", "")
            # (what these alone have)
            self.examine(url, "mcp:2025-03-26", "batch")
            for version in ("2024-11-05", "2025-03-26", "2025-06-18"):
                self.examine(url, f"mcp:{version}", "later request")

    def test_a_server_that_works_elsewhere(self):
        """What is between has nothing to do while the server works, and a later request is answered first."""
        server = ToolServer("slow", "1.0")

        @server.method("examine/unknown")
        async def unknown(params):
            await asyncio.sleep(1.2)
            raise Error(-32601, "slow")

        words = ["--rules", "mcp", "--only", "the id 0", "--seconds", f"{patience(10)}", "--connect"]
        with over_http(server) as url:
            ended = ran([sys.executable, "-m", "bullmyrtle.examine", *words, url])
        self.assertIn("1 ok of 1 cases", ended.stdout.decode())

    def examine(self, url, rules, only):
        every = chosen(read_all(), rules, "server", "lines", only)
        cases = [it for it in every if not it.is_alone] + [it for it in every if it.is_alone][::EVERY]
        plan = Plan(rules, "lines", "server", patience(30.0), settle=10.0)
        runner = Runner(Command(bridge_to(url), is_bridge=True), plan, 2)
        verdicts = list(runner.verdicts(cases))
        self.assertEqual(len(verdicts), len(cases))
        self.assertTrue([it for it in verdicts if it.level == "ok"], rules)
        bad = [it for it in verdicts if not is_well(it)]
        self.assertEqual([], [f"{it.level}: {it.case.name}: {it.words}" for it in bad])
