"""`judged` of bullmyrtle.testing: a test fails where a side broke a rule."""
import sys

from helping import frame, notice, ran, request, rows
from judging import Case

from bullmyrtle import Server
from bullmyrtle.lsp import LanguageServer
from bullmyrtle.testing import Broke, judged

FIRST = request(0, "initialize", {"capabilities": {}})
# A server that answers a request of the client's that nobody made.
WRONG = """
import os
os.read(0, 9999)
content = b'{"jsonrpc":"2.0","id":9,"result":1}'
os.write(1, b"Content-Length: %d\\r\\n\\r\\n%s" % (len(content), content))
while os.read(0, 9999): pass
"""


def run(command, data):
    ran(command, data)


class Processes(Case):
    def test_well(self):
        with judged([sys.executable, "-c", "import os\nwhile os.read(0, 9999): pass"]) as command:
            run(command, frame(notice("exit")))

    def test_broken(self):
        with self.assertRaises(Broke) as raised:
            with judged([sys.executable, "-c", WRONG]) as command:
                run(command, frame(FIRST))
        self.assertEqual([it.rule for it in raised.exception.findings], ["not-owed"])
        self.assertIn("must: server, message 1 at byte 22: not-owed (JSON-RPC 4.1, 5)", str(raised.exception))

    @rows([{"besides": ["not-owed"]}, {"sides": ["client"]}])
    def test_what_does_not_count(self, ways):
        server = [sys.executable, "-c", WRONG]
        with judged(server, **ways) as command:
            run(command, frame(FIRST))

    def test_level(self):
        data = frame(FIRST) + frame(request(1, "shutdown")) + frame(notice("exit"))
        server = [sys.executable, "-c", "import os\nwhile os.read(0, 9999): pass"]
        with judged(server, besides=["initialize-wait"]) as command:
            run(command, data)
        with self.assertRaises(Broke) as raised:
            with judged(server, besides=["initialize-wait"], level="should") as command:
                run(command, data)
        self.assertEqual([it.rule for it in raised.exception.findings], ["exit-wait"])

    def test_never_run(self):
        with self.assertRaisesRegex(AssertionError, "nothing was judged: the command was never run"):
            with judged(["server"]):
                pass

    def test_a_failure_of_the_test_itself_is_told(self):
        with self.assertRaises(ZeroDivisionError):
            with judged(["server"]):
                1 / 0


class InMemory(Case):
    async def test_well(self):
        server = Server()

        @server.method("add")
        def add(params: list):
            return sum(params)

        async with judged(server) as client:
            self.assertEqual(await client.call("add", [1, 2]), 3)

    def test_life(self):
        """The client doesn't begin as LSP has it; without the protocol's rules nothing is wrong."""
        server = LanguageServer("words", "1")

        async def session(**ways):
            async with judged(server, **ways) as client:
                try:
                    await client.call("textDocument/hover", {})
                except Exception:
                    pass

        with self.assertRaises(Broke) as raised:
            self.wait(session())
        self.assertEqual([it.rule for it in raised.exception.findings], ["initialize-first"])
        self.wait(session(rules="jsonrpc"))

    async def test_wrong_kind(self):
        with self.assertRaisesRegex(TypeError, "async with judged"):
            with judged(Server()):
                pass
        with self.assertRaisesRegex(TypeError, "with judged"):
            async with judged(["server"]):
                pass
