"""A server on the standard streams: what it imports, and that its turns without an event loop are those of one."""
import json
import os
import signal
import subprocess
import sys
import time
import unittest
import unittest.mock

from helping import SECONDS, Case, environment, frame, messages, notice, patience, ran, request, rows
from test_stdio import Scripts, read_message

from bullmyrtle import Client, Server

HEAD = """
import os, sys, time
from bullmyrtle import LATER, Error, InvalidParams, Server
server = Server(loop="loop" in sys.argv, grace=float(os.environ.get("GRACE", "20")))
def knows():
    return "asyncio" in sys.modules
def in_thread(work):
    import threading
    threading.Thread(target=work, daemon=True).start()
@server.method("echo")
def echo(params):
    return params
@server.method("knows")
def known(params):
    return knows()
"""
TAIL = """
sys.exit(server.run())
"""
# What takes longer to import than a server's first answer should.
SLOW = {
    "asyncio",
    "inspect",
    "traceback",
    "tokenize",
    "typing",
    "difflib",
    "ssl",
    "logging",
    "json",
    "re",
    "threading",
}
SLOW |= {"bullmyrtle.client", "bullmyrtle._trace", "bullmyrtle._streams", "bullmyrtle.judge"}

# Each with a server and what is sent to it: methods of each kind, and what needs an event loop in the midst.
TALKS = {
    "plain ones": ("", [request(it, "echo", [it]) for it in range(50)]),
    "what they raise": (
        """
        @server.method("x")
        def x(params: int, request):
            raise Error(5, "five", params)
        @server.method("y")
        def y(params):
            raise ValueError("of its own")
        """,
        [
            request(1, "x", [1]),
            request(2, "x"),
            request(3, "y"),
            request(4, "none"),
            notice("y"),
            [notice("x")],
            5,
        ],
    ),
    "a coroutine between plain ones": (
        """
        @server.method("x")
        async def x(params):
            return [params, knows()]
        @server.method("back")
        def back(params):
            return x(params)
        """,
        [request(1, "echo"), request(2, "x", [1]), request(3, "echo"), request(4, "back", [2]), notice("x")],
    ),
    "a thread": (
        """
        @server.method("x", thread=True)
        def x(params):
            time.sleep(0.05)
            return params
        """,
        [request(1, "echo", [1]), request(2, "x", [2])],
    ),
    "a batch": ("", [[request(1, "echo", [1]), notice("echo"), request(2, "echo", [2])]]),
    "a time limit": (
        """
        @server.method("x", timeout=0.05)
        async def x(params):
            import asyncio
            await asyncio.sleep(20)
        """,
        [request(1, "echo"), request(2, "x")],
    ),
    "a cancel in the same piece": (
        "",
        [request(1, "echo", ["a"]), request(2, "echo", ["b"]), notice("$/cancelRequest", {"id": 2})],
    ),
    "a call to the other side": (
        """
        @server.method("x")
        async def x(params, request):
            return await request.call("there", [1], timeout=0.05)
        """,
        [request(1, "x"), request(2, "echo", [2])],
    ),
    "answers from a thread": (
        """
        @server.method("x")
        def x(params, request):
            def work():
                time.sleep(0.05)
                request.notify("halfway")
                request.answer([5])
            in_thread(work)
            return LATER
        """,
        [request(1, "x")],
    ),
    "an answer that never comes": (
        """
        @server.method("x")
        def x(params, request):
            return LATER
        """,
        [request(1, "x"), request(2, "echo", [2])],
    ),
    "its end": (
        """
        @server.method("x")
        def x(params):
            server.stop(7)
        @server.method("exit")
        def leave(params):
            sys.exit(9)
        """,
        [request(1, "echo", [1]), request(2, "x"), request(3, "echo", [3]), request(4, "exit")],
    ),
    "an exit": (
        """
        @server.method("exit")
        def leave(params):
            sys.exit(9)
        """,
        [request(1, "echo", [1]), request(2, "exit"), request(3, "echo", [3])],
    ),
    "a large content": ("", [request(1, "echo", ["x" * 300_000]), request(2, "echo", [2])]),
    "much that can't be read": ("", [*[{"jsonrpc": "2.0", "x": it} for it in range(20)], request(1, "echo")]),
}


class Blocking(Scripts):
    def script(self, body="", tail=TAIL):
        return super().script(body, tail)

    def started(self, body="", tail=TAIL, **more):
        return super().started(body, tail, **more)

    def setUp(self):
        super().setUp()
        patched = unittest.mock.patch("test_stdio.HEAD", HEAD)
        patched.start()
        self.addCleanup(patched.stop)

    def over(self, loop, body, given, grace=f"{patience(20)}", **more):
        """What a server gives for this input: its status, what it writes, and what it logs, without tracebacks."""
        words = [*self.script(body), *(["loop"] if loop else [])]
        env = {**more.pop("env", self.environment()), "GRACE": grace}
        ended = subprocess.run(
            words, input=given, capture_output=True, timeout=SECONDS, env=env, check=False, **more
        )
        logged = [
            it for it in ended.stderr.decode().splitlines() if it[:1].isalpha() and not it.startswith("Trace")
        ]
        return ended.returncode, messages(ended.stdout), logged

    @staticmethod
    def environment():
        from helping import environment

        return environment(BULLMYRTLE_JSON="json")

    def test_it_tells_what_an_event_loop_would(self):
        for name, (body, sent) in TALKS.items():
            with self.subTest(name):
                given = b"".join(map(frame, sent))
                # (all but one end by themselves, however busy the machine is)
                grace = "0.3" if name == "an answer that never comes" else f"{patience(20)}"
                mine, its = (self.over(it, body, given, grace) for it in (False, True))
                by_id = [sorted(json.dumps(it, sort_keys=True) for it in told[1]) for told in (mine, its)]
                self.assertEqual(by_id[0], by_id[1])
                self.assertEqual((mine[0], mine[2]), (its[0], its[2]))
                if "thread" not in name and "coroutine" not in name:
                    self.assertEqual(mine[1], its[1])

    def test_no_event_loop_until_one_is_needed(self):
        body = """
            @server.method("x")
            async def x(params):
                return knows()
        """
        given = [
            request(1, "knows"),
            request(2, "echo"),
            request(3, "knows"),
            request(4, "x"),
            request(5, "knows"),
        ]
        status, told, logged = self.over(False, body, b"".join(map(frame, given)))
        self.assertEqual([it["result"] for it in told], [False, None, False, True, True])
        self.assertEqual((status, logged), (0, []))
        self.assertEqual(self.over(True, "", frame(request(1, "knows")))[1][0]["result"], True)
        self.assertEqual(self.over(False, "import asyncio", frame(request(1, "knows")))[1][0]["result"], True)

    def test_a_plain_method_has_no_loop_unless_one_is_asked_for(self):
        body = """
            @server.method("x")
            def x(params):
                import asyncio
                return asyncio.get_running_loop().is_running()
        """
        status, told, logged = self.over(False, body, frame(request(1, "x")))
        self.assertIn("no running event loop. Server(loop=True) has one", told[0]["error"]["message"])
        self.assertIn("Server(loop=True)", " ".join(logged))
        for loop, before in ((True, ""), (False, "import asyncio\n")):
            told = self.over(loop, before + body.replace("\n            ", "\n"), frame(request(1, "x")))[1]
            self.assertEqual(told[0]["result"], True)

    def test_a_client_has_no_such_setting(self):
        with self.assertRaisesRegex(TypeError, "no setting 'loop'"):
            Client(loop=True)
        Server(loop=True)

    def test_what_is_imported_for_a_first_answer(self):
        plain = "import sys\nfrom bullmyrtle import Server\nserver = Server()\nserver.method('add')(sum)\n"
        plain = plain.replace("(sum)", "(lambda params: sum(params))")
        language = (
            "import sys\nfrom bullmyrtle.lsp import LanguageServer\nserver = LanguageServer('x', '1')\n"
            "@server.feature('textDocument/hover')\ndef hover(ls, params):\n    return None\n"
        )
        for code, call in (
            (plain, request(1, "add", [1, 2])),
            (language, request(1, "initialize", {"processId": None, "rootUri": None, "capabilities": {}})),
        ):
            before = "import sys\nbefore = set(sys.modules)\n"
            after = "server.run()\nprint(sorted(set(sys.modules) - before), file=sys.stderr)\n"
            file = os.path.join(self.room, "first.py")
            with open(file, "w", encoding="utf-8") as it:
                it.write(before + code + after)
            ended = ran([sys.executable, file], frame(call), env=self.environment())
            self.assertIn("result", messages(ended.stdout)[0])
            imported = json.loads(ended.stderr.decode().splitlines()[0].replace("'", '"'))
            self.assertEqual(sorted(SLOW & set(imported)), [])
            self.assertIn("bullmyrtle._session", imported)

    def test_threads_are_heard_while_it_waits_for_input(self):
        body = """
            def work():
                time.sleep(0.1)
                server.notify("one")
                time.sleep(0.1)
                found = server.call_and_wait("two", timeout=120)
                server.notify("three", [found, knows()])
                server.stop(5)
            in_thread(work)
        """
        server = self.started(body)
        out = server.stdout.fileno()
        self.assertEqual([read_message(out)["method"] for _ in range(2)], ["one", "two"])
        server.stdin.write(frame({"jsonrpc": "2.0", "id": 1, "result": [4]}))
        self.assertEqual(read_message(out)["params"], [[4], True])
        self.assertEqual(server.wait(SECONDS), 5)

    def test_the_session_has_a_loop_for_who_asks(self):
        body = f"""
            async def work():
                return "worked"
            @server.method("x")
            def x(params, request):
                import asyncio
                def wait():
                    worked = asyncio.run_coroutine_threadsafe(work(), request.session.loop)
                    request.answer(worked.result({patience(10)}))
                in_thread(wait)
                return LATER
        """
        server = self.started(body)
        server.stdin.write(frame(request(1, "x")))
        self.assertEqual(read_message(server.stdout.fileno())["result"], "worked")
        server.stdin.close()
        self.assertEqual(server.wait(SECONDS), 0)

    @rows(["", "import asyncio\n"])
    def test_a_reader_that_sleeps(self, before):
        server = self.started(before)
        given = b"".join(frame(request(it, "echo", ["x" * 60_000])) for it in range(60))
        writes = subprocess.Popen(
            [sys.executable, "-c", "import sys; sys.stdout.buffer.write(sys.stdin.buffer.read())"],
            stdin=subprocess.PIPE,
            stdout=server.stdin,
            env=environment(),  # (buffered: else a write may be a part of it)
        )
        server.stdin.close()
        writes.stdin.write(given)
        writes.stdin.close()
        time.sleep(0.5)
        got = messages(server.stdout.read())
        self.assertEqual([it["id"] for it in got], list(range(60)))
        self.assertEqual((server.wait(SECONDS), writes.wait(SECONDS)), (0, 0))

    def test_ctrl_c(self):
        # (a process in the background of a shell ignores it, and so do its children)
        before = signal.signal(signal.SIGINT, signal.default_int_handler)
        self.addCleanup(signal.signal, signal.SIGINT, before)
        server = self.started()
        server.stdin.write(frame(request(1, "echo", [1])))
        self.assertEqual(read_message(server.stdout.fileno())["result"], [1])
        server.send_signal(signal.SIGINT)
        self.assertEqual(server.wait(SECONDS), 1)
        self.assertEqual(server.stderr.read(), b"the session ended: it was interrupted, as by Ctrl-C\n")

    @rows(["", "import asyncio\n"])
    def test_a_handler_of_a_signal_may_stop_it(self, before):
        server = self.started(
            before + "import signal\nsignal.signal(signal.SIGTERM, lambda *_: server.stop(3))\n"
        )
        server.stdin.write(frame(request(1, "echo", [1])))
        read_message(server.stdout.fileno())
        server.send_signal(signal.SIGTERM)
        self.assertEqual(server.wait(SECONDS), 3)

    def test_nobody_reads(self):
        server = self.started()
        server.stdout.close()
        server.stdin.write(frame(request(1, "echo", [1])))
        self.assertEqual(server.wait(SECONDS), 1)

    @rows(["<&-", ">&-"])
    def test_closed_streams(self, which):
        words = " ".join(f"'{it}'" for it in self.script())
        ended = ran(
            ["sh", "-c", f"exec {words} {which}"],
            env=self.environment(),
            stdin=subprocess.DEVNULL,
            stdout=subprocess.DEVNULL,
        )
        self.assertEqual(ended.returncode, 1)
        self.assertIn(b"the standard input or output is closed", ended.stderr)


class Named(Case):
    def test_all_names_of_the_package(self):
        import bullmyrtle

        for name in bullmyrtle.__all__:
            self.assertTrue(hasattr(bullmyrtle, name), name)
        for name in ("client", "connection", "errors", "events", "server"):
            self.assertEqual(getattr(bullmyrtle, name).__name__, f"bullmyrtle.{name}")
        with self.assertRaises(AttributeError):
            bullmyrtle.nothing
