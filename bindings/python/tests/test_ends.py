"""An end that says why: one line that a person understands, and the same as data."""
import asyncio
import contextlib
import json
import logging
import os
import subprocess
import sys
import tempfile
import textwrap
import time
from unittest import mock

from helping import SECONDS, Case, InAFolder, by_the_clock, command, environment, frame, joined
from helping import logged, notice, ran, request, rows

from bullmyrtle import LATER, BadSettings, Client, Closed, NoMemory, Server, Unanswered, _process, events
from bullmyrtle.testing import Memory

LINE = b'{"jsonrpc":"2.0","method":"add","params":[1,2],"id":7}\n'
ADD = frame(request(1, "echo", [1]))
LINES = 'is this line framing? Server(framing="lines")'


class Raw(Memory):
    """A channel whose other half is the test."""

    def __init__(self):
        super().__init__()
        self._other = Memory()

    def feed(self, *pieces):
        for it in pieces:
            self._transport.received(it)


def a_server(**settings):
    server = Server(**{"grace": 0.05, **settings})
    server.method("echo")(lambda params: params)

    @server.method("wait")
    async def wait(params):
        await asyncio.sleep(20)

    @server.method("forget")
    def forget(params, request):
        return LATER

    return server


class Ends(Case):
    def end(self, server, *pieces, use=lambda server, channel: channel._transport.input_ended(False)):
        """How a session ends that is fed with these, and what is logged at WARNING."""

        async def main():
            channel = Raw()
            serving = asyncio.ensure_future(server.serve_over(channel))
            await asyncio.sleep(0)
            session = server.session
            self.assertIsNone(session.ended)
            channel.feed(*pieces)
            use(server, channel)
            try:
                status = await serving
            except asyncio.CancelledError:
                status = None
            self.assertEqual(session.ended, server.ended)
            self.assertEqual(session.ended.status, status)
            if session.ended.how != "Stopped":
                self.assertEqual(session.ended.is_clean, status == 0)
            return session.ended

        with logged() as log:
            end = self.wait(main())
        lines = [it.getMessage() for it in log.records if it.levelno == logging.WARNING]
        self.assertEqual(len(lines), 0 if end.is_clean else 1, lines)
        for it in lines:
            self.assertIn(end.text, it)
            self.assertNotIn("\n", it)
        return end

    def check(self, pieces, how, offset, first, *words, **settings):
        end = self.end(a_server(**settings), *pieces)
        self.assertEqual((end.how, end.offset, end.first), (how, offset, first))
        self.assertEqual(end.status, 1)
        if offset is not None:
            self.assertIn(f"at byte {offset}", end.text)
        if first is not None:
            self.assertIn(f": {first!r}", end.text)
        for it in words:
            self.assertIn(it, end.text)
        return end

    def test_lines_to_a_framed_server(self):
        self.check([LINE], "BadHead", 0, LINE, LINES)
        self.check([b"[" + LINE], "BadHead", 0, b"[" + LINE, LINES)
        self.check([LINE[:20]], "Truncated", 0, LINE[:20], LINES)
        long = b'{"jsonrpc":"2.0","method":"' + b"x" * 100 + b'"}\n'
        self.check([long], "BadHead", 0, long[:64], LINES)

    def test_each_fault_of_a_head(self):
        for given, how, words in (
            (b"hello\n", "BadHead", "Content-Length"),
            (b"Content-Length: 5\n\n", "BadHead", "CR LF"),
            (b"\xef\xbb\xbfContent-Length: 2\r\n\r\n{}", "BadHead", "byte order mark"),
            (b"GET / HTTP/1.1\r\nHost: x\r\n\r\n", "BadHead", "HTTP"),
            (b"Content-Length: x\r\n\r\n", "BadLength", "1 to 10 digits"),
            (b"Content-Length: 5\r\nContent-Length: 5\r\n\r\n", "TwoLengths", "two"),
            (b"Content-Type: x\r\n\r\n", "NoLength", "without Content-Length"),
            (b"A: " + b"x" * 5000, "HeadTooLong", "4,096"),
            (b"Content-Length: 99999999\r\n\r\n", "TooLarge", "16,777,216"),
            (b"Content-Length: 9\r\n\r\n{}", "Truncated", "ended inside a message"),
            (b"Content-Le", "Truncated", "ended inside a message"),
        ):
            for before in (b"", ADD, 3 * ADD):
                with self.subTest(given=given[:30], before=len(before)):
                    self.check([before + given], how, len(before), given[:64], words)
        self.check(
            [b"Content-Length: 101\r\n\r\n"],
            "TooLarge",
            0,
            b"Content-Length: 101\r\n\r\n",
            "100",
            content=100,
        )

    def test_cuts_change_nothing(self):
        given = ADD + b"hello\nand more"
        for cut in range(1, len(given)):
            # (what comes behind the piece with the fault isn't read any more)
            seen = given if cut < len(ADD) + len(b"hello\n") else given[:cut]
            self.check([given[:cut], given[cut:]], "BadHead", len(ADD), seen[len(ADD) :])
        self.check([bytes([it]) for it in given], "BadHead", len(ADD), b"hello\n")

    @rows(
        [
            (b"hello\nand more", "BadHead"),
            (LINE, "BadHead"),
            (b"Content-Length: x\r\n\r\n", "BadLength"),
            (b"Content-Length: 5\r\nContent-Length: 5\r\n\r\n", "TwoLengths"),
            (b"Content-Type: x\r\n\r\n", "NoLength"),
            (b"A: " + b"x" * 4100, "HeadTooLong"),
            (b"Content-Length: 99999999\r\n\r\n", "TooLarge"),
            (b"Content-Length: 9\r\n\r\n{}", "Truncated"),
            (b"Content-Length: 9000\r\n\r\n" + b"y" * 7000, "Truncated"),
        ]
    )
    def test_anywhere_in_the_stream(self, given, how):
        """As far behind the stream's beginning as may be, and cut anyhow."""
        for many in (103 * ADD, 300 * ADD + frame(b"nonsense")):
            data = many + given
            for at in (len(many) - 1, len(many), len(many) + 1):
                self.check([data[:at], data[at:]], how, len(many), given[:64])
            if len(given) > 100:
                continue
            end = self.end(a_server(), many, *(bytes([it]) for it in given))
            self.assertEqual((end.how, end.offset), (how, len(many)))
            self.assertEqual(end.first, given[: len(end.first)])
            self.assertGreater(len(end.first), 5)

    def test_a_frame_whose_beginning_isnt_kept(self):
        """Its place is known all the same."""
        large = b"Content-Length: 99999\r\n\r\n"
        pieces = [b"y" * 10_000] * 3
        end = self.check([500 * ADD, large, *pieces], "Truncated", 500 * len(ADD), None)
        self.assertTrue(
            end.text.endswith(
                f"at byte {500 * len(ADD)}: the other side ended before it had written all of it"
            )
        )
        self.check([large, *pieces], "Truncated", 0, (large + pieces[0])[:64])

    def test_it_is_what_the_connection_says(self):
        """In a session that is traced, and in one whose content is read aside."""
        many, large = 500 * ADD, frame(request(1, "echo", ["x" * 200_000]))
        self.check([many, b"hello\n"], "BadHead", len(many), b"hello\n", trace=lambda line: None)
        self.check([many + large + b"hello\n"], "BadHead", len(many + large), b"hello\n")

    @rows([1, 64, 65, 66, 200])
    def test_behind_many_short_pieces(self, many):
        self.check([ADD] * many + [b"hello\n"], "BadHead", many * len(ADD), b"hello\n")
        self.check([ADD] * many + [b"hel", b"lo\n"], "BadHead", many * len(ADD), b"hello\n")
        good, long = b'{"jsonrpc":"2.0","method":"echo"}\n', b"x" * 101
        self.check(
            [good] * many + [long], "TooLarge", many * len(good), long[:64], framing="lines", content=100
        )

    def test_what_comes_behind_a_fault_doesnt_count(self):
        self.check([LINE, LINE, ADD], "BadHead", 0, LINE)

    def test_a_long_line(self):
        good = b'{"jsonrpc":"2.0","method":"echo","id":1}\n'
        long = b'{"jsonrpc":"2.0","method":"echo","params":["' + b"x" * 100 + b'"],"id":2}\n'
        given = good + b"\n \r\n" + good + long + good + long
        offset = 2 * len(good) + 4
        for pieces in (
            [given],
            [given, good],
            *([given[:cut], given[cut:]] for cut in range(1, len(given), 7)),
            [bytes([it]) for it in given],
        ):
            self.check(
                pieces, "TooLarge", offset, long[:64], "more than 100 bytes", framing="lines", content=100
            )
        # (exactly as long as it may be, and a CR too)
        fits = b"x" * 100
        self.assertTrue(
            self.end(a_server(framing="lines", content=100), fits + b"\r\n" + fits + b"\n").is_clean
        )
        self.check([fits + b"\n" + fits + b"y"], "TooLarge", 101, fits[:64], framing="lines", content=100)

    def test_reading_that_fails(self):
        end = self.end(a_server(), ADD, use=lambda server, channel: channel._transport.input_ended(True))
        self.assertEqual((end.how, end.offset, end.status), ("Read", None, 1))
        self.assertIn("reading failed", end.text)

    async def test_a_call_while_the_streams_are_closed(self):
        class Closing(Raw):
            async def close(self, seconds):
                try:
                    self._transport.session.call("x")
                except Closed as error:
                    said.append(str(error))
                await super().close(seconds)

        said = []
        channel, server = Closing(), a_server()
        serving = asyncio.ensure_future(server.serve_over(channel))
        await asyncio.sleep(0)
        channel._transport.input_ended(False)
        await serving
        self.assertEqual(said, ["the session is over"])

    def test_nobody_reads(self):
        end = self.end(a_server(), ADD, use=lambda server, channel: channel._transport.broke())
        self.assertEqual((end.how, end.status), ("Broken", 1))
        self.assertIn("nobody reads", end.text)

    def test_too_many_calls(self):
        end = self.end(a_server(calls=2), 3 * ADD)
        self.assertEqual((end.how, end.status), ("Full", 1))
        self.assertIn("calls=2", end.text)

    def test_no_answer_in_time(self):
        wait, forget = frame(request(1, "wait")), frame(request(2, "forget"))
        end = self.end(a_server(), wait, forget, frame(notice("wait")))
        self.assertEqual((end.how, end.unanswered, end.status), ("Late", 2, 1))
        self.assertIn("wait didn't end within the grace of 0.05 seconds", end.text)
        self.assertIn("forget returned LATER, and request.answer or request.fail was never called", end.text)
        many = self.end(a_server(), *(frame(request(it, "wait")) for it in range(1000)))
        self.assertEqual(many.unanswered, 1000)
        self.assertLess(len(many.text), 500)

    def test_a_fault_comes_before_what_follows_from_it(self):
        end = self.end(a_server(), frame(request(1, "wait")), LINE)
        self.assertEqual((end.how, end.unanswered), ("BadHead", 1))

    def test_no_memory(self):
        def refuse(server, channel):
            def fed(data):
                raise NoMemory()

            server.session._transport.connection.fed = fed
            channel.feed(ADD)

        end = self.end(a_server(), ADD, use=refuse)
        self.assertEqual((end.how, end.status), ("Memory", 1))
        self.assertIn("memory", end.text)

    def test_cancelled_by_the_host(self):
        def cancel(server, channel):
            for it in asyncio.all_tasks():
                if "serve_over" in repr(it):
                    it.cancel()

        end = self.end(a_server(), ADD, use=cancel)
        self.assertEqual((end.how, end.status, end.is_clean), ("Cancelled", None, False))

    def test_clean_ones(self):
        end = self.end(a_server(), ADD)
        self.assertEqual((end.how, end.status, end.is_clean, end.offset), ("Clean", 0, True, None))
        for status in (0, 1, 5):
            end = self.end(a_server(), ADD, ADD[:9], use=lambda server, channel: server.stop(status))
            self.assertEqual((end.how, end.status, end.is_clean), ("Stopped", status, True))

    async def test_of_a_server(self):
        server = a_server()
        self.assertIsNone(server.ended)
        async with joined(server):
            self.assertIsNone(server.ended)
        self.assertEqual(server.ended.how, "Clean")
        async with joined(server):
            pass
        with self.assertRaises(RuntimeError) as caught:
            server.ended
        self.assertIn("session.ended", str(caught.exception))

    async def test_later_calls_are_told(self):
        with logged():
            server = a_server()
            caught = []

            @server.method("ask")
            async def ask(params, request):
                for call in (request.call, server.call):
                    try:
                        await call("never")
                    except Unanswered as error:
                        caught.append(str(error))

            channel = Raw()
            serving = asyncio.ensure_future(server.serve_over(channel))
            await asyncio.sleep(0)
            channel.feed(frame(request(1, "ask")))
            await asyncio.sleep(0)
            channel.feed(LINE)
            await serving
        self.assertEqual(len(caught), 2)
        for it in caught:
            self.assertIn(LINES, it)
        with self.assertRaises(Closed) as error:
            server.call("x")
        self.assertIn(LINES, str(error.exception))


class OnStandardError(Case):
    """Without any logging set up, the line is there to be read."""

    def run_server(self, given, text="server.method('echo')(lambda params: params)\n"):
        with tempfile.TemporaryDirectory() as room:
            file = os.path.join(room, "server.py")
            head = "import sys\nfrom bullmyrtle import LATER, Server\nserver = Server(grace=0.05)\n"
            with open(file, "w", encoding="utf-8") as it:
                it.write(head + text + "sys.exit(server.run())\n")
            got = ran(command(file), given)
        return got.returncode, got.stderr.decode().splitlines()

    def test_lines_to_a_framed_server(self):
        self.assertEqual(
            self.run_server(b'{"jsonrpc":"2.0","method":"echo"}\n'),
            (
                1,
                [
                    "the session ended: a message can't be read, at byte 0: "
                    'b\'{"jsonrpc":"2.0","method":"echo"}\\n\': '
                    'is this line framing? Server(framing="lines")'
                ],
            ),
        )

    def test_a_forgotten_answer(self):
        text = "server.method('m')(lambda params, request: LATER)\n"
        status, lines = self.run_server(frame(request(1, "m")), text)
        self.assertEqual(status, 1)
        self.assertIn("m returned LATER, and request.answer or request.fail was never called", lines[-1])

    def test_an_interrupt(self):
        # (what a shell runs in the background ignores the signal)
        text = "import signal\nsignal.signal(signal.SIGINT, signal.default_int_handler)\n"
        text += "server.method('m')(lambda: __import__('os').kill(__import__('os').getpid(), 2))\n"
        status, lines = self.run_server(frame(request(1, "m")), text)
        self.assertEqual((status, len(lines)), (1, 1))
        self.assertEqual(lines[0], "the session ended: it was interrupted, as by Ctrl-C")

    def test_an_exit_says_nothing(self):
        text = "server.method('m')(lambda: sys.exit(3))\n"
        self.assertEqual(self.run_server(frame(request(1, "m")), text), (3, []))


class Scripts(InAFolder):
    """A client of a script that is written here."""

    def script(self, text):
        return self.file("server.py", textwrap.dedent(text))

    def client(self, text, **more):
        more = {"stderr": lambda data: None, **more}
        # (so long a grace that a process which begins or ends late on a busy machine isn't killed)
        return Client([sys.executable, self.script(text)], grace=SECONDS, **more)

    @staticmethod
    def patient(seconds=SECONDS):
        """Waits for a process that ends, and not for so long only as a person should."""
        return mock.patch.object(_process, "_SECONDS", seconds)


class Processes(Scripts):
    """What a client says of a server that ends."""

    async def told(self, client, let_go=None):
        """The text of what a call raises, that of a later one, and the one line that is logged; what lets go of a server
        that stays until then is called behind that line."""
        with logged() as log:
            async with client:
                with self.assertRaises((Unanswered, Closed)) as first:
                    await client.call("x")
                with self.assertRaises((Unanswered, Closed)) as second:
                    await client.call("x")
                if let_go is not None:
                    await self.until(lambda: log.errors)
                    let_go()
            with self.assertRaises(Closed) as third:
                client.call("x")
            texts = [str(it.exception) for it in (first, second, third)]
        lines = [it.getMessage() for it in log.records if it.levelno == logging.WARNING]
        self.assertEqual(len(lines), 1, lines)
        self.assertNotIn("\n", lines[0])
        return [*texts, *lines]

    async def test_a_banner(self):
        client = self.client("print('Welcome to server 1.0', flush=True)\nimport sys; sys.stdin.read()\n")
        for it in await self.told(client):
            self.assertIn(
                "at byte 0: b'Welcome to server 1.0\\n': the server wrote something else than messages to its "
                "standard output, as a banner or what it prints, which belongs on its standard error",
                it,
            )
        self.assertEqual((client.ended.how, client.ended.offset), ("BadHead", 0))
        self.assertEqual(client.ended.first, b"Welcome to server 1.0\n")

    async def test_lines(self):
        client = self.client(
            'print(\'{"jsonrpc":"2.0","method":"x"}\', flush=True)\nimport sys; sys.stdin.read()\n'
        )
        for it in await self.told(client):
            self.assertIn('is this line framing? Client(.., framing="lines")', it)

    async def test_a_traceback(self):
        client = self.client("raise KeyError('there is no such thing')\n")
        with self.patient():
            *texts, line = await self.told(client)
        for it in texts:
            self.assertIn("the server ended with status 1", it)
            self.assertIn("KeyError: 'there is no such thing'", it)
        self.assertIn("the server ended with status 1", line)
        self.assertEqual((client.ended.exit_status, client.ended.is_clean), (1, False))
        self.assertIn(b"KeyError", client.ended.stderr)

    async def check_killed(self):
        client = self.client(
            "import os, sys\nsys.stderr.write('so far'); sys.stderr.flush()\nos.kill(os.getpid(), 9)\n"
        )
        with self.patient():
            found = await self.told(client)
        for it in found:
            self.assertIn("the server was killed by SIGKILL", it)
        self.assertEqual((client.ended.exit_status, client.ended.stderr), (-9, b"so far"))

    async def test_killed(self):
        await self.check_killed()

    async def test_killed_while_a_thread_reads_late(self):
        """Where a thread reads its standard error, that may come to it once the process has ended."""
        usual = _process._ErrorOutput._read_in_thread

        def late(output, descriptor):
            with contextlib.suppress(ChildProcessError):  # (there are none once its status was taken)
                os.waitid(os.P_ALL, 0, os.WEXITED | os.WNOWAIT)
            time.sleep(0.1)
            usual(output, descriptor)

        with mock.patch.object(_process, "WAITS", False):
            with mock.patch.object(_process._ErrorOutput, "_read_in_thread", late):
                await self.check_killed()

    async def test_it_stays_but_says_no_more(self):
        # (it stays until all but the last is said: the session closes its input before it says how it ended)
        stays = "import os, sys, time\nos.close(1)\nsys.stdin.read()\n"
        stays += f"while not os.path.exists({self.file('go')!r}):\n    time.sleep(0.01)\n"
        client = self.client(stays, stderr="inherit")
        began = time.monotonic()
        first, second, after, line = await self.told(client, lambda: self.file("go", ""))
        for it in (first, second, line):
            self.assertIn("its process still runs", it)
        self.assertIn("the server ended with status 0", after)
        self.assertLess(time.monotonic() - began, SECONDS / 2)  # (of its grace)

    async def test_a_clean_end_says_nothing(self):
        file = self.script(
            """
            import sys
            from bullmyrtle import Server
            server = Server()
            server.method("echo")(lambda params: params)
            sys.exit(server.run())
            """
        )
        client = Client(command(file), env=environment())
        with logged() as log:
            async with client:
                self.assertEqual(await client.call("echo", [1]), [1])
            self.assertEqual(await client.close(), 0)
            self.assertEqual((client.ended.how, client.ended.is_clean), ("Clean", True))
            self.assertEqual((client.ended.exit_status, client.ended.stderr), (0, b""))
        self.assertEqual(log.texts, [])

    async def test_it_ends_by_itself_and_well(self):
        client = self.client("print(end='')\n")
        with logged() as log, self.patient():
            async with client:
                await self.until(lambda: client.ended)
                with self.assertRaises(Closed) as caught:
                    client.call("x")
                said = str(caught.exception)
        self.assertEqual(
            said,
            "the session with the server is over: the server closed its output; the server ended with status 0",
        )
        self.assertEqual((log.texts, client.ended.how), ([], "Clean"))

    async def test_one_that_has_to_be_killed(self):
        text = "import signal, sys, time\nsignal.signal(signal.SIGTERM, signal.SIG_IGN)\n"
        client = self.client(text + "print('ready', file=sys.stderr, flush=True)\ntime.sleep(60)\n")
        client._grace = 0.3
        with logged() as log:
            async with client:
                await self.until(lambda: b"ready" in client._process.last)
            self.assertEqual(await client.close(), -9)
        (line,) = [it for it in log.texts if "killed" in it]
        self.assertIn("didn't end within the grace of 0.3 seconds", line)


class StandardErrors(Scripts):
    LOUD = """
        import os, sys, time
        for it in range(3):
            os.write(2, b"line %d\\n" % it)
        while os.read(0, 100):
            pass
    """

    async def run_loud(self, text=LOUD, seconds=SECONDS, least=0, **more):
        """How a client ended that saw its server for a while, and so many bytes of its standard error; so many seconds it
        waits for the process's end, and for what that wrote before."""
        client = self.client(text, **more)
        with logged(), self.patient(seconds):
            async with client:
                await asyncio.sleep(0.3)
                await self.until(lambda: len(client._process.last) >= least)
            return client.ended

    def test_it_is_passed_on_as_it_comes(self):
        code = """
            import asyncio, sys
            from bullmyrtle import Client
            async def main():
                async with Client([sys.executable, sys.argv[1]]) as client:
                    await asyncio.get_running_loop().run_in_executor(None, sys.stdin.read)
            asyncio.run(main())
        """
        loud = self.script(
            "import os, sys\nos.write(2, b'at once\\n')\nsys.stdin.read()\nos.write(2, b'at last\\n')\n"
        )
        host = os.path.join(self.room, "host.py")
        with open(host, "w", encoding="utf-8") as it:
            it.write(textwrap.dedent(code))
        pipes = {"stdin": subprocess.PIPE, "stderr": subprocess.PIPE, "env": environment()}
        with subprocess.Popen(command(host, loud), bufsize=0, **pipes) as process:
            self.assertEqual(process.stderr.readline(), b"at once\n")
            process.stdin.close()
            self.assertEqual(process.stderr.read(), b"at last\n")
            self.assertEqual(process.wait(SECONDS), 0)

    async def test_a_callback(self):
        heard = []
        end = await self.run_loud(stderr=heard.append)
        self.assertEqual((b"".join(heard), end.stderr), (b"line 0\nline 1\nline 2\n",) * 2)

    async def test_a_callback_that_raises(self):
        def fail(data):
            raise KeyError("no")

        self.assertEqual((await self.run_loud(stderr=fail)).stderr, b"line 0\nline 1\nline 2\n")

    async def test_a_file(self):
        with tempfile.TemporaryFile() as it:
            end = await self.run_loud(stderr=it)
            it.seek(0)
            self.assertEqual((it.read(), end.stderr), (b"line 0\nline 1\nline 2\n", b""))

    def test_inherited(self):
        code = """
            import asyncio, os, sys
            from bullmyrtle import Client
            async def main():
                async with Client([sys.executable, sys.argv[1]], stderr="inherit") as client:
                    pass
            asyncio.run(main())
        """
        asks = self.script("import os\nos.write(2, os.readlink('/proc/self/fd/2').encode())\n")
        host = os.path.join(self.room, "host.py")
        with open(host, "w", encoding="utf-8") as it:
            it.write(textwrap.dedent(code))
        with tempfile.NamedTemporaryFile(dir=self.room) as it:
            ran(command(host, asks), stderr=it, check=True)
            it.seek(0)
            self.assertEqual(it.read().decode(), it.name)

    @rows(["nowhere", 5.5, object()])
    def test_other_choices(self, it):
        with self.assertRaises(BadSettings) as caught:
            Client(["server"], stderr=it)
        self.assertIn("'inherit'", str(caught.exception))

    async def test_the_last_4_kb_of_much(self):
        end = await self.run_loud(
            "import os, sys\nfor it in range(20000):\n    os.write(2, b'%06d\\n' % it)\nsys.stdin.read()\n"
        )
        self.assertEqual(len(end.stderr), 4096)
        self.assertTrue(end.stderr.endswith(b"019998\n019999\n"))

    @by_the_clock
    async def test_nothing_is_left_behind(self):
        """Also where a child of the server has its standard error, and stays."""
        text = "import subprocess, sys\nnull = subprocess.DEVNULL\n"
        text += "subprocess.Popen(['sleep', '3'], stdin=null, stdout=null)\n"
        before = len(os.listdir("/proc/self/fd"))
        began = time.monotonic()
        await self.run_loud(text + "sys.stdin.read()\n", _process._SECONDS)
        self.assertEqual(len(os.listdir("/proc/self/fd")), before)
        self.assertLess(time.monotonic() - began, 2.5)

    async def test_a_child_that_goes_on_writing(self):
        text = "import subprocess, sys\nnull = subprocess.DEVNULL\n"
        text += "subprocess.Popen(['sh', '-c', 'yes >&2'], stdin=null, stdout=null)\nsys.stdin.read()\n"
        began = time.monotonic()
        # (the child may begin later than the server would end)
        end = await self.run_loud(text, _process._SECONDS, 4096)
        self.assertEqual((end.how, len(end.stderr)), ("Clean", 4096))
        self.assertLess(time.monotonic() - began, SECONDS / 2)  # (of the server's grace)
        # (the child may be slower than who reads; so here is one that isn't)
        endless, reads = _process._ErrorOutput.__new__(_process._ErrorOutput), []
        endless.read = lambda: len(reads) < 100_000 and not reads.append(1)
        endless.read_what_is_there()
        self.assertLess(len(reads), 100)


class Counted(Case):
    """Messages that can't be read, or are none: one line at INFO, at most once a second."""

    async def lines(self, *pieces, server=None, naps=()):
        seen = []
        root = logging.getLogger("bullmyrtle")
        before = root.level
        root.setLevel(logging.INFO)
        try:
            with logged() as log:
                it = server or a_server(framing="lines")
                channel = Raw()
                serving = asyncio.ensure_future(it.serve_over(channel))
                await asyncio.sleep(0)
                for at, piece in enumerate(pieces):
                    channel.feed(piece)
                    await asyncio.sleep(naps[at] if at < len(naps) else 0)
                    seen.append(len(self.of(log)))
                channel._transport.input_ended(False)
                await serving
        finally:
            root.setLevel(before)
        return self.of(log), seen

    @staticmethod
    def of(log):
        return [
            it.getMessage()
            for it in log.records
            if it.levelno == logging.INFO and "came so far" in it.getMessage()
        ]

    async def test_at_once(self):
        lines, seen = await self.lines(b"hello\n")
        self.assertEqual((len(lines), seen), (1, [1]))
        self.assertIn("1 message that couldn't be read (-32700) came so far", lines[0])
        self.assertIn("b'hello", lines[0])
        lines, _ = await self.lines(b"5\n6\n")
        self.assertIn("2 messages that were neither a call nor a reply (-32600) came so far", lines[0])
        said = (
            "2 messages that couldn't be read (-32700) and 1 that was neither a call nor a reply (-32600) "
            "came so far, besides 0 calls; "
        )
        last = "the last one began at byte 8 with b'byebye'"
        lines, _ = await self.lines(b"hello\n5\nbyebye\n")
        self.assertEqual(lines, [said + last])

    async def test_frames_to_a_server_of_lines(self):
        lines, _ = await self.lines(ADD)
        self.assertIn('are these frames? Server(framing="frames")', lines[0])

    async def test_none(self):
        self.assertEqual((await self.lines(b'{"jsonrpc":"2.0","method":"echo","id":1}\n\n'))[0], [])

    async def test_once_a_second(self):
        good = b'{"jsonrpc":"2.0","method":"echo","id":1}\n'
        lines, seen = await self.lines(*[b"hello\n"] * 5, good, good, naps=[0, 0, 0, 0, 0, 1.3, 0])
        self.assertEqual(seen, [1, 1, 1, 1, 1, 2, 2])
        self.assertIn("5 messages", lines[-1])

    async def test_at_the_end(self):
        lines, seen = await self.lines(b"hello\n", b"hello\n")
        self.assertEqual(seen, [1, 1])
        self.assertEqual(len(lines), 2)
        self.assertIn("2 messages", lines[-1])

    async def test_beside_good_ones(self):
        good = b'{"jsonrpc":"2.0","method":"echo","id":1}\n'
        lines, _ = await self.lines(good + b"hello\n" + good)
        self.assertEqual(len(lines), 1)
        self.assertIn("besides 2 calls", lines[0])


class Broken(Case):
    """Broken input is told to a hook: where it is, its first bytes, and what is wrong."""

    GOOD = b'{"jsonrpc":"2.0","method":"echo","id":1}\n'

    async def told(self, hook, *pieces, make=Server, **settings):
        """Feeds a session, and gives what was logged as errors."""
        self.seen = []
        with logged() as log:
            peer = make(framing="lines", on_broken=hook, **settings)
            peer.method("echo")(lambda params: self.seen.append("echo"))
            channel = Raw()
            if make is Server:
                serving = asyncio.ensure_future(peer.serve_over(channel))
            else:
                peer.attach(channel)
                serving = peer._serving
            await asyncio.sleep(0)
            self.session = peer.session
            channel.feed(*pieces)
            await asyncio.sleep(0)
            channel._transport.input_ended(False)
            await serving
            self.ended = self.session.ended
        return log.errors

    @rows([Server, Client])
    async def test_it_is_told_in_its_place(self, make):
        def hook(broken, session):
            self.assertIs(session, self.session)
            self.seen.append(broken)

        self.assertEqual(await self.told(hook, self.GOOD + b"nonsense\n[1,2]\n", self.GOOD, make=make), [])
        self.assertEqual(
            self.seen,
            [
                "echo",
                events.Broken(len(self.GOOD), b"nonsense", "Unreadable", 0, 0),
                events.Broken(len(self.GOOD) + 9, b"[1,2]", "Invalid", 0, 2),
                "echo",
            ],
        )
        self.assertEqual((self.ended.how, self.ended.status), ("Clean", 0))

    async def test_a_hook_that_raises(self):
        def hook(broken, session):
            raise KeyError(broken.offset)

        errors = await self.told(hook, b"nonsense\n" + self.GOOD + b"5\n")
        self.assertEqual([it.getMessage() for it in errors], ["on_broken raised KeyError"] * 2)
        self.assertEqual((self.seen, self.ended.how), (["echo"], "Clean"))

    async def test_a_hook_that_ends_the_session(self):
        errors = await self.told(lambda broken, session: session.stop(3), b"nonsense\n", self.GOOD)
        self.assertEqual((errors, self.seen), ([], []))
        self.assertEqual((self.ended.how, self.ended.status), ("Stopped", 3))

    async def test_while_calls_are_held(self):
        """A slow reader holds calls up, and not what is told of broken input."""

        def hook(broken, session):
            self.seen.append(broken.first)

        def much(params):
            self.seen.append("much")
            return "x" * 2_000_000

        self.seen = []
        server = Server(framing="lines", on_broken=hook)
        server.method("much")(much)
        channel = Raw()
        channel.write = lambda: None
        serving = asyncio.ensure_future(server.serve_over(channel))
        await asyncio.sleep(0)
        ask = b'{"jsonrpc":"2.0","method":"much","id":1}\n'
        channel.feed(ask + ask + b"nonsense\n" + ask)
        await self.until(lambda: len(self.seen) == 2)
        self.assertEqual(self.seen, ["much", b"nonsense"])
        server.stop()
        with logged():
            await serving

    async def test_the_trace_has_it(self):
        lines = []
        await self.told(None, b"nonsense\n", trace=lines.append)
        found = [it for it in map(json.loads, lines) if it["type"] == "broken"]
        self.assertEqual([it["isLSPMessage"] for it in found], [False])
        self.assertEqual(
            found[0]["message"], {"text": "a message can't be read (-32700), at byte 0: b'nonsense'"}
        )


class Hooks(Case):
    @rows([Server, Client])
    def test_what_is_no_hook(self, kind):
        async def later(broken, session):
            pass

        for it in (5, "log", later):
            with self.assertRaises(BadSettings) as caught:
                kind(on_broken=it)
            self.assertIn("it is a plain function, or None", str(caught.exception))
