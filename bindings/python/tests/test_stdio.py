"""`run` on the standard streams, in a process of its own: what they may be, who can't corrupt them, how it ends."""
import asyncio
import contextlib
import os
import pty
import signal
import socket
import subprocess
import textwrap
import threading
import time
import tty
import unittest

from helping import SECONDS, InAFolder, command, environment, frame, messages
from helping import notice, patience, ran, request, rows, write_all

from bullmyrtle import Server
from bullmyrtle._channels import Descriptors

HEAD = """
import asyncio, ctypes, os, subprocess, sys, threading, time
from bullmyrtle import LATER, Error, Server
server = Server(grace=float(os.environ.get("GRACE", "20")))
@server.method("echo")
def echo(params):
    return params
@server.method("exit")
def leave(params):
    server.stop(params[0] if params else 0)
"""
TAIL = """
status = server.run()
alive = [it.name for it in threading.enumerate() if it is not threading.main_thread()]
# (one that waits for input, where no loop can, is known to stay)
alive = [it for it in alive if it != "bullmyrtle-reading" or os.environ.get("BULLMYRTLE_IO") != "threads"]
print("threads", alive, file=sys.stderr)
sys.exit(status)
"""
BROKEN = b"the session ended: the output can't be written: nobody reads it any more, or its device is full\nthreads []\n"


class Scripts(InAFolder):
    def script(self, body="", tail=TAIL):
        return command(self.file("server.py", HEAD + textwrap.dedent(body) + textwrap.dedent(tail)))

    def ran(self, given, body="", tail=TAIL, grace=20):
        """Runs a server on this input, and gives its status, its messages and its errors."""
        ended = ran(self.script(body, tail), given, env=environment(GRACE=str(grace)))
        return ended.returncode, ended.stdout, ended.stderr.decode()

    def started(self, body="", tail=TAIL, **more):
        how = {"stdin": subprocess.PIPE, "stdout": subprocess.PIPE, "stderr": subprocess.PIPE, **more}
        process = subprocess.Popen(self.script(body, tail), env=environment(), bufsize=0, **how)
        self.addCleanup(self.ended, process)
        return process

    @staticmethod
    def ended(process):
        if process.poll() is None:
            process.kill()
        process.wait()
        for it in (process.stdin, process.stdout, process.stderr):
            if it is not None:
                it.close()


def echoed(id_, params):
    return {"id": id_, "jsonrpc": "2.0", "result": params}


def read_message(descriptor):
    """Reads one message from a descriptor."""
    data = b""
    while b"\r\n\r\n" not in data:
        more = os.read(descriptor, 1)
        if not more:
            raise EOFError(data)
        data += more
    length = int(data.split(b":")[1])
    body = b""
    while len(body) < length:
        body += os.read(descriptor, length - len(body))
    return messages(data + body)[0]


def read_line(file):
    data = b""
    while not data.endswith(b"\n"):
        more = file.read(1)
        if not more:
            raise EOFError(data)
        data += more
    return data


class Streams(Scripts):
    given = frame(request(1, "echo", ["a"])) + frame(request(2, "echo", ["b" * 3000]))
    answers = [echoed(1, ["a"]), echoed(2, ["b" * 3000])]

    def test_pipes(self):
        status, out, err = self.ran(self.given)
        self.assertEqual((status, messages(out), err), (0, self.answers, "threads []\n"))

    def test_files(self):
        with open(self.file("in", self.given), "rb") as given, open(self.file("out"), "wb") as out:
            ended = ran(self.script(), stdin=given, stdout=out)
        self.assertEqual((ended.returncode, messages(self.data("out"))), (0, self.answers), ended.stderr)

    def test_nothing(self):
        ended = ran(self.script(), stdin=subprocess.DEVNULL, stdout=subprocess.DEVNULL)
        self.assertEqual((ended.returncode, ended.stderr), (0, b"threads []\n"))

    @rows([True, False])
    def test_sockets(self, both):
        with contextlib.ExitStack() as stack:
            ours, theirs = map(stack.enter_context, socket.socketpair())
            process = self.started(stdin=theirs, stdout=theirs if both else subprocess.PIPE)
            theirs.close()
            ours.sendall(self.given)
            ours.shutdown(socket.SHUT_WR)
            data = b""
            while more := ours.recv(1 << 16) if both else process.stdout.read(1 << 16):
                data += more
            self.assertEqual(messages(data), self.answers)
            self.assertEqual(process.wait(SECONDS), 0)

    def test_terminals(self):
        ours, theirs = pty.openpty()
        tty.setraw(theirs)
        process = self.started(stdin=theirs, stdout=theirs)
        os.close(theirs)
        os.write(ours, frame(request(1, "echo", ["a"])))
        self.assertEqual(read_message(ours), self.answers[0])
        os.write(ours, frame(notice("exit")))
        self.assertEqual(process.wait(SECONDS), 0)
        os.close(ours)

    @unittest.skipIf(os.environ.get("BULLMYRTLE_IO") == "threads", "a read that is under way fails there")
    def test_a_terminal_that_hangs_up(self):
        ours, theirs = pty.openpty()
        tty.setraw(theirs)
        process = self.started(stdin=theirs, stdout=theirs, start_new_session=True)
        os.close(theirs)
        os.write(ours, frame(request(1, "echo", ["a"])))
        self.assertEqual(read_message(ours), self.answers[0])
        os.close(ours)
        # (the end of the input, as the kernel tells of it)
        self.assertEqual((process.wait(SECONDS), process.stderr.read()), (0, b"threads []\n"))

    def test_their_mode_isnt_changed(self):
        process = self.started()
        process.stdin.write(self.given)
        read_message(process.stdout.fileno())
        self.assertTrue(os.get_blocking(process.stdout.fileno()))
        modes = []
        for name in (0, 1):
            with open(f"/proc/{process.pid}/fdinfo/{name}", encoding="ascii") as it:
                modes.append(
                    int(next(line.split()[1] for line in it if line.startswith("flags")), 8) & os.O_NONBLOCK
                )
        self.assertEqual(modes, [0, 0])
        process.stdin.close()
        self.assertEqual(process.wait(SECONDS), 0)

    def test_nonblocking_pipes(self):
        process = self.started()
        os.set_blocking(process.stdin.fileno(), False)
        os.set_blocking(process.stdout.fileno(), False)
        process.stdin.write(frame(request(1, "echo", ["a"])))
        os.set_blocking(process.stdout.fileno(), True)
        self.assertEqual(read_message(process.stdout.fileno()), self.answers[0])
        process.stdin.close()
        self.assertEqual(process.wait(SECONDS), 0)

    def test_much_that_is_read_slowly(self):
        body = """
        @server.method("much")
        def much(params):
            return "x" * params[0]
        """
        process = self.started(body)
        for id_ in range(8):
            process.stdin.write(frame(request(id_, "much", [400_000])))
        time.sleep(0.5)
        for id_ in range(8):
            self.assertEqual(len(read_message(process.stdout.fileno())["result"]), 400_000)
        process.stdin.close()
        self.assertEqual(process.wait(SECONDS), 0)

    def test_reading_stops_while_much_is_to_be_written(self):
        self.wait(self.slowly_read())

    def test_reading_stops_once_much_is_to_be_written(self):
        async def fill(theirs, server):
            # (more than the pipe takes, and not yet so much that reading stops)
            os.write(theirs, frame(request(0, "much", [100_000])))
            await self.until(lambda: server.session._transport.channel._is_waiting)
            self.assertFalse(server.session._transport.channel._is_paused)

        self.wait(self.slowly_read(fill))

    async def slowly_read(self, before=None):
        server = Server(grace=SECONDS)  # (which is for all that is read behind the end of the input)
        server.method("much")(lambda params: "x" * params[0])
        given, theirs = os.pipe()
        ours, taken = os.pipe()
        serving = asyncio.ensure_future(server.serve_over(Descriptors(given, taken)))
        await asyncio.sleep(0)
        if before is not None:
            await before(theirs, server)
        one, count, sent = frame(request(1, "much", [20_000, "y" * 200])), 1000, []

        def write():
            for _ in range(count):
                write_all(theirs, one)
                sent.append(one)
            os.close(theirs)

        writing = threading.Thread(target=write, daemon=True)
        writing.start()
        await self.until(lambda: server.session._transport.channel._is_paused)
        await asyncio.sleep(0.2)
        # (what it has taken in is bounded: by one read, and by what the pipe holds)
        self.assertLess(len(sent), count)
        loop, answers, rest, head = asyncio.get_running_loop(), 0, b"", b"Content-Length"
        while data := await loop.run_in_executor(None, os.read, ours, 1 << 20):
            # (what a read gives may end inside a head)
            answers, rest = answers + (rest + data).count(head), (rest + data)[1 - len(head) :]
            if answers >= count + (before is not None) and serving.done():
                break
        self.assertEqual(await serving, 0)
        self.assertEqual(answers, count + (before is not None))
        writing.join()
        os.close(ours)


class Uncorrupted(Scripts):
    """Nobody but the server writes to the standard output, or reads from the standard input."""

    def test_writers(self):
        body = """
        print("printed before", end="")
        @server.method("all")
        def all_(params):
            print("printed")
            sys.stdout.write("written")
            sys.__stdout__.write("original")
            sys.stdout.buffer.write(b"buffered")
            os.write(1, b"descriptor")
            libc = ctypes.CDLL(None)
            libc.puts(b"libc")
            libc.fflush(None)
            libc.write(1, b"raw", 3)
            subprocess.run(["sh", "-c", "echo child; echo err >&2"], check=True)
            return subprocess.run(["sh", "-c", "echo kept"], check=True, stdout=subprocess.PIPE).stdout.decode()
        """
        status, out, err = self.ran(frame(request(1, "all")) + frame(request(2, "echo", [1])), body)
        self.assertEqual((status, messages(out)), (0, [echoed(1, "kept\n"), echoed(2, [1])]))
        for it in "printed before|printed|written|original|buffered|descriptor|libc|raw|child|err".split("|"):
            self.assertIn(it, err)

    def test_readers(self):
        body = """
        @server.method("all")
        def all_(params):
            child = subprocess.run(["cat"], check=True, stdout=subprocess.PIPE).stdout
            return [sys.stdin.read(), os.read(0, 100).decode(), child.decode(), os.readlink("/proc/self/fd/0")]
        """
        status, out, _ = self.ran(frame(request(1, "all")) + frame(request(2, "echo", [1])), body)
        self.assertEqual((status, messages(out)), (0, [echoed(1, ["", "", "", "/dev/null"]), echoed(2, [1])]))

    def test_children_inherit_neither(self):
        body = """
        @server.method("all")
        def all_(params):
            words, pipe = ["ls", "-l", "/proc/self/fd"], subprocess.PIPE
            return subprocess.run(words, check=True, stdout=pipe, close_fds=False).stdout.decode()
        """
        process = self.started(body)
        process.stdin.write(frame(request(1, "all")))
        listed = read_message(process.stdout.fileno())["result"]
        for stream in (process.stdin, process.stdout):
            self.assertNotIn(os.readlink(f"/proc/self/fd/{stream.fileno()}"), listed)
        process.stdin.close()
        self.assertEqual(process.wait(SECONDS), 0)

    def test_both_are_restored(self):
        tail = """
        status = server.run()
        print("over", flush=True)
        print("after", os.read(0, 100).decode().strip(), flush=True)
        subprocess.run(["echo", "child"], check=True)
        sys.exit(status)
        """
        process = self.started(tail=tail)
        process.stdin.write(frame(request(1, "echo", [1])) + frame(notice("exit")))
        self.assertEqual(read_message(process.stdout.fileno()), echoed(1, [1]))
        self.assertEqual(read_line(process.stdout), b"over\n")
        process.stdin.write(b"more\n")
        self.assertEqual(read_line(process.stdout) + read_line(process.stdout), b"after more\nchild\n")
        self.assertEqual(process.wait(SECONDS), 0)

    def test_run_may_run_again(self):
        tail = """
        def count():
            return len(os.listdir("/proc/self/fd"))
        before = count()
        print("status", server.run(), flush=True)
        print("status", server.run(), flush=True)
        assert count() == before, (count(), before)
        """
        process = self.started(tail=tail)
        process.stdin.write(frame(notice("exit", [4])))
        self.assertEqual(read_line(process.stdout), b"status 4\n")
        process.stdin.write(frame(request(1, "echo", [1])))
        self.assertEqual(read_message(process.stdout.fileno()), echoed(1, [1]))
        process.stdin.close()
        self.assertEqual(read_line(process.stdout), b"status 0\n")
        self.assertEqual(process.wait(SECONDS), 0, process.stderr.read())

    def test_two_at_once(self):
        body = """
        @server.method("other", thread=True)
        def other(params):
            return Server().run()
        """
        status, out, err = self.ran(frame(request(1, "other")), body)
        self.assertEqual((status, messages(out)[0]["error"]["code"]), (0, -32603))
        self.assertIn("standard streams", err)


class Ends(Scripts):
    def test_statuses(self):
        well = frame(request(1, "echo", [1]))
        for given, status in (
            (b"", 0),
            (well, 0),
            (well + b"Content-Length: 5\r\n\r\n", 1),
            (b"nonsense\r\n\r\n", 1),
            (frame(b"nonsense"), 0),
            (well + frame(notice("exit")), 0),
            (well + frame(notice("exit", [3])), 3),
            (frame(notice("exit", [0])) + well, 0),
        ):
            with self.subTest(given=given):
                got, out, err = self.ran(given)
                ended, threads, rest = err.rpartition("threads ")
                self.assertEqual((got, threads + rest), (status, "threads []\n"))
                self.assertEqual(ended.count("the session ended: "), int(status == 1), err)
                self.assertEqual(ended.count("\n"), int(status == 1), err)
                self.assertEqual(
                    len(messages(out)),
                    given.count(b"Content-Length")
                    - given.count(b"exit")
                    - (given[-4:] == b"\r\n\r\n" and b"Length: 5" in given),
                )

    def test_grace(self):
        body = """
        @server.method("sleep")
        async def sleep(params):
            await asyncio.sleep(params[0])
            return params
        @server.method("block", thread=True)
        def block(params):
            time.sleep(params[0])
            return params
        @server.method("stubborn")
        async def stubborn(params):
            try:
                await asyncio.sleep(params[0])
            except asyncio.CancelledError:
                await asyncio.sleep(params[0])
        @server.method("later")
        def later(params, request):
            return LATER
        """
        given = frame(request(1, "sleep", [0.05])) + frame(request(2, "block", [0.05]))
        status, out, err = self.ran(given, body)
        self.assertEqual((status, {it["id"] for it in messages(out)}, err), (0, {1, 2}, "threads []\n"))
        for method, threads in (("sleep", []), ("block", ["bullmyrtle-1"]), ("stubborn", []), ("later", [])):
            with self.subTest(method):
                began = time.monotonic()
                status, out, err = self.ran(frame(request(1, method, [patience(100)])), body, grace=0.3)
                self.assertLess(time.monotonic() - began, patience(60))  # (a process may begin late)
                self.assertEqual((status, messages(out)[0]["error"]["code"]), (1, -32800))
                why = f"{method} didn't end within the grace of 0.3 seconds"
                if method == "later":
                    why = "later returned LATER, and request.answer or request.fail was never called"
                self.assertEqual(
                    err,
                    f"{method}: it didn't end in time, and is cancelled\n"
                    f"the session ended: 1 call came to no end: {why}\nthreads {threads}\n",
                )

    def test_a_thread_whose_call_is_unanswered_ends(self):
        body = """
        @server.method("ask", thread=True)
        def ask(params, request):
            request.call("nobody")
        """
        status, out, err = self.ran(frame(request(1, "ask")), body)
        self.assertEqual((status, messages(out)[1]["error"]["code"], err), (0, -32603, "threads []\n"))
        self.assertIn("Unanswered", messages(out)[1]["error"]["message"])

    def test_nobody_reads(self):
        process = self.started()
        process.stdout.close()
        process.stdin.write(frame(request(1, "echo", [1])))
        self.assertEqual((process.wait(SECONDS), process.stderr.read()), (1, BROKEN))

    def test_nobody_reads_a_socket(self):
        ours, theirs = socket.socketpair()
        process = self.started(stdout=theirs)
        theirs.close()
        ours.close()
        process.stdin.write(frame(request(1, "echo", [1])))
        self.assertEqual((process.wait(SECONDS), process.stderr.read()), (1, BROKEN))

    def test_a_full_device(self):
        with open("/dev/full", "wb") as full:
            process = self.started(stdout=full)
        process.stdin.write(frame(request(1, "echo", [1])))
        self.assertEqual(process.wait(SECONDS), 1)
        self.assertEqual(process.stderr.read(), BROKEN)

    @rows(["<&-", ">&-", "<&- >&-", "<&- >&- 2>&-"])
    def test_closed_streams(self, how):
        words = " ".join(f"'{it}'" for it in self.script(tail="\nos._exit(server.run())\n"))
        ended = ran(["sh", "-c", f"{words} {how}"], stdin=subprocess.DEVNULL)
        said = b"" if "2>&-" in how else b"the session ended: the standard input or output is closed\n"
        self.assertEqual((ended.returncode, ended.stdout, ended.stderr), (1, b"", said))

    def test_an_interrupt(self):
        body = """
        @server.method("async")
        async def later(params):
            server.notify("began")
            await asyncio.sleep(20)
        @server.method("spin")
        async def spin(params):
            server.session._transport.flush()
            server.notify("began"); server.session._transport.flush()
            time.sleep(20)
        @server.method("plain")
        def plain(params):
            server.notify("began"); server.session._transport.flush()
            time.sleep(20)
        @server.method("thread", thread=True)
        def thread(params):
            server.notify("began")
            server.call("nobody")
        """
        # (a shell's background job ignores interrupts, and so would what it starts)
        before = signal.signal(signal.SIGINT, signal.default_int_handler)
        self.addCleanup(signal.signal, signal.SIGINT, before)
        for method in ("async", "spin", "plain", "thread", None):
            with self.subTest(method):
                process = self.started(body)
                process.stdin.write(frame(request(1, method or "echo", [])))
                read_message(process.stdout.fileno())
                process.send_signal(signal.SIGINT)
                said = b"the session ended: it was interrupted, as by Ctrl-C\nthreads []\n"
                self.assertEqual((process.wait(SECONDS), process.stderr.read()), (1, said))

    def test_an_interrupt_as_a_thread_calls(self):
        # (the first call to the other side imports this module on the loop's thread, and there the interrupt comes)
        body = """
        import signal
        class Interrupted:
            @staticmethod
            def find_spec(name, path=None, target=None):
                if name == "bullmyrtle._reply":
                    os.kill(os.getpid(), signal.SIGINT)
                    time.sleep(1)
        sys.meta_path.insert(0, Interrupted)
        @server.method("thread", thread=True)
        def thread(params):
            server.call("nobody")
        """
        before = signal.signal(signal.SIGINT, signal.default_int_handler)
        self.addCleanup(signal.signal, signal.SIGINT, before)
        process = self.started(body)
        process.stdin.write(frame(request(1, "thread", [])))
        said = b"the session ended: it was interrupted, as by Ctrl-C\nthreads []\n"
        self.assertEqual((process.wait(SECONDS), process.stderr.read()), (1, said))

    @rows(["plain", "async"])
    def test_sys_exit_in_a_method(self, method):
        body = """
        @server.method("plain")
        def plain(params):
            sys.exit(7)
        @server.method("async")
        async def later(params):
            await asyncio.sleep(0)
            sys.exit(7)
        """
        status, out, err = self.ran(frame(request(1, "echo", [1])) + frame(request(2, method)), body)
        self.assertEqual((status, messages(out), err), (7, [echoed(1, [1])], ""))
