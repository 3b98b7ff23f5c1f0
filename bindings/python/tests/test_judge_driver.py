"""The driver of the judge: bytes go on as they are, and each end and fault is passed on and said."""
import contextlib
import fcntl
import json
import os
import random
import re
import select
import signal
import socket
import subprocess
import sys
import threading
import time
from unittest import mock

from helping import InAFolder, by_the_clock, environment, frame, patience, ran, request, rows
from judging import COMMAND

from bullmyrtle import NoMemory
from bullmyrtle.judge import Event, Recording, Talk, _apart, _taking
from bullmyrtle.judge._judging import Judging, Recorded
from bullmyrtle.judge._sinks import Speaker

PYTHON = [sys.executable, "-c"]
# Gives back what it reads.
ECHO = """
import os
while True:
    data = os.read(0, 65536)
    if not data:
        break
    while data:
        data = data[os.write(1, data):]
"""
SECONDS = patience(120)


class Driven(InAFolder):
    def start(self, words, server, command=COMMAND, **more):
        ways = {"stdin": subprocess.PIPE, "stdout": subprocess.PIPE, "stderr": subprocess.PIPE, "bufsize": 0}
        started = subprocess.Popen(
            [*command, *words, "--", *server], **{**ways, "env": environment(), "cwd": self.room, **more}
        )
        for it in (started.stdin, started.stdout, started.stderr):
            if it is not None:
                self.addCleanup(it.close)
        self.addCleanup(started.wait)
        self.addCleanup(started.kill)
        return started

    def ran(self, words, server, data=b"", **more):
        """The status, what came out, and what was said."""
        started = self.start(words, server, **more)
        out, err = started.communicate(data, timeout=SECONDS)
        return started.returncode, out, err.decode(errors="replace")

    def said(self, err):
        """What it said, without the line that the end takes longer than it should, as it may on a busy machine."""
        said = [it[len("judge: ") :] for it in err.splitlines() if it.startswith("judge: ")]
        return [it for it in said if not it.startswith("the server has ended; what waits is ")]

    def events(self, name="talk.record"):
        with open(self.file(name), "rb") as file:
            return [(it.side, it.ended or it.data) for it in Recording(file)]

    def processes_of(self, driver):
        """The processes of a driver, in the order in which they were started."""
        with open(f"/proc/{driver.pid}/task/{driver.pid}/children", encoding="ascii") as file:
            return list(map(int, file.read().split()))  # (as the kernel lists them: the numbers begin anew)

    def read_until(self, descriptor, wanted):
        """What comes up to this text; without one, all up to the end."""
        told = b""
        while wanted is None or wanted not in told:
            self.assertTrue(
                select.select([descriptor], [], [], SECONDS)[0], f"{wanted!r} isn't there in time: {told!r}"
            )
            try:
                data = os.read(descriptor, 999)
            except OSError:  # (of a terminal that nobody else has any more)
                data = b""
            if not data:
                self.assertIsNone(wanted, f"no more comes: {told!r}")
                break
            told += data
        return told

    def until(self, is_reached, what="it"):
        end = time.monotonic() + SECONDS
        while not is_reached():
            self.assertLess(time.monotonic(), end, f"{what} isn't reached in time")
            time.sleep(0.01)


class Bytes(Driven):
    def test_each_byte_goes_on(self):
        data = bytes(range(256)) * 1000 + b"\n"
        status, out, err = self.ran(["--lines", "--rules", "jsonrpc"], [*PYTHON, ECHO], data)
        self.assertEqual((status, out == data), (0, True))
        self.assertIn("judge: must: client, message 1 at byte 0: not-json", err)
        self.assertNotIn("Traceback", err)

    def test_empty_session(self):
        status, out, err = self.ran([], [*PYTHON, ECHO])
        self.assertEqual((status, out), (0, b""))
        self.assertEqual(
            self.said(err),
            [
                "messages: 0 of the client (0 bytes), 0 of the server (0 bytes)",
                "found: 0 must, 0 should, 0 note",
            ],
        )

    def test_finding_line_by_line(self):
        first = {"processId": None, "rootUri": None, "capabilities": {}}
        data = frame(request(1, "initialize", first))
        answer = frame({"jsonrpc": "2.0", "id": 2, "result": {"capabilities": {}}})
        server = f"import os, sys; os.read(0, 9999); os.write(1, {answer!r}); os.read(0, 1)"
        status, out, err = self.ran([], [*PYTHON, server], data)
        self.assertEqual((status, out), (0, answer))
        content = answer.partition(b"\r\n\r\n")[2].decode()
        offset, start = len(answer) - len(content), data.index(b"{")
        self.assertEqual(
            self.said(err),
            [
                f"must: server, message 1 at byte {offset}: not-owed (JSON-RPC 4.1, 5): an answer to what nobody asked,"
                f" or what is answered already: {content}",
                f"note: server, client's message 1 at byte {start}: open-at-end (JSON-RPC 5; LSP, Shutdown Request):"
                " a request that is open when the session ends: initialize, id 1",
                f"messages: 1 of the client ({len(data)} bytes), 1 of the server ({len(answer)} bytes)",
                "asked by the client: initialize: once, 0 answered",
                "open at the end: client's request initialize, id 1, message 1",
                "found: 1 must, 0 should, 1 note",
            ],
        )

    def test_recording_has_the_order(self):
        """A request stands before its answer, which was written when the request had come."""
        server = """
import sys
for line in sys.stdin.buffer:
    sys.stdout.buffer.write(line.replace(b'"method":"ping"', b'"result":{}'))
    sys.stdout.buffer.flush()
"""
        started = self.start(["--rules", "jsonrpc", "--lines", "--record", "talk.record"], [*PYTHON, server])
        for id_ in range(200):
            line = json.dumps({"jsonrpc": "2.0", "id": id_, "method": "ping"}, separators=(",", ":")).encode()
            started.stdin.write(line + b"\n")
            started.stdout.readline()
        out, err = started.communicate(timeout=SECONDS)
        self.assertEqual((started.returncode, out), (0, b""))
        self.assertIn("judge: found: 0 must, 0 should, 0 note\n", err.decode())
        sides = [side for side, _ in self.events()]
        self.assertEqual(sides, ["client", "server"] * 201)
        lines = self.text("talk.record").splitlines()
        self.assertEqual(lines[0], "judge 1 jsonrpc lines")
        for it in lines[1:]:
            self.assertRegex(it, r"^[<>] (closed|([0-9a-f]{2})+) # \d+$")
        self.assertRegex(lines[-1], "^< closed")


class Random(Driven):
    """Servers and clients that read and write as it comes, with pauses: nothing is lost, and nothing is changed."""

    SERVER = """
import os, random, sys, threading, time
chance = random.Random(int(sys.argv[1]))
def read():
    got = b""
    while data := os.read(0, chance.choice((1, 100, 70000))):
        got += data
        if chance.random() < 0.1: time.sleep(chance.random() / 50)
    open("got", "wb").write(got)
reading = threading.Thread(target=read)
reading.start()
data = bytes(chance.randrange(256) for _ in range(1000)) * chance.choice((0, 1, 50, 400))
open("given", "wb").write(data)
while data:
    data = data[os.write(1, data[:chance.choice((1, 3000, 100000))]):] if len(data) < 9000 or chance.random() < 0.9 else data
    if chance.random() < 0.05: time.sleep(chance.random() / 50)
if chance.random() < 0.5: os.close(1)
reading.join()
"""

    def test_random_pauses(self):
        for seed in range(8):
            chance = random.Random(seed)
            data = bytes(chance.randrange(256) for _ in range(1000)) * chance.choice((0, 1, 50, 400))
            started = self.start(["--lines", "--record", "talk.record"], [*PYTHON, self.SERVER, str(seed)])

            def write():
                left = data
                while left:
                    left = left[
                        os.write(started.stdin.fileno(), left[: chance.choice((1000, 5000, 100000))]) :
                    ]
                    if chance.random() < 0.1:
                        time.sleep(chance.random() / 50)
                started.stdin.close()

            writing = threading.Thread(target=write)
            writing.start()
            got = b""
            while part := os.read(started.stdout.fileno(), chance.choice((100, 70000))):
                got += part
                if chance.random() < 0.05:
                    time.sleep(chance.random() / 20)
            writing.join()
            with self.subTest(seed):
                started.stderr.read()
                self.assertEqual(started.wait(SECONDS), 0)
                for name, wanted in (("given", got), ("got", data)):
                    self.assertEqual(self.data(name) == wanted, True, name)
                events = self.events()
                for side, wanted in (("client", data), ("server", got)):
                    self.assertEqual(
                        b"".join(it for who, it in events if who == side and it != "closed") == wanted, True
                    )
                    self.assertEqual(
                        [it for who, it in events if who == side and isinstance(it, str)], ["closed"]
                    )


class Ends(Driven):
    def test_status_is_the_servers(self):
        self.assertEqual(self.ran([], [*PYTHON, "import sys; sys.exit(7)"])[0], 7)

    def test_signal_is_the_servers(self):
        server = "import os, signal; os.kill(os.getpid(), signal.SIGKILL)"
        self.assertEqual(self.ran([], [*PYTHON, server])[0], -signal.SIGKILL)

    @rows([(["--strict"], 1), ([], 0)])
    def test_strict(self, words, wanted):
        data = b'{"jsonrpc":"2.0","method":"a","id":1}\n'
        server = [*PYTHON, "import os; os.read(0, 99)"]
        started = self.start(["--rules", "jsonrpc", "--lines", *words], server)
        started.stdin.write(data)
        self.assertEqual(started.wait(SECONDS), wanted)
        self.assertIn(
            "must: server, client's message 1 at byte 0: unanswered (JSON-RPC 5",
            started.stderr.read().decode(),
        )

    def test_strict_with_notes_alone(self):
        data = b'{"jsonrpc":"2.0","method":"rpc.a"}\n'
        status, _, err = self.ran(["--rules", "jsonrpc", "--lines", "--strict"], [*PYTHON, ECHO], data)
        self.assertEqual(status, 0, err)
        self.assertIn("found: 0 must, 0 should, 2 note", err)

    def test_server_that_closes_its_output_and_goes_on(self):
        server = "import os\nos.close(1)\nopen('rest', 'wb').write(open(0, 'rb').read())\nos._exit(3)"
        started = self.start(["--record", "talk.record"], [*PYTHON, server])
        self.assertEqual(started.stdout.read(), b"")  # (the client sees the end at once)
        self.assertIsNone(started.poll())
        started.stdin.write(b"more")
        started.stdin.close()
        self.assertEqual(started.wait(SECONDS), 3)
        self.assertEqual(self.data("rest"), b"more")
        self.assertEqual(self.events(), [("server", "closed"), ("client", b"more"), ("client", "closed")])

    def test_server_that_closes_its_input_and_goes_on(self):
        """The client learns it as it would without the driver: nobody reads what it writes."""
        server = "import os, time\nos.close(0)\nos.write(1, b'x')\nwhile not os.path.exists('go'): time.sleep(0.01)"
        started = self.start([], [*PYTHON, server])
        self.assertEqual(started.stdout.read(1), b"x")
        with self.assertRaises(BrokenPipeError):
            end = time.monotonic() + SECONDS
            while time.monotonic() < end:
                started.stdin.write(b"a")
                time.sleep(0.01)
        self.file("go", "")
        self.assertEqual(started.wait(SECONDS), 0)

    def test_server_that_dies(self):
        """What it wrote before comes, and what it owed is told."""
        server = "import os\nos.read(0, 999)\nos.write(1, b'half')\nos._exit(9)"
        data = frame(request(1, "initialize", {"capabilities": {}}))
        started = self.start([], [*PYTHON, server])
        started.stdin.write(data)
        self.assertEqual(started.stdout.read(), b"half")
        err = started.stderr.read().decode()
        self.assertEqual(started.wait(SECONDS), 9)
        self.assertIn("must: server, message 1 at byte 0: cut-off", err)
        self.assertIn("must: server, client's message 1 at byte", err)

    def test_server_that_never_ends(self):
        """The client's end is passed on; who doesn't care goes on, as without the driver, until a signal comes."""
        server = "import os, time\nopen(0, 'rb').read()\nos.write(1, b'ended')\ntime.sleep(999)"
        started = self.start([], [*PYTHON, server])
        started.stdin.close()
        self.assertEqual(started.stdout.read(5), b"ended")
        time.sleep(0.1)
        self.assertIsNone(started.poll())
        started.send_signal(signal.SIGTERM)
        self.assertEqual(started.wait(SECONDS), -signal.SIGTERM)

    def test_server_that_forks_and_leaves(self):
        """A process that it left has its output, and says nothing. (It stays as long as the test's file is there.)"""
        server = "import os, time\nif os.fork(): os._exit(4)\nos.close(2)\n"
        server += "while os.path.exists('stay'): time.sleep(0.1)"
        self.file("stay", "")
        started = self.start(["--record", "talk.record"], [*PYTHON, server])
        out, err = started.communicate(timeout=SECONDS)
        self.assertEqual((started.returncode, out), (4, b""))
        self.assertIn(
            "judge: the server has ended, and another process still has its output, which is silent",
            err.decode(),
        )
        self.assertIn(("server", "failed"), self.events())

    def test_server_that_forks_and_whose_child_goes_on(self):
        """What the process says that it left still comes, for longer than it may be silent. (Its pauses are short, so
        that a busy machine doesn't make one so long.)"""
        server = (
            "import os, time\nif os.fork(): os._exit(0)\nos.close(2)\n"
            "for _ in range(60):\n    time.sleep(0.05)\n    os.write(1, b'x')"
        )
        status, out, _ = self.ran([], [*PYTHON, server])
        self.assertEqual((status, out), (0, b"x" * 60))

    @staticmethod
    def processor_time(process):
        """In hundredths of a second."""
        with open(f"/proc/{process}/stat", encoding="ascii") as file:
            return sum(map(int, file.read().split()[13:15]))

    def taken_in_two_seconds(self, process):
        before = self.processor_time(process)
        time.sleep(2)
        return self.processor_time(process) - before

    def test_reader_that_sleeps_when_the_server_has_ended(self):
        """It gets what was written all the same, however late, and meanwhile the driver sleeps too."""
        server = "import os\nfor _ in range(3): os.write(1, b'z' * 65536)"
        started = self.start(["--lines"], [*PYTHON, server])
        # (hundredths of a second that it takes of each two seconds: it may start late, even later than the first of them, and
        # from then on it sleeps)
        taken = [self.taken_in_two_seconds(started.pid) for _ in range(2)]
        while max(taken[-2:]) > 2 and len(taken) < 20:
            taken.append(self.taken_in_two_seconds(started.pid))
        self.assertLessEqual(max(taken[-2:]), 2, taken)
        out, _ = started.communicate(timeout=SECONDS)
        self.assertEqual((started.returncode, len(out)), (0, 3 * 65536))

    def test_server_that_floods_its_standard_error(self):
        server = "import os\nfor _ in range(200): os.write(2, b'~' * 65536)\nos.write(1, b'x')"
        status, out, err = self.ran([], [*PYTHON, server])
        self.assertEqual((status, out, err.count("~")), (0, b"x", 200 * 65536))

    def test_nobody_reads_what_is_said(self):
        """Findings don't hold up the bytes."""
        read, write = os.pipe()
        data = (b"{" * 100 + b"\n") * 3_000
        started = self.start(["--lines"], [*PYTHON, ECHO], stderr=write)
        os.close(write)
        out, _ = started.communicate(data, timeout=SECONDS)
        self.assertEqual((started.returncode, out == data), (0, True))
        os.close(read)

    def test_standard_error_is_closed(self):
        started = self.start(["--lines"], [*PYTHON, ECHO], stderr=None, preexec_fn=lambda: os.close(2))
        out, _ = started.communicate(b"{\n", timeout=SECONDS)
        self.assertEqual((started.returncode, out), (0, b"{\n"))

    def test_standard_input_is_closed(self):
        started = self.start([], [*PYTHON, ECHO], stdin=None, preexec_fn=lambda: os.close(0))
        out, err = started.communicate(timeout=SECONDS)
        self.assertEqual((started.returncode, out), (0, b""))
        self.assertNotIn(b"Traceback", err)

    def test_standard_output_is_closed(self):
        server = "import os, signal\nsignal.signal(signal.SIGPIPE, signal.SIG_DFL)\nos.read(0, 1)\nos.write(1, b'x')"
        started = self.start([], [*PYTHON, server], stdout=None, preexec_fn=lambda: os.close(1))
        _, err = started.communicate(b"x", timeout=SECONDS)
        self.assertEqual(started.returncode, -signal.SIGPIPE)
        self.assertNotIn(b"Traceback", err)


class Clients(Driven):
    def test_client_that_goes_away(self):
        """The server has the end of its input, and nobody who reads its output."""
        server = (
            "import os, signal\nsignal.signal(signal.SIGPIPE, signal.SIG_DFL)\nos.write(1, b'x')\n"
            "open(0, 'rb').read()\nwhile True: os.write(1, b'y' * 65536)"
        )
        started = self.start([], [*PYTHON, server])
        self.assertEqual(started.stdout.read(1), b"x")
        started.stdin.close()
        started.stdout.close()
        self.assertEqual(started.wait(SECONDS), -signal.SIGPIPE)
        self.assertNotIn(b"Traceback", started.stderr.read())

    def test_reader_that_sleeps(self):
        """At most 64 KiB are held, beside what pipes hold: the server has to wait."""
        server = (
            "import os\nsize = 0\nos.set_blocking(1, True)\n"
            "for _ in range(64):\n    size += os.write(1, b'z' * 65535 + b'\\n')\n"
            "    open('size', 'w').write(str(size))"
        )
        started = self.start(["--lines"], [*PYTHON, server])
        time.sleep(1.5)

        self.until(lambda: os.path.exists(self.file("size")))
        pipes = 2 * fcntl.fcntl(started.stdout.fileno(), 1032)  # (F_GETPIPE_SZ)
        self.assertLessEqual(int(self.text("size") or 0), pipes + 3 * 65536)
        out, _ = started.communicate(timeout=SECONDS)
        self.assertEqual(len(out), 64 * 65536)


class Kinds(Driven):
    """Streams of other kinds than pipes."""

    def test_sockets(self):
        """Node.js gives its children sockets."""
        data = bytes(range(11, 200)) * 5_000 + b"\n"
        ours, theirs = zip(*(socket.socketpair() for _ in range(3)))
        ways = dict(zip(("stdin", "stdout", "stderr"), theirs))
        started = self.start(["--lines"], [*PYTHON, ECHO], **ways)
        for it in theirs:
            it.close()
        sending = threading.Thread(target=lambda: (ours[0].sendall(data), ours[0].shutdown(socket.SHUT_WR)))
        sending.start()
        got = b""
        while part := ours[1].recv(99999):
            got += part
        sending.join()
        self.assertEqual(got == data, True)
        said = b""
        while part := ours[2].recv(99999):
            said += part
        self.assertEqual(started.wait(SECONDS), 0)
        self.assertIn(b"judge: found: 2 must", said[-200:])
        for it in ours:
            it.close()

    def test_one_socket(self):
        ours, theirs = socket.socketpair()
        started = self.start(["--lines"], [*PYTHON, ECHO], stdin=theirs, stdout=theirs)
        theirs.close()
        ours.sendall(b"abc\n")
        self.assertEqual(ours.recv(99), b"abc\n")
        ours.shutdown(socket.SHUT_WR)
        self.assertEqual(ours.recv(99), b"")
        self.assertEqual(started.wait(SECONDS), 0)
        ours.close()

    def test_files(self):
        given, words = b'{"jsonrpc":"2.0","method":"a"}\n' * 5_000, ["--rules", "jsonrpc", "--lines"]
        with open(self.file("in", given), "rb") as source, open(self.file("out"), "wb") as sink:
            with open(self.file("said"), "wb") as said:
                started = self.start(words, [*PYTHON, ECHO], stdin=source, stdout=sink, stderr=said)
                self.assertEqual(started.wait(SECONDS), 0)
        self.assertEqual(self.data("out") == given, True)
        self.assertIn("judge: messages: 5,000 of the client", self.text("said"))


class Signals(Driven):
    # (not by signal.pause(), which waits for ever where a signal comes just before it)
    SERVER = """
import os, signal, time
def caught(number, _):
    os.write(1, b"%d;" % number)
    if number == signal.SIGTERM:
        os._exit(5)
for it in (signal.SIGINT, signal.SIGTERM, signal.SIGHUP, signal.SIGUSR1):
    signal.signal(it, caught)
os.write(1, b"up;")
while True:
    time.sleep(0.01)
"""

    def test_signals_reach_the_server(self):
        started = self.start([], [*PYTHON, self.SERVER])
        self.assertEqual(self.read_until(started.stdout.fileno(), b"up;"), b"up;")
        for it in (signal.SIGINT, signal.SIGHUP, signal.SIGUSR1):
            started.send_signal(it)
            wanted = b"%d;" % it
            self.assertEqual(self.read_until(started.stdout.fileno(), wanted), wanted)
        started.send_signal(signal.SIGTERM)
        self.assertEqual(self.read_until(started.stdout.fileno(), None), b"15;")
        self.assertEqual(started.wait(SECONDS), 5)

    def test_terminals_interrupt_comes_once(self):
        """Ctrl-C goes to all of a terminal's processes: the driver doesn't pass it on a second time."""
        import pty

        child, terminal = pty.fork()
        if child == 0:
            os.chdir(self.room)
            os.execve(COMMAND[0], [*COMMAND, "--lines", "--", *PYTHON, self.SERVER], environment())
        try:
            told = self.read_until(terminal, b"up;")
            os.write(terminal, b"\x03")
            told += self.read_until(terminal, b"2;")
            time.sleep(0.3)
            os.kill(child, signal.SIGTERM)
            told += self.read_until(terminal, None)
            self.assertEqual(told.partition(b"judge: ")[0].count(b"2;"), 1, told)
        except BaseException:
            os.kill(child, signal.SIGKILL)
            raise
        finally:
            os.close(terminal)
            status = os.waitpid(child, 0)[1]
        self.assertEqual(status >> 8, 5)


class BadUse(Driven):
    def check(self, words, status, *texts):
        started = ran([*COMMAND, *words], cwd=self.room, stdin=subprocess.DEVNULL)
        err = started.stderr.decode(errors="replace")
        self.assertEqual((started.returncode, started.stdout), (status, b""), err)
        self.assertNotIn("Traceback", err)
        for it in texts:
            self.assertIn(it, err)
        return err

    def test_no_such_server(self):
        self.check(["--", "/no/such/server"], 127, "judge: the server can't be started: ", "/no/such/server")

    def test_server_that_is_no_program(self):
        self.file("text", "text")
        self.check(["--", "./text"], 126, "judge: the server can't be started: ", "Permission denied")

    def test_no_command(self):
        self.check(
            [], 2, "there is a server's command, behind --, or --replay with a recording: one of the two"
        )
        self.check(["--replay", "a", "--", "b"], 2, "one of the two")

    def test_contents_of_a_server(self):
        self.check(["--contents", "--", "true"], 2, "--contents is for recordings")

    def test_unknown_rules(self):
        self.check(["--rules", "dap", "--", "true"], 2, "invalid choice: 'dap'")

    def test_files_that_cannot_be_written(self):
        self.check(["--record", "no/such/folder", "--", "true"], 2, "judge: the recording can't be written: ")
        self.check(["--report", "no/such/folder", "--", "true"], 2, "judge: the report can't be written: ")

    @rows([("talk.record", ["--record"]), ("talk.html", ["--report"])])
    def test_files_of_a_conversation_are_ones_own(self, name, words):
        """Nobody else reads them, and they aren't written through a link; a file that exists keeps its mode."""
        before = os.umask(0o022)
        self.addCleanup(os.umask, before)
        self.assertEqual(self.ran([*words, name], [*PYTHON, ECHO])[0], 0)
        self.assertEqual(os.stat(self.file(name)).st_mode & 0o777, 0o600)
        os.chmod(self.file(name), 0o644)
        self.assertEqual(self.ran([*words, name], [*PYTHON, ECHO])[0], 0)
        self.assertEqual(os.stat(self.file(name)).st_mode & 0o777, 0o644)
        self.file("others", "kept")
        os.symlink("others", self.file(f"{name}.link"))
        err = self.check(
            [*words, f"{name}.link", "--", "true"], 2, "it is a symbolic link: name the file itself"
        )
        self.assertIn(f"{name}.link", err)
        self.assertEqual(self.text("others"), "kept")

    def test_recording_to_standard_error(self):
        status, out, err = self.ran(["--lines", "--record", "/dev/stderr"], [*PYTHON, ECHO], b"x\n")
        self.assertEqual((status, out), (0, b"x\n"))
        self.assertRegex(err, r"^judge 1 lsp lines\n(judge: .*\n)*> 780a # \d+\n")

    def test_full_disk(self):
        """The recording ends, and the bytes go on."""
        status, out, err = self.ran(["--lines", "--record", "/dev/full"], [*PYTHON, ECHO], b"x\n")
        self.assertEqual((status, out), (2, b""))
        self.assertIn("judge: the recording can't be written: [Errno 28] No space left on device", err)

    def test_recordings_that_are_none(self):
        head = b"judge 1 lsp frames\n"
        for data, line, why in (
            (b"", 1, "a recording begins with `judge 1 RULES FRAMING`, and this with nothing"),
            (b"\x7fELF\x00", 1, "a recording begins with"),
            (b"\x7fELF\x00\xff", 1, "a recording is text in UTF-8, and this isn't: b'\\x7fELF"),
            (head + b"# na\xefve\n", 2, "a recording is text in UTF-8, and this isn't: b'# na\\xefve"),
            (b"judge 2 lsp frames\n", 1, "there is version 1 of recordings, and this is '2'"),
            (
                b"judge 1 dap frames\n",
                1,
                "there are no rules 'dap': there are jsonrpc, lsp, mcp, mcp:2025-11-25, mcp:2025-06-18, "
                "mcp:2025-03-26, mcp:2024-11-05",
            ),
            (b"judge 1 lsp words\n", 1, "there is no framing 'words': there are frames, lines, contents"),
            (head + b"> 7b7\n", 2, "an odd number of digits"),
            (head + b"\n# a word\n< 7b7d\n> what\n", 5, "it is '> what'"),
            (head + b"> closed # soon\n", 2, "it is '> closed # soon'"),
            (head + b">7b7d\n", 2, "it is '>7b7d'"),
        ):
            self.file("talk", data)
            with self.subTest(data):
                self.check(["--replay", "talk"], 2, f"judge: talk is no recording: line {line}: {why}")
        self.check(["--replay", "nothing"], 2, "judge: the recording can't be read: ", "No such file")
        self.check(["--replay", "."], 2, "judge: the recording can't be read: ", "Is a directory")

    def test_help(self):
        ended = ran([*COMMAND, "--help"])
        text = ended.stdout.decode()
        self.assertEqual((ended.returncode, ended.stderr), (0, b""))
        for it in ("--rules", "--record", "--replay", "--report", "--strict", "status:", "examples:", "127"):
            self.assertIn(it, text)


class Replay(Driven):
    def replayed(self, text, *words):
        self.file("talk", text)
        ended = ran([*COMMAND, "--replay", "talk", *words], cwd=self.room)
        return ended.returncode, self.said(ended.stderr.decode())

    def test_what_people_cut(self):
        """Comments, empty lines, and blanks at the end of a line."""
        ask, answer = (it.hex() for it in (b'{"jsonrpc":"2.0","id":1,"method":"a"}', b'{"jsonrpc":"2.0"}\n'))
        text = f"judge 1 jsonrpc lines\n\n# a word\n> {ask}\n> 0A # 5\n< {answer} # 12 \r\n< failed\n"
        status, said = self.replayed(text, "--strict")
        self.assertEqual(status, 1)
        self.assertEqual(
            said,
            [
                "must: server, message 1 at byte 0: outcome (JSON-RPC 4, 5): neither a method nor a result nor an error,"
                ' or result and error both: {"jsonrpc":"2.0"}',
                "note: server, client's message 1 at byte 0: unanswered (JSON-RPC 5; LSP, Cancellation Support): a"
                " request without an answer at the end: a, id 1",
                "messages: 1 of the client (38 bytes), 1 of the server (18 bytes)",
                "asked by the client: a: once, 0 answered",
                "open at the end: client's request a, id 1, message 1",
                "found: 1 must, 0 should, 1 note",
            ],
        )
        self.assertEqual(self.replayed(text)[0], 0)

    def test_other_rules_than_recorded(self):
        line = b'{"jsonrpc":"2.0","method":"a"}'.hex()
        text = f"judge 1 jsonrpc contents\n> {line}\n"
        self.assertEqual(self.replayed(text)[1][-1], "found: 0 must, 0 should, 0 note")
        status, said = self.replayed(text, "--rules", "lsp")
        self.assertIn("initialize-first (LSP, Initialize Request)", said[0])

    def test_times(self):
        ask = b'{"jsonrpc":"2.0","id":1,"method":"a"}'.hex()
        answer = b'{"jsonrpc":"2.0","id":1,"result":1}'.hex()
        text = f"judge 1 jsonrpc contents\n> {ask} # 100\n< {answer} # 107\n> {ask} # 200\n< {answer} # 201\n"
        self.assertIn(
            "asked by the client: a: 2 times, 4.0 ms in the mean, 7 at most", self.replayed(text)[1]
        )


class Faults(Driven):
    """Whatever the judge does, the bytes go on."""

    def speaking(self):
        """What says lines, and the lines."""
        said = []
        speaker = Speaker(2)
        speaker.say = said.append
        return speaker, said

    @rows([NoMemory(), KeyError("a")])
    def test_judge_that_fails(self, fault):
        speaker, said = self.speaking()
        judging = Judging(Talk("jsonrpc", "lines"), speaker)

        def fail(*_):
            raise fault

        judging._talk._judge.saw = fail
        self.assertFalse(judging.take(Event("client", b"{}\n")))
        self.assertFalse(judging.take(Event("client", b"{}\n")))
        judging.finish()
        self.assertTrue(judging.has_failed)
        self.assertEqual(len([it for it in said if it.startswith("nothing is judged from here on: ")]), 1)

    def test_recording_that_fails(self):
        class Full:
            def take(self, _):
                raise OSError(28, "No space left on device")

        speaker, said = self.speaking()
        recorded = Recorded(Full(), speaker)
        for _ in range(2):
            self.assertFalse(recorded.take(Event("client", b'{"jsonrpc":"2.0","method":"rpc.a"}\n')))
        recorded.finish()
        self.assertEqual(said, ["the recording ends here: [Errno 28] No space left on device"])

    def test_judge_that_is_killed(self):
        started = self.start(["--lines", "--strict"], [*PYTHON, ECHO])
        started.stdin.write(b"[]\n")
        self.assertEqual(started.stdout.read(3), b"[]\n")
        os.kill(self.processes_of(started)[0], signal.SIGKILL)
        for _ in range(20):
            started.stdin.write(b"x" * 4096)
            self.assertEqual(len(started.stdout.read(4096)), 4096)
            time.sleep(0.01)
        started.stdin.close()
        self.assertEqual(started.wait(SECONDS), 3)
        err = started.stderr.read().decode()
        self.assertIn(
            "nothing is judged from here on, and the bytes go on: the process that judges has ended", err
        )
        self.assertRegex(
            err, r"the process that judges failed; not judged: [\d,]+ bytes of the client from byte \d+ on"
        )


class Stopped(Driven):
    """A judge that is at a message for ever, or for a while: a signal holds its process up."""

    # (with 4 MiB that may wait to be judged, in place of 64, so that a test needn't write as much)
    MOST = 1 << 22
    # (and says when it has set a time by which its processes end: as the server has ended, and when it is hurried)
    CODE = f"""
import os
from bullmyrtle.judge import _apart, _command
_apart.MOST, end_by = {MOST}, _apart.Processes._end_by
def end_and_say(*words):
    end_by(*words)
    os.write(2, b"(they end in time)\\n")
_apart.Processes._end_by = end_and_say
_command.run()
"""
    ENDS = b"(they end in time)\n"
    WORDS = ("--rules", "jsonrpc", "--lines", "--strict", "--record", "talk.record", "--report", "talk.html")
    PING = b'{"jsonrpc":"2.0","method":"ping"}\n'
    LINE = b'{"jsonrpc":"2.0","method":"a","params":["%s"]}\n' % (b"x" * 65_000)

    def stopped(self):
        """A driver, and its judge, which is stopped."""
        started = self.start(self.WORDS, [*PYTHON, ECHO], [*PYTHON, self.CODE])
        started.stdin.write(self.PING)
        self.assertEqual(started.stdout.readline(), self.PING)
        judge = self.processes_of(started)[1]  # (behind the one that records)
        os.kill(judge, signal.SIGSTOP)
        self.addCleanup(self.go_on, judge)
        return started, judge

    def go_on(self, judge):
        with contextlib.suppress(OSError):  # (it has ended)
            os.kill(judge, signal.SIGCONT)

    def ping(self, started):
        """How long the slowest of some pings takes, in seconds."""
        slowest = 0.0
        for _ in range(100):
            began = time.monotonic()
            started.stdin.write(self.PING)
            self.assertEqual(os.read(started.stdout.fileno(), 999), self.PING)
            slowest = max(slowest, time.monotonic() - began)
        return slowest

    def send(self, started, lines):
        """Sends so many lines, and reads them back: how long the longest pause was, in seconds."""

        def write():
            for _ in range(lines):
                started.stdin.write(self.LINE)

        writing = threading.Thread(target=write)
        writing.start()
        left, last, longest = lines * len(self.LINE), time.monotonic(), 0.0
        while left:
            left -= len(os.read(started.stdout.fileno(), min(left, 1 << 20)))
            longest = max(longest, time.monotonic() - last)
            last = time.monotonic()
        writing.join()
        return longest

    @by_the_clock
    def test_bytes_go_on_beside_a_judge_that_takes_nothing(self):
        """However much there is: it is recorded whole, and it is said what isn't judged."""
        started, judge = self.stopped()
        before, pause, behind = self.ping(started), self.send(started, 40), self.ping(started)
        self.assertLess(max(before, pause, behind), 1)
        self.go_on(judge)
        started.stdin.close()
        self.assertEqual((started.stdout.read(), started.wait(SECONDS)), (b"", 3))
        said = self.said(started.stderr.read().decode())
        given = said.index(next(it for it in said if it.startswith("more than 4,194,304 bytes wait")))
        places = re.fullmatch(
            "more than 4,194,304 bytes wait: nothing is judged from byte ([0-9,]+) of the client and byte ([0-9,]+) of"
            " the server on, and the bytes go on",
            said[given],
        )
        client, server = (int(it.replace(",", "")) for it in places.groups())
        self.assertLess(abs(client + server - self.MOST), 1 << 19)
        whole = 201 * len(self.PING) + 40 * len(self.LINE)
        missed = (
            f"not judged: {whole - client:,} bytes of the client from byte {client:,} on and "
            f"{whole - server:,} bytes of the server from byte {server:,} on"
        )
        self.assertEqual(said[-2:], [missed, "found: 0 must, 0 should, 0 note"])
        words = f"<dt>Not judged</dt><dd>{missed[len('not judged: '):]}</dd>"
        self.assertIn(words, self.text("talk.html"))
        events = self.events()
        for side in ("client", "server"):
            data = b"".join(it for who, it in events if who == side and it != "closed")
            self.assertEqual(data == 101 * self.PING + 40 * self.LINE + 100 * self.PING, True, side)
            self.assertIn((side, "closed"), events)

    def test_judge_that_falls_behind_loses_nothing(self):
        started, judge = self.stopped()
        self.send(started, 20)
        self.go_on(judge)
        started.stdin.close()
        self.assertEqual((started.stdout.read(), started.wait(SECONDS)), (b"", 0))
        said = self.said(started.stderr.read().decode())
        size = len(self.PING) + 20 * len(self.LINE)
        self.assertEqual(
            said,
            [
                f"messages: 21 of the client ({size:,} bytes), 21 of the server ({size:,} bytes)",
                "found: 0 must, 0 should, 0 note",
            ],
        )

    def test_signal_behind_the_servers_end(self):
        """What waits isn't judged then, and the rest is said and reported."""
        started, judge = self.stopped()
        self.send(started, 10)
        started.stdin.close()
        self.assertEqual(started.stdout.read(), b"")
        told = self.read_until(started.stderr.fileno(), self.ENDS)
        self.assertIsNone(started.poll())
        started.send_signal(signal.SIGTERM)
        told += self.read_until(started.stderr.fileno(), self.ENDS)  # (it has taken the signal)
        self.go_on(judge)
        told += self.read_until(started.stderr.fileno(), None)
        self.assertEqual(started.wait(SECONDS), 3)
        # (what records may be hurried too, and say so)
        said = {it.partition(":")[0]: it for it in self.said(told.decode())}
        whole = len(self.PING) + 10 * len(self.LINE)
        judged = re.fullmatch(r"messages: .* \(([\d,]+) bytes\), .* \(([\d,]+) bytes\)", said["messages"])
        missed = re.fullmatch(
            r"not judged: ([\d,]+) bytes of the client from byte ([\d,]+) on and ([\d,]+) bytes of the server from byte"
            r" ([\d,]+) on",
            said["not judged"],
        )
        counts = [int(it.replace(",", "")) for it in (*judged.groups(), *missed.groups())]
        self.assertEqual(counts[2:], [whole - counts[0], counts[0], whole - counts[1], counts[1]])
        self.assertIn("<dt>Not judged</dt>", self.text("talk.html"))


class TakesForEver:
    """What never comes back with the first thing that it takes."""

    has_broken = False
    patience = None

    def __init__(self, told):
        self.told = told

    def take(self, _):
        time.sleep(999)

    def leave(self):
        self.tell("left")

    def finish(self, missed):
        self.tell(f"not taken: {missed}")

    def tell(self, line):
        with open(self.told, "a", encoding="ascii") as file:
            file.write(f"{line}\n")


class NeverEnds(TakesForEver):
    def take(self, _):
        return True

    def finish(self, missed):
        time.sleep(999)


class Late(Driven):
    """What takes and isn't done when the server has ended has a bounded time."""

    def finished(self, kind, is_hurried=lambda seen: False):
        """What is said when such a one is given up, its status, and what it told itself."""
        said = []
        seen = _apart.Processes(said.append)
        seen.start("judges", lambda: kind(self.file("told")), ())
        seen.begin()
        seen.append(Event("client", b"abc", "", 0.0))
        seen.append(Event("server", b"defgh", "", 0.0))
        seen.append(Event("server", b"", "closed", 0.0))
        seen.go_on()
        status = seen.finish(lambda: is_hurried(seen))
        return said, status, self.text("told").splitlines() if os.path.exists(self.file("told")) else []

    MISSED = "3 bytes of the client from byte 0 on and 5 bytes of the server from byte 0 on"

    def test_one_that_is_at_its_first_piece(self):
        with mock.patch.multiple(_apart, LAST=0.2, _PATIENT=0.1):
            said, status, told = self.finished(TakesForEver)
        self.assertEqual((status, told), (_taking.PARTLY, ["left", f"not taken: {self.MISSED}"]))
        self.assertEqual(
            said, ["the server has ended; what waits is judged for 0.2 s at most, or until a signal"]
        )

    def test_one_that_is_hurried(self):
        said, status, told = self.finished(TakesForEver, lambda seen: True)
        self.assertEqual((said, status), ([], _taking.PARTLY))
        self.assertEqual(told, ["left", f"not taken: {self.MISSED}"])

    def test_recording_that_is_stuck(self):
        """The sides wait for it, since it would lack something else, but not for ever."""
        said = []
        seen = _apart.Processes(said.append)
        with mock.patch.multiple(_apart, MOST=1 << 17, _STUCK=0.5, LAST=0.2, _WRITES=0.2):
            seen.start("records", lambda: TakesForEver(self.file("told")), ())
            seen.begin()

            def is_given_up():
                """(it takes what it finds as it begins, and then no more)"""
                if not seen.is_full:
                    seen.append(Event("client", b"x" * 65536, "", 0.0))
                seen.go_on()
                return said

            self.until(is_given_up)
            self.assertEqual((seen.is_full, seen.waits_for), (False, []))
            self.assertEqual(seen.finish(), 0)
        self.assertEqual(
            said[0],
            "nothing is recorded from here on, and the bytes go on: the recording has taken nothing for 0.5 seconds",
        )

    def test_one_that_never_ends(self):
        def has_taken_all(seen):
            return seen._all[0].known.is_whole

        with mock.patch.multiple(_apart, _WRITES=0.2, LAST=SECONDS, _PATIENT=SECONDS):
            said, status, _ = self.finished(NeverEnds, has_taken_all)
        self.assertEqual(
            (said, status), (["the process that judges failed; not judged: nothing"], _taking.PARTLY)
        )
