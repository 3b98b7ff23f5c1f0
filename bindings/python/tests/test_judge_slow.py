"""The judge's option --slow: that a request is open for so long is said while it is, once."""
import os
import subprocess
import sys
import time
import unittest

from helping import InAFolder, environment, patience, ran, rows
from judging import COMMAND, Case

from bullmyrtle.judge._life import Asked
from bullmyrtle.judge._slow import Slow
from bullmyrtle.judge._streams import Entry

SECONDS = patience(120)


def line_of(**members):
    pairs = ",".join(f'"{name}":{it}' for name, it in members.items())
    return f'{{"jsonrpc":"2.0",{pairs}}}'.encode()


def ask(id_, method="a", params=None):
    more = {} if params is None else {"params": params}
    return line_of(id=id_, method=f'"{method}"', **more)


def answer(id_):
    return line_of(id=id_, result=1)


def cancel(method, params):
    return line_of(method=f'"{method}"', params=params)


def asked(at, id_=1):
    return Asked("client", Entry("request", id_, "a"), 1, 0, 0, at)


class Counted(Case):
    """Which requests are due, by the times at which things were seen, or by the clock."""

    def setUp(self):
        self.now = 50.0
        self.slow = Slow(2, lambda: self.now)

    def test_each_once_when_its_time_is_over(self):
        first, second = asked(100.0), asked(600.0)
        self.slow.asked(first)
        self.slow.asked(second)
        self.assertEqual(self.slow.due(2099.9), [])
        self.assertEqual(self.slow.due(2100.0), [first])
        self.assertEqual(self.slow.due(2599.9), [])
        self.assertEqual(self.slow.due(9000.0), [second])
        self.assertEqual(self.slow.due(9999.0), [])

    def test_answered_in_time(self):
        first, second = asked(100.0), asked(100.0)
        self.slow.asked(first)
        self.slow.asked(second)
        self.slow.closed(first)
        self.assertEqual(self.slow.due(2100.0), [second])
        self.slow.closed(second)  # (it comes late)
        self.assertEqual(self.slow.due(9999.0), [])

    def test_no_time(self):
        self.slow.asked(asked(None))
        self.assertEqual((self.slow.due(None), self.slow.due(9e9), self.slow.patience), ([], [], None))

    def test_by_the_clock(self):
        """The clock is 50 s where the times are 400 ms; what is seen late doesn't move that."""
        it = asked(400.0)
        self.slow.seen(400.0)
        self.slow.asked(it)
        self.assertAlmostEqual(self.slow.patience, 2.0)
        self.now = 51.5
        self.slow.seen(600.0)
        self.assertAlmostEqual(self.slow.patience, 0.5)
        self.assertEqual(self.slow.due_now(), [])
        self.now = 52.0
        self.assertEqual((self.slow.patience, self.slow.due_now()), (0.0, [it]))
        self.assertIsNone(self.slow.patience)

    def test_many(self):
        """As many as are answered are forgotten, and the oldest is found at once."""
        kept = asked(0.0)
        self.slow.asked(kept)
        for at in range(200_000):
            it = asked(float(at))
            self.slow.asked(it)
            self.slow.closed(it)
            self.assertEqual(self.slow.due(1.0), [])
        self.assertEqual(self.slow.due(2000.0), [kept])


class Replayed(InAFolder):
    def replayed(self, rules, *pieces, words=("--slow", "2"), end=""):
        """What is said of requests that are open, where these pieces are a recording."""
        lines = "".join(f"{side} {data.hex()} # {at}\n" for side, data, at in pieces)
        self.file("talk", f"judge 1 {rules} contents\n{lines}{end}")
        ended = ran([*COMMAND, "--replay", "talk", *words], cwd=self.room)
        self.assertEqual(ended.returncode, 0, ended.stderr)
        said = ended.stderr.decode().splitlines()
        return [it[len("judge: ") :] for it in said if it.startswith("judge: open for")]

    def test_while_it_is_open(self):
        pieces = (
            (">", ask(1), 0),
            (">", ask(2, "b"), 500),
            ("<", answer(1), 1999),
            ("<", answer(7), 2499),
            ("<", answer(8), 2500),
            ("<", answer(2), 9000),
        )
        wanted = ["open for 2 s: client's request b, id 2, message 2"]
        self.assertEqual(self.replayed("jsonrpc", *pieces), wanted)
        self.assertEqual(self.replayed("jsonrpc", *pieces[:4]), [])
        self.assertEqual(self.replayed("jsonrpc", *pieces, words=()), [])

    def test_its_answer_says_how_long_it_took(self):
        found = self.replayed("jsonrpc", ("<", ask(1), 0), (">", answer(1), 2000))
        self.assertEqual(found, ["open for 2 s: server's request a, id 1, message 1"])

    def test_side_that_ended(self):
        """No answer can come any more."""
        pieces = ((">", ask(1), 0), ("<", ask(1), 0))
        found = self.replayed("jsonrpc", *pieces, end="< closed # 10\n> %s # 9000\n" % ask(2).hex())
        self.assertEqual(found, ["open for 2 s: server's request a, id 1, message 1"])

    def test_in_an_array(self):
        found = self.replayed("jsonrpc", (">", b"[%s,%s]" % (ask(1), ask(2)), 0), (">", ask(3), 3000))
        wanted = [f"open for 2 s: client's request a, id {it}, message 1, entry {it}" for it in (1, 2)]
        self.assertEqual(found, wanted)

    @rows(
        [
            ("lsp", cancel("$/cancelRequest", '{"id":1}'), 1),
            ("mcp", cancel("notifications/cancelled", '{"requestId":1}'), 0),
        ]
    )
    def test_cancelled(self, rules, cancels, times):
        """In LSP it must be answered all the same."""
        found = self.replayed(rules, (">", ask(1), 0), (">", cancels, 100), (">", ask(2), 9000))
        self.assertEqual(len(found), times)

    @rows(["0", "-1", "nan", "inf", "86401", "x", ""])
    def test_what_is_no_time(self, word):
        ended = ran([*COMMAND, f"--slow={word}", "--replay", "talk"], cwd=self.room)
        self.assertEqual(ended.returncode, 2)
        self.assertIn("isn't a number of seconds", ended.stderr.decode())


@unittest.skipUnless(os.name == "posix", "the driver needs a system like Unix")
class Live(InAFolder):
    """It is said while both sides are silent."""

    SERVER = "import sys; sys.stdin.read()"

    def start(self, *words):
        server = [sys.executable, "-c", self.SERVER]
        pipe = subprocess.PIPE
        started = subprocess.Popen(
            [*COMMAND, "--rules", "jsonrpc", "--lines", *words, "--", *server],
            stdin=pipe,
            stdout=pipe,
            stderr=pipe,
            bufsize=0,
            env=environment(),
            cwd=self.room,
        )
        for it in (started.stdin, started.stdout, started.stderr):
            self.addCleanup(it.close)
        self.addCleanup(started.wait)
        self.addCleanup(started.kill)
        return started

    def test_silence(self):
        started = self.start("--slow", "0.5")
        began = time.monotonic()
        started.stdin.write(ask(1) + b"\n" + ask(2, "b") + b"\n")
        said = [started.stderr.readline().decode() for _ in range(2)]
        self.assertGreaterEqual(time.monotonic() - began, 0.5)
        self.assertEqual(
            said,
            [
                "judge: open for 0.5 s: client's request a, id 1, message 1\n",
                "judge: open for 0.5 s: client's request b, id 2, message 2\n",
            ],
        )
        time.sleep(1)
        out, err = started.communicate(timeout=SECONDS)
        self.assertEqual(out, b"")
        self.assertNotIn("open for", err.decode())  # (each was said once)
        self.assertIn("open at the end: client's request b, id 2, message 2\n", err.decode())

    def test_answered_in_time(self):
        started = self.start("--slow", "60")
        started.stdin.write(ask(1) + b"\n")
        out, err = started.communicate(timeout=SECONDS)
        self.assertEqual((started.returncode, out), (0, b""))
        self.assertNotIn("open for", err.decode())


if __name__ == "__main__":
    unittest.main()
