"""Nothing is waited for where the other side has nothing to do; where it has, or is slow, all the time that it may take is."""
import os
import signal
import subprocess
import sys
import time

from helping import Case, patience, rows
from test_examine_faults import CASES, runner_of

from bullmyrtle.examine._idle import Idle

READ = "import sys\nfor line in sys.stdin:\n    "
BUSY = READ + "while True: pass"
SLEEPS = READ + "pass"
#: A process whose child has something to do.
CHILD = f"import subprocess, sys\nsubprocess.run([sys.executable, '-c', {BUSY!r}])"
THREAD = (
    "import sys, threading, time\n"
    "def spin():\n    while True: time.sleep(0.01)\n"
    "threading.Thread(target=spin, daemon=True).start()\n" + SLEEPS
)


class Processes(Case):
    def idle(self, code, seconds, is_read=lambda: True):
        """How long it has been idle after so many seconds."""
        with subprocess.Popen(
            [sys.executable, "-S", "-E", "-c", code], stdin=subprocess.PIPE, start_new_session=True
        ) as it:
            try:
                it.stdin.write(b"x\n")
                it.stdin.flush()
                time.sleep(patience(0.5))
                watch = Idle(it.pid, is_read)
                end = time.monotonic() + seconds
                found = watch.seconds
                while time.monotonic() < end and found < 0.5:
                    time.sleep(0.02)
                    found = watch.seconds
                return found
            finally:
                os.killpg(it.pid, signal.SIGKILL)

    def test_one_that_sleeps(self):
        self.assertGreaterEqual(self.idle(SLEEPS, patience(30)), 0.5)

    @rows([BUSY, CHILD, THREAD])
    def test_those_that_have_something_to_do(self, code):
        self.assertLess(self.idle(code, 1), 0.5)

    def test_one_that_has_not_read_all(self):
        self.assertLess(self.idle(SLEEPS, 1, lambda: False), 0.5)

    def test_one_that_has_ended(self):
        """(before anybody has asked for its status, and after that)"""
        ended = subprocess.Popen(["true"])
        os.waitid(os.P_PID, ended.pid, os.WEXITED | os.WNOWAIT)
        for _ in range(2):
            watch = Idle(ended.pid, lambda: True)
            for _ in range(3):
                time.sleep(0.1)
                self.assertEqual(watch.seconds, 0)
            ended.wait()


class Waits(Case):
    def verdict(self, fault, name, seconds):
        (case,) = [it for it in CASES if it.name == name and "lsp" in it.rules and "server" in it.sides]
        begun = time.monotonic()
        found = runner_of("server", "lsp", fault, seconds)[0].alone(case)
        return found, time.monotonic() - begun

    def test_one_that_is_silent(self):
        """(twice --seconds, if it had something to do)"""
        found, took = self.verdict("header-by-case", "a header CONTENT-LENGTH in capitals", patience(20.0))
        self.assertEqual((found.level, found.how), ("must", "silent"))
        self.assertLess(took, patience(20))

    def test_one_that_is_slow(self):
        # (the request is answered after as long as the peer sleeps, 6 s, and the plain one behind it after twice that: between
        # once and twice these seconds, with three seconds to spare on each side, which a busy machine may need)
        found, _ = self.verdict("sleeps", "an unknown request with params {}", patience(9.0))
        self.assertEqual((found.level, found.words), ("slow", "it answers slowly"))
