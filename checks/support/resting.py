"""A server that is given contents, and what it holds once it rests."""
import os
import re
import subprocess
import threading
import time
from typing import Callable, TypeVar

from support import ran, refusals, rows

T = TypeVar("T")

READS = re.compile(r"^syscr: (\d+)", re.M)
STATE, SWITCHES = re.compile(r"^State:\s+(\w)", re.M), re.compile(r"^voluntary_ctxt_switches:\s+(\d+)", re.M)
# A call back with so many bytes is written from room that isn't kept, so that what is kept of it is the same each time.
LONG = '"%s"' % ("a" * 70_000)
# How long it may take until it has answered, or rests, in seconds.
PATIENCE = 120


def looked_at(pid: int) -> tuple[set[str], int]:
    """The states of a process's threads, and how often they have gone to sleep."""
    folder = f"/proc/{pid}/task"
    told = [ran.text_of(folder, it, "status") for it in os.listdir(folder)]
    return {STATE.findall(it)[0] for it in told}, sum(int(SWITCHES.findall(it)[0]) for it in told)


def rested(pid: int, measure: Callable[[], T]) -> T:
    """What is measured once all threads of a process sleep and none has woken meanwhile."""
    begun = time.monotonic()
    while time.monotonic() < begun + PATIENCE:
        before, found = looked_at(pid), measure()
        time.sleep(0.01)
        if before[0] == {"S"} and looked_at(pid) == before:
            return found
    raise ValueError(f"no rest after {PATIENCE} seconds")


class Resting:
    """It has the methods of rows.METHODS, and numbers its requests from 1."""

    def __init__(self, in_lines: bool) -> None:
        self.form, framing = (rows.lines, ["--lines"]) if in_lines else (rows.frames, [])
        self.held = refusals.Held()
        # (a block of its own pages, made shorter, has whole pages)
        self.held.how["env"]["GLIBC_TUNABLES"] = "glibc.malloc.mmap_max=0"
        words = [ran.BUILT, "serve", "--workers", "2", "--table", rows.file_of(rows.METHODS), *framing]
        self.process = subprocess.Popen(words, stdin=subprocess.PIPE, stdout=subprocess.PIPE, **self.held.how)
        self.number = 0

    def __enter__(self) -> "Resting":
        return self

    def __exit__(self, *_: object) -> None:
        self.process.kill()
        self.process.communicate()

    def given(self, requests: list[str], answers: list[str]) -> None:
        """Sends contents, and waits until as many bytes came as these have, in any order."""
        sends = threading.Thread(target=self.send, args=(self.form(*requests),))
        ends = threading.Timer(PATIENCE, self.process.kill)
        sends.start()
        ends.start()
        length = len(self.form(*answers))
        came = ran.pipe(self.process.stdout).read(length)
        ends.cancel()
        sends.join()
        if len(came) != length:
            raise ValueError(f"{len(came):,} bytes in place of {length:,}: {came[-300:]!r}")

    def send(self, data: bytes) -> None:
        ran.pipe(self.process.stdin).write(data)
        ran.pipe(self.process.stdin).flush()

    def add(self, text: str) -> None:
        """A request that has this text for a number."""
        self.number += 1
        request = '{"jsonrpc":"2.0","method":"add","params":[%s,1],"id":7}' % text
        self.given([request], [rows.failed(-32602, "Invalid params")])

    def ask(self, count: int = 1, text: str = '"x"', result: str = "true") -> None:
        """So many requests, each of which calls back with this text, all before the first has its reply."""
        self.reply(self.asked(count, text), result)

    def asked(self, count: int, text: str = '"x"') -> list[str]:
        """So many requests, each of which has called back with this text: the ids of these calls."""
        keys = [f"{it}.1" for it in range(self.number + 1, self.number + count + 1)]
        self.number += count
        asked = '{"jsonrpc":"2.0","method":"ask","params":[%s],"id":7}' % text
        called = '{"id":"%s","jsonrpc":"2.0","method":"confirm","params":[%s]}'
        self.given([asked] * count, [called % (it, text) for it in keys])
        return keys

    def reply(self, keys: list[str], result: str) -> None:
        """Replies to calls back, upon which their requests are answered."""
        self.given([rows.replied(it, result) for it in keys], [rows.answered(result)] * len(keys))

    def reads(self) -> int:
        """How many reads it has made of the system."""
        return int(READS.findall(ran.text_of("/proc", str(self.process.pid), "io"))[0])

    def at_rest(self) -> int:
        """How many bytes it holds behind a request, as `quiet` tells."""
        self.ask(text=LONG)
        return self.quiet()

    def quiet(self) -> int:
        """How many bytes it holds, once all its threads sleep and none has woken meanwhile."""
        return rested(self.process.pid, lambda: self.held.numbers()[2])
