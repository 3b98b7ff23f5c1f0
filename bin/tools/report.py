"""Runs the parts of a test, and tells what passed, what failed, what was skipped, and which parts took longest."""
from __future__ import annotations

import os
import re
import signal
import subprocess
import sys
import threading
import time
from typing import Any, List, NamedTuple

from tools.machine import processors
from tools.repository import TOP

TALLY = re.compile(r"(\d+) passed, (\d+) failed\s*")
SKIPPED = "SKIPPED: "
SHOWN = 10
# So many minutes a part may take at most. What waits for something that never comes would else keep the whole run from its
# end, and nobody would know where.
MINUTES = 170
# How a line begins, or what it has in it, that tells a failure; and how many of them the end has of a part.
TELLS_FAILURE = re.compile(r"(FAILED|ERROR|FAIL|BAD)\b|E   ")
REPEATED, INDENT = 12, " " * 4


class Part(NamedTuple):
    """A command of the test. One that tallies ends with the line 'N passed, M failed', and passes at least so many;
    another counts by its status. One that takes longer than its minutes is ended."""

    name: str
    words: List[str]
    folder: str = TOP
    tallies: bool = True
    least: int = 0
    minutes: float = MINUTES


def tally(part: Part, status: int, lines: list[str]) -> tuple[int, int]:
    """What a part that ended counts as: passed and failed. One that dies, lacks its last line or passes too few counts
    as failed."""
    if not part.tallies:
        return (0, 1) if status else (1, 0)
    told = TALLY.fullmatch(lines[-1]) if lines else None
    if not told:
        return 0, 1
    passed, failed = int(told[1]), int(told[2])
    return passed, failed or int(status != 0 or passed < part.least)


def told_last(lines: list[str]) -> list[str]:
    """The lines of a part that failed that tell a failure, or its last ones, as the end repeats them."""
    telling = [it for it in lines if TELLS_FAILURE.match(it) and not TALLY.fullmatch(it)]
    return [f"{INDENT}{it.rstrip()[:300]}" for it in (telling or lines)[-REPEATED:]]


def running(session: int) -> dict[int, str]:
    """The processes of a session, with their command lines."""
    found = {}
    for it in filter(str.isdigit, os.listdir("/proc")):
        try:
            if os.getsid(int(it)) == session:
                with open(f"/proc/{it}/cmdline", encoding="utf-8", errors="replace") as words:
                    found[int(it)] = words.read().replace("\0", " ").strip()
        except OSError:  # (it has ended meanwhile)
            pass
    return found


def end_session(session: int) -> list[str]:
    """Ends all processes of a session, and gives their command lines."""
    found = running(session)
    for it in found:
        try:
            os.kill(it, signal.SIGKILL)
        except ProcessLookupError:
            pass
    return sorted({it for it in found.values() if it})


class Report:
    def __init__(self, has_table: bool = True) -> None:
        self.has_table = has_table
        self.passed, self.failed = 0, 0
        self.skipped: list[str] = []
        self.fallen: list[str] = []
        self.seconds: dict[str, float] = {}
        self.printing, self.begun = threading.Lock(), time.monotonic()
        self.sessions: set[int] = set()
        # (each part has a session of its own, which what ends this one doesn't reach)
        for it in (signal.SIGINT, signal.SIGTERM, signal.SIGHUP):
            signal.signal(it, self.interrupted)

    def interrupted(self, number: int, _: object) -> None:
        for it in [*self.sessions]:
            end_session(it)
        os._exit(128 + number)

    def say(self, text: str) -> None:
        with self.printing:
            print(f"== {text}", flush=True)

    def check(self, name: str, is_well: bool, text: str) -> None:
        """Counts what this script itself looked at."""
        self.passed, self.failed = self.passed + is_well, self.failed + (not is_well)
        self.fallen += [] if is_well else [f"{name}: {text}"]
        self.say(f"{name}: {'' if is_well else 'FAILED: '}{text}")

    def skip(self, text: str) -> None:
        self.skipped.append(text)
        self.say(f"{SKIPPED}{text}")

    def run(self, part: Part, is_shown_at_once: bool = True) -> bool:
        """Runs a part, and gives whether all of it passed. What it prints is shown line by line; or, once it has ended,
        whole where it failed and else what it skipped alone, so that a failure isn't lost among what passed."""
        begun, lines = time.monotonic(), list[str]()
        if is_shown_at_once:
            self.say(part.name)
        how: dict[str, Any] = {"stdin": subprocess.DEVNULL, "stdout": subprocess.PIPE, "stderr": subprocess.STDOUT}
        how["start_new_session"] = True
        late: list[str] = []
        with subprocess.Popen(part.words, cwd=part.folder, errors="replace", **how) as process:
            self.sessions.add(process.pid)
            limit = threading.Timer(part.minutes * 60, lambda: late.extend(end_session(process.pid)))
            limit.daemon = True
            limit.start()
            for line in process.stdout or ():
                lines.append(line)
                if is_shown_at_once:
                    with self.printing:
                        sys.stdout.write(line)
                        sys.stdout.flush()
        limit.cancel()
        self.sessions.discard(process.pid)
        lines += [
            f"FAILED: it was ended after {part.minutes:g} minutes, in which this still ran: {it}\n" for it in late
        ]
        return self.ended(
            part, process.returncode or int(bool(late)), lines, time.monotonic() - begun, is_shown_at_once
        )

    def ended(self, part: Part, status: int, lines: list[str], seconds: float, was_shown: bool) -> bool:
        passed, failed = tally(part, status, lines)
        told = f"{part.name}: {passed} passed, {failed} failed, {seconds:.0f} seconds"
        skipped = [it for it in lines if it.startswith(SKIPPED)]
        with self.printing:
            if not was_shown and (failed or skipped):
                print(f"== {part.name}\n{''.join(lines if failed else skipped)}", end="")
            print(f"== {told}", flush=True)
            self.passed, self.failed = self.passed + passed, self.failed + failed
            self.skipped += [it[len(SKIPPED) :].rstrip() for it in skipped]
            self.fallen += [told, *told_last(lines)] if failed else []
            self.seconds[part.name] = seconds
        return failed == 0

    def end(self) -> int:
        """Prints the slowest parts, what was skipped and what failed, and then the last line; gives the status."""
        if self.seconds and self.has_table:
            self.print_slowest()
        for it in self.skipped:
            print(f"{SKIPPED}{it}")
        for it in self.fallen:
            print(it if it.startswith(INDENT) else f"FAILED: {it}")
        print(f"{self.passed} passed, {self.failed} failed", flush=True)
        return 1 if self.failed else 0

    def print_slowest(self) -> None:
        used, minutes = os.times(), (time.monotonic() - self.begun) / 60
        work = used.children_user + used.children_system
        print(
            f"\nThe slowest parts of {minutes:.1f} minutes, in seconds; {work:,.0f} seconds of {processors()} processors:"
        )
        for name, seconds in sorted(self.seconds.items(), key=lambda it: -it[1])[:SHOWN]:
            print(f"{seconds:8.0f}  {name}")
