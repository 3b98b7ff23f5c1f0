"""Proves the crates that the program or the C library stands on, side by side where they don't stand on each other, and
builds it.

All is proved from nothing, in a copy of exactly the files that the stamp covers, but for the crates whose libraries are
given, as the gate has proved and built them. The later a crate can come, the further its proof stands back behind
others; those that can't wait share the processors. docs/decisions/tests_and_releases.md#building says why it has an
order of its own."""
from __future__ import annotations

import contextlib
import fcntl
import os
import shutil
import signal
import subprocess
import sys
import tempfile
import time
from typing import Any, Callable, Iterable, Iterator

from tools import sources
from tools.machine import MEMORY, memory, processors
from tools.prover import Prover
from tools.repository import TOP, Fault, Listing, listing, read_bytes, read_text

# After how many seconds each line of progress comes, and how often those at work are looked at.
EACH, LOOK = 15, 0.2
# The memory that each further job of a check takes more than its first.
FURTHER_JOB = 1_000_000_000
# What a check costs however small its crate is, in lines; and a line of a proof costs as much as a tenth of one of the
# code.
FIXED_LINES, PROOF_LINES = 400, 10
# A crate that can come later by this part of the longest way holds up nothing, and takes one processor; any other two
# at least. By how far each stands back.
SPARE, LEAST, MOST_NICE = 1 / 5, 2, 19


Say = Callable[[str], None]


class Run:
    """A crate's proof: what it is likely to take, and what it has said so far."""

    def __init__(self, name: str, files: list[str], log: str) -> None:
        self.name, self.log, self.jobs, self.spare = name, log, 0, 0.0
        self.process: subprocess.Popen[bytes] | None = None
        self.cost = cost(files)

    def can_wait(self) -> bool:
        return self.spare > SPARE

    def start(self, prover: Prover, jobs: int) -> None:
        self.jobs = jobs
        words = ["nice", "-n", str(round(MOST_NICE * self.spare)), *prover.build(self.name, jobs)]
        with open(self.log, "wb") as log:
            how: dict[str, Any] = {
                "stdin": subprocess.DEVNULL,
                "stdout": log,
                "stderr": subprocess.STDOUT,
                "process_group": 0,
            }
            self.process = subprocess.Popen(words, cwd=prover.folder(self.name), **how)

    def stop(self) -> None:
        """Ends it, and the copies of itself that it has started."""
        if self.process and self.is_running():
            os.killpg(self.process.pid, signal.SIGKILL)
            self.process.wait()

    def is_running(self) -> bool:
        return self.process is not None and self.process.poll() is None

    def told(self) -> str:
        return read_bytes(self.log).decode(errors="replace") if os.path.isfile(self.log) else ""

    def take_end(self) -> None:
        """Looks at how it ended; it fails where the crate isn't proved."""
        if self.process and self.process.returncode:
            raise Fault(f"{self.name} isn't proved, or doesn't build:\n{self.told()[-3000:]}")


def cost(files: list[str]) -> int:
    """What a check of these files costs, in lines."""

    def lines(ending: str) -> int:
        return sum(read_text(it).count("\n") for it in files if it.endswith(ending))

    return FIXED_LINES + lines(".rt") + lines(".antt") // PROOF_LINES


def lay_out(room: str, of: str) -> list[Run]:
    """Copies what the program or the library is built from, and gives a run for each crate, lowest first."""
    listed, names = listing(), listing().below(of)
    with open(f"{room}/crates.txt", "w", encoding="utf-8") as it:
        it.writelines(f"{listed.lines[name]}\n" for name in names)
    beside = [f"{TOP}/{it}" for it in ("HANDLES", *sources.BESIDE[of])]
    for file in (*beside, *(it for name in names for it in sources.files_of(f"{TOP}/crates/{name}"))):
        to = f"{room}/{os.path.relpath(file, TOP)}"
        os.makedirs(os.path.dirname(to), exist_ok=True)
        shutil.copyfile(file, to)
    return [Run(name, sources.files_of(f"{room}/crates/{name}"), f"{room}/{name}.log") for name in names]


def measure_ways(runs: list[Run], listed: Listing) -> None:
    """Finds by how much of the longest way of crates, each standing on the one before, a crate can come later."""
    cost = {it.name: it.cost for it in runs}
    used = {name: [it for it in listed.libraries[name] if it in cost] for name in cost}
    using = {name: [it for it in cost if name in used[it]] for name in cost}

    def way(name: str, ways: dict[str, list[str]]) -> int:
        return cost[name] + max((way(it, ways) for it in ways[name]), default=0)

    ways = {name: way(name, used) + way(name, using) - cost[name] for name in cost}
    for run in runs:
        run.spare = 1 - ways[run.name] / max(ways.values())


class Building:
    """The proofs under way, each of which starts once the libraries below its crate are built."""

    def __init__(self, room: str, say: Say, of: str, given: dict[str, str]) -> None:
        self.say, self.begun, self.said = say, time.monotonic(), 0.0
        self.listed, self.memory = listing(), memory()
        self.runs, self.prover = lay_out(room, of), Prover(room, self.listed, of, given)
        self.done = {*given}
        measure_ways(self.runs, self.listed)

    def prove(self) -> None:
        """Proves and builds each crate."""
        try:
            while len(self.done) < len(self.runs):
                self.start_ready()
                if time.monotonic() - self.begun >= self.said + EACH:
                    self.said = time.monotonic() - self.begun
                    self.say(f"{self.progress()}; at work: {', '.join(it.name for it in self.runs if it.is_running())}")
                time.sleep(LOOK)
                for run in (it for it in self.runs if it.process and not it.is_running() and it.name not in self.done):
                    run.take_end()
                    self.done.add(run.name)
            self.say(self.progress())
        finally:
            for it in self.runs:
                it.stop()

    def start_ready(self) -> None:
        """Starts each proof that can start now, as memory allows, first those that can wait the least."""
        ready = [
            it
            for it in self.runs
            if it.process is None
            and it.name not in self.done
            and {*self.listed.below(it.name)} - {it.name} <= self.done
        ]
        running = [it for it in self.runs if it.is_running()]
        # (a check by several jobs takes a sixth more for each: what others have work for is lost by that)
        share = max(
            min(LEAST, processors()), processors() // max(1, sum(not it.can_wait() for it in (*ready, *running)))
        )
        for run in sorted(ready, key=lambda it: it.spare):
            free = self.memory - sum(MEMORY + FURTHER_JOB * (it.jobs - 1) for it in running)
            jobs = min(1 if run.can_wait() else share, 1 + (free - MEMORY) // FURTHER_JOB)
            if jobs > 0 or not running:
                run.start(self.prover, max(1, jobs))
                running.append(run)

    def progress(self) -> str:
        minutes = (time.monotonic() - self.begun) / 60
        return f"{len(self.done)} of {len(self.runs)} crates proved, {minutes:.1f} minutes so far"

    def told(self) -> str:
        return "".join(f"== {it.name}\n{it.told()}" for it in self.runs)


def link_program(prover: Prover) -> str:
    """Links the program, and gives where it lies."""
    linked = subprocess.run(prover.link(), stdin=subprocess.DEVNULL, capture_output=True, text=True, check=False)
    if linked.returncode:
        raise Fault(f"the program can't be linked:\n{linked.stdout}{linked.stderr}")
    return prover.made


def left_by_gate(names: Iterable[str], top: str = TOP) -> dict[str, str]:
    """The libraries that the gate built of these crates: all of them, or none, since those of other commands don't fit
    beside them. One with a stamp beside it is of other commands, and one that is older than a source is of another
    source."""

    def is_there(name: str, made: str) -> bool:
        is_gates = os.path.isdir(made) and not os.path.isfile(f"{os.path.dirname(made)}/stamp")
        return is_gates and all(
            os.path.getmtime(it) <= os.path.getmtime(made) for it in sources.files_of(f"{top}/crates/{name}")
        )

    found = {it: f"{top}/crates/{it}/out/rlib/{it}.rlib" for it in names}
    return found if all(is_there(*it) for it in found.items()) else {}


@contextlib.contextmanager
def alone(file: str) -> Iterator[None]:
    """Waits for a run beside this one that builds the same; ends as a command does that is told to stop."""
    os.makedirs(os.path.dirname(file), exist_ok=True)
    with open(f"{file}.lock", "w", encoding="utf-8") as lock:
        fcntl.flock(lock, fcntl.LOCK_EX)
        for it in (signal.SIGTERM, signal.SIGHUP):
            signal.signal(it, lambda number, _: sys.exit(128 + number))
        yield


def build(
    log: str,
    say: Say,
    keep: Callable[[str, list[str]], None],
    of: str = sources.PROGRAM,
    link: Callable[[Prover], str] = link_program,
    given: dict[str, str] | None = None,
) -> None:
    """Proves and builds the program or the library, and hands what `link` makes of it to `keep` with its stamp. What
    the prover said goes to the file `log`."""
    if shutil.which("rt") is None:
        raise Fault("the Rattle kit's command rt isn't on the PATH, and nothing that lies here is of these sources")
    say(f"proving and building, which takes some minutes (what the prover says is then in {os.path.relpath(log, TOP)})")
    stamp = sources.stamp(of=of)
    with tempfile.TemporaryDirectory(prefix=f"{of}-build-") as room:
        building = Building(room, say, of, given or {})
        if sources.sum_of(room, of) != stamp[0]:
            raise Fault("the sources changed while they were copied: try again")
        try:
            building.prove()
            keep(link(building.prover), stamp)
        finally:
            os.makedirs(os.path.dirname(log), exist_ok=True)
            with open(log, "w", encoding="utf-8") as it:
                it.write(building.told())
