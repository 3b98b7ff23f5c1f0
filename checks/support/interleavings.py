"""The runs of the model of the server's threads (checks/progress), and the record of those that came to their ends as they
should: a run whose model, sizes and planted bug have a line there needn't be made again."""
import glob
import hashlib
import os
import re
import subprocess
import tempfile
import time
import tomllib
from dataclasses import dataclass
from typing import Iterator, Optional

from support import ran

MODEL = os.path.join(ran.TOP, "checks", "progress")
# So many runs at once, each with so much memory in MB and so much time in seconds at most.
SIDE_BY_SIDE, MEMORY, SECONDS = 2, 950, 600
RECORD = os.path.join(MODEL, "tried.txt")
HEAD = """# The runs of the model that gave what they should: a sum of what a run rests on, its name, and what was found.
# Written by python3 checks/progress.py --record
"""
# What is compiled in: one looks at where the threads come to a stand, the other whether they do.
ENDS = ("-DSAFETY", "-DNOCLAIM")
ALWAYS_ENDS = ()


@dataclass(frozen=True)
class Run:
    """A server whose interleavings are gone through."""

    name: str
    sizes: dict[str, int]
    how: tuple[str, ...] = ENDS
    is_small: bool = False


ALONE = {"READER": 0, "PIECES": 2}
RUNS = (
    Run("pair", {"WORKERS": 2, "SLOTS": 2, "JOBS": 2}),
    Run("held back", {"WORKERS": 1, "SLOTS": 1, "PIECES": 2, "JOBS": 3, "AT_ONCE": 3, "SCRAPS": 1}, is_small=True),
    Run("cancels", {"WORKERS": 1, "SLOTS": 1, "JOBS": 2, "CALLS": 1, "CANCELS": 1}),
    Run("faults", {"WORKERS": 2, "SLOTS": 1, "JOBS": 1, "AT_ONCE": 1, "CALLS": 1, "FAULTS": 1}),
    Run("gate", {"WORKERS": 2, "SLOTS": 2, "JOBS": 2, "GATE": 2}),
    Run("waves at the gate", {"WORKERS": 2, "SLOTS": 2, "JOBS": 4, "GATE": 2, **ALONE}, is_small=True),
    Run("three at the gate", {"WORKERS": 3, "SLOTS": 2, "JOBS": 2, "GATE": 2, **ALONE}),
    Run("three of each", {"WORKERS": 3, "SLOTS": 3, "JOBS": 3, "GATE": 3, **ALONE}),
    Run("step by step", {"WORKERS": 2, "SLOTS": 2, "JOBS": 2, "FINE": 1, **ALONE}),
    Run("step by step, with a reader", {"WORKERS": 1, "SLOTS": 1, "JOBS": 1, "AT_ONCE": 1, "FINE": 1}, is_small=True),
    Run("pair, fairly", {"WORKERS": 2, "SLOTS": 1, "JOBS": 1, "AT_ONCE": 1}, ALWAYS_ENDS),
    Run("broken", {"WORKERS": 1, "SLOTS": 1, "JOBS": 2, "SCRAPS": 1, "BROKEN": 1, "FAULTS": 1}, ALWAYS_ENDS),
)


@dataclass(frozen=True)
class Bug:
    """A change of the model, and the run that has to find it."""

    name: str
    by: str
    edits: list[dict[str, str]]


@dataclass(frozen=True)
class Found:
    """What a run found: an error, or none in so many states; or why it didn't come to its end."""

    error: str
    states: int
    unfinished: str
    seconds: float


def bugs() -> Iterator[Bug]:
    with open(os.path.join(MODEL, "planted.toml"), "rb") as it:
        for bug in tomllib.load(it)["bug"]:
            yield Bug(bug["name"], bug["by"], bug["edit"])


def read(file: str) -> str:
    with open(file, encoding="utf-8") as it:
        return it.read()


def with_bug(bug: Bug, name: str, text: str) -> str:
    """The text of a file of the model, with what the bug changes there."""
    for edit in bug.edits:
        if edit["file"] == name:
            if text.count(edit["old"]) != 1:
                raise ValueError(f"{bug.name}: {text.count(edit['old'])} places in {name} have {edit['old']}")
            text = text.replace(edit["old"], edit["new"])
    return text


def copied_to(room: str, bug: Optional[Bug]) -> str:
    """A copy of the model, with the bug: the model's first file there."""
    for file in glob.glob(os.path.join(MODEL, "*.pml")):
        text = read(file)
        name = os.path.basename(file)
        if bug:
            text = with_bug(bug, name, text)
        with open(os.path.join(room, name), "w", encoding="utf-8") as it:
            it.write(text)
    return "server.pml"


def told(words: list[str], room: str, seconds: int) -> str:
    """What a command of spin's says; that it fails is an error."""
    ended = subprocess.run(words, cwd=room, stdin=subprocess.DEVNULL, capture_output=True, timeout=seconds, check=False)
    text = (ended.stdout + ended.stderr).decode(errors="replace")
    if ended.returncode:
        raise ValueError(f"{' '.join(words)}: status {ended.returncode}: {text[-900:]}")
    return text


def judged(text: str, seconds: float) -> Found:
    """What spin's verifier tells. One that hasn't gone through all of it has found out nothing but an error."""
    errors = re.search(r"errors: (\d+)", text)
    states = re.search(r"([\d.e+]+) states, stored", text)
    first = re.search(r"^pan:1: (.*?)(?: \(at depth.*)?$", text, re.M)
    cut = re.search(r"not completed|too small|memory bound|MEMLIM|out of memory|VECTORSZ", text)
    if errors is None or states is None:
        return Found("", 0, text[-900:], seconds)
    error = (first[1] if first else "an error") if int(errors[1]) else ""
    return Found(error, int(float(states[1])), cut[0] if cut and not error else "", seconds)


def go_through(run: Run, bug: Optional[Bug] = None) -> Found:
    """Compiles the model in this size, with the bug, and goes through all of its states, or up to the first error."""
    begun = time.monotonic()
    with tempfile.TemporaryDirectory(prefix="progress-") as room:
        try:
            sizes = [f"-D{name}={size}" for name, size in run.sizes.items()]
            told(["spin", *sizes, "-a", copied_to(room, bug)], room, SECONDS)
            # (where few states are gone through, to optimise takes longest)
            speed = "-O0" if bug or run.is_small else "-O2"
            told(["cc", speed, "-w", "-DCOLLAPSE", f"-DMEMLIM={MEMORY}", *run.how, "-o", "pan", "pan.c"], room, SECONDS)
            text = told(["./pan", "-m200000", *([] if run.how else ["-a", "-f"])], room, SECONDS)
        except (subprocess.TimeoutExpired, ValueError) as fault:
            return Found("", 0, str(fault), time.monotonic() - begun)
        return judged(text, time.monotonic() - begun)


# The record


def sum_of(run: Run, bug: Optional[Bug]) -> str:
    """A sum of all that a run rests on, this file with it."""
    files = sorted(glob.glob(os.path.join(MODEL, "*.pml")))
    texts = [(os.path.basename(it), read(it)) for it in (*files, __file__)]
    return hashlib.sha256(repr((run, bug, texts)).encode()).hexdigest()[:16]


def line_of(run: Run, bug: Optional[Bug], found: Found) -> str:
    return f"{sum_of(run, bug)} {bug.name if bug else run.name}: {found.error or f'{found.states:,} states'}"


def recorded() -> dict[str, str]:
    """The lines that there are, by their sums."""
    if not os.path.isfile(RECORD):
        return {}
    return {it.split(" ")[0]: it for it in read(RECORD).splitlines() if it and not it.startswith("#")}


def record(lines: list[str]) -> None:
    with open(RECORD, "w", encoding="utf-8") as it:
        it.write(HEAD + "".join(f"{line}\n" for line in lines))
