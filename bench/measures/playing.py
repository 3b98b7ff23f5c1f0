"""The table of `play`: each input read from a file, whole, and answered into nothing."""
import os
import subprocess
import sys
import tempfile
from typing import Dict, List, NamedTuple

from measures.contenders import Contender, Programs
from measures.inputs import EACH_METHOD, HOSTED, INPUTS, Input
from measures.running import Run
from support import callgrind  # (it stands in checks/)

# Instructions are counted at this part of the size.
COUNTED = 10


class Measured(NamedTuple):
    """What one program took for one size: seconds, KiB and its bytes; and instructions, with the bytes for which they
    were counted. What isn't measured is 0."""

    seconds: float
    peak: int
    length: int
    instructions: int
    counted: int


def timed(players: List[Contender], file: str, runs: int) -> Dict[str, float]:
    """The least processor time of several runs of each, in seconds; they run in turn."""
    best: Dict[str, float] = {}
    for _ in range(runs):
        for player in players:
            with open(file, "rb") as given:
                child = subprocess.Popen(player.words, stdin=given, stdout=subprocess.DEVNULL)
                _, child.returncode, used = os.wait4(child.pid, 0)
            if child.returncode:
                sys.exit(f"bench/run: {' '.join(player.words)} failed")
            took = used.ru_utime + used.ru_stime
            best[player.label] = min(took, best.get(player.label, took))
    return best


def peak_of(player: Contender, file: str) -> int:
    """The peak memory of a run, in KiB. (What starts it counts too: some 8 MB.)"""
    code = (
        "import os, resource, sys\n"
        "os.dup2(os.open(sys.argv[1], os.O_RDONLY), 0)\n"
        "os.dup2(os.open('/dev/null', os.O_WRONLY), 3)\n"
        "child = os.posix_spawn(sys.argv[2], sys.argv[2:], {}, file_actions=[(os.POSIX_SPAWN_DUP2, 3, 1)])\n"
        "os.waitpid(child, 0)\n"
        "print(resource.getrusage(resource.RUSAGE_CHILDREN).ru_maxrss)\n"
    )
    words = [sys.executable, "-I", "-S", "-c", code, file, *player.words]
    return int(subprocess.run(words, capture_output=True, check=True).stdout)


def instructions(player: Contender, given: bytes) -> int:
    """How many instructions a run takes, by callgrind."""
    counted = callgrind.instructions(player.words, given)
    if counted is None:
        sys.exit(f"bench/run: callgrind counts no instructions of {' '.join(player.words)}")
    return counted


def output_of(player: Contender, file: str) -> bytes:
    with open(file, "rb") as given:
        return subprocess.run(player.words, stdin=given, capture_output=True, check=True).stdout


def compare(name: str, players: List[Contender], file: str) -> None:
    """Ends the bench where the programs' answers aren't the same."""
    outputs = {output_of(it, file) for it in players}
    if len(outputs) > 1 or b"" in outputs:
        sys.exit(f"bench/run: the answers to {name} differ from the baseline's")


def measured(row: Input, size: int, players: List[Contender], run: Run) -> Dict[str, Measured]:
    given, few = row.make(size), row.make(size // COUNTED)
    seconds, peaks, counted = dict[str, float](), dict[str, int](), dict[str, int]()
    with tempfile.NamedTemporaryFile() as file:
        file.write(given)
        file.flush()
        compare(f"{row.name} ({size})", players, file.name)
        if run.has_times:
            seconds = timed(players, file.name, run.runs)
            peaks = {it.label: peak_of(it, file.name) for it in players}
    if run.has_counts:
        counted = {it.label: instructions(it, few) for it in players}
    lengths = row.bytes_of(size, given), row.bytes_of(size // COUNTED, few)
    return {
        it: Measured(seconds.get(it, 0), peaks.get(it, 0), lengths[0], counted.get(it, 0), lengths[1])
        for it in (player.label for player in players)
    }


def cell(value: float, form: str) -> str:
    """A figure, or as many blanks where it isn't measured."""
    text = f"{value:{form}}"
    return text if value else " " * len(text)


def ratios(seen: Dict[str, Measured]) -> Dict[str, float]:
    """The baseline's time by those of the others, where they are measured."""
    return {label: seen["baseline"].seconds / it.seconds if it.seconds else 0 for label, it in seen.items()}


def show(row: Input, size: int, seen: Dict[str, Measured], half: Dict[str, Measured]) -> None:
    """Prints the lines of one size; `half` has the figures of half the size, and none for the first one."""
    for label, it in seen.items():
        counted = row.requests(size // COUNTED)
        times = (
            cell(row.requests(size) / it.seconds if it.seconds else 0, ">10,.0f"),
            cell(it.length / it.seconds / 1e6 if it.seconds else 0, ">8.1f"),
            cell(ratios(seen)[label], ">6.2f"),
        )
        counts = (
            cell(it.instructions / counted if counted else 0, ">11,.0f"),
            cell(it.instructions / it.counted if it.counted else 0, ">10,.1f"),
            cell(it.instructions / half[label].instructions if half and it.instructions else 0, "7.2f"),
        )
        figures = " ".join((*times, *counts, cell(it.peak, ">9,")))
        print(f"{row.name:20} {size:>9} {label:9} {figures}".rstrip(), flush=True)


def note(title: str, row: Input, size: int, seen: Dict[str, Measured], run: Run) -> None:
    """Notes the figures of a row's whole size: instructions are those of a byte where a request has a length."""
    requests = max(1, row.requests(size // COUNTED))
    if run.has_counts:
        of = {label: it.instructions / (it.counted if row.length else requests) for label, it in seen.items()}
        run.figures.note(title, "instructions", row.name, of)
    if run.has_times:
        others = {label: it for label, it in ratios(seen).items() if label != "baseline"}
        run.figures.note(title, "ratio", row.name, others)
        run.figures.note(title, "peak", row.name, {label: it.peak for label, it in seen.items()})
        run.behind.note(row.name, row.why, {label: it.seconds for label, it in seen.items()})


def compare_each_method(programs: Programs) -> None:
    with tempfile.NamedTemporaryFile() as file:
        file.write(EACH_METHOD)
        file.flush()
        compare("each method", programs.players(has_methods=True, has_calls=True), file.name)


def show_head(title: str) -> None:
    counts = f"{'instr/req':>11} {'instr/byte':>10} {'growth':>7}"
    head = f"{'req/s':>10} {'MB/s':>8} {'ratio':>6} {counts} {'peak KiB':>9}"
    print(f"{title:20} {'size':>9} {'program':9} {head}")


def show_row(title: str, row: Input, players: List[Contender], run: Run) -> None:
    """Measures and prints half of a row's size, where times are taken, and all of it."""
    whole = row.size // run.small
    half = measured(row, whole // 2, players, run) if run.has_times else {}
    show(row, whole // 2, half, {})
    seen = measured(row, whole, players, run)
    show(row, whole, seen, half)
    note(title, row, whole, seen, run)


def table(programs: Programs, run: Run) -> None:
    compare_each_method(programs)
    show_head("input")
    for row in INPUTS:
        show_row("play", row, programs.players(row.has_methods, row.has_calls), run)
    run.figures.keep()


def hosts_table(title: str, hosts: List[Contender], run: Run) -> None:
    """What hosts take for an input that stands there whole."""
    show_head(title)
    for row in HOSTED:
        show_row(title, row, hosts, run)
    run.figures.keep()
