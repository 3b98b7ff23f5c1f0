#!/usr/bin/env python3
"""usage: compare.py [--rounds N] [--count N] [--turns N] [--processor P] [--node NODE] [--beside PACKAGE]

Measures a server over bullmyrtle beside the same over two connections in plain JavaScript (plain.js), driven by drive.c, which makes each round
with each of them in turn. Prints for each row the least of all rounds and turns: microseconds of the wall for each request, and in brackets of
the server's processor; then how many times ours each other takes, the median of all rounds. These are to be trusted where the machine does
other work: what slows it down for a while slows all of them. With a processor, the driver and the servers have that one alone, and, where that
is allowed, before all others. With --beside, the package in another folder is measured too, such as an older one. It needs cc."""
import argparse
import os
import shutil
import statistics
import subprocess
import sys
import tempfile
from dataclasses import dataclass, field

HERE = os.path.dirname(os.path.abspath(__file__))
ROWS = ["once", "async", "batches", "notifications", "ping", "back", "large"]
NAMES = {"once": "at once", "back": "call back", "large": "a param of 4 MB"}
# (what it is written after gives a batch no array, so that its figure would say nothing)
NOT_MEASURED = ("layered", "batches")


@dataclass
class Figures:
    """What a server took for a row: microseconds, of the wall and of its processor, the least so far; and times ours, by turns."""

    wall: float = float("inf")
    used: float = float("inf")
    times: list[float] = field(default_factory=list)

    def add(self, wall: float, used: float, times: float) -> None:
        self.wall, self.used = min(self.wall, wall), min(self.used, used)
        self.times.append(times)


Found = dict[tuple[str, str], Figures]


def pinned(processor: "int | None") -> list[str]:
    if processor is None:
        return []
    first = ["chrt", "-r", "1"]
    may = (
        shutil.which("chrt")
        and subprocess.run([*first, "true"], stderr=subprocess.DEVNULL, check=False).returncode == 0
    )
    return ["taskset", "-c", str(processor), *(first if may else [])]


def commands(options: argparse.Namespace) -> dict[str, list[str]]:
    """The servers, ours first."""
    made = {it: [options.node, f"{HERE}/server.js", it] for it in ("bullmyrtle", "lean", "layered")}
    if options.beside:
        made["beside"] = [options.node, os.path.join(options.beside, "bench", "server.js"), "bullmyrtle"]
    return made


def measure(drive: str, servers: dict[str, list[str]], options: argparse.Namespace, found: Found) -> list[int]:
    """A turn of all rows, which is added to what was found. Gives the servers' greatest resident memories in KiB."""
    words = [*pinned(options.processor), drive, str(options.rounds), str(options.count), *ROWS]
    for command in servers.values():
        words += ["--", *command]
    ended = subprocess.run(words, capture_output=True, text=True, timeout=600, check=True)
    peaks = []
    for row, *numbers in (it.split() for it in ended.stdout.splitlines()):
        if row == "peak":
            peaks.append(int(numbers[0]))
            continue
        for at, server in enumerate(servers):
            found[row, server].add(*map(float, numbers[3 * at : 3 * at + 3]))
    return peaks


def print_rows(servers: list[str], found: Found) -> None:
    print(f"{'':16}" + "".join(f"{it:>21}" for it in servers) + "".join(f"{'x ' + it:>13}" for it in servers[1:]))
    for row in ROWS:
        cells, times = [], []
        for it in servers:
            figures = found[row, it]
            is_left = (it, row) == NOT_MEASURED
            cells.append("-" if is_left else f"{figures.wall:.2f} ({figures.used:.2f})")
            times.append("-" if is_left else f"{statistics.median(figures.times):.3f}")
        print(
            f"{NAMES.get(row, row):16}"
            + "".join(f"{it:>21}" for it in cells)
            + "".join(f"{it:>13}" for it in times[1:])
        )


def main() -> None:
    parser = argparse.ArgumentParser(usage=__doc__.partition("\n\n")[0].removeprefix("usage: "))
    parser.add_argument("--rounds", type=int, default=10)
    parser.add_argument("--count", type=int, default=2_000)
    parser.add_argument("--turns", type=int, default=3)
    parser.add_argument("--processor", type=int)
    parser.add_argument("--node", default="node")
    parser.add_argument("--beside")
    options = parser.parse_args()
    servers = commands(options)
    found: Found = {(row, it): Figures() for row in ROWS for it in servers}
    with tempfile.TemporaryDirectory() as room:
        drive = f"{room}/drive"
        subprocess.run(["cc", "-O2", "-Wall", "-Wextra", "-Werror", f"{HERE}/drive.c", "-o", drive], check=True)
        peaks = [measure(drive, servers, options, found) for _ in range(options.turns)]
    print_rows([*servers], found)
    most = (f"{it} {max(some):,}" for it, some in zip(servers, zip(*peaks)))
    print("peak, KiB: " + ", ".join(most))


if __name__ == "__main__":
    sys.exit(main())
