"""Runs many cases in one process, by the command `cases` of the proved program peer_bench: streams of bytes, each with
how it is run. Why so: docs/decisions/tests_and_releases.md#fuzzing."""
import subprocess
from dataclasses import dataclass
from functools import cached_property
from typing import Iterable, Optional, Sequence

from support import reading


@dataclass(frozen=True)
class Case:
    """A stream, how it is run, and the sizes of its pieces; what is left behind these is a piece too."""

    how: str  # as "play eager first" or "serve 4"
    sizes: tuple[int, ...]
    stream: bytes

    @property
    def record(self) -> bytes:
        sizes = ",".join(map(str, self.sizes)) or "-"
        return f"{self.how} {sizes} {len(self.stream)}\n".encode() + self.stream


@dataclass(frozen=True)
class Ran:
    """What came of a case: how its input ended, what was counted and what was written."""

    end: str
    numbers: int
    messages: int
    calls: int
    answers: int
    polls: int
    output: bytes


def ran_from(records: bytes) -> list[Ran]:
    """The records that are whole."""
    found, at = [], 0
    while (line_end := records.find(b"\n", at)) >= 0:
        end, numbers, messages, calls, answers, polls, length = records[at:line_end].decode().split(" ")
        at = line_end + 1 + int(length)
        if at > len(records):
            break
        counts = int(numbers), int(messages), int(calls), int(answers), int(polls)
        found.append(Ran(end, *counts, records[line_end + 1 : at]))
    return found


def run(program: str, table: Optional[str], cases: Sequence[Case], patience: float) -> list[Ran]:
    """Runs the cases, all with the methods of the table in this file. Raises ValueError where the program doesn't run
    them all."""
    words = [program, "cases", *(["--table", table] if table else [])]
    given = b"".join(it.record for it in cases)
    try:
        ended = subprocess.run(words, input=given, capture_output=True, timeout=patience, check=False)
    except subprocess.TimeoutExpired as fault:
        raise ValueError(f"no end after {patience} seconds and {len(ran_from(fault.stdout or b''))} cases") from fault
    found = ran_from(ended.stdout)
    if ended.returncode or ended.stderr or len(found) != len(cases):
        said = ended.stderr.decode(errors="replace")[-500:]
        raise ValueError(f"status {ended.returncode} after {len(found)} cases of {len(cases)}: {said}")
    return found


@dataclass(frozen=True)
class Trial:
    """A stream in its parts, the table that it is run with, where it is cut, and the places of a schedule's picks."""

    table: str
    parts: tuple[bytes, ...]
    cuts: tuple[int, ...]
    places: tuple[int, ...]

    @property
    def stream(self) -> bytes:
        return b"".join(self.parts)

    @cached_property
    def plain(self) -> bytes:
        """The stream without its cancels."""
        return reading.without_cancels(self.stream)

    @property
    def sizes(self) -> tuple[int, ...]:
        length = len(self.stream)
        return cut_at(it for it in self.cuts if it < length)

    @property
    def ways(self) -> dict[str, str]:
        places = ",".join(map(str, self.places))
        return {
            "eager": "play eager first",
            "last": "play eager last",
            "picked": f"play eager {places}",
            "lazy": f"play lazy {places}",
        }

    def to_run(self) -> list[Case]:
        """By each schedule whole and cut; by servers; and without its cancels."""
        stream, sizes = self.stream, self.sizes
        plays = [Case(how, pieces, stream) for how in self.ways.values() for pieces in ((), sizes)]
        served = [Case("serve 1", sizes, stream), Case("serve 4", (), stream), Case("serve 4", sizes, stream)]
        return [*plays, *served, Case("play eager first", (), self.plain)]


def cut_at(places: Iterable[int]) -> tuple[int, ...]:
    """The sizes of pieces that are cut at these places, ascending."""
    cuts = sorted({0, *places})
    return tuple(later - first for first, later in zip(cuts, cuts[1:]))
