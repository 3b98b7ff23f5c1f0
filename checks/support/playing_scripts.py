"""Plays scripts of connections by a program, and looks at what it gives for each action."""
import os
from concurrent.futures import ThreadPoolExecutor
from typing import Iterable

from support import connection_fuzzing as fuzzing
from support import connection_rows as rows
from support import connection_script as script
from support import ran
from support.c_programs import said

# Several scripts are played as one, since what starts a program may cost more than what it does, as under valgrind.
TOGETHER = 25
# (valgrind takes some hundred times as long)
LONGEST = 20_000


def why_not(words: list[str], row: rows.Row) -> str:
    """Why a program doesn't give what a script gives, or nothing where it does."""
    status, output, errors = said(words, script.written(row.actions).encode())
    lines = output.decode(errors="replace").split("\n")[:-1]
    return fuzzing.difference(row.actions, row.gives, lines) or (
        f"{status}, {errors[-1500:]!r}" if status or errors else ""
    )


def check(count: ran.Count, words: list[str], kind: str, scripts: Iterable[rows.Row]) -> None:
    """Plays each script by the program, on as many processors as there are."""
    scripts = [*scripts]
    with ThreadPoolExecutor(len(os.sched_getaffinity(0))) as pool:
        for row, why in zip(scripts, pool.map(lambda it: why_not(words, it), scripts)):
            count.check(f"{kind}: {row.name}", not why, why)


def one_of(scripts: list[rows.Row]) -> rows.Row:
    """Scripts one behind the other: each begins a connection of its own."""
    actions = tuple(it for each in scripts for it in each.actions)
    return rows.Row(
        f"{scripts[0].name}, and those behind it", actions, tuple(it for each in scripts for it in each.gives)
    )


def joined(scripts: list[rows.Row]) -> list[rows.Row]:
    """Scripts with several of these in each."""
    return [one_of(scripts[at : at + TOGETHER]) for at in range(0, len(scripts), TOGETHER)]


def short_rows() -> list[rows.Row]:
    """The rows but the longest, several in each."""
    return joined([it for it in rows.all_rows() if len(script.written(it.actions)) <= LONGEST])
