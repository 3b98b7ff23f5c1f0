"""What is said of a conversation on a terminal: a line for each finding, and a summary at the end."""
from __future__ import annotations

from typing import Iterator, List

from .._log import shown
from ._judge import SIDES, Finding
from ._life import Asked
from ._rules import LEVELS, RULES, section_of
from ._talk import Group, Side, Talk, Times

#: What each line begins with.
MARK = "judge: "
# How many methods and open requests a summary names, and how much of a name it shows.
_METHODS, _OPEN, _NAME = 30, 20, 60


def place_of(it: Finding) -> str:
    """Which message it is."""
    entry = f", entry {it.entry}" if it.entry else ""
    whose = "" if it.of == it.side else f"{it.of}'s "
    return f"{whose}message {it.number} at byte {it.offset}{entry}"


def line_of(it: Finding, rules: str) -> str:
    """A finding by these rules, in a line."""
    words = f": {it.words}" if it.words else ""
    return f"{it.level}: {it.side}, {place_of(it)}: {it.rule} ({section_of(it.rule, rules)}): {RULES[it.rule].what}{words}"


def slow_line(asked: Asked, seconds: float) -> str:
    """That a request is open for so long, in a line."""
    return f"open for {seconds:g} s: {_request(asked)}"


def _request(it: Asked) -> str:
    entry = f", entry {it.entry}" if it.entry else ""
    name, id_ = shown(it.method, _NAME), shown(repr(it.id), _NAME)
    return f"{it.side}'s request {name}, id {id_}, message {it.number}{entry}"


def summary_of(talk: Talk, missed: str = "") -> Iterator[str]:
    """What there was, in lines, and what wasn't judged, if there is something."""
    sides = ", ".join(
        f"{its.messages:,} of the {side} ({its.bytes:,} bytes)" for side, its in talk.sides.items()
    )
    yield f"messages: {sides}"
    for side in SIDES:
        yield from _methods(side, talk.sides[side])
    for side in SIDES:
        yield from _open(side, talk.sides[side], talk.rules.startswith("mcp"))
    yield from talk.alike()
    if missed:
        yield f"not judged: {missed}"
    for it in groups_of(talk):
        first, times = it.first, "once" if it.times == 1 else f"{it.times:,} times"
        section = section_of(first.rule, talk.rules)
        yield f"found: {first.level}: {first.side}: {first.rule} ({section}), {times}, first in {place_of(first)}"
    found = ", ".join(f"{talk.counts.get(it, 0):,} {it}" for it in LEVELS)
    yield f"found: {found}"


def groups_of(talk: Talk) -> List[Group]:
    """The findings of each rule, the worst first, where one was broken more than once: else the lines say it all."""
    if all(it.times == 1 for it in talk.groups.values()):
        return []
    return sorted(talk.groups.values(), key=lambda it: (LEVELS.index(it.first.level), -it.times))


def _methods(side: str, its: Side) -> Iterator[str]:
    times = sorted(its.times.items(), key=lambda it: (-it[1].asked, it[0]))
    for name, it in times[:_METHODS]:
        yield f"asked by the {side}: {name}: {_times(it)}"
    if len(times) > _METHODS:
        yield f"asked by the {side}: {len(times) - _METHODS:,} more methods"


def _times(it: Times) -> str:
    """How often, and how long it took."""
    times = "once" if it.asked == 1 else f"{it.asked:,} times"
    left = "" if it.answered == it.asked else f", {it.answered:,} answered"
    if not it.timed:
        return f"{times}{left}"
    mean = it.total / it.timed
    took = f"{mean:,.0f} ms" if it.timed == 1 else f"{mean:,.1f} ms in the mean, {it.longest:,.0f} at most"
    return f"{times}{left}, {took}"


def _open(side: str, its: Side, cancelled_are_closed: bool) -> Iterator[str]:
    left: List[Asked] = [it for it in its.open_requests() if not (cancelled_are_closed and it.is_cancelled)]
    for it in left[:_OPEN]:
        yield f"open at the end: {_request(it)}"
    if len(left) > _OPEN:
        yield f"open at the end: {len(left) - _OPEN:,} more requests of the {side}"
