"""Reads cases from their files. docs/examining.md describes the language, in "Cases"."""
from __future__ import annotations

import os
import re
from typing import Dict, Iterator, List, NamedTuple, Tuple

from ..errors import Refused
from ..judge._rules import LEVELS
from ..judge._versions import NAMES, VERSIONS
from ._cases import NEEDS, STARTS, Case, Outcome, Step
from ._inserts import columns_filled, unknown
from ._outcomes import BadOutcome, outcome_of

FOLDER = os.path.join(os.path.dirname(os.path.abspath(__file__)), "cases")
_SIDES = ("server", "client")
_KEYS = ("rules", "sides", "section", "rule", "framing", "start", "needs", "else")
_KEY = re.compile(rf"({'|'.join(_KEYS)}): *(.*)")
_MESSAGE = re.compile(r">(\d*) (.*)")
_REPLY = re.compile(r"(reply|late) (\S+): (.*)")
#: The rules by their names in a file, where they aren't their own: "mcp" is for all versions, and the newest is what
#: "mcp" asks for.
_ALL = {"mcp": tuple(VERSIONS), f"mcp:{VERSIONS['mcp']}": ("mcp", f"mcp:{VERSIONS['mcp']}")}


class BadCase(Refused, ValueError):
    """A line of a file of cases that can't be read: which one, and why."""

    def __init__(self, place: str, why: str) -> None:
        super().__init__(f"{place}: {why}")


class Line(NamedTuple):
    """A line of a file."""

    place: str
    text: str


def read_all(folder: str = FOLDER) -> List[Case]:
    """All cases, file by file. Raises BadCase, also where two have one name."""
    cases: List[Case] = []
    for name in sorted(os.listdir(folder)):
        if name.endswith(".txt"):
            cases += read(os.path.join(folder, name))
    known: Dict[Tuple[str, str, str], str] = {}
    for it in cases:
        for key in [(it.name, rules, side) for rules in it.rules for side in it.sides]:
            if key in known:
                raise BadCase(it.place, f"{it.name!r} is the name of a case at {known[key]} too")
            known[key] = it.place
    return cases


def read(file: str) -> List[Case]:
    """The cases of a file."""
    with open(file, encoding="utf-8") as lines:
        name = os.path.basename(file)
        every = [Line(f"{name}:{at}", it.rstrip("\n")) for at, it in enumerate(lines, 1)]
    common: Dict[str, str] = {}
    cases: List[Case] = []
    for block in _blocks(every):
        if _KEY.fullmatch(block[0].text):
            for line in block:
                key, value = _key(line)
                common[key] = value
        else:
            cases += _cases_of(block, common)
    return cases


def _blocks(lines: List[Line]) -> Iterator[List[Line]]:
    """What empty lines divide, without comments."""
    block: List[Line] = []
    for line in [*lines, Line("", "")]:
        if line.text.startswith("#"):
            continue
        if line.text.strip():
            block.append(line)
        elif block:
            yield block
            block = []


def _key(line: Line) -> Tuple[str, str]:
    found = _KEY.fullmatch(line.text)
    if found is None:
        raise BadCase(line.place, f"expected one of {', '.join(_KEYS)} with a colon, got {line.text!r}")
    return found[1], found[2]


def _cases_of(block: List[Line], common: Dict[str, str]) -> Iterator[Case]:
    """The cases that a block describes: one, or one for each row of its table."""
    head, rows, rest = block[0], [it for it in block if it.text.startswith("|")], []
    rest = [it for it in block[1:] if not it.text.startswith("|")]
    for values in _table(rows) if rows else iter([{}]):
        filled = [Line(it.place, columns_filled(it.text, values)) for it in rest]
        for line in filled:
            name = unknown(line.text)
            if name:
                raise BadCase(line.place, f"${name} stands for nothing: it is no column and no insert")
        yield _case(Line(head.place, columns_filled(head.text, values)), filled, common)


def _table(rows: List[Line]) -> Iterator[Dict[str, str]]:
    cells = [[it.strip() for it in row.text.strip().strip("|").split("|")] for row in rows]
    for row, found in zip(rows, cells):
        if len(found) != len(cells[0]):
            raise BadCase(row.place, f"{len(found)} cells, and the table has {len(cells[0])} columns")
    for found in cells[1:]:
        yield dict(zip(cells[0], found))


def _case(head: Line, lines: List[Line], common: Dict[str, str]) -> Case:
    fields, steps, outcomes = dict(common), [], []
    for line in lines:
        if line.text.startswith("< "):
            outcomes.append(_outcome(line))
        elif _KEY.fullmatch(line.text):
            key, value = _key(line)
            fields[key] = value
        else:
            steps.append(_step(line))
    if not outcomes:
        raise BadCase(head.place, f"{head.text!r} has no line with < that says what may come back")
    for key in ("rules", "sides", "section", "rule"):
        if not fields.get(key):
            raise BadCase(head.place, f"{head.text!r} has no {key}")
    return Case(
        head.text,
        frozenset(_rules(head, fields["rules"])),
        frozenset(_some(head, "sides", fields["sides"], _SIDES)),
        fields["section"],
        fields["rule"],
        tuple(steps),
        tuple(outcomes),
        _one(head, "else", fields.get("else", "must"), LEVELS),
        _one(head, "framing", fields.get("framing", ""), ("", "frames", "lines")),
        _one(head, "start", fields.get("start", "agreed"), STARTS),
        _one(head, "needs", fields.get("needs", ""), ("", *NEEDS)),
        head.place,
    )


def _rules(line: Line, text: str) -> Iterator[str]:
    for it in _some(line, "rules", text, NAMES):
        yield from _ALL.get(it, (it,))


def _some(line: Line, key: str, text: str, known: Tuple[str, ...]) -> List[str]:
    return [_one(line, key, it, known) for it in text.split()]


def _one(line: Line, key: str, value: str, known: Tuple[str, ...]) -> str:
    if value not in known:
        raise BadCase(line.place, f"{key} must be of {', '.join(filter(None, known))}, got {value!r}")
    return value


def _outcome(line: Line) -> Outcome:
    try:
        return outcome_of(line.text[2:])
    except BadOutcome as fault:
        raise BadCase(line.place, str(fault)) from None


def _step(line: Line) -> Step:
    text = line.text
    if text.startswith(">> "):
        return Step("bytes", text[3:])
    found = _MESSAGE.fullmatch(text)
    if found is not None:
        return Step("message", found[2], int(found[1] or 1))
    if text == "close":
        return Step("close", "")
    found = _REPLY.fullmatch(text)
    if found is not None:
        return Step(found[1], found[3], method=found[2])
    kind, _, rest = text.partition(" ")
    if kind == "wait" and rest or kind == "cut" and rest.isdigit() and int(rest):
        return Step(kind, rest)
    raise BadCase(line.place, f"expected >, >>, <, cut, wait, close, reply, late or a key, got {text!r}")


def asked(cases: List[Case], rules: str, agreed: str, side: str, framing: str) -> List[Case]:
    """The cases for a side by the rules of the version that was agreed on, and those that this lacks of the rules that
    were asked for."""
    own = chosen(cases, agreed, side, framing)
    names = {it.name for it in own}
    return own + [it for it in chosen(cases, rules, side, framing) if it.name not in names]


def possible(cases: List[Case], rules: str, side: str, framing: str) -> List[Case]:
    """The cases for a side by these rules, and by all that may be agreed on."""
    found = {it.name: it for agreed in _ALL.get(rules, ()) for it in chosen(cases, agreed, side, framing)}
    return list({**found, **{it.name: it for it in chosen(cases, rules, side, framing)}}.values())


def chosen(cases: List[Case], rules: str, side: str, framing: str, only: str = "") -> List[Case]:
    """The cases for a side by these rules, whose names hold a word."""
    return [
        it
        for it in cases
        if rules in it.rules and side in it.sides and it.framing in ("", framing) and only in it.name
    ]
