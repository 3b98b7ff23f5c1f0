"""What is said of an examination on a terminal, and as TAP."""
from __future__ import annotations

import json
from typing import Callable, Dict, Iterator, List, Sequence, Tuple

from .._log import shown
from ..judge._rules import LEVELS
from ._cases import Case, Step
from ._verdicts import ENDS, NOT_TRIED, OK, SLOW, Verdict

# How much of a message and of why is shown, and how many messages of each side.
_TEXT, _WORDS, _MESSAGES = 160, 300, 4
_SIGNS = {"message": ">", "bytes": ">>", "cut": "cut", "wait": "wait"}

#: Gives the command that repeats a case, by its name.
Again = Callable[[str], str]
Group = Tuple[str, str, str]


def line_of(it: Verdict) -> str:
    """A verdict in a line."""
    return f"{it.level:9} {it.case.name} ({it.section}): {shown(it.words, _WORDS)}"


def details_of(it: Verdict, again: Again) -> Iterator[str]:
    """What was sent and what came, what the judge finds, and the command that repeats it."""
    for side, data in pieces_of(it):
        yield f"    {side}: {shown(data.decode(errors='backslashreplace'), _TEXT)}"
    for line in it.findings:
        yield f"    judge: {shown(line, _WORDS)}"
    yield f"    again: {again(it.case.name)}"


def pieces_of(it: Verdict) -> List[Tuple[str, bytes]]:
    """What each side wrote, joined where nobody answered between."""
    joined: List[Tuple[str, bytes]] = []
    for side, data in it.seen:
        if joined and joined[-1][0] == side:
            joined[-1] = side, joined[-1][1] + data
        else:
            joined.append((side, data))
    return joined[: 2 * _MESSAGES]


def groups_of(verdicts: Sequence[Verdict]) -> Dict[Group, List[Verdict]]:
    """Findings by level, rule and section, the worst first."""
    found: Dict[Group, List[Verdict]] = {}
    for it in sorted((it for it in verdicts if it.is_finding), key=lambda it: LEVELS.index(it.level)):
        found.setdefault((it.level, it.rule, it.section), []).append(it)
    return found


def summary_of(verdicts: Sequence[Verdict], seconds: float) -> Iterator[str]:
    """What there is in all: a line for each rule with a count and the first case, and the counts."""
    for (level, rule, section), some in groups_of(verdicts).items():
        yield f"{level:9} {len(some):3} × {rule} ({section}): first by {some[0].case.name!r}"
    yield f"{counts_of(verdicts)} of {len(verdicts):,} cases in {seconds:.0f} s"


def counts_of(verdicts: Sequence[Verdict]) -> str:
    counts = {level: sum(it.level == level for it in verdicts) for level in ENDS}
    return ", ".join(f"{counts[it]:,} {it}" for it in (*LEVELS, SLOW, NOT_TRIED, OK))


# A case


def case_lines(case: Case) -> Iterator[str]:
    """A case as --list shows it."""
    yield case.name
    yield f"    {case.section}: {case.rule}"
    if case.start != "agreed":
        yield f"    start: {case.start}"
    if case.needs:
        yield f"    needs: {case.needs}"
    for step in case.steps:
        yield f"    {_step(step)}"
    for outcome in case.outcomes:
        yield f"    < {outcome.level + ': ' if outcome.level else ''}{outcome.text}"
    yield f"    else: {case.level}"


def _step(step: Step) -> str:
    text = shown(step.text, _TEXT)
    if step.kind == "reply":
        return f"reply {step.method}: {text}"
    count = str(step.times) if step.times > 1 else ""
    return f"{_SIGNS.get(step.kind, step.kind)}{count} {text}".rstrip()


# TAP


def tap_of(it: Verdict, number: int, counts: bool, known: bool) -> Iterator[str]:
    """A verdict as TAP, version 13."""
    directive = f" # SKIP {_tap(it.words)}" if it.level == NOT_TRIED else " # TODO known" if known else ""
    yield f"{'not ok' if counts or known else 'ok'} {number} - {_tap(it.case.name)}{directive}"
    if it.is_finding or it.level == SLOW:
        yield "  ---"
        for key, value in (("level", it.level), ("section", it.section), ("message", it.words)):
            yield f"  {key}: {json.dumps(shown(value, _WORDS))}"
        yield "  ..."


def _tap(text: str) -> str:
    return shown(text, _WORDS).replace("\\", "\\\\").replace("#", "\\#")
