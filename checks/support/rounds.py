"""Bodies of different functions in one check: how they are put together, and what the check's output says of each."""
from dataclasses import dataclass
from typing import Iterable, Optional

from support.bodies import Body, Change
from support.functions import Function
from support.trees import Ran
from support.verdicts import Output, Verdict

COMMENT = "// (a comment changes nothing)"


@dataclass(frozen=True)
class Judged:
    """What became of a body. Well is what it should be: refused where it is wrong, proved where it is right."""

    body: Body
    is_well: bool
    word: str  # refused, by hand answer, proved, unfit
    why: str


def rounds_of(bodies: Iterable[Body]) -> list[list[Body]]:
    """Puts the bodies into rounds in which no function has two; one whose text stands in no function has a round of its
    own."""
    rounds: list[list[Body]] = []
    apart: list[list[Body]] = []
    for body in sorted(bodies, key=lambda it: -len(it.functions)):
        if body.is_apart:
            apart.append([body])
            continue
        fitting = (it for it in rounds if not any({*body.functions} & {*other.functions} for other in it))
        found = next(fitting, None)
        if found is None:
            found = []
            rounds.append(found)
        found.append(body)
    return rounds + apart


def is_inside(name: str, function: Function) -> bool:
    """Whether what the check names so is the function, or a closure in it: of `fn f` in the module m they are
    `m::fn::f::NAME`."""
    if function.printed.fullmatch(name):
        return True
    module, found, rest = name.partition("::fn::")
    parts = rest.split("::")
    outer = ("::".join([module, *parts[:at]]) for at in range(1, len(parts)))
    return bool(found) and any(function.printed.fullmatch(it) for it in outer)


def is_of(line: Verdict, function: Function) -> bool:
    """Whether a line of the output is about the function, a closure in it, or the impl of a trait that it is a method
    of."""
    if line.kind == "impl":
        return bool(function.printed.fullmatch(f"{line.name}::{function.name.rpartition('::')[2]}"))
    return is_inside(line.name, function)


def lines_of(output: Output, function: Function) -> list[Verdict]:
    """The lines about a function; none where the check has no line on the function itself."""
    lines = [it for it in output.verdicts.values() if is_of(it, function)]
    return lines if any(function.printed.fullmatch(it.name) for it in lines) else []


def names_of(output: Output, functions: Iterable[Function]) -> dict[Function, list[str]]:
    """What the check calls each of these functions."""
    named = [it.name for it in output.verdicts.values() if it.kind == "fn"]
    return {function: [it for it in named if function.printed.fullmatch(it)] for function in functions}


def commented(functions: Iterable[Function]) -> list[Change]:
    """A comment more at the head of each function's body."""
    spots = [it for it in functions if it.opening]
    return [Change(it.file, it.opening, it.opening, f"\n        {COMMENT}") for it in spots]


def no_verdict(ran: Ran, output: Output) -> Optional[str]:
    """Why the check judged nothing, if so."""
    if ran.is_late:
        return "the check took too long and was stopped"
    if not output.has_verdict:
        return f"the check gave no verdict (status {ran.status}), so no contract was tried: {output.first_error}"
    if output.unread:
        return f"the prover can't read the text: {output.unread[0]}"
    if (ran.status == 0) != output.is_proved or ran.status > 1:
        return f"the check's status is {ran.status} and its last line says otherwise"
    return None


def hurt_beside(output: Output, bodies: list[Body], known: set[str]) -> list[str]:
    """What falls for a reason of its own, or has no line, though no body of the round touches it."""
    edited = [fn for body in bodies for fn in (*body.functions, *body.mates)]
    fallen = [it.name for it in output.fallen() if not any(is_of(it, fn) for fn in edited)]
    missing = [it for it in known if it not in output.verdicts and not any(is_inside(it, fn) for fn in edited)]
    return fallen + missing


def short(items: list[str]) -> str:
    return ", ".join(items[:2]) + (f" and {len(items) - 2} more" if len(items) > 2 else "")


def judge_wrong(body: Body, output: Output, is_alone: bool) -> Optional[Judged]:
    """What the output of a round says of a wrong body; None where it says nothing as long as others are wrong beside
    it."""
    lines = [it for fn in body.functions for it in lines_of(output, fn)]
    if not all(lines_of(output, fn) for fn in body.functions):
        lost = next(fn.name for fn in body.functions if not lines_of(output, fn))
        return Judged(body, False, "unfit", f"the check has no line on {lost}") if is_alone else None
    goals = [f"{it.name.split('::', 1)[1]}: {short(it.goals)}" for it in lines if it.goals]
    answers = [
        f"{it.name.split('::', 1)[1]}: {short(it.answers)}" for it in lines if it.falls_by_itself and not it.goals
    ]
    if not all(it.is_judged for it in lines):
        return (
            Judged(
                body,
                False,
                "unfit",
                f"the prover could not judge it: {rest_of([it for it in lines if not it.is_judged])}",
            )
            if is_alone
            else None
        )
    if goals:
        return Judged(body, True, "refused", short(goals))
    if any(it.falls_by_itself for it in lines):
        is_by_hand = any(it.answers for it in lines)
        return Judged(
            body, True, "by hand answer" if is_by_hand else "refused", short(answers) if is_by_hand else rest_of(lines)
        )
    if not all(it.is_proved for it in lines):
        return (
            Judged(body, False, "unfit", f"it falls for no reason of its own: {rest_of(lines)}") if is_alone else None
        )
    return Judged(
        body,
        False,
        "proved",
        f"{body.said} {'are' if len(body.functions) > 1 else 'is'} proved with this body: {body.what}",
    )


def rest_of(lines: list[Verdict]) -> str:
    fallen = next((it for it in lines if it.falls_by_itself), None) or next(it for it in lines if not it.is_proved)
    return f"{fallen.name.split('::', 1)[1]}: {fallen.word}{fallen.rest[:160]}"


def judge_right(body: Body, output: Output) -> Judged:
    """What the output of a round of right bodies says of one."""
    fallen = [it for fn in body.functions for it in lines_of(output, fn) if not it.is_proved]
    if all(lines_of(output, fn) for fn in body.functions) and not fallen:
        return Judged(body, True, "proved", "proved, as it must be")
    why = rest_of(fallen) if any(it.falls_by_itself for it in fallen) else "it is not proved"
    return Judged(body, False, "refused", why)
