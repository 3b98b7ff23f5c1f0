"""What is said of a case."""
from __future__ import annotations

from typing import List, NamedTuple, Optional, Tuple

from ..judge._judge import Finding
from ..judge._lines import line_of
from ..judge._rules import LEVELS, RULES, section_of
from ._cases import Case, Outcome
from ._inserts import named
from ._outcomes import State, fits, told
from ._session import Session

#: What a case may end as, the worst first; "slow" and "not tried" are no findings.
OK, SLOW, NOT_TRIED = "ok", "slow", "not tried"
ENDS = (*LEVELS, SLOW, NOT_TRIED, OK)
# The judge's rules that a case decides itself.
_OWN = frozenset({"unanswered", "not-judged", "not-initialized", "shutdown-code"})
_OWED, _EXACT = frozenset({"not-owed"}), frozenset({"error", "result", "response", "responses", "array"})


class Verdict(NamedTuple):
    """How a case ended."""

    case: Case
    level: str  #: "must", "should", "note", "slow", "not tried" or "ok"
    words: str = ""
    findings: Tuple[str, ...] = ()  #: lines of the judge
    seen: Tuple[Tuple[str, bytes], ...] = ()  #: what both sides wrote
    last: str = ""  #: what it wrote last to its standard error
    seconds: float = 0.0
    broken: Optional[Finding] = None  #: what the judge finds, where that is worse than what the case does
    rules: str = ""
    how: str = ""  #: how it stood with the other side then

    @property
    def is_sure(self) -> bool:
        """Whether a session of its own wouldn't show more: the other side went on, and broke no rule of the judge's."""
        return self.level in (OK, NOT_TRIED) or self.how == "alive" and self.broken is None

    @property
    def rule(self) -> str:
        """What the standard asks; of the judge's rules, what breaks it."""
        return RULES[self.broken.rule].what if self.broken is not None else self.case.rule

    @property
    def section(self) -> str:
        return section_of(self.broken.rule, self.rules) if self.broken is not None else self.case.section

    @property
    def is_finding(self) -> bool:
        return self.level in LEVELS


def verdict_of(case: Case, session: Session, state: State, rules: str) -> Verdict:
    """What a case shows: by what came, and by the judge."""
    level, words, outcome = _by_case(case, session, state)
    # (where a case says just which responses may come, they aren't judged again by whether they are owed)
    own = _OWN | (
        _OWED if outcome is not None and _EXACT & {it.kind for it in outcome.parts} else frozenset()
    )
    counted = [it for it in session.found if it.level != "note" and it.rule not in own]
    worst = min(counted, key=lambda it: ENDS.index(it.level), default=None)
    if worst is not None and ENDS.index(worst.level) < ENDS.index(level):
        level, words = worst.level, f"{line_of(worst, rules).partition(': ')[2]}"
    else:
        worst = None
    lines = tuple(line_of(it, rules) for it in counted)
    seen = tuple(session.seen)
    return Verdict(case, level, words, lines, seen, session.last_words(), 0.0, worst, rules, state.how)


def worst_of(session: Session) -> List[Finding]:
    """What the judge finds that the standard forbids."""
    return [it for it in session.found if it.level == "must" and it.rule not in _OWN]


def not_begun(case: Case, session: Session, why: str, rules: str) -> Verdict:
    """The verdict where no session could be agreed on: the judge may know what is wrong."""
    found = worst_of(session)
    if not found:
        return Verdict(case, NOT_TRIED, why)
    lines = tuple(line_of(it, rules) for it in found)
    words = lines[0].partition(": ")[2]
    return Verdict(
        case, "must", words, lines, tuple(session.seen), session.last_words(), 0.0, found[0], rules
    )


def never_asked(case: Case) -> str:
    return f"it never asked for {', '.join(case.replied)}"


def _by_case(case: Case, session: Session, state: State) -> Tuple[str, str, Optional[Outcome]]:
    if not session.has_replied:
        return NOT_TRIED, never_asked(case), None
    for outcome in case.outcomes:
        if fits(outcome, session.came, state, session.values):
            if not outcome.level:
                return (SLOW, "it answers slowly", outcome) if state.how == "slow" else (OK, "", outcome)
            return outcome.level, _words(case, session, state), outcome
    is_dead = state.how not in ("alive", "slow")
    return ("must" if is_dead else case.level), _words(case, session, state), None


def _words(case: Case, session: Session, state: State) -> str:
    wanted = " or ".join(named(it.text, session.values) for it in case.outcomes if not it.level)
    if state.how == "ended":
        return f"it ended {state.words}; expected: {wanted}"
    if state.how == "silent":
        before = f"{told(session.came)}, and " if session.came else ""
        return f"{before}no answer any more, not even to the plain request behind it; expected: {wanted}"
    if state.how == "flooding":
        return "it writes without end"
    if case.steps and case.steps[-1].kind == "close" or "end" in [it.kind for it in case.outcomes[0].parts]:
        return f"it goes on; expected: {wanted}"
    return f"{told(session.came)}; expected: {wanted}"
