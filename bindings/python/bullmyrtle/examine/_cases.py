"""A case: what is sent to the side that is examined, and what may come back."""
from __future__ import annotations

from typing import FrozenSet, NamedTuple, Tuple

#: How a case begins: with the session agreed on, with nothing, agreed on with this encoding of positions, or by a client
#: that lets a server register what it does.
STARTS = ("agreed", "none", "utf-8", "utf-16", "utf-32", "dynamic")
#: What only some servers have, and where their capabilities tell it.
# (over HTTP nothing comes before the session that `initialize` begins)
STREAM = "stream"
NEEDS = ("hoverProvider", "tools", "prompts", "resources", "completions", "logging", "tasks", STREAM)


class Step(NamedTuple):
    """What the examiner does."""

    kind: str  #: "message", "bytes", "cut", "wait", "close", "reply" or "late"
    text: str  #: what is sent, before its inserts are filled; or how long a piece is, or which id is waited for
    times: int = 1  #: how often a message is sent
    method: str = ""  #: the request to which this is the reply, at once or, where it is late, now


class Part(NamedTuple):
    """Something that comes back."""

    kind: str  #: see PARTS in _outcomes.py
    codes: Tuple[int, ...] = ()  #: of an error; any where there are none
    id: str = ""  #: JSON, before its inserts are filled
    has: str = ""  #: members that the result has
    status: int = -1  #: of an end


class Outcome(NamedTuple):
    """What may come back, and how bad that is: "" where it is right."""

    level: str
    parts: Tuple[Part, ...]
    text: str  #: as the file has it


class Case(NamedTuple):
    """A case."""

    name: str
    rules: FrozenSet[str]
    sides: FrozenSet[str]  #: who is examined by it: "server", "client"
    section: str  #: where the rule is
    rule: str  #: what the standard asks
    steps: Tuple[Step, ...]
    outcomes: Tuple[Outcome, ...]
    level: str  #: how bad it is where no outcome fits
    framing: str  #: "frames" or "lines" where the case is for one alone
    start: str
    needs: str
    place: str  #: its file and line

    @property
    def is_alone(self) -> bool:
        """Whether it needs a session of its own: it begins otherwise, or ends it."""
        ends = any(it.kind in ("end", "silence") for some in self.outcomes for it in some.parts)
        return (
            not self.steps
            or ends
            or self.start != "agreed"
            or any(it.kind == "close" for it in self.steps)
            or bool(self.replied)
        )

    @property
    def replied(self) -> Tuple[str, ...]:
        """The requests of the other side's that it answers itself."""
        return tuple(sorted({it.method for it in self.steps if it.method}))
