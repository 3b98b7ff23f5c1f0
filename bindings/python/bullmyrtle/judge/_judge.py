"""The library's judge, which is proved: what was seen of two sides, and what is found in it."""
from __future__ import annotations

from typing import TYPE_CHECKING, List, NamedTuple, Optional, Tuple

from .. import _library, _settings
from ._rules import LEVELS, PROVED

#: The two sides: the client started the server.
SIDES = ("client", "server")
#: How a side's stream ends: it is closed, or reading it fails.
ENDS = ("closed", "failed")
#: How a side's stream is cut into messages.
FRAMINGS = _library.FRAMINGS

#: The greatest content that the judge takes, in bytes.
MOST_CONTENT = 16_777_216
# How many findings the extension gives at once.
_MOST = 64

if TYPE_CHECKING:
    from .._bullmyrtle import Judge as Base
else:
    Base = _library.extension.Judge


class Finding(NamedTuple):
    """A rule that a side broke, and in which message."""

    side: str  #: who broke it: "client" or "server"
    rule: str  #: its name in docs/judge.md
    level: str  #: "must", "should" or "note"
    of: str  #: whose message it is, which is `side` but for a request that `side` didn't answer
    number: int  #: the index of the message in that side's stream, from 1
    offset: int  #: of the message's first byte in that stream
    entry: int = 0  #: the entry's place in an array, from 1, or 0
    words: str = ""  #: what is wrong, where that isn't plain, and the message's first characters


class Judge(Base):
    """Judges two sides that talk: it is told what was seen of them, in the order in which it was seen."""

    def __init__(
        self, rules: str = "jsonrpc", framing: str = "frames", content: Optional[int] = None
    ) -> None:
        """Make a judge.

        rules -- "jsonrpc", "lsp", "mcp" (which is MCP 2025-11-25 to the library), "mcp:2025-06-18", "mcp:2025-03-26" or
            "mcp:2024-11-05"
        framing -- "frames", "lines" or "contents"
        content -- how many bytes a content may have, at most 16,777,216, which is also the default
        """
        _settings.one_of("rules", rules, _library.RULES)
        _settings.one_of("framing", framing, FRAMINGS)
        _settings.whole("content", content, MOST_CONTENT)
        self._begin(_library.RULES.index(rules), FRAMINGS.index(framing), content or 0)

    def saw(self, side: str, data: bytes) -> None:
        """A side wrote these bytes. Behind its end they count nothing.

        Raises NoMemory where there is none: then it is as if nothing had been seen from here on.
        """
        self._saw(SIDES.index(side), data)

    def ended(self, side: str, how: str) -> None:
        """A side's stream was closed, or reading it failed."""
        self._ended(SIDES.index(side), ENDS.index(how))

    def findings(self) -> List[Finding]:
        """What is found, and wasn't given yet."""
        found: List[Finding] = []
        while True:
            more = self._next()
            found += map(_finding_of, more)
            if len(more) < _MOST:
                return found


def _finding_of(numbers: Tuple[int, ...]) -> Finding:
    of_side, of_rule, level, _, number, offset, entry = numbers
    side, rule = SIDES[of_side], PROVED[of_rule]
    of = SIDES[1 - of_side] if rule.name == "unanswered" else side
    return Finding(side, rule.name, LEVELS[level], of, number, offset, entry)
