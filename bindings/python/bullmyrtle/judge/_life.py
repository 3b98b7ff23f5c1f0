"""What the rules of a session's life have in common: requests that are open, and tokens of progress."""
from __future__ import annotations

from typing import Any, Dict, Iterator, List, NamedTuple, Optional, Set, Tuple

from ._streams import ABSENT, Entry

OTHER = {"client": "server", "server": "client"}
# How many tokens are known of requests that are answered, and of work that has ended.
_MOST_LATE = 1_000

Key = Tuple[str, Any]


def key_of(value: Any) -> Optional[Key]:
    """An id or a token as it is compared: by its value and its type."""
    if isinstance(value, str):
        return "string", value
    if isinstance(value, bool) or not isinstance(value, (int, float)):
        return None
    return "number", value


def member(value: Any, *names: str) -> Any:
    """The member of a member of an object, or ABSENT."""
    for name in names:
        value = value.get(name, ABSENT) if isinstance(value, dict) else ABSENT
    return value


def is_object(value: Any) -> bool:
    return isinstance(value, dict)


def is_whole(value: Any) -> bool:
    return isinstance(value, int) and not isinstance(value, bool)


class Asked:
    """A request that was seen."""

    __slots__ = (
        "side",
        "id",
        "method",
        "number",
        "entry",
        "offset",
        "at",
        "is_cancelled",
        "due",
        "tokens",
        "about",
        "is_task",
    )

    def __init__(
        self, side: str, entry: Entry, number: int, place: int, offset: int, at: Optional[float]
    ) -> None:
        self.side, self.id, self.method = side, entry.id, entry.method
        self.number, self.entry, self.offset, self.at = number, place, offset, at
        self.is_cancelled = False
        self.due = ""  # the rule that says how it has to be answered
        self.tokens: List[Key] = []  # which it gave
        self.about: Any = None  # what of its params says how it has to be answered (MCP)
        self.is_task = False  # whether it is to be answered by a task (MCP)


class Breach(NamedTuple):
    """A rule that the message breaks which was seen last."""

    side: str
    rule: str
    words: str
    level: Optional[str] = None  # where it isn't the rule's own


class Token:
    """A token by which progress is told."""

    __slots__ = ("kind", "open", "is_refused", "is_cancelled", "stage", "last")

    def __init__(self, kind: str) -> None:
        self.kind = kind  # "work", "partial", or "made" by the side that tells the progress
        self.open = 0  # how many open requests gave it
        self.is_refused = self.is_cancelled = False
        self.stage = ""  # "begun", "ended"
        self.last: Any = None  # the progress that was told


class Tokens:
    """The tokens by which a side may tell progress."""

    def __init__(self) -> None:
        self._known: Dict[Key, Token] = {}
        self._late: Dict[Key, None] = {}  # those that are over, the oldest first

    def get(self, key: Key) -> Optional[Token]:
        return self._known.get(key)

    def give(self, key: Key, kind: str) -> None:
        """A request of the other side gives it."""
        it = self._known.get(key)
        if it is None or not it.open:
            it = self._known[key] = Token(kind)
            self._late.pop(key, None)
        it.open += 1

    def make(self, key: Key) -> None:
        """The side makes it."""
        self._known[key] = Token("made")
        self._late.pop(key, None)

    def cancelled(self, key: Key) -> None:
        """The request that gave it is cancelled, and won't be answered."""
        it = self._known.get(key)
        if it is not None:
            it.is_cancelled = True
        self.answered(key)

    def answered(self, key: Key) -> None:
        """The request that gave it is answered."""
        it = self._known.get(key)
        if it is None or not it.open:
            return
        it.open -= 1
        if not it.open:
            self.over(key)

    def over(self, key: Key) -> None:
        """Nothing more is to come for it. It is known for a while, so that it is told what comes all the same."""
        self._late.pop(key, None)
        self._late[key] = None
        if len(self._late) > _MOST_LATE:
            old = next(iter(self._late))
            del self._late[old]
            if old in self._known and not self._known[old].open:
                del self._known[old]


class Life:
    """What there is of a session's life without a protocol: nothing."""

    def __init__(self, rules: str) -> None:
        self.rules = rules
        self.breaches: List[Breach] = []
        self._told: Set[str] = set()

    def _find(self, side: str, rule: str, words: str = "", level: Optional[str] = None) -> None:
        self.breaches.append(Breach(side, rule, words, level))

    def _find_once(self, side: str, rule: str, words: str = "") -> None:
        if rule not in self._told:
            self._told.add(rule)
            self._find(side, rule, words)

    def edition(self) -> str:
        """By which of the rules' levels it is judged: the protocol, or the version of MCP."""
        return self.rules

    @property
    def is_over(self) -> bool:
        """Whether the server has said that it has done all that it was asked for."""
        return False

    def request(self, asked: Asked, params: Any, is_in_array: bool) -> None:
        """A request is seen."""

    def notification(self, side: str, method: str, params: Any) -> None:
        """A notification is seen."""

    def answer(self, asked: Asked, entry: Entry) -> None:
        """The answer to a request is seen."""

    def summary(self) -> Iterator[str]:
        """Lines for the summary at the end."""
        return iter(())

    def cancelled(self, asked: Asked) -> None:
        """A cancel of a request that is open is seen, after which it needn't be answered (MCP)."""
