"""What one side writes, cut into messages. (The library cuts and judges it by itself; this is for what is shown of a
message, and for the rules of a session's life.)"""
from __future__ import annotations

import json
from typing import Any, Callable, List, NamedTuple, Optional, Tuple

_MOST_CONTENT, _MOST_HEAD = 16_777_216, 4_096
_LENGTH = b"content-length"
# An array with more entries isn't looked into, as in the library.
_MOST_ENTRIES = 100_000


class Stream:
    """The bytes of one side, as contents."""

    def __init__(self, framing: str) -> None:
        self._framing = framing
        self._rest = bytearray()
        self._offset = 0  # where the rest begins
        self._length: Optional[int] = None  # of the content that comes, behind its head
        self._looked = 0  # how much of the rest has no end of a line or head
        self._is_over = self._has_piece = False
        ways = {"frames": self._frame, "lines": self._line, "contents": self._piece}
        self._cut: Callable[[], Optional[Tuple[int, bytes]]] = ways[framing]

    def saw(self, data: bytes) -> None:
        """These bytes came."""
        if not self._is_over:
            self._rest += data
            self._has_piece = True

    @property
    def is_over(self) -> bool:
        """Whether nothing more of it is cut off."""
        return self._is_over

    def next(self) -> Optional[Tuple[int, bytes]]:
        """The next content that is whole, with the offset of its first byte."""
        while not self._is_over:
            found = self._cut()
            if found is None:
                return None
            if self._framing != "lines" or found[1].strip(b" \t"):
                return found
        return None

    def _piece(self) -> Optional[Tuple[int, bytes]]:
        """What came in one piece, which may be empty."""
        has_piece, self._has_piece = self._has_piece, False
        return self._take(len(self._rest)) if has_piece else None

    def _take(self, length: int, end: int = 0) -> Tuple[int, bytes]:
        """The first bytes, without so many at their end."""
        found = self._offset, bytes(self._rest[: length - end])
        del self._rest[:length]
        self._offset += length
        self._looked = 0
        return found

    def _line(self) -> Optional[Tuple[int, bytes]]:
        end = self._rest.find(b"\n", self._looked)
        if end < 0:
            self._looked = len(self._rest)
            self._check(len(self._rest) <= _MOST_CONTENT + 1)
            return None
        return self._take(end + 1, 2 if self._rest[end - 1 : end] == b"\r" else 1)

    def _frame(self) -> Optional[Tuple[int, bytes]]:
        if self._length is None and not self._head():
            return None
        assert self._length is not None
        if len(self._rest) < self._length:
            return None
        length, self._length = self._length, None
        return self._take(length)

    def _head(self) -> bool:
        """Takes a head, where it is whole."""
        end = self._rest.find(b"\r\n\r\n", self._looked)
        if end < 0:
            self._looked = max(0, len(self._rest) - 3)
            self._check(len(self._rest) <= _MOST_HEAD)
            return False
        fields = [it.partition(b":") for it in bytes(self._rest[:end]).split(b"\r\n")]
        lengths = [value.strip() for name, _, value in fields if name.strip().lower() == _LENGTH]
        is_one = len(lengths) == 1 and lengths[0].isdigit() and len(lengths[0]) <= 10
        self._check(is_one and int(lengths[0]) <= _MOST_CONTENT)
        if not self._is_over:
            self._length = int(lengths[0])
            self._take(end + 4)
        return not self._is_over

    def _check(self, is_well: bool) -> None:
        if not is_well:
            self.stop()

    def stop(self) -> None:
        """Cut no more."""
        self._is_over = True
        self._rest.clear()

    def closed(self) -> Optional[Tuple[int, bytes]]:
        """What the close leaves: a last line without its end, or a part of a frame."""
        left = bytes(self._rest)
        if self._is_over or not left.strip(b" \t\r\n"):
            return None
        return self._take(len(left))

    @property
    def start(self) -> bytes:
        """What isn't cut off yet begins with this."""
        return bytes(self._rest[:64])


# Messages

ABSENT: Any = object()
_MEMBERS = ("jsonrpc", "id", "method", "params", "result", "error")


class Entry(NamedTuple):
    """What stands in a message, as most readers read it: a member too many or one that is null plays no part here."""

    kind: str  #: "request", "notification", "answer" or "other"
    id: Any = None  #: a string or a number
    method: str = ""
    params: Any = ABSENT
    result: Any = ABSENT
    error: Any = ABSENT
    has_id: bool = True  #: of an answer

    @property
    def code(self) -> Any:
        return self.error.get("code") if isinstance(self.error, dict) else None


class Message(NamedTuple):
    """A message that was seen."""

    side: str
    number: int  #: its index in its side's stream, from 1
    offset: int  #: of its first byte in that stream
    content: bytes
    entries: List[Entry]
    is_array: bool


def _loads(text: str) -> Any:
    try:
        return json.loads(text)
    except ValueError:
        # (or a whole number has more digits than the interpreter converts)
        return json.loads(text, parse_int=lambda it: int(it) if len(it) < 20 else None)


def read(side: str, number: int, offset: int, content: bytes) -> Message:
    """Reads a content. One that isn't JSON has no entries, nor has an array of too many."""
    try:
        value = _loads(content.decode())
    except (ValueError, RecursionError):
        return Message(side, number, offset, content, [], False)
    is_array = isinstance(value, list)
    values = value if is_array else [value]
    entries = [_entry(it) for it in values] if len(values) <= _MOST_ENTRIES else []
    return Message(side, number, offset, content, entries, is_array)


def twice_in(content: bytes, entry: int) -> List[str]:
    """The members of a message that stand twice in it: of a content, or of an entry of its array, from 1."""
    value = json.loads(content.decode(), object_pairs_hook=list, parse_int=str)
    names = [name for name, _ in (value[entry - 1] if entry else value)]
    return [it for it in _MEMBERS if names.count(it) > 1]


def _entry(value: Any) -> Entry:
    if not isinstance(value, dict):
        return Entry("other")
    id_, method = value.get("id"), value.get("method")
    if isinstance(id_, bool) or not isinstance(id_, (str, int, float)):
        id_ = None
    if isinstance(method, str):
        kind = "notification" if "id" not in value else "request"
        return Entry(kind, id_, method, value.get("params", ABSENT))
    if "result" in value or "error" in value:
        result, error = value.get("result", ABSENT), value.get("error", ABSENT)
        return Entry("answer", id_, "", ABSENT, result, error, "id" in value)
    return Entry("other")
