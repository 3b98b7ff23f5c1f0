"""What was sent on streams of events, kept so that a client whose stream broke can go on where it was."""
from __future__ import annotations

from collections import OrderedDict
from typing import List, Optional, Protocol, Tuple

#: A message of a stream, by its number.
Event = Tuple[int, bytes]


class EventStore(Protocol):
    """What keeps the events of one session. Its methods are called on the loop's thread, and don't wait."""

    def add(self, stream: str, number: int, message: bytes) -> None:
        """Keep a message. The numbers of a stream follow one another."""

    def after(self, stream: str, number: int) -> Optional[List[Event]]:
        """The messages of a stream after this number; None if one of them isn't kept, or nothing of the stream is."""


class MemoryEvents:
    """Events in memory. The oldest ones go first, and the newest one always stays."""

    def __init__(self, most: int = 500, most_bytes: int = 1 << 20) -> None:
        """Keep so many messages at most, and so many bytes of them."""
        self._most, self._most_bytes = most, most_bytes
        self._size = 0
        self._kept: "OrderedDict[Tuple[str, int], bytes]" = OrderedDict()
        self._last: "OrderedDict[str, int]" = OrderedDict()  # of streams of which something is kept

    def add(self, stream: str, number: int, message: bytes) -> None:
        self._kept[stream, number] = message
        self._last[stream] = number
        self._size += len(message)
        while len(self._kept) > 1 and (len(self._kept) > self._most or self._size > self._most_bytes):
            (of, gone), dropped = self._kept.popitem(last=False)
            self._size -= len(dropped)
            if self._last[of] == gone:
                del self._last[of]

    def after(self, stream: str, number: int) -> Optional[List[Event]]:
        last = self._last.get(stream)
        if last is None or not 0 <= number <= last:
            return None
        if number < last and (stream, number + 1) not in self._kept:
            return None
        # (the oldest go first, so what follows a message that is kept is kept too)
        return [(it, self._kept[stream, it]) for it in range(number + 1, last + 1)]
