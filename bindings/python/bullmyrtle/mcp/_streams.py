"""Streams of events: what is said on one goes to the connection that has it now, and to the next one where that breaks."""
from __future__ import annotations

import asyncio
from collections import deque
from typing import Deque, List, Optional

from .._log import log
from ._events import Event, EventStore


class Reader:
    """One HTTP response that has a stream: what isn't sent on it yet."""

    def __init__(self, most: int, first: List[Event]) -> None:
        """With how many bytes may wait, and what goes first."""
        self._most = most
        self._first = deque(first)  # (which doesn't count)
        self._queue: Deque[Event] = deque()
        self._waiting = 0
        self._wake: "Optional[asyncio.Future[None]]" = None
        #: Whether nothing more comes, and what is to be said of that.
        self.is_over = False
        self.why = ""

    def put(self, event: Event) -> None:
        """More to send. A client that doesn't read has only so much wait."""
        if self.is_over:
            return
        if self._waiting > self._most:
            log.warning("a stream ends: its client has left %d bytes unread", self._waiting)
            self._queue.clear()
            self.end("the client reads too slowly")
        else:
            self._queue.append(event)
            self._waiting += len(event[1])
            self._tell()

    def end(self, why: str = "") -> None:
        """Nothing more comes."""
        if not self.is_over:
            self.is_over, self.why = True, why
            self._tell()

    def _tell(self) -> None:
        if self._wake is not None and not self._wake.done():
            self._wake.set_result(None)

    async def next(self, seconds: float) -> Optional[Event]:
        """The next event; None at the end, or where none comes in time."""
        if self._first:
            return self._first.popleft()
        if not self._queue and not self.is_over:
            self._wake = asyncio.get_running_loop().create_future()
            await asyncio.wait({self._wake}, timeout=seconds)
        if not self._queue:
            return None
        event = self._queue.popleft()
        self._waiting -= len(event[1])
        return event


class Stream:
    """What is said on a stream, of this name."""

    def __init__(self, name: str, store: EventStore, unread: int) -> None:
        self.name, self._store, self._unread = name, store, unread
        self._last = 0
        self.is_over = False
        #: The response that has it now.
        self.reader: Optional[Reader] = None

    @classmethod
    def over(cls, name: str, store: EventStore, unread: int) -> Stream:
        """One that is over, of which there is what the store has."""
        stream = cls(name, store, unread)
        stream._last, stream.is_over = -1, True
        return stream

    @property
    def is_read(self) -> bool:
        """Whether a response has it now."""
        return self.reader is not None and not self.reader.is_over

    def send(self, message: bytes) -> None:
        """Says a message."""
        self._last += 1
        self._store.add(self.name, self._last, message)
        if self.reader is not None:
            self.reader.put((self._last, message))

    def end(self, why: str = "") -> None:
        """Nothing more is said."""
        self.is_over = True
        if self.reader is not None:
            self.reader.end(why)

    def read(self, number: Optional[int] = None) -> Optional[Reader]:
        """A response has it from now on, after the event of this number or from here; None if what is between is lost.

        One that had it until now ends.
        """
        first: Optional[List[Event]] = []
        if number is not None and number != self._last:
            first = self._store.after(self.name, number)
        if first is None:
            return None
        if self.reader is not None:
            self.reader.end("the stream was taken up again")
        self.reader = Reader(self._unread, first)
        if self.is_over:
            self.reader.end()
        return self.reader

    def leave(self, reader: Reader) -> None:
        """A response has it no more."""
        if self.reader is reader:
            self.reader = None
