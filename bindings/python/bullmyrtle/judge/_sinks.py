"""Writing without waiting: to anyone who reads slowly, or not at all."""
from __future__ import annotations

import os
import select
import socket
import stat
import time
from typing import Any, Optional

from .._channels import _PIPE, _opened_anew
from ._lines import MARK

# How much waits to be said where nobody reads, and how long the end waits for a reader.
_MOST, _SECONDS = 1 << 18, 2.0


class Sink:
    """A descriptor of its own that is written to and never waited for, in whatever mode it is."""

    def __init__(self, descriptor: int) -> None:
        self.descriptor = descriptor
        self._socket: Optional[socket.socket] = None
        self._poll: Optional[Any] = None
        mode = os.fstat(descriptor).st_mode
        if stat.S_ISSOCK(mode):
            self._socket = socket.socket(fileno=descriptor)
        elif hasattr(select, "poll") and (
            (stat.S_ISFIFO(mode) and not _opened_anew(descriptor)) or os.isatty(descriptor)
        ):
            self._poll = select.poll()
            self._poll.register(descriptor, select.POLLOUT)

    def put(self, data: Any) -> int:
        """Writes what can be written now, and gives how much that is. Raises OSError where nobody reads any more."""
        try:
            if self._socket is not None:
                return self._socket.send(data, socket.MSG_DONTWAIT | socket.MSG_NOSIGNAL)
            if self._poll is not None:
                return os.write(self.descriptor, data[:_PIPE]) if self._poll.poll(0) else 0
            return os.write(self.descriptor, data)
        except BlockingIOError:
            return 0

    def close(self) -> None:
        if self._socket is not None:
            try:
                # (anyone else who has the socket, as for reading, doesn't keep its end from being seen)
                self._socket.shutdown(socket.SHUT_WR)
            except OSError:
                pass
            self._socket.detach()
        os.close(self.descriptor)


class Speaker:
    """Says lines on a descriptor. What nobody reads is dropped, and counted."""

    def __init__(self, descriptor: int) -> None:
        self._sink: Optional[Sink] = None
        try:
            self._sink = Sink(os.dup(descriptor))
        except OSError:
            pass
        self._held = bytearray()
        self._dropped = 0

    @property
    def waits_for(self) -> Optional[int]:
        """The descriptor on which more can be said as soon as it can be written to."""
        return self._sink.descriptor if self._sink is not None and self._held else None

    def say(self, line: str) -> None:
        data = f"{MARK}{line}\n".encode("utf-8", "backslashreplace")
        if self._sink is None or len(self._held) + len(data) > _MOST:
            self._dropped += 1
            return
        if self._dropped:
            data = (
                f"{MARK}{self._dropped:,} lines are left out here, since nobody read them\n".encode() + data
            )
            self._dropped = 0
        self._held += data
        self.go_on()

    def go_on(self) -> None:
        """Says what waits, as far as that can be done now."""
        if self._sink is None:
            return
        try:
            while self._held:
                count = self._sink.put(bytes(self._held[: 1 << 16]))
                if not count:
                    return
                del self._held[:count]
        except OSError:
            self._held.clear()
            self._sink = None

    def finish(self) -> None:
        """Says the rest; who doesn't read has a moment for it."""
        end = time.monotonic() + _SECONDS
        while self.waits_for is not None and time.monotonic() < end:
            self._wait(100)

    def _wait(self, milliseconds: Optional[float]) -> None:
        """Waits until more can be said, and says it."""
        assert self._sink is not None
        poll = select.poll()
        poll.register(self._sink.descriptor, select.POLLOUT)
        poll.poll(milliseconds)
        self.go_on()


class Waiting(Speaker):
    """Says each line, and waits for who reads."""

    def say(self, line: str) -> None:
        super().say(line)
        while self.waits_for is not None:
            self._wait(None)

    def finish(self) -> None:
        """(all is said)"""
