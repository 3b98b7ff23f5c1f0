"""The side that is examined: what is written to it and read from it."""
from __future__ import annotations

import contextlib
import os
import select
import socket
from collections import deque
from typing import Deque, Optional

from ._idle import Idle
from ._process import Folder, Process

_READ, _WRITTEN = 1 << 18, 1 << 16
_READY = select.POLLIN | select.POLLHUP | select.POLLERR if hasattr(select, "poll") else 0
# How long a process has to end once its output has.
_SECONDS = 2.0


class Peer:
    """Two streams, and the process behind them where it is one that the examiner started."""

    def __init__(
        self,
        source: int,
        sink: int,
        process: Optional[Process],
        folder: Folder,
        joined: Optional[socket.socket] = None,
    ) -> None:
        self._source: Optional[int] = source
        self._sink: Optional[int] = sink
        self.process, self.folder, self._joined = process, folder, joined
        self._queue: Deque[memoryview] = deque()
        self.is_broken = False  #: whether it reads no more
        self.works_here = True  #: whether it is the process itself that answers
        for it in (source, sink):
            os.set_blocking(it, False)

    @property
    def is_over(self) -> bool:
        """Whether its output has ended."""
        return self._source is None

    @property
    def is_written(self) -> bool:
        """Whether nothing waits to be written."""
        return not self._queue

    def idle(self) -> Optional[Idle]:
        """What tells how long it has had nothing to do, where it is a process that was started here."""
        process = self.process
        if process is None or process.status is not None or not self.works_here:
            return None
        return Idle(process.pid, self.is_read)

    def is_read(self) -> bool:
        """Whether it has read all that was written."""
        if self._queue:
            return False
        if self._sink is None:
            return True
        import fcntl  # (here, since there are systems without them)
        import termios

        request = termios.FIONREAD if self._joined is None else termios.TIOCOUTQ
        try:
            return fcntl.ioctl(self._sink, request, bytes(4)) == bytes(4)
        except OSError:  # (a system that doesn't tell it)
            return True

    def write(self, data: bytes) -> None:
        """Writes as soon as it can be written."""
        if self._sink is not None and data:
            self._queue.append(memoryview(data))

    def turn(self, seconds: float) -> bytes:
        """Waits until something can be done, does it, and gives what was read."""
        poll = select.poll()
        if self._source is not None:
            poll.register(self._source, select.POLLIN)
        if self._queue and self._sink is not None:
            poll.register(self._sink, select.POLLOUT | (select.POLLIN if self._sink == self._source else 0))
        for it in self.process.drained if self.process else ():
            poll.register(it, select.POLLIN)
        data = b""
        for descriptor, events in poll.poll(max(0, seconds * 1000)):
            if descriptor == self._source and events & _READY:
                data = self._read()
            elif self.process is not None and descriptor in self.process.drained:
                self.process.read_drained(descriptor)
            if descriptor == self._sink and self._queue and events & ~select.POLLIN:
                self._write()
        return data

    def _read(self) -> bytes:
        assert self._source is not None
        try:
            data = os.read(self._source, _READ)
        except BlockingIOError:
            return b""
        except OSError:
            data = b""
        if not data:
            self._source = None
        return data

    def _write(self) -> None:
        """Writes what waits: several messages at once, so that a reader that loses what it has read is found."""
        assert self._sink is not None
        if len(self._queue) > 1 and len(self._queue[0]) < _WRITTEN:
            joined = b"".join(self._queue)
            self._queue.clear()
            self._queue.append(memoryview(joined))
        try:
            count = os.write(self._sink, self._queue[0][:_WRITTEN])
        except BlockingIOError:
            return
        except OSError:
            self._broke()
            return
        left = self._queue.popleft()[count:]
        if left:
            self._queue.appendleft(left)

    def _broke(self) -> None:
        self._queue.clear()
        self._sink, self.is_broken = None, True

    def close_input(self) -> None:
        """Ends its input."""
        sink, self._sink = self._sink, None
        self._queue.clear()
        if sink is None:
            return
        if self._joined is not None:
            with contextlib.suppress(OSError):
                self._joined.shutdown(socket.SHUT_WR)
        elif self.process is not None and self.process.stdin is not None:
            with contextlib.suppress(OSError):
                self.process.stdin.close()

    def status(self) -> Optional[int]:
        """How its process ended, where it has, or does now."""
        return self.process.wait(_SECONDS) if self.process is not None else None

    def end(self) -> None:
        """Ends it, and removes its folder."""
        self.close_input()
        if self._joined is not None:
            self._joined.close()
        if self.process is not None:
            self.process.end()
        self.folder.remove()
