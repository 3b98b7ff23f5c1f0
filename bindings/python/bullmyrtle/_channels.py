"""Where a session's bytes come from and go to, and the one of these that is descriptors."""
from __future__ import annotations

import contextlib
import os
import select
import stat

from ._hints import TYPE_CHECKING
from ._system import DESCRIPTORS, WAITS

if TYPE_CHECKING:
    import asyncio
    from typing import Any, Optional, Union

    from ._transport import Transport

# How much is read at once, how much of the output is taken at once, and how much of it may wait until reading stops.
READ, TAKEN, WAITING = 1 << 16, 1 << 18, 1 << 20
# What a pipe that can be written to has room for (POSIX has 512 at least, and Linux a page).
_PIPE = 4096
_NOTHING = memoryview(b"")
# If fewer bytes than this are taken, no more are left.
_ALL = 1 << 16


class Channel:
    """What a session writes to. It tells the session by `received` and `input_ended` what came in."""

    #: Whether it tells the session once at most in each turn of the loop.
    takes_turns = False
    #: Whether the other side is the process that started this one, or one that this started: it may know what goes wrong
    #: here. Who reaches a socket may not.
    is_near = False

    def start(self, transport: Transport) -> None:
        """Begin to read."""

    def go_over(self, loop: Any) -> None:
        """Have its turns in this event loop from now on."""

    def write(self) -> None:
        """Write what the session has, as far as that can be done now, and the rest later."""

    @property
    def is_idle(self) -> bool:
        """Whether all that could be written is written."""
        return True

    @property
    def waiting(self) -> int:
        """How many bytes it has taken from the session that aren't written."""
        return 0

    def pause(self) -> None:
        """Read nothing for a while, where that can be helped."""

    def resume(self) -> None:
        """Read on."""

    def stop(self) -> None:
        """Read no more."""

    def finish(self) -> None:
        """Say to the other side that no more is written, once all is."""

    async def close(self, seconds: float) -> None:
        """Let go of everything; what a buffer still holds may take so long to go out."""


def _opened_anew(pipe: int) -> bool:
    """Puts in the place of a pipe's end the same one opened anew, so that it has a mode of its own: never to wait."""
    try:
        anew = os.open(f"{DESCRIPTORS}/{pipe}", os.O_WRONLY | os.O_NONBLOCK)
    except OSError:
        return False
    os.dup2(anew, pipe, inheritable=False)
    os.close(anew)
    return True


class Descriptors(Channel):
    """Two descriptors of its own: pipes, sockets, terminals or files.

    They stay in the mode in which they are, since that is shared with other processes. So what is read is known to be
    there, and what is written to a pipe that can't be opened anew is known to fit.
    """

    takes_turns = is_near = True

    def __init__(self, source: Optional[int], sink: Optional[int], pauses: bool = True) -> None:
        self._source, self._sink = source, sink
        self._pauses = pauses
        self._rest = _NOTHING
        self._is_reading = self._is_paused = self._is_waiting = self._is_finishing = False
        self._is_stopped = self._is_held = False
        self._turn: Optional[asyncio.Handle] = None
        self._socket: Any = None
        self._poll: Optional[Any] = None
        if sink is not None:
            mode = os.fstat(sink).st_mode
            if stat.S_ISSOCK(mode):
                import socket

                self._socket = socket.socket(fileno=sink)
            elif stat.S_ISFIFO(mode) and DESCRIPTORS and _opened_anew(sink):
                pass
            elif stat.S_ISFIFO(mode) or os.isatty(sink):
                self._poll = select.poll()
                self._poll.register(sink, select.POLLOUT)
        self._is_plain = self._socket is None and self._poll is None

    def start(self, transport: Transport) -> None:
        self._transport = transport
        self._loop = transport.turns
        if self._source is None or self._sink is None:
            self._loop.call_soon(transport.broke)
        else:
            self._read_on()

    def go_over(self, loop: Any) -> None:
        is_reading, is_waiting = self._is_reading, self._is_waiting
        self._pause()
        self._unwait()
        self._loop = loop
        if is_reading:
            self._read_on()
        if is_waiting:
            self._wait()

    # Reading

    def _read_on(self) -> None:
        if self._is_reading or self._is_stopped or self._is_held or self._source is None:
            return
        self._is_reading = True
        try:
            self._loop.add_reader(self._source, self._readable)
        except OSError:
            # (a file can always be read, and so the loop can't wait for it)
            self._turn = self._loop.call_soon(self._read_file)
        else:
            read_by = getattr(self._loop, "read_by", None)
            if read_by is not None:
                read_by(self._source, self._readable)

    def _read_file(self) -> None:
        self._readable()
        if self._is_reading:
            self._turn = self._loop.call_soon(self._read_file)

    def pause(self) -> None:
        self._is_held = True
        self._pause()

    def resume(self) -> None:
        self._is_held = False
        if not self._is_paused:
            self._read_on()

    def _pause(self) -> None:
        if self._is_reading:
            self._is_reading = False
            assert self._source is not None
            if self._turn is not None:
                self._turn.cancel()
            with contextlib.suppress(OSError, ValueError):
                self._loop.remove_reader(self._source)
            read_no_more = getattr(self._loop, "read_no_more", None)
            if read_no_more is not None:
                read_no_more()

    def _readable(self) -> None:
        assert self._source is not None
        try:
            data = os.read(self._source, READ)
        except BlockingIOError:
            return
        except OSError:
            self._end(True)
            return
        if data:
            self._transport.received(data)
        else:
            self._end(False)

    def _end(self, failed: bool) -> None:
        self.stop()
        self._transport.input_ended(failed)

    def stop(self) -> None:
        self._pause()
        self._is_stopped = True

    # Writing

    @property
    def is_idle(self) -> bool:
        return self._sink is None or not self._is_waiting

    @property
    def waiting(self) -> int:
        return len(self._rest)

    def write(self, is_later: bool = False) -> None:
        if self._is_waiting and not is_later:
            self._pause_where_much_waits()
            return
        if is_later and self._transport.is_busy:
            self._unwait()  # (the session writes on)
            return
        left = 4 * TAKEN
        while self._sink is not None:
            data = self._rest or self._transport.take(TAKEN)
            size = len(data)
            count = 0
            try:
                if size and left > 0:
                    count = os.write(self._sink, data) if self._is_plain else self._put(self._sink, data)
            except BlockingIOError:
                pass
            except OSError:
                self._break()
                return
            if count != size:
                self._rest = memoryview(data)[count:]
                if not count:
                    self._wait()
                    return
            elif self._rest or size >= _ALL:
                self._rest = _NOTHING  # (and there may be more)
            else:
                if self._is_waiting or self._is_paused or self._is_finishing:
                    self._written()
                if is_later:
                    self._transport.was_written()
                return
            left -= count

    def _put(self, sink: int, data: Union[bytes, memoryview]) -> int:
        """Writes as much as can be written without waiting, and says how much that is."""
        if self._socket is not None:
            import socket

            # (where there is no such flag, Python has the signal ignored)
            flags = socket.MSG_DONTWAIT | getattr(socket, "MSG_NOSIGNAL", 0)
            count: int = self._socket.send(data, flags)
            return count
        assert self._poll is not None
        return os.write(sink, data[:_PIPE]) if self._poll.poll(0) else 0

    def _wait(self) -> None:
        if not self._is_waiting:
            self._is_waiting = True
            assert self._sink is not None
            try:
                self._loop.add_writer(self._sink, self.write, True)
            except OSError:
                self._loop.call_soon(self._write_file)
        self._pause_where_much_waits()

    def _pause_where_much_waits(self) -> None:
        if self._pauses and not self._is_paused and self._transport.pending + self.waiting > WAITING:
            self._is_paused = True
            self._pause()

    def _write_file(self) -> None:
        if self._is_waiting:
            self.write(True)
            self._loop.call_soon(self._write_file)

    def _written(self) -> None:
        self._unwait()
        if self._is_paused:
            self._is_paused = False
            self._read_on()
        if self._is_finishing:
            self._close_sink()

    def _unwait(self) -> None:
        if self._is_waiting:
            self._is_waiting = False
            assert self._sink is not None
            with contextlib.suppress(OSError, ValueError):
                self._loop.remove_writer(self._sink)

    def _break(self) -> None:
        """Nobody reads any more."""
        self._close_sink()
        self.stop()
        self._transport.broke()

    def _close_sink(self) -> None:
        self._unwait()
        if self._socket is not None:
            # (anyone else who has the socket, as for reading, doesn't keep its end from being seen)
            with contextlib.suppress(OSError):
                self._socket.shutdown(1)  # (socket.SHUT_WR)
            self._socket.detach()
            self._socket = None
        if self._sink is not None:
            os.close(self._sink)
        self._sink = None
        self._rest = _NOTHING

    def finish(self) -> None:
        self._is_finishing = True
        self.write()

    async def close(self, seconds: float) -> None:
        self.stop()
        if self._sink is not None:
            self._unwait()
            if self._socket is not None:
                self._socket.detach()
            os.close(self._sink)
        if self._source is not None:
            os.close(self._source)
        self._source = self._sink = None


def over(source: Optional[int], sink: Optional[int]) -> Channel:
    """A channel over two descriptors, which are its own from now on."""
    if WAITS:
        return Descriptors(source, sink)
    from ._waiting import Threaded

    return Threaded(source, sink)
