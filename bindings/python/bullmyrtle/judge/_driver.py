"""The driver: it stands between a client and the server that it starts, passes each byte on as it is, and notes it."""
from __future__ import annotations

import contextlib
import fcntl
import os
import select
import subprocess
import time
from typing import Any, Dict, List, Optional, Sequence

from ._apart import Processes
from ._recording import Event
from ._signals import Signals
from ._sinks import Sink, Speaker

#: How much is held for each direction: as long as it isn't written on, no more of its side is read.
HELD = 1 << 16
# How long the output of a server that has ended may be silent while another process still has it.
_SILENT = 2.0
_NOTHING = memoryview(b"")
_GONE = select.POLLERR | select.POLLHUP | select.POLLNVAL


class Way:
    """From a side to the other one."""

    def __init__(self, side: str, source: Optional[int], sink: Optional[Sink]) -> None:
        self.side, self.source, self.sink = side, source, sink
        self.held = _NOTHING


def own_streams() -> List[Optional[int]]:
    """Descriptors of the standard input and output that nothing else in this process has, each None where it was closed.

    In their places stand /dev/null, and the standard error.
    """
    is_there = [_is_open(it) for it in (0, 1, 2)]
    for _ in range(is_there.count(False)):
        os.open(os.devnull, os.O_RDWR)  # (it takes the least number that is free)
    kept = [
        fcntl.fcntl(it, fcntl.F_DUPFD_CLOEXEC, 3) if is_there[it] else None for it in (0, 1)
    ]  # (no standard one)
    null = os.open(os.devnull, os.O_RDWR | os.O_CLOEXEC)
    os.dup2(null, 0)
    os.dup2(2, 1)
    os.close(null)
    return kept


def _is_open(descriptor: int) -> bool:
    try:
        os.fstat(descriptor)
    except OSError:
        return False
    return True


class Driver:
    """A server that is started, and what is passed on between it and its client."""

    def __init__(self, command: Sequence[str], seen: Processes, speaker: Speaker) -> None:
        """Starts the server. Raises OSError or ValueError where it can't be started."""
        self._seen, self._speaker = seen, speaker
        self._poll = select.poll()
        self._wanted: Dict[int, int] = {}
        self._on: Any = None  # on what it depends what is wanted
        self._signals = Signals()
        pipe = subprocess.PIPE
        try:
            # (the thread of signals isn't there yet, so that a function may run in the child)
            self._server = subprocess.Popen(
                list(command), stdin=pipe, stdout=pipe, bufsize=0, preexec_fn=self._signals.as_before
            )
        except BaseException:
            self._signals.as_before()
            raise
        self._signals.pass_on_to(self._server)
        self._last = self._begun = time.monotonic()

    def run(self, source: Optional[int], sink: Optional[int]) -> int:
        """Passes on what the server and the client write, until the server has ended. Gives its status, which is less
        than 0 where a signal ended it."""
        self._to_server = Way("client", source, Sink(self._own(self._server.stdin)))
        self._to_client = Way("server", self._own(self._server.stdout), None if sink is None else Sink(sink))
        self._ways = (self._to_server, self._to_client)
        for it in self._ways:
            if it.source is None:
                self._source_ended(it, "closed")
            elif it.sink is None:
                self._sink_broke(it)
        while not self._is_over():
            self._turn()
        for it in self._ways:
            self._close_source(it)
            self._close_sink(it)
        return self._server.wait()

    @staticmethod
    def _own(stream: object) -> int:
        descriptor = os.dup(stream.fileno())  # type: ignore[attr-defined]
        stream.close()  # type: ignore[attr-defined]
        os.set_blocking(descriptor, False)
        return descriptor

    def end(self) -> None:
        """No signal is passed on any more."""
        self._signals.end()

    @property
    def is_interrupted(self) -> bool:
        """Whether a signal came when the server had ended."""
        return self._signals.last is not None

    # The loop

    def _is_over(self) -> bool:
        """Whether the server has ended, and the client has all that it wrote."""
        if self._server.returncode is None:  # (it is asked for where a signal says that a process has ended)
            return False
        return self.is_interrupted or (self._to_client.source is None and not self._to_client.held)

    def _turn(self) -> None:
        self._want_all()
        ready = self._poll.poll(self._patience())
        for descriptor, events in ready:
            self._go_on(descriptor, events)
        self._seen.go_on()
        if not ready:
            self._leave_where_silent()

    def _patience(self) -> Optional[float]:
        """How long the loop may wait, in milliseconds."""
        silence = self._last + _SILENT - time.monotonic() if self._waits_for_silence() else None
        known = [it for it in (self._seen.patience, silence) if it is not None]
        return max(0.0, min(known)) * 1000 + 1 if known else None

    def _waits_for_silence(self) -> bool:
        """Whether the server has ended, and what another process says that still has its output is read."""
        way = self._to_client
        return (
            self._server.returncode is not None
            and way.source is not None
            and not way.held
            and not self._seen.is_full
        )

    def _leave_where_silent(self) -> None:
        """Such a process isn't waited for for ever. (Its output was waited for in this very turn, and nothing came.)"""
        if self._waits_for_silence() and time.monotonic() >= self._last + _SILENT:
            self._speaker.say(
                "the server has ended, and another process still has its output, which is silent: no more is read of it"
            )
            self._source_ended(self._to_client, "failed")

    def _want_all(self) -> None:
        """What the loop waits for."""
        there, back = self._ways
        is_full, waiting = self._seen.is_full, self._seen.waits_for
        state = (there.source, there.sink, not there.held, back.source, back.sink, not back.held)
        on = (*state, is_full, waiting, self._speaker.waits_for)
        if on == self._on:  # (as in most turns, which are to be short)
            return
        self._on = on
        wanted = {self._signals.wake: select.POLLIN}
        for it in self._ways:
            if it.sink is not None:
                wanted[it.sink.descriptor] = select.POLLOUT if it.held else 0
            if it.source is not None and not it.held and not is_full:
                wanted[it.source] = select.POLLIN
        for waits in waiting:
            wanted[waits] = select.POLLOUT
        if self._speaker.waits_for is not None:
            wanted[self._speaker.waits_for] = select.POLLOUT
        if wanted != self._wanted:
            for gone in self._wanted.keys() - wanted.keys():
                with contextlib.suppress(OSError, KeyError, ValueError):
                    self._poll.unregister(gone)
            for descriptor, events in wanted.items():
                if self._wanted.get(descriptor) != events:
                    self._poll.register(descriptor, events)
            self._wanted = wanted

    def _go_on(self, descriptor: int, events: int) -> None:
        if descriptor == self._signals.wake:
            with contextlib.suppress(OSError):
                os.read(descriptor, 4096)
            if self._server.poll() is not None:
                self._last = time.monotonic()
            return
        if descriptor == self._speaker.waits_for:
            self._speaker.go_on()
            return
        # (what the processes wait for is told in each turn)
        for it in self._ways:
            if it.source == descriptor and not it.held:
                self._read(it)
                return
            if it.sink is not None and it.sink.descriptor == descriptor:
                if it.held:
                    self._write(it)
                elif events & _GONE:
                    self._sink_broke(it)
                return

    # Bytes

    def _now(self) -> float:
        return (time.monotonic() - self._begun) * 1000

    def _read(self, way: Way) -> None:
        assert way.source is not None
        try:
            data = os.read(way.source, HELD)
        except BlockingIOError:
            return
        except OSError:
            self._source_ended(way, "failed")
            return
        if not data:
            self._source_ended(way, "closed")
            return
        # (before its first byte goes on, so that no answer is seen before its request)
        self._seen.append(Event(way.side, data, "", self._now()))
        self._last = time.monotonic()
        way.held = memoryview(data)
        self._write(way)

    def _write(self, way: Way) -> None:
        assert way.sink is not None
        try:
            way.held = way.held[way.sink.put(way.held) :]
            self._last = time.monotonic()
        except OSError:
            self._sink_broke(way)

    # Ends

    def _source_ended(self, way: Way, how: str) -> None:
        self._seen.append(Event(way.side, b"", how, self._now()))
        self._close_source(way)
        self._close_sink(way)

    def _sink_broke(self, way: Way) -> None:
        """Nobody reads any more: who writes learns it, as it would without the driver."""
        way.held = _NOTHING
        self._close_sink(way)
        self._close_source(way)

    def _close_source(self, way: Way) -> None:
        source, way.source = way.source, None
        if source is not None:
            self._forget(source)
            os.close(source)

    def _close_sink(self, way: Way) -> None:
        sink, way.sink = way.sink, None
        if sink is not None:
            self._forget(sink.descriptor)
            sink.close()

    def _forget(self, descriptor: int) -> None:
        if self._wanted.pop(descriptor, None) is not None:
            self._poll.unregister(descriptor)
