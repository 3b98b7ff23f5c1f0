"""What was seen goes to a process of its own, so that nothing that this does holds up the bytes or changes them. What it
cost in one process: docs/decisions/library_and_bindings.md#python-the-judge."""
from __future__ import annotations

import collections
import fcntl
import os
import select
import signal
import time
from typing import Any, Callable, Deque, Iterable, List, Optional

from ._known import Known
from ._recording import Event
from ._taking import BROKEN, LAST, PARTLY, Takes, packed, take_apart

#: How much waits for a process that is slower than the sides, in bytes, so that the driver's memory has a bound. It is
#: about as much as the judge takes in the time that it is given at the end, in small messages; an editor and its server
#: seldom write so much in an hour. What comes on top of that isn't judged, since the sides never wait for the judge. It
#: is recorded: for a disk that is too slow they wait, since a recording without its middle is none.
MOST = 1 << 26
# How long a recording may take nothing while they wait, until it is given up.
_STUCK = 20.0
# What a piece counts beside its bytes.
_PIECE = 64
# How long a process that takes no more may say what it has found, and how often it is looked at.
_WRITES, _POLLED = 10.0, 0.05
# When the end has taken so long, it is said what is waited for.
_PATIENT = 2.0
# The statuses with which a process ends that didn't fail, as `waitpid` has them.
_STATUSES = frozenset(it << 8 for it in (0, BROKEN, PARTLY, BROKEN | PARTLY))
_DONE = {"judges": "judged", "records": "recorded"}
# A pipe of so many bytes is between.
_PIPE, _SET_PIPE_SIZE = 1 << 18, 1031


class Apart:
    """The list of what was seen, and the process to which it goes, in its order, as fast as that takes it."""

    def __init__(self, verb: str, make: Callable[[], Takes], closed: Iterable[Optional[int]]) -> None:
        """Starts the process, which makes what takes, and "judges" or "records". It closes these descriptors, which
        aren't its own."""
        self.verb, self.done = verb, _DONE[verb]
        self.is_waited_for = verb == "records"  # (by the sides, where it has too much to do)
        self.known, self.is_running = Known(), True
        source, sink = os.pipe2(os.O_CLOEXEC)
        self._process = os.fork()
        if not self._process:
            take_apart(make, source, self.known, [it for it in (*closed, sink) if it is not None])
        os.close(source)
        os.set_blocking(sink, False)
        _widen(sink)
        self.sink: Optional[int] = sink
        self.waiting: Deque[Any] = collections.deque()  #: what is to be told
        self._size = 0  # of what waits
        self._takes_more = True
        self._taken_at = 0.0  # when something of it was taken last, or began to wait

    @property
    def is_full(self) -> bool:
        """Whether the sides have to wait."""
        return self.is_waited_for and self._size >= MOST

    def append(self, event: Event, data: bytes) -> Optional[str]:
        """Something was seen, which is packed so. Gives what is to be said, if this is the first that isn't taken."""
        said = None
        if self._takes_more and not self.is_waited_for and self._size + len(data) > MOST:
            self._takes_more, place = False, self.known.seen_up_to()
            said = (
                f"more than {MOST:,} bytes wait: nothing is {self.done} from {place} on, and the bytes go on"
            )
        self.known.saw(event)
        if self._takes_more:
            if not self.waiting:
                self._taken_at = time.monotonic()
            self.waiting.append(data)
            self._size += len(data) + _PIECE
        return said

    def go_on(self) -> Optional[str]:
        """Tells what waits, as far as that is taken now. Gives what is to be said, if nothing is from here on."""
        if self.sink is None:
            return None
        try:
            while self.waiting:
                data = self.waiting[0]
                count = os.write(self.sink, data)
                self._taken_at = time.monotonic()
                self._size -= count
                if count < len(data):
                    self.waiting[0] = memoryview(data)[count:]
                    return None
                self.waiting.popleft()
                self._size -= _PIECE
        except BlockingIOError:
            if self.patience is not None and self.patience <= 0:
                return self._give_up(f"the recording has taken nothing for {_STUCK:g} seconds")
        except OSError:
            return self._give_up(f"the process that {self.verb} has ended")
        return None

    @property
    def patience(self) -> Optional[float]:
        """How many seconds the sides may still have to wait."""
        return self._taken_at + _STUCK - time.monotonic() if self.is_full else None

    def _give_up(self, why: str) -> str:
        self.close()
        return f"nothing is {self.done} from here on, and the bytes go on: {why}"

    def close(self) -> None:
        """Tells no more."""
        if self.sink is not None:
            os.close(self.sink)
        self.sink, self._takes_more = None, False
        self.waiting.clear()
        self._size = 0

    def look(self) -> Optional[int]:
        """The status of the process when it has ended, below 0 where it failed; None before. One that doesn't end in
        time is ended."""
        process, status = os.waitpid(self._process, os.WNOHANG)
        if not process:
            if time.monotonic() >= self.known.end + _WRITES:
                os.kill(self._process, signal.SIGKILL)
            return None
        self.is_running = False
        return status >> 8 if status in _STATUSES else -1


def _widen(pipe: int) -> None:
    try:
        fcntl.fcntl(pipe, _SET_PIPE_SIZE, _PIPE)
    except OSError:
        pass  # (it stays as it is)


class Processes:
    """All processes that take what was seen."""

    def __init__(self, say: Callable[[str], None]) -> None:
        self._say = say
        self._all: List[Apart] = []
        self._waited_for: Optional[Apart] = None  # (each turn of the driver asks for it)
        self._seen: List[Event] = []  # what no process is told of yet

    def start(self, verb: str, make: Callable[[], Takes], closed: Iterable[Optional[int]]) -> None:
        """Starts one more, which "judges" or "records"."""
        started = Apart(verb, make, (*closed, *(it.sink for it in self._all)))
        self._all.append(started)
        if started.is_waited_for:
            self._waited_for = started

    def begin(self) -> None:
        """There is a server."""
        for it in self._all:
            it.known.begin()

    @property
    def waits_for(self) -> List[int]:
        """The descriptors on which more can be told as soon as they can be written to."""
        return [it.sink for it in self._all if it.waiting and it.sink is not None]

    @property
    def is_full(self) -> bool:
        """Whether the sides have to wait."""
        return self._waited_for is not None and self._waited_for.is_full

    @property
    def patience(self) -> Optional[float]:
        """How many seconds they may still have to."""
        return None if self._waited_for is None else self._waited_for.patience

    def append(self, event: Event) -> None:
        """Something was seen. It is told in the next turn, so that its bytes needn't wait for that."""
        self._seen.append(event)

    def go_on(self) -> None:
        """Tells what waits, as far as that is taken now."""
        for event in self._seen:
            data = packed(event)
            for it in self._all:
                said = it.append(event, data)
                if said is not None:
                    self._say(said)
        self._seen.clear()
        for it in self._all:
            said = it.go_on() if it.waiting else None
            if said is not None:
                self._say(said)

    # The end

    def finish(self, is_hurried: Callable[[], bool] = lambda: False) -> int:
        """Tells the rest, and waits until it is taken, `LAST` seconds at most; where that is hurried, no longer.
        Gives the status of what judges, by the bits of `_taking`."""
        self.go_on()
        began = time.monotonic()
        self._end_by(began + LAST)
        while self.waits_for and not is_hurried() and time.monotonic() < began + LAST:
            _wait_for(self.waits_for)
            self.go_on()
        for it in self._all:
            it.close()
        left, nap, status, is_patient = list(self._all), 0.001, 0, False
        while left:
            if is_hurried():
                self._end_by(time.monotonic())
            elif not is_patient and time.monotonic() >= began + _PATIENT:
                is_patient = True
                self._say(
                    f"the server has ended; what waits is {left[-1].done} for {LAST:g} s at most, or until a signal"
                )
            status |= sum(self._status_of(it) for it in left)
            left = [it for it in left if it.is_running]
            time.sleep(nap if left else 0)
            nap = min(2 * nap, _POLLED)
        return status

    def _end_by(self, end: float) -> None:
        for it in self._all:
            it.known.end = min(it.known.end or end, end)

    def _status_of(self, it: Apart) -> int:
        """The bits of the status of a process that has ended; 0 while it runs."""
        status = it.look()
        if status is None:
            return 0
        if status < 0:
            self._say(f"the process that {it.verb} failed; not {it.done}: {it.known.missed() or 'nothing'}")
        if it.is_waited_for:
            return 0  # (it has found nothing)
        return PARTLY if status < 0 else status


def _wait_for(descriptors: Iterable[int]) -> None:
    poll = select.poll()
    for it in descriptors:
        poll.register(it, select.POLLOUT)
    poll.poll(_POLLED * 1000)
