"""A process beside the driver: it takes what was seen, and says at the end what it has found and what it didn't take."""
from __future__ import annotations

import os
import select
import signal
import struct
import threading
import time
from typing import Callable, Iterator, List, Optional, Protocol

from ._judge import ENDS, SIDES
from ._known import Known
from ._recording import Event

#: How many seconds a process may go on with what is left when the server has ended.
LAST = 30.0
#: The bits of its status: a rule of the level must was broken; not all that was seen is taken.
BROKEN, PARTLY = 1, 2
_FAILED = 70
# What the process is told of each piece: what it is, milliseconds, and how many bytes follow. Behind the bytes of either
# side stand how either side ended.
_HEAD = struct.Struct("=BdI")
_ENDED = len(SIDES)
_READ, _POLLED = 1 << 18, 0.05


class Takes(Protocol):
    """What takes what was seen."""

    def take(self, event: Event) -> bool:
        """Takes it, in a thread, and gives whether that was done."""

    @property
    def patience(self) -> Optional[float]:
        """After how many seconds `idle` is to be called, if nothing is seen before; None: not at all."""

    def idle(self) -> None:
        """Nothing was seen for so long, and all that was is taken. It is called in the same thread."""

    def leave(self) -> None:
        """Take no more: what `take` does now changes nothing from here on."""

    def finish(self, missed: str) -> None:
        """Says what there was, and what wasn't taken, if there is something."""

    @property
    def has_broken(self) -> bool:
        """Whether a rule of the level must was broken."""


def packed(event: Event) -> bytes:
    """An event as the process is told of it."""
    kind = SIDES.index(event.side)
    if event.ended:
        kind = _ENDED + len(ENDS) * kind + ENDS.index(event.ended)
    return _HEAD.pack(kind, event.at or 0.0, len(event.data)) + event.data


def _event(kind: int, at: float, data: bytes) -> Event:
    if kind < _ENDED:
        return Event(SIDES[kind], data, "", at)
    side, how = divmod(kind - _ENDED, len(ENDS))
    return Event(SIDES[side], b"", ENDS[how], at)


def _events(source: int, patience: Callable[[], Optional[float]]) -> Iterator[Optional[Event]]:
    """What is told, until nothing more is; None where nothing was for as long as there is patience."""
    held = bytearray()
    poll = select.poll()
    poll.register(source, select.POLLIN)
    while True:
        seconds = patience()
        if seconds is not None and not poll.poll(seconds * 1000 + 1):
            yield None
            continue
        data = os.read(source, _READ)
        if not data:
            return
        held += data
        place = 0
        while len(held) - place >= _HEAD.size:
            kind, at, length = _HEAD.unpack_from(held, place)
            end = place + _HEAD.size + length
            if end > len(held):
                break
            yield _event(kind, at, bytes(held[place + _HEAD.size : end]))
            place = end
        del held[:place]


def take_apart(make: Callable[[], Takes], source: int, known: Known, closed: List[int]) -> None:
    """Does all that this process has to do, and ends it. Signals are for the server."""
    status = _FAILED
    try:
        signal.pthread_sigmask(
            signal.SIG_BLOCK,
            {signal.SIGINT, signal.SIGTERM, signal.SIGHUP, signal.SIGQUIT, signal.SIGUSR1, signal.SIGUSR2},
        )
        for it in closed:
            os.close(it)
        status = _take_in_time(make(), source, known)
    finally:
        os._exit(status)


def _take_in_time(taker: Takes, source: int, known: Known) -> int:
    """Takes what is told in a thread, since a single piece may take the judge as long as it likes, and is left alone
    with it when the time is over. (Only a process can be ended while it is in the library, and then what it has found
    would be lost with it.)"""

    def take_all() -> None:
        for it in _events(source, lambda: taker.patience):
            if it is None:
                if known.is_whole:  # (else the answer may be among what comes)
                    taker.idle()
                else:
                    time.sleep(_POLLED)
            elif taker.take(it):
                known.took(it)

    worker = threading.Thread(target=take_all, daemon=True)
    worker.start()
    poll = select.poll()
    poll.register(source, 0)
    poll.poll()  # (until nobody can tell more, whether or not all is read)
    end = time.monotonic() + LAST
    while worker.is_alive() and time.monotonic() < min(known.end or end, end):
        worker.join(_POLLED)
    taker.leave()
    if known.has_begun:
        taker.finish(known.missed())
    return (BROKEN if taker.has_broken else 0) | (0 if known.is_whole else PARTLY)
