"""The turns of a session on descriptors for as long as nothing needs an event loop.

A server whose methods are plain functions only waits for its input. To import asyncio takes such a server longer than
all the rest of its start. So an event loop is made as soon as something asks for one, as a coroutine, a timer or a call
to the other side does. It then goes on with all that was to be done.
"""
from __future__ import annotations

import os
import select
import sys
import _thread
from collections import deque

from ._hints import TYPE_CHECKING
from ._log import log
from ._system import HAS_EPOLL, WAITS

if TYPE_CHECKING:
    import asyncio
    from typing import Any, Callable, Deque, Dict, List, Optional, Tuple

    # What is called once a descriptor is ready.
    _Calls = Dict[int, Callable[[], Any]]

_RLock: Any = getattr(_thread, "RLock")  # (which the types of that module lack)
_WRITABLE = select.POLLOUT | select.POLLERR | select.POLLHUP if WAITS else 0


def _new_loop() -> asyncio.AbstractEventLoop:
    if HAS_EPOLL:
        from . import _loop  # (here, as it imports asyncio)

        return _loop.new()
    import asyncio

    return asyncio.new_event_loop()


class Blocking:
    """Has what a session asks of an event loop, as long as it answers by plain functions."""

    def __init__(self) -> None:
        # (where no loop can wait for pipes, an event loop is there from the start, and nothing else is asked of this)
        self._poll: Any = select.poll() if WAITS else None
        self._readers: _Calls = {}
        self._writers: _Calls = {}
        self._ready: Deque[Tuple[Callable[..., Any], Tuple[Any, ...]]] = deque()
        self._soon: List[Callable[[], Any]] = []
        # (a handler of a signal may come in between, and so it may be taken twice by one thread)
        self._lock = _RLock()
        self._pipe: Optional[Tuple[int, int]] = os.pipe() if WAITS else None
        for it in self._pipe or ():
            os.set_blocking(it, False)
        if self._pipe is not None:
            self._poll.register(self._pipe[0], select.POLLIN)
        #: The event loop that takes its place, once something has asked for it.
        self.loop: Optional[asyncio.AbstractEventLoop] = None
        self._is_handed_over = False
        #: Has something done before it waits.
        self.before_waiting: Callable[[Callable[[], Any]], None] = self._soon.append

    def close(self) -> None:
        with self._lock:
            pipe, self._pipe = self._pipe, None
        for it in pipe or ():
            os.close(it)

    def event_loop(self) -> asyncio.AbstractEventLoop:
        """The event loop, made where there is none yet. Any thread may ask."""
        with self._lock:
            if self.loop is None:
                self.loop = _new_loop()
                if WAITS:
                    self._wake_up()
            return self.loop

    # What a session asks of an event loop

    def call_soon(self, call: Callable[..., Any], *words: Any) -> None:
        self._ready.append((call, words))

    def call_soon_threadsafe(self, call: Callable[..., Any], *words: Any) -> None:
        self._ready.append((call, words))
        if self._is_handed_over:
            self._hand_over()
        else:
            self._wake_up()

    def _wake_up(self) -> None:
        with self._lock:
            if self._pipe is None:
                raise RuntimeError("it is closed")
            try:
                os.write(self._pipe[1], b"\0")
            except BlockingIOError:
                pass  # (so much says it already)

    def add_reader(self, descriptor: int, call: Callable[[], Any]) -> None:
        self._readers[descriptor] = call
        self._wait_for(descriptor)

    def remove_reader(self, descriptor: int) -> None:
        self._readers.pop(descriptor, None)
        self._wait_for(descriptor)

    def add_writer(self, descriptor: int, call: Callable[..., Any], *words: Any) -> None:
        self._writers[descriptor] = lambda: call(*words)
        self._wait_for(descriptor)

    def remove_writer(self, descriptor: int) -> None:
        self._writers.pop(descriptor, None)
        self._wait_for(descriptor)

    def _wait_for(self, descriptor: int) -> None:
        is_read, is_written = descriptor in self._readers, descriptor in self._writers
        if is_read or is_written:
            self._poll.register(descriptor, select.POLLIN * is_read | select.POLLOUT * is_written)
        else:
            self._poll.unregister(descriptor)

    # Turns

    def run(self, is_over: Callable[[], bool]) -> None:
        """Goes on until it is over and nothing is left to do, or an event loop is asked for."""
        while self.loop is None:
            for _ in range(len(self._ready)):
                call, words = self._ready.popleft()
                self._do(call, *words)
                if self.loop is not None:
                    return
            while self._soon:
                self._do(self._soon.pop(0))
            if not self._ready and is_over():
                return
            for descriptor, what in self._poll.poll(0 if self._ready else None):
                self._found(descriptor, what)

    def _found(self, descriptor: int, what: int) -> None:
        read, write = self._readers.get(descriptor), self._writers.get(descriptor)
        if read is not None and what & ~select.POLLOUT:
            self._do(read)
        if write is not None and what & _WRITABLE and descriptor in self._writers:
            self._do(write)
        if self._pipe is not None and descriptor == self._pipe[0]:
            os.read(descriptor, 4096)

    @staticmethod
    def _do(call: Callable[..., Any], *words: Any) -> None:
        try:
            call(*words)
        except (KeyboardInterrupt, SystemExit):
            raise
        except BaseException:
            log.exception("a callback failed")

    def hand_over(self) -> None:
        """Has the event loop do what is still to be done, and what threads still bring."""
        self._is_handed_over = True
        while self._soon:
            self.event_loop().call_soon(self._soon.pop(0))
        self._hand_over()

    def _hand_over(self) -> None:
        # (a thread that finds the event loop has seen all before it, or does this too)
        while self._ready:
            try:
                call, words = self._ready.popleft()
            except IndexError:
                return
            self.event_loop().call_soon_threadsafe(call, *words)


def is_needed() -> bool:
    """Whether a loop has to run from the start: the program knows of asyncio, and so may look for one; or nothing else
    can wait."""
    return "asyncio" in sys.modules or not WAITS


def driven(coroutine: Any) -> Any:
    """What a coroutine gives that has nothing to wait for."""
    try:
        coroutine.send(None)
    except StopIteration as end:
        return end.value
    coroutine.close()
    raise RuntimeError("it waits for something")
