"""The event loop of `run`: asyncio's own, with less to do for each message.

Between two messages a loop of asyncio's makes a handle, a context and two calls of the kernel for each callback. Here
the descriptor that everything comes in by is read as soon as the selector finds it, as long as nothing else is to be
done, and what is said goes out before the loop waits.

It learns what else is to be done from what the loop is asked for: `call_soon`, `call_at` and `stop`, by which
everything comes on the loop's own thread. Whatever comes from elsewhere, such as a thread or a signal, writes to a
descriptor that the selector finds.
"""
from __future__ import annotations

import asyncio
import os
import select
import selectors
import time
from typing import Any, Callable, List, Optional, Tuple

Ready = List[Tuple[selectors.SelectorKey, int]]

# How many times in a row what is ready goes on before the kernel is asked for more.
_TURNS = 8


class Selector(selectors.EpollSelector):
    """A selector that calls the reader of one descriptor itself."""

    def __init__(self) -> None:
        super().__init__()
        # (the same set of descriptors: the class above needs several calls for what one does here)
        self._epoll = select.epoll.fromfd(os.dup(self.fileno()))
        self._only: List[Tuple[int, int]] = []
        self._read: Callable[[], None] = lambda: None
        self.soon: List[Callable[[], None]] = []
        self._turns = 0
        #: Whether the loop has been asked for something since it began to wait.
        self.is_asked = False
        self.loop: Any = None

    def close(self) -> None:
        self._epoll.close()
        super().close()

    def read_by(self, descriptor: Optional[int], read: Callable[[], None]) -> None:
        """Has a descriptor that is registered read by this, as long as nothing else is ready."""
        self._only = [] if descriptor is None else [(descriptor, select.EPOLLIN)]
        self._read = read

    def select(self, timeout: Optional[float] = None) -> Ready:
        if timeout is not None and timeout <= 0:
            self._turns += 1
            if self._turns % _TURNS:
                return []
            self._do_soon()
            return super().select(0)
        poll = self._epoll.poll
        end = 0.0 if timeout is None else time.monotonic() + timeout
        self.is_asked = False
        while True:
            if self.soon:
                self._do_soon()
                if self.is_asked:
                    return []
            found = poll(timeout, 2)
            if found != self._only:
                return super().select(0) if found else []
            try:
                self._read()
            except (KeyboardInterrupt, SystemExit):
                raise
            except BaseException as error:
                self._failed(error)
            if self.is_asked:
                return []
            if timeout is not None:
                timeout = end - time.monotonic()
                if timeout <= 0:
                    return []

    def _do_soon(self) -> None:
        while self.soon:
            try:
                self.soon.pop()()
            except (KeyboardInterrupt, SystemExit):
                raise
            except BaseException as error:
                self._failed(error)

    def _failed(self, error: BaseException) -> None:
        """(as the loop says it of a callback)"""
        self.loop.call_exception_handler({"message": "a callback failed", "exception": error})


# (Each step of a task takes it, and `super` would take as long again.)
_call_soon = asyncio.SelectorEventLoop.call_soon


class Loop(asyncio.SelectorEventLoop):
    """asyncio's loop, with a selector of ours."""

    def __init__(self) -> None:
        self._ours = Selector()
        super().__init__(self._ours)
        self._ours.loop = self
        #: Has something done once nothing else is ready.
        self.before_waiting: Callable[[Callable[[], None]], None] = self._ours.soon.append

    # (Whatever a loop has to do, it is told by one of these three: tasks, futures and transports use them too.)

    def call_soon(self, callback: Callable[..., Any], *words: Any, context: Any = None) -> asyncio.Handle:
        self._ours.is_asked = True
        return _call_soon(self, callback, *words, context=context)

    def call_at(self, *words: Any, **named: Any) -> asyncio.TimerHandle:
        self._ours.is_asked = True
        return super().call_at(*words, **named)

    def stop(self) -> None:
        self._ours.is_asked = True
        super().stop()

    def read_by(self, descriptor: int, read: Callable[[], None]) -> None:
        """To be called besides `add_reader`."""
        if not self.get_debug():  # (which measures each callback)
            self._ours.read_by(descriptor, read)

    def read_no_more(self) -> None:
        """To be called besides `remove_reader`."""
        self._ours.read_by(None, lambda: None)


def new() -> asyncio.AbstractEventLoop:
    """A new loop: this one, where the policy would make asyncio's own."""
    loop = asyncio.new_event_loop()
    if type(loop) is not asyncio.SelectorEventLoop:
        return loop
    loop.close()
    return Loop()
