"""One connection with the methods that answer its calls: what users say through it, and its life. Why it has parts and
no base classes: docs/decisions/library_and_bindings.md#python-messages-bindingspython."""
from __future__ import annotations

import contextlib
import functools
import time
from _thread import get_ident

from ._ends import Late
from ._hints import TYPE_CHECKING
from ._incoming import Incoming
from ._json import DIGITS, with_digits
from ._log import log
from ._outgoing import Outgoing
from ._transport import Transport, waited
from ._watch import Watch
from .errors import Closed

if TYPE_CHECKING:
    import asyncio
    from typing import Any, Callable, ClassVar, Dict, Iterable, List, Optional, Type, Union

    from ._channels import Channel
    from ._ends import End
    from ._methods import Methods
    from ._protocols import ProtocolSettings
    from ._reply import Reply
    from ._request import Request, Said
    from ._threads import T
    from ._trace import Traced
    from .connection import Cancels, Connection
    from .events import Broken
    from .errors import InvalidParams

LSP_CANCEL, TOOL_CANCEL = "$/cancelRequest", "notifications/cancelled"


class Session:
    """One connection with the methods that answer its calls; `request.session` and `server.sessions` lead to it.

    It has three parts, which have all that changes with each message: `_transport` the bytes and the events, `_incoming`
    the requests of the other side, and `_outgoing` those to it.
    """

    #: What its parts are, and what sees its input.
    _Incoming: ClassVar[Type[Incoming]] = Incoming
    _Outgoing: ClassVar[Type[Outgoing]] = Outgoing
    watching: ClassVar[Type[Watch]] = Watch

    def __init__(
        self,
        methods: Methods,
        channel: Channel,
        connection: Union[Connection, Traced],
        cancel_by: Optional[str],
        cancels: Optional[Cancels],
        grace: float,
        workers: Optional[int],
        watch: Watch,
        digits: int = DIGITS,
        open: Optional[int] = None,
        turns: Any = None,
    ) -> None:
        """(`turns` are what has its turns: an event loop, `Blocking`, or where none is given the loop that runs)"""
        # What its maker sets, before it begins:
        self.watch = watch
        self.protocol: Optional[ProtocolSettings] = None
        #: Whether the other side is told the texts of exceptions that aren't meant for it.
        self.tells_errors = True
        #: What is told of broken input, with the session.
        self.on_broken: Optional[Callable[[Broken, Any], Any]] = None
        #: Yours: what a server with several sessions keeps of each.
        self.state: Dict[str, Any] = {}
        # What the loop's thread changes, and any thread may read:
        self._grace = grace  # for how many seconds what works is waited for, once the input is over
        self._status: Optional[int] = None  # what `stop` said
        #: How it ended, or None while it runs.
        self.ended: Optional[End] = None
        # Its parts, which stay:
        notes = connection._noted()
        # (where the connection itself has no cancels, they are found among the calls)
        takes_tool_cancels = cancel_by is not None and cancels is None
        self._transport = transport = Transport(
            self, channel, connection, notes, cancel_by, takes_tool_cancels, turns
        )
        self._outgoing = transport.outgoing = self._Outgoing(self, transport, with_digits(digits))
        self._incoming = transport.incoming = self._Incoming(
            self, transport, self._outgoing, methods, workers, open
        )
        watch.begin(connection, notes, lambda: transport.is_busy, lambda *when: self.loop.call_later(*when))

    @property
    def loop(self) -> asyncio.AbstractEventLoop:
        """The event loop, which is made where none was needed yet."""
        return self._transport.loop

    # What is said on behalf of no request

    def call(self, method: str, params: Any = None, *, timeout: Optional[float] = None) -> Reply:
        """Call the other side, on behalf of no request: gives what is to be awaited.

        In another thread than the loop's it blocks, and gives the result, as `call_and_wait` does. One that takes
        longer than `timeout` seconds is cancelled, and raises `TimedOut`.
        """
        reply: Reply = self._outgoing.call_one(method, params, None, timeout)
        return reply

    def call_and_wait(
        self,
        method: str,
        params: Any = None,
        request: Optional[Request] = None,
        *,
        timeout: Optional[float] = None,
    ) -> Any:
        """Call the other side in another thread than the loop's: it blocks, and gives the result."""
        self._check_that_it_may_block()
        return self._outgoing.call_one(method, params, request, timeout)

    def call_batch(
        self, calls: Iterable[Said], return_exceptions: bool = False
    ) -> "asyncio.Future[List[Any]]":
        """Call the other side several times, in one message. The results come as a list, as with asyncio.gather."""
        replies: "asyncio.Future[List[Any]]" = self._outgoing.call_all(list(calls), None, return_exceptions)
        return replies

    def call_batch_and_wait(
        self, calls: Iterable[Said], return_exceptions: bool = False, request: Optional[Request] = None
    ) -> List[Any]:
        """The same in another thread than the loop's: it blocks, and gives the results."""
        self._check_that_it_may_block()
        results: List[Any] = self._outgoing.call_all(list(calls), request, return_exceptions)
        return results

    def _check_that_it_may_block(self) -> None:
        if get_ident() == self._transport.thread:
            raise RuntimeError(
                "this would block the loop here: "
                "write `await ..call(..)` in an `async def`, or register the method with thread=True"
            )

    def notify(self, method: str, params: Any = None) -> None:
        """Send the other side a notification. Any thread may do that."""
        self._outgoing.notify(method, params)

    def in_thread(self, function: Callable[..., T], *given: Any, **named: Any) -> "asyncio.Future[T]":
        """Run any function in a thread of the session's own pool: gives what is to be awaited, or returned."""
        from ._threads import in_thread  # (here, as it imports asyncio)

        return in_thread(self, functools.partial(function, *given, **named))

    def invalid_params(self, fault: BaseException) -> InvalidParams:
        """The error that tells of an exception which params raised in the code that reads them."""
        return self._incoming.invalid_params(fault)

    # The end

    def stop(self, status: int = 0, grace: Optional[float] = None) -> None:
        """Ends the session, as the end of its input does. Any thread may do that."""
        transport = self._transport
        if get_ident() != transport.thread:
            transport.on_loop(lambda: self.stop(status, grace))
            return
        if transport.is_stopped or transport.is_closed:
            return
        transport.is_stopped = self._incoming.is_choosy = True
        self.watch.because("Stopped")
        self._status = status
        if grace is not None:
            self._grace = grace
        transport.channel.stop()
        transport.input_ended(False)
        transport.on_loop(transport.flush_soon)  # (it may wait, where this is a signal's handler)

    async def _until(self, is_reached: Callable[[], bool], end: float) -> bool:
        """Waits until something is reached, and says whether it was in time."""
        while not is_reached():
            left = end - time.monotonic()
            if left <= 0:
                return False
            self._transport.change = self._transport.loop.create_future()
            await waited({self._transport.change}, left)
        return True

    def has_nothing_left(self) -> bool:
        """Whether `serve` has nothing to wait for."""
        transport = self._transport
        transport.flush()
        is_over = transport.is_over and self._has_ended_all() and transport.is_written()
        return is_over and not self._incoming.pool.is_alive()

    async def serve(self) -> int:
        """Runs until the input is over and its calls are answered; gives 0 at a clean end, else 1."""
        transport, incoming = self._transport, self._incoming
        transport.begin()
        seconds = 0.0
        try:
            await transport.wait_until_over()
            end = time.monotonic() + self._grace
            await self._until(self._has_ended_all, end)
            late = [Late(it.method, it.is_later, not it.is_notification) for it in incoming.open.values()]
            late += [Late(it.method, False, it.id is not None) for it in transport.held]
            if transport.aside is not None:
                await waited({transport.aside})
            await self._cancel_all()
            transport.flush()
            is_out = await self._until(transport.is_written, max(end, time.monotonic() + 1))
            incoming.pool.close()
            await self._until_threads_end(end)
            seconds = max(1.0, end - time.monotonic())
            is_clean = transport.over == "Clean" and not late and is_out and not transport.is_broken
            status = (1 if not is_clean else 0) if self._status is None else self._status
            self.ended = self.watch.end(status, late, is_out, self._grace)
            return status
        finally:
            await self.close(seconds)

    def _has_ended_all(self) -> bool:
        return self._incoming.is_idle and self._transport.has_nothing

    async def _cancel_all(self) -> None:
        """Ends what didn't end in time; a task that doesn't let itself be cancelled is left."""
        transport, incoming = self._transport, self._incoming
        if transport.held:
            names = ", ".join(sorted({it.method for it in transport.held}))[:100]
            count = len(transport.held)
            log.error("%d calls didn't begin in time, since what was said wasn't read: %s", count, names)
        while transport.held:
            call = transport.held.popleft()
            transport.do(functools.partial(transport.end_unbegun, call.number, call.method))
        for request in list(incoming.open.values()):
            log.error("%s: it didn't end in time, and is cancelled", request.method)
            transport.do(functools.partial(incoming.cancel, request))
        if incoming.tasks:
            for task in incoming.tasks:
                incoming.end_task(task)
            await waited(set(incoming.tasks), 1)

    async def _until_threads_end(self, end: float) -> None:
        nap = 0.0005
        end = max(end, time.monotonic() + 0.2)  # (those that have nothing to do end at once)
        while self._incoming.pool.is_alive() and time.monotonic() < end:
            import asyncio

            await asyncio.sleep(nap)
            nap = min(2 * nap, 0.05)

    async def close(self, seconds: float) -> None:
        """Lets go of everything, and notifies anyone who waits. What a stream still holds may take so long to go out."""
        if not self._transport.shut():
            return
        if self.ended is None:
            self.ended = self.watch.end(None, [], True, self._grace)
        self._incoming.close()
        self._outgoing.close(Closed(self.watch.over(self.ended)))
        await self._transport.close(seconds)

    async def abort(self) -> None:
        """Ends at once: what is to be written is, as far as it can be now."""
        if not self._transport.is_closed:
            with contextlib.suppress(Exception):
                self._transport.channel.write()
        await self.close(0)
        self._incoming.pool.join(0.5)
