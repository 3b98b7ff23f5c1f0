"""The requests of a session to the other side: what they wait for, and what is told to anyone who waits."""
from __future__ import annotations

import contextlib
import functools
import math
from _thread import get_ident

from . import _settings
from ._hints import TYPE_CHECKING
from ._log import log
from ._methods import PLAIN
from .errors import INTERNAL_ERROR, Closed, Empty, Error, InputOver, NotJson, NotOpen, NotWaiting, Refused
from .errors import TimedOut, Unanswered

if TYPE_CHECKING:
    import asyncio
    import concurrent.futures
    from typing import Any, Callable, Dict, List, Optional, Sequence, Set, Tuple

    from . import events
    from ._json import Json
    from ._reply import Reply
    from ._request import Request, Said
    from ._session import Session
    from ._transport import Transport

    Texts = List[Tuple[str, Optional[bytes]]]

# About how many bytes stand around what is said.
AROUND = 64


class Outgoing:
    """The requests and notifications of a session to the other side.

    Any thread may call `call_all`, `call_one`, `notify` and `notify_for`; all else is for the loop's thread.
    """

    def __init__(self, session: Session, transport: Transport, json: Json) -> None:
        # (these never change, and any thread may read them; the connection has a lock of its own)
        self.session, self.transport, self.json = session, transport, json
        self.connection, self.thread, self.watch = transport.connection, transport.thread, session.watch
        self._cancel_by, self._takes_tool_cancels = transport._cancel_by, transport._takes_tool_cancels
        #: What waits for a reply, by the keys of the calls: the loop's thread alone.
        self.replies: Dict[int, Reply] = {}
        #: What other threads wait for: added under the transport's lock while the session isn't closed, so that anyone who
        #: closes it finds all; any thread takes its own away.
        self.blocked: Set["concurrent.futures.Future[Any]"] = set()

    def close(self, closed: Closed) -> None:
        """The session is over: tells anyone who still waits."""
        replies, self.replies = list(self.replies.values()), {}
        for reply in replies:
            self.refuse(reply, closed)
        for ticket in list(self.blocked):
            settle(ticket, error=closed)

    def call_all(
        self, calls: Sequence[Said], request: Optional[Request] = None, return_exceptions: bool = False
    ) -> Any:
        """Calls the other side several times, in one message: gives what is to be awaited, on the loop's thread, or
        waits for it, on another one."""
        if self.session.protocol is not None:
            self.session.protocol.check_batch()
        texts = [(method, self.optional_text(params)) for method, params in calls]

        def begin() -> "asyncio.Future[Any]":
            import asyncio

            return asyncio.gather(*self._call_now(texts, True, request), return_exceptions=return_exceptions)

        if get_ident() != self.thread:
            return self._wait_for(begin)
        self._check_that_it_can_wait(request)
        return begin()

    def call_one(
        self, method: str, params: Any, request: Optional[Request] = None, timeout: Optional[float] = None
    ) -> Any:
        """The same for one call, which is what most are, and which may take so many seconds."""
        if timeout is not None:
            _settings.seconds("timeout", timeout)
        text = None if params is None else self.text_of(params)
        if get_ident() != self.thread:
            return self._wait_for(
                lambda: self._limited(self._call_now([(method, text)], False, request)[0], timeout)
            )
        self._check_that_it_can_wait(request)
        if self.transport.aside is not None:
            return self._limited(self._call_now([(method, text)], False, request)[0], timeout)
        try:
            key = self.connection.call(self._behalf(request, method), method, text)
        except NotOpen:
            raise Closed("the request is over") from None
        except InputOver:
            raise self._is_over() from None
        self.transport.said += AROUND + len(method) + (0 if text is None else len(text))
        self.transport.flush_soon()
        reply = self._reply_to(key, method, request)
        return reply if timeout is None else self._limited(reply, timeout)

    def _is_over(self) -> Exception:
        """What a request gets that can have no response any more. (While its streams are closed, a session is over, and
        its connection is still there.)"""
        if self.transport.is_closed:
            return Closed(self.watch.over(self.session.ended))
        return Unanswered(self.watch.why())

    def _limited(self, reply: Reply, timeout: Optional[float]) -> Reply:
        """The reply, which is given up after so many seconds."""
        if timeout is not None and timeout != math.inf:
            timer = self.transport.loop.call_later(timeout, self._time_out, reply, timeout)
            reply.add_done_callback(lambda _: timer.cancel())
        return reply

    def _time_out(self, reply: Reply, timeout: float) -> None:
        if not reply.done():
            self.refuse(reply, TimedOut(f"{reply.method}: no reply came within {timeout:g} seconds"))
            self.withdraw(reply)

    def is_never_cancelled(self, method: str) -> bool:
        """Whether no request of this method is ever cancelled, by either side."""
        return self.session.protocol is not None and method in self.session.protocol.never_cancelled

    def _behalf(self, request: Optional[Request], method: str) -> int:
        """The number of the call that came, on whose behalf a call of this method is made; 0 is nobody's.

        The end of that call withdraws the calls on its behalf.
        """
        return 0 if request is None or self.is_never_cancelled(method) else request.number

    def text_of(self, value: Any) -> bytes:
        """The JSON text of a value. Raises NotJson."""
        try:
            return self.json.dumps(value)
        except Exception as error:
            raise NotJson(words_of_error(error)) from error

    def optional_text(self, value: Any) -> Optional[bytes]:
        return None if value is None else self.text_of(value)

    @staticmethod
    def _check_that_it_can_wait(request: Optional[Request]) -> None:
        if request is not None and request.kind is PLAIN and not request.is_later:
            raise RuntimeError(
                f"{request.method}: request.call would block the loop here: "
                "make the method `async def` and await it, or register it with thread=True"
            )

    def _call_now(self, texts: Texts, is_batch: bool, request: Optional[Request]) -> List[Reply]:
        """Says calls, or has them said once a large content is read."""
        if self.transport.aside is None:
            first = self._said_calls(texts, is_batch, request)
            return [self._reply_to(key, method, request) for key, (method, _) in enumerate(texts, first)]
        self.transport.check_that_it_can_be_put_off()
        if not texts:
            raise Empty()
        replies = [self._reply(0, method) for method, _ in texts]
        self.transport.put_off.append(functools.partial(self._call_later, texts, is_batch, request, replies))
        return replies

    def _said_calls(self, texts: Texts, is_batch: bool, request: Optional[Request]) -> int:
        """Says calls, and gives the first key."""
        try:
            if is_batch:
                first = self.connection.call_batch(0 if request is None else request.number, texts)
            else:
                first = self.connection.call(self._behalf(request, texts[0][0]), *texts[0])
        except NotOpen:
            raise Closed("the request is over") from None
        except InputOver:
            raise self._is_over() from None
        self.transport.said += sum(AROUND + len(method) + len(params or b"") for method, params in texts)
        self.transport.flush_soon()
        return first

    def _call_later(
        self, texts: Texts, is_batch: bool, request: Optional[Request], replies: List[Reply]
    ) -> None:
        """Says calls that had to wait. They aren't said if nobody waits for them any more."""
        if all(it.done() for it in replies):
            return
        try:
            if self.transport.is_closed:
                raise Closed(self.watch.over(self.session.ended))
            first = self._said_calls(texts, is_batch, request)
        except Exception as error:
            for it in replies:
                self.refuse(it, error)
            return
        for key, reply in enumerate(replies, first):
            self.keep(reply, key, request)
            if reply.done():
                self.withdraw(reply)

    def _reply_to(self, key: int, method: str, request: Optional[Request]) -> Reply:
        reply = self._reply(key, method)
        self.keep(reply, key, request)
        return reply

    def _reply(self, key: int, method: str) -> Reply:
        from ._reply import Reply  # (here, as it imports asyncio)

        return Reply(self, key, method)

    def keep(self, reply: Reply, key: int, request: Optional[Request]) -> None:
        reply.key = key
        self.replies[key] = reply
        if request is not None:
            request.keys.append(key)

    def _wait_for(self, call: Callable[[], "asyncio.Future[Any]"]) -> Any:
        """Has a call begin on the loop's thread, and waits on this one for what it gives."""
        import concurrent.futures

        ticket: "concurrent.futures.Future[Any]" = concurrent.futures.Future()
        with self.transport.lock:
            if self.transport.is_closed:
                raise Closed(self.watch.over(self.session.ended))
            self.blocked.add(ticket)

        def begin() -> None:
            try:
                replies = call()
            except (KeyboardInterrupt, SystemExit):
                raise  # (it ends the session, which then tells anyone who waits)
            except BaseException as error:
                settle(ticket, error=error)
            else:
                replies.add_done_callback(lambda it: settle_as(ticket, it))

        try:
            self.transport.on_loop(begin)
            return ticket.result()
        finally:
            self.blocked.discard(ticket)

    def notify(self, method: str, params: Any = None) -> None:
        """Sends a notification, from any thread."""
        self.notify_text(method, self.optional_text(params))

    def notify_for(self, request: Request, method: str, params: Any = None) -> None:
        """Sends a notification on behalf of a request, which some channels have a stream for."""
        self.notify(method, params)

    def notify_text(self, method: str, text: Optional[bytes]) -> None:
        if get_ident() != self.thread:
            self.connection.notify(method, text)
            self.transport.said += AROUND + len(method) + len(text or b"")
            self.transport.on_loop(self.transport.flush_soon)
        elif self.transport.aside is None:
            self.connection.notify(method, text)
            self.transport.said += AROUND + len(method) + len(text or b"")
            self.transport.flush_soon()
        else:
            self.transport.check_that_it_can_be_put_off()
            if text is not None and text[:1] not in (b"[", b"{"):
                raise NotJson()
            self.transport.put_off.append(functools.partial(self._notify_later, method, text))

    def _notify_later(self, method: str, text: Optional[bytes]) -> None:
        if self.transport.is_closed:
            return
        try:
            self.connection.notify(method, text)
        except (Refused, TypeError) as error:
            log.error("a notification %r can't be sent: %s", method, error)

    @staticmethod
    def refuse(reply: "asyncio.Future[Any]", error: BaseException) -> None:
        if not reply.done():
            reply.set_exception(error)
            reply.exception()  # (so that nobody is told of it where nobody waits for it)

    def say_tool_cancel(self, key: int) -> None:
        assert self._cancel_by is not None
        self.connection.notify(self._cancel_by, b'{"requestId":%d}' % key)

    def withdraw(self, reply: Reply) -> None:
        """Tells the other side that an outgoing request isn't wanted any more, if it is one that may be cancelled."""
        was_there = self.replies.pop(reply.key, None) is not None
        if not was_there or self.transport.is_closed or self.is_never_cancelled(reply.method):
            return
        if self.transport.aside is None:
            self._withdraw_now(reply.key)
        else:
            self.transport.put_off.append(functools.partial(self._withdraw_now, reply.key))

    def _withdraw_now(self, key: int) -> None:
        if self.transport.is_closed:
            return
        if self._takes_tool_cancels:
            if self.transport.over is None:
                self.say_tool_cancel(key)
        else:
            with contextlib.suppress(NotWaiting):
                self.connection.withdraw(key)
        self.transport.flush_soon()

    # Replies

    def replied(self, event: events.Replied) -> None:
        reply = self.replies.pop(event.key, None)
        if reply is None or reply.done():
            return
        try:
            reply.set_result(self.json.loads(event.result))
        except (KeyboardInterrupt, SystemExit):
            raise
        except BaseException as error:
            words = words_of_error(error)
            self.refuse(reply, Error(INTERNAL_ERROR, f"the result can't be read: {words}"))

    def failed(self, event: events.Failed) -> None:
        reply = self.replies.pop(event.key, None)
        if reply is not None:
            self.refuse(reply, Error(event.code, event.message, self._data_of(event)))

    def unanswered(self, event: events.Unanswered) -> None:
        reply = self.replies.pop(event.key, None)
        if reply is not None:
            self.watch.lost += not reply.done()
            self.refuse(reply, Unanswered(self.watch.why()))

    def _data_of(self, event: events.Failed) -> Any:
        """The data of an error; their text, where they can't be read."""
        if event.data is None:
            return None
        try:
            return self.json.loads(event.data)
        except Exception:
            return event.data.decode()

    def taken(self, request: Request) -> List[Reply]:
        """The replies that calls on behalf of a request wait for, which nothing gets any more."""
        return [it for it in (self.replies.pop(key, None) for key in request.keys) if it is not None]

    def refuse_all(self, replies: List[Reply], why: str) -> None:
        for it in replies:
            self.refuse(it, Closed(why))

    def end(self, request: Request, why: str) -> None:
        """The calls on behalf of a request aren't wanted any more: tells the other side, and who waits."""
        for key in request.keys:
            reply = self.replies.get(key)
            if reply is not None:
                self.withdraw(reply)
                self.refuse(reply, Closed(f"{request.method}: {why}"))


def words_of_error(error: BaseException) -> str:
    """The text of an exception, whatever its own code does."""
    try:
        return str(error)
    except Exception as fault:
        return f"(its text can't be made: {type(fault).__name__})"


def settle(
    ticket: "concurrent.futures.Future[Any]", result: Any = None, error: Optional[BaseException] = None
) -> None:
    import concurrent.futures

    with contextlib.suppress(concurrent.futures.InvalidStateError):
        if error is not None:
            ticket.set_exception(error)
        else:
            ticket.set_result(result)


def settle_as(ticket: "concurrent.futures.Future[Any]", reply: "asyncio.Future[Any]") -> None:
    if reply.cancelled():
        settle(ticket, error=Closed("the request is over"))
    elif reply.exception() is not None:
        settle(ticket, error=reply.exception())
    else:
        settle(ticket, reply.result())
