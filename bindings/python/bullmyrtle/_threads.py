"""Functions of the user's in a session's own threads."""
from __future__ import annotations

import asyncio
import concurrent.futures
import contextlib
import contextvars
import functools
import threading
from typing import TYPE_CHECKING, Any, Callable, Optional, TypeVar

from .errors import Closed

if TYPE_CHECKING:
    from ._session import Session

T = TypeVar("T")


def in_thread(session: Session, function: Callable[[], T]) -> "asyncio.Future[T]":
    """Runs a function in a thread of a session's pool. One that is cancelled before its turn never begins."""
    transport, blocked = session._transport, session._outgoing.blocked
    if threading.get_ident() != transport.thread:
        raise RuntimeError("this runs in a thread already, so the function can simply be called")
    ticket: "concurrent.futures.Future[T]" = concurrent.futures.Future()
    with transport.lock:
        if transport.is_closed:
            raise Closed(session.watch.over(session.ended))
        blocked.add(ticket)
    ticket.add_done_callback(blocked.discard)
    run = functools.partial(contextvars.copy_context().run, function)
    try:
        session._incoming.pool.submit(functools.partial(_work, ticket, run))
    except BaseException:
        ticket.cancel()
        raise
    return asyncio.wrap_future(ticket, loop=session.loop)


def _work(ticket: "concurrent.futures.Future[Any]", function: Callable[[], Any]) -> None:
    if not ticket.set_running_or_notify_cancel():
        return
    result: Any = None
    raised: Optional[BaseException] = None
    try:
        result = function()
    except StopIteration as error:
        # (a future can't hold one, as it would end whatever generator awaits it)
        raised = RuntimeError("the function raised StopIteration")
        raised.__cause__ = error
    except BaseException as error:
        raised = error
    # (where the session was closed meanwhile, anyone who waited was notified already)
    with contextlib.suppress(concurrent.futures.InvalidStateError):
        if raised is None:
            ticket.set_result(result)
        else:
            ticket.set_exception(raised)
