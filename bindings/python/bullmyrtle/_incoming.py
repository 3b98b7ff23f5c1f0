"""The requests that came: they go to methods, and what these give or raise is their answer."""
from __future__ import annotations

import contextlib
import functools
import sys
from _thread import get_ident

from . import _json
from ._blocking import Blocking
from ._hints import TYPE_CHECKING
from ._log import log, log_surely
from ._methods import ASYNC, PLAIN, THREAD
from ._outgoing import AROUND, words_of_error
from ._pool import Pool
from ._request import LATER, Request, words_of
from ._signatures.parameters import is_awaitable
from .errors import INTERNAL_ERROR, METHOD_NOT_FOUND, REQUEST_CANCELLED, TOO_MANY_OPEN
from .errors import Closed, Error, InvalidParams, NoMemory, NotJson, NotOpen, TimedOut, Unanswered

if TYPE_CHECKING:
    import asyncio
    from typing import Any, Callable, Dict, List, Optional, Set, Tuple

    from . import events
    from ._methods import Method, Methods
    from ._outgoing import Outgoing
    from ._session import Session
    from ._transport import Transport

# (asking whether something can be awaited takes longer than all the rest of a call)
VALUES = frozenset((dict, list, str, int, float, bool, type(None)))
# How far a call is, of which something raised: its params are read, its method runs, its result is written.
_READS, _CALLS, _ANSWERS = "reads", "calls", "answers"


class Incoming:
    """The requests and notifications that came, from their turn until they are answered.

    All of it is for the loop's thread, but `answer_by_hand`, and what a thread of the pool does by `_run_in_thread`.
    """

    def __init__(
        self,
        session: Session,
        transport: Transport,
        outgoing: Outgoing,
        methods: Methods,
        workers: Optional[int],
        most: Optional[int],
    ) -> None:
        # (these never change; any thread may use the pool, and the connection, which has a lock of its own)
        self.session, self.transport, self.outgoing = session, transport, outgoing
        self.connection, self.thread, self.watch = transport.connection, transport.thread, session.watch
        self.methods = methods
        self.pool: Pool = Pool(workers)
        self.answer_quickly: Callable[[int, bytes], None] = transport.connection.answer
        self._loads, self._dumps = outgoing.json
        self._cancel_by, self._takes_tool_cancels = transport._cancel_by, transport._takes_tool_cancels
        self._most_open = most
        # (these are the loop's thread's alone, but where a line says something else)
        self._open_requests = 0  # how many, where there is a most
        #: Whether a call may be refused, though there is a method for it.
        self.is_choosy = False
        #: The calls that came and that something works on, by their numbers. Any thread may look whether one is there.
        self.open: Dict[int, Request] = {}
        self._by_id: Dict[Tuple[type, Any], List[Request]] = {}  # of these, where a cancel names an id
        #: The tasks of `async def`, until their last step.
        self.tasks: Set["asyncio.Task[None]"] = set()

    @property
    def is_idle(self) -> bool:
        """Whether nothing works on anything."""
        return not (self.open or self.tasks)

    def close(self) -> None:
        """The session is over: ends what works."""
        self.open.clear()
        for task in self.tasks:
            self.end_task(task)
        self.pool.close()

    # Calls that came

    def begin(self, event: events.Call) -> bool:
        """Answers a call, or begins to; says whether a task is to run first."""
        number, name, params, id_ = event
        method = self.methods.get(name)
        if method is None or self.is_choosy or name == self._cancel_by:
            method = self._chosen(event, method)
            if method is None:
                return False
        stage = _READS
        try:
            given = None if params is None else self._loads(params)
            if method.fit is not None:
                given = method.fit(given, "params")
            if method.is_quick:
                stage = _CALLS
                result = method.function(given) if method.takes else method.function()
                stage = _ANSWERS
                if id_ is not None and type(result) in VALUES:
                    text = self._dumps(result)
                    self.transport.said += AROUND + len(text)
                    self.answer_quickly(number, text)
                    return False
        except (KeyboardInterrupt, SystemExit):
            raise
        except BaseException as fault:
            if stage is _READS:
                self._doesnt_fit(event, fault)
                return False
            if stage is _CALLS:
                self._raised(number, name, fault, None)
                return False
            if isinstance(fault, NoMemory):
                raise
            # (what is below finds any other fault of the answer again, and says so)
        if method.is_quick:
            return self._returned_plainly(method, result, event, None)
        return self._begin_request(method, given, event)

    def _chosen(self, event: events.Call, method: Optional[Method]) -> Optional[Method]:
        """The method for a call that isn't like most; None where the call is answered."""
        if self.is_choosy and self._is_refused(event):
            return None
        is_cancel = event.method == self._cancel_by
        if is_cancel and self._takes_tool_cancels:
            self.cancel_by_id(event)
        if method is None and not is_cancel:
            method = self.methods.otherwise(event.method)
        if method is None:
            self.transport.said += AROUND
            self.connection.fail(event.number, METHOD_NOT_FOUND, f"Method not found: {event.method}")
        return method

    def _begin_request(self, method: Method, given: Any, event: events.Call) -> bool:
        """Begins a call that its method is told of, or that takes a while."""
        if method.kind is PLAIN:
            return self._call_plain(method, given, event)
        request = self._opened(event, method.kind)
        if method.kind is THREAD:
            self.pool.submit(functools.partial(self._run_in_thread, method, given, request))
            return False
        self._run_as_task(functools.partial(_called, method, given, request), request)
        return True

    def _is_refused(self, event: events.Call) -> bool:
        """Refuses a call where none begins any more, or a request where too many are open."""
        if self.transport.is_stopped:
            self.say_cancelled(event.number, event.method)
            return True
        if event.id is None:
            return False
        self.transport.said += AROUND
        self.connection.fail(event.number, TOO_MANY_OPEN, "Too many open requests")
        return True

    def _opened(self, event: events.Call, kind: str) -> Request:
        request = self.open[event.number] = Request(self.session, event, kind)
        if event.id is not None:
            if self._most_open is not None:
                self._count_open(1)
            if self._takes_tool_cancels:
                self._by_id.setdefault(request.id_key, []).append(request)
        return request

    def _count_open(self, more: int) -> None:
        assert self._most_open is not None
        self._open_requests += more
        self.is_choosy = self.transport.is_stopped or self._open_requests >= self._most_open

    def _doesnt_fit(self, event: events.Call, fault: BaseException) -> None:
        """The params can't be read, or don't fit the method's annotation."""
        if isinstance(fault, Error):
            error = fault
        elif isinstance(fault, (ValueError, TypeError, RecursionError)):
            error = self.invalid_params(fault)
        else:  # (as from a dataclass's own code)
            self._raised(event.number, event.method, fault, None)
            return
        if event.id is None:
            log.warning("%s: %s", event.method, error.message)
        self._fail(event.number, error)

    def invalid_params(self, fault: BaseException) -> InvalidParams:
        """The error that tells of an exception which params raised in the code that reads them."""
        about = f": {words_of_error(fault)}" if self.session.tells_errors else ""
        return InvalidParams(words_of(f"Invalid params{about}"))

    def _call_plain(self, method: Method, given: Any, event: events.Call) -> bool:
        request = self._opened(event, PLAIN)
        try:
            result = _called(method, given, request)
        except (KeyboardInterrupt, SystemExit):
            raise
        except BaseException as error:
            self._raised(event.number, event.method, error, request)
            return False
        return self._returned_plainly(method, result, event, request)

    def _returned_plainly(
        self, method: Method, result: Any, event: events.Call, request: Optional[Request]
    ) -> bool:
        if result is LATER:
            if request is not None:
                request.is_later = True
                return False
            result = None
            log.error("%s: LATER is for a method that takes the request", event.method)
        if type(result) not in VALUES and is_awaitable(result):
            if request is None:
                request = self._opened(event, PLAIN)
            request.kind = ASYNC
            made = _Made(result)
            self._run_as_task(made, request)
            assert request.task is not None
            request.task.add_done_callback(made.end)
            return True
        if event.id is None:
            self._close_notification(event.number, request)
        else:
            self._answer(event.number, event.method, result, request)
        return False

    def _run_as_task(self, make: Callable[[], Any], request: Request) -> None:
        """Runs as a task what is made when it begins: a coroutine that never begins is none."""
        request.task = task = self.transport.loop.create_task(self._run(make, request))
        if not task.done():  # (it is, where a factory of the loop's began it at once)
            self.tasks.add(task)

    def end_task(self, task: "asyncio.Task[None]") -> None:
        """Cancels a task. One that hasn't begun is over without that its own code says so."""
        task.add_done_callback(self._task_ended)
        task.cancel()

    def _task_ended(self, task: Optional["asyncio.Task[None]"]) -> None:
        if task is not None:
            self.tasks.discard(task)
            if task.done() and not task.cancelled():
                task.exception()  # (KeyboardInterrupt or SystemExit, which the loop has raised; it isn't to be told twice)
        if self.transport.change is not None and not self.tasks:
            self.transport.changed()

    async def _run(self, make: Callable[[], Any], request: Request) -> None:
        try:
            result = await make()
        except (KeyboardInterrupt, SystemExit):
            if request.task is not None:
                request.task.add_done_callback(self._task_ended)
            raise
        except BaseException as error:
            self.transport.when_read(self._ended, request, None, error)
            if _is_cancel(error):
                raise
        else:
            if self.transport.aside is None:
                self._ended(request, result, None)
            else:
                self.transport.when_read(self._ended, request, result, None)
        finally:
            self._task_ended(request.task)

    def _ended(self, request: Request, result: Any, error: Optional[BaseException]) -> None:
        """A method that ran as a task or in a thread has ended."""
        try:
            if error is not None:
                self._raised(request.number, request.method, error, request)
            elif result is LATER:
                request.is_later = True
            elif request.is_notification:
                self._close_notification(request.number, request)
            else:
                self._answer(request.number, request.method, result, request)
        except (KeyboardInterrupt, SystemExit):
            raise
        except BaseException as fault:
            self.escaped(request.number, request.method, fault)

    def _run_in_thread(self, method: Method, given: Any, request: Request) -> None:
        if request.number not in self.open:
            return  # (it was cancelled before a thread was free)
        result, error = None, None
        try:
            result = _called(method, given, request)
        except BaseException as raised:
            error = raised
        self.transport.on_loop(self._ran_in_thread, request, result, error)

    def _ran_in_thread(self, request: Request, result: Any, error: Optional[BaseException]) -> None:
        self.transport.when_read(self._ended, request, result, error)
        self.transport.flush_soon()

    # Answers

    def _answer(self, number: int, name: str, result: Any, request: Optional[Request]) -> None:
        if request is not None and number not in self.open:
            if result is not None and not request.is_cancelled and not self.transport.is_closed:
                log.error("%s: it had answered its request already, and then returned a result too", name)
            return
        try:
            try:
                text = self._dumps(result)
            except (KeyboardInterrupt, SystemExit):
                raise
            except BaseException as error:
                raise NotJson(words_of_error(error)) from error
            self.transport.said += AROUND + len(text)
            self.connection.answer(number, text)
        except NotOpen:
            pass
        except NotJson as error:
            self._isnt_json(number, name, "its result", error)
        if request is not None:
            self._closed(request)

    def _isnt_json(self, number: int, name: str, what: str, error: BaseException) -> None:
        words = words_of_error(error)
        log.error("%s: %s isn't JSON: %s", name, what, words)
        told = f"Internal error: {what.replace('its', 'the')} isn't JSON"
        if self.session.tells_errors:
            told = words_of(f"{told}: {words}")
        self.connection.fail(number, INTERNAL_ERROR, told)

    def _close_notification(self, number: int, request: Optional[Request]) -> None:
        with contextlib.suppress(NotOpen):
            self.connection.answer(number)
        if request is not None:
            self._closed(request)

    def _raised(self, number: int, name: str, error: BaseException, request: Optional[Request]) -> None:
        """A method raised something: it is answered, and what nobody meant is logged, once."""
        if request is not None and number not in self.open:
            is_meant = request.is_cancelled or _is_cancel(error)
            if not is_meant and not self.transport.is_closed:
                log.error("%s: it had answered its request already, and then raised", name, exc_info=error)
            return
        if isinstance(error, Error):
            if request is not None and request.is_notification:
                if isinstance(
                    error, InvalidParams
                ):  # (the fault is the other side's: where in the code says nothing)
                    log.warning("%s: %s", name, error.message)
                else:
                    log.error("%s raised %s", name, type(error).__name__, exc_info=error)
            self._fail(number, error, name)
        else:
            words = words_of_error(error)
            if (
                type(self.transport.turns) is Blocking
                and isinstance(error, RuntimeError)
                and "event loop" in words
            ):
                words = f"{words}. Server(loop=True) has one that runs in plain methods too"
                log.error("%s: %s", name, words)
            if isinstance(error, (Closed, TimedOut, Unanswered)):
                log.info("%s: %s", name, words)
            else:
                log.error("%s raised %s", name, type(error).__name__, exc_info=error)
            about = f": {words}" if words else ""
            self._fail(number, Error(INTERNAL_ERROR, self._internal(f"{type(error).__name__}{about}")), name)
        if request is not None:
            self._closed(request)

    def _internal(self, words: str) -> str:
        return f"Internal error: {words}" if self.session.tells_errors else "Internal error"

    def _fail(self, number: int, error: Error, name: str = "") -> None:
        try:
            code, message, data = self._parts_of(error)
            self.transport.said += AROUND + len(message) + len(data or b"")
            self.connection.fail(number, code, message, data)
        except NotOpen:
            pass
        except (TypeError, ValueError) as fault:  # (NotJson is a ValueError)
            self._isnt_json(number, name, "the error", fault)

    def _parts_of(self, error: Error) -> Tuple[int, str, Optional[bytes]]:
        """The code, message and data of an error. Raises NotJson or TypeError."""
        try:
            message = words_of(str(error.message))
        except Exception as fault:
            raise NotJson(f"its message can't be made: {type(fault).__name__}") from fault
        return error.code, message, self.outgoing.optional_text(error.data)

    def escaped(self, number: int, name: str, fault: BaseException) -> None:
        """Whatever got past all that answers a call: the call is answered all the same, or else the session ends."""
        if isinstance(fault, NoMemory):
            self.transport.give_up("memory was refused", fault)
            return
        try:
            self.connection.fail(number, INTERNAL_ERROR, self._internal(type(fault).__name__))
        except NotOpen:
            pass
        except (KeyboardInterrupt, SystemExit):
            raise
        except BaseException:
            self.transport.give_up(f"{name} can't be answered", fault)
            return
        request = self.open.get(number)
        if request is not None:
            self._closed(request)
        log_surely("%s: %s", name, type(fault).__name__, fault=fault)

    def answer_by_hand(self, request: Request, said: Any) -> None:
        """What `request.answer` and `request.fail` do, in any thread."""
        say = self._saying(request, said)
        is_ours = get_ident() == self.thread
        if is_ours and self.transport.aside is not None:
            if self._may_answer(request):
                self.transport.put_off.append(functools.partial(self._say_later, request, say))
                self._closed(request)
            return
        try:
            say()
        except NotOpen:
            if not request.is_cancelled:
                raise NotOpen(f"{request.method}: the request is answered already") from None
            return
        if is_ours:
            self._answered(request)
        else:
            self.transport.on_loop(self._answered, request)

    def _saying(self, request: Request, said: Any) -> Callable[[], None]:
        """What answers a request with a result or an error, all but the call itself. Raises NotJson."""
        number = request.number
        if issubclass(type(said), Error):  # (which doesn't ask the value itself)
            code, message, data = self._parts_of(said)
            return lambda: self.connection.fail(number, code, message, data)
        if request.is_notification:
            return lambda: self.connection.answer(number)
        text = self.outgoing.text_of(said)
        self.transport.said += AROUND + len(text)
        return lambda: self.connection.answer(number, text)

    def _may_answer(self, request: Request) -> bool:
        """Whether a request isn't cancelled; raises what the connection would, where it can't be asked."""
        self.transport.check_that_it_can_be_put_off()
        if request.number not in self.open and not request.is_cancelled:
            raise NotOpen(f"{request.method}: the request is answered already")
        return not request.is_cancelled

    def _say_later(self, request: Request, say: Callable[[], None]) -> None:
        if self.transport.is_closed:
            return
        try:
            say()
        except NotOpen:
            pass
        except (TypeError, ValueError) as fault:
            self._isnt_json(request.number, request.method, "its result", fault)
        self.transport.flush_soon()

    def _answered(self, request: Request) -> None:
        self._closed(request)
        self.transport.flush_soon()

    def _closed(self, request: Request) -> None:
        """A call that came is answered: anyone who waits on its behalf is told, and what waits for the end may go on."""
        if self.open.pop(request.number, None) is None:
            return
        if request.id_text is not None:
            if self._most_open is not None:
                self._count_open(-1)
            if self._takes_tool_cancels:
                self._forget_id(request)
        if request.keys:
            self.outgoing.refuse_all(self.outgoing.taken(request), f"{request.method}: the request is over")
        if self.transport.change is not None and not self.open:
            self.transport.changed()
        self.transport.flush_soon()

    def _forget_id(self, request: Request) -> None:
        others = self._by_id[request.id_key]
        others.remove(request)
        if not others:
            del self._by_id[request.id_key]

    # Cancels

    def cancel(self, request: Request) -> None:
        """Answers a request as cancelled, at once, and ends what works on it."""
        if request.number not in self.open:
            return
        request.is_cancelled = True
        if self._takes_tool_cancels and self.transport.over is None:
            for key in request.keys:
                if key in self.outgoing.replies:
                    self.outgoing.say_tool_cancel(key)
        with contextlib.suppress(NotOpen):
            self.say_cancelled(request.number, request.method)
        replies = self.outgoing.taken(request)
        self._closed(request)
        if request.task is not None:
            self.end_task(request.task)
        self.outgoing.refuse_all(replies, f"{request.method}: the request is cancelled")

    def say_cancelled(self, number: int, method: str) -> None:
        """Closes a request that is cancelled: with the answer that says so, or without one where its protocol has it so.

        One that is never cancelled has its answer, though a cancel of it may have come.
        """
        if self.outgoing.is_never_cancelled(method):
            self.connection.fail(number, REQUEST_CANCELLED, "Request cancelled")
        else:
            self.connection.cancel(number)

    def their_cancel(self, number: int) -> None:
        """The connection told of a cancel, which may be of a request that is answered already."""
        request = self.open.get(number)
        if request is not None and not self.outgoing.is_never_cancelled(request.method):
            self.cancel(request)

    def cancel_by_id(self, event: events.Call) -> None:
        """A tool server's cancel is a notification like others, which names the request by its id."""
        for request in list(self._by_id.get(id_wanted(event), ())):
            self.cancel(request)


class _Made:
    """An awaitable that a plain function has made. One that nobody awaits, since it was cancelled, is closed."""

    __slots__ = ("_it",)

    def __init__(self, it: Any) -> None:
        self._it = it

    def __call__(self) -> Any:
        it, self._it = self._it, None
        return it

    def end(self, _: Any) -> None:
        close = getattr(self._it, "close", None)
        if close is not None:
            close()


def _is_cancel(error: BaseException) -> bool:
    """Whether it is asyncio's CancelledError, without asking the exception itself."""
    asyncio: Any = sys.modules.get("asyncio")
    return asyncio is not None and issubclass(type(error), asyncio.CancelledError)


def id_wanted(event: events.Call) -> Tuple[type, Any]:
    """The id that a tool server's cancel names, as `Request.id_key` has it; that of nothing where it names none."""
    params = None if event.params is None else _json.loads_short(event.params)
    wanted = params.get("requestId") if isinstance(params, dict) else None
    # (a list can't be looked up, and 7, 7.0 and "7" aren't the same)
    return (type(wanted), wanted) if type(wanted) in (str, int) else (dict, None)


def _called(method: Method, given: Any, request: Optional[Request]) -> Any:
    if method.takes == 1:
        return method.function(given)
    return method.function(given, request) if method.takes else method.function()
