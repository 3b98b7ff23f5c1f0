"""What stands around methods: functions of the user's, time limits, and one method that hands its call on to another."""
from __future__ import annotations

import contextlib
import functools

from ._hints import TYPE_CHECKING
from ._log import log
from ._methods import ASYNC, PLAIN, THREAD, Method, Methods
from ._signatures.parameters import is_awaitable
from .errors import METHOD_NOT_FOUND, Error, NotOpen

if TYPE_CHECKING:
    from typing import Any, Callable, Dict, Generator, List, Optional

    from ._request import Request

    #: A generator function of the request and its params, as JSON has them: what comes before its `yield` is done before
    #: the method, and what comes behind it afterwards. What it raises before, is raised in the method's place.
    Middleware = Callable[[Request, Any], Generator[None, Any, None]]
    #: What answers a request that took too long.
    Late = Callable[[Request, float], None]
else:
    Middleware = Late = object

REQUEST_FAILED = -32803


def _fitted(method: Method, params: Any, request: Request) -> Any:
    """What the method gets for its params. Raises InvalidParams."""
    try:
        return method.params(params)
    except Error:
        raise
    except (ValueError, TypeError, RecursionError) as fault:
        raise request.session.invalid_params(fault) from fault


def _called(method: Method, given: Any, request: Request) -> Any:
    if method.takes == 1:
        return method.function(given)
    return method.function(given, request) if method.takes else method.function()


def handed(method: Method, params: Any, request: Request) -> Any:
    """Has another method answer a call: gives the result, or what is to be awaited for it."""
    call = functools.partial(_called, method, _fitted(method, params, request), request)
    return request.in_thread(call) if method.kind is THREAD else call()


def raw(name: str, function: Callable[..., Any], kind: str) -> Method:
    """A method whose function takes the params as they came, and the request."""
    method: Method = object.__new__(Method)
    method.name, method.kind, method.function = name, kind, function
    method.takes, method.fit, method.is_quick = 2, None, False
    return method


# Time limits


def answer_late(request: Request, seconds: float) -> None:
    """Answers a request that took too long with the error -32803."""
    log.warning("%s took longer than %g seconds", request.method, seconds)
    request.fail(Error(REQUEST_FAILED, f"Request failed: it took longer than {seconds:g} seconds"))


def _end(request: Request, seconds: float, late: Late) -> None:
    session, task = request.session, request.task
    if not request.is_open:
        return
    session._outgoing.end(request, "it took too long")
    with contextlib.suppress(NotOpen):
        late(request, seconds)
    request.is_cancelled = True  # (whatever it does now is no more than it would be after a cancel)
    if task is not None and not task.done():
        session._incoming.end_task(task)


def limited(method: Method, seconds: Optional[float], late: Late = answer_late) -> Method:
    """The method, whose requests are answered by `late` where it takes longer than so many seconds."""
    if seconds is None:
        return method
    limit = float(seconds)
    if method.kind is PLAIN:
        raise TypeError(
            f"{method.name}: nothing can end a plain function in time, since it holds up the loop: "
            "make it `async def`, or register it with thread=True"
        )

    async def run(params: Any, request: Request) -> Any:
        timer = request.session.loop.call_later(limit, _end, request, limit, late)
        try:
            return await handed(method, params, request)
        finally:
            timer.cancel()

    return raw(method.name, run, ASYNC)


# Functions around methods


class _Around:
    """The middlewares of one call, while it goes on."""

    def __init__(self, middlewares: List[Middleware], request: Request, params: Any) -> None:
        self._open: List[Generator[None, Any, None]] = []
        try:
            for it in middlewares:
                generator = it(request, params)
                next(generator)
                self._open.append(generator)
        except StopIteration:
            self.raised(RuntimeError(f"{it!r} has to yield once"))
        except BaseException as error:
            self.raised(error)

    def returned(self, result: Any) -> Any:
        """Tells those around it of the result, the inner ones first, and gives it back."""
        while self._open:
            try:
                self._open.pop().send(result)
            except StopIteration:
                continue
            except BaseException as error:
                self.raised(error)
            self.raised(RuntimeError("a middleware has to yield once, and yielded twice"))
        return result

    def raised(self, error: BaseException) -> None:
        """Tells those around it of an error, and raises it, or the one that they raise in its place."""
        while self._open:
            try:
                self._open.pop().throw(error)
            except StopIteration:
                continue  # (one that only looks at it doesn't take it away from the others)
            except BaseException as other:
                error = other
        raise error


def around(method: Method, middlewares: List[Middleware]) -> Method:
    """The method with middlewares around it, the first one outermost."""

    def run(params: Any, request: Request) -> Any:
        open_ = _Around(middlewares, request, params)
        try:
            result = _called(method, _fitted(method, params, request), request)
        except BaseException as error:
            open_.raised(error)
        if is_awaitable(result):
            return _awaited(open_, result)
        return open_.returned(result)

    async def run_async(params: Any, request: Request) -> Any:
        open_ = _Around(middlewares, request, params)
        try:
            result = await _called(method, _fitted(method, params, request), request)
        except BaseException as error:
            open_.raised(error)
        return open_.returned(result)

    async def _awaited(open_: _Around, awaitable: Any) -> Any:
        try:
            result = await awaitable
        except BaseException as error:
            open_.raised(error)
        return open_.returned(result)

    return raw(method.name, run_async if method.kind is ASYNC else run, method.kind)


def _unknown(params: Any, request: Request) -> None:
    if not request.is_notification:
        raise Error(METHOD_NOT_FOUND, f"Method not found: {request.method}")


# What middlewares stand around where there is no method.
_UNKNOWN = raw("unknown", _unknown, PLAIN)


class Wrapped(Methods):
    """A table of methods with middlewares around each, and around what there is none for."""

    def __init__(self, methods: Methods, middlewares: List[Middleware]) -> None:
        super().__init__()
        self._all, self._middlewares = methods, middlewares
        self._made: Dict[int, Method] = {}

    def _wrapped(self, method: Method) -> Method:
        made = self._made.get(id(method))
        if made is None:
            made = self._made[id(method)] = around(method, self._middlewares)
        return made

    def get(self, name: str, default: Any = None) -> Any:
        method = self._all.get(name)
        return None if method is None else self._wrapped(method)

    def otherwise(self, name: str) -> Optional[Method]:
        return self._wrapped(self._all.otherwise(name) or _UNKNOWN)


def checked_middleware(function: Any) -> Middleware:
    """The function, where it is a generator function. Raises TypeError."""
    import inspect

    if not inspect.isgeneratorfunction(function):
        raise TypeError(
            f"{function!r} has to be a generator function, as in: def timed(request, params): .. yield .."
        )
    return function  # type: ignore[no-any-return]
