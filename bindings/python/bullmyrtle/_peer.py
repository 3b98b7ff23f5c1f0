"""What a server and a client have in common: methods, settings, and the sessions that use them."""
from __future__ import annotations

import functools

from . import _settings
from ._hints import TYPE_CHECKING
from ._json import DIGITS
from ._library import ORDERS
from ._methods import Method, Methods
from ._protocols import PROTOCOLS
from ._session import LSP_CANCEL, TOOL_CANCEL, Session
from ._signatures.marks import marked, name_of
from .connection import Connection
from .errors import Closed

if not TYPE_CHECKING:
    from ._hints import overload

    CancelBy = Framing = Errors = OnBroken = object
else:
    import asyncio
    from typing import (
        Any,
        Callable,
        Dict,
        Iterable,
        List,
        Literal,
        NoReturn,
        Optional,
        Tuple,
        Type,
        TypeVar,
        Union,
        overload,
    )

    from ._channels import Channel
    from ._ends import End
    from ._middleware import Middleware
    from ._protocols import ProtocolName
    from ._reply import Reply
    from ._request import Said
    from ._trace import Trace, Traced
    from .connection import Cancels, Order
    from .events import Broken

    F = TypeVar("F", bound=Callable[..., Any])
    T = TypeVar("T")
    M = TypeVar("M", bound=Callable[..., Any])

    CancelBy = Literal["$/cancelRequest", "notifications/cancelled", "by framing"]
    Framing = Literal["frames", "lines"]
    #: How much the other side is told of exceptions that aren't meant for it.
    Errors = Literal["full", "brief"]
    # What is told of broken input, with the session.
    OnBroken = Callable[[Broken, Session], Any]
#: The cancel that belongs to the framing.
BY_FRAMING: CancelBy = "by framing"


def _limited(method: Method, timeout: Optional[float]) -> Method:
    if timeout is None:
        return method
    from ._middleware import limited

    return limited(method, timeout)


class Peer:
    """A side of conversations, with the methods that the other side may call."""

    _is_client = False

    def __init__(
        self,
        *,
        protocol: Optional[ProtocolName] = None,
        framing: Optional[Framing] = None,
        order: Order = "as-answered",
        cancel_by: Optional[CancelBy] = BY_FRAMING,
        content: Optional[int] = None,
        calls: Optional[int] = None,
        grace: float = 5.0,
        workers: Optional[int] = None,
        digits: int = DIGITS,
        open: Optional[int] = None,
        trace: Optional[Trace] = None,
        on_broken: Optional[OnBroken] = None,
        errors: Optional[Errors] = None,
        loop: bool = False,
        **unknown: NoReturn,
    ) -> None:
        """Make one, without methods yet. Raises `BadSettings` where there are no such settings.

        protocol -- "lsp" or "mcp": what the Language Server Protocol or the Model Context Protocol has, and nothing
            that its other sides can't read; or None
        framing -- "frames", as in LSP, or "lines", as in MCP; frames where nothing says otherwise
        order -- whether answers go out "as-answered", or in the order in which the requests came ("as-came")
        cancel_by -- the notification that cancels a request: "$/cancelRequest", as in LSP and the default with frames,
            "notifications/cancelled", as in MCP and the default with lines, or None
        content -- how many bytes a content may have
        calls -- how many calls may come
        grace -- how many seconds methods have after the end of the input
        workers -- how many threads there may be for methods with `thread=True`
        digits -- how many digits a whole number may have, from 20 on
        open -- how many requests may be open at once; one more is answered with an error
        trace -- where a log of the messages goes: a file's name, a file, or a function that takes lines
        on_broken -- a function that is told of each message that can't be read, or in which something is neither a call
            nor a reply: it gets an `events.Broken` and the session, on the loop's thread, and what it raises is logged

        errors -- what the other side is told of an exception that a method didn't mean for it: its name and text
            ("full"), or only that there was one ("brief"); brief over sockets, and else full, where nothing is said
        loop -- of a server: whether `run` has an event loop from its start on, so that one runs in plain methods too

        Raises `LibraryError` where "mcp" or `on_broken` is asked for, and the library is one that has neither yet.
        """
        names = [*unknown, "loop"] if loop and self._is_client else list(unknown)
        if names:
            _settings.no_more(names, self._setting_names())
        _settings.one_of("protocol", protocol, (*PROTOCOLS, None))
        if framing is not None:
            _settings.one_of("framing", framing, ("frames", "lines"))
        _settings.one_of("order", order, ORDERS)
        if cancel_by != BY_FRAMING:
            _settings.one_of("cancel_by", cancel_by, (LSP_CANCEL, TOOL_CANCEL, None))
        _settings.whole("content", content, _settings.MOST_CONTENT)
        _settings.whole("calls", calls, _settings.MOST_CALLS)
        _settings.whole("workers", workers)
        _settings.whole("open", open)
        _settings.digits(digits)
        _settings.seconds("grace", grace)
        _settings.trace(trace)
        _settings.hook("on_broken", on_broken)
        _settings.one_of("errors", errors, ("full", "brief", None))
        known = None if protocol is None else PROTOCOLS[protocol]
        if known is not None:
            known.check(framing, cancel_by, BY_FRAMING)
        used = framing or ("frames" if known is None else known.framing)
        self._protocol = protocol
        self._settings: Dict[str, Any] = {
            "framing": used,
            "order": order,
            "content": content,
            "calls": calls,
        }
        by_framing: CancelBy = "$/cancelRequest" if used == "frames" else "notifications/cancelled"
        self._cancel_by: Optional[CancelBy] = by_framing if cancel_by == BY_FRAMING else cancel_by
        # What the connection itself has. (Without a protocol, a request that is cancelled as in MCP is answered.)
        lsp: Optional[Cancels] = "lsp" if self._cancel_by == LSP_CANCEL else None
        self._cancels: Optional[Cancels] = "mcp" if protocol == "mcp" else lsp
        self._grace = grace
        self._workers = workers
        self._digits, self._most_open = digits, open
        self._trace = trace
        self._on_broken = on_broken
        self._errors = errors
        self._has_loop = bool(loop)
        self._methods = Methods()
        self._middlewares: List[Middleware] = []
        self._sessions: Dict[Session, None] = {}
        self._served = 0
        self._last: Optional[Session] = None

    @classmethod
    def _setting_names(cls) -> List[str]:
        import inspect

        functions = [vars(it)["__init__"] for it in cls.__mro__[:-1] if "__init__" in vars(it)]
        parameters = [it for function in functions for it in inspect.signature(function).parameters.values()]
        names = [it.name for it in parameters if it.kind is inspect.Parameter.KEYWORD_ONLY]
        return [it for it in names if it != "loop" or not cls._is_client]

    # Methods

    @overload
    def method(self, name: F) -> F:
        ...

    @overload
    def method(
        self, name: Optional[str] = None, *, thread: bool = False, timeout: Optional[float] = None
    ) -> Callable[[F], F]:
        ...

    def method(
        self,
        name: Union[Callable[..., Any], str, None] = None,
        *,
        thread: bool = False,
        timeout: Optional[float] = None,
    ) -> Any:
        """Register a function as the method of this name, or of its own where none is given.

        What its parameters get:

        - one parameter gets the params whole, and so does a first one that is named `params`;
        - the second one gets the `Request`, where it is named `request` or annotated so, and then the first one gets
          the params whole; one that has to be named, as in `def m(a, b, *, request)`, gets it too;
        - otherwise an array fills the parameters by their places, and an object by their names.

        A plain function runs on the loop's thread, when its call comes; an `async def` starts then, and others may come
        while it awaits; one with `thread=True` runs in a thread of its own. What it returns is the result. A
        notification's result is nothing. One of the latter two that takes longer than `timeout` seconds is ended, and
        its request is answered with the error -32803.
        """
        if callable(name):
            return self.method()(name)
        given: Optional[str] = name

        def register(function: F) -> F:
            made = Method(name_of(function) if given is None else given, function, thread)
            self._check_name(made.name)
            self._methods.add(_limited(made, timeout))
            return function

        return register

    def _check_name(self, name: str) -> None:
        """Refuses a name that this kind of peer has registered in another way."""

    def register(self, instance: T) -> T:
        """Register what is marked of an instance by `@bullmyrtle.method("name")`, and give it back."""
        self._methods.add(
            *(_limited(Method(it.name, function, it.thread), it.timeout) for it, function in marked(instance))
        )
        return instance

    @overload
    def fallback(self, function: F, *, thread: bool = False, dollar: bool = False) -> F:
        ...

    @overload
    def fallback(self, *, thread: bool = False, dollar: bool = False) -> Callable[[F], F]:
        ...

    def fallback(
        self, function: Optional[Callable[..., Any]] = None, *, thread: bool = False, dollar: bool = False
    ) -> Any:
        """Register what answers names that nobody registered; `request.method` says which it is.

        Names that begin with `$/` are answered, or closed, without it, unless `dollar=True`.
        """
        if function is None:
            return functools.partial(self.fallback, thread=thread, dollar=dollar)
        if self._methods.fallback is not None:
            raise ValueError("there is a fallback already")
        self._methods.fallback = Method("fallback", function, thread)
        self._methods.takes_dollar = dollar
        return function

    def middleware(self, function: M) -> M:
        """Register what stands around each method, before a session begins: a generator function that yields once.

        >>> @server.middleware
        ... def timed(request, params):
        ...     start = time.monotonic()
        ...     yield
        ...     print(request.method, time.monotonic() - start, file=sys.stderr)

        It runs where the method does. What it raises before its `yield` is raised in the method's place; `yield` gives
        the method's result, or raises what the method raises. The first one that is registered is the outermost.
        """
        from ._middleware import checked_middleware

        self._middlewares.append(checked_middleware(function))
        return function

    # Sessions

    def _table(self) -> Methods:
        """What a new session finds its methods in."""
        return self._methods

    def _began(self, session: Session, table: Methods) -> None:
        """A session has begun, and finds its methods in this table."""

    def _session_over(
        self, channel: Channel, turns: Any = None, kind: Type[Session] = Session, **other: Any
    ) -> Session:
        """A new session of a kind; `other` settings take the place of the peer's."""
        cancels = self._cancels
        plain = Connection(cancels=cancels, broken=True, **{**self._settings, **other})
        connection: Union[Connection, Traced] = plain
        if self._trace is not None:
            from . import _trace

            connection = _trace.Traced(plain, self._trace, cancels)
        watch = kind.watching({**self._settings, **other}, cancels, self._is_client)
        table = self._table()
        session = kind(
            self._wrapped(table) if self._middlewares else table,
            channel,
            connection,
            self._cancel_by,
            cancels,
            self._grace,
            self._workers,
            watch,
            self._digits,
            self._most_open,
            turns,
        )
        session.protocol = None if self._protocol is None else PROTOCOLS[self._protocol]
        session.on_broken = self._on_broken
        session.tells_errors = channel.is_near if self._errors is None else self._errors == "full"
        self._sessions[session] = None
        self._served += 1
        self._last = session
        self._began(session, table)
        return session

    def _wrapped(self, table: Methods) -> Methods:
        from ._middleware import Wrapped

        return Wrapped(table, self._middlewares)

    async def _serve(self, session: Session) -> int:
        try:
            return await session.serve()
        finally:
            self._sessions.pop(session, None)

    @property
    def sessions(self) -> Tuple[Session, ...]:
        """The sessions that run, in the order in which they began."""
        return tuple(self._sessions)

    @property
    def session(self) -> Session:
        """The session that runs. Raises `Closed` where there is none, and RuntimeError where there are several."""
        return self._single("request.session")

    def _single(self, instead: str) -> Session:
        """The session that runs; `instead` is what to write where several do."""
        if len(self._sessions) == 1:
            return next(iter(self._sessions))
        if not self._sessions:
            raise Closed(self._nothing_runs())
        raise RuntimeError(
            f"{len(self._sessions)} sessions run, and this says to none of them in particular. "
            f"Write {instead} in a method, or take one of server.sessions"
        )

    def _nothing_runs(self) -> str:
        return "no session runs yet" if self._last is None else self._last.watch.over(self._last.ended)

    @property
    def ended(self) -> Optional[End]:
        """How the session ended; None before and while it runs. Raises RuntimeError where there were several."""
        if self._served > 1:
            raise RuntimeError(f"there were {self._served} sessions: each has its own session.ended")
        return None if self._last is None else self._last.ended

    def call(self, method: str, params: Any = None, *, timeout: Optional[float] = None) -> Reply:
        """Call the other side, on behalf of no request: gives what is to be awaited.

        In another thread than the loop's it blocks, and gives the result, as `call_and_wait` does. One that takes
        longer than `timeout` seconds is cancelled, and raises `TimedOut`.
        """
        return self._single("request.call(..)").call(method, params, timeout=timeout)

    def call_and_wait(self, method: str, params: Any = None, *, timeout: Optional[float] = None) -> Any:
        """Call the other side in another thread than the loop's: it blocks, and gives the result."""
        return self._single("request.call_and_wait(..)").call_and_wait(method, params, timeout=timeout)

    def call_batch(
        self, calls: Iterable[Said], return_exceptions: bool = False
    ) -> "asyncio.Future[List[Any]]":
        """Call the other side several times, in one message. The results come as a list, as with asyncio.gather."""
        return self._single("request.call_batch(..)").call_batch(calls, return_exceptions)

    def call_batch_and_wait(self, calls: Iterable[Said], return_exceptions: bool = False) -> List[Any]:
        """The same in another thread than the loop's: it blocks, and gives the results."""
        return self._single("request.call_batch_and_wait(..)").call_batch_and_wait(calls, return_exceptions)

    def notify(self, method: str, params: Any = None) -> None:
        """Send the other side a notification. Any thread may do that."""
        self._single("request.notify(..)").notify(method, params)

    def in_thread(self, function: Callable[..., T], *given: Any, **named: Any) -> "asyncio.Future[T]":
        """Run any function in a thread of the session's own pool: gives what is to be awaited, or returned."""
        return self._single("request.in_thread(..)").in_thread(function, *given, **named)
