"""A call that came, as its method sees it, and the replies to calls of its own."""
from __future__ import annotations

from . import _json
from ._hints import TYPE_CHECKING

if TYPE_CHECKING:
    import asyncio
    from typing import Any, Callable, Iterable, List, Optional, Tuple, TypeVar, Union

    from . import events
    from ._reply import Reply
    from ._session import Session
    from .errors import Error

    T = TypeVar("T")

    # A call of ours: its method and its params.
    Said = Tuple[str, Any]


# The id of a request whose id nobody has asked for.
_UNREAD = object()


class _Later:
    def __repr__(self) -> str:
        return "LATER"


#: What a method returns whose request is answered later, by `request.answer` or `request.fail`.
LATER = _Later()


def words_of(text: str) -> str:
    """A text that can be written as UTF-8."""
    return text.encode("utf-8", "backslashreplace").decode()


class Request:
    """A call that came: a method gets it as its second parameter."""

    __slots__ = (
        "session",
        "number",
        "method",
        "id_text",
        "_id",
        "is_cancelled",
        "is_later",
        "keys",
        "kind",
        "task",
    )

    def __init__(self, session: Any, event: events.Call, kind: str) -> None:
        self.session: Session = session
        self.number = event.number
        self.method = event.method
        self.id_text = event.id
        self._id: Any = _UNREAD
        self.kind = kind
        self.is_cancelled = False  #: whether the other side has cancelled it
        self.is_later = False
        self.keys: List[int] = []
        self.task: Optional["asyncio.Task[None]"] = None

    def __repr__(self) -> str:
        return f"<Request {self.number} {self.method!r}>"

    @property
    def id(self) -> Union[str, int, None]:
        """The id that the other side gave it; None for a notification."""
        if self._id is _UNREAD:
            self._id = None if self.id_text is None else _json.loads(self.id_text)
        value: Union[str, int, None] = self._id
        return value

    @property
    def id_key(self) -> Tuple[type, Any]:
        """(in Python, 1 is True)"""
        value = self.id
        return type(value), value

    @property
    def is_open(self) -> bool:
        """Whether it isn't answered yet."""
        return self.number in self.session._incoming.open

    @property
    def is_notification(self) -> bool:
        return self.id_text is None

    def call(self, method: str, params: Any = None, *, timeout: Optional[float] = None) -> Reply:
        """Call the other side on behalf of this request.

        In an `async def` it gives what is to be awaited; in a method with `thread=True` it blocks, and gives the
        result, as `call_and_wait` does. A plain function can't wait, so there it raises RuntimeError. The result is the
        reply's. An error of the reply is raised as `Error`; `Closed` is raised once the request is answered or
        cancelled, and `Unanswered` at the end of the input. A call that takes longer than `timeout` seconds is
        cancelled, and raises `TimedOut`.
        """
        reply: Reply = self.session._outgoing.call_one(method, params, self, timeout)
        return reply

    def call_and_wait(self, method: str, params: Any = None, *, timeout: Optional[float] = None) -> Any:
        """Call the other side in a method with `thread=True`: it blocks, and gives the result."""
        return self.session.call_and_wait(method, params, self, timeout=timeout)

    def call_batch(
        self, calls: Iterable[Said], return_exceptions: bool = False
    ) -> "asyncio.Future[List[Any]]":
        """Call the other side several times, in one message. The results come as a list, as with asyncio.gather."""
        replies: "asyncio.Future[List[Any]]"
        replies = self.session._outgoing.call_all(list(calls), self, return_exceptions)
        return replies

    def call_batch_and_wait(self, calls: Iterable[Said], return_exceptions: bool = False) -> List[Any]:
        """The same in a method with `thread=True`: it blocks, and gives the results."""
        return self.session.call_batch_and_wait(calls, return_exceptions, self)

    def notify(self, method: str, params: Any = None) -> None:
        """Send the other side a notification. Any thread may do that."""
        self.session._outgoing.notify_for(self, method, params)

    def in_thread(self, function: Callable[..., T], *given: Any, **named: Any) -> "asyncio.Future[T]":
        """Run any function in a thread of the session's own pool: gives what is to be awaited, or returned.

        One that hasn't begun when the request is cancelled never does.
        """
        return self.session.in_thread(function, *given, **named)

    def answer(self, result: Any = None) -> None:
        """Answer the request now, or later where its method returned LATER. Any thread may do that.

        Raises `NotOpen` where it is answered already, `Closed` where the session is over, and `NotJson` where the
        result has no JSON text. Where the other side has cancelled it, nothing happens.
        """
        self.session._incoming.answer_by_hand(self, result)

    def fail(self, error: Error) -> None:
        """Answer the request with an error, as `answer` does with a result."""
        self.session._incoming.answer_by_hand(self, error)
