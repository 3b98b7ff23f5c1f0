"""The exceptions of the package."""
from __future__ import annotations

from ._hints import TYPE_CHECKING

if TYPE_CHECKING:
    from typing import Any, Optional

PARSE_ERROR = -32700
INVALID_REQUEST = -32600
METHOD_NOT_FOUND = -32601
INVALID_PARAMS = -32602
INTERNAL_ERROR = -32603
REQUEST_CANCELLED = -32800
TOO_MANY_OPEN = -32000


class Error(Exception):
    """A JSON-RPC error.

    Raise one in a method to answer its request with this code, message and data. A call whose reply is an error raises
    one too; where the method doesn't catch it, its own request gets the same error.
    """

    def __init__(self, code: int, message: str = "", data: Any = None) -> None:
        super().__init__(code, message, data)
        self.code = code
        self.message = message
        self.data = data

    def __str__(self) -> str:
        return f"{self.message} ({self.code})"


class InvalidParams(Error):
    """The error -32602: raise it in a method whose params don't fit."""

    def __init__(self, message: str = "Invalid params", data: Any = None) -> None:
        super().__init__(INVALID_PARAMS, message, data)

    def __reduce__(self) -> Any:
        return type(self), (self.message, self.data)


class Closed(Exception):
    """What was called or awaited is over: its request is answered or cancelled, or its connection is closed."""


class Unanswered(Exception):
    """The input is over, so this call gets no reply any more."""


class TimedOut(TimeoutError):
    """An outgoing request had no response within its `timeout`, and the other side is told that it isn't wanted any more."""


class LibraryError(ImportError):
    """The extension isn't there, or isn't the one that this package is for."""


class Refused(Exception):
    """A connection refused what it was told to do, and nothing has changed."""

    reason = "refused"

    def __init__(self, reason: Optional[str] = None) -> None:
        super().__init__(reason or self.reason)


class NoMemory(Refused, MemoryError):
    """There was no memory for it. The same may be tried again."""

    reason = "memory was refused"


class NotOpen(Refused):
    """There is no call of this number that is still to be answered."""

    reason = "no call of this number is open"


class NotWaiting(Refused):
    """There is no call of this key that could be withdrawn."""

    reason = "no call of this key waits, or it is withdrawn already"


class InputOver(Refused):
    """The input is over, so nothing can be fed, ended or called any more."""

    reason = "the input is over"


class NotJson(Refused, ValueError):
    """A text isn't JSON, or nests too deep, or params are neither an array nor an object."""

    reason = "no JSON value of at most 120 levels, or params that are neither an array nor an object"


class NotText(Refused, ValueError):
    """A method's name or an error's message can't be written as UTF-8."""

    reason = "a text that isn't UTF-8"


class BadSettings(Refused, ValueError):
    """There are no such settings."""

    reason = "there are no such settings"


class Empty(Refused, ValueError):
    """A batch of no calls."""

    reason = "a batch of no calls"


class Full(Refused):
    """A connection can make no more calls than 2^53 - 1."""

    reason = "no more calls can be made"
