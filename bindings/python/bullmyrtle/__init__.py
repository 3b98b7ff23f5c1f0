"""Bullmyrtle: a JSON-RPC 2.0 peer whose protocol is proved, for language servers, tool servers and their clients.

`Server` and `Client` take methods by decorator and run in an event loop. Below them stands `Connection`: one end of a
conversation without input, output and threads.
"""
import os as _os
import sys as _sys

_machine = _os.uname().machine if hasattr(_os, "uname") else _os.environ.get("PROCESSOR_ARCHITECTURE", "")
_is_known = _sys.platform.startswith(("linux", "darwin", "win32"))
if not (_is_known and _machine.lower() in ("x86_64", "amd64", "aarch64", "arm64") and _sys.maxsize > 2**32):
    raise ImportError(
        "bullmyrtle is for Linux, macOS and Windows on x86-64 and arm64, in a 64-bit Python; "
        f"this is {_sys.platform} on {_machine or 'another machine'}, with {64 if _sys.maxsize > 2**32 else 32} bits"
    )

TYPE_CHECKING = False
if TYPE_CHECKING:
    from . import events
    from ._ends import End
    from ._reply import Reply
    from ._request import LATER, Request
    from ._session import Session
    from ._signatures.marks import method
    from .client import Client
    from .connection import Connection, Counts
    from .errors import (
        BadSettings,
        Closed,
        Empty,
        Error,
        Full,
        InputOver,
        InvalidParams,
        LibraryError,
        NoMemory,
    )
    from .errors import NotJson, NotOpen, NotText, NotWaiting, Refused, TimedOut, Unanswered
    from .server import Server

__version__ = "0.3.0"
__all__ = [
    "LATER",
    "BadSettings",
    "Client",
    "Closed",
    "Connection",
    "Counts",
    "Empty",
    "End",
    "Error",
    "Full",
    "InputOver",
    "InvalidParams",
    "LibraryError",
    "NoMemory",
    "NotJson",
    "NotOpen",
    "NotText",
    "NotWaiting",
    "Refused",
    "Reply",
    "Request",
    "Server",
    "Session",
    "TimedOut",
    "Unanswered",
    "events",
    "method",
]

# Where the names of a module are; those that aren't here are exceptions. A server never imports what is a client's.
_PLACES = {
    "End": "_ends",
    "method": "_signatures.marks",
    "Reply": "_reply",
    "LATER": "_request",
    "Request": "_request",
    "Session": "_session",
    "Client": "client",
    "Connection": "connection",
    "Counts": "connection",
    "Server": "server",
}
_MODULES = ("client", "connection", "errors", "events", "server")


def __getattr__(name: str) -> object:
    """What is asked for first: each module is imported when a name of it is needed."""
    if name in _MODULES:
        return __import__(f"{__name__}.{name}", fromlist=[name])
    if name not in __all__:
        raise AttributeError(f"module {__name__!r} has no attribute {name!r}")
    module = __import__(f"{__name__}.{_PLACES.get(name, 'errors')}", fromlist=[name])
    value: object = getattr(module, name)
    globals()[name] = value
    return value
