"""How a tool server is reached over HTTP: settings, with their bounds."""
from __future__ import annotations

import dataclasses
from typing import TYPE_CHECKING, Callable, Optional, Sequence

from ._events import EventStore, MemoryEvents

if TYPE_CHECKING:
    from ._bearer import Bearer

#: The names by which a machine reaches itself.
LOCAL = ("localhost", "127.0.0.1", "[::1]")


@dataclasses.dataclass
class HttpSettings:
    """What `server.asgi(..)` may be given."""

    #: Whether nothing is kept from one POST to the next, so that any worker can answer any of them.
    stateless: bool = False
    #: "auto" answers a POST by JSON if its answer is there at once, and else by a stream; "json" always by JSON, and
    #: "stream" always by a stream.
    answers: str = "auto"
    #: The path, as "/mcp"; everything where it is None, as below a path of a framework's.
    path: Optional[str] = None
    #: The Origins that may call, as "https://example.com"; a browser's pages of this machine where it is None.
    origins: Optional[Sequence[str]] = None
    #: Whether pages of these Origins get the headers of CORS, so that a browser lets them call and read; False where
    #: something before the server gives them.
    cors: bool = True
    #: The names by which the server may be called, without their port; any where it is None.
    hosts: Optional[Sequence[str]] = None
    #: Who may call it, by a token.
    bearer: Optional[Bearer] = None
    #: What keeps the events of a session, so that a stream that broke can go on.
    events: Callable[[], EventStore] = MemoryEvents
    #: After how many seconds a stream's connection is closed, so that its client asks again (since 2025-11-25).
    poll: Optional[float] = None
    #: After how many seconds a client asks again.
    retry: float = 1.0

    #: How many bytes a body may have, and how many seconds it may take.
    body: int = 4 << 20
    body_seconds: float = 30.0
    #: How many sessions there may be, and for how many seconds one may stay unused.
    sessions: int = 1000
    session_seconds: float = 1800.0
    #: How many requests over HTTP there may be at once, and how many POSTs and GETs of one session.
    streams: int = 1000
    session_streams: int = 100
    #: How many bytes a client may leave unread on a stream, and for how many seconds it may read nothing.
    unread: int = 1 << 20
    unread_seconds: float = 30.0
    #: After how many seconds without an event a stream has a comment, so that a dead connection is found.
    ping: float = 15.0

    def __post_init__(self) -> None:
        if self.answers not in ("auto", "json", "stream"):
            raise ValueError(f'answers is "auto", "json" or "stream": {self.answers!r}')
        if self.path is not None and not self.path.startswith("/"):
            raise ValueError(f"a path begins with a slash: {self.path!r}")
        if isinstance(self.origins, str) or isinstance(self.hosts, str):
            raise TypeError("origins and hosts are lists of texts")
        for name in ("body", "sessions", "streams", "session_streams", "unread"):
            if getattr(self, name) < 1:
                raise ValueError(f"{name} is 1 at least: {getattr(self, name)!r}")
