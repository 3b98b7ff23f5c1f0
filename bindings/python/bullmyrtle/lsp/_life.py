"""The life of one session with an editor: from `initialize` to `exit`, and what may come when."""
from __future__ import annotations

import contextvars

from .. import _lives
from .._hints import TYPE_CHECKING
from .._methods import Method
from .._request import Request
from ..errors import Error, INVALID_REQUEST
from .workspace import Workspace

if TYPE_CHECKING:
    from typing import Any, Dict, Optional

    from .progress import Progress

    Json = Dict[str, Any]
else:
    Any = object  # (the annotations of what is registered here are read)


SERVER_NOT_INITIALIZED = -32002
REQUEST_FAILED = -32803

NEW, STARTING, RUNNING, SHUT = "new", "starting", "running", "shut down"

#: The request that the code which runs now works on.
CURRENT: "contextvars.ContextVar[Optional[Request]]" = contextvars.ContextVar(
    "bullmyrtle request", default=None
)


def _refused(code: int, words: str) -> Method:
    def refuse(params: Any, request: Request) -> None:
        if not request.is_notification:
            raise Error(code, words)

    return Method("refused", refuse, False)


# (a notification that comes at the wrong time is dropped)
_EARLY = _refused(
    SERVER_NOT_INITIALIZED, "Server not initialized: initialize has to come first, and be answered"
)
_LATE = _refused(INVALID_REQUEST, "Invalid Request: the server is shut down, and only exit may come")


class Life(_lives.Life):
    """One session with an editor."""

    def __init__(self) -> None:
        super().__init__()
        self.state = NEW
        self.beginning = 0  # the number of the `initialize` that came last
        self.trace = "off"
        self.workspace = Workspace()
        self.progresses: Dict[Any, Progress] = {}  # those that the editor may cancel, by their tokens
        self.tokens = 0
        self.registered: Dict[str, str] = {}  # methods by the ids under which they were registered as it runs

    @property
    def is_begun(self) -> bool:  # type: ignore[override]
        return self.state is RUNNING

    def refused(self, name: str) -> Optional[Method]:
        if name == "exit" or (name == "initialize" and self.state is not SHUT):
            return None
        return _LATE if self.state is SHUT else _EARLY

    def new_token(self) -> str:
        self.tokens += 1
        return f"bullmyrtle-{self.tokens}"
