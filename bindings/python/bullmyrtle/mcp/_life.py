"""The life of one session with a host: what it agreed on, and what may come when."""
from __future__ import annotations

from typing import Any, Dict, Optional, Set

from .. import _lives
from .._middleware import raw
from .._methods import PLAIN, Method
from .._request import Request
from ..errors import INVALID_REQUEST, Error
from ._tasks import Tasks

Json = Dict[str, Any]

#: The versions of the protocol that are known, the newest first.
VERSIONS = ("2025-11-25", "2025-06-18", "2025-03-26", "2024-11-05")


def settings_of(given: Dict[str, Any]) -> Dict[str, Any]:
    """The settings of a server or a client: those that are given, with MCP's protocol where they say nothing of that."""
    says_nothing = not {"protocol", "framing", "cancel_by"} & given.keys()
    if says_nothing:
        return {"protocol": "mcp", **given}
    return {"framing": "lines", **given}


def _early(params: Any, request: Request) -> None:
    if not request.is_notification:
        raise Error(INVALID_REQUEST, "Invalid Request: initialize has to come first")


_EARLY = raw("early", _early, PLAIN)


class Life(_lives.Life):
    """One session with a host."""

    def __init__(self) -> None:
        super().__init__()
        self.is_begun = False  # `initialize` is answered
        self.is_ready = False  # and the host has said so
        self.version = VERSIONS[0]
        self.level = "info"
        self.subscribed: Set[str] = set()
        self.tasks = Tasks()
        self.has_tasks = False  # (as it was declared: tools that come later change nothing)
        self.elicitations: Set[str] = set()  # the ids of pages that its user was asked to open
        self.is_stateless = False  # nothing is kept from one message to the next

    def begin_stateless(self, version: Optional[str]) -> None:
        """Nothing is kept of it; with a version it needs no `initialize`."""
        self.is_stateless = True
        if version is not None:
            self.is_begun = self.is_ready = True
            self.version = version

    def refused(self, name: str) -> Optional[Method]:
        return None if name in ("initialize", "ping") else _EARLY

    def end(self) -> None:
        self.tasks.end()
