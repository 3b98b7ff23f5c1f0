"""Servers of a protocol whose sessions begin by `initialize`: what is known of each, and what may be called when."""
from __future__ import annotations

from ._hints import TYPE_CHECKING
from ._methods import Methods
from .server import Server

if TYPE_CHECKING:
    from typing import Any, Dict, Optional, Type

    from ._methods import Method
    from ._request import Request
    from ._session import Session

    Json = Dict[str, Any]


class Life:
    """One session, from its beginning to its end."""

    #: Whether whatever is registered may be called.
    is_begun: bool = False

    def __init__(self) -> None:
        self.session: Optional[Session] = None
        self.params: Json = {}  # of `initialize`

    @property
    def client_capabilities(self) -> Json:
        found = self.params.get("capabilities")
        return found if isinstance(found, dict) else {}

    def client_has(self, path: str) -> Any:
        """A capability of the other side's, as "window.workDoneProgress"; None where it has none."""
        return at(self.client_capabilities, path)

    def refused(self, name: str) -> Optional[Method]:
        """What answers a call in the place of its method, where that may not be called now."""
        raise NotImplementedError

    def end(self) -> None:
        """The session is over."""


def at(value: Any, path: str) -> Any:
    """A member of a member, as "window.workDoneProgress"; None where there is none."""
    for name in path.split("."):
        value = value.get(name) if isinstance(value, dict) else None
    return value


class Gate(Methods):
    """The methods of a server as one session may call them now."""

    def __init__(self, methods: Methods, life: Life) -> None:
        super().__init__()
        self._all = methods
        self.life = life

    def get(self, name: str, default: Any = None) -> Any:
        if self.life.is_begun:
            return self._all.get(name)
        return self.life.refused(name) or self._all.get(name)

    def otherwise(self, name: str) -> Optional[Method]:
        return self._all.otherwise(name)


class LivingServer(Server):
    """A server that knows of each session what was agreed on."""

    #: What a session's life is made of.
    _Life: Type[Life]

    def __init__(self, **settings: Any) -> None:
        super().__init__(**settings)
        self._lives: Dict[Session, Any] = {}

    def _table(self) -> Methods:
        return Gate(self._methods, self._Life())

    def _began(self, session: Session, table: Methods) -> None:
        assert isinstance(table, Gate)
        table.life.session = session
        self._lives[session] = table.life

    async def _serve(self, session: Session) -> int:
        try:
            return await super()._serve(session)
        finally:
            life: Optional[Life] = self._lives.pop(session, None)
            if life is not None:
                life.end()

    def _life_of(self, request: Request) -> Any:
        return self._lives[request.session]
