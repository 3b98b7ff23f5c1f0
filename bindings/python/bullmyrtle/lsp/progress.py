"""Work-done progress and partial results, as context managers that end when they are cancelled."""
from __future__ import annotations

from _thread import get_ident

from .._hints import TYPE_CHECKING
from .._request import Request
from ..errors import Closed, Error

if TYPE_CHECKING:
    import asyncio
    from typing import Any, Dict, List, Optional

    from ._life import Life
    from .server import LanguageServer

    Json = Dict[str, Any]


class Progress:
    """Work that the editor shows, and that its user may cancel.

    >>> async with ls.progress("Indexing", params, cancellable=True) as progress:
    ...     for at, it in enumerate(files):
    ...         progress.report(it, 100 * at // len(files))

    Its token is that of the request, where the editor gave one, or one that the editor is asked to make. Where the
    editor has no progress, nothing is sent. Where the user cancels it, the block ends at its next `await`, or in a thread
    at its next `report`, and the code behind the block goes on: `progress.is_cancelled` tells.
    """

    def __init__(
        self, server: LanguageServer, life: Life, request: Optional[Request], token: Any, begin: Json
    ) -> None:
        self._server, self._life, self._request, self._begin = server, life, request, begin
        self._is_clients = token is not None
        self.token = token
        self.is_cancelled = False
        self._is_shown = False
        self._task: Optional["asyncio.Task[Any]"] = None
        self._loop: Optional[asyncio.AbstractEventLoop] = None

    # How it begins and ends

    def _makes_token(self) -> bool:
        return self.token is None and bool(self._life.client_has("window.workDoneProgress"))

    async def __aenter__(self) -> Progress:
        import asyncio

        self._loop, self._task = asyncio.get_running_loop(), asyncio.current_task()
        if self._makes_token():
            token = self._life.new_token()
            try:
                await self._server.call("window/workDoneProgress/create", {"token": token})
            except Error:
                return self  # (the editor doesn't want it)
            self.token = token
        self._show()
        return self

    async def __aexit__(self, kind: Any, error: Any, trace: Any) -> bool:
        import asyncio

        self._end()
        if kind is not asyncio.CancelledError or not self.is_cancelled or self._is_over():
            return False
        uncancel = getattr(self._task, "uncancel", None)  # (Python 3.11 on has it)
        if uncancel is not None:
            uncancel()
        return True

    def __enter__(self) -> Progress:
        if self._makes_token():
            if get_ident() == self._server_thread():
                raise RuntimeError(
                    "this would block the loop: write `async with` in an `async def`, or thread=True"
                )
            token = self._life.new_token()
            try:
                self._server.call("window/workDoneProgress/create", {"token": token})
            except Error:
                return self
            self.token = token
        self._show()
        return self

    def __exit__(self, kind: Any, error: Any, trace: Any) -> bool:
        self._end()
        return kind is _Cancelled

    def _show(self) -> None:
        if self.token is None:
            return
        self._is_shown = True
        if not self._is_clients:
            self._life.progresses[self.token] = self
        self._send({"kind": "begin", **self._begin})

    def _end(self) -> None:
        self._life.progresses.pop(self.token, None)
        if self._is_shown:
            self._send({"kind": "end", **({"message": "cancelled"} if self.is_cancelled else {})})
        self._is_shown = False

    def _is_over(self) -> bool:
        """Whether its request is over: then a token that came with it has no meaning any more."""
        request = self._request
        return request is not None and (request.is_cancelled or not request.is_open)

    def _send(self, value: Json) -> None:
        if self._is_clients and self._is_over():
            return
        assert self._life.session is not None
        self._life.session.notify("$/progress", {"token": self.token, "value": value})

    # What happens between

    def report(self, message: Optional[str] = None, percentage: Optional[int] = None) -> None:
        """Tell how far it is. Any thread may do that."""
        if self._task is None and self.is_cancelled:
            raise _Cancelled("the progress is cancelled")
        if self._is_shown:
            about: Json = {} if message is None else {"message": message}
            if percentage is not None:
                about["percentage"] = percentage
            self._send({"kind": "report", **about})

    def cancel(self) -> None:
        """End it, as when the user of the editor cancels it."""
        self.is_cancelled = True
        if self._task is not None and not self._task.done():
            if get_ident() == self._server_thread():
                self._task.cancel()
            elif self._loop is not None:
                self._loop.call_soon_threadsafe(self._task.cancel)

    def _server_thread(self) -> int:
        assert self._life.session is not None
        return self._life.session._transport.thread


class _Cancelled(Closed):
    """What ends a block in a thread."""


class Partial:
    """A result that is sent in parts, if the editor asked for that.

    >>> async with ls.partial(params) as partial:
    ...     for it in files:
    ...         partial.send(references_in(it))
    ... return partial.result

    `result` is empty where the parts were sent, and else has all of them.
    """

    def __init__(self, life: Life, request: Optional[Request], token: Any) -> None:
        self._life, self._request, self.token = life, request, token
        self.result: List[Any] = []

    def send(self, items: List[Any]) -> None:
        """Tell some more items of the result. Any thread may do that. Raises `Closed` once the request is over."""
        if self.token is None:
            self.result += items
            return
        request = self._request
        if request is not None and (request.is_cancelled or not request.is_open):
            raise Closed("the request is over")
        assert self._life.session is not None
        self._life.session.notify("$/progress", {"token": self.token, "value": items})

    def __enter__(self) -> Partial:
        return self

    def __exit__(self, *_: object) -> None:
        pass

    async def __aenter__(self) -> Partial:
        return self

    async def __aexit__(self, *_: object) -> None:
        pass
