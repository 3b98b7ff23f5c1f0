"""A client's channel to a tool server over HTTP."""
from __future__ import annotations

from typing import TYPE_CHECKING, Any, Callable, Optional

from .._channels import Channel
from .._settings import USUAL_CONTENT
from ._http_client import Http, http_of
from ._link import Link

if TYPE_CHECKING:
    from .._transport import Transport
    from .client import Given

_ANY = 1 << 62


def remote(url: str, httpx: Any, headers: Given, most: Optional[int]) -> Remote:
    """The channel to the server at a URL."""
    return Remote(http_of(url, httpx), headers, most)


class Remote(Channel):
    """The channel to a server."""

    def __init__(self, http: Http, headers: Given, most: Optional[int]) -> None:
        """With what makes requests, what headers they have besides, and how many bytes a message may have."""
        self._http, self._headers, self._most = http, headers, most or USUAL_CONTENT
        self._unsent = 0
        self._is_finished = False

    def start(self, transport: Transport) -> None:
        self._transport = transport
        self._link = Link(self._http, self._headers, self._most, self)

    # On the loop's thread

    def write(self) -> None:
        text = self._transport.take(_ANY)
        while text:
            self._unsent += 1
            self._link.send(text)
            text = self._transport.take(_ANY)

    @property
    def is_idle(self) -> bool:
        return not self._unsent

    def _was_sent(self) -> None:
        self._unsent -= 1
        if not self._unsent:
            self._transport.was_written()

    def finish(self) -> None:
        if not self._is_finished:
            self._is_finished = True
            self._link.finish()

    def stop(self) -> None:
        self._link.stop()

    async def close(self, seconds: float) -> None:
        self.finish()
        self.stop()

    # In threads

    def _soon(self, what: Callable[..., Any], *given: Any) -> None:
        try:
            self._transport.loop.call_soon_threadsafe(what, *given)
        except RuntimeError:  # (the loop is over)
            self._link.stop()

    def came(self, message: bytes) -> None:
        """As `Hears` has it."""
        self._soon(self._transport.received, message)

    def sent(self) -> None:
        """As `Hears` has it."""
        self._soon(self._was_sent)

    def over(self, is_lost: bool) -> None:
        """As `Hears` has it."""
        if is_lost:
            self._soon(self._transport.watch.because, "Lost")
        self._soon(self._transport.input_ended, is_lost)
