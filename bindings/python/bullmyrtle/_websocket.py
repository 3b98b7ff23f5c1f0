"""A session's messages over a web socket, whichever library it is of."""
from __future__ import annotations

import asyncio
from collections import deque
from typing import TYPE_CHECKING, Any, Awaitable, Deque, Optional, Protocol, Union

from ._channels import Channel

if TYPE_CHECKING:
    from ._transport import Transport

# How much may wait to be sent until reading stops, in bytes.
_WAITING = 1 << 20
# The codes of a close that nobody is at fault of: it was meant, the page was left, or no code was given.
_CLEAN = (1000, 1001, 1005)
_ANY = 1 << 62


class WebSocket(Protocol):
    """What is needed of a web socket, as the library `websockets` has it."""

    def recv(self) -> Awaitable[Union[str, bytes]]:
        """The next message. At the end it raises something, or gives None."""

    def send(self, text: str) -> Awaitable[Any]:
        """Sends a message."""


def _is_clean(error: BaseException) -> bool:
    """Whether what `recv` raised says that the other side closed as it should."""
    if isinstance(error, (EOFError, StopAsyncIteration)):
        return True
    close: Any = getattr(error, "rcvd", None)
    return getattr(error if close is None else close, "code", None) in _CLEAN


class Messages(Channel):
    """The channel of a session in which each piece is one whole message."""

    def __init__(self, socket: WebSocket) -> None:
        self._socket = socket
        self._reading: Optional["asyncio.Task[None]"] = None
        self._writing: Optional["asyncio.Task[None]"] = None
        self._texts: Deque[bytes] = deque()
        self._waiting = 0
        self._is_broken = self._is_paused = False
        self._sent = asyncio.Event()  # (or paused no more)

    def start(self, transport: Transport) -> None:
        self._transport = transport
        self._reading = transport.loop.create_task(self._read())

    async def _read(self) -> None:
        try:
            while True:
                message = await self._socket.recv()
                if message is None:
                    break
                data = (
                    message.encode("utf-8", "surrogatepass") if isinstance(message, str) else bytes(message)
                )
                self._transport.received(data)
                while self._is_paused or (self._waiting > _WAITING and not self._is_broken):
                    self._sent.clear()
                    await self._sent.wait()
        except Exception as error:
            self._transport.input_ended(not _is_clean(error))
        else:
            self._transport.input_ended(False)

    def write(self) -> None:
        if self._is_broken:
            return
        text = self._transport.take(_ANY)
        while text:
            self._texts.append(text)
            self._waiting += len(text)
            text = self._transport.take(_ANY)
        if self._texts and self._writing is None:
            self._writing = self._transport.loop.create_task(self._write())

    async def _write(self) -> None:
        try:
            while self._texts:
                text = self._texts.popleft()
                await self._socket.send(text.decode())
                self._waiting -= len(text)
                self._sent.set()
        except Exception:
            self._is_broken = True
            self._texts.clear()
            self._sent.set()
            self._transport.broke()
        finally:
            self._writing = None
        self._transport.was_written()

    @property
    def is_idle(self) -> bool:
        return self._writing is None

    @property
    def waiting(self) -> int:
        return self._waiting

    def pause(self) -> None:
        self._is_paused = True

    def resume(self) -> None:
        self._is_paused = False
        self._sent.set()

    def stop(self) -> None:
        if self._reading is not None:
            self._reading.cancel()

    async def close(self, seconds: float) -> None:
        self.stop()
        if self._writing is not None:
            await asyncio.wait({self._writing}, timeout=seconds)
        if self._writing is not None:
            self._writing.cancel()
