"""Channels over asyncio's streams, and between two sessions in memory."""
from __future__ import annotations

import asyncio
import contextlib
from typing import TYPE_CHECKING, Any, List, Optional, Tuple

from ._channels import READ, TAKEN, WAITING, Channel
from ._log import log

if TYPE_CHECKING:
    from ._transport import Transport


class Streams(Channel):
    """A reader and a writer of asyncio's."""

    def __init__(
        self, reader: asyncio.StreamReader, writer: asyncio.StreamWriter, pauses: bool = True
    ) -> None:
        self._reader, self._writer = reader, writer
        self._pauses = pauses
        self._task: Optional["asyncio.Task[None]"] = None
        self._draining: Optional["asyncio.Task[None]"] = None
        self._resumed: Optional["asyncio.Future[None]"] = None
        self._is_broken = self._is_stopped = False

    def start(self, transport: Transport) -> None:
        self._transport = transport
        self._task = transport.loop.create_task(self._read())

    async def _read(self) -> None:
        try:
            while True:
                data = await self._reader.read(READ)
                if not data:
                    break
                self._transport.received(data)
                await self._until_resumed()
        except (OSError, EOFError):
            self._transport.input_ended(True)
        except asyncio.CancelledError:
            if not self._is_stopped:
                self._transport.input_ended(True)
            raise
        except (KeyboardInterrupt, SystemExit):
            raise
        except BaseException:
            log.exception("the reader failed")
            self._transport.input_ended(True)
        else:
            self._transport.input_ended(False)

    async def _until_resumed(self) -> None:
        while self._resumed is not None:
            await asyncio.wait({self._resumed})
        if self._pauses:
            while self._draining is not None:
                await asyncio.wait({self._draining})
            await self._writer.drain()

    def pause(self) -> None:
        self._resumed = self._transport.loop.create_future()

    def resume(self) -> None:
        if self._resumed is not None:
            self._resumed.set_result(None)
        self._resumed = None

    @property
    def is_idle(self) -> bool:
        return self._draining is None

    @property
    def waiting(self) -> int:
        size: Any = getattr(getattr(self._writer, "transport", None), "get_write_buffer_size", None)
        return 0 if size is None else int(size())

    def write(self) -> None:
        if self._is_broken or self._draining is not None:
            return
        self._put()
        if self.waiting > WAITING:
            self._draining = self._transport.loop.create_task(self._drain())

    def _put(self) -> None:
        """Hands over what there is, until much waits."""
        while self.waiting <= WAITING:
            data = self._transport.take(TAKEN)
            if not data:
                return
            if self._writer.is_closing():
                self._break()
                return
            self._writer.write(data)

    async def _drain(self) -> None:
        """Hands over more as the other side reads."""
        try:
            while self.waiting > WAITING:
                await self._writer.drain()
                if self.waiting > WAITING:
                    await asyncio.sleep(0.01)  # (it has other limits)
                self._put()
        except OSError:
            self._break()
        finally:
            self._draining = None
        self._transport.was_written()

    def _break(self) -> None:
        self._is_broken = True
        self._transport.broke()

    def stop(self) -> None:
        self._is_stopped = True
        if self._task is not None:
            self._task.cancel()

    def finish(self) -> None:
        with contextlib.suppress(OSError, RuntimeError, NotImplementedError):
            self._writer.write_eof()

    async def close(self, seconds: float) -> None:
        self.stop()
        if self._draining is not None:
            self._draining.cancel()
        with contextlib.suppress(OSError, RuntimeError):
            self._writer.close()
            try:
                await asyncio.wait_for(self._writer.wait_closed(), seconds)
            except asyncio.TimeoutError:
                self._writer.transport.abort()


class Memory(Channel):
    """Half of a pair in one loop: what one session writes, the other one receives."""

    is_near = True

    def __init__(self) -> None:
        self._transport: Optional[Transport] = None
        self._other: Optional[Memory] = None
        self._early: List[Optional[bytes]] = []  # (what came before this half was started; None is the end)
        self._is_stopped = self._is_finished = False

    @staticmethod
    def pair() -> Tuple[Memory, Memory]:
        one, other = Memory(), Memory()
        one._other, other._other = other, one
        return one, other

    def start(self, transport: Transport) -> None:
        self._transport = transport
        early, self._early = self._early, []
        for it in early:
            transport.loop.call_soon(self._receive, it)

    def write(self) -> None:
        assert self._transport is not None
        data = self._transport.take(TAKEN)
        while data:
            self._send(data)
            data = self._transport.take(TAKEN)

    def _send(self, data: Optional[bytes]) -> None:
        if self._transport is not None and self._other is not None:
            self._transport.loop.call_soon(self._other._receive, data)

    def _receive(self, data: Optional[bytes]) -> None:
        if self._is_stopped:
            return
        if self._transport is None:
            self._early.append(data)
        elif data is None:
            self._transport.input_ended(False)
        else:
            self._transport.received(data)

    def stop(self) -> None:
        self._is_stopped = True

    def finish(self) -> None:
        if not self._is_finished:
            self._is_finished = True
            self._send(None)

    async def close(self, seconds: float) -> None:
        self.stop()
        self.finish()
