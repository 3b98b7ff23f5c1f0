"""A channel over descriptors that no loop can wait for, as pipes and terminals on Windows: a thread waits for each."""
from __future__ import annotations

import asyncio
import contextlib
import os
import queue
import threading
import time
from typing import TYPE_CHECKING, Any, Optional

from ._channels import READ, TAKEN, WAITING, Channel

if TYPE_CHECKING:
    from ._transport import Transport

# How long the thread that writes may take to end at least, in seconds, where all is written.
_END = 0.2


class Threaded(Channel):
    """Two descriptors of its own, each with a thread that reads or writes it, and that closes it at its end.

    A thread that waits for input ends once something comes: until then it keeps its descriptor, and what comes is lost.
    """

    is_near = True

    def __init__(self, source: Optional[int], sink: Optional[int], pauses: bool = True) -> None:
        self._source, self._sink = source, sink
        self._pauses = pauses
        # (the loop's thread sets these, and the threads read them)
        self._is_stopped = False
        self._may_read = threading.Semaphore(0)  # released once for each piece
        self._to_write: "queue.SimpleQueue[Optional[bytes]]" = queue.SimpleQueue()  # None is the end
        # (these are the loop's thread's alone)
        self._unwritten = 0
        self._is_held = self._is_paused = self._is_due = self._is_ending = False
        self._reader: Optional[threading.Thread] = None
        self._writer: Optional[threading.Thread] = None

    def start(self, transport: Transport) -> None:
        self._transport = transport
        self._loop = transport.loop
        if self._source is None or self._sink is None:
            self._loop.call_soon(transport.broke)
            return
        self._writer = threading.Thread(target=self._write_all, name="bullmyrtle-writing", daemon=True)
        self._reader = threading.Thread(target=self._read_all, name="bullmyrtle-reading", daemon=True)
        self._writer.start()
        self._reader.start()
        self._may_read.release()

    def _tell(self, what: Any, *words: Any) -> None:
        """Has something done on the loop's thread, as long as there is a loop."""
        with contextlib.suppress(RuntimeError):
            self._loop.call_soon_threadsafe(what, *words)

    # Reading

    def _read_all(self) -> None:
        source = self._source
        assert source is not None
        data, failed = b"x", False
        while data:
            self._may_read.acquire()
            if self._is_stopped:
                break
            try:
                data = os.read(source, READ)
            except OSError:
                data, failed = b"", True
            self._tell(self._came, data, failed)
        os.close(source)

    def _came(self, data: bytes, failed: bool) -> None:
        if self._is_stopped:
            return
        if not data:
            self._end(failed)
            return
        self._transport.received(data)
        self._is_due = True
        self._read_on()

    def _read_on(self) -> None:
        if self._is_due and not self._is_held and not self._is_paused:
            self._is_due = False
            self._may_read.release()

    def pause(self) -> None:
        self._is_held = True

    def resume(self) -> None:
        self._is_held = False
        self._read_on()

    def stop(self) -> None:
        self._is_stopped = True
        self._may_read.release()  # (so that its thread sees it)

    def _end(self, failed: bool) -> None:
        self.stop()
        self._transport.input_ended(failed)

    # Writing

    @property
    def is_idle(self) -> bool:
        return self._is_ending or not self._unwritten

    @property
    def waiting(self) -> int:
        return self._unwritten

    def write(self) -> None:
        while not self._is_ending and self._writer is not None and self._unwritten < TAKEN:
            data = self._transport.take(TAKEN)
            if not data:
                break
            self._unwritten += len(data)
            self._to_write.put(data)
        if self._pauses and self._transport.pending + self._unwritten > WAITING:
            self._is_paused = True

    def _write_all(self) -> None:
        sink = self._sink
        assert sink is not None
        while True:
            data = self._to_write.get()
            if data is None:
                break
            rest = memoryview(data)
            try:
                while rest:
                    rest = rest[os.write(sink, rest) :]
            except OSError:
                self._tell(self._break)
                break
            self._tell(self._wrote, len(data))
        os.close(sink)

    def _wrote(self, count: int) -> None:
        self._unwritten -= count
        self._transport.was_written()
        if self._is_paused and self._transport.pending + self._unwritten <= WAITING:
            self._is_paused = False
            self._read_on()

    def _break(self) -> None:
        self._close_sink()
        self.stop()
        self._transport.broke()

    def _close_sink(self) -> None:
        """No more is written than what the thread has."""
        if not self._is_ending:
            self._is_ending = True
            self._to_write.put(None)

    def finish(self) -> None:
        self.write()
        self._close_sink()

    async def close(self, seconds: float) -> None:
        self.stop()
        self._close_sink()
        end, nap = time.monotonic() + max(seconds, _END), 0.0005
        while self._writer is not None and self._writer.is_alive() and time.monotonic() < end:
            await asyncio.sleep(nap)
            nap = min(2 * nap, 0.02)
        for thread, descriptor in ((self._reader, self._source), (self._writer, self._sink)):
            if thread is None and descriptor is not None:
                os.close(descriptor)
        self._source = self._sink = None
