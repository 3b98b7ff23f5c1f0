"""A server's process, as its client has it: its streams, its status, and what it writes to its standard error."""
from __future__ import annotations

import asyncio
import contextlib
import os
import subprocess
import threading
from typing import IO, TYPE_CHECKING, Any, Callable, List, Literal, Mapping, Optional, Union

from . import _settings
from ._log import log
from ._system import WAITS

if TYPE_CHECKING or WAITS:
    from ._channels import Descriptors as _Base
else:
    from ._waiting import Threaded as _Base  # (which has the same hooks)

#: Where a server's standard error goes: "pass on" to that of this process, which keeps the last of it; "inherit", so
#: that nobody reads it; a file; or a function that takes bytes as they come.
StandardError = Union[Literal["pass on", "inherit"], IO[Any], Callable[[bytes], Any]]

# How much is read at once, how much of it is kept, and how long a process's end is waited for once its output ends.
_READ, _KEPT, _SECONDS = 1 << 16, 4096, 0.25
# How often it is read for what a process left in the pipe, which holds 64 KiB unless somebody makes it larger.
_READS = 32


def check_standard_error(given: Any) -> None:
    """Refuses what a server's standard error can't go to."""
    if given in ("pass on", "inherit") or callable(getattr(given, "fileno", None)) or callable(given):
        return
    _settings.refuse(
        "stderr", given, "there are 'pass on', 'inherit', a file, and a function that takes bytes"
    )


def _pass_on(data: bytes) -> None:
    """Writes to this process's standard error, where a child of it would write."""
    with contextlib.suppress(OSError):
        while data:
            data = data[os.write(2, data) :]


class _ErrorOutput:
    """What comes from a server's standard error: it is told as it comes, and the last of it is kept."""

    def __init__(self, descriptor: int, tell: Callable[[bytes], Any]) -> None:
        self._descriptor: Optional[int] = descriptor
        self._tell = tell
        self._is_told = True
        self.last = b""
        self._loop = asyncio.get_running_loop()
        if WAITS:
            os.set_blocking(descriptor, False)
            self._loop.add_reader(descriptor, self.read)
        else:
            threading.Thread(target=self._read_in_thread, args=(descriptor,), daemon=True).start()

    @property
    def is_over(self) -> bool:
        return self._descriptor is None

    def _read_in_thread(self, descriptor: int) -> None:
        """Where no loop can wait for it. The thread has the descriptor, and closes it: at its end, or with the next that
        comes once nobody reads any more."""
        data = b"x"
        while data and self._descriptor is not None:
            try:
                data = os.read(descriptor, _READ)
            except OSError:
                data = b""
            with contextlib.suppress(RuntimeError):
                self._loop.call_soon_threadsafe(self._came, data)
        os.close(descriptor)

    def _came(self, data: bytes) -> None:
        if data and self._descriptor is not None:
            self.last = (self.last + data)[-_KEPT:]
            self._say(data)
        else:
            self._descriptor = None

    def read(self) -> bool:
        """Reads what there is, up to a bound, and says whether there was anything."""
        if self._descriptor is None or not WAITS:
            return False
        try:
            data = os.read(self._descriptor, _READ)
        except BlockingIOError:
            return False
        except OSError:
            data = b""
        if not data:
            self.close()
            return False
        self.last = (self.last + data)[-_KEPT:]
        self._say(data)
        return True

    def read_what_is_there(self) -> None:
        """Reads what a process wrote before it ended. (A child of it may go on writing, and isn't waited for.)"""
        for _ in range(_READS):
            if not self.read():
                break

    async def all_read(self) -> None:
        """Reads what a process wrote before it ended. A thread that reads it is waited for, and not longer than the
        process's end is, since a child of that may have the other end, and stay."""
        self.read_what_is_there()
        if not WAITS:
            await _comes(lambda: self.is_over, _SECONDS)

    def _say(self, data: bytes) -> None:
        if not self._is_told:
            return
        try:
            self._tell(data)
        except Exception:
            self._is_told = False
            log.exception("what the server writes to its standard error isn't reported any more")

    def close(self) -> None:
        """Reads no more. (A child of the server may have the other end, and stay.)"""
        descriptor, self._descriptor = self._descriptor, None
        if descriptor is not None and WAITS:
            self._loop.remove_reader(descriptor)
            os.close(descriptor)


async def _comes(is_there: Callable[[], bool], seconds: float) -> bool:
    """Waits until something is so, and says whether it came in time."""
    loop = asyncio.get_running_loop()
    end, nap = loop.time() + seconds, 0.001
    while not is_there():
        if loop.time() >= end:
            return False
        await asyncio.sleep(nap)
        nap = min(2 * nap, 0.05)
    return True


class ServerProcess:
    """A process, the channel that leads to it, and what is known of its end."""

    def __init__(
        self,
        command: List[str],
        env: Optional[Mapping[str, str]],
        cwd: Any,
        stderr: StandardError,
    ) -> None:
        is_read = stderr == "pass on" or (callable(stderr) and not hasattr(stderr, "fileno"))
        error: Any = subprocess.PIPE if is_read else None if stderr == "inherit" else stderr
        pipe = subprocess.PIPE
        self.popen = subprocess.Popen(
            command, stdin=pipe, stdout=pipe, stderr=error, env=env, cwd=cwd, bufsize=0
        )
        source, sink = self._own(self.popen.stdout), self._own(self.popen.stdin)
        self._error: Optional[_ErrorOutput] = None
        if is_read:
            tell = _pass_on if stderr == "pass on" else stderr
            assert callable(tell)
            self._error = _ErrorOutput(self._own(self.popen.stderr), tell)
        self.channel = _Output(source, sink, self.ended)

    @staticmethod
    def _own(stream: Any) -> int:
        """A descriptor of ours in place of a stream. (The channel closes them, at different times.)"""
        descriptor = os.dup(stream.fileno())
        stream.close()
        return descriptor

    @property
    def status(self) -> Optional[int]:
        """What the process ended with."""
        return self.popen.poll()

    @property
    def last(self) -> bytes:
        """The last of what it wrote to its standard error."""
        return b"" if self._error is None else self._error.last

    async def ended(self, seconds: Optional[float] = None) -> bool:
        """Waits for the process's end, and for what it wrote before; says whether it came in time."""
        if not await _comes(lambda: self.popen.poll() is not None, _SECONDS if seconds is None else seconds):
            return False
        if self._error is not None:
            await self._error.all_read()
        return True

    def abandon(self) -> None:
        """Ends a process that no session has."""
        self.popen.kill()
        self.popen.wait()
        self.channel.abandon()
        if self._error is not None:
            self._error.close()

    async def close(self, grace: float) -> int:
        """Waits for the end, makes one where it doesn't come in time, and gives the status."""
        for end, name in ((None, ""), (self.popen.terminate, "terminated"), (self.popen.kill, "killed")):
            if end is not None:
                log.warning("the server didn't end within the grace of %g seconds, and is %s", grace, name)
                end()
            if await self.ended(grace):
                break
        status = self.popen.wait()
        if self._error is not None:
            self._error.read_what_is_there()
            self._error.close()
        return status


class _Output(_Base):
    """The channel to a process. At its end it waits a moment for the process's, so that the status can be told."""

    def __init__(self, source: int, sink: int, has_ended: Callable[[], Any]) -> None:
        super().__init__(source, sink, pauses=False)
        self._has_ended = has_ended
        self._waiting_for: Optional["asyncio.Task[None]"] = None

    def abandon(self) -> None:
        """Closes what no session has begun to read."""
        for it in (self._source, self._sink):
            if it is not None:
                os.close(it)
        self._source = self._sink = None

    def _end(self, failed: bool) -> None:
        self.stop()
        self._later(lambda: self._transport.input_ended(failed))

    def _break(self) -> None:
        self._close_sink()
        self.stop()
        self._later(self._transport.broke)

    def _later(self, tell: Callable[[], None]) -> None:
        async def wait() -> None:
            await self._has_ended()
            tell()

        if self._waiting_for is None:
            self._waiting_for = self._loop.create_task(wait())

    async def close(self, seconds: float) -> None:
        if self._waiting_for is not None:
            self._waiting_for.cancel()
        await super().close(seconds)
