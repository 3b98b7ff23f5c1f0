"""A client: it starts a server, calls it, and answers what the server calls back."""
from __future__ import annotations

import asyncio
import os
import shlex
from typing import Any, List, Mapping, NoReturn, Optional, Sequence, Union

from ._channels import Channel
from ._json import DIGITS
from ._peer import BY_FRAMING, CancelBy, Errors, Framing, OnBroken, Peer
from ._process import ServerProcess, StandardError, check_standard_error
from ._protocols import ProtocolName
from ._streams import Streams
from ._trace import Trace
from .connection import Order

Word = Union[str, "os.PathLike[str]"]

_ANOTHER = "A Client has one server in its life: make another Client for another one"


def _words(command: Any) -> List[str]:
    """The words of a command. Raises TypeError for what is a single one."""
    if isinstance(command, (str, bytes, os.PathLike)):
        line = os.fsdecode(os.fspath(command))
        try:
            words = [line] if isinstance(command, os.PathLike) else shlex.split(line)
        except ValueError:
            words = [line]
        raise TypeError(f"the command is a list of words. Write Client({words!r})")
    try:
        words = list(command)
    except TypeError:
        raise TypeError(f"the command is a list of words, and not {command!r}") from None
    for it in words:
        if not isinstance(it, (str, os.PathLike)):
            raise TypeError(f"the command's words are strings. Write str({it!r}) in place of {it!r}")
    if not words:
        raise ValueError("the command has no words. Without a command, write Client() and connect it")
    return [os.fspath(it) for it in words]


class Client(Peer):
    """A client, which starts a server process and ends it.

    >>> async def main():
    ...     async with Client(["python3", "server.py"]) as client:
    ...         print(await client.call("add", [1, 2]))
    """

    _is_client = True

    def __init__(
        self,
        command: Optional[Sequence[Word]] = None,
        *,
        env: Optional[Mapping[str, str]] = None,
        cwd: Optional[Word] = None,
        stderr: StandardError = "pass on",
        protocol: Optional[ProtocolName] = None,
        framing: Optional[Framing] = None,
        order: Order = "as-answered",
        cancel_by: Optional[CancelBy] = BY_FRAMING,
        content: Optional[int] = None,
        calls: Optional[int] = None,
        grace: float = 5.0,
        workers: Optional[int] = None,
        digits: int = DIGITS,
        open: Optional[int] = None,
        trace: Optional[Trace] = None,
        on_broken: Optional[OnBroken] = None,
        errors: Optional[Errors] = None,
        **unknown: NoReturn,
    ) -> None:
        """Make a client of the server that a command starts; the other settings are those of a server.

        command -- the words of the command; without it, `connect` gives the client its server
        env, cwd -- the server's environment and working folder, where they aren't those of this process
        stderr -- where the server's standard error goes: "pass on" to that of this process as it comes, which keeps the
            last 4,096 bytes for what is said at the end; "inherit", so that nobody reads it; a file; or a function that
            takes bytes
        """
        super().__init__(
            protocol=protocol,
            framing=framing,
            order=order,
            cancel_by=cancel_by,
            content=content,
            calls=calls,
            grace=grace,
            workers=workers,
            digits=digits,
            open=open,
            trace=trace,
            on_broken=on_broken,
            errors=errors,
            **unknown,
        )
        check_standard_error(stderr)
        self._command = None if command is None else _words(command)
        self._env, self._cwd, self._stderr = env, cwd, stderr
        self._process: Optional[ServerProcess] = None
        self._serving: Optional["asyncio.Task[int]"] = None
        self._is_entered = False

    async def __aenter__(self) -> Client:
        if self._is_entered:
            raise RuntimeError(f"`async with` has had this client already. {_ANOTHER}")
        self._is_entered = True
        if self._command is not None and self._serving is None:
            self.start()
        return self

    async def __aexit__(self, *_: object) -> None:
        await self.close()

    def __enter__(self) -> NoReturn:
        raise TypeError("write `async with client:`, in an `async def`")

    def __exit__(self, *_: object) -> None:
        """(so that `with` gets as far as to what it is told)"""

    def start(self) -> None:
        """Start the server; to be called in a running event loop."""
        if self._command is None:
            raise ValueError("there is no command that starts a server")
        self._check_that_it_is_new()
        try:
            asyncio.get_running_loop()
        except RuntimeError:
            raise RuntimeError("no event loop runs here: call start() in an `async def`") from None
        self._process = ServerProcess(self._command, self._env, self._cwd, self._stderr)
        try:
            self.attach(self._process.channel)
        except BaseException:
            self._process.abandon()
            raise

    def connect(self, reader: asyncio.StreamReader, writer: asyncio.StreamWriter) -> None:
        """Use a reader and a writer that lead to a server."""
        self._check_that_it_is_new()
        self.attach(Streams(reader, writer, pauses=False))

    def attach(self, channel: Channel, **other: Any) -> None:
        """Use a channel that leads to a server; `other` settings take the place of the client's."""
        self._check_that_it_is_new()
        session = self._session_over(channel, **other)
        session.watch.process = self._process
        session._transport.begin()
        self._serving = asyncio.ensure_future(self._serve(session))

    def _check_that_it_is_new(self) -> None:
        if self._serving is not None:
            raise RuntimeError(f"the client has a server already. {_ANOTHER}")

    def _nothing_runs(self) -> str:
        if self._serving is not None:
            return super()._nothing_runs()
        if self._command is None:
            return "the client has no server yet. Write client.connect(reader, writer) first"
        return "the server isn't started yet. Write `async with client:` around what the client does"

    @property
    def pid(self) -> Optional[int]:
        """The server's process."""
        return None if self._process is None else self._process.popen.pid

    async def close(self) -> Optional[int]:
        """End the input of the server, wait for it, and give its status where it is a process.

        One that doesn't end within the grace is terminated, and then killed.
        """
        if self._serving is not None:
            for session in list(self._sessions):
                session._transport.finish()
            await self._wait_for_input()
        if self._process is None:
            return None
        return await self._process.close(self._grace)

    async def _wait_for_input(self) -> None:
        assert self._serving is not None
        await asyncio.wait({self._serving}, timeout=self._grace)
        if not self._serving.done():
            for session in list(self._sessions):
                session.stop(1, grace=0)
            await asyncio.wait({self._serving}, timeout=1)
        if self._serving.done() and not self._serving.cancelled():
            self._serving.exception()
