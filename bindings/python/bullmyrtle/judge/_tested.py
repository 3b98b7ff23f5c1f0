"""Tests that fail where a side broke a rule."""
from __future__ import annotations

import contextlib
import os
import sys
import tempfile
import time
from typing import Any, AsyncIterator, Callable, Collection, List, Optional, Sequence, Union

from .._streams import Memory
from .._system import cant_drive, lock
from ..client import Client
from ..server import Server
from ._judge import Finding
from ._lines import line_of
from ._recording import NoRecording, Recording
from ._rules import LEVELS, MUST
from ._talk import Talk

Word = Union[str, "os.PathLike[str]"]
# How long a driver has to end when the test has.
_SECONDS = 10.0
# Runs the command of this very package, wherever it lies.
_CODE = "import sys; sys.path.insert(0, {!r}); from bullmyrtle.judge._command import run; run()"
_FOLDER = os.path.dirname(os.path.dirname(os.path.dirname(os.path.abspath(__file__))))


class Broke(AssertionError):
    """A side broke a rule. `findings` has what counted."""

    def __init__(self, findings: List[Finding], rules: str) -> None:
        lines = "\n".join(f"  {line_of(it, rules)}" for it in findings)
        super().__init__(f"{len(findings)} findings of the judge:\n{lines}")
        self.findings = findings


class judged:
    """Judges a conversation in a test, which fails with `Broke` where a side broke a rule.

    Of a server that is a process, anyone who talks to it:

    >>> with judged(["pylsp"]) as command:
    ...     client = start_with(command)

    Of a server in memory, with a client that is joined to it as by `joined`:

    >>> async with judged(server) as client:
    ...     assert await client.call("add", [1, 2]) == 3
    """

    def __init__(
        self,
        server: Union[Server, Sequence[Word]],
        *,
        client: Optional[Client] = None,
        rules: Optional[str] = None,
        framing: Optional[str] = None,
        level: str = MUST,
        besides: Collection[str] = (),
        sides: Collection[str] = ("client", "server"),
    ) -> None:
        """What is judged.

        server -- a server's command, or a `Server`
        client -- your own client for a `Server`
        rules -- "jsonrpc", "lsp", "mcp", or "mcp:" and a version; "lsp" where the server has no protocol of its own
            that says it ("jsonrpc" for a `Server` without one)
        framing -- "frames" or "lines", where it isn't that of the server's, or of the rules
        level -- how bad it must be to count: "must"; "should", which has those of must too; or "note", which has all
        besides -- the rules that don't count
        sides -- whose findings count
        """
        self._server, self._client = server, client
        protocol = getattr(server, "_protocol", None)
        default = "jsonrpc" if isinstance(server, Server) else "lsp"
        self._rules = rules or protocol or default
        if framing is None and isinstance(server, Server):
            framing = server._settings["framing"]
        self._framing = framing or ("lines" if self._rules.startswith("mcp") else "frames")
        self._levels = LEVELS[: LEVELS.index(level) + 1]
        self._besides, self._sides = besides, sides
        #: All that was found, when the block is left.
        self.findings: List[Finding] = []
        self._room: Optional[Any] = None
        self._joined: Optional[Any] = None

    def _counted(self) -> List[Finding]:
        return [
            it
            for it in self.findings
            if it.level in self._levels and it.side in self._sides and it.rule not in self._besides
        ]

    def _check(self) -> None:
        counted = self._counted()
        if counted:
            raise Broke(counted, self._rules)

    # A process

    def __enter__(self) -> List[str]:
        if isinstance(self._server, Server):
            raise TypeError("a Server in memory is judged by `async with judged(server)`")
        why = cant_drive("the judge's driver")
        if why:
            raise OSError(f"{why}. A Server in memory is judged everywhere")
        self._room = tempfile.TemporaryDirectory()
        self._file = os.path.join(self._room.name, "talk.record")
        ways = ["--rules", self._rules, f"--{self._framing}", "--record", self._file]
        return [*_runner(), *ways, "--", *(os.fspath(it) for it in self._server)]

    def __exit__(self, kind: Any, *_: Any) -> None:
        assert self._room is not None
        with self._room:
            if kind is None:
                self._read()
                self._check()

    def _read(self) -> None:
        """Judges what was recorded, when the driver has ended."""
        try:
            file = open(self._file, "rb")
        except OSError:
            raise AssertionError("nothing was judged: the command was never run") from None
        with file:
            _wait_for(file.fileno())
            talk = Talk(self._rules, self._framing)
            try:
                for it in Recording(file):
                    self.findings += talk.ended(it.side, it.ended) if it.ended else talk.saw(it.side, it.data)
            except NoRecording as fault:
                raise AssertionError(f"the recording isn't whole: {fault}") from None
            finally:
                talk.close()

    # In memory

    async def __aenter__(self) -> Client:
        if not isinstance(self._server, Server):
            raise TypeError("a server's command is judged by `with judged(command)`")
        talk = Talk(self._rules, self._framing)

        def told(side: str, data: Optional[bytes]) -> None:
            self.findings += talk.ended(side) if data is None else talk.saw(side, data)

        self._joined = joined_by(self._server, self._client, Tapped.pair_of(told))
        client: Client = await self._joined.__aenter__()
        return client

    async def __aexit__(self, *how: Any) -> None:
        assert self._joined is not None
        await self._joined.__aexit__(*how)
        if how[0] is None:
            self._check()


def _runner() -> List[str]:
    return [sys.executable, "-c", _CODE.format(_FOLDER)]


def _wait_for(descriptor: int) -> None:
    """Waits until nobody writes the recording any more. (Who writes it has it locked.)"""
    end = time.monotonic() + _SECONDS
    while True:
        try:
            lock(descriptor, is_shared=True)
            return
        except OSError:
            if time.monotonic() >= end:
                raise AssertionError(f"the server didn't end within {_SECONDS:g} seconds") from None
            time.sleep(0.01)


class Tapped(Memory):
    """Half of a pair whose bytes are told."""

    side = ""
    told: Callable[[str, Optional[bytes]], None]

    @staticmethod
    def pair_of(told: Callable[[str, Optional[bytes]], None]) -> Any:
        """The client's half, and the server's."""
        pair = Tapped(), Tapped()
        for it, other, side in ((pair[0], pair[1], "client"), (pair[1], pair[0], "server")):
            it._other, it.side, it.told = other, side, told
        return pair

    def _send(self, data: Optional[bytes]) -> None:
        self.told(self.side, data)
        super()._send(data)


@contextlib.asynccontextmanager
async def joined_by(server: Server, client: Optional[Client], pair: Any) -> AsyncIterator[Client]:
    """A client that is joined to a server by these halves, the client's first."""
    import asyncio

    if client is None:
        client = Client(
            protocol=server._protocol, **server._settings, cancel_by=server._cancel_by, digits=server._digits
        )
    ours, theirs = pair
    serving = asyncio.ensure_future(server.serve_over(theirs))
    client.attach(ours)
    await asyncio.sleep(0)  # (the server's session begins)
    try:
        yield client
    finally:
        await client.close()
        await serving
