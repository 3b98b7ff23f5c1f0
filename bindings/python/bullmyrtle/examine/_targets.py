"""What is examined, and how a session with it begins: a command, an address, or a client that starts its server."""
from __future__ import annotations

import contextlib
import os
import shlex
import socket
import subprocess
import sys
import time
from typing import List, NamedTuple, Optional, Sequence, Union

from ._peer import Peer
from ._process import Folder, Process

_RELAY = os.path.join(os.path.dirname(os.path.abspath(__file__)), "_relay.py")
_PACKAGES = os.path.dirname(os.path.dirname(os.path.dirname(_RELAY)))
#: What stands in a client's command for that of its server.
SERVER = "{}"
# How long a pause is, and how much is told of what a client said.
_PAUSE, _SAID = 0.02, 300


class CanNotStart(Exception):
    """It can't be started or reached, and why."""

    def __init__(self, why: str, is_missing: bool = False) -> None:
        super().__init__(why)
        self.is_missing = is_missing  #: whether there is no such command


def _started(command: Sequence[str], folder: Folder, stdin: int, stdout: int) -> Process:
    try:
        return Process(command, folder, stdin, stdout)
    except (OSError, ValueError) as fault:
        is_missing = isinstance(fault, FileNotFoundError)
        raise CanNotStart(f"{command[0]} can't be started: {fault}", is_missing) from None


def placed(words: Sequence[str]) -> List[str]:
    """A command whose files are found from another working folder: words that have a dot or a slash, and that name what
    is there from here."""
    return [os.path.abspath(it) if set(it) & set("./") and os.path.exists(it) else it for it in words]


def is_url(address: Optional[str]) -> bool:
    """Whether an address is that of a tool server over HTTP."""
    return (address or "").startswith(("http://", "https://"))


def bridge_to(url: str) -> List[str]:
    """The command whose standard streams lead to a tool server over HTTP."""
    code = "import sys; sys.path.insert(0, sys.argv.pop(1)); from bullmyrtle.mcp._command import run; sys.exit(run())"
    return [sys.executable, "-c", code, _PACKAGES, url, "bridge"]


class Command(NamedTuple):
    """A server over its standard streams."""

    words: List[str]
    is_bridge: bool = False  #: whether these lead to a server elsewhere

    def open(self, seconds: float) -> Peer:
        folder = Folder()
        try:
            process = _started(self.words, folder, subprocess.PIPE, subprocess.PIPE)
        except CanNotStart:
            folder.remove()
            raise
        assert process.stdin is not None and process.stdout is not None
        peer = Peer(process.stdout.fileno(), process.stdin.fileno(), process, folder)
        peer.works_here = not self.is_bridge
        return peer


class Address(NamedTuple):
    """A server that listens, at HOST:PORT or at a path, and that may have a command by which it is started."""

    at: str
    words: List[str]

    def open(self, seconds: float) -> Peer:
        folder, process = Folder(), None
        try:
            if self.words:
                process = _started(self.words, folder, subprocess.DEVNULL, subprocess.PIPE)
                assert process.stdout is not None
                process.drain(process.stdout.fileno())
            joined = self._joined(time.monotonic() + (seconds if process else 0), process)
        except CanNotStart:
            if process is not None:
                process.end()
            folder.remove()
            raise
        return Peer(joined.fileno(), joined.fileno(), process, folder, joined)

    def _joined(self, end: float, process: Optional[Process]) -> socket.socket:
        while True:
            try:
                return self._connected()
            except OSError as fault:
                if time.monotonic() >= end or process is not None and process.status is not None:
                    raise CanNotStart(f"{self.at} can't be reached: {fault}") from None
            if process is not None:
                process.wait(_PAUSE)

    def _connected(self) -> socket.socket:
        host, _, port = self.at.rpartition(":")
        if port.isdigit() and "/" not in self.at:
            return socket.create_connection((host.strip("[]"), int(port)), timeout=5)
        joined = socket.socket(socket.AF_UNIX)
        try:
            joined.connect(self.at)
        except OSError:
            joined.close()
            raise
        return joined


class Client(NamedTuple):
    """A client, which starts its server by the command that stands in place of {}."""

    words: List[str]

    def open(self, seconds: float) -> Peer:
        folder = Folder()
        listening = socket.socket(socket.AF_UNIX)
        process = None
        try:
            place = os.path.join(folder.path, "socket")
            listening.bind(place)
            listening.listen()
            script = self._script(folder, place)
            words = [it.replace(SERVER, script) for it in self.words]
            process = _started(words, folder, subprocess.DEVNULL, subprocess.PIPE)
            assert process.stdout is not None
            process.drain(process.stdout.fileno())
            joined = self._accepted(listening, process, time.monotonic() + seconds)
        except (CanNotStart, OSError) as fault:
            if process is not None:
                process.end()
            folder.remove()
            raise fault if isinstance(fault, CanNotStart) else CanNotStart(str(fault)) from None
        finally:
            listening.close()
        return Peer(joined.fileno(), joined.fileno(), process, folder, joined)

    @staticmethod
    def _script(folder: Folder, place: str) -> str:
        """The server's command: one word, whatever the client makes of it."""
        script = os.path.join(folder.path, "server")
        words = shlex.join([sys.executable, "-I", "-S", _RELAY, place])
        with open(script, "w", encoding="utf-8") as file:
            file.write(f"#!/bin/sh\nexec {words}\n")
        os.chmod(script, 0o700)
        return script

    @staticmethod
    def _accepted(listening: socket.socket, process: Process, end: float) -> socket.socket:
        listening.setblocking(False)
        while True:
            with contextlib.suppress(BlockingIOError):
                return listening.accept()[0]
            if process.status is not None:
                said = process.last.decode(errors="replace").strip()[-_SAID:]
                why = f"the client ended with the status {process.status} and started no server"
                raise CanNotStart(f"{why}; it said: {said}" if said else why)
            if time.monotonic() >= end:
                raise CanNotStart("the client started no server: does its command have {}?")
            process.wait(_PAUSE)


Target = Union[Command, Address, Client]
