"""A process that is examined, in surroundings of its own, and its end with all that it started."""
from __future__ import annotations

import contextlib
import os
import select
import shutil
import signal
import subprocess
import tempfile
import time
import uuid
from typing import Dict, Iterable, Iterator, List, Optional, Sequence

#: By this variable a process's children are known, also those that left its group. Its value begins with what all have
#: that were started here.
MARK = "BULLMYRTLE_EXAMINED"
_OURS = uuid.uuid4().hex
# How much is read at once, how much of its standard error is kept, and how long it has to end by itself and by SIGTERM.
_READ, _KEPT, _BY_ITSELF, _BY_SIGNAL = 1 << 16, 4096, 0.3, 0.5
_FOLDERS = {
    "HOME": "home",
    "TMPDIR": "tmp",
    "XDG_CACHE_HOME": "home/.cache",
    "XDG_CONFIG_HOME": "home/.config",
    "XDG_DATA_HOME": "home/.local/share",
    "XDG_STATE_HOME": "home/.local/state",
    "XDG_RUNTIME_DIR": "run",
}


class Folder:
    """A folder for one process: its home, its temporary files and where it works."""

    def __init__(self) -> None:
        self.path = tempfile.mkdtemp(prefix="examine-")
        self.work = os.path.join(self.path, "work")
        for it in ("work", *_FOLDERS.values()):
            os.makedirs(os.path.join(self.path, it), mode=0o700, exist_ok=True)

    def variables(self) -> Dict[str, str]:
        return {name: os.path.join(self.path, it) for name, it in _FOLDERS.items()}

    def remove(self) -> None:
        shutil.rmtree(self.path, ignore_errors=True)


class Process:
    """A command that runs, in a session of its own, so that it has no terminal to ask on."""

    def __init__(self, command: Sequence[str], folder: Folder, stdin: int, stdout: int) -> None:
        """Starts it. Raises OSError or ValueError where it can't be started."""
        self._mark = _OURS + uuid.uuid4().hex
        self._process = subprocess.Popen(
            list(command),
            stdin=stdin,
            stdout=stdout,
            stderr=subprocess.PIPE,
            bufsize=0,
            cwd=folder.work,
            env={**os.environ, **folder.variables(), MARK: self._mark},
            start_new_session=True,
        )
        self.stdin, self.stdout = self._process.stdin, self._process.stdout
        self._errors = self._process.stderr
        self.last = b""  #: what it wrote last to its standard error
        self.drained: List[int] = []  #: descriptors that are read and not listened to
        if self._errors is not None:
            self.drain(self._errors.fileno())

    def drain(self, descriptor: int) -> None:
        os.set_blocking(descriptor, False)
        self.drained.append(descriptor)

    def read_drained(self, descriptor: int) -> None:
        """Reads what is there, so that nobody waits who floods it."""
        with contextlib.suppress(BlockingIOError):
            try:
                data = os.read(descriptor, _READ)
            except BlockingIOError:
                raise
            except OSError:
                data = b""
            if not data:
                self.drained.remove(descriptor)
            self.last = (self.last + data)[-_KEPT:]

    @property
    def pid(self) -> int:
        return self._process.pid

    @property
    def status(self) -> Optional[int]:
        """Its status once it has ended, below 0 where a signal ended it."""
        return self._process.poll()

    def wait(self, seconds: float) -> Optional[int]:
        """Waits for its end, and gives its status, or None."""
        end = time.monotonic() + seconds
        poll = select.poll()
        for it in self.drained:
            poll.register(it, select.POLLIN)
        while self.status is None and time.monotonic() < end:
            for descriptor, _ in poll.poll(20):
                self.read_drained(descriptor)
                if descriptor not in self.drained:
                    poll.unregister(descriptor)
        return self.status

    def end(self) -> None:
        """Ends it and all that it started. What ignores SIGTERM is killed."""
        if self.wait(_BY_ITSELF) is None:
            self._signal(signal.SIGTERM)
            if self.wait(_BY_SIGNAL) is None:
                self._signal(signal.SIGKILL)
        self._signal(signal.SIGKILL)
        _kill(_marked(self._mark))
        self._process.wait()
        for stream in (self.stdin, self.stdout, self._errors):
            if stream is not None:
                with contextlib.suppress(OSError):
                    stream.close()

    def _signal(self, number: int) -> None:
        """To its group. (It may have ended, and its children may be there.)"""
        with contextlib.suppress(OSError):
            os.killpg(self._process.pid, number)


def end_all() -> None:
    """Ends whatever was started here and still runs.

    An interrupt may come when a process has begun, and before the code that starts it knows of it.
    """
    end = time.monotonic() + 5
    while _kill(_marked(_OURS)) and time.monotonic() < end:
        time.sleep(0.02)


def _kill(processes: Iterable[int]) -> int:
    """Kills them, and gives how many there were."""
    count = 0
    for pid in processes:
        with contextlib.suppress(OSError):
            os.kill(pid, signal.SIGKILL)
            count += 1
    return count


def _marked(mark: str) -> Iterator[int]:
    """The processes that run whose mark begins with this one, also those that left their group."""
    begin = f"{MARK}={mark}".encode()
    for name in os.listdir("/proc"):
        if name.isdigit():
            with contextlib.suppress(OSError), open(f"/proc/{name}/environ", "rb") as file:
                if any(it.startswith(begin) for it in file.read().split(b"\0")):
                    yield int(name)
