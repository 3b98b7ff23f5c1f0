"""Whether the other side has nothing to do: then waiting longer shows nothing more."""
from __future__ import annotations

import os
import time
from typing import Callable, List, Optional, Tuple

# How often is looked, and the states of threads that have nothing to do: they sleep, or have ended. (Where the process
# itself has ended, nobody knows what it left.)
_PAUSE, _ASLEEP, _ENDED = 0.05, b"SIZ", b"Z"

#: What each thread has run so far.
Work = List[Tuple[str, bytes]]


class Idle:
    """How long a process, and all that it started, have slept with all read that was written to them."""

    def __init__(self, pid: int, is_read: Callable[[], bool]) -> None:
        self._pid, self._is_read = pid, is_read
        self._looked = self._since = time.monotonic()
        self._work: Optional[Work] = None

    @property
    def seconds(self) -> float:
        """0 where that isn't known, as on a system that doesn't tell it."""
        now = time.monotonic()
        if now - self._looked >= _PAUSE:
            self._looked = now
            work = _work_of(self._pid) if self._is_read() else None
            if work is None or work != self._work:
                self._work, self._since = work, now
        return self._looked - self._since


def _work_of(pid: int) -> Optional[Work]:
    """What was done so far by the threads of a process and of those that it started; None where one isn't asleep."""
    found: Work = []
    waiting = [str(pid)]
    try:
        while waiting:
            process = waiting.pop()
            for thread in os.listdir(f"/proc/{process}/task"):
                folder = f"/proc/{process}/task/{thread}"
                state = _read(f"{folder}/stat").rpartition(b") ")[2][:1]
                if state not in _ASLEEP or state == _ENDED and process == str(pid):
                    return None
                found.append((thread, _read(f"{folder}/schedstat")))
                waiting += _read(f"{folder}/children").decode().split()
    except OSError:  # (it ended meanwhile, or the system doesn't tell)
        return None
    return found


def _read(file: str) -> bytes:
    with open(file, "rb") as it:
        return it.read()
