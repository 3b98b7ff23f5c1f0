"""What the system has to wait for streams with, and what it lacks.

The variable BULLMYRTLE_IO chooses less than there is, so that it can be tested on Linux: "plain" is asyncio's own loop
without epoll and /proc, as on macOS, and "threads" has a thread wait for each stream, as on Windows.
"""
from __future__ import annotations

import os
import select

_CHOSEN = os.environ.get("BULLMYRTLE_IO", "")

#: Whether a loop can wait for pipes and terminals.
WAITS = hasattr(select, "poll") and _CHOSEN != "threads"
#: Whether the loop may have a selector over epoll.
HAS_EPOLL = hasattr(select, "epoll") and not _CHOSEN
#: Where the descriptors of this process may be opened anew; "" is nowhere.
DESCRIPTORS = "/proc/self/fd" if not _CHOSEN and os.path.isdir("/proc/self/fd") else ""


def cant_drive(what: str) -> str:
    """Why this system can't do what stands between processes, as the judge's driver and the examiner do; "" if it can."""
    import signal  # (here, since a server without it starts sooner)

    needed = {"select.poll": select, "os.pipe2": os, "os.killpg": os, "signal.sigwaitinfo": signal}
    lacking = [name for name, module in needed.items() if not hasattr(module, name.partition(".")[2])]
    lacking += [] if DESCRIPTORS else ["/proc"]
    return f"{what} is for Linux: this system lacks {', '.join(lacking)}" if lacking else ""


def lock(descriptor: int, is_shared: bool = False) -> None:
    """Locks a file without waiting. Raises OSError where another one has it; where there are no such locks, does nothing."""
    try:
        import fcntl
    except ImportError:
        return
    fcntl.flock(descriptor, (fcntl.LOCK_SH if is_shared else fcntl.LOCK_EX) | fcntl.LOCK_NB)
