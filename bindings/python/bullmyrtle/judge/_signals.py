"""Signals that come to the driver are for the server."""
from __future__ import annotations

import contextlib
import os
import signal
import subprocess
import threading
from typing import Optional

_NAMES = ("SIGINT", "SIGTERM", "SIGHUP", "SIGQUIT", "SIGUSR1", "SIGUSR2")
_PASSED = tuple(getattr(signal, it) for it in _NAMES if hasattr(signal, it))
# What a terminal sends comes from the kernel, and to all of its processes: the server has it already.
_FROM_KERNEL = 0x80


class Signals:
    """Passes signals on, from a thread of its own, so that nothing that the driver does holds them up."""

    def __init__(self) -> None:
        """From here on signals wait until there is a server."""
        self.wake, self._wakes = os.pipe2(os.O_CLOEXEC | os.O_NONBLOCK)  # (read to be woken)
        self._waited = {*_PASSED, signal.SIGCHLD}
        self._before = signal.pthread_sigmask(signal.SIG_BLOCK, self._waited)
        self._server: Optional["subprocess.Popen[bytes]"] = None
        self._is_over = False
        #: The signal that came when the server had ended already.
        self.last: Optional[int] = None

    def as_before(self) -> None:
        """Makes signals what they were."""
        signal.pthread_sigmask(signal.SIG_SETMASK, self._before)

    def pass_on_to(self, server: "subprocess.Popen[bytes]") -> None:
        self._server = server
        self._passing = threading.Thread(target=self._run, name="signals", daemon=True)
        self._passing.start()

    def end(self) -> None:
        """From here on signals wait again. This process may end itself by one then: under qemu a thread that waits for
        signals would take it, and the process would never end."""
        self._is_over = True
        assert self._passing.ident is not None
        signal.pthread_kill(self._passing.ident, signal.SIGCHLD)
        self._passing.join()

    def _run(self) -> None:
        assert self._server is not None
        while True:
            it = signal.sigwaitinfo(self._waited)
            if self._is_over:
                return
            if it.si_signo != signal.SIGCHLD:
                if self._server.poll() is not None:  # (also where nobody has looked since it ended)
                    self.last = it.si_signo
                elif it.si_code != _FROM_KERNEL:
                    with contextlib.suppress(OSError):
                        self._server.send_signal(it.si_signo)
            with contextlib.suppress(OSError):
                os.write(self._wakes, b".")


def end_by(number: int) -> None:
    """Ends this process by a signal, as the server's ended, and without a dump of its memory."""
    import resource

    with contextlib.suppress(OSError, ValueError):
        resource.setrlimit(resource.RLIMIT_CORE, (0, 0))
    with contextlib.suppress(OSError, ValueError):
        signal.signal(number, signal.SIG_DFL)
    signal.pthread_sigmask(signal.SIG_UNBLOCK, {number})
    os.kill(os.getpid(), number)
