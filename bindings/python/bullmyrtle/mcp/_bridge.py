"""A tool server over HTTP for a host that has standard streams alone: each line is a POST, and what comes is a line."""
from __future__ import annotations

import os
import sys
import threading
from typing import IO

from .._settings import USUAL_CONTENT
from ._http_client import Http
from ._link import Link
from .client import Given

# How long what isn't answered is waited for, once the input is over.
_GRACE = 5.0


class _Lines:
    """What writes lines. A host that reads no more ends the process."""

    def __init__(self, sink: int) -> None:
        self._sink, self._lock = sink, threading.Lock()
        self.is_over = threading.Event()
        self.is_lost = False

    def came(self, message: bytes) -> None:
        """As `Hears` has it."""
        data = message.replace(b"\r", b" ").replace(b"\n", b" ") + b"\n"
        with self._lock:
            try:
                while data:
                    data = data[os.write(self._sink, data) :]
            except OSError:
                os._exit(1)

    def sent(self) -> None:
        """As `Hears` has it."""

    def over(self, is_lost: bool) -> None:
        """As `Hears` has it."""
        self.is_lost = self.is_lost or is_lost
        self.is_over.set()
        if is_lost:
            sys.stderr.write("bridge: the server knows the session no more\n")
            os._exit(1)  # (the input may never end)


def bridge(http: Http, headers: Given, source: IO[bytes], sink: int) -> int:
    """Passes lines on, until their input is over: gives the status."""
    lines = _Lines(sink)
    link = Link(http, headers, USUAL_CONTENT, lines, is_plain=True)
    for line in source:
        if line.strip():
            link.send(line.rstrip(b"\r\n"))
    link.drain(_GRACE)
    link.finish()
    lines.is_over.wait(_GRACE)
    link.stop()
    return int(lines.is_lost)
