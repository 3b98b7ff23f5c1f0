"""Requests that are open for long, said while they are."""
from __future__ import annotations

import collections
import time
from typing import Callable, List, Optional

from ._life import Asked


class Slow:
    """The requests that are open and aren't said to be slow yet, in the order in which they were seen. Each is said once,
    when it has been open for so many seconds, by the times at which things were seen."""

    def __init__(self, seconds: float, clock: Callable[[], float] = time.monotonic) -> None:
        self._most = seconds * 1000
        self._open: "collections.OrderedDict[Asked, None]" = collections.OrderedDict()
        self._clock = clock
        self._began: Optional[float] = None  # when the times begin, by the clock, or a little later

    def seen(self, at: Optional[float]) -> None:
        """Something was seen at this time, and the clock stands now."""
        if at is not None:
            began = self._clock() * 1000 - at
            self._began = began if self._began is None else min(began, self._began)

    def asked(self, asked: Asked) -> None:
        """A request is open from now on. (One without a time is never slow.)"""
        if asked.at is not None:
            self._open[asked] = None

    def closed(self, asked: Asked) -> None:
        """It is answered, or needn't be."""
        self._open.pop(asked, None)

    def due(self, at: Optional[float]) -> List[Asked]:
        """Those that have been open for so long by this time."""
        found: List[Asked] = []
        while at is not None and self._open:
            first = next(iter(self._open))
            if first.at is None or first.at + self._most > at:
                break
            del self._open[first]
            found.append(first)
        return found

    def due_now(self) -> List[Asked]:
        """Those that have been open for so long by the clock."""
        return [] if self._began is None else self.due(self._clock() * 1000 - self._began)

    @property
    def patience(self) -> Optional[float]:
        """How many seconds it takes until one has; None where none is open."""
        if not self._open or self._began is None:
            return None
        first = next(iter(self._open))
        return max(0.0, ((first.at or 0.0) + self._most + self._began) / 1000 - self._clock())
