"""What the driver has seen and what a process of its has taken of it, in memory that the two share."""
from __future__ import annotations

import mmap
from typing import List

from ._judge import SIDES
from ._recording import Event

# The places of the counts, and of the time in nanoseconds. (Each is written by one of the two alone.)
_SEEN, _TAKEN, _BEGUN, _END = 0, 3, 6, 7
_EVENTS = len(SIDES)


class Known:
    """Bytes of each side and events, as many as were seen and as many as were taken."""

    def __init__(self) -> None:
        self._counts = memoryview(mmap.mmap(-1, mmap.PAGESIZE)).cast("Q")

    def _count(self, place: int, event: Event) -> None:
        counts = self._counts
        counts[place + SIDES.index(event.side)] += len(event.data)
        counts[place + _EVENTS] += 1

    def saw(self, event: Event) -> None:
        """The driver saw it."""
        self._count(_SEEN, event)

    def took(self, event: Event) -> None:
        """The process has taken it."""
        self._count(_TAKEN, event)

    @property
    def has_begun(self) -> bool:
        """Whether there is a server."""
        return bool(self._counts[_BEGUN])

    def begin(self) -> None:
        self._counts[_BEGUN] = 1

    @property
    def end(self) -> float:
        """Until when the process may take what is left, by the clock that never goes back; 0 while there is no end."""
        return float(self._counts[_END]) / 1e9

    @end.setter
    def end(self, end: float) -> None:
        self._counts[_END] = int(end * 1e9)

    @property
    def is_whole(self) -> bool:
        """Whether all that was seen is taken."""
        return self._counts[_SEEN + _EVENTS] == self._counts[_TAKEN + _EVENTS]

    def seen_up_to(self) -> str:
        """How far each side has been seen."""
        return " and ".join(f"byte {self._counts[_SEEN + at]:,} of the {it}" for at, it in enumerate(SIDES))

    def missed(self) -> str:
        """What was seen and isn't taken, and from where on; "" where nothing is."""
        if self.is_whole:
            return ""
        parts: List[str] = []
        for at, it in enumerate(SIDES):
            seen, taken = self._counts[_SEEN + at], self._counts[_TAKEN + at]
            if seen > taken:
                parts.append(f"{seen - taken:,} bytes of the {it} from byte {taken:,} on")
        return " and ".join(parts) or "how the streams ended"
