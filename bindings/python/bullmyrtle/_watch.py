"""What a session remembers of its input: where a fault is, and what couldn't be read."""
from __future__ import annotations

import contextlib
import time

from . import _ends
from ._ends import SHOWN, End, Late, Place
from ._hints import TYPE_CHECKING
from ._log import log
from ._settings import USUAL_CONTENT
from .connection import Connection, Counts, Notes
from .errors import Closed, Refused
from .events import Broken, Event, Over

if TYPE_CHECKING:
    from typing import Any, Callable, List, Mapping, Optional, Protocol, Sequence, Tuple, Union
    import asyncio

    from ._trace import Traced
    from .connection import Cancels

    class Process(Protocol):
        """A client's server, as far as it is told of."""

        @property
        def status(self) -> Optional[int]:
            """What it ended with."""

        @property
        def last(self) -> bytes:
            """The last of what it wrote to its standard error."""


# How much of the stream's beginning is kept, and of what was read last, for the first bytes of the frame at fault; and
# how often a line of counts may come.
_KEPT, _SECONDS = 8192, 1.0
# How many pieces may wait to be looked into, and how long each of them may be.
_PIECES, _SHORT = 64, 1024


class _Lines:
    """The line that is not at its end yet."""

    def __init__(self) -> None:
        self.start = 0
        self.first = b""
        self.length = 0

    def add(self, data: bytes) -> None:
        if data.endswith(b"\n"):  # (as most pieces do)
            self.start += self.length + len(data)
            self.first, self.length = b"", 0
            return
        at = data.rfind(b"\n") + 1
        if at:
            self.start, self.length, self.first = self.start + self.length + at, 0, b""
        if len(self.first) <= SHOWN:
            self.first += data[at : at + SHOWN]
        self.length += len(data) - at

    def fault(self, data: bytes, most: int) -> Tuple[int, bytes]:
        """The first line that is too long, where one is, up to what has been read last."""
        start, length, first, at = self.start, self.length, self.first, 0
        while True:
            end = data.find(b"\n", at)
            if end < 0:
                break
            is_cr = data[end - 1 : end] == b"\r" if end > at else False
            if length + end - at - is_cr > most:
                break
            start, length, first, at = start + length + end + 1 - at, 0, b"", end + 1
        return start, (first + data[at : at + SHOWN])[:SHOWN]


class Watch:
    """Sees each piece of the input, and what was told of it."""

    def __init__(self, settings: Mapping[str, Any], cancels: Optional[Cancels], is_client: bool) -> None:
        self._settings, self._cancels, self._is_client = settings, cancels, is_client
        self._connection: Union[Connection, Traced, None] = None
        self._notes = Notes()
        self._is_busy: Callable[[], bool] = lambda: False
        self._later: Callable[[float, Callable[[], None]], asyncio.TimerHandle]
        # The pieces that weren't looked into yet: few and short, since to do so at each one takes longer.
        self._pieces: List[bytes] = []
        self._fed = 0
        self._kept = b""
        # What was read last, 8,192 bytes where there were so many.
        self._recent = b"" if settings["framing"] == "frames" else None
        self._lines = _Lines() if settings["framing"] == "lines" else None
        self._how: Optional[str] = None
        self._place: Optional[Place] = None
        self._said = (0, 0)
        self._seen: Optional[Broken] = None
        self._next = 0.0
        self._timer: Optional[asyncio.TimerHandle] = None
        #: The server's process, where a client has started one.
        self.process: Optional[Process] = None
        #: How many calls of our own waited for a reply when the input was over.
        self.lost = 0
        #: Whether this side has said that it says no more.
        self.is_finished = False
        self._is_meant = False  # (whether it had when the input was over)

    def begin(
        self,
        connection: Union[Connection, Traced],
        notes: Notes,
        is_busy: Callable[[], bool],
        later: Callable[[float, Callable[[], None]], asyncio.TimerHandle],
    ) -> None:
        """Begins, with the connection, what is noted of its events, whether it can't be asked just now, and what has
        something done later."""
        self._connection, self._notes, self._is_busy, self._later = connection, notes, is_busy, later

    def read(self, data: bytes, told: Sequence[Event]) -> None:
        """A piece was read, and these events were told of it."""
        if self._how is not None:
            return
        if told and type(told[-1]) is Over:
            self._look_into_pieces()
            self._keep(data)
            self._how = told[-1].how
            self._is_meant = self.is_finished
            if _ends.is_fault(self._how):
                self._place = self._find(data)
            return
        self._pieces.append(data)
        if len(self._pieces) > _PIECES or len(data) > _SHORT:
            self._look_into_pieces()
        if self._notes.broken is not self._seen:
            self._look()

    def _look_into_pieces(self) -> None:
        data = b"".join(self._pieces)
        self._pieces.clear()
        self._keep(data)
        if self._lines is not None:
            self._lines.add(data)
        elif self._recent is not None:
            self._recent = data[-_KEPT:] if len(data) >= _KEPT else (self._recent + data)[-_KEPT:]
        self._fed += len(data)

    def _keep(self, data: bytes) -> None:
        if len(self._kept) < _KEPT:
            self._kept += data[: _KEPT - len(self._kept)]

    # The place of a fault

    def _find(self, data: bytes) -> Place:
        piece = self._fed, data[:SHOWN]
        if self._lines is not None:
            most = self._settings["content"] or USUAL_CONTENT
            return Place(*self._lines.fault(data, most), *piece)
        if self._settings["framing"] == "contents":
            return Place(self._fed, data[:SHOWN], *piece)
        try:
            offset, first = self._frame(data)
        except (Refused, Closed):
            offset = first = None
        return Place(offset, first, *piece)

    def _frame(self, data: bytes) -> Tuple[Optional[int], Optional[bytes]]:
        """Where the frame at fault begins, and its first bytes, as far as they are still known."""
        assert self._connection is not None
        offset = self._connection.fault_offset
        return offset, None if offset is None else self._bytes_at(offset, data)

    def _bytes_at(self, offset: int, data: bytes) -> Optional[bytes]:
        """The first bytes from an offset on, where they are in what is kept."""
        assert self._recent is not None
        start = self._fed - len(self._recent)
        if offset >= start:
            return (self._recent + data)[offset - start :][:SHOWN]
        return self._kept[offset:][:SHOWN] or None

    # What couldn't be read

    def _look(self, is_last: bool = False) -> None:
        """Says how many messages couldn't be read, where it has become more."""
        assert self._connection is not None
        self._seen = self._notes.broken
        now = time.monotonic()
        if self._is_busy():
            self._timer = None if is_last else self._later(_SECONDS, self._look_again)
            return
        counts = self._connection.counts()
        found = counts.unreadable, counts.invalid
        if found != self._said and now < self._next and not is_last:
            if self._timer is None:
                self._timer = self._later(self._next - now, self._look_again)
            return
        if found != self._said:
            self._said = found
            log.info("%s", self._counted(counts))
        self._next = now + _SECONDS

    def _look_again(self) -> None:
        self._timer = None
        with contextlib.suppress(Closed):
            self._look()

    def _counted(self, counts: Counts) -> str:
        self._look_into_pieces()
        parts: List[str] = []
        for count, one, many in (
            (counts.unreadable, "that couldn't be read (-32700)", "that couldn't be read (-32700)"),
            (
                counts.invalid,
                "that was neither a call nor a reply (-32600)",
                "that were neither a call nor a reply (-32600)",
            ),
        ):
            if count:
                noun = "" if parts else "message " if count == 1 else "messages "
                parts.append(f"{count} {noun}{one if count == 1 else many}")
        first, last = self._kept[:SHOWN], self._notes.broken
        where = f"the input began with {first!r}"
        if last is not None:
            where = f"the last one began at byte {last.offset} with {last.first!r}"
        hint = ""
        if self._lines is not None and first[:8].lower() == b"content-":
            side = "Client(.., " if self._is_client else "Server("
            hint = f': are these frames? {side}framing="frames")'
        return (
            f"{' and '.join(parts)} came so far, besides {counts.calls} call{'s' * (counts.calls != 1)}; "
            f"{where}{hint}"
        )

    # The end

    def because(self, how: str) -> None:
        """Something else than the input ends the session, unless that has a fault already."""
        if self._how in (None, "Clean"):
            self._how = how

    def _input_text(self) -> str:
        how = self._how or "Cancelled"
        if self._place is not None:
            return _ends.fault_text(how, self._place, self._settings, self._is_client)
        if how == "Full":
            return f"all calls came that the setting calls={self._settings['calls']} allows"
        return _ends.TEXTS["Lost" if self._is_client and how == "Clean" else how]

    def _with_process(self, text: str, is_whole: bool) -> str:
        if self.process is None:
            return text
        status = self.process.status
        if status is not None or self._how == "Clean":  # (what goes on after a fault is no surprise)
            text = f"{text}; {_ends.exit_text(status)}"
        last = self.process.last.decode(errors="replace").strip() if is_whole else ""
        return f"{text}; the last of its standard error:\n{last}" if last else text

    def why(self) -> str:
        """What `Unanswered` says."""
        return self._with_process(f"the input is over: {self._input_text()}", is_whole=True)

    def over(self, end: Optional[End]) -> str:
        """What `Closed` says."""
        if end is None or (end.is_clean and not self._is_client):
            return "the session is over"
        if end.is_clean:
            text = "the session with the server is over"
            if self._is_meant:
                return text
            return self._with_process(f"{text}: {_ends.TEXTS['Lost']}", is_whole=True)
        return self._with_process(f"the session is over: {end.text}", is_whole=True)

    def end(self, status: Optional[int], late: Sequence[Late], is_out: bool, grace: float) -> End:
        """How the session ended, told where it didn't end well."""
        if self._timer is not None:
            self._timer.cancel()
        if self._connection is not None:
            with contextlib.suppress(Closed):
                self._look(is_last=True)
        how = self._how or "Cancelled"
        text = self._input_text()
        if how in ("Clean", "Stopped"):
            how, text = self._other_faults(how, text, status, late, is_out, grace)
        place, process = self._place, self.process
        end = End(
            how,
            text,
            status,
            None if place is None else place.offset,
            None if place is None else place.first,
            sum(it.is_request for it in late),
            None if process is None else process.status,
            b"" if process is None else process.last,
        )
        if not end.is_clean:
            who = "session with the server" if self._is_client else "session"
            log.warning("the %s ended: %s", who, self._with_process(text, is_whole=False))
        return end

    def _other_faults(
        self, how: str, text: str, status: Optional[int], late: Sequence[Late], is_out: bool, grace: float
    ) -> Tuple[str, str]:
        """What was wrong, though the input ended well."""
        if status is None:
            return "Cancelled", _ends.TEXTS["Cancelled"]
        if late:
            return "Late", _ends.late_text(late, grace)
        if not is_out:
            return "Unwritten", _ends.TEXTS["Unwritten"]
        has_failed = self.process is not None and bool(self.process.status)
        if self._is_client and how == "Clean" and not self._is_meant and (self.lost or has_failed):
            calls = (
                f", while {self.lost} call{'s' * (self.lost != 1)} waited for a reply" if self.lost else ""
            )
            return "Lost", _ends.TEXTS["Lost"] + calls
        return how, text
