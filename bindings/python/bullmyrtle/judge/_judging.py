"""What is done with each thing that was seen: it is recorded; it is judged, told, and kept for the report."""
from __future__ import annotations

import threading
from typing import Iterable, Optional

from .._log import shown
from ._judge import Finding
from ._life import Asked
from ._lines import line_of, slow_line, summary_of
from ._recording import Event, Recorder
from ._report import Report
from ._rules import MUST
from ._sinks import Speaker
from ._slow import Slow
from ._talk import Talk


class Judging:
    """Takes what was seen, in its order. Nothing that fails here raises: it is said, and left out from there on."""

    def __init__(
        self, talk: Talk, speaker: Speaker, report: Optional[Report] = None, slow: Optional[float] = None
    ) -> None:
        self._talk: Optional[Talk] = talk
        self._seconds, self._slow = slow or 0.0, None if slow is None else Slow(slow)
        talk.slow = self._slow
        self._whole = talk
        self._speaker, self._say = speaker, speaker.say
        self._report = report
        self.has_failed = False  #: whether judging ended before what was seen did
        self._changing = threading.Lock()

    @property
    def has_broken(self) -> bool:
        """Whether a rule of the level must was broken."""
        return bool(self._whole.counts.get(MUST))

    def take(self, event: Event) -> bool:
        """Something was seen. Gives whether it is judged."""
        talk = self._talk
        if talk is None:
            return False
        try:
            # (it is the library that may take long, and without the lock `leave` can come meanwhile)
            proved = talk.proved(event)
            with self._changing:
                if self._talk is None:
                    return False
                if self._slow is not None:
                    self._slow.seen(event.at)
                    self._tell_slow(self._slow.due(event.at))
                found = talk.taken(event, proved)
                for it in found:
                    self._tell(it)
                if self._report is not None:
                    self._report.take(talk.new, found, event)
        except Exception as fault:  # (whatever it is, the bytes go on)
            self._fail(fault)
            return False
        return True

    def _fail(self, fault: Exception) -> None:
        with self._changing:
            if self._talk is not None:
                self._talk, self.has_failed = None, True
                self._say(f"nothing is judged from here on: {shown(f'{type(fault).__name__}: {fault}')}")

    @property
    def patience(self) -> Optional[float]:
        """After how many seconds `idle` is to be called, if nothing is seen before."""
        return None if self._slow is None or self._talk is None else self._slow.patience

    def idle(self) -> None:
        """Nothing was seen for so long."""
        with self._changing:
            if self._slow is not None and self._talk is not None:
                self._tell_slow(self._slow.due_now())

    def _tell_slow(self, requests: Iterable[Asked]) -> None:
        for it in requests:
            self._say(slow_line(it, self._seconds))

    def _tell(self, it: Finding) -> None:
        self._say(line_of(it, self._whole.rules))

    def leave(self) -> None:
        """Judge no more. (What the library is at is left to it, and so is its memory.)"""
        with self._changing:
            self._talk = None

    def finish(self, missed: str = "") -> None:
        """Nothing more is seen. Says what there was, and what wasn't judged, if there is something."""
        for line in summary_of(self._whole, missed):
            self._say(line)
        if self._report is not None:
            try:
                self._report.write(self._whole, missed)
            except OSError as fault:
                self._say(f"the report isn't written: {fault}")
        self._speaker.finish()


class Recorded:
    """Takes what was seen, and records it. What fails is said, and nothing is recorded from there on."""

    has_broken = False
    patience: Optional[float] = None

    def __init__(self, recorder: Recorder, speaker: Speaker) -> None:
        self._recorder: Optional[Recorder] = recorder
        self._speaker = speaker

    def take(self, event: Event) -> bool:
        """Something was seen. Gives whether it is recorded."""
        recorder = self._recorder
        if recorder is None:
            return False
        try:
            recorder.take(event)
        except OSError as fault:
            if self._recorder is not None:
                self._recorder = None
                self._speaker.say(f"the recording ends here: {fault}")
            return False
        return True

    def idle(self) -> None:
        """(it has nothing to do)"""

    def leave(self) -> None:
        """Record no more. (A line may still be written, where nobody reads: it isn't waited for.)"""
        self._recorder = None

    def finish(self, missed: str = "") -> None:
        """Nothing more is seen. Says what wasn't recorded, if there is something."""
        if missed:
            self._speaker.say(f"not recorded: {missed}")
        self._speaker.finish()
