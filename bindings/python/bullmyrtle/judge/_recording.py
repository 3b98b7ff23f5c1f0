"""Recordings: what was seen, as text that people can read and cut.

The first line is `judge 1 RULES FRAMING`. Each further one is `> HEX`, what the client wrote; `< HEX`, what the server
wrote; or `> closed`, `> failed` and the same with `<`, which is how a side's stream ended. Behind it may stand `# N`, the
milliseconds since the beginning. Empty lines, and lines that begin with #, count nothing. All of it is text in UTF-8.
"""
from __future__ import annotations

import contextlib
import os
import re
from typing import IO, Iterator, NamedTuple, Optional

from ..errors import Refused
from .._system import lock
from ._files import Name, made_file
from ._judge import FRAMINGS
from ._versions import NAMES

_MARKS = {"client": ">", "server": "<"}
_SIDES = {mark: side for side, mark in _MARKS.items()}
_HEAD = re.compile(r"judge (\S+) (\S+) (\S+)")
_LINE = re.compile(r"([<>])(?: (closed|failed|(?:[0-9A-Fa-f]{2})*))?(?: # ?([0-9]{1,15}))?")
# How much of a line is shown where it is wrong.
_SHOWN = 60


class NoRecording(Refused, ValueError):
    """A file that is no recording: what is wrong with it, and in which line."""

    def __init__(self, line: int, why: str) -> None:
        super().__init__(f"line {line}: {why}")
        self.line = line


class Event(NamedTuple):
    """What was seen: bytes of a side, or how its stream ended."""

    side: str
    data: bytes = b""
    ended: str = ""  #: "closed" or "failed"
    at: Optional[float] = None  #: milliseconds since the beginning


class Recording:
    """A recording that is read, line by line."""

    def __init__(self, file: IO[bytes]) -> None:
        """Reads its first line. Raises NoRecording."""
        self._lines = enumerate(file, 1)
        _, line = next(self._lines, (1, b""))
        found = _HEAD.fullmatch(_text(1, line))
        if found is None:
            raise NoRecording(
                1, f"a recording begins with `judge 1 RULES FRAMING`, and this with {_shown(_text(1, line))}"
            )
        version, self.rules, self.framing = found.groups()
        if version != "1":
            raise NoRecording(1, f"there is version 1 of recordings, and this is {version!r}")
        if self.rules not in NAMES:
            raise NoRecording(1, f"there are no rules {self.rules!r}: there are {', '.join(NAMES)}")
        if self.framing not in FRAMINGS:
            raise NoRecording(1, f"there is no framing {self.framing!r}: there are {', '.join(FRAMINGS)}")

    def __iter__(self) -> Iterator[Event]:
        """What was seen. Raises NoRecording where a line isn't any of a recording's."""
        for number, line in self._lines:
            text = _text(number, line)
            if text and not text.startswith("#"):
                yield _event(number, text)


def _text(number: int, line: bytes) -> str:
    try:
        return line.decode().rstrip("\r\n \t")
    except UnicodeDecodeError:
        raise NoRecording(
            number, f"a recording is text in UTF-8, and this isn't: {line[:_SHOWN]!r}"
        ) from None


def _shown(text: str) -> str:
    return "nothing" if not text else repr(text[:_SHOWN] + (".." if len(text) > _SHOWN else ""))


def _event(number: int, text: str) -> Event:
    found = _LINE.fullmatch(text)
    if found is None:
        why = "`> HEX`, `< HEX`, `> closed`, `> failed` or the same with <, and `# MILLISECONDS` behind it"
        odd = re.match(r"[<>] [0-9A-Fa-f]+(?: #|$)", text)
        what = "an odd number of digits" if odd else f"it is {_shown(text)}"
        raise NoRecording(number, f"{what}; a line is {why}")
    side, what, at = _SIDES[found[1]], found[2] or "", None if found[3] is None else float(found[3])
    if what in ("closed", "failed"):
        return Event(side, b"", what, at)
    return Event(side, bytes.fromhex(what), "", at)


class Recorder:
    """Writes a recording to a file, each line as soon as it was seen."""

    def __init__(self, file: Name, rules: str, framing: str) -> None:
        self._descriptor = made_file(file)
        # (anyone who waits for the end of the recording, waits for the lock)
        with contextlib.suppress(OSError):
            lock(self._descriptor)
        self._put(f"judge 1 {rules} {framing}\n")

    def take(self, event: Event) -> None:
        """Something was seen."""
        if event.ended:
            self.ended(event.side, event.ended, event.at or 0)
        else:
            self.saw(event.side, event.data, event.at or 0)

    def saw(self, side: str, data: bytes, at: float) -> None:
        self._put(f"{_MARKS[side]} {data.hex()} # {at:.0f}\n")

    def ended(self, side: str, how: str, at: float) -> None:
        self._put(f"{_MARKS[side]} {how} # {at:.0f}\n")

    def _put(self, line: str) -> None:
        data = memoryview(line.encode())
        while data:
            data = data[os.write(self._descriptor, data) :]

    def close(self) -> None:
        os.close(self._descriptor)
