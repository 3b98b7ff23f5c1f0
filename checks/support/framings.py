"""How what a side writes is cut into contents, by each framing of docs/connection.md: so for the plain models of a
connection and of the judge."""
from dataclasses import dataclass
from typing import Iterator, Optional

from support import reading


@dataclass(frozen=True)
class Content:
    data: bytes
    place: int  # of its first byte, counted from the first byte that was fed, from 0
    is_foreign: bool = False
    is_unfinished: bool = False  # a last line without its LF, or a frame that isn't whole


class Cutter:
    """The bytes that were fed, up to the first fault: what begins at `place` is too large, or no frame."""

    def __init__(self, framing: str, limit: int) -> None:
        self.framing, self.limit = framing, limit
        self.rest, self.place = b"", 0  # what isn't cut off yet, and where it begins
        self.fault = ""

    def feed(self, data: bytes) -> Iterator[Content]:
        """The contents whose last byte is there by now."""
        if self.framing == "contents":
            yield from self.piece(data)
            return
        self.rest += data
        while self.rest and not self.fault:
            content, length = self.line() if self.framing == "lines" else self.frame()
            if length == 0:
                return
            self.rest, self.place = self.rest[length:], self.place + length
            if content is not None:
                yield content

    def piece(self, data: bytes) -> Iterator[Content]:
        if len(data) > self.limit:
            self.fault = "TooLarge"
        if not self.fault:
            yield Content(data, self.place)
            self.place += len(data)

    def line(self) -> tuple[Optional[Content], int]:
        """The line at the front, where it isn't blank, and its length with its LF, or 0 where there is none."""
        line, end, _ = self.rest.partition(b"\n")
        data = line.removesuffix(b"\r")
        if len(data) > self.limit:
            self.fault = "TooLarge"
        if not end or self.fault:
            return None, 0
        return (Content(data, self.place) if data.strip(b" \t") else None), len(line) + 1

    def frame(self) -> tuple[Optional[Content], int]:
        frame, fault = reading.frame_at(self.rest, 0, self.limit)
        if frame is not None:
            return Content(frame.content, self.place + frame.end - len(frame.content), frame.is_foreign), frame.end
        self.fault = "" if fault == "Truncated" else fault
        return None, 0

    def last(self) -> Optional[Content]:
        """What the close leaves: a line without its LF that isn't blank, or a frame that isn't whole."""
        if self.fault or not self.rest:
            return None
        data = self.rest.removesuffix(b"\r") if self.framing == "lines" else self.rest
        is_blank = self.framing == "lines" and not data.strip(b" \t")
        return None if is_blank else Content(data, self.place, is_unfinished=True)
