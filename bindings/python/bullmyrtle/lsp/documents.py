"""Open documents: their text, and places in it as editors count them."""
from __future__ import annotations

import os
from _thread import allocate_lock

from .._incoming import VALUES
from .._signatures.fits import named
from .._hints import TYPE_CHECKING
from .._log import log
from ..errors import InvalidParams
from ._text import ENCODINGS, Text

if TYPE_CHECKING:
    from typing import Any, Dict, List, Optional, Pattern, Tuple, Union

    #: A position or a range as JSON has it: ``{"line": 0, "character": 0}``, and ``{"start": .., "end": ..}``.
    Json = Dict[str, Any]

_WORD = r"\w+"
# A word isn't looked for further from its place than this.
_AROUND = 4096
_LINES = "[^\r\n]*(?:\r\n|\r|\n)|[^\r\n]+"


def member(value: Any, name: str) -> Any:
    """A member of an object of JSON, or of a class that stands for it."""
    if type(value) is dict:
        if name not in value:
            raise InvalidParams(f"Invalid params: {name} is missing")
        return value[name]
    if type(value) in VALUES:
        raise InvalidParams(
            f"Invalid params: {name} is missing, and there is {named(value)} in place of an object"
        )
    return getattr(value, name)


def _pair(position: Any) -> Tuple[int, int]:
    line, character = member(position, "line"), member(position, "character")
    if type(line) is not int or type(character) is not int:
        raise InvalidParams("Invalid params: a position has a line and a character, which are integers")
    return line, character


def path_of(uri: str) -> Optional[str]:
    """The file that a `file:` URI names; None for others, and for what isn't a URI."""
    import urllib.parse  # (here, as a server starts sooner without)

    try:
        parts = urllib.parse.urlsplit(uri)
    except ValueError:
        return None
    return urllib.parse.unquote(parts.path) if parts.scheme == "file" else None


def uri_of(path: Union[str, "os.PathLike[str]"]) -> str:
    """The URI of a file."""
    import urllib.parse

    return "file://" + urllib.parse.quote(os.path.abspath(os.fspath(path)))


class Document:
    """A text with the places that editors name: a line, and code units of the agreed encoding in it.

    Offsets count characters as Python does, so `document.text[offset]` is the character at an offset. A position that
    isn't in the text means the nearest one before it: behind a line's end the line's end, behind the last line the
    text's end, and inside a character its beginning.
    """

    def __init__(
        self,
        uri: str,
        text: str = "",
        version: Optional[int] = None,
        language_id: str = "",
        encoding: str = "utf-16",
    ) -> None:
        self.uri = uri
        self.version = version
        self.language_id = language_id
        self._text = Text(text, encoding)
        # (as long as nobody changes it)
        self._joined: Optional[str] = None
        self._lines: Optional[List[str]] = None
        self._lock = allocate_lock()  # (a thread may take a snapshot while the loop's changes the text)

    def __repr__(self) -> str:
        return f"<Document {self.uri!r}, version {self.version}>"

    @property
    def encoding(self) -> str:
        """In which encoding its positions count code units."""
        return self._text.encoding

    @property
    def path(self) -> Optional[str]:
        """The file that it is of; None where the URI names no file."""
        return path_of(self.uri)

    @property
    def filename(self) -> str:
        """The last part of the path, or of the URI where that names no file."""
        return os.path.basename(self.path or self.uri.partition("?")[0].partition("#")[0])

    # The text

    def __len__(self) -> int:
        return len(self._text)

    @property
    def text(self) -> str:
        joined = self._joined
        if joined is None:
            joined = self._joined = self._text.whole()
        return joined

    source = text

    @property
    def lines(self) -> List[str]:
        """All lines, with their line breaks: a list of your own."""
        lines = self._lines
        if lines is None:
            import re

            lines = self._lines = re.findall(_LINES, self.text)
        return lines.copy()

    @property
    def line_count(self) -> int:
        return self._text.breaks + 1

    def line(self, number: int) -> str:
        """One line, without its line break; "" where there is none."""
        if not 0 <= number <= self._text.breaks:
            return ""
        return self._text.part(self._text.line_start(number), self._text.line_end(number))

    def text_in(self, range_: Any) -> str:
        """What stands in a range."""
        return self._text.part(*self._offsets(range_))

    def snapshot(self) -> Document:
        """The document as it is now, which stays so: for what goes on while the document changes."""
        with self._lock:
            other: Document = object.__new__(type(self))
            other.__dict__.update(self.__dict__)
            other._text, other._lock = self._text.copy(), allocate_lock()
            return other

    # Places

    def offset(self, position: Any) -> int:
        """The offset of a position."""
        return self._text.offset(*_pair(position))

    def position(self, offset: int) -> Json:
        """The position of an offset. One between CR and LF is the line's end."""
        line, character = self._text.place(offset)
        return {"line": line, "character": character}

    def range(self, start: int, end: int) -> Json:
        """The range between two offsets, such as `found.span()` gives."""
        return {"start": self.position(start), "end": self.position(end)}

    def _offsets(self, range_: Any) -> Tuple[int, int]:
        start, end = self.offset(member(range_, "start")), self.offset(member(range_, "end"))
        return (start, end) if start <= end else (end, start)

    def _word(self, position: Any, pattern: Union[str, Pattern[str], None]) -> Tuple[int, int]:
        import re

        at = self.offset(position)
        line = self._text.place(at)[0]
        start = max(self._text.line_start(line), at - _AROUND)
        text = self._text.part(start, min(self._text.line_end(line), at + _AROUND))
        before = None
        for found in re.finditer(pattern or _WORD, text):
            if found.start() > at - start:
                break
            if at - start < found.end():
                return start + found.start(), start + found.end()
            if at - start == found.end() and found[0]:
                before = found
        return (at, at) if before is None else (start + before.start(), start + before.end())

    def word_at(self, position: Any, pattern: Union[str, Pattern[str], None] = None) -> str:
        """The word at a position, or the one that ends there; "" where there is none.

        A word is what the pattern matches in the line: letters, digits and underscores where none is given.
        """
        return self._text.part(*self._word(position, pattern))

    def word_range(self, position: Any, pattern: Union[str, Pattern[str], None] = None) -> Json:
        """Where that word stands; an empty range where there is none."""
        return self.range(*self._word(position, pattern))

    # (as pygls names them)
    offset_at_position = offset
    word_at_position = word_at

    # Changes

    def change(self, changes: List[Any], version: Optional[int] = None) -> None:
        """Apply the `contentChanges` of a `textDocument/didChange`: all of them, or none where one isn't well formed."""
        checked = []
        for it in changes:
            if type(it) is not dict or type(it.get("text")) is not str:
                raise InvalidParams("Invalid params: a change has a text")
            where = it.get("range")
            if where is not None:
                places = _pair(member(where, "start")), _pair(member(where, "end"))
                checked.append((*sorted(places), it["text"]))
            else:
                checked.append((None, None, it["text"]))
        with self._lock:
            for start, end, text in checked:
                if start is None:
                    self._text = type(self._text)(text, self.encoding)
                else:
                    self._text.replace(self._text.offset(*start), self._text.offset(*end), text)
            self._joined = self._lines = None
            self._to_version(version)

    def _to_version(self, version: Optional[int]) -> None:
        if version is None:
            return
        if self.version is not None and version <= self.version:
            log.warning("%s: version %s comes after version %s", self.uri, version, self.version)
        self.version = version


__all__ = ["ENCODINGS", "Document", "path_of", "uri_of"]
