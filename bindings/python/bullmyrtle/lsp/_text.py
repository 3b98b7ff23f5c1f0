"""The text of a document, in pieces: a change costs about as little in 10 MB as in 10 KB, in one line or in many.

A text is a list of shelves, and a shelf is a list of pieces, which are strings of some thousand characters. Of each
piece and each shelf it is known how many characters, code units of the encoding and line breaks it has. A CR LF is one
line break, and never stands in two pieces: so what a text has is the sum of what its pieces have.
"""
from __future__ import annotations

import bisect
import itertools
from .._hints import TYPE_CHECKING

if TYPE_CHECKING:
    from typing import Any, Iterator, List, Optional, Tuple

    _Columns = List[List[Any]]


#: The encodings in which editors count: what one character of a position is.
ENCODINGS = ("utf-8", "utf-16", "utf-32")

# The columns of a shelf, and what is summed up of them.
_TEXT, _CHARACTERS, _UNITS, _BREAKS = range(4)

_BREAK = "\r\n|\r|\n"
_CODECS = {"utf-8": "utf-8", "utf-16": "utf-16-le", "utf-32": "utf-32-le"}


def whole(text: str) -> str:
    """A text in which no half of a surrogate pair stands alone: no encoding could count it."""
    try:
        text.encode()
    except UnicodeEncodeError:
        return text.encode("utf-16-le", "surrogatepass").decode("utf-16-le", "replace")
    return text


def units_in(text: str, encoding: str) -> int:
    """How many code units a text has."""
    if encoding == "utf-32" or text.isascii():
        return len(text)
    return len(text.encode("utf-8")) if encoding == "utf-8" else len(text.encode("utf-16-le")) // 2


def index_in(text: str, units: int, encoding: str) -> int:
    """The character that begins at so many units, or in which they end; the text's end where they are too many."""
    if encoding == "utf-32" or text.isascii():
        return min(units, len(text))
    width = 1 if encoding == "utf-8" else 2
    data = text.encode(_CODECS[encoding])[: units * width]
    # (a character of which a part is there isn't counted)
    return len(data.decode(_CODECS[encoding], "ignore"))


def breaks_in(text: str, end: int) -> int:
    """How many line breaks stand before a place, which isn't between a CR and its LF."""
    count = text.count("\n", 0, end)
    if "\r" in text:
        count += text.count("\r", 0, end) - text.count("\r\n", 0, end)
    return count


def break_in(text: str, count: int) -> Tuple[int, int]:
    """Where the line break of this number stands, which begins with 1."""
    if "\r" in text:
        import re  # (here, as a server starts sooner without)

        return next(itertools.islice(re.finditer(_BREAK, text), count - 1, None)).span()
    end = len(text) - len(text.split("\n", count)[-1])
    return end - 1, end


def _cut(text: str, size: int) -> Iterator[str]:
    """The pieces of a text, each with about so many characters."""
    at, length = 0, len(text)
    while length - at > 2 * size:
        end = at + size
        if text[end - 1] == "\r" and text[end] == "\n":
            end += 1
        yield text[at:end]
        at = end
    yield text[at:]


class Text:
    """A text that is read by offsets, which count characters as Python does, and by lines and code units."""

    #: How many characters a piece has at least, if it isn't the only one, and how many it is cut into. One that has
    #: more than twice as many is cut.
    least, size = 256, 1024
    #: The same for a shelf and its pieces.
    shelf_least, shelf_size = 16, 64

    __slots__ = ("encoding", "_shelves", "_sums", "_ends")

    def __init__(self, text: str, encoding: str = "utf-16") -> None:
        if encoding not in ENCODINGS:
            raise ValueError(f"an encoding of positions is one of {', '.join(ENCODINGS)}: {encoding!r}")
        self.encoding = encoding
        self._shelves: List[_Columns] = []
        self._sums: _Columns = [[], [], [], []]  # of each column but the first, for each shelf
        self._ends: List[Optional[List[int]]]  # the same from the beginning on, where it was asked for
        self._put_shelves(0, 0, self._measured(_cut(whole(text), self.size)))

    def copy(self) -> Text:
        """A text that stays as it is when this one changes."""
        other = object.__new__(type(self))
        other.encoding = self.encoding
        other._shelves = [[column[:] for column in shelf] for shelf in self._shelves]
        other._sums = [column[:] for column in self._sums]
        other._ends = self._ends
        return other

    # What it has

    def __len__(self) -> int:
        return self._ends_of(_CHARACTERS)[-1]

    @property
    def breaks(self) -> int:
        """How many line breaks it has: one less than lines."""
        return self._ends_of(_BREAKS)[-1]

    def whole(self) -> str:
        return "".join(itertools.chain.from_iterable(shelf[_TEXT] for shelf in self._shelves))

    def part(self, start: int, end: int) -> str:
        """What stands between two offsets."""
        if end <= start:
            return ""
        shelf, piece, first = self._find(_CHARACTERS, start)
        last_shelf, last_piece, last = self._find(_CHARACTERS, end)
        if (shelf, piece) == (last_shelf, last_piece):
            text: str = self._shelves[shelf][_TEXT][piece]
            return text[first:last]
        pieces: List[str] = []
        for at in range(shelf, last_shelf + 1):
            texts = self._shelves[at][_TEXT]
            pieces += texts[piece if at == shelf else 0 : last_piece + 1 if at == last_shelf else len(texts)]
        pieces[-1] = pieces[-1][:last]
        pieces[0] = pieces[0][first:]
        return "".join(pieces)

    # Places

    def _ends_of(self, kind: int) -> List[int]:
        """How much there is up to the end of each shelf."""
        ends = self._ends[kind]
        if ends is None:
            ends = self._ends[kind] = list(itertools.accumulate(self._sums[kind]))
        return ends

    def _find(self, kind: int, count: int) -> Tuple[int, int, int]:
        """The shelf and the piece in which a count is reached, and what is left of the count there."""
        ends = self._ends_of(kind)
        shelf = bisect.bisect_left(ends, count)
        if shelf:
            count -= ends[shelf - 1]
        piece = 0
        for size in self._shelves[shelf][kind]:
            if count <= size:
                break
            count -= size
            piece += 1
        return shelf, piece, count

    def _before(self, kind: int, shelf: int, piece: int) -> int:
        """How much stands before a piece."""
        there = sum(self._shelves[shelf][kind][:piece]) if piece else 0
        return self._ends_of(kind)[shelf - 1] + there if shelf else there

    def _units(self, text: str) -> int:
        return units_in(text, self.encoding)

    def line_start(self, line: int) -> int:
        """The offset where a line begins, which is there."""
        return self._break(line)[1] if line else 0

    def line_end(self, line: int) -> int:
        """The offset of a line's end, before its line break."""
        return self._break(line + 1)[0] if line < self.breaks else len(self)

    def _break(self, count: int) -> Tuple[int, int]:
        """The offsets between which the line break of this number stands."""
        shelf, piece, left = self._find(_BREAKS, count)
        before = self._before(_CHARACTERS, shelf, piece)
        start, end = break_in(self._shelves[shelf][_TEXT][piece], left)
        return before + start, before + end

    def offset(self, line: int, character: int) -> int:
        """The offset of a position. One behind its line's end is the line's end, and one behind the last line the
        text's; one inside a character is the character's beginning."""
        if line < 0:
            return 0
        if line > self.breaks:
            return len(self)
        if line:
            shelf, piece, left = self._find(_BREAKS, line)
            text, breaks = (self._shelves[shelf][it][piece] for it in (_TEXT, _BREAKS))
            start = break_in(text, left)[1]
        else:
            shelf, piece, left, start = 0, 0, 0, 0
            text, breaks = (self._shelves[0][it][0] for it in (_TEXT, _BREAKS))
        character = max(character, 0)
        if left < breaks:  # (the line ends in the same piece, as most do)
            line_text = text[start : break_in(text, left + 1)[0]]
            within = index_in(line_text, character, self.encoding)
            return self._before(_CHARACTERS, shelf, piece) + start + within
        units = self._before(_UNITS, shelf, piece) + self._units(text[:start]) + character
        return min(self._offset_of_unit(units), self.line_end(line))

    def _offset_of_unit(self, unit: int) -> int:
        if unit >= self._ends_of(_UNITS)[-1]:
            return len(self)
        shelf, piece, left = self._find(_UNITS, unit)
        within = index_in(self._shelves[shelf][_TEXT][piece], left, self.encoding)
        return self._before(_CHARACTERS, shelf, piece) + within

    def place(self, offset: int) -> Tuple[int, int]:
        """The line of an offset, and how many units stand before it there. Between a CR and its LF the line has
        ended."""
        shelf, piece, within = self._find(_CHARACTERS, min(max(offset, 0), len(self)))
        text = self._shelves[shelf][_TEXT][piece]
        if within and text[within - 1 : within + 1] == "\r\n":
            within -= 1
        count = breaks_in(text, within)
        line = self._before(_BREAKS, shelf, piece) + count
        if count:
            return line, self._units(text[break_in(text, count)[1] : within])
        units = self._before(_UNITS, shelf, piece) + self._units(text[:within])
        return line, units - self._unit_of_line(line)

    def _unit_of_line(self, line: int) -> int:
        if not line:
            return 0
        shelf, piece, left = self._find(_BREAKS, line)
        text = self._shelves[shelf][_TEXT][piece]
        return self._before(_UNITS, shelf, piece) + self._units(text[: break_in(text, left)[1]])

    # Changes

    def replace(self, start: int, end: int, new: str) -> None:
        """Puts a text in the place of what stands between two offsets."""
        first = self._find(_CHARACTERS, start)
        last = self._find(_CHARACTERS, end)
        head = self._shelves[first[0]][_TEXT][first[1]][: first[2]]
        tail = self._shelves[last[0]][_TEXT][last[1]][last[2] :]
        self._put(first[:2], last[:2], head + whole(new) + tail)

    def _put(self, first: Tuple[int, int], last: Tuple[int, int], text: str) -> None:
        """Puts a text in the place of pieces, and of neighbours with which it has to be one piece."""
        while True:
            # (a piece that is changed keeps its first character, if it has one before it: a place between two pieces
            # is the end of the former. So no LF comes behind the CR of another piece here.)
            before, after = self._neighbour(first, -1), self._neighbour(last, 1)
            is_short = len(text) < self.least
            if before and is_short:
                first = before
                text = self._piece(before) + text
            elif after and (is_short or text[-1:] == "\r" and self._piece(after)[:1] == "\n"):
                last = after
                text += self._piece(after)
            else:
                break
        columns = self._measured(_cut(text, self.size))
        if first[0] == last[0]:
            self._put_pieces(first[0], first[1], last[1] + 1, columns)
            return
        for at, column in enumerate(columns):
            column[:0] = self._shelves[first[0]][at][: first[1]]
            column += self._shelves[last[0]][at][last[1] + 1 :]
        self._put_shelves(first[0], last[0] + 1, columns)

    def _piece(self, place: Tuple[int, int]) -> str:
        text: str = self._shelves[place[0]][_TEXT][place[1]]
        return text

    def _neighbour(self, place: Tuple[int, int], step: int) -> Any:
        """The place of the piece before or behind one, or None."""
        shelf, piece = place[0], place[1] + step
        if 0 <= piece < len(self._shelves[shelf][_TEXT]):
            return shelf, piece
        shelf += step
        if not 0 <= shelf < len(self._shelves):
            return None
        return shelf, 0 if step > 0 else len(self._shelves[shelf][_TEXT]) - 1

    def _measured(self, texts: Iterator[str]) -> _Columns:
        pieces = list(texts)
        breaks = [breaks_in(it, len(it)) for it in pieces]
        return [pieces, [len(it) for it in pieces], [self._units(it) for it in pieces], breaks]

    def _put_pieces(self, shelf: int, start: int, end: int, columns: _Columns) -> None:
        """Puts pieces in the place of others of a shelf."""
        there = self._shelves[shelf]
        for column, new in zip(there, columns):
            column[start:end] = new
        count = len(there[_TEXT])
        if count > 2 * self.shelf_size:
            self._put_shelves(shelf, shelf + 1, there)
            return
        if count >= self.shelf_least or len(self._shelves) == 1:
            for kind in (_CHARACTERS, _UNITS, _BREAKS):
                self._sums[kind][shelf] = sum(there[kind])
            self._ends = [None] * 4
            return
        other = shelf - 1 if shelf else 1
        low, high = sorted((shelf, other))
        both = [one + two for one, two in zip(self._shelves[low], self._shelves[high])]
        self._put_shelves(low, high + 1, both)

    def _put_shelves(self, start: int, end: int, columns: _Columns) -> None:
        """Puts shelves with these pieces in the place of others."""
        count = len(columns[_TEXT])
        many = max(1, count // self.shelf_size)
        cuts = [at * count // many for at in range(many + 1)]
        shelves = [[column[low:high] for column in columns] for low, high in zip(cuts, cuts[1:])]
        self._shelves[start:end] = shelves
        for kind in (_CHARACTERS, _UNITS, _BREAKS):
            self._sums[kind][start:end] = [sum(shelf[kind]) for shelf in shelves]
        self._ends = [None] * 4
