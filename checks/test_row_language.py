"""The language of rows gives the bytes that a line stands for, and refuses each line that it doesn't know, so that no
row passes because it was mistyped: of both peers."""
from typing import Callable

import pytest

from support import connection_rows, row_files
from support.expecting import check, same
from support.naming import named
from support.row_language import Unread, block_of, read_file, wire_of

# A line, and how often which bytes come or go by it.
LINES = [
    ("<< a\\r\\n", 1, b"a\r\n"),
    (">> \\x00\\xff\\\\\\t", 1, b"\x00\xff\\\t"),
    ("<<3 \u00fc", 3, b"\xc3\xbc"),
    ("< \\r", 1, b"\\r"),
    (">+2 []", 2, b"[]"),
    ("<  ", 1, b" "),
]


@pytest.mark.parametrize("row", named(LINES))
def test_line(row: tuple[str, int, bytes]) -> None:
    line, times, wanted = row
    wire = wire_of(line)
    same(wire and (wire.times, wire.bytes), (times, wanted))


@pytest.mark.parametrize("line", named(("<", "<[]", "<0 []", "<x []", "<<< []", "<-1 []", "+ []", "=> []"), str))
def test_other_line(line: str) -> None:
    """It has nothing come or go."""
    check(wire_of(line) is None)


def is_refused(read: Callable[[], object]) -> bool:
    try:
        read()
    except Unread:
        return True
    return False


FILE = "Rows.\n\na row: lines\n< []\n<+ []\n"
BROKEN_FILES = [
    ("Rows.", "rows."),
    ("Rows.", "Rows"),
    ("\n\n", "\n"),
    ("\n\n", "\n\n\n"),
    (": lines", ""),
    (": lines", ": lines "),
    ("a row", ""),
    ("< []\n<+", "<+ []\n<"),
    ("< []\n<+", "> []\n<+"),
    ("< []\n<+", "< []\nor\n<+"),
    ("[]\n<+ []\n", "[]\n\na row: lines\n"),
    (FILE[FILE.index("\n\n") :], ""),
]


@pytest.mark.parametrize("row", named(BROKEN_FILES, lambda it: f"{it[1]!r} in the place of {it[0]!r}"))
def test_refused_file(row: tuple[str, str]) -> None:
    check(is_refused(lambda: read_file(FILE.replace(*row, 1))))


def test_right_file() -> None:
    same([it.lines for it in read_file(FILE)[1]], [["< []", "<+ []"]])


# What a row of a connection is in the language of scripts: one action a line.
FRAMED = "436f6e74656e742d4c656e6774683a20320d0a0d0a5b5d"
SETTINGS = "settings lines as-answered cancels 16777216 1000"
ACTIONS = [
    ("a: lines", [(SETTINGS, "ok")]),
    ("a: lines as-came no-cancels content 9 calls 8", [("settings lines as-came no-cancels 9 8", "ok")]),
    ("a: lines\n< []\n<+2 5", [(SETTINGS, "ok"), ("feed 5b5d0a350a350a", "ok")]),
    ("a: lines\n< []\n< 5", [(SETTINGS, "ok"), ("feed 5b5d0a", "ok"), ("feed 350a", "ok")]),
    ("a: lines\n<< []\n> []", [(SETTINGS, "ok"), ("feed 5b5d", "ok"), ("take 1000", "bytes 5b5d0a")]),
    (
        "a: settings\nsettings frames as-came cancels 1 1\n> []",
        [("settings frames as-came cancels 1 1", "ok"), ("take 1000", f"bytes {FRAMED}")],
    ),
    ("a: lines\nnext => call 1 'a' - '7'", [(SETTINGS, "ok"), ("next", "call 1 61 - 37")]),
]


@pytest.mark.parametrize("row", named(ACTIONS))
def test_row_of_a_connection(row: tuple[str, list[tuple[str, str]]]) -> None:
    text, wanted = row
    found = connection_rows.row_in(text)
    same([(action.line, gives) for action, gives in zip(found.actions, found.gives)], wanted)


REFUSED_ROWS = (
    "a: line",
    "a: lines as-come",
    "a: lines content",
    "a: lines content x",
    "a: as-came lines",
    "a: lines\nnxt => none",
    "a: lines\nnext 1 => none",
    "a: lines\nfeed xyz",
    "a: lines\n<< \\q",
    "a: lines\n<[]",
)


@pytest.mark.parametrize("text", named(REFUSED_ROWS, str))
def test_refused_row_of_a_connection(text: str) -> None:
    check(is_refused(lambda: connection_rows.row_in(text)))


@pytest.mark.parametrize("text", named(("a: eager\n< []\n! Clear", "a: eagre\n< []", "a: eager\nnext => none"), str))
def test_refused_row_of_a_peer_with_a_table(text: str) -> None:
    check(is_refused(lambda: row_files.row_of(block_of(text))))
