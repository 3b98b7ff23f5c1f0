"""Reads the rows of checks/played_rows, of the peer with a table: what comes in, and what has to go out.

row_language.py has their language. The second line of a file says by the methods of which tables its rows are played.
Beside what comes in and goes out, which is one stream each, a row has these lines:

    a call back and its reply: eager lazy served        its ways: see WAYS, or a number of workers
    or                                                  after it, another output that there may be
    ! TwoLengths                                        how the input ends, where it doesn't end clean
    = numbers 1, answers 1                              what is counted, or a part of it"""
import os
import re
from dataclasses import dataclass, field

from support.row_language import Block, Unread, Wire, read_file, wire_of

FOLDER = os.path.join(os.path.dirname(os.path.dirname(os.path.abspath(__file__))), "played_rows")
TABLES = ("none", "methods", "opening", "each", "every")
# What the words of a row's first line stand for. A number is one of workers.
WAYS = {
    "eager": ["play eager first"],
    "lazy": ["play lazy first"],
    "last": ["play eager last"],
    "listed": ["play eager 1"],  # (the place 1 first, and then the place 0)
    "places": ["play lazy 1,0"],  # (the place 1, the place 0, and then the place 0 each time)
    "served": [f"serve {it}" for it in (1, 2, 3, 4, 64)],
}
COUNTS = {"numbers": "numbers", "messages": "messages", "call frames": "calls", "answers": "answers", "polls": "polls"}
ENDS = ("BadHead", "BadLength", "TwoLengths", "TooLarge", "NoLength", "HeadTooLong", "Truncated", "Workers")


def frame(content: str | bytes) -> bytes:
    content = content.encode() if isinstance(content, str) else content
    return b"Content-Length: %d\r\n\r\n%s" % (len(content), content)


@dataclass
class Row:
    """What comes in, and what has to come of it."""

    name: str
    ways: list[str]
    stream: bytes = b""
    outputs: list[bytes] = field(default_factory=lambda: [b""])  # one of these is written
    end: str = "Clean"
    counts: dict[str, int] = field(default_factory=dict)
    given: list[str] = field(default_factory=list)  # the contents that come in, and that go out
    contents: list[str] = field(default_factory=list)
    is_of_contents: bool = True  # no other bytes come in or go out, and one output

    def take(self, wire: Wire) -> None:
        """Takes what comes in or goes out."""
        piece = (wire.bytes if wire.is_bytes else frame(wire.text)) * wire.times
        self.is_of_contents &= not wire.is_bytes
        if wire.comes:
            self.stream += piece
            self.given += [wire.text] * wire.times
        else:
            self.outputs[-1] += piece
            self.contents += [wire.text] * wire.times


def read_counts(text: str) -> dict[str, int]:
    found: dict[str, int] = {}
    for it in text.split(", "):
        name, _, number = it.rpartition(" ")
        if name not in COUNTS or name in found or not number.isdecimal():
            raise Unread(f"{it} is no count")
        found[name] = int(number)
    return found


def read_line(row: Row, line: str) -> None:
    """Takes a line into the row that it is of."""
    wire, (mark, _, text) = wire_of(line), line.partition(" ")
    if wire:
        row.take(wire)
    elif line == "or":
        row.outputs.append(b"")
        row.is_of_contents = False
    elif mark == "!" and text in ENDS and row.end == "Clean":
        row.end = text
    elif mark == "=" and not row.counts:
        row.counts = read_counts(text)
    else:
        raise Unread("a line of no kind")


def row_of(block: Block) -> Row:
    if not all(it in WAYS or it.isdecimal() for it in block.ways):
        raise Unread(f"{block.name}: a way that isn't known: {block.ways}")
    row = Row(block.name, block.ways)
    for line in block.lines:
        try:
            read_line(row, line)
        except Unread as fault:
            raise Unread(f"{block.name}: {fault}: {line}") from fault
    return row


def read_rows(text: str) -> tuple[list[str], list[Row]]:
    """The tables that a file names, and its rows."""
    facts, blocks = read_file(text)
    tables = re.fullmatch(r"tables: (\w+(?: \w+)*)", facts[0]) if len(facts) == 1 else None
    if not tables or not {*tables[1].split()} <= {*TABLES}:
        raise Unread(f"no line with tables that are known: {facts}")
    return tables[1].split(), [row_of(it) for it in blocks]


def rows_of(name: str) -> tuple[list[str], list[Row]]:
    """The tables and the rows of a file of checks/played_rows."""
    with open(os.path.join(FOLDER, f"{name}.txt"), encoding="utf-8", newline="") as it:
        return read_rows(it.read())
