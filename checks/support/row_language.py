"""The language of rows, for both peers: what comes in, what goes out, and what else a row of its kind has.

A file of rows begins with a sentence that says what they are about, and with lines of what holds for all of them, if
anything does. Then come the rows, each with an empty line before it:

    a call back and its reply: eager lazy served        its name, and its ways: how it is played
    < {"jsonrpc":"2.0","method":"ask","id":7}           a content that comes in; <3 has it come three times
    << Content-Length: 40\\r\\n                           bytes that come in
    > {"id":7,"jsonrpc":"2.0","result":true}            a content that goes out; >> bytes that do
    >+ {"id":8,"jsonrpc":"2.0","result":1}              it goes out in one piece with the line above; so do <+, <<+ and >>+
    = answers 2                                         lines of other kinds: row_files.py has those of the peer with a
                                                        table, and connection_rows.py those of a connection's host

In bytes \\r, \\n, \\t, \\\\ and \\xHH stand for what they do in Python; in contents nothing stands for anything else."""
import re
from dataclasses import dataclass

WIRE = re.compile(r"(<<?|>>?)(\+?)([1-9]\d*)? (.*)")
ESCAPE = re.compile(rb"\\(x[0-9a-f]{2}|.?)", re.S)
ESCAPES = {b"r": b"\r", b"n": b"\n", b"t": b"\t", b"\\": b"\\"}


class Unread(Exception):
    """A line that isn't understood."""


@dataclass(frozen=True)
class Wire:
    """What comes in or goes out by one line."""

    comes: bool
    text: str  # a content, or bytes as they are written
    times: int
    is_bytes: bool
    is_joined: bool  # whether it is in one piece with the line above

    @property
    def bytes(self) -> bytes:
        """The bytes of such a line, once."""
        return unescaped(self.text) if self.is_bytes else self.text.encode()


@dataclass(frozen=True)
class Block:
    """A row as it is written: its name, its ways, and its lines."""

    name: str
    ways: list[str]
    lines: list[str]


def unescaped(text: str) -> bytes:
    """Bytes as they are written."""

    def byte(found: "re.Match[bytes]") -> bytes:
        if found[1].startswith(b"x") and len(found[1]) == 3:
            return bytes.fromhex(found[1][1:].decode())
        if found[1] not in ESCAPES:
            raise Unread(f"{found[0]!r} stands for nothing")
        return ESCAPES[found[1]]

    return ESCAPE.sub(byte, text.encode())


def wire_of(line: str) -> Wire | None:
    """What a line has come in or go out, if it is of that kind."""
    found = WIRE.fullmatch(line)
    if found is None:
        return None
    mark, plus, times, text = found.groups()
    return Wire(mark[0] == "<", text, int(times or 1), len(mark) > 1, bool(plus))


def block_of(text: str) -> Block:
    head, *lines = text.split("\n")
    name, found, ways = head.rpartition(": ")
    if not name or not found or not all(ways.split(" ")) or not all(lines):
        raise Unread(f"a row without a name, without ways, or with an empty line: {head}")
    above: Wire | None = None
    for line in lines:
        wire = wire_of(line)
        if wire and wire.is_joined and (above is None or above.comes != wire.comes):
            raise Unread(f"{name}: nothing stands above that it is one piece with: {line}")
        above = wire
    return Block(name, ways.split(" "), lines)


def read_file(text: str) -> tuple[list[str], list[Block]]:
    """What holds for all rows of a file, a line each, and the rows."""
    head, *texts = text.removesuffix("\n").split("\n\n")
    about, *facts = head.split("\n")
    if not re.fullmatch(r"[A-Z].*\.", about):
        raise Unread(f"no line that says what the rows are about: {about}")
    found = [block_of(it) for it in texts]
    if not found or len({it.name for it in found}) < len(found):
        raise Unread("no rows, or two of one name")
    return facts, found
