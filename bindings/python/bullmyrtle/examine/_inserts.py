"""What stands for something else in a case: $NAME, $(TEXT * COUNT) and $(hex BYTES)."""
from __future__ import annotations

import re
from typing import Dict, Mapping

#: What is known when a case is sent, beside the columns of its table.
NAMES = {
    "id": "an id that no other request has",
    "n": "with >COUNT, the id of each message: $id and those that follow it",
    "last": "the last of them",
    "asked": "in a reply, the id of the request",
    "length": "in bytes, how many of them are behind the empty line",
    "uri": "a document in the working folder",
    "root": "the working folder, as a URI",
    "version": "the version of the protocol",
    "tool": "the name of the server's first tool with a member that it requires",
    "required": "the name of that member",
}
_LENGTH = b"\0length\0"
_NAME = re.compile(r"\$([a-z]+)")
_MANY = re.compile(r"\$\((.+?) \* ([0-9_]+)\)")
_HEX = re.compile(r"\$\(hex ([0-9a-f ]+)\)")
_ESCAPE = re.compile(rb"\\(r|n|t|0|\\|x[0-9a-f]{2})")
_EMPTY_LINE = re.compile(rb"\r?\n\r?\n")
_ESCAPED = {b"r": b"\r", b"n": b"\n", b"t": b"\t", b"0": b"\0", b"\\": b"\\"}


def columns_filled(text: str, values: Mapping[str, str]) -> str:
    """A text with the values of a table's row in the place of their names."""
    return _NAME.sub(lambda it: values.get(it[1], it[0]), text)


def unknown(text: str) -> str:
    """A name that stands for nothing, or ""."""
    return next((it for it in _NAME.findall(text) if it not in NAMES), "")


def named(text: str, values: Mapping[str, str]) -> str:
    """A text with all that is named filled in."""
    return _NAME.sub(lambda it: values[it[1]] if it[1] in values else it[0], text)


def content_of(text: str, values: Mapping[str, str]) -> bytes:
    """The bytes of a message."""
    whole = _MANY.sub(lambda it: it[1] * int(it[2]), named(text, values))
    data = b""
    at = 0
    for it in _HEX.finditer(whole):
        data += whole[at : it.start()].encode() + bytes.fromhex(it[1])
        at = it.end()
    return data + whole[at:].encode()


def bytes_of(text: str, values: Dict[str, str]) -> bytes:
    """The bytes of a piece of a stream, whose escapes are \\r \\n \\t \\0 \\\\ and \\xHH."""
    data = content_of(text, {**values, "length": _LENGTH.decode()})
    data = _ESCAPE.sub(
        lambda it: _ESCAPED[it[1]] if it[1] in _ESCAPED else bytes.fromhex(it[1][1:].decode()), data
    )
    empty = _EMPTY_LINE.search(data)
    behind = len(data) - empty.end() if empty else 0
    return data.replace(_LENGTH, b"%d" % behind)
