"""Rows of checks/connection_rows, of a connection and its host: what comes and goes, and what the host does between.

row_language.py has their language. The ways of a row are the settings of its connection: a framing, and what is other
than in STANDARD, as in `a content that is too long: lines content 30`, or in `.. : lines mcp broken`, where cancels are
MCP's and broken contents are told, or `.. : lines nulls entries=2`. With `settings` for its ways a row begins with
an action of that name. What comes in is fed, in the connection's framing; what goes out is all that a `take` gives.
Beside these a row has an action a line, in the language of connection_script.py. After ` => ` stands what the action
gives; where nothing stands there, that is `ok`:

    a call, and its reply: lines
    < {"jsonrpc":"2.0","method":"delete","id":7}
    next => call 1 'delete' - '7'
    call 1 'confirm' '["a.txt"]' => key 1
    > {"id":1,"jsonrpc":"2.0","method":"confirm","params":["a.txt"]}

Where that language has HEX, a row has parts joined by `+`, each of which may have a count before it, as `200*'['`:

    'text'          the text in UTF-8
    frame'text'     the same with its head
    line'text'      the same with an LF after it
    0d0a            bytes"""
import glob
import os
import re
from dataclasses import dataclass, replace
from typing import Iterator

from support import connection_script as script
from support import ran
from support import rows as hostile
from support.row_files import frame
from support.row_language import Block, Unread, Wire, block_of, read_file, wire_of

FOLDER = os.path.join(ran.TOP, "checks", "connection_rows")
PART = re.compile(r"(?:([0-9]+)\*)?(?:(frame|line|)'([^']*)'|((?:[0-9a-f]{2})+))")
WORD = re.compile(r"(?:[^ ']|'[^']*')+")
# The settings that a row has where its ways say nothing else, behind the framing; and how much a `take` asks for.
STANDARD = ("as-answered", "cancels", "16777216", "1000")
ROOM = 1000
# The most places at which a feed is cut.
MOST_CUTS = 400
# Lines that are no action.
UNREADABLE = (
    "",
    "next ",
    " next",
    "Next",
    "turn",
    "next 1",
    "feed",
    "feed 0",
    "feed 0A",
    "feed -",
    "feed 00 00",
    "end",
    "end soon",
    "answer 01 .",
    "answer -1 .",
    "answer 18446744073709551616 .",
    "answer 1",
    "call 1 -",
    "call 1 - -",
    "batch",
    "batch 1 .",
    "fail 1 9223372036854775808 . -",
    "fail 1 -0 . -",
    "fail 1 5 - -",
    "settings frames as-answered cancels 1",
    "settings frame as-answered cancels 1 1",
    "settings frames answered cancels 1 1",
    "settings frames as-came on 1 1",
    "settings frames as-came lsp 1 1",
    "settings frames as-came mcp 1 1 more",
    "settings frames as-came mcp 1 1 broken broken",
    "settings frames as-came mcp 1 1 nulls broken",
    "settings frames as-came mcp 1 1 entries",
    "settings frames as-came mcp 1 1 entries=",
    "settings frames as-came mcp 1 1 entries=0",
    "settings frames as-came mcp 1 1 entries=01",
    "settings frames as-came mcp 1 1 entries=1 broken",
    "settings frames as-came mcp 1 1 entries=1 entries=1",
    "settings frames as-came broken 1 1",
    "fault_place 1",
    "fault-place",
)


@dataclass(frozen=True)
class Row:
    name: str
    actions: tuple[script.Action, ...]
    gives: tuple[str, ...]

    @property
    def byte_by_byte(self) -> "Row":
        """The same with the feeds of frames and lines cut everywhere."""
        pairs = [
            pair
            for framing, action, gives in zip(self.framings, self.actions, self.gives)
            for pair in cut(framing, action, gives)
        ]
        return Row(f"{self.name}, byte by byte", tuple(it for it, _ in pairs), tuple(it for _, it in pairs))

    @property
    def cut_once(self) -> "Row":
        """The same with each feed of frames and lines cut into two, at each place in turn; of long ones at some
        places."""
        ways = [
            self.cut_at(at, place) for at, it in enumerate(zip(self.framings, self.actions)) for place in places_in(*it)
        ]
        actions, gives = zip(*(pair for way in ways or [list(zip(self.actions, self.gives))] for pair in way))
        return Row(f"{self.name}, cut once", actions, gives)

    def cut_at(self, at: int, place: int) -> list[tuple[script.Action, str]]:
        """The actions and what they give, where the feed at one place is cut into two."""
        pairs = list(zip(self.actions, self.gives))
        feed, gives = pairs[at]
        pieces = [replace(feed, given=(it,)) for it in (feed.given[0][:place], feed.given[0][place:])]  # type: ignore[index]
        return [*pairs[:at], *((it, gives) for it in pieces), *pairs[at + 1 :]]

    @property
    def framings(self) -> Iterator[str]:
        """The framing that each action has."""
        framing = ""
        for it in self.actions:
            framing = str(it.given[0]) if it.name == "settings" else framing
            yield framing


def cut(framing: str, action: script.Action, gives: str) -> list[tuple[script.Action, str]]:
    data = action.given[0] if action.name == "feed" else b""
    if framing == "contents" or not isinstance(data, bytes) or data == b"":
        return [(action, gives)]
    return [(replace(action, given=(data[at : at + 1],)), gives) for at in range(len(data))]


def places_in(framing: str, action: script.Action) -> range:
    """Where a feed is cut."""
    if framing == "contents" or action.name != "feed":
        return range(0)
    length = len(action.given[0])  # type: ignore[arg-type]
    return range(1, length, 1 + length // MOST_CUTS)


def bytes_of(part: str) -> bytes:
    found = PART.fullmatch(part)
    if found is None:
        raise ValueError(f"{part!r} can't be read")
    data = bytes.fromhex(found[4]) if found[4] else found[3].encode()
    head = b"Content-Length: %d\r\n\r\n" % len(data) if found[2] == "frame" else b""
    return (head + data + (b"\n" if found[2] == "line" else b"")) * int(found[1] or 1)


def plain(words: str) -> str:
    """A line of a row as a line of a script."""
    return " ".join(joined(it) if "'" in it or "+" in it or "*" in it else it for it in WORD.findall(words))


def joined(word: str) -> str:
    parts = re.findall(r"(?:[^+']|'[^']*')+", word)
    return script.hex_of(b"".join(map(bytes_of, parts)))


def settings_of(ways: list[str]) -> list[str]:
    """The settings that a row's ways stand for, as words of an action."""
    (framing, order, cancels, content, calls), told = (ways[0], *STANDARD), list[str]()
    rest = iter(ways[1:])
    for it in rest:
        if it in script.ORDERS:
            order = it
        elif it in script.CANCELS:
            cancels = it
        elif it in script.TELLING or script.ENTRIES.fullmatch(it):
            told.append(it)
        elif it == "content":
            content = next(rest, "")
        elif it == "calls":
            calls = next(rest, "")
        else:
            raise Unread(f"a way that isn't known: {it}")
    return ["settings", framing, order, cancels, content, calls, *told]


def framed(wire: Wire, framing: str) -> bytes:
    """What comes or goes by a line, in a framing."""
    if not wire.is_bytes and framing == "frames":
        return frame(wire.text) * wire.times
    return (wire.bytes + (b"\n" if not wire.is_bytes and framing == "lines" else b"")) * wire.times


class Reading:
    """A row as it is read, line by line."""

    def __init__(self, block: Block) -> None:
        self.framing = ""
        self.pairs: list[tuple[str, str]] = []  # the actions, and what each gives
        self.piece = b""  # what came or went by the line before
        if block.ways != ["settings"]:
            self.act(" ".join(settings_of(block.ways)), "")
        for line in block.lines:
            self.take(line)

    def take(self, line: str) -> None:
        if wire := wire_of(line):
            self.move(wire)
        else:
            action, _, gives = line.partition(" => ")
            self.act(action.strip(), gives.strip())

    def act(self, action: str, gives: str) -> None:
        self.pairs.append((plain(action), plain(gives) or "ok"))
        if action.startswith("settings "):
            self.framing = action.split(" ")[1]

    def move(self, wire: Wire) -> None:
        """What comes is fed, and what goes is taken, in one piece with the line before where that is so."""
        if wire.is_joined:
            self.pairs.pop()
        self.piece = (self.piece if wire.is_joined else b"") + framed(wire, self.framing)
        told = script.hex_of(self.piece)
        self.pairs.append((f"feed {told}", "ok") if wire.comes else (f"take {ROOM}", f"bytes {told}"))


def row_of(block: Block) -> Row:
    try:
        pairs = Reading(block).pairs
        return Row(block.name, tuple(script.action_of(it) for it, _ in pairs), tuple(gives for _, gives in pairs))
    except ValueError as fault:
        raise Unread(f"{block.name}: {fault}") from fault


def row_in(text: str) -> Row:
    """One row by itself."""
    return row_of(block_of(text))


def rows_of(file: str) -> list[Row]:
    with open(file, encoding="utf-8", newline="") as it:
        facts, blocks = read_file(it.read())
    if facts:
        raise Unread(f"{file}: lines that hold for all rows: {facts}")
    return [row_of(it) for it in blocks]


def hosted(name: str, given: bytes, output: bytes, end: str) -> Row:
    """A row of the peer without methods, by a host that has none either: it answers each call that no method is
    found."""
    runner, actions, gives = script.Runner(), list[script.Action](), list[str]()

    def do(line: str) -> str:
        actions.append(script.action_of(line))
        gives.append(runner.do(actions[-1]))
        return gives[-1]

    do("settings frames as-came cancels 16777216 1000000")
    do(f"feed {script.hex_of(given)}")
    do("end closed")
    while (event := do("next")).startswith("call"):
        do(f"fail {event.split(' ')[1]} -32601 {script.hex_of(b'Method not found')} -")
    do("take 1000000")
    return Row(
        f"without methods: {name}",
        tuple(actions),
        (*gives[:-2], f"over {end or 'Clean'}", f"bytes {script.hex_of(output)}"),
    )


def all_rows() -> list[Row]:
    """The rows that are written by hand, and those of the peer without methods."""
    return rows_by_hand() + [hosted(*it) for it in hostile.ROWS]


def rows_by_hand() -> list[Row]:
    return [row for file in sorted(glob.glob(os.path.join(FOLDER, "*.txt"))) for row in rows_of(file)]
