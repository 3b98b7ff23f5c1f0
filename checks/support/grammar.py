"""Streams that are made at random: valid messages by a grammar, and then changes that hurt them."""
import json
import random
from dataclasses import dataclass, field
from typing import Any, Callable

from support.long_contents import BLANKS
from support.reading import entry_of

# What params, results and errors may be, beside those that can be traced.
PARAMS: tuple[Any, ...] = (
    [],
    ["x"],
    [2, 3],
    [2, "3"],
    [[1]],
    [1.5],
    [2**63 - 1, 1],
    [None, *range(16)],
    {"file": "f"},
    {"section": "s"},
    {"a": 1},
    "x",
    None,
)
RESULTS = (True, False, None, 5, "s", ["A", "B"], {"k": [1]}, [1.5])
ERRORS = (
    {"code": 5, "message": "m"},
    {"code": 5, "message": "m", "data": [1]},
    {"code": "5"},
    {"code": 5, "message": "m", "data": 0.5},
    None,
)
ODD: tuple[Any, ...] = (
    1,
    [],
    {},
    "x",
    None,
    {"foo": 1},
    {"method": 5},
    {"jsonrpc": "2.0", "method": "$/cancelRequest", "id": 1},
    {"id": 1, "result": 5},
)
ODD_IDS = (None, 0, -1, 2**63, 2**64 - 1, 2**64, -(2**63), 1.5, "", "\u00e9\n\U0001f600", True)
ODD_BYTES = b'\x00\xff\xc3"\\{}[],:0-e.\r\n \x7f'
HEADS = (
    b"content-length: %d\r\n\r\n",
    b"Content-Length:%d\r\nContent-Type: application/vscode-jsonrpc; charset=utf-8\r\n\r\n",
    b'Content-Type: text; charset="UTF8"; x\r\nX: \t~\r\nCONTENT-LENGTH: 00%d \r\n\r\n',
    b"Content-Length: %d\r\nContent-Type: text; charset=latin1\r\n\r\n",
)


@dataclass
class Grammar:
    """Makes the contents of one stream."""

    chance: random.Random
    methods: dict[str, int]  # with how many calls each may make
    calls: int = 0
    params: int = 0
    replies: int = 0
    ids: list[Any] = field(default_factory=list)
    due: list[tuple[int, int]] = field(default_factory=list)  # calls that may wait for a reply

    def pick(self, *choices: tuple[float, Callable[[], Any]]) -> Any:
        """One of the choices, by their weights."""
        weights, makers = zip(*choices)
        return self.chance.choices(makers, weights)[0]()

    def id_of(self) -> Any:
        """Mostly the next id, and at times one that stood before, the same as a text, or an odd one."""
        last = self.ids[-1] if self.ids else 0
        fresh = len(self.ids) + 1
        made = self.pick(
            (12, lambda: fresh),
            (2, lambda: str(fresh)),
            (1, lambda: str(last)),
            (1, lambda: last),
            (1, lambda: self.chance.choice(ODD_IDS)),
        )
        self.ids.append(made)
        return made

    def params_of(self) -> Any:
        self.params += 1
        traced = f"param-{self.params}"
        return self.pick(
            (8, lambda: [traced, self.chance.randint(-5, 5), self.chance.randint(0, 2**62)]),
            (3, lambda: [traced] * self.chance.randint(1, 3)),
            (1, lambda: {"text": traced, "section": traced, "file": traced}),
            (1, lambda: self.chance.choice(PARAMS)),
        )

    def method(self) -> str:
        """Rather one that calls back."""
        names = sorted(self.methods)
        return self.chance.choices(names, [1 + min(self.methods[it], 3) for it in names])[0]

    def call(self) -> dict[str, Any]:
        entry = {"jsonrpc": "2.0", "method": self.method(), "params": self.params_of(), "id": self.id_of()}
        if self.chance.random() < 0.08:
            del entry[self.chance.choice(("id", "params", "jsonrpc", "id"))]
        return entry

    def unknown(self) -> dict[str, Any]:
        return {
            "jsonrpc": "2.0",
            "id": self.id_of(),
            "method": self.chance.choice(("nope", "$/nope", "$/cancelRequest", "")),
        }

    def key(self) -> str:
        """Mostly one of a call that may wait; at times one that had its reply, or of a call that comes later, or of
        none."""
        if self.due and self.chance.random() < 0.9:
            number, turn = self.chance.choice(self.due[-12:])
            if self.chance.random() < 0.6:
                turn = min(other for it, other in self.due if it == number)
            if self.chance.random() < 0.9:
                self.due.remove((number, turn))
        else:
            number, turn = self.chance.randint(0, self.calls + 3), self.chance.randint(1, 4)
        return self.pick(  # type: ignore[no-any-return]
            (60, lambda: f"{number}.{turn}"),
            (1, lambda: f"0{number}.{turn}"),
            (1, lambda: f"{number}.0"),
            (1, lambda: f"1000001.{turn}"),
            (1, lambda: number),
        )

    def reply(self) -> dict[str, Any]:
        self.replies += 1
        traced = f"reply-{self.replies}"
        entry = {"jsonrpc": "2.0", "id": self.key()}
        said = self.pick(
            (16, lambda: {"result": traced}),
            (2, lambda: {"result": {"k": [traced]}}),
            (2, lambda: {"error": {"code": self.replies, "message": traced}}),
            (1, lambda: {"error": {"code": 5, "message": "m", "data": [traced]}, "result": None}),
            (1, lambda: {"result": self.chance.choice(RESULTS)}),
            (1, lambda: {"error": self.chance.choice(ERRORS)}),
            (1, lambda: {"result": traced, "error": self.chance.choice(ERRORS)}),
        )
        return {**entry, **said}

    def cancel(self) -> dict[str, Any]:
        """Mostly of a request that came a short while ago; at times of its number, of the same id as a text, or of one
        that comes later."""
        known = self.ids[-4:] or [1]
        named = self.pick(
            (8, lambda: self.chance.choice(known)),
            (1, lambda: self.chance.randint(1, self.calls + 1)),
            (1, lambda: str(self.chance.choice(known))),
            (1, lambda: len(self.ids) + 1),
            (1, lambda: self.chance.choice(ODD_IDS)),
        )
        more = {"x": 1.5} if self.chance.random() < 0.03 else {}
        return {"jsonrpc": "2.0", "method": "$/cancelRequest", "params": {"id": named, **more}}

    def entry(self) -> Any:
        made = self.pick(
            (10, self.call),
            (12, self.reply),
            (2, self.cancel),
            (1, self.unknown),
            (1, lambda: self.chance.choice(ODD)),
        )
        if entry_of(made).kind == "call":
            self.calls += 1
            most = self.methods.get(made["method"], 0)
            self.due += [(self.calls, turn) for turn in range(1, most + 1)]
        return made

    def value(self) -> Any:
        """A message, and now and then a batch."""
        return [self.entry() for _ in range(self.chance.randint(0, 5))] if self.chance.random() < 0.25 else self.entry()

    def content(self) -> bytes:
        value = self.value()
        spaced = self.chance.random() < 0.1
        return json.dumps(value, ensure_ascii=self.chance.random() < 0.5, indent=1 if spaced else None).encode()


# Changes


def place_in(chance: random.Random, data: bytes) -> int:
    """A place in some bytes, rather behind than before."""
    return max(chance.randrange(len(data) + 1), chance.randrange(len(data) + 1))


def hurt_bytes(chance: random.Random, data: bytes) -> bytes:
    """Some bytes less, more or others."""
    for _ in range(chance.randint(1, 3)):
        at, length = place_in(chance, data), chance.randint(0, 3)
        data = data[:at] + bytes(chance.choices(ODD_BYTES, k=chance.randint(0, 2))) + data[at + length :]
    return data


def hurt_text(chance: random.Random, content: bytes) -> bytes:
    """A content whose words are changed."""
    old, new = chance.choice(
        (
            (b'"2.0"', b'"1.0"'),
            (b'"id": ', b'"id": "x", "id": '),
            (b'"method"', b'"Method"'),
            (b'"params": [', b'"params": [1e2, '),
            (b'"params": [', b'"params": [-0, '),
            (b'"params": [', b'"params": [1e400, '),
            (b'"params": [', b'"params": ["\\ud83d\\ude00", '),
            (b'"params": [', b'"params": ["\\ud83d", '),
            (b'"result": ', b'"error": null, "result": '),
            (b'"id": ', b'"\\u0069d": '),
            (b"[", b"[" * 126),
            (b"]", b"],"),
            (b'"', b"'"),
        )
    )
    return content.replace(old, new, chance.choice((1, 1, -1)))


def nested(chance: random.Random, content: bytes) -> bytes:
    """A content with params that nest some 127 deep."""
    depth = chance.choice((1, 125, 126, 127, 128, 200))
    return content.replace(b'"params": [', b'"params": [' + b"[" * depth + b"]" * depth + b", ", 1)


def framed(chance: random.Random, content: bytes) -> bytes:
    """A content in its frame. Now and then it is long."""
    content += BLANKS.encode() if chance.random() < 0.06 else b""
    head = chance.choice(HEADS) if chance.random() < 0.06 else b"Content-Length: %d\r\n\r\n"
    return head % len(content) + content


def hurt_frame(chance: random.Random, frame: bytes) -> bytes:
    """A frame whose head is wrong, or says another length."""
    old, new = chance.choice(
        (
            (b"Content-Length: ", b"Content-Length: 1"),
            (b"Content-Length: ", b"Content-Length: +"),
            (b"Content-Length: ", b"Content-Length : "),
            (b"Content-Length: ", b"Content-Length: 5\r\nContent-Length: "),
            (b"Content-Length: ", b"Content-Length: 0000000000"),
            (b"Content-Length: ", b"X: " + b"a" * chance.choice((4_000, 4_100)) + b"\r\nContent-Length: "),
            (b"Content-Length: ", b"\r\n"),
            (b"\r\n\r\n", b"\n\n"),
            (b"\r\n\r\n", b"\r\n"),
        )
    )
    return frame.replace(old, new, 1)


def stream(chance: random.Random, methods: dict[str, int]) -> list[bytes]:
    """The parts of a stream, most of which are frames."""
    grammar = Grammar(chance, methods)
    contents = [grammar.content() for _ in range(chance.randint(4, 18))]
    kind = chance.random()
    if kind < 0.25:
        at = chance.randrange(len(contents))
        contents[at] = chance.choice((hurt_bytes, hurt_text, hurt_text, nested))(chance, contents[at])
    parts = [framed(chance, it) for it in contents]
    if 0.25 <= kind < 0.4:
        at = chance.randrange(len(parts))
        parts.insert(chance.randint(at, len(parts)), parts[at])
    elif 0.4 <= kind < 0.45:
        one, other = chance.randrange(len(parts)), chance.randrange(len(parts))
        parts[one], parts[other] = parts[other], parts[one]
    elif 0.45 <= kind < 0.55:
        at = place_in(chance, b"x" * (len(parts) - 1))
        parts[at] = chance.choice((hurt_frame, hurt_bytes))(chance, parts[at])
    elif 0.55 <= kind < 0.6:
        at = place_in(chance, b"x" * (len(parts) - 1))
        parts[at:] = [parts[at][: chance.randrange(len(parts[at]))]]
    return parts
