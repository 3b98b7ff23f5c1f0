"""Sessions of a connection that are made at random: what the other side sends, cut and hurt, and what the host does
with it.

A host is made beside the model, so that it knows which calls are open and which keys wait, and at times does what it
may not. A session is a script (connection_script.py) and what each of its actions gives by the model."""
import random
from dataclasses import dataclass
from typing import Any, Callable, Optional

from support import grammar
from support.connection_model import MOST_CALLS, USUAL_CONTENT
from support.connection_reading import CANCELS as NAMES_OF_CANCELS
from support.connection_reading import Input
from support.connection_script import FRAMINGS, ORDERS, TELLING, Action, Runner

METHODS = {"a": 1, "add": 0, "ask": 2, "$/progress": 0, '\u00e9\n"': 0, "": 0}
TEXTS = (
    b"null",
    b"true",
    b"5",
    b"-0",
    b"1e400",
    b' [ 1.50 , {"a":"\\/"} ] ',
    b'"\\u00e9\\n"',
    b"{}",
    b'{"b":1,"a":[],"b":2}',
    b"[" * 120 + b"]" * 120,
)
PARAMS = (None, None, b"[]", b"{}", b'["x", 1.50]', b'{ "k" : "\\u001f" }', b"[[[1e-7]]]")
NO_JSON = (
    b"",
    b"nul",
    b"1 2",
    b"[1,]",
    b"01",
    b"NaN",
    b'"\\ud83d"',
    b'"\xff"',
    b"\xef\xbb\xbf1",
    b"[" * 121 + b"]" * 121,
    b'"\n"',
)
NO_PARAMS = (b"null", b"1", b'"x"', b"true")
NO_TEXTS = (b"\xff", b"\xc0\x80", b"a\xed\xa0\x80")
NAMES = (b"a", b"ask", b"$/cancelRequest", b"notifications/cancelled", b"", "\u00e9\n\U0001f600".encode(), b'"\\')
# What no request has for an id, and a cancel may name.
NO_IDS = (None, 1.5, -0.0, True, [1])
CODES = (-32800, -32601, 0, 5, -(2**63), 2**63 - 1)
MOST_STEPS = 45


@dataclass(frozen=True)
class Session:
    actions: tuple[Action, ...]
    gives: tuple[str, ...]
    left: int  # how many requests were closed without an answer


class Peer(grammar.Grammar):
    """The other side: sends calls, cancels, and replies to the keys that it was given."""

    def __init__(self, chance: random.Random, runner: Runner) -> None:
        super().__init__(chance, METHODS)
        self.runner = runner

    def waiting(self) -> list[int]:
        return self.runner.model.keys_that(lambda it: it.waits)

    def withdrawn(self) -> list[int]:
        return self.runner.model.keys_that(lambda it: it.is_withdrawn)

    def entry(self) -> Any:
        return self.pick(
            (10, self.call),
            (9 if self.waiting() else 1, self.reply),
            (4, self.cancel),
            (1, self.unknown),
            (1, lambda: self.chance.choice(grammar.ODD)),
        )

    def key(self) -> Any:
        """Mostly one that waits; at times one that was withdrawn, any, one that is to come, or none."""
        keys, waiting, withdrawn = len(self.runner.model.ours), self.waiting(), self.withdrawn()
        return self.pick(
            (20 if waiting else 0, lambda: self.chance.choice(waiting)),
            (2 if withdrawn else 0, lambda: self.chance.choice(withdrawn)),
            (2, lambda: self.chance.randint(1, keys + 2)),
            (1, lambda: self.chance.choice((0, -1, None, 1.0, str(keys), 2**53, 2**64 - 1, 2**64))),
        )

    def cancel(self) -> Any:
        return self.chance.choice(self.cancels_of(super().cancel()))

    def cancels_of(self, cancel: dict[str, Any]) -> list[dict[str, Any]]:
        """A cancel by the name of the conversation's, eighteen times, and what looks like it; among it the other name's."""
        ours = self.runner.model.settings.cancels or "lsp"
        other = "mcp" if ours == "lsp" else "lsp"
        named = self.named(cancel, ours)
        member = NAMES_OF_CANCELS[ours][1]
        return [named] * 18 + [
            {**named, "id": 5},
            {**named, "params": [named["params"][member]]},
            {**named, "params": {**named["params"], member: self.chance.choice(NO_IDS)}},
            {**named, "params": {"more": named["params"][member]}},
            {**named, "jsonrpc": "2"},
            self.named(cancel, other),
            {**named, "params": self.named(cancel, other)["params"]},
        ]

    def named(self, cancel: dict[str, Any], whose: str) -> dict[str, Any]:
        """The same cancel in the words of LSP or of MCP, which may also say a reason."""
        method, member = NAMES_OF_CANCELS[whose]
        params = {member: cancel["params"]["id"], **{name: it for name, it in cancel["params"].items() if name != "id"}}
        if self.chance.random() < 0.2:
            params["reason"] = self.chance.choice(("gone", None, 7))
        return {**cancel, "method": method, "params": params}

    def hurt(self, content: bytes) -> bytes:
        if self.chance.random() < 0.93:
            return content
        return self.chance.choice((grammar.hurt_bytes, grammar.hurt_text, grammar.hurt_text, grammar.nested))(
            self.chance, content
        )

    def frame(self, framing: str) -> bytes:
        """A content as it is sent, which mostly is whole."""
        content = self.hurt(self.content())
        if framing == "contents":
            return content
        if framing == "lines":
            return self.line(content)
        frame = grammar.framed(self.chance, content)
        return grammar.hurt_frame(self.chance, frame) if self.chance.random() < 0.02 else frame

    def line(self, content: bytes) -> bytes:
        if self.chance.random() < 0.95:
            content = content.replace(b"\n", b" ")
        before = self.chance.choices((b"", b"\n", b" \t\r\n", b"\r\r\n", b"\xef\xbb\xbf"), (60, 3, 3, 1, 1))[0]
        return before + content + self.chance.choices((b"\n", b"\r\n"), (5, 1))[0]


class Maker:
    """Makes one session."""

    def __init__(self, chance: random.Random) -> None:
        self.chance = chance
        self.runner = Runner()
        self.actions: list[Action] = []
        self.gives: list[str] = []
        self.unsent = b""  # what the other side has sent, and the host hasn't fed
        self.framing = chance.choice(FRAMINGS)
        self.peer = Peer(chance, self.runner)

    @property
    def model(self) -> Any:
        return self.runner.model

    def do(self, name: str, *given: object) -> str:
        action = Action(name, given)
        self.actions.append(action)
        self.gives.append(self.runner.do(action))
        return self.gives[-1]

    def pick(self, *choices: tuple[float, Callable[[], object]]) -> None:
        self.peer.pick(*choices)

    # What the host knows

    def number(self) -> int:
        """The number of an open call; at times of one that is answered or is to come, and 0."""
        still_open = [number for number, it in enumerate(self.model.calls, 1) if it.is_open]
        cancelled = [it for it in still_open if self.model.calls[it - 1].is_cancelled]
        if still_open and self.chance.random() < 0.93:
            return self.chance.choice((still_open[0], *map(self.chance.choice, filter(None, (still_open, cancelled)))))
        return self.chance.choice((0, self.chance.randint(0, len(self.model.calls) + 2), 2**64 - 1))

    def speaker(self) -> int:
        has_open = any(it.is_open for it in self.model.calls)
        return self.number() if self.chance.random() < (0.75 if has_open else 0.1) else 0

    def key(self) -> int:
        waiting = self.model.keys_that(lambda it: it.waits)
        if waiting and self.chance.random() < 0.85:
            return self.chance.choice(waiting)
        return self.chance.choice((0, 2**64 - 1, self.chance.randint(0, len(self.model.ours) + 2)))

    def mostly(self, well: tuple[Any, ...], wrong: tuple[Any, ...]) -> Any:
        return self.chance.choice(well if self.chance.random() < 0.96 else wrong)

    def name(self) -> bytes:
        return self.mostly(NAMES, NO_TEXTS)

    def params(self) -> Optional[bytes]:
        return self.mostly(PARAMS, (*NO_JSON, *NO_PARAMS))

    def result(self) -> Optional[bytes]:
        return self.mostly(TEXTS, (*NO_JSON, None))

    # What the host does

    def feed(self) -> None:
        """Feeds some of what was sent."""
        if self.framing == "contents":
            self.do("feed", self.peer.frame("contents") if self.chance.random() < 0.98 else b"")
            return
        for _ in range(self.chance.choice((0, 1, 1, 2, 4))):
            self.unsent += self.peer.frame(self.framing)
        size = self.chance.choice(
            (len(self.unsent), len(self.unsent), self.chance.randint(0, len(self.unsent)), self.chance.randint(0, 3))
        )
        self.do("feed", self.unsent[:size])
        self.unsent = self.unsent[size:]

    def ask(self) -> None:
        """Asks for events, mostly until there is none."""
        for _ in range(self.chance.choice((1, 2, 30))):
            if self.do("next") == "none":
                break

    def batch(self) -> None:
        calls = [(self.name(), self.params()) for _ in range(self.chance.choice((0, 1, 2, 2, 3)))]
        self.do("batch", self.speaker(), *(word for call in calls for word in call))

    def take(self) -> None:
        pending = self.model.pending()
        self.do(
            "take", self.chance.choice((pending, pending, max(pending - 1, 0), 0, self.chance.randint(0, 200), 100_000))
        )

    def end(self) -> None:
        self.do("end", "closed" if self.chance.random() < 0.7 else "failed")

    def close(self, number: int) -> None:
        is_cancelled = any(it.is_cancelled for it in self.model.calls[number - 1 : number])
        self.pick(
            (6, lambda: self.do("answer", number, self.result())),
            (
                2,
                lambda: self.do(
                    "fail", number, self.chance.choice(CODES), self.name(), self.mostly((None, None, *TEXTS), NO_JSON)
                ),
            ),
            (12 if is_cancelled else 2, lambda: self.do("cancel", number)),
        )

    def step(self) -> None:
        has_open = any(it.is_open for it in self.model.calls)
        self.pick(
            (12, self.feed),
            (10, self.ask),
            (8 if has_open else 1, lambda: self.close(self.number())),
            (7 if has_open else 4, lambda: self.do("call", self.speaker(), self.name(), self.params())),
            (2, self.batch),
            (2, lambda: self.do("notify", self.name(), self.params())),
            (2, lambda: self.do("withdraw", self.key())),
            (4, self.take),
            (0.5, lambda: self.do("pending")),
            (0.5, lambda: self.do("is_done")),
            (0.5, lambda: self.do("fault_place")),
            (0.7, lambda: self.do("report")),
            (0.2, self.end),
        )

    def finish(self) -> None:
        """The input ends, at times inside a content; open calls are mostly answered, and all is taken."""
        if self.framing != "contents":
            last = self.peer.frame(self.framing) if self.chance.random() < 0.3 else b""
            self.do("feed", self.unsent + last[: self.chance.choice((len(last) // 2, self.chance.randint(0, 30)))])
        if not self.model.input_ended:
            self.end()
        while self.do("next") != "none":
            if self.chance.random() < 0.2:
                self.close(self.number())
        for number, call in enumerate(self.model.calls, 1):
            if call.is_open and self.chance.random() < 0.9:
                self.do("answer", number, b"null" if call.entry.is_request else None)
        while self.do("take", self.chance.choice((self.model.pending(), 100_000))) != "bytes .":
            pass
        for name in ("next", "pending", "fault_place", "is_done", "report"):
            self.do(name)

    def made(self) -> Session:
        content = USUAL_CONTENT if self.chance.random() < 0.9 else self.chance.randint(50, 300)
        calls = self.chance.choice((1000, MOST_CALLS)) if self.chance.random() < 0.9 else self.chance.randint(1, 8)
        cancels = self.chance.choices(("cancels", "mcp", "no-cancels"), (9, 9, 2))[0]
        more = [it for it, how_often in zip(TELLING, (0.5, 0.2)) if self.chance.random() < how_often]
        if self.chance.random() < 0.2:
            more.append(f"entries={self.chance.randint(1, 3)}")
        self.do("settings", self.framing, self.chance.choice(ORDERS), cancels, content, calls, *more)
        for _ in range(self.chance.randint(5, MOST_STEPS)):
            self.step()
        self.finish()
        left = sum(it.entry.is_request and it.unit.answers[it.place] == "" for it in self.model.calls)
        return Session(tuple(self.actions), tuple(self.gives), left)


def made(seed: str) -> Session:
    return Maker(random.Random(seed)).made()


# The same, cut otherwise


def places_of(actions: tuple[Action, ...], stream: bytes) -> list[tuple[int, bool, bool]]:
    """How much has come with each front of a stream: the contents, whether a fault has, and whether it ends inside a
    frame (once the limit of calls has ended the input, no more of it is fed, and the host may still close it)."""
    framing, limit = actions[0].given[0], actions[0].given[3]
    came = Input(framing, limit)  # type: ignore[arg-type]
    counts = [(0, False, False)]
    for at in range(len(stream)):
        came.feed(stream[at : at + 1])
        counts.append((len(came.waiting), came.end != "", framing == "frames" and came.cutter.rest != b""))
    return counts


def cut_otherwise(chance: random.Random, actions: tuple[Action, ...]) -> list[Action]:
    """The same actions of the host, with what it feeds before the end cut otherwise: at each `next` and `fault_place` the
    same contents have come."""
    if actions[0].given[0] == "contents":
        return list(actions)
    ends = next((at for at, it in enumerate(actions) if it.name == "end"), len(actions))
    stream = b"".join(it.given[0] for it in actions[:ends] if it.name == "feed")  # type: ignore[misc]
    counts = places_of(actions, stream)
    made, fed, due = [actions[0]], 0, 0  # (how much is fed now, and was by then)
    for action in actions[1:ends]:
        if action.name == "feed":
            due += len(action.given[0])  # type: ignore[arg-type]
            continue
        goes_on = range(fed, due + 1) if chance.random() < 0.2 else range(fed, fed)
        allowed = (
            [at for at in range(fed, len(counts)) if counts[at] == counts[due]]
            if action.name in ("next", "fault_place")
            else goes_on
        )
        if allowed:
            to = chance.choice(allowed)
            made += pieces_of(chance, stream[fed:to])
            fed = to
        made.append(action)
    return [*made, *pieces_of(chance, stream[fed:]), *actions[ends:]]


def pieces_of(chance: random.Random, data: bytes) -> list[Action]:
    """Some bytes as feeds."""
    pieces, size = [], chance.choice((1, 2, 7, 100, len(data) + 1))
    while data:
        pieces.append(Action("feed", (data[:size],)))
        data = data[size:]
    return pieces


def without_feeds(actions: list[Action], gives: list[str]) -> list[str]:
    """What the actions of a session give that aren't feeds."""
    return [line for action, line in zip(actions, gives) if action.name != "feed"]
