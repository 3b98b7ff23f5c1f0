"""Conversations for the judge that are made at random: a connection before a hurt peer, and two connections joined back
to back, with hosts that do what they like.

Each is what was seen of the two sides, in its order: each byte and each end before a connection was told of it."""
import random
from typing import Iterator, NamedTuple, Optional

from support import connection_sessions as sessions
from support.connection_script import FRAMINGS, ORDERS, bytes_of
from support.judge_model import OTHER, SIDES, Finding, Judge
from support.judge_rules import NOTE, RULES

MOST_STEPS = 120
# Where a connection has MCP's cancels, it may leave a cancelled request without an answer. By other rules it is owed.
BY_MCP = tuple(it for it, its in RULES.items() if its.cancel_settles)


class Seen(NamedTuple):
    side: str
    data: bytes = b""
    ended: str = ""  # "closed" or "failed"


class Conversation(NamedTuple):
    name: str
    framing: str
    ours: tuple[str, ...]  # the sides that are connections of ours
    seen: list[Seen]
    rules: tuple[str, ...] = tuple(RULES)  # by which these are accused of nothing


def judged(conversation: Conversation, rules: str) -> Judge:
    judge = Judge(rules, conversation.framing)
    show(judge, conversation.seen)
    return judge


def found_in(conversation: Conversation, rules: str) -> list[Finding]:
    return judged(conversation, rules).findings


def show(judge: Judge, seen: list[Seen]) -> None:
    for it in seen:
        if it.ended:
            judge.end(it.side, it.ended)
        else:
            judge.saw(it.side, it.data)


# The same, cut otherwise


def cut_otherwise(chance: random.Random, conversation: Conversation) -> Conversation:
    """The same bytes in the same order, in other pieces."""
    if conversation.framing == "contents":
        return conversation
    joined = list[Seen]()
    for it in conversation.seen:
        if joined and not it.ended and not joined[-1].ended and joined[-1].side == it.side:
            it = Seen(it.side, joined.pop().data + it.data)
        joined.append(it)
    return conversation._replace(seen=[piece for it in joined for piece in pieces_of(chance, it)])


def pieces_of(chance: random.Random, seen: Seen) -> Iterator[Seen]:
    if seen.ended:
        yield seen
        return
    size = chance.choice((1, 2, 7, 100, len(seen.data) + 1))
    for at in range(0, len(seen.data), size):
        yield Seen(seen.side, seen.data[at : at + size])


# A connection before a hurt peer


def rules_with(cancels: object) -> tuple[str, ...]:
    """The rules by which a connection with these cancels is accused of nothing."""
    return BY_MCP if cancels == "mcp" else tuple(RULES)


def with_a_peer(seed: str) -> Conversation:
    """A session of the fuzzer of connections, as it is seen from between."""
    chance, session = random.Random(f"{seed} side"), sessions.made(seed)
    ours = chance.choice(SIDES)
    framing = str(session.actions[0].given[0])
    seen = list[Seen]()
    for action, line in zip(session.actions, session.gives):
        if action.name == "feed" and line == "ok":
            seen.append(Seen(OTHER[ours], action.given[0]))  # type: ignore[arg-type]
        elif action.name == "end" and line == "ok":
            seen.append(Seen(OTHER[ours], ended=str(action.given[0])))
        elif action.name == "take" and line != "bytes .":
            seen.append(Seen(ours, bytes_of(line.removeprefix("bytes "))))
    if chance.random() < 0.7:
        seen.append(Seen(ours, ended="closed"))
    return Conversation(seed, framing, (ours,), seen, rules_with(session.actions[0].given[2]))


# Two connections


class Half(sessions.Maker):
    """A connection with its host, which reads what the other half writes."""

    other: "Half"

    def __init__(self, chance: random.Random, framing: str, cancels: str, side: str, seen: list[Seen]) -> None:
        super().__init__(chance)
        self.framing, self.side, self.seen = framing, side, seen
        self.inbox: list[bytes] = []  # what was written to it and isn't fed yet
        self.is_closed = False  # whether what it writes is seen no longer
        content = 16_777_216 if chance.random() < 0.95 else chance.randint(100, 300)
        cancels = "no-cancels" if chance.random() < 0.15 else cancels
        self.do("settings", framing, chance.choice(ORDERS), cancels, content, chance.choice((1000, 1000, 1000, 20)))

    def feed(self) -> None:
        if not self.inbox or self.model.input_ended:
            return
        piece = self.inbox.pop(0)
        if self.framing != "contents" and self.chance.random() < 0.5:
            size = self.chance.randint(0, len(piece))
            self.inbox.insert(0, piece[size:])
            piece = piece[:size]
        self.do("feed", piece)

    def take(self) -> None:
        if self.is_closed:
            return
        super().take()
        if self.gives[-1] != "bytes .":
            data = bytes_of(self.gives[-1].removeprefix("bytes "))
            self.seen.append(Seen(self.side, data))
            self.other.inbox.append(data)

    def end(self) -> None:
        """The input ends: once the other half has closed and all was fed, or since reading it fails."""
        if self.model.input_ended:
            return
        if self.other.is_closed:
            if not self.inbox:
                self.do("end", "closed")
        elif self.chance.random() < 0.1:
            self.other.close("failed")
            self.inbox.clear()
            self.do("end", "failed")

    def close(self, how: object) -> None:
        """Answers a call; or what it writes ends, and is seen no longer."""
        if isinstance(how, int):
            super().close(how)
        elif not self.is_closed:
            self.is_closed = True
            self.seen.append(Seen(self.side, ended=str(how)))

    def settle(self) -> bool:
        """Feeds, hears, mostly answers and writes all that there is, and says whether anything moved."""
        before = len(self.seen), sum(map(len, self.inbox))
        while self.inbox and not self.model.input_ended:
            self.feed()
            while self.do("next") != "none":
                pass
        for number, call in enumerate(self.model.calls, 1):
            if call.is_open and self.chance.random() < 0.9:
                self.do("answer", number, b"null" if call.entry.is_request else None)
        while not self.is_closed and self.model.pending():
            self.take()
        return before != (len(self.seen), sum(map(len, self.inbox)))


def joined(seed: str) -> Conversation:
    chance = random.Random(seed)
    framing, cancels, seen = chance.choice(FRAMINGS), chance.choice(("cancels", "mcp")), list[Seen]()
    one, other = (Half(chance, framing, cancels, side, seen) for side in SIDES)
    one.other, other.other = other, one
    for _ in range(chance.randint(20, MOST_STEPS)):
        half = chance.choice((one, other))
        half.step()
        if chance.random() < 0.01:
            half.close("closed")
    for _ in range(6):
        if not (one.settle() | other.settle()):
            break
    for half in chance.sample((one, other), 2):
        half.close("closed")
        half.other.settle()
        half.other.end()
    return Conversation(seed, framing, SIDES, seen, rules_with(cancels))


# Making a conversation smaller


def smaller(conversation: Conversation) -> Iterator[Conversation]:
    """The conversation with fewer of what was seen."""
    length = len(conversation.seen)
    size = length // 2
    while size:
        for at in range(0, length, size):
            yield conversation._replace(seen=conversation.seen[:at] + conversation.seen[at + size :])
        size //= 2


def accused(conversation: Conversation, found: list[Finding], marked: tuple[str, ...]) -> Optional[Finding]:
    """The first finding of a rule that our sides keep. A note of what they owe is no accusation."""
    ours = (it for it in found if it.side in conversation.ours and it.rule in marked)
    return next((it for it in ours if it.rule not in ("not-owed", "not-as-array") or it.level != NOTE), None)
