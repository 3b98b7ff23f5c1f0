"""Conversations for the judge that are made at random, in which a server answers as a connection does: each call once, by
whatever its host says, in any order; and what is invalid, what can't be read and an array of too many entries once, with
the id null. Where it has MCP's cancels, a call that was cancelled may be left without an answer."""
import json
import random
from dataclasses import dataclass
from typing import Any, NamedTuple

from support.judge_conversations import BY_MCP, Conversation, Seen
from support.judge_planted import cancel, error, notification, request, result
from support.judge_reading import SAFE_DEPTH
from support.judge_refusals import deep

MOST_STEPS, MOST_ENTRIES = 14, 3
IDS = (1, 2, "a")
CODES = (-32700, -32600, 5)


class Asked(NamedTuple):
    """What a client writes, and what it is answered by, one after the other."""

    text: str
    answers: list[Any]


def entry(chance: random.Random) -> tuple[Any, list[Any]]:
    """An entry, and its answer, if it has one."""
    id_ = chance.choice(IDS)
    calls = (request(id_), request(id_, params=None), {**deep(0, SAFE_DEPTH + 1), "id": id_}, request(None))
    others = (1, {**request(id_), "method": 5}, request(1.5))
    kind = chance.random()
    if kind < 0.6:
        call = chance.choice((*calls, request(None, params=None)))
        of_it = call["id"]
        return call, [chance.choice(({"jsonrpc": "2.0", "id": of_it, "result": 1}, error(of_it, chance.choice(CODES))))]
    return (chance.choice(others), [error(None, -32600)]) if kind < 0.85 else (notification("n"), [])


def asked(chance: random.Random, most: int) -> Asked:
    """A content for a connection that takes so many entries."""
    kind = chance.random()
    if kind < 0.45:
        value, answers = entry(chance)
        return Asked(json.dumps(value), answers)
    if kind < 0.6:
        return Asked("{", [error(None, -32700)]) if kind < 0.55 else Asked("[]", [error(None, -32600)])
    entries = [entry(chance) for _ in range(chance.randint(1, MOST_ENTRIES))]
    text = json.dumps([it for it, _ in entries])
    if len(entries) > most:
        return Asked(text, [error(None, -32600)])
    answers = [one for _, some in entries for one in some]
    chance.shuffle(answers)
    return Asked(text, [answers] if answers else [])


def answering(name: str) -> Conversation:
    chance, seen, due = random.Random(name), list[Seen](), list[Any]()
    most = chance.randint(1, MOST_ENTRIES)
    for _ in range(chance.randint(2, MOST_STEPS)):
        if chance.random() < 0.5:
            text, answers = asked(chance, most)
            seen.append(Seen("client", text.encode() + b"\n"))
            due += answers
        elif due:
            answer = due.pop(chance.randrange(len(due)))
            seen.append(Seen("server", json.dumps(answer).encode() + b"\n"))
    for it in chance.sample(due, len(due)):
        seen.append(Seen("server", json.dumps(it).encode() + b"\n"))
    return Conversation(name, "lines", ("server",), [*seen, Seen("server", ended="closed")])


# With MCP's cancels


@dataclass
class Part:
    """An entry that came, and what it is answered by, which a cancel may take away; or a cancel of an id."""

    value: Any
    answers: list[Any]
    target: Any = None

    @property
    def id(self) -> Any:
        """The id by which a cancel names it, where it is a call."""
        is_call = isinstance(self.value, dict) and isinstance(self.value.get("method"), str)
        return self.value.get("id") if is_call else None


@dataclass
class Came:
    """A content that came and isn't answered."""

    text: str
    parts: list[Part]
    is_batch: bool = False

    def said(self, chance: random.Random) -> list[Any]:
        """What it is answered by: one message, or nothing."""
        answers = [one for it in self.parts for one in it.answers]
        return [chance.sample(answers, len(answers))] if self.is_batch and answers else answers


def part(chance: random.Random, ids: tuple[Any, ...]) -> Part:
    kind, id_ = chance.random(), chance.choice(ids)
    if kind < 0.3:
        return Part(cancel("mcp", id_), [], id_)
    return Part(request(id_), [result(id_)]) if kind < 0.85 else Part(*entry(chance))


def came(chance: random.Random, ids: tuple[Any, ...], most: int) -> Came:
    """A content for a connection that takes so many entries: mostly a batch."""
    kind = chance.random()
    if kind < 0.05:
        return Came("{", [Part(None, [error(None, -32700)])])
    parts = [part(chance, ids) for _ in range(1 if kind < 0.25 else chance.randint(1, MOST_ENTRIES))]
    values = [it.value for it in parts]
    if kind < 0.25:
        return Came(json.dumps(values[0]), parts)
    if len(parts) > most:
        return Came(json.dumps(values), [Part(None, [error(None, -32600)])])
    return Came(json.dumps(values), parts, is_batch=True)


def leaving(name: str) -> Conversation:
    chance, seen, due = random.Random(name), list[Seen](), list[Came]()
    most, ids = chance.choice((1, *[MOST_ENTRIES] * 4)), IDS[: chance.randint(1, len(IDS))]

    def hear(it: Came) -> None:
        """A cancel reaches each call that isn't answered and came before it. Its host may answer it all the same."""
        before = [one for other in due for one in other.parts]
        for one in it.parts:
            if one.target is not None:
                for other in before:
                    if other.id == one.target and chance.random() < 0.6:
                        other.answers = []
            before.append(one)
        due.append(it)

    for _ in range(chance.randint(2, MOST_STEPS)):
        if chance.random() < 0.6 or not due:
            it = came(chance, ids, most)
            seen.append(Seen("client", it.text.encode() + b"\n"))
            hear(it)
        else:
            said = due.pop(chance.randrange(len(due))).said(chance)
            seen += [Seen("server", json.dumps(one).encode() + b"\n") for one in said]
    for it in chance.sample(due, len(due)):
        seen += [Seen("server", json.dumps(one).encode() + b"\n") for one in it.said(chance)]
    return Conversation(name, "lines", ("server",), [*seen, Seen("server", ended="closed")], BY_MCP)
