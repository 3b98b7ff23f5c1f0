"""Conversations for the judge that are made at random, in which a server refuses by errors with the id null: batches,
requests that nest deep, and what it couldn't read. It answers some of them all the same, and some it never answers."""
import json
import random
from typing import Any

from support.judge_conversations import Conversation, Seen
from support.judge_planted import error, notification, request, result
from support.judge_reading import SAFE_DEPTH

MOST_STEPS = 16
CODES = (-32700, -32600, -32603, 5)


def deep(id_: int, depth: int) -> dict[str, Any]:
    """A request that nests so deep, with its own object."""
    params: list[Any] = []
    for _ in range(depth - 2):
        params = [params]
    return request(id_, params=params)


def asked(chance: random.Random, id_: int) -> Any:
    """What a client writes: something of one or of several requests, with ids from this one on, or of none."""
    one = request(id_)
    return chance.choice(
        (
            one,
            [one],
            [one, request(id_ + 1), notification("b")],
            [notification("b")],
            deep(id_, SAFE_DEPTH + chance.randrange(2)),
            [deep(id_, SAFE_DEPTH + 1), request(id_ + 1)],
            {**one, "params": [1]},
            {**one, "method": 5},
        )
    )


def answered(open_: list[Any]) -> Any:
    """The answer of the oldest content that is open."""
    it = open_.pop(0)
    return [result(each["id"]) for each in it] if isinstance(it, list) else result(it["id"])


def refusing(name: str) -> Conversation:
    chance, seen, open_, id_ = random.Random(name), list[Seen](), list[Any](), 0

    def say(side: str, value: Any) -> None:
        seen.append(Seen(side, json.dumps(value).encode() + b"\n"))

    for _ in range(chance.randrange(2, MOST_STEPS)):
        step = chance.random()
        if step < 0.4:
            value = asked(chance, id_)
            parts = value if isinstance(value, list) else [value]
            asks = [it for it in parts if "id" in it]
            if asks:
                open_.append(asks if isinstance(value, list) else value)
            id_ += len(asks)
            say("client", value)
        elif step < 0.7:
            say("server", error(None, chance.choice(CODES)))
        elif step < 0.74:
            say("server", result(None))
        elif step < 0.78:
            seen.append(Seen(chance.choice(("client", "server")), b"{\n"))
        elif open_:
            chance.shuffle(open_)
            say("server", answered(open_))
    if chance.random() < 0.8:
        seen.append(Seen("server", ended=chance.choice(("closed", "closed", "failed"))))
    return Conversation(name, "lines", (), seen)
