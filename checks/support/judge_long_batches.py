"""Conversations for the judge that are made at random, in which batches are long and answered in any way: one by one, by
arrays, by an array for what single answers left, by null, and behind cancels. Many of their ids are equal."""
import json
import random
from typing import Any

from support.judge_conversations import Conversation, Seen
from support.judge_planted import cancel, error, notification, request, result

# From 16 entries on the judge has an index of what is left.
LENGTHS = (2, 15, 16, 17, 18, 24)
IDS = (1, 2, 3, 4, "a", "b", None, 1.5)
CODES = (-32700, -32600, -32603, 5)


def entry(chance: random.Random) -> Any:
    id_ = chance.choice(IDS)
    others: tuple[Any, ...] = (notification("n"), 1, {**request(id_), "method": 5}, {**request(id_), "params": 5})
    return request(id_) if chance.random() < 0.8 else chance.choice(others)


def ids_of(batch: list[Any]) -> list[Any]:
    return [it["id"] for it in batch if isinstance(it, dict) and "id" in it]


def answer(chance: random.Random, id_: Any) -> Any:
    return result(id_) if chance.random() < 0.8 else error(id_, chance.choice(CODES))


def in_long_batches(name: str) -> Conversation:
    chance, seen = random.Random(name), list[Seen]()
    left = list[list[Any]]()

    def say(side: str, value: Any) -> None:
        seen.append(Seen(side, json.dumps(value).encode() + b"\n"))

    def take_one() -> Any:
        of = chance.choice(left)
        id_ = of.pop(chance.choice((0, 0, -1, chance.randrange(len(of)))))
        if not of:
            left.remove(of)
        return id_

    for _ in range(chance.randrange(4, 60)):
        step = chance.random()
        if step < 0.1 or not left:
            batch = [entry(chance) for _ in range(chance.choice(LENGTHS))]
            say("client", batch)
            if ids_of(batch):
                left.append(ids_of(batch))
        elif step < 0.65:
            say("server", answer(chance, take_one()))
        elif step < 0.75:
            say("client", cancel(chance.choice(("lsp", "mcp")), chance.choice(IDS[:6])))
        elif step < 0.8:
            say("client", request(chance.choice(IDS)))
        elif step < 0.87:
            say("server", answer(chance, chance.choice(IDS)))
        else:
            of = left.pop(chance.randrange(len(left)))
            chance.shuffle(of)
            say("server", [answer(chance, it) for it in of[chance.choice((0, 0, 0, 1)) :] or of])
    seen.append(Seen("server", ended="closed"))
    return Conversation(name, "lines", (), seen)
