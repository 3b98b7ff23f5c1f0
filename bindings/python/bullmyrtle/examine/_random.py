"""Random and damaged messages: the other side goes on whatever they are, and breaks no rule that the judge has."""
from __future__ import annotations

import random
from typing import Iterator, List, Sequence

from ._cases import Case, Outcome, Part, Step
from ._inserts import content_of
from ._runner import Runner
from ._verdicts import Verdict

# How long a message is that is taken from a case, how many a stream has, how often one is damaged, and how many tries
# there are to make a failing stream smaller.
_LONGEST, _MOST, _DAMAGED, _TRIES = 1_000, 6, 0.7, 60
_NAMED = "random stream"
_VALUES = {"id": "7", "n": "8", "last": "9", "uri": "file:///examined.txt", "root": "file:///examined"}
_TOKENS = (b"{", b"}", b"[", b"]", b'"', b",", b":", b"null", b"1e9", b"-", b"\\u0000", b"\xff", b" ", b"0")


def random_verdicts(runner: Runner, cases: Sequence[Case], count: int, seed: int) -> Iterator[Verdict]:
    """Tries so many streams, and makes each smaller that fails."""
    chance = random.Random(seed)
    known = _contents(cases)
    found = [
        _case(f"{_NAMED} {at} of seed {seed}", cases[0], _stream(chance, known)) for at in range(1, count + 1)
    ]
    for verdict in runner.verdicts(found):
        yield _smaller(runner, verdict) if verdict.level == "must" else verdict


def is_random(name: str) -> bool:
    """Whether a case of this name is a random stream."""
    return name.startswith(_NAMED)


def _contents(cases: Sequence[Case]) -> List[bytes]:
    """The messages of all cases that are short."""
    texts = [
        it.text
        for case in cases
        if case.start == "agreed" and not case.is_alone
        for it in case.steps
        if it.kind == "message" and len(it.text) < _LONGEST and "* " not in it.text
    ]
    return sorted({content_of(it, _VALUES) for it in texts})


def _stream(chance: random.Random, known: List[bytes]) -> List[bytes]:
    some = [chance.choice(known) for _ in range(chance.randint(1, _MOST))]
    return [_damaged(chance, it, known) if chance.random() < _DAMAGED else it for it in some]


def _damaged(chance: random.Random, data: bytes, known: List[bytes]) -> bytes:
    for _ in range(chance.randint(1, 3)):
        at = chance.randrange(len(data) + 1)
        end = min(len(data), at + chance.randint(1, 8))
        other = chance.choice(known)
        data = chance.choice(
            (
                data[:at] + data[end:],
                data[:at] + chance.choice(_TOKENS) + data[at:],
                data[:at] + data[at:end] * 2 + data[end:],
                data[:at] + bytes([chance.randrange(256)]) + data[end:],
                data[:at] + other[chance.randrange(len(other)) :],
            )
        )
    # (a line break would make it two lines)
    return data.replace(b"\n", b" ").replace(b"\r", b" ") or b"0"


def _case(name: str, like: Case, contents: List[bytes]) -> Case:
    return like._replace(
        name=name,
        section="JSON-RPC 5.1",
        rule="whatever comes, the other side goes on",
        steps=tuple(Step("message", _text_of(it)) for it in contents),
        outcomes=(Outcome("", (Part("anything"),), "anything"),),
        level="must",
        framing="",
        start="agreed",
        needs="",
        place="--random",
    )


def _text_of(data: bytes) -> str:
    """The text that a case has for these bytes."""
    return "".join(chr(it) if 32 <= it < 127 and it != 36 else f"$(hex {it:02x})" for it in data)


def _smaller(runner: Runner, verdict: Verdict) -> Verdict:
    """The verdict of a smaller stream that fails alike."""
    contents = [content_of(it.text, {}) for it in verdict.case.steps]
    tries = _TRIES
    is_less = True
    while is_less and tries > 0:
        is_less = False
        for fewer in _fewer(contents):
            tries -= 1
            tried = runner.alone(_case(verdict.case.name, verdict.case, fewer))
            if tried.level == "must":
                contents, verdict, is_less = fewer, tried, True
                break
            if tries <= 0:
                break
    lines = " ".join(f"> {it.text}" for it in verdict.case.steps)
    return verdict._replace(words=f"{verdict.words}; made smaller: {lines}")


def _fewer(contents: List[bytes]) -> Iterator[List[bytes]]:
    """Smaller streams: without a message, and with less of each."""
    if len(contents) > 1:
        for at in range(len(contents)):
            yield contents[:at] + contents[at + 1 :]
    for at, data in enumerate(contents):
        step = len(data) // 2
        while step:
            for start in range(0, len(data), step):
                less = data[:start] + data[start + step :]
                if less:
                    yield [*contents[:at], less, *contents[at + 1 :]]
            step //= 2
