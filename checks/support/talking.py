"""Conversations between two hosts of this library that keep the rules (support/talk.py), with the judge between them."""
import random
import re
from dataclasses import dataclass
from typing import Any, Iterator, Optional

from support.connection_script import FRAMINGS
from support.judge_rules import RULES
from support.talk import DID, Failed, Host, Ways

SIDES = ("client", "server")
ORDERS = ("as-answered", "as-came")
# How a host breaks the rules, where it is meant to, and the rule that it breaks.
WRONGS = {"a code": "code", "an answer twice": "not-owed", "an early end": "unanswered"}
# Those of what a side owes.
OF_WHAT_IS_OWED = ("not-owed", "unanswered")
# The code that isn't defined, as it is written.
WRONG_CODE = b'"code":-32500,'
# Behind so many rounds in which a conversation winds up, it goes on for ever.
MOST_ROUNDS = 100


@dataclass
class Plan:
    """What is drawn of a conversation before it begins."""

    name: str
    rules: str
    framing: str
    orders: tuple[int, int]
    cancels: tuple[Optional[str], Optional[str]]
    has_batches: bool
    in_step: bool  # each side hears all that the other one wrote before it goes on
    wrong: str  # how a side breaks a rule, of WRONGS, or nothing
    wrong_side: int
    seeds: tuple[int, int]

    @property
    def ends_the_session(self) -> bool:
        """Whether the early end is a client's that may end so: then nothing is broken, whatever is open."""
        return self.wrong == "an early end" and self.wrong_side == 0 and RULES[self.rules].ends_by_close

    def begun(self, at: int) -> Host:
        """The host of a side."""
        is_wrong = (self.wrong, self.wrong_side) == ("a code", at)
        order, cancels, freely = ORDERS[self.orders[at]], self.cancels[at], self.rules != "lsp"
        has_objects = RULES[self.rules].has_objects
        return Host(Ways(self.framing, order, cancels, self.has_batches, freely, has_objects, is_wrong, self.seeds[at]))


def planned(name: str, wrong: str = "") -> Plan:
    """Rules, framings and ways to cancel go together as they may. In step nothing crosses, so that in `mcp` no answer
    comes behind its cancel: an answer that waits for others, of its batch or in its order, could. Nor does a host answer
    twice or end early where a request may be left out of its batch: behind a guess that is a note."""
    chance = random.Random(name)
    rules = chance.choice([*RULES])
    in_step = chance.random() < 0.5
    if rules.startswith("mcp"):
        cancels: tuple[Optional[str], Optional[str]] = ("mcp", "mcp")
    else:
        one, other = (chance.choice(("lsp", "lsp", "lsp", None)) for _ in SIDES)
        cancels = one, other
    is_sure = WRONGS.get(wrong) not in OF_WHAT_IS_OWED
    has_batches = rules == "jsonrpc" or (rules == "mcp:2025-03-26" and not in_step and is_sure)
    orders = (0, 0) if in_step else (chance.randint(0, 1), chance.randint(0, 1))
    seeds = chance.getrandbits(64), chance.getrandbits(64)
    framing = "lines" if wrong == "an answer twice" else chance.choice(FRAMINGS)
    return Plan(name, rules, framing, orders, cancels, has_batches, in_step, wrong, chance.randint(0, 1), seeds)


@dataclass
class Talked:
    """What came of a conversation."""

    plan: Plan
    found: list[Any]  # the judge's findings
    did: dict[str, int]  # by both sides
    streams: tuple[bytes, bytes]
    breaks: int  # how often a side broke a rule, as it was meant to, at least

    @property
    def crossed(self) -> list[Any]:
        """Answers in MCP that came behind their cancel: the rules allow them, where they have crossed (after-cancel)."""
        is_note = not self.plan.in_step and self.plan.rules.startswith("mcp")
        return [it for it in self.found if is_note and (it.rule, it.level) == ("after-cancel", "note")]

    @property
    def accused(self) -> list[Any]:
        return [it for it in self.found if it not in self.crossed]

    @property
    def is_well(self) -> bool:
        """Whether just that is found which there is: nothing, or the one rule that the one side broke."""
        told = [(it.side, it.rule, it.level) for it in self.accused]
        if not self.plan.wrong or self.plan.ends_the_session:
            return told == []
        wanted = (SIDES[self.plan.wrong_side], WRONGS[self.plan.wrong], "must")
        if self.plan.wrong == "an early end":
            # (a call on behalf of one that is answered waits no longer, and is to be answered all the same)
            return {*told} <= {wanted} and len(told) >= self.breaks
        return told == [wanted] * self.breaks


class Talk:
    """A conversation: two hosts, what each wrote that the other one wasn't fed, and the judge, to which each byte is
    shown before it is fed."""

    def __init__(self, plan: Plan, judge: Any) -> None:
        self.plan, self.judge = plan, judge
        self.hosts = plan.begun(0), plan.begun(1)
        self.chance = random.Random(f"{plan.name} between")
        self.unfed: tuple[list[bytes], list[bytes]] = ([], [])  # for each side
        self.streams = (bytearray(), bytearray())  # of each side
        self.found = list[Any]()
        self.repeats = 0

    def writes(self, at: int, pieces: list[bytes]) -> bool:
        """Shows the judge what a side wrote, and says whether it wrote anything."""
        for it in pieces:
            self.judge.saw(SIDES[at], it)
            self.streams[at].extend(it)
        self.found += self.judge.findings()
        self.unfed[1 - at].extend(pieces)
        return pieces != []

    def turn(self, at: int, how: str, is_whole: bool) -> bool:
        """Feeds a side what came, or some of it, and says whether anything moved."""
        pieces = self.fed(at, is_whole)
        return self.writes(at, getattr(self.hosts[at], how)(pieces)) or pieces != []

    def fed(self, at: int, is_whole: bool) -> list[bytes]:
        unfed, count = self.unfed[at], len(self.unfed[at])
        if not is_whole:
            count = self.chance.randint(0, count)
        pieces, unfed[:] = unfed[:count], unfed[count:]
        if self.plan.framing != "contents":
            pieces = [*cut(self.chance, b"".join(pieces))]
            if pieces and not is_whole and self.chance.random() < 0.3:
                unfed.insert(0, pieces.pop())
        return pieces

    def settle(self, ways: tuple[str, str]) -> None:
        """Each side goes on in its way until nothing moves any more."""
        for _ in range(MOST_ROUNDS):
            moved = [self.turn(at, ways[at], True) for at in (0, 1)]
            if not any(moved) and not any(self.unfed):
                return
        raise Failed(f"{self.plan.name} goes on for ever")

    def end(self, at: int, how: str) -> None:
        """A side's stream ends, and the other one is told."""
        self.judge.ended(SIDES[at], how)
        self.found += self.judge.findings()
        self.writes(1 - at, self.hosts[1 - at].end(how))

    def talk(self) -> Talked:
        chance, in_step = self.chance, self.plan.in_step
        for _ in range(chance.randint(10, 50)):
            self.turn(chance.randint(0, 1), "step" if in_step else "talk", in_step)
        return self.ended()

    def ended(self) -> Talked:
        """Winds up. Each side answers all, and then they end; or the one that `leaves` ends first, with requests of its
        own open, which needn't be answered then. (Where the other one ends first, it breaks a rule.)"""
        chance, is_early = self.chance, self.plan.wrong == "an early end"
        leaves = is_early or chance.random() < 0.3
        first = 1 - self.plan.wrong_side if is_early else chance.randint(0, 1)
        self.settle(tuple("wait" if leaves and at != first else "wind" for at in (0, 1)))  # type: ignore[arg-type]
        if self.plan.wrong == "an answer twice":
            self.repeat(self.plan.wrong_side)
        if is_early:
            first = 1 - first
        self.end(first, "failed" if chance.random() < 0.1 and not self.plan.wrong else "closed")
        if leaves:
            self.turn(1 - first, "step", True)
        self.turn(first, "wind", True)
        self.end(1 - first, "closed")
        return self.done(leaves)

    def repeat(self, at: int) -> None:
        """The judge is shown the last answer of a side twice."""
        answer = last_answer(bytes(self.streams[at]))
        if answer:
            self.judge.saw(SIDES[at], answer + b"\n")
            self.found += self.judge.findings()
            self.repeats += 1

    def done(self, leaves: bool) -> Talked:
        each = [it.did for it in self.hosts]
        if not all([it.done() for it in self.hosts]) and not leaves:
            raise Failed(f"{self.plan.name}: a host isn't done")
        plan, (one, other) = self.plan, map(bytes, self.streams)
        asked = each[1 - plan.wrong_side]
        breaks = {
            # (it may have waited for an answer before it that wasn't given, and then it wasn't written)
            "a code": WRONG_CODE in (one, other)[plan.wrong_side],
            "an answer twice": self.repeats,
            "an early end": 0 if plan.ends_the_session else asked["unanswered"],
        }
        did = {name: each[0][name] + each[1][name] for name in DID}
        return Talked(plan, self.found, did, (one, other), int(breaks.get(plan.wrong, 0)))


def cut(chance: random.Random, data: bytes) -> Iterator[bytes]:
    """Some bytes, in other pieces than they came in."""
    size = chance.choice((1, 7, 100, len(data) + 1, len(data) + 1, len(data) + 1))
    if len(data) > 50 * size:
        size = len(data)
    for at in range(0, len(data), size):
        yield data[at : at + size]


# An answer by itself, as a connection writes it.
ANSWER = re.compile(rb'\{(?:"error":.*|"id":[^,]+,"jsonrpc":"2.0","result":.*)\}', re.S)


def last_answer(stream: bytes) -> Optional[bytes]:
    """The last answer that stands by itself in a stream of Lines."""
    return next((it for it in reversed(stream.split(b"\n")) if ANSWER.fullmatch(it)), None)
