"""Conversations before the judge of the C library: the lines that `judge_talks.c` reads, and what it has to write, by the
plain model of the rules."""
import random
import re
from typing import NamedTuple, Optional

from support import judge_conversations as conversations
from support import judge_planted as plants
from support import judge_rows as rows
from support import ran
from support.connection_script import FRAMINGS
from support.judge_answering import leaving
from support.judge_conversations import Conversation, Seen, show
from support.judge_long_batches import in_long_batches
from support.judge_model import MOST_CONTENT, MOST_IDS, SIDES, Finding, Judge
from support.judge_refusals import refusing
from support.judge_rules import CONNECTION, HOST, MUST, NOT_JUDGED, NOTE, RULES, SHOULD

# As the header counts them. The rules stand in the order of the table of docs/judge.md.
PROTOCOLS, ENDS, LEVELS = [*RULES], ("closed", "failed"), (MUST, SHOULD, NOTE)
OK, NO_MEMORY = 0, 1
ALL = 1_000_000  # more than any conversation here has findings
# The rules as the page has them.
PAGE = ran.text_of("docs/judge.md")
PAGES_ROW = re.compile(r"^\| `([a-z-]+)` \| .* \| .*? \| (connection|host) \| (.*) \|$", re.M)


class Names(NamedTuple):
    """The rules in the order of the header."""

    rules: list[str]

    def line(self, it: Finding) -> str:
        """A finding as the program writes it."""
        whose = 2 if it.rule == NOT_JUDGED else 1 if it.rule in HOST else 0
        assert whose or it.rule in CONNECTION
        numbers = (SIDES.index(it.side), self.rules.index(it.rule), LEVELS.index(it.level), whose)
        return " ".join(map(str, ("found", *numbers, it.place.number, it.place.offset, it.place.entry)))


# In the header, what isn't judged stands behind the rules that there were first: later ones came behind it.
FIRST = 28
ROWS = PAGES_ROW.findall(PAGE)
NAMES = Names([*(it[0] for it in ROWS[:FIRST]), NOT_JUDGED, *(it[0] for it in ROWS[FIRST:])])


def action(seen: Seen) -> str:
    if seen.ended:
        return f"ended {SIDES.index(seen.side)} {ENDS.index(seen.ended)}"
    return f"saw {SIDES.index(seen.side)} {seen.data.hex() or '.'}"


class Talk(NamedTuple):
    """A conversation before a judge, and how many findings are asked for behind each thing that is seen."""

    conversation: Conversation
    rules: str
    rooms: tuple[int, ...]
    limit: int = MOST_CONTENT
    ids: int = MOST_IDS

    @property
    def name(self) -> str:
        return f"{self.conversation.name}, {self.rules}"

    def begun(self) -> str:
        # (0 is the usual limit)
        limits = f"{self.limit % MOST_CONTENT} {self.ids % MOST_IDS}"
        return f"judge {PROTOCOLS.index(self.rules)} {FRAMINGS.index(self.conversation.framing)} {limits}"

    def lines(self) -> list[str]:
        """What the program reads."""
        lines = [self.begun()]
        for seen, room in zip(self.conversation.seen, self.rooms):
            lines += [action(seen), f"next {room}"]
        return [*lines, f"next {ALL}"]

    def wanted(self, names: Names, refused: Optional[int] = None) -> list[str]:
        """What it writes; or where memory is refused as the thing at this place is seen: it and those behind it aren't
        seen."""
        judge = Judge(self.rules, self.conversation.framing, self.limit, self.ids)
        lines, told = [f"code {OK}"], 0
        for at, (seen, room) in enumerate(zip(self.conversation.seen, self.rooms)):
            is_seen = refused is None or at < refused
            if is_seen:
                show(judge, [seen])
            found = judge.findings[told : told + room]
            told += len(found)
            lines += [f"code {OK if is_seen else NO_MEMORY}", *map(names.line, found), f"count {len(found)}"]
        return [*lines, *map(names.line, judge.findings[told:]), f"count {len(judge.findings) - told}"]


def made(chance: random.Random, conversation: Conversation, rules: str) -> Talk:
    """With rooms that are too small now and then, and empty ones."""
    rooms = tuple(chance.choice((0, 0, 1, 1, 2, 3, 50)) for _ in conversation.seen)
    return Talk(conversation, rules, rooms)


def of_rows() -> list[Talk]:
    """The worked rows of checks/judge_rows, each with its limits."""
    return [
        Talk(
            Conversation(it.name, it.framing, (), [Seen(seen.side, seen.data, seen.ended) for seen in it.seen]),
            it.rules,
            tuple(1 for _ in it.seen),
            **it.limits,
        )
        for it in rows.all_rows()
    ]


def planted(name: str) -> Conversation:
    chance = random.Random(name)
    return plants.planted(name, chance.choice((*plants.PLANTS, *plants.CUT))).conversation


KINDS = {
    "with a peer": conversations.with_a_peer,
    "joined": conversations.joined,
    "planted": planted,
    "refused": refusing,
    "leaving": leaving,
    "in long batches": in_long_batches,
}


def talks(kind: str, cases: int) -> list[Talk]:
    """Conversations of a kind, each cut at random and by one set of rules."""
    trials = []
    for number in range(cases):
        chance = random.Random(f"{kind} in C {number}")
        conversation = conversations.cut_otherwise(chance, KINDS[kind](f"{kind} in C {number}"))
        trials.append(made(chance, conversation, [*RULES][number % len(RULES)]))
    return trials
