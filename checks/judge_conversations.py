"""usage: python3 checks/judge_conversations.py [--cases N] [--seed S]      tries N of each kind, 600 where none are named

The plain model of the judge (docs/judge.md) over conversations that are made at random. A connection of this library
before a hurt peer, two of them joined back to back, and a side that answers as one does break no rule that is marked as
a connection's, whatever its host does: by each set of rules, and where it has MCP's cancels by those of MCP. Notes of
what it owes don't count. And what is found is the same where the bytes come in other pieces. Conversations that break
nothing have no finding; with one break of a rule planted in them just this is found, at its message. A wrong accusation
is made as small as it goes and shown."""
import argparse
import os
import random
import sys
from collections import Counter
from concurrent.futures import ProcessPoolExecutor
from functools import partial
from typing import Any, Callable, Optional

from support import judge_conversations as conversations
from support import judge_planted as plants
from support import ran
from support.judge_answering import answering, leaving
from support.judge_conversations import Conversation, found_in
from support.judge_rules import CONNECTION, HOST, RULES

CASES = 600
BATCH = 25
# Of a thousand conversations of a kind so many findings at least are the peer's, so that a run that finds nothing fails; and
# in so many it has to be guessed for which batch an array is. (the rules jsonrpc are counted alone, and mcp for guesses)
GUESSED = "with a guess"
FLOORS = {
    "with a peer": {
        "head": 10,
        "not-json": 100,
        "charset": 10,
        "object": 40,
        "version": 150,
        "method": 10,
        "params": 10,
        "outcome": 100,
        "empty-array": 80,
        "not-owed": 500,
        "not-as-array": 40,
        "unanswered": 100,
        GUESSED: 20,
    },
    "leaving": {GUESSED: 150},
}


def words_of(words: list[str]) -> argparse.Namespace:
    parser = argparse.ArgumentParser(usage=__doc__.partition("\n\n")[0].removeprefix("usage: "))
    parser.add_argument("--cases", type=int, default=CASES)
    parser.add_argument("--seed", type=int, default=1)
    return parser.parse_args(words)


# Connections of ours

KINDS: dict[str, Callable[[str], Conversation]] = {
    "with a peer": conversations.with_a_peer,
    "joined": conversations.joined,
    "answering": answering,
    "leaving": leaving,
}


def tried(kind: str, seed: int, numbers: range) -> tuple[list[str], Counter[str]]:
    """What is wrong with the conversations of these numbers, and what was found of the peers by jsonrpc."""
    faults, seen = list[str](), Counter[str]()
    for number in numbers:
        conversation = KINDS[kind](f"{kind} seed-{seed}-{number}")
        other = conversations.cut_otherwise(random.Random(conversation.name), conversation)
        for rules in RULES:
            judge = conversations.judged(conversation, rules)
            found = judge.findings
            if found != found_in(other, rules):
                faults.append(f"{conversation.name}, {rules}: other findings where it is cut otherwise")
            if rules in conversation.rules and conversations.accused(conversation, found, CONNECTION):
                faults.append(f"{conversation.name}, {rules}: {accusation(conversation, rules)}")
            if rules == "jsonrpc":
                seen.update(it.rule for it in found if it.side not in conversation.ours)
            if rules == "mcp":
                seen[GUESSED] += any(it.is_guessed for it in judge.sides.values())
        seen["written"] += sum(len(it.data) for it in conversation.seen if it.side in conversation.ours)
    return faults, seen


def accusation(conversation: Conversation, rules: str) -> str:
    """The smallest conversation in which our side is accused."""
    is_smaller = True
    while is_smaller:
        is_smaller = False
        for it in conversations.smaller(conversation):
            if is_accused(it, rules):
                conversation, is_smaller = it, True
                break
    found = found_in(conversation, rules)
    return f"{conversations.accused(conversation, found, CONNECTION)} in {conversation.seen}"


def is_accused(conversation: Conversation, rules: str) -> bool:
    try:
        return conversations.accused(conversation, found_in(conversation, rules), CONNECTION) is not None
    except ValueError:
        return False


def check_ours(count: ran.Count, kind: str, seed: int, cases: int) -> Counter[str]:
    batches = [range(first, min(first + BATCH, cases)) for first in range(0, cases, BATCH)]
    total = Counter[str]()
    with ProcessPoolExecutor(len(os.sched_getaffinity(0))) as pool:
        for numbers, (faults, seen) in zip(batches, pool.map(partial(tried, kind, seed), batches)):
            total.update(seen)
            count.passed += len(numbers) - min(len(faults), len(numbers))
            for it in faults[:3]:
                count.check(kind, False, it)
    return total


# Planted breaks


def check_planted(count: ran.Count, seed: int, cases: int) -> None:
    every = (*plants.PLANTS, *plants.CUT)
    missing = {*CONNECTION, *HOST} - {it.rule for it in every}
    count.check("each rule is broken by a planted peer", not missing, f"{missing}")
    for number, plant in enumerate(every):
        for case in range(max(cases // len(every), 1)):
            why = difference(plants.planted(f"planted {number} seed-{seed}-{case}", plant))
            count.check(f"{plant.rule} is found, {case}", why is None, why or "")
    for case in range(cases):
        name = f"clean seed-{seed}-{case}"
        chance = random.Random(name)
        plan = plants.clean(chance, chance.choice([*RULES]), chance.choice(("frames", "lines", "contents")))
        seen = [conversations.Seen(it.side, plants.written(it, plan.framing)) for it in plan.steps]
        count.same(name, found_in(Conversation(name, plan.framing, (), seen), plan.rules), [])


def difference(planted: plants.Planted) -> Optional[str]:
    """How what is found differs from what was planted. Behind a fault there are more notes."""
    found = found_in(planted.conversation, planted.rules)
    lines: list[Any] = [(it.side, it.rule, it.level, it.place.side, it.place.number) for it in found]
    if any(rule == "head" for _, rule, *_ in planted.wanted):
        lines = [it for it in lines if it[1] == "head" or it[2] != "note"]
    return None if lines == planted.wanted else f"{lines} in place of {planted.wanted} in {planted.conversation.seen}"


def main(words: list[str]) -> None:
    options, count = words_of(words), ran.Count()
    check_planted(count, options.seed, options.cases)
    for kind in KINDS:
        seen = check_ours(count, kind, options.seed, options.cases)
        print(f"{kind}: {seen.pop('written'):,} bytes of ours; of the peers:", dict(seen), flush=True)
        for what, least in FLOORS.get(kind, {}).items() if options.cases >= 500 else ():
            wanted = least * options.cases // 1_000
            count.check(f"{kind}, {what}: at least {wanted}", seen[what] >= wanted, f"{seen[what]}")
    count.end()


if __name__ == "__main__":
    main(sys.argv[1:])
