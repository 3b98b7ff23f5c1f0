"""usage: python3 checks/judged_hosts.py [--cases N] [--seed S]      has N conversations, 600 where none are named

Hosts in Python over the released library talk to each other: random calls, notifications, batches, answers in any order,
failures, cancels, withdrawals and ends, by the rules of JSON-RPC, LSP and both of MCP. Each host keeps the rules. The
library's judge, by its calls in Python, is shown what both write, and finds nothing; but for answers in MCP that crossed
with their cancel, which are notes. And where a host breaks a rule, by a code that isn't defined, an answer twice or an
early end, this is found, of this host and nothing else."""
import argparse
import os
import signal
import sys
from collections import Counter
from concurrent.futures import ProcessPoolExecutor
from typing import NamedTuple

from support import judged, ran

# (hosts and judge are those of the package, over the released library)
os.environ.update(judged.environment())
sys.path.insert(0, judged.PACKAGE)

from bullmyrtle.judge import Judge  # type: ignore[import]  # noqa: E402
from support.talk import Failed  # noqa: E402
from support.talking import WRONGS, Talk, Talked, planned  # noqa: E402

CASES, BATCH = 600, 60
# A conversation takes some milliseconds.
SECONDS = 60
# Of a hundred conversations so much is done at least, so that hosts that say nothing fail; and of a hundred with a host
# that breaks a rule so many are found at least.
FLOORS = {
    **{"calls": 400, "batches": 40, "notifications": 300, "answers": 150, "failures": 40, "cancelled": 20},
    **{"withdrawn": 60, "heard": 20, "replied": 150, "unanswered": 5},
}
BROKEN = 40


class Had(NamedTuple):
    """What came of some conversations."""

    faults: list[str]
    did: Counter[str]
    had: Counter[str]  # how many, by how a host was to break a rule
    broken: Counter[str]  # in how many of them it did


def hangs(*_: object) -> None:
    raise TimeoutError(f"it takes more than {SECONDS} seconds")


def words_of(words: list[str]) -> argparse.Namespace:
    parser = argparse.ArgumentParser(usage=__doc__.partition("\n\n")[0].removeprefix("usage: "))
    parser.add_argument("--cases", type=int, default=CASES)
    parser.add_argument("--seed", type=int, default=1)
    return parser.parse_args(words)


def had(names: list[tuple[str, str]]) -> Had:
    """Has conversations of these names; each has beside it how a host breaks a rule."""
    result = Had([], Counter(), Counter(), Counter())
    signal.signal(signal.SIGALRM, hangs)
    for name, wrong in names:
        signal.alarm(SECONDS)
        plan = planned(name, wrong)
        judge = Judge(plan.rules, plan.framing)
        try:
            note(result, Talk(plan, judge).talk())
        except (Failed, TimeoutError) as fault:
            result.faults.append(f"{name}: {fault}")
        judge.close()
    signal.alarm(0)
    return result


def note(result: Had, talked: Talked) -> None:
    plan = talked.plan
    if not talked.is_well:
        broken = f"{plan.wrong}, {talked.breaks} times" if talked.breaks else "nothing"
        it = f"{plan.name}, {plan.rules}, {plan.framing}, with {broken} planted: {talked.accused}"
        result.faults.append(f"{it} in {talked.streams}")
    result.did.update(talked.did)
    result.did["crossed"] += len(talked.crossed)
    result.did["bytes"] += sum(map(len, talked.streams))
    result.had[plan.wrong] += 1
    result.broken[plan.wrong] += talked.breaks > 0


def converse(count: ran.Count, cases: int, seed: int) -> Had:
    """Conversations in which no rule is broken, and a tenth as many for each way to break one."""
    names = [(f"seed-{seed}-{it}", "") for it in range(cases)]
    names += [(f"broken seed-{seed}-{it}", how) for how in WRONGS for it in range(max(cases // 10, 10))]
    total = Had([], Counter(), Counter(), Counter())
    with ProcessPoolExecutor(len(os.sched_getaffinity(0))) as pool:
        for it in pool.map(had, [names[at : at + BATCH] for at in range(0, len(names), BATCH)]):
            total.faults.extend(it.faults)
            for mine, its in zip(total[1:], it[1:]):
                mine.update(its)
    count.passed += len(names) - len(total.faults)
    for fault in total.faults[:5]:
        count.check("a conversation", False, fault)
    count.same("as many conversations as there should be", sum(total.had.values()), len(names))
    return total


def check_floors(count: ran.Count, total: Had) -> None:
    cases = total.had[""]
    for what, least in FLOORS.items() if cases >= 100 else ():
        wanted = least * cases // 100
        count.check(f"{what}, {wanted} at least", total.did[what] >= wanted, total.did[what])
    for how, number in total.had.items():
        if how:
            wanted = max(BROKEN * number // 100, 1)
            count.check(f"{how} is found, {wanted} times at least", total.broken[how] >= wanted, total.broken[how])
    print(f"{dict(total.did)}; broken and found: {dict(total.broken)}", flush=True)


def main(words: list[str]) -> None:
    options, count = words_of(words), ran.Count()
    if not judged.lacks_judge():
        check_floors(count, converse(count, options.cases, options.seed))
    count.end()


if __name__ == "__main__":
    main(sys.argv[1:])
