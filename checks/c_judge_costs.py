"""usage: python3 checks/c_judge_costs.py [--library FOLDER] [--count N]      judges N requests and answers, 10,000 where none are named

What judging takes, by `support/judge_costs.c` over the C library: instructions of requests and their answers before the
judge, and of a connection that is fed the same requests and answers them. And what it takes grows with what is
judged and no faster, where all is answered at once, and where all is open before the first answer comes, with ids that
are numbers and that are strings: twice as many take at most 2.2 times the instructions, as do contents that can't be
read behind as many open requests, and the memory of 200,000 is at most 2.2 times that of 100,000; and where all is answered
at once, with ids that are numbers, 1,000, 100,000 and 200,000 hold the same bytes, 21,400. Instructions are callgrind's."""
import argparse
import os
import subprocess
import sys
import tempfile
from functools import partial
from typing import Iterable, Optional

from support import ran, refusals
from support.c_programs import C99, SUPPORT, build, default_library, is_whole
from support.callgrind import instructions

COUNT, MOST_GROWTH = 10_000, 2.2
# A request and its answer take at most so many instructions: a fortieth more than was measured (docs/performance.md). Each
# has a bound of its own: one by the other would fail where a connection takes less.
MOST_INSTRUCTIONS = {"connection": 4_193, "passed": 18_757}
FEWEST_HELD, FEW_HELD, MANY_HELD = 1_000, 100_000, 200_000
KINDS = tuple(f"{way}{ids}" for ids in ("", "-strings") for way in ("passed", "open", "reversed"))
# Contents that can't be read, behind as many open requests.
UNREADABLE = "unreadable"
WORDS = [*C99, "-O2"]


def words_of(words: Iterable[str]) -> argparse.Namespace:
    parser = argparse.ArgumentParser(usage=__doc__.partition("\n\n")[0].removeprefix("usage: "))
    parser.add_argument("--library", default=default_library())
    parser.add_argument("--count", type=int, default=COUNT)
    return parser.parse_args([*words])


def check_instructions(count: ran.Count, program: str, most: int) -> None:
    """Counts at three sizes, as many side by side as there are processors."""
    sizes = {it: (0, most // 2, most) for it in ("none", "connection", *KINDS, UNREADABLE)}
    counted = iter(
        ran.side_by_side(partial(instructions, [program, kind, str(it)]) for kind, them in sizes.items() for it in them)
    )
    found = {kind: [next(counted) for _ in them] for kind, them in sizes.items()}
    failed = [kind for kind, them in found.items() if None in them]
    count.check("all are counted", not failed, failed)
    if not failed:
        taken = {kind: [it or 0 for it in them] for kind, them in found.items()}
        check_each(count, taken, most)
        for kind in (*KINDS, UNREADABLE):
            check_growth(count, kind, taken[kind], most)


def each(taken: list[int], most: int) -> float:
    return (taken[2] - taken[1]) / (most - most // 2)


def check_each(count: ran.Count, taken: dict[str, list[int]], most: int) -> None:
    """What a request and its answer take by a connection and before the judge, without the making of the texts."""
    none = each(taken["none"], most)
    for kind, bound in MOST_INSTRUCTIONS.items():
        found = each(taken[kind], most) - none
        print(f"{kind}: {found:,.0f} instructions for a request and its answer, of {most:,}", flush=True)
        count.check(f"{kind}: at most {bound:,} instructions each", 0 < found <= bound, f"{found:,.0f}")


def growth_of(taken: list[int]) -> float:
    begun, half, whole = taken
    return (whole - begun) / (half - begun)


def check_growth(count: ran.Count, kind: str, taken: list[int], most: int) -> None:
    growth = growth_of(taken)
    print(
        f"{kind}: {taken[1]:,} instructions at {most // 2:,} and {taken[2]:,} at {most:,}, growth {growth:.2f}",
        flush=True,
    )
    count.check(f"{kind} grows with its size", growth <= MOST_GROWTH, f"{growth:.2f}")


def held(program: str, kind: str, number: int) -> Optional[int]:
    """The most bytes that are held."""
    status, most, *_ = refusals.counted([program, kind, str(number)])
    return None if status else most


def check_memory(count: ran.Count, program: str) -> None:
    for kind in KINDS:
        few, many = (held(program, kind, it) for it in (FEW_HELD, MANY_HELD))
        well = few is not None and many is not None and many <= MOST_GROWTH * few
        count.check(f"{kind}: memory grows with its size", well, f"{few}, {many}")
        if few is not None and many is not None:
            print(f"{kind}: {few:,} bytes held of {FEW_HELD:,}, {many:,} of {MANY_HELD:,}", flush=True)
    # (ids that are strings are kept, so that one that comes again is known; a run of numbers is kept as one)
    passed = [held(program, KINDS[0], it) for it in (FEWEST_HELD, FEW_HELD, MANY_HELD)]
    count.check(f"{KINDS[0]}: nothing is kept", None not in passed and len({*passed}) == 1, passed)


def main(words: list[str]) -> None:
    options, count = words_of(words), ran.Count()
    library = os.path.abspath(options.library)
    if ran.lacks("cc", "it compiles the program"):
        count.end()
    if not is_whole(library) or "bm_judge_open" not in ran.text_of(f"{library}/bullmyrtle.h"):
        print(f"SKIPPED: what judging takes, since the library in {library} has no judge", flush=True)
        count.end()
    with tempfile.TemporaryDirectory(prefix="judge-costs-") as room:
        program = build(count, library, room, f"{SUPPORT}/judge_costs.c", "static", (), WORDS)
        ended = subprocess.run([program, "twice", "10"], capture_output=True, check=False)
        count.same("a program that is given findings fails", ended.returncode, 1)
        if not ran.lacks("valgrind", "it counts the instructions"):
            check_instructions(count, program, options.count)
        check_memory(count, program)
    count.end()


main(sys.argv[1:])
