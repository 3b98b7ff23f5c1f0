"""usage: python3 checks/fuzz.py [--cases N] [--seed S] [--player FILE]      tries N streams, 5,000 where none are named
       python3 checks/fuzz.py --replay FILE [--player FILE]               tries the one stream in a file that an earlier run wrote

Makes streams at random and runs each by several schedules, whole and cut, and by servers of one and of four workers; a
share of them by the built program too, over real pipes. What is written has to keep the laws of checks/support/laws.py.
A stream that breaks one is made as small as it goes and written to out/fuzz, and the line that says so has the command
that tries it again. Control: a player that forgets the last piece of a stream is found. Why laws and no model:
docs/decisions/tests_and_releases.md#fuzzing."""
import argparse
import sys
from dataclasses import replace
from functools import partial
from typing import Iterable, Sequence

from support import cases
from support import fuzzing
from support import ran
from support import rows

CASES, CONTROL = 5_000, 20

# A stream of one request, and what is written for it.
REQUEST, ANSWERED = rows.frames(rows.REQUEST), rows.frames(rows.NOT_FOUND)


def words_of(words: Iterable[str]) -> argparse.Namespace:
    parser = argparse.ArgumentParser(usage=__doc__.partition("\n\n")[0].removeprefix("usage: "))
    parser.add_argument("--cases", type=int, default=CASES)
    parser.add_argument("--seed", type=int, default=1)
    parser.add_argument("--player", default=ran.gates_program("peer_bench"))
    parser.add_argument("--replay")
    return parser.parse_args([*words])


def check_worked(count: ran.Count, player: str) -> None:
    """Cases one behind another: each is run as its line says, and the last of them is cut short."""
    given = b"".join(
        b"%s 62\n%s" % (how, REQUEST) for how in (b"play eager first -", b"play lazy 1,0 7,30", b"serve 2 22,1")
    )
    written = b"Clean 1 0 0 1 0 99\n" + ANSWERED
    got = ran.run(["cases"], given + b"play eager last 61 61\n" + REQUEST[:-1], program=player)
    count.same("four cases", got, (0, written * 3 + b"Truncated 0 0 0 0 0 0\n", b""))


def check_refusals(count: ran.Count, player: str, file: str) -> None:
    """The player refuses what is no case, and what it can't run."""
    refused = (
        b"x",
        b"play\n",
        b"play eager\n",
        b"play eager first 0\n",
        b"play soon first - 0\n",
        b"play eager 1,x - 0\n",
        b"play eager first - 1\n",
    )
    for given in (
        *refused,
        b"serve first - 0\n",
        b"serve 4 -1 0\n",
        b"serve 4 - 99999999999\n",
        b"turn 4 - 0\n",
        b"\xff - 0\n",
    ):
        count.same(
            f"refused: {given!r}", ran.run(["cases"], given, program=player), (2, b"", b"a case cannot be read\n")
        )
    for workers in (0, 65):
        got = ran.run(["cases"], b"serve %d - 0\n" % workers, program=player)
        count.same(f"{workers} workers", got, (0, b"Workers 0 0 0 0 0 0\n", b""))
    for table, wanted in ((file + "x", b"table: cannot be read\n"), (__file__, b"table: refused\n")):
        count.same(f"refused: {table}", ran.run(["cases", "--table", table], b"", program=player), (2, b"", wanted))


def forgetful(player: str, table: str, given: Sequence[cases.Case], patience: float) -> list[cases.Ran]:
    """What the player gives where it has not heard the last piece of a stream that is cut."""
    heard = [replace(it, stream=it.stream[: sum(it.sizes)]) if it.sizes else it for it in given]
    return cases.run(player, table, heard, patience)


def check_control(count: ran.Count, player: str) -> None:
    found = fuzzing.Fuzzer(partial(forgetful, player)).first_broken(1, CONTROL)
    count.check(f"a forgetful player is found in {CONTROL} streams", found is not None)


def main(words: list[str]) -> None:
    options = words_of(words)
    ran.built()
    fuzzer = fuzzing.Fuzzer(partial(cases.run, options.player))
    fuzzer.count.built("peer_bench", options.player)
    if options.player and options.replay:
        why = fuzzer.breaks(fuzzing.trial_in(options.replay))
        fuzzer.count.check(options.replay, why is None, why or "")
    elif options.player:
        check_worked(fuzzer.count, options.player)
        check_refusals(fuzzer.count, options.player, fuzzer.tables.files["traced"])
        fuzzer.try_all(options.seed, options.cases)
        fuzzer.check_floors()
        check_control(fuzzer.count, options.player)
    fuzzer.count.end()


main(sys.argv[1:])
