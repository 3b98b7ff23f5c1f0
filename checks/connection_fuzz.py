"""usage: python3 checks/connection_fuzz.py [--cases N] [--seed S] [--program FILE]      tries N sessions, 5,000 where none are named
       python3 checks/connection_fuzz.py --replay FILE [--program FILE]               tries the script in a file that an earlier run wrote

Makes sessions of a connection at random, by a random host and a random other side, each also with its bytes cut
otherwise. The player of scripts in C, or the program that is named, runs them by its command `script`, many in one
script; what it gives has to be what the plain model of docs/connection.md gives, line for line. A session that differs
is made as small as it goes and written to out/connection_fuzz, and the line that says so has the command that tries it
again. Control: a model that is wrong in one thing, in the program's place, is found."""
import argparse
import sys
import tempfile
from functools import partial
from typing import Iterable

from support import connection_fuzzing as fuzzing
from support import connection_script as script
from support import ran
from support.c_programs import PLAYER, PLAYER_NEEDS, built_alone
from support.connection_model import Model
from support.connection_reading import Entry

CASES, CONTROL = 5_000, 60


class CancelsTheAnswered(Model):
    """A cancel reaches requests that are answered."""

    def take_cancel(self, cancel: Entry) -> None:
        were = [it.is_open for it in self.calls]
        for it in self.calls:
            it.is_open = True
        super().take_cancel(cancel)
        for it, was in zip(self.calls, were):
            it.is_open = was


def words_of(words: Iterable[str]) -> argparse.Namespace:
    parser = argparse.ArgumentParser(usage=__doc__.partition("\n\n")[0].removeprefix("usage: "))
    parser.add_argument("--cases", type=int, default=CASES)
    parser.add_argument("--seed", type=int, default=1)
    parser.add_argument("--program")
    parser.add_argument("--how", default="script", help="the program's word (play_script.c knows `together` too)")
    parser.add_argument("--replay")
    return parser.parse_args([*words])


def try_sessions(options: argparse.Namespace, count: ran.Count, program: str) -> None:
    player: fuzzing.Player = partial(fuzzing.play_by_program, program, how=options.how)
    if options.replay:
        with open(options.replay, encoding="ascii") as it:
            why = fuzzing.breaks(player, script.read(it.read()))
        count.check(options.replay, why is None, why or "")
        return
    named = f" --program {options.program}" if options.program else ""
    again = f"python3 checks/connection_fuzz.py{named} --how {options.how}"
    fuzzing.Fuzzer(player, count, again).try_all(options.seed, options.cases)


def check_control(count: ran.Count) -> None:
    wrong: fuzzing.Player = partial(fuzzing.play_by_model, CancelsTheAnswered)
    found = fuzzing.first_found(wrong, 1, CONTROL)
    count.check(f"a wrong model is found in {CONTROL} sessions", found is not None)


def main(words: list[str]) -> None:
    options, count = words_of(words), ran.Count()
    with tempfile.TemporaryDirectory(prefix="connection-fuzz-") as room:
        program = options.program or built_alone(PLAYER, room, PLAYER_NEEDS)
        if program is not None:
            try_sessions(options, count, program)
    if not options.replay:
        check_control(count)
    count.end()


main(sys.argv[1:])
