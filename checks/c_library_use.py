"""usage: python3 checks/c_library_use.py [--library FOLDER]

The C library as hosts use it, rightly and wrongly. What is refused: each code for each call that gives it, with nothing
changed by it, which a second connection shows that goes the same way without it; lengths of 0, NULL where they are, texts that aren't UTF-8,
impossible settings, more written than is lent. What is lent keeps its place and its bytes over all calls that don't end the loan, and may be
passed to them. Each request for memory is refused in turn, alone and with those behind it: the call has changed nothing, and made again it goes
on, so that scripts give what they do otherwise. Eight threads with a connection each write the same bytes as one connection alone."""
import argparse
import os
import re
import shutil
import sys
import tempfile
from collections import Counter
from typing import Iterable

from support import connection_fuzzing as fuzzing
from support import connection_rows as rows
from support import connection_script as script
from support import playing_scripts, ran
from support.c_programs import C99, PLAYER, PLAYER_NEEDS, SUPPORT
from support.c_programs import build, default_library, is_whole, said, watched, wrapped

# The calls that need memory.
NEED_MEMORY = {f"bm_{it}" for it in "open feed next say_all call call_batch notify withdraw answer fail cancel".split()}
# By what requests are refused.
REFUSING = f"{SUPPORT}/refuse_calls.c"
# The codes that hosts meet: all but BM_OK, BM_NO_MEMORY and BM_FULL.
CODES = range(2, 9)
WAYS = ("REFUSE_NTH", "REFUSE_FROM")
# (a script's requests are few hundreds)
MOST = 1_000_000
# So many random sessions are tried too.
SESSIONS = 4
# (the longest scripts are left out)
LONGEST = 20_000
THREADS, REQUESTS, WATCHED_REQUESTS = 8, 2_000, 50


def words_of(words: Iterable[str]) -> argparse.Namespace:
    parser = argparse.ArgumentParser(usage=__doc__.partition("\n\n")[0].removeprefix("usage: "))
    parser.add_argument("--library", default=default_library())
    return parser.parse_args([*words])


def check_refusals(count: ran.Count, library: str, room: str) -> None:
    for way in ("shared", "static"):
        program = build(count, library, room, f"{SUPPORT}/bad_use.c", way)
        got = said([program])
        count.check(f"what hosts do wrong is refused, {way}", got[0] == 0 and not got[2], f"{got}")
        found = re.findall(r"^code (\d+): (\d+) refusals$", got[1].decode(), re.M)
        told = {int(code): int(refusals) for code, refusals in found}
        for code in CODES:
            count.check(f"the code {code} is given, {way}", told.get(code, 0) > 0, f"{told}")
    watched(count, "what hosts do wrong", [program])


def check_loans(count: ran.Count, library: str, room: str) -> None:
    """(under AddressSanitizer: c_library_memory.py)"""
    for way in ("shared", "static"):
        program = build(count, library, room, f"{SUPPORT}/loans.c", way)
        got = said([program])
        count.check(f"what is lent stays as it is, {way}", got == (0, b"", b""), f"{got}")
    watched(count, "loans", [program])


class Refusing:
    """A program around whose calls of the library requests for memory are refused."""

    def __init__(self, count: ran.Count, library: str, room: str, file: str, more: Iterable[str]):
        self.count, self.runs = count, 0
        # How often each call gave BM_NO_MEMORY, and how many requests were refused.
        self.told = Counter[str]()
        words = [*C99, REFUSING]
        self.program = build(count, library, room, file, "static", [*more, *wrapped(REFUSING)], words)

    def run(
        self, given: bytes, how: str, number: int, words: Iterable[str] = ()
    ) -> tuple[tuple[int, bytes, bytes], int]:
        """A run's status and its two outputs, and how many requests were refused."""
        with tempfile.TemporaryFile() as told:
            env = {**os.environ, how: str(number), "REFUSE_TELL": str(told.fileno())}
            got = said([self.program, *words], given, env=env, pass_fds=[told.fileno()])
            told.seek(0)
            lines = Counter(told.read().decode().split())
        self.runs += 1
        self.told += lines
        return got, lines["refused"]

    def each(
        self,
        name: str,
        given: bytes,
        wanted: bytes,
        ways: Iterable[str] = WAYS,
        words: Iterable[str] = (),
    ) -> None:
        """Refuses each request in turn, until a run meets no refusal."""
        for how in ways:
            for number in range(1, MOST):
                got, refused = self.run(given, how, number, words)
                well = got == (0, wanted, b"")
                if not well:
                    self.count.check(f"{name}, {how} {number}", False, f"{got}"[:1500])
                if not refused or not well:
                    break
            else:
                self.count.check(f"{name}, {how}", False, "no run met no refusal")
            self.count.check(f"{name}, {how}: made again, all goes on", well)


def check_memory(count: ran.Count, library: str, room: str) -> None:
    refusing = Refusing(count, library, room, PLAYER, PLAYER_NEEDS)
    playing_scripts.check(count, [refusing.program], "nothing refused", rows.all_rows()[:3])
    trials = [fuzzing.made(1, number)[0] for number in range(1, SESSIONS + 1)]
    for it in [*rows.all_rows(), *(rows.Row(it.name, it.actions, it.wanted) for it in trials)]:
        given, wanted = script.written(it.actions).encode(), "".join(f"{line}\n" for line in it.gives).encode()
        if len(given) <= LONGEST:
            refusing.each(it.name, given, wanted)
            refusing.each(f"{it.name}, together", given, wanted, WAYS[:1], words=["together"])
    runs, told = refusing.runs, refusing.told
    print(
        f"{runs:,} runs, each with another request for memory refused; {told.total() - told['refused']:,} calls gave BM_NO_MEMORY",
        flush=True,
    )
    for name in sorted(NEED_MEMORY):
        count.check(f"{name} is refused memory, and goes on", told[name] > 0, f"{told}")
    count.check("no other call is refused memory", {*told} == {*NEED_MEMORY, "refused"}, f"{told}")


def check_threads(count: ran.Count, library: str, room: str) -> None:
    for way in ("shared", "static"):
        program = build(count, library, room, f"{SUPPORT}/many_threads.c", way, ["-pthread"])
        alone, many = said([program, "1", str(REQUESTS)]), said([program, str(THREADS), str(REQUESTS)])
        well = alone == many and many[0] == 0 and many[1].count(b"\n") == 3 * REQUESTS
        count.check(
            f"{THREADS} threads write the same bytes, {way}", well, f"{many[0]}, {len(many[1])} bytes, {many[2]!r}"
        )
        other = said([program, str(THREADS), "20", "another byte"])
        count.check(f"another byte is seen, {way}", other[0] == 1 and b"other bytes" in other[2], f"{other}")
    watched(count, "threads", [program, str(THREADS), str(WATCHED_REQUESTS)])
    if shutil.which("valgrind"):
        got = said(
            ["valgrind", "-q", "--tool=helgrind", "--error-exitcode=9", program, str(THREADS), str(WATCHED_REQUESTS)]
        )
        count.check("threads share nothing, by helgrind", got[0] == 0 and not got[2], f"{got}"[-1500:])


def main(words: list[str]) -> None:
    library, count = os.path.abspath(words_of(words).library), ran.Count()
    if ran.lacks("cc", "it compiles the hosts"):
        count.end()
    if not is_whole(library):
        print(f"SKIPPED: there is no library in {library}: bin/build-library builds it", flush=True)
        count.end()
    with tempfile.TemporaryDirectory(prefix="c-library-") as room:
        check_refusals(count, library, room)
        check_loans(count, library, room)
        check_threads(count, library, room)
        check_memory(count, library, room)
    count.end()


main(sys.argv[1:])
