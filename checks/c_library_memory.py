"""usage: python3 checks/c_library_memory.py [--library FOLDER] [--cases N]      watches N random sessions, 150 where none are named

What the C library does with memory. Two million calls come to a connection, and the most memory that is resident is the
same as after the first 100,000, also where a content always waits; where a host closes no notification it is seen to grow. The longest batch of invalid
entries takes at most 160 bytes for each of its bytes, one that is too long 3. It leaves 64 KiB at most, and so does
whatever else is large or comes often: content, line or response of 16 MB, 100,000 open calls, for a connection and for a
judge, and behind the second and the third of them there are the same bytes, to the kilobyte. A judge that is shown 100,000
messages in one piece is known to keep the room that they waited in. A content that waits, one or a line that isn't whole,
and an answer that waits for an earlier one take at most twice their bytes; a request that is open among 32 at most five times what it takes
where the others are open too; and a batch of which one request is open no more than 16 KiB. So much at most is held
behind a long text of the output and behind the last of many, and with all written there are the same bytes behind each
long one, to the kilobyte. bm_held gives no less than what is pending, and at most 77,824 with all written. Under
valgrind, where it is installed, rows, random sessions, loans and all examples have no error and lose nothing. By
AddressSanitizer, where clang has it, the same of rows, loans and examples: it sees what the library has given back, and
not into the library, so sessions would show no more by it."""
import argparse
import os
import re
import shutil
import sys
import tempfile
from typing import Iterable

from support import connection_fuzzing as fuzzing
from support import connection_rows as rows
from support import connection_script as script
from support import hosts, playing_scripts, ran, refusals
from support.c_programs import (
    C99,
    EXAMPLES,
    PLAYER,
    PLAYER_NEEDS,
    SUPPORT,
    VALGRIND,
    build,
    default_library,
    is_whole,
    lacks_cjson,
    said,
    watched,
)

CALLS, FEW_CALLS = 2_000_000, 200_000
# So many KiB more may be resident in the end, since the system counts pages by dozens: that is less than a byte a call.
# A host that forgets to close notifications has to take so many more.
FLAT, GROWN = 512, 2_000
# The longest content, and for each byte of a batch of invalid entries so many bytes at most; so many are held in the end.
LONGEST, DEAREST, LEFT = 16_777_216, 160, 65_536
# The same of a batch that is too long: it is held as its bytes came, in room that may grow to the double, and no more.
OF_CONTENT = 3
# So many bytes or things come and pass, and so many bytes at most are held beside those that were before.
LARGE, LARGEST, EVEN = 4_000_000, 16_777_000, 1_024
HELD = (
    ("content", LARGEST),
    ("blanks", LARGE),
    ("escapes", LARGEST),
    ("line", LARGEST),
    ("response", LARGEST),
    ("open", 100_000),
    ("waiting", 100_000),
    ("judge-content", LARGEST),
    ("judge-escapes", LARGEST),
    ("judge-line", LARGEST),
    ("judge-response", LARGEST),
    ("judge-open", 100_000),
    ("judge-passed", 100_000),
    ("judge-again", 100_000),
    ("judge-findings", 100_000),
    ("judge-findings-in-turn", 100_000),
)
# Known: the queue of contents that came and weren't judged yet keeps the room of the most that it ever had.
KEPT = {"judge-findings": 16_000_000}
# What is open or isn't whole, how much of it, and how many bytes are held for it at most: each of its bytes may stand in
# room for two, and what it is kept in has some more. (held_open.c has answers of 1,000 bytes.)
BESIDE = 16_384
OPEN = (
    ("content", LARGEST, 2 * LARGEST + BESIDE),
    ("frame", 2**22 + 1, 2 * (2**22 + 1) + BESIDE),
    ("line", 2**22 + 1, 2 * (2**22 + 1) + BESIDE),
    ("answers", 10_000, 2 * 10_000 * 1_000),
    ("batch", 100_000, BESIDE),
    ("dense", 1, BESIDE),
)
# Entries stand in pages of 32. One that is alone on its page has room for four at most, and the page itself.
SPARSE, ALONE = 10_000, 5
# What is behind a long text of the output, and the last of many, hold so many bytes at most.
MANY, BEHIND = 100_000, 16_384
# What bm_held gives at most with all written: what the header says, and the room that the block lent last has by then.
HELD_AT_MOST = 73_728 + 4_096
SESSIONS, FEW = 150, 25
SANITIZED = [
    "clang",
    "-std=c99",
    "-D_POSIX_C_SOURCE=200809L",
    "-O1",
    "-g",
    "-fsanitize=address,undefined",
    "-fno-sanitize-recover=all",
]


def words_of(words: Iterable[str]) -> argparse.Namespace:
    parser = argparse.ArgumentParser(usage=__doc__.partition("\n\n")[0].removeprefix("usage: "))
    parser.add_argument("--library", default=default_library())
    parser.add_argument("--cases", type=int, default=SESSIONS)
    return parser.parse_args([*words])


def check_steady(count: ran.Count, library: str, room: str) -> None:
    program = build(count, library, room, f"{SUPPORT}/steady_memory.c", "static")
    got = said([program, str(CALLS)])
    early, late = map(int, got[1].split()) if got[0] == 0 else (0, 1 << 60)
    print(f"{CALLS:,} calls: {early:,} KiB after the first {CALLS // 20:,}, {late:,} KiB in the end", flush=True)
    count.check("memory stays where it is", 0 < early and late <= early + FLAT, f"{got}")
    got = said([program, str(CALLS // 2), "together"])
    early, late = map(int, got[1].split()) if got[0] == 0 else (0, 1 << 60)
    count.check("it does so with few calls", 0 < early and late <= early + FLAT, f"{got}")
    got = said([program, str(CALLS // 4), "behind"])
    early, late = map(int, got[1].split()) if got[0] == 0 else (0, 1 << 60)
    count.check("it does so where a content always waits", 0 < early and late <= early + FLAT, f"{got}")
    got = said([program, str(FEW_CALLS), "forget"])
    early, late = map(int, got[1].split()) if got[0] == 0 else (0, 0)
    count.check("a host that closes no notification grows", late > early + GROWN, f"{got}")


def check_invalid_batch(count: ran.Count, library: str, room: str) -> None:
    program = build(count, library, room, f"{SUPPORT}/invalid_batch.c", "static")
    for framing in ("lines", "frames"):
        got = said([program, str(LONGEST), *([framing] if framing == "frames" else [])])
        length, most, left = map(int, got[1].split()) if got[0] == 0 else (1, 1 << 60, 1 << 60)
        print(f"a batch of {length:,} bytes in {framing}: {most / length:.0f} for each, {left:,} left", flush=True)
        count.check(f"a batch of invalid entries, in {framing}", most <= DEAREST * length and left <= LEFT, f"{got}")
        got = said([program, str(LONGEST), *([framing] if framing == "frames" else []), "limited"])
        length, most, left = map(int, got[1].split()) if got[0] == 0 else (1, 1 << 60, 1 << 60)
        print(f"the same, where it is too long: {most / length:.1f} for each, {left:,} left", flush=True)
        count.check(f"a batch that is too long, in {framing}", most <= OF_CONTENT * length and left <= LEFT, f"{got}")


def check_held(count: ran.Count, library: str, room: str) -> None:
    program = build(count, library, room, f"{SUPPORT}/held_behind.c", "static", ["-D_GNU_SOURCE"])
    for kind, size in HELD:
        held = refusals.Held()
        got = said([program, kind, str(size)], **held.how)
        left, *more = map(int, got[1].split()) if got[0] == 0 else (1 << 60, 0, 0)
        print(f"{kind} of {size:,}: {left:,} bytes are left, {more[0]:,} and {more[1]:,} more than before", flush=True)
        if kind in KEPT:
            count.check(f"room is kept behind {kind}, which is known", EVEN < max(more) <= KEPT[kind], f"{got}")
        else:
            is_even = left <= LEFT and all(abs(it) <= EVEN for it in more)
            count.check(f"no room is kept behind {kind}", is_even, f"{got}")


def check_open(count: ran.Count, library: str, room: str) -> None:
    program = build(count, library, room, f"{SUPPORT}/held_open.c", "static", ["-D_GNU_SOURCE"])

    def held_for(kind: str, size: int) -> int:
        counting = refusals.Held()
        status, output, _ = said([program, kind, str(size)], **counting.how)
        held = int(output) if status == 0 else 0
        print(f"{kind} of {size:,}: {held:,} bytes are held for it", flush=True)
        return held

    for kind, size, most in OPEN:
        held = held_for(kind, size)
        count.check(f"{kind} of {size:,} takes what it needs", 0 < held <= most, f"{held:,}, at most {most:,}")
    dense, sparse = held_for("dense", SPARSE), held_for("sparse", SPARSE)
    count.check("requests far apart take what they need", 0 < sparse <= ALONE * dense, f"{sparse:,}, {dense:,}")


def check_kept_output(count: ran.Count, library: str, room: str) -> None:
    program = build(count, library, room, f"{SUPPORT}/kept_output.c", "static", ["-D_GNU_SOURCE"])
    for framing in ("frames", "lines", "contents"):
        got = said([program, framing, str(LARGE), str(MANY)])
        long, many, left, *more, fresh, waiting, written = map(int, got[1].split()) if got[0] == 0 else [1 << 60] * 8
        print(
            f"output in {framing}: {long:,} bytes held behind {LARGE:,}, with a short one left, {many:,} at the last of "
            f"{MANY:,}; {left:,} are left with all written, {more[0]:,} and {more[1]:,} more than before",
            flush=True,
        )
        count.check(f"what is written is given back, in {framing}", max(long, many) <= BEHIND, f"{got}")
        is_even = left <= LEFT and all(abs(it) <= EVEN for it in more)
        count.check(f"no room is kept behind long output, in {framing}", is_even, f"{got}")
        print(f"bm_held: {fresh:,} at first, {waiting:,} while it waits, {written:,} with all written", flush=True)
        follows = fresh == 0 and LARGE < waiting <= 2 * LARGE + HELD_AT_MOST and written <= HELD_AT_MOST
        count.check(f"bm_held follows what waits, in {framing}", follows, f"{got}")


def sessions(cases: int) -> list[rows.Row]:
    """Random sessions."""
    trials = [fuzzing.made(2, it)[0] for it in range(1, cases + 1)]
    return playing_scripts.joined([rows.Row(it.name, it.actions, it.wanted) for it in trials])


def check_examples(count: ran.Count, library: str, room: str, kind: str, watch: list[str], words: list[str]) -> None:
    """The host, the client and the language server, built and watched in some way."""
    host = [*watch, build(count, library, room, f"{EXAMPLES}/host.c", "static", words=words)]
    client = [*watch, build(count, library, room, f"{EXAMPLES}/client.c", "static", words=words)]
    quick_host = [*watch, build(count, library, room, f"{EXAMPLES}/quick_host.c", "static", words=words)]
    for name, words_of_host in (("host", host), ("quick host", quick_host)):
        got = said(words_of_host, hosts.HOST[0])
        count.check(f"the {name}, {kind}", got == (0, hosts.HOST[1], b""), f"{got}"[-1500:])
    explaining_host = [*watch, build(count, library, room, f"{EXAMPLES}/explaining_host.c", "static", words=words)]
    got = said(explaining_host, hosts.EXPLAINING[0])
    count.check(f"the host that says what is broken, {kind}", got == (0, *hosts.EXPLAINING[1:]), f"{got}"[-1500:])
    for given, wanted in hosts.CLIENT:
        got = said([*client, *given, *host])
        count.check(f"the client, {kind}", got == (*wanted, b""), f"{got}"[-1500:])
    if not lacks_cjson():
        server = [*watch, build(count, library, room, f"{EXAMPLES}/language_server.c", "static", ["-lcjson"], words)]
        for name, it in hosts.GREETER.items():
            got = said(server, hosts.framed(*it.says))
            count.check(
                f"the language server, {kind}: {name}",
                got == (it.status, hosts.framed(*it.answers), b""),
                f"{got}"[-1500:],
            )


def check_by_valgrind(count: ran.Count, library: str, room: str, cases: int) -> None:
    if shutil.which("valgrind") is None:
        print("SKIPPED: valgrind, which isn't here", flush=True)
        return
    player = build(count, library, room, PLAYER, "static", PLAYER_NEEDS)
    playing_scripts.check(count, [*VALGRIND, player], "valgrind", playing_scripts.short_rows())
    playing_scripts.check(count, [*VALGRIND, player], "valgrind", sessions(cases))
    playing_scripts.check(count, [*VALGRIND, player, "together"], "valgrind, together", playing_scripts.short_rows())
    playing_scripts.check(count, [*VALGRIND, player, "together"], "valgrind, together", sessions(cases))
    watched(count, "loans", [build(count, library, room, f"{SUPPORT}/loans.c", "static")])
    check_examples(count, library, room, "valgrind", VALGRIND, C99)
    summary = said(["valgrind", "--leak-check=full", player], script.written(sessions(FEW)[0].actions).encode())[
        2
    ].decode()
    for line in re.findall(r"==\d+== +((?:total heap usage|ERROR SUMMARY|All heap blocks).*)", summary):
        print(f"valgrind over {FEW} sessions, each cut twice: {line}", flush=True)


def check_by_sanitizer(count: ran.Count, library: str, room: str) -> None:
    alone = b"int main(void) { return 0; }\n"
    if shutil.which("clang") is None or said([*SANITIZED, "-x", "c", "-", "-o", f"{room}/alone"], alone)[0]:
        print("SKIPPED: AddressSanitizer, which clang hasn't here (libclang-rt-14-dev)", flush=True)
        return
    player = build(count, library, room, PLAYER, "static", PLAYER_NEEDS, SANITIZED)
    playing_scripts.check(count, [player], "AddressSanitizer", rows.all_rows())
    playing_scripts.check(count, [player, "together"], "AddressSanitizer, together", rows.all_rows())
    for file in ("loans.c", "bad_use.c"):
        got = said([build(count, library, room, f"{SUPPORT}/{file}", "static", words=SANITIZED)])
        count.check(f"{file}, AddressSanitizer", got[0] == 0 and not got[2], f"{got}"[-1500:])
    check_examples(count, library, room, "AddressSanitizer", [], SANITIZED)


def main(words: list[str]) -> None:
    options, count = words_of(words), ran.Count()
    library = os.path.abspath(options.library)
    if ran.lacks("cc", "it compiles the hosts"):
        count.end()
    if not is_whole(library):
        print(f"SKIPPED: there is no library in {library}: bin/build-library builds it", flush=True)
        count.end()
    with tempfile.TemporaryDirectory(prefix="c-library-") as room:
        check_by_valgrind(count, library, room, options.cases)
    with tempfile.TemporaryDirectory(prefix="c-library-") as room:
        check_by_sanitizer(count, library, room)
    with tempfile.TemporaryDirectory(prefix="c-library-") as room:
        check_steady(count, library, room)
        check_invalid_batch(count, library, room)
        check_held(count, library, room)
        check_open(count, library, room)
        check_kept_output(count, library, room)
    count.end()


main(sys.argv[1:])
