"""usage: python3 checks/c_judge.py [--library FOLDER] [--cases N]      tries N conversations of each kind, 300 where none are named

The judge of the C library. Its header names the rules, their sections and who keeps them as the table of docs/judge.md
does. The worked rows of judge_rows/ and random conversations, cut at random, with rooms for few findings, have the
findings that the plain model has (`support/judge_model.py`), by each set of rules; with limits of their own too. An
array of too many entries takes no room for these. Options, sides and ends that there aren't are refused, and nothing is
changed by them. Each request for memory is refused in turn: what was found before is told, and nothing more is seen.
Under valgrind, where it is installed, nothing is lost. The example examples/c/judging.c is built and run."""
import argparse
import os
import shutil
import sys
import tempfile
from typing import Iterable

from support import c_interface as interface
from support import judge_conversations as conversations
from support import judged_in_c as judged
from support import ran
from support.c_programs import C99, EXAMPLES, SUPPORT, VALGRIND, build, default_library, is_whole, said, wrapped
from support.judge_conversations import Seen
from support.judge_model import MOST_CONTENT, MOST_IDS, Judge
from support.judge_reading import MOST_ENTRIES
from support.judged_in_c import KINDS, NAMES, talks

CASES, FEW = 300, 12
TOGETHER = 40
# The most room of a process that judges an array of 16 MB, in bytes: that of its values, twice for a while, and its text.
MOST_ROOM = 600 << 20
# What the example is given, its status, and what it has to write.
SHOWN = (
    b'> {"jsonrpc":"2.0","method":"a","id":7}\n< {"jsonrpc":"2.0","id":"7","result":1}\n'
    b'> [{"jsonrpc":"2.0","method":"b"},1]\n',
    1,
    b"server must not-owed: message 1 of the server, at byte 0 (JSON-RPC 4.1, 5)\n"
    b"client must object: message 2 of the client, entry 2, at byte 38 (JSON-RPC 4)\n"
    b"server must unanswered: message 1 of the client, at byte 0 (JSON-RPC 5; LSP, Cancellation Support)\n",
)


def words_of(words: Iterable[str]) -> argparse.Namespace:
    parser = argparse.ArgumentParser(usage=__doc__.partition("\n\n")[0].removeprefix("usage: "))
    parser.add_argument("--library", default=default_library())
    parser.add_argument("--cases", type=int, default=CASES)
    return parser.parse_args([*words])


# The header


def program_of_names() -> str:
    """A program in C that writes a line for each rule, and the levels."""
    lines = [f"    for (uint32_t it = 0; it <= {len(NAMES.rules)}; it++)"]
    lines += ['        printf("%s|%s\\n", bm_rule_name(it), bm_rule_section(it));']
    lines += ["    for (uint32_t it = 0; it <= 3; it++)", "        puts(bm_level_text(it));"]
    return (
        '#include "bullmyrtle.h"\n#include <stdio.h>\n\nint main(void)\n{\n' + "\n".join(lines) + "\n    return 0;\n}\n"
    )


def check_header(count: ran.Count, room: str) -> None:
    values = interface.names_in_header()
    wanted = {f"BM_RULE_{it.upper().replace('-', '_')}": number for number, it in enumerate(NAMES.rules)}
    count.same(
        "the header has the page's rules", {it: values[it] for it in values if it.startswith("BM_RULE_")}, wanted
    )
    with open(f"{room}/names.c", "w", encoding="ascii") as it:
        it.write(program_of_names())
    built = said([*C99, f"-I{ran.TOP}/include", f"{room}/names.c", "-o", f"{room}/names"])
    sections = {name: section for name, _, section in judged.ROWS}
    rows = [f"{it}|{sections.get(it, '')}" for it in NAMES.rules]
    lines = [*rows, "another rule|", *judged.LEVELS, "another level"]
    got = said([f"{room}/names"]) if built[0] == 0 else built
    count.same(
        "the header has the page's names and sections", got[:2], (0, "".join(f"{it}\n" for it in lines).encode())
    )


# Conversations


def play(count: ran.Count, words: list[str], kind: str, trials: list[judged.Talk]) -> None:
    """Shows them to the judge, several to one process."""
    for first in range(0, len(trials), TOGETHER):
        some = trials[first : first + TOGETHER]
        given = "".join(f"{line}\n" for it in some for line in it.lines())
        wanted = [line for it in some for line in it.wanted(NAMES)]
        got = said(words, given.encode())
        lines = got[1].decode().splitlines()
        at = next((i for i, pair in enumerate(zip(lines, wanted)) if pair[0] != pair[1]), min(len(lines), len(wanted)))
        well = got[0] == 0 and lines == wanted and not got[2]
        count.passed += len(some) - 1 if well else 0
        count.check(
            f"{kind}: {some[0].name}, and those behind it",
            well,
            f"{got[0]}, {got[2][-300:]!r}: line {at}: {lines[at:at + 3]} in place of {wanted[at:at + 3]}",
        )


# Limits, and what there isn't


def check_limits(count: ran.Count, program: str) -> None:
    """A content that is longer than the limit, and more ids than are kept."""
    asks = b"".join(b'{"jsonrpc":"2.0","method":"a","id":%d}\n' % it for it in range(2, 20, 2))
    for content, ids in ((37, 0), (38, 0), (0, 4), (0, 8), (0, 9)):
        judge = Judge("jsonrpc", "lines", content or MOST_CONTENT, ids or MOST_IDS)
        conversations.show(judge, [Seen("client", asks)])
        lines = [f"code {judged.OK}"] * 2 + [*map(NAMES.line, judge.findings), f"count {len(judge.findings)}"]
        got = said([program], f"judge 0 1 {content} {ids}\nsaw 0 {asks.hex()}\nnext 1000\n".encode())
        count.same(f"a limit of {content} bytes and of {ids} ids", (got[0], got[1].decode().splitlines()), (0, lines))


def check_entries(count: ran.Count, program: str) -> None:
    """As many entries as an array may have, and one more, behind which judging goes on. (No row has them, since each wrong
    judge would read them.) And an array of 8,388,607 entries takes no room behind what its values take."""
    one = b'{"jsonrpc":"2.0","method":"a"}'
    ones = b"[" + b"1," * 8_388_606 + b"1]"
    some = [b"[" + b",".join([one] * it) + b"]" for it in (MOST_ENTRIES, MOST_ENTRIES + 1)]
    limited = ["sh", "-c", f'ulimit -v {MOST_ROOM // 1024} && exec "$0"', program]
    for content, wanted in (
        (some[0], ["object"]),
        (some[1], ["not-judged", "object"]),
        (ones, ["not-judged", "object"]),
    ):
        judge = Judge("jsonrpc", "contents", MOST_CONTENT, MOST_IDS)
        conversations.show(judge, [Seen("client", content), Seen("client", b"1")])
        count.same(f"an array of {len(content):,} bytes before the model", [it.rule for it in judge.findings], wanted)
        lines = [*["code 0"] * 3, *map(NAMES.line, judge.findings), f"count {len(wanted)}"]
        got = said(limited, f"judge 0 2 0 0\nsaw 0 {content.hex()}\nsaw 0 31\nnext 9\n".encode())
        result = got[0], got[1].decode().splitlines()
        count.same(f"an array of {len(content):,} bytes, in {MOST_ROOM:,} bytes", result, (0, lines))


def check_refused(count: ran.Count, program: str) -> None:
    values = interface.names_in_header()
    bad = f"code {values['BM_SETTINGS']}"
    for options in ("6 0 0 0", "0 3 0 0", "0 0 16777217 0", "4294967295 0 0 0"):
        got = said([program], f"judge {options}\n".encode())
        count.same(f"options that there aren't: {options}", got[:2], (0, f"{bad}\n".encode()))
    ask = b'{"jsonrpc":"2.0","method":"a","id":1}\n'.hex()
    given = f"judge 0 1 16777216 4294967295\nsaw 2 {ask}\nended 2 0\nended 0 2\nsaw 4294967295 .\nsaw 0 {ask}\nnext 9\nsaw 1 .\n"
    given += "ended 1 0\nended 1 1\nsaw 1 31\nnext 0\nnext 9\n"
    wanted = ["code 0", *[bad] * 4, "code 0", "count 0", *["code 0"] * 4, "count 0", "found 1 27 0 1 1 0 0", "count 1"]
    got = said([program], given.encode())
    count.same("what there isn't changes nothing", (got[0], got[1].decode().splitlines()), (0, wanted))
    with open(f"{SUPPORT}/bad_use.c", encoding="ascii") as it:
        count.check("options of another size are refused by bad_use.c", "bm_judge_open" in it.read())


# Memory


def check_memory(count: ran.Count, library: str, room: str) -> None:
    """Each request for memory is refused, alone and with those behind it."""
    refusing = f"{SUPPORT}/refuse_judge.c"
    words = [*C99, refusing]
    program = build(count, library, room, f"{SUPPORT}/judge_talks.c", "static", wrapped(refusing), words)
    refusals = 0
    for talk in [it for kind in KINDS for it in talks(kind, FEW)]:
        given = "".join(f"{line}\n" for line in talk.lines()).encode()
        for how in ("REFUSE_NTH", "REFUSE_FROM"):
            number, is_refused = 0, True
            while is_refused:
                number += 1
                got = said([program], given, env={**os.environ, how: str(number)})
                is_refused, why = what_came(talk, got)
                refusals += is_refused
                count.check(f"{talk.name}, {how} {number}", not why, why)
    print(f"{refusals:,} requests for memory were refused", flush=True)
    count.check("memory was refused", refusals > 100, f"{refusals}")


def what_came(talk: judged.Talk, got: tuple[int, bytes, bytes]) -> tuple[bool, str]:
    """Whether memory was refused, and what is wrong with what came of it."""
    lines = got[1].decode().splitlines()
    if lines == [f"code {judged.NO_MEMORY}"]:
        return True, "" if got[0] == 2 else f"{got}"  # (no judge was made, so the next line can't be shown to it)
    codes = [it for it in lines if it.startswith("code ")][1:]
    refused = codes.index(f"code {judged.NO_MEMORY}") if f"code {judged.NO_MEMORY}" in codes else None
    well = (got[0], lines) == (0, talk.wanted(NAMES, refused))
    return refused is not None, "" if well else f"{got}"[-900:]


def main(words: list[str]) -> None:
    options, count = words_of(words), ran.Count()
    library = os.path.abspath(options.library)
    if ran.lacks("cc", "it compiles the programs"):
        count.end()
    with tempfile.TemporaryDirectory(prefix="c-judge-") as room:
        check_header(count, room)
        if not is_whole(library) or "bm_judge_open" not in ran.text_of(f"{library}/bullmyrtle.h"):
            print(f"SKIPPED: all but the header, since the library in {library} has no judge", flush=True)
            count.end()
        for way in ("shared", "static"):
            program = build(count, library, room, f"{SUPPORT}/judge_talks.c", way)
            play(count, [program], f"worked rows, {way}", judged.of_rows())
            for kind in KINDS:
                play(count, [program], f"{kind}, {way}", talks(kind, options.cases if way == "static" else FEW))
            check_limits(count, program)
            check_entries(count, program)
            check_refused(count, program)
            given, status, wanted = SHOWN
            got = said([build(count, library, room, f"{EXAMPLES}/judging.c", way)], given)
            count.same(f"the example judges, {way}", got, (status, wanted, b""))
        if shutil.which("valgrind"):
            play(count, [*VALGRIND, program], "worked rows, valgrind", judged.of_rows())
            for kind in KINDS:
                play(count, [*VALGRIND, program], f"{kind}, valgrind", talks(kind, FEW))
        check_memory(count, library, room)
    count.end()


main(sys.argv[1:])
