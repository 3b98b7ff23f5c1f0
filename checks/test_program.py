"""Runs the program as a user does: the rows however they are cut, with methods and without, large inputs, lines,
command lines, tables that are refused, and devices that fail."""
import os
import socket
import subprocess
import threading
from typing import Any, Callable, NamedTuple

import pytest

from support import ran, rows
from support.expecting import check, same
from support.naming import named
from support.row_files import frame

LINE = (rows.REQUEST + "\n").encode()
ANSWER, UNREADABLE = f"{rows.NOT_FOUND}\n".encode(), f"{rows.UNREADABLE}\n".encode()
# A content whose answer is too long for a line.
LONG = LINE + b"[1" + b",1" * 210_000 + b"]\n"
PIECES = ("1", "7", "4095", "4096", "4097", "65536")


def methods() -> str:
    return rows.file_of(rows.METHODS)


def expect(words: list[str], given: bytes, output: bytes, errors: bytes = b"", status: int = 0) -> None:
    same(ran.run(words, given), (status, output, errors), f"{words}")


def expect_end(words: list[str], given: bytes, output: bytes, end: str) -> None:
    """The same of an input that ends so, "" where it ends clean."""
    status, errors = rows.ended(end)
    expect(words, given, output, errors, status)


def test_first_line() -> None:
    """The first use of the README, through the very command."""
    ran.built()  # (which that command would do too)
    same(ran.run(["play", "--lines"], LINE, ran.PROGRAM), (0, ANSWER, b""))


# Rows


@pytest.mark.parametrize("row", named(rows.ROWS))
def test_row(row: tuple[str, bytes, bytes, str]) -> None:
    """A stream that comes to a peer without methods, in pieces; and to one with methods that the stream doesn't
    name."""
    _, given, output, end = row
    for piece in PIECES:
        expect_end(["play", "--piece", piece], given, output, end)
    if b'"add"' not in given:
        expect_end(["play", f"--table={methods()}", "--lazy", "--last"], given, output, end)


@pytest.mark.parametrize("row", named(rows.PLAYS))
def test_play(row: tuple[str, str, list[list[str]], list[str], list[str]]) -> None:
    """Methods of a table, as frames in pieces and as lines."""
    _, table, ways, given, output = row
    for way in ways:
        words = ["play", "--table", rows.file_of(table), *way]
        for piece in ("1", "7", "65536"):
            expect([*words, "--piece", piece], rows.frames(*given), rows.frames(*output))
        expect([*words, "--lines"], rows.lines(*given), rows.lines(*output))


def test_answer_before_a_fault() -> None:
    cut = rows.frames(rows.ask(), rows.replied("1.1")) + b"x\r\n"
    expect_end(["play", "--table", methods()], cut, rows.frames(rows.called("1.1"), rows.answered("true")), "BadHead")


def test_reply_behind_a_fault() -> None:
    cut = rows.frames(rows.ask()) + b"x\r\n" + rows.frames(rows.replied("1.1"))
    expect_end(["play", "--table", methods()], cut, rows.frames(rows.called("1.1"), rows.NO_REPLY), "BadHead")


# Large inputs: the greatest content, contents beyond 100,000 bytes, many frames, a large batch, a long string


def greatest() -> bytes:
    return frame(b'"' + b"a" * 16_777_214 + b'"')


def notices() -> bytes:
    """1,000,000 calls."""
    return rows.frames(rows.batch(*[rows.NOTICE] * 1_000)) * 1_000


@pytest.mark.parametrize("piece", PIECES[2:])
def test_16_MiB(piece: str) -> None:
    expect(["play", "--piece", piece], greatest(), rows.frames(rows.INVALID))


@pytest.mark.parametrize("piece", ("4095", "4097", "65536"))
def test_content_of_100_001_bytes(piece: str) -> None:
    beyond = rows.REQUEST + " " * (100_001 - len(rows.REQUEST))
    expect(["play", "--piece", piece], rows.frames(beyond), rows.frames(rows.NOT_FOUND))
    unreadable = rows.frames("{" * 100_001, rows.REQUEST)
    expect(["play", "--piece", piece], unreadable, rows.frames(rows.UNREADABLE, rows.NOT_FOUND))


def test_batch_of_10_000() -> None:
    numbers = range(1, 10_001)
    batch = ",".join(rows.REQUEST.replace('"id":1', f'"id":{it}') for it in numbers)
    answers = ",".join(rows.NOT_FOUND.replace('"id":1', f'"id":{it}') for it in numbers)
    expect(["play"], rows.frames(f"[{batch}]"), rows.frames(f"[{answers}]"))


def test_100_000_frames() -> None:
    expect(["play"], rows.frames(rows.REQUEST) * 100_000, rows.frames(rows.NOT_FOUND) * 100_000)


def test_string_of_8_MB() -> None:
    text = '{"jsonrpc":"2.0","method":"nope","id":1,"params":["' + "a" * 8_000_000 + '"]}'
    expect(["play"], rows.frames(text), rows.frames(rows.NOT_FOUND))


def test_content_over_the_limit() -> None:
    expect_end(["play"], b"Content-Length: 16777217\r\n\r\n" + b"a" * 16_777_217, b"", "TooLarge")


def test_content_over_a_limit_near_the_standard_one() -> None:
    expect_end(["play", "--content", "16777215"], greatest(), b"", "TooLarge")


def test_1_000_000_calls() -> None:
    expect(["play"], notices(), b"")
    expect_end(["play"], notices() + rows.frames(rows.REQUEST, "[]"), b"", "Full")
    expect_end(["play", "--calls", "999999"], notices(), b"", "Full")


class Calls(NamedTuple):
    """10,000 requests that each make one call, and what comes of them."""

    asks: list[str]
    replies: list[str]
    calls: list[str]
    results: list[str]
    stopped: list[str]

    @classmethod
    def made(cls) -> "Calls":
        numbers = range(1, 10_001)
        keys = [f"{it}.1" for it in numbers]
        answers = (
            [rows.answered("true", it) for it in numbers],
            [rows.failed(-32800, "Request cancelled", it) for it in numbers],
        )
        return cls([rows.ask(it) for it in numbers], [*map(rows.replied, keys)], [*map(rows.called, keys)], *answers)

    @property
    def cancels(self) -> list[str]:
        return [rows.cancel(it) for it in range(1, 10_001)]


def mixed(*lists: list[str]) -> list[str]:
    """The first of each, the second of each, .."""
    return [it for several in zip(*lists) for it in several]


def withdrawals(it: Calls) -> list[str]:
    return mixed([rows.withdrawn(f"{number}.1") for number in range(1, 10_001)], it.stopped)


# name, more words, what comes and what is written
MANY_CALLS: list[tuple[str, list[str], Callable[[Calls], tuple[list[str], list[str]]]]] = [
    ("each replied to at once", [], lambda it: (mixed(it.asks, it.replies), mixed(it.calls, it.results))),
    ("open at once", [], lambda it: ([*it.asks, *it.replies], [*it.calls, *it.results])),
    ("replied to in reverse order", [], lambda it: ([*it.asks, *it.replies[::-1]], [*it.calls, *it.results])),
    ("cancelled", [], lambda it: ([*it.asks, *it.cancels], [*it.calls, *withdrawals(it)])),
    ("cancelled before the first turn", ["--lazy"], lambda it: ([*it.asks, *it.cancels], it.stopped)),
]


@pytest.mark.parametrize("row", named(MANY_CALLS))
def test_10_000_calls(row: tuple[str, list[str], Callable[[Calls], tuple[list[str], list[str]]]]) -> None:
    _, words, streams = row
    given, output = streams(Calls.made())
    expect(["play", "--lines", "--table", methods(), *words], rows.lines(*given), rows.lines(*output))


# Lower limits. REQUEST has 40 bytes. What is left out has no effect, and nothing behind it is read.

# Two calls in one content; entries that are no calls and a request, and their answers; and a reply that stands behind a
# call too many.
NOTICE_TWICE = rows.batch(rows.NOTICE, rows.NOTICE)
NO_CALLS = rows.frames(rows.batch(rows.INVALID, rows.INVALID), rows.NOT_FOUND, rows.UNREADABLE, rows.INVALID)
REPLIED_LATE = rows.frames(rows.ask(), rows.REQUEST, rows.replied("1.1"))
TWO, BOTH = rows.frames(rows.REQUEST, rows.REQUEST), rows.frames(rows.NOT_FOUND, rows.NOT_FOUND)
ONE, ASKED = rows.frames(rows.NOT_FOUND), rows.frames(rows.ask(), rows.replied("1.1"))
CALLED_BACK = rows.frames(rows.called("1.1"), rows.answered("true"))
TABLE = "TABLE"  # (stands for the file with the methods)
LIMITED = [
    ("a content of the limit", ["--content", "40"], TWO, BOTH, ""),
    ("a content over the limit", ["--content", "39"], TWO, b"", "TooLarge"),
    (
        "a content over the limit behind one of it",
        ["--content=40"],
        TWO + rows.frames(rows.REQUEST + " ", rows.REQUEST),
        BOTH,
        "TooLarge",
    ),
    (
        "a head that promises a byte too much",
        ["--content", "40"],
        rows.frames(rows.REQUEST) + b"Content-Length: 41\r\n",
        ONE,
        "TooLarge",
    ),
    ("a content of one byte", ["--content", "1"], rows.frames("1", "[]"), rows.frames(rows.INVALID), "TooLarge"),
    ("as many calls as may come", ["--calls", "2"], TWO, BOTH, ""),
    ("a call more", ["--calls", "1"], TWO, ONE, "Full"),
    (
        "a batch with a call too many",
        ["--calls", "2"],
        rows.frames(rows.REQUEST, rows.batch(rows.REQUEST, rows.REQUEST), rows.REQUEST),
        ONE,
        "Full",
    ),
    ("a batch of the last calls", ["--calls", "2"], rows.frames(NOTICE_TWICE, rows.REQUEST), b"", "Full"),
    ("entries that are no calls", ["--calls", "1"], rows.frames("[1,1]", rows.REQUEST, "{", "1"), NO_CALLS, ""),
    ("a cancel is a call", ["--calls", "1"], rows.frames(rows.cancel(1), rows.REQUEST), b"", "Full"),
    ("a reply is none", ["--calls", "1", "--table", TABLE], ASKED, CALLED_BACK, ""),
    (
        "a reply behind the end",
        ["--calls", "1", "--table", TABLE],
        REPLIED_LATE,
        rows.frames(rows.called("1.1"), rows.NO_REPLY),
        "Full",
    ),
    ("both limits", ["--calls", "1", "--content", "40"], TWO, ONE, "Full"),
    ("the standard limits", ["--calls", "1000000", "--content", "16777216"], TWO, BOTH, ""),
]
CUT = ("a content of the limit", "a content over the limit", "a call more", "a batch with a call too many")


@pytest.mark.parametrize("row", named(LIMITED))
def test_limit(row: tuple[str, list[str], bytes, bytes, str]) -> None:
    name, words, given, output, end = row
    words = [methods() if it == TABLE else it for it in words]
    for command in (
        ["play"],
        ["play", "--piece", "1"],
        ["play", "--lazy", "--piece", "7"],
        ["serve"],
        ["serve", "--workers", "1"],
    ):
        expect_end([*command, *words], given, output, end)
    # (the first piece ends at each place of the stream)
    for size in range(2, len(given)) if name in CUT else ():
        expect_end(["play", "--piece", str(size), *words], given, output, end)


def test_limit_of_a_line() -> None:
    expect_end(["play", "--lines", "--content", "39"], LINE, b"", "TooLarge")
    expect(["play", "--lines", "--content", "40"], LINE, ANSWER)


# Lines: the last needs no LF, empty ones are passed over, and a CR is part of its line.
LINES = [
    ("a line", LINE, ANSWER),
    ("a line without its LF, behind empty ones", b"\n\n" + LINE[:-1], ANSWER),
    ("lines with a CR", LINE[:-1] + b"\r\n\r\n", ANSWER + UNREADABLE),
    ("no line", b"", b""),
]


@pytest.mark.parametrize("row", named(LINES))
def test_lines(row: tuple[str, bytes, bytes]) -> None:
    _, given, output = row
    for words in (["play", "--lines", "--piece=65536"], ["play", "--piece=1", "--lines"]):
        expect(words, given, output)


def test_content_too_long_for_a_line() -> None:
    expect(["play", "--lines"], LONG, ANSWER, b"failed: Long\n", 1)


# Heads that end the input behind a request.
HEADS = [
    (b"Content-Length: 40\r\n\r\n{", "Truncated"),
    (b"Content-Length: 1\r\nContent-Length: 1\r\n", "TwoLengths"),
    (b"Content-Length: 1\n", "BadHead"),
    (b"Content-Length: x\r\n", "BadLength"),
    (b"Content-Length: 16777217\r\n", "TooLarge"),
    (b"\r\n", "NoLength"),
]


@pytest.mark.parametrize("row", named(HEADS, lambda it: it[1]))
def test_head_behind_a_request(row: tuple[bytes, str]) -> None:
    rest, end = row
    expect_end(["play"], rows.frames(rows.REQUEST) + rest, rows.frames(rows.NOT_FOUND), end)


# Command lines


@pytest.mark.parametrize("words", named((["--help"], ["play", "--help"], ["check", "--help"], ["--version"]), " ".join))
def test_words_that_are_answered(words: list[str]) -> None:
    status, output, errors = ran.run(words)
    check(status == 0 and b"rpc_tool" in output and errors == b"", f"{status}, {errors!r}")


def test_help_tells_the_usage() -> None:
    check(b"Usage: rpc_tool" in ran.run(["--help"])[1])


OPTIONS = {
    "play": (b"--table <F>", b"--lazy", b"--last", b"--piece <N>", b"--lines", b"--content <BYTES>", b"--calls <N>"),
    "serve": (b"--table <F>", b"--workers <N>", b"--lines", b"--content <BYTES>", b"--calls <N>"),
}


@pytest.mark.parametrize("command", OPTIONS)
def test_help_tells_the_options(command: str) -> None:
    for option in OPTIONS[command]:
        status, output, _ = ran.run([command, "--help"])
        check(status == 0 and option in output, f"no {option!r} in {output!r}")


REFUSED_LIMITS = (
    ["--content", "0"],
    ["--content", "16777217"],
    ["--content", "-1"],
    ["--content", "4294967297"],
    ["--content", "1k"],
    ["--content"],
    ["--content=5", "--content=5"],
    ["--calls", "0"],
    ["--calls", "1000001"],
    ["--calls", "x"],
    ["--calls"],
)
REFUSED = [
    [],
    ["frobnicate"],
    ["play", "--piece", "0"],
    ["play", "--piece", "65537"],
    ["play", "--nope"],
    ["play", "x"],
    ["play", "--table"],
    ["play", "--lazy=1"],
    ["play", "--table", TABLE, "--table", TABLE],
    ["check"],
    ["check", "--table", TABLE, "--lazy"],
    ["check", "--table", TABLE, "--content", "5"],
    *([command, *words] for command in ("play", "serve") for words in REFUSED_LIMITS),
]


@pytest.mark.parametrize("words", named(REFUSED, " ".join))
def test_refused_words(words: list[str]) -> None:
    status, output, errors = ran.run([methods() if it == TABLE else it for it in words], LINE)
    told = b"Usage: rpc_tool" in errors or errors.startswith(b"error: ")
    check(status == 2 and output == b"" and told, f"{status}, {output!r}, {errors!r}")


# Tables that aren't taken. The words are judged first, then the table, and then the input.

CANT_READ, BAD_STEP = b"table: cannot be read\n", b"table: Step, method 6, step 2\n"
MIXED_UP = b"Content-Length: 1\nContent-Length: 1\n"


def missing() -> str:
    return os.path.join(ran.ROOM.name, "none.toml")


def broken() -> str:
    return rows.file_of(rows.METHODS + '[[method.step]]\nkind = "nosuch"\n')


@pytest.mark.parametrize("command", named((["play"], ["play", "--lines", "--lazy"], ["check"]), " ".join))
def test_refused_table(command: list[str]) -> None:
    """One that isn't there, a folder, and one at fault."""
    expect([*command, "--table", missing()], LINE, b"", CANT_READ, 2)
    expect([*command, "--table", ran.ROOM.name], LINE, b"", CANT_READ, 2)
    expect([*command, "--table", broken()], MIXED_UP, b"", BAD_STEP, 2)


FIRST_METHODS = rows.METHODS[: rows.METHODS.index('[[method]]\nname = "ask"')]
COUNTED = [
    ("methods", rows.METHODS, 6),
    ("the first of them alone", FIRST_METHODS, 1),
    ("an opening, which isn't counted", rows.OPENING, 0),
]


@pytest.mark.parametrize("row", named(COUNTED))
def test_methods_are_counted(row: tuple[str, str, int]) -> None:
    _, table, number = row
    expect(["check", "--table", rows.file_of(table)], b"", f"ok: {number} methods\n".encode())


def test_words_are_judged_before_the_table() -> None:
    status, output, errors = ran.run(["play", "--table", missing(), "--piece", "0"], LINE)
    check(status == 2 and output == b"" and errors.startswith(b"error: "), f"{status}, {errors!r}")


def of_folder(words: list[str]) -> tuple[int, bytes, bytes]:
    """What comes of an input that is a folder."""
    folder = os.open("/", os.O_RDONLY)
    try:
        ended = subprocess.run([ran.BUILT, *words], stdin=folder, capture_output=True, timeout=60, check=False)
    finally:
        os.close(folder)
    return ended.returncode, ended.stdout, ended.stderr


def test_table_is_judged_before_the_input() -> None:
    status, _, errors = of_folder(["play", "--table", broken()])
    same((status, errors), (2, BAD_STEP))


# What doesn't end after 1,000,000 reads


def fed(words: list[str], packets: int, ours: int, its: int, **how: Any) -> tuple[int, bytes, bytes]:
    """Runs the program, each read of which gives one packet of this many, and gives its status and what it wrote to its
    two outputs."""

    def write() -> None:
        try:
            for _ in range(packets):
                os.write(ours, b"\n")
        except OSError:
            pass  # (the program reads no more)
        os.close(ours)

    child = subprocess.Popen([ran.BUILT, *words], stdout=subprocess.PIPE, stderr=subprocess.PIPE, **how)
    os.close(its)
    writer = threading.Thread(target=write)
    writer.start()
    output, errors = child.communicate(timeout=120)
    writer.join()
    return child.returncode, output, errors


@pytest.mark.parametrize(
    "packets, wanted",
    [(999_999, (0, b"", b"")), (1_000_000, (1, b"", b"failed: Read\n"))],
    ids=["999_999", "1_000_000"],
)
def test_reads_of_an_input(packets: int, wanted: tuple[int, bytes, bytes]) -> None:
    ours, its = socket.socketpair(socket.AF_UNIX, socket.SOCK_SEQPACKET)
    same(fed(["play", "--lines"], packets, ours.detach(), its.fileno(), stdin=its.detach()), wanted)


READS_OF_A_TABLE = [(999_999, (2, b"", b"table: Version, method 0, step 0\n")), (1_000_000, (2, b"", CANT_READ))]


@pytest.mark.parametrize("packets, wanted", READS_OF_A_TABLE, ids=["999_999", "1_000_000"])
def test_reads_of_a_table(packets: int, wanted: tuple[int, bytes, bytes]) -> None:
    its, ours = os.pipe2(os.O_DIRECT)
    same(
        fed(["play", "--table", f"/dev/fd/{its}"], packets, ours, its, stdin=subprocess.DEVNULL, pass_fds=[its]), wanted
    )


# Devices that fail. Of a failed read nothing is played; a failed write stands in place of how the input ended.

READ, WRITE = b"failed: Read\n", b"failed: Write\n"


def test_full_device() -> None:
    with open("/dev/full", "wb") as full:
        ended = subprocess.run(
            [ran.BUILT, "play", "--lines"], input=LINE, stdout=full, stderr=subprocess.PIPE, timeout=60, check=False
        )
    same((ended.returncode, ended.stderr), (1, WRITE))


def test_input_that_cant_be_read() -> None:
    same(of_folder(["play"]), (1, b"", READ))


BROKEN = (["play", "--lines"], ["play", "--lines", "--piece=5"], ["play", "--lines", "--table", "OPENING"])


@pytest.mark.parametrize("words", named(BROKEN, " ".join))
def test_read_that_fails_behind_a_line(words: list[str]) -> None:
    words = [rows.file_of(rows.OPENING) if it == "OPENING" else it for it in words]
    same(ran.run_on_broken(words, LINE), (1, b"", READ))


def test_output_that_takes_the_answer_and_no_more() -> None:
    same(ran.run_into(78, ["play", "--lines"], LINE), (0, ANSWER, b""))


# name, how many bytes the output takes, words, input, and the whole output
CALL = rows.lines(rows.called("1.1"), rows.NO_REPLY)
NARROW = [
    *((f"an output that takes {room} bytes", room, ["play", "--lines"], LINE, ANSWER) for room in (0, 1, 77)),
    ("before a content too long", 10, ["play", "--lines"], LONG, ANSWER),
    ("where the input ended badly", 0, ["play"], rows.frames(rows.REQUEST) + b"Content-Length: 1\r\n", b""),
    ("all but the last byte of what check says", 13, ["check", "--table", TABLE], b"", b"ok: 6 methods\n"),
    *((f"{words} into an output that takes nothing", 0, words, b"", b"") for words in (["--help"], ["--version"])),
    *(
        (
            f"{it} bytes of a call and its answer",
            it,
            ["play", "--lines", "--table", TABLE],
            rows.lines(rows.ask()),
            CALL,
        )
        for it in (0, 62, 63, 100)
    ),
]


@pytest.mark.parametrize("row", named(NARROW))
def test_output_that_fails(row: tuple[str, int, list[str], bytes, bytes]) -> None:
    _, room, words, given, output = row
    words = [methods() if it == TABLE else it for it in words]
    same(ran.run_into(room, words, given), (1, output[:room], WRITE))
