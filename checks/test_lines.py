"""Serves and plays lines: what a line is, how an input of lines ends, and a whole session of lines between the server
and a client in Python."""
import os
import subprocess
import sys

import pytest

from support import ran, rows
from support.client import call, cancel, error, notification, request, result
from support.expecting import same
from support.naming import named

ASK, ASKED = request(7, "ask", ["x"]), call("1.1", "confirm", ["x"])
REPLY, YES = result("1.1", True), result(7, True)
NO_REPLY = error(7, -32000, "No reply")
LIMIT = str(len(rows.REQUEST))
# name, words, input, output, and how the input ends: "" where it ends clean
LINES: list[tuple[str, list[str], bytes, bytes, str]] = [
    ("a line", [], rows.lines(rows.REQUEST), rows.lines(rows.NOT_FOUND), ""),
    ("no LF behind the last line", [], rows.REQUEST.encode(), rows.lines(rows.NOT_FOUND), ""),
    ("a CR belongs to its line", [], rows.REQUEST.encode() + b"\r\n", rows.lines(rows.NOT_FOUND), ""),
    ("a CR alone is a content", [], b"\r\n", rows.lines(rows.UNREADABLE), ""),
    ("a CR ends no line", [], rows.REQUEST.encode() + b"\r" + rows.REQUEST.encode(), rows.lines(rows.UNREADABLE), ""),
    ("a blank is a content", [], b" \n", rows.lines(rows.UNREADABLE), ""),
    ("empty lines are passed over", [], b"\n\n" + rows.lines(rows.REQUEST) + b"\n", rows.lines(rows.NOT_FOUND), ""),
    ("nothing", [], b"", b"", ""),
    ("a head is a line", [], b"Content-Length: 2\n", rows.lines(rows.UNREADABLE), ""),
    ("a line at the limit", ["--content", LIMIT], rows.lines(rows.REQUEST), rows.lines(rows.NOT_FOUND), ""),
    (
        "a line over the limit",
        ["--content", LIMIT],
        rows.lines(rows.REQUEST, rows.REQUEST + " ", rows.REQUEST),
        rows.lines(rows.NOT_FOUND),
        "TooLarge",
    ),
    ("a line over the limit that has no LF", ["--content", LIMIT], rows.REQUEST.encode() + b" ", b"", "TooLarge"),
    ("too many calls", ["--calls", "1"], rows.lines(rows.REQUEST, rows.REQUEST), rows.lines(rows.NOT_FOUND), "Full"),
]


@pytest.mark.parametrize(
    "command", (["play"], ["play", "--piece=1"], ["serve"], ["serve", "--workers=1"]), ids=" ".join
)
@pytest.mark.parametrize("row", named(LINES))
def test_line(row: tuple[str, list[str], bytes, bytes, str], command: list[str]) -> None:
    _, words, given, output, end = row
    status, errors = rows.ended(end)
    same(ran.run([*command, "--lines", *words], given), (status, output, errors))


def table() -> list[str]:
    return ["--table", rows.file_of(rows.METHODS)]


@pytest.mark.parametrize("workers", ("1", "4", "64"))
def test_call_back(workers: str) -> None:
    words = ["serve", "--lines", *table(), "--workers", workers]
    same(ran.run(words, rows.lines(ASK, REPLY)), (0, rows.lines(ASKED, YES), b""))
    same(ran.run(words, rows.lines(ASK) + REPLY.encode()), (0, rows.lines(ASKED, YES), b""), "the reply has no LF")
    same(ran.run(words, rows.lines(ASK)), (0, rows.lines(ASKED, NO_REPLY), b""), "no reply")


@pytest.mark.parametrize("workers", ("1", "4"))
def test_thousand_sums(workers: str) -> None:
    given = rows.lines(*(request(it, "add", [it, 1]) for it in range(1, 1001)))
    wanted = rows.lines(*(result(it, it + 1) for it in range(1, 1001)))
    same(ran.run(["serve", "--lines", *table(), "--workers", workers], given), (0, wanted, b""))


def test_text_with_an_lf_is_one_line() -> None:
    """Its LF goes out escaped."""
    given = rows.lines(request(1, "ask", ["a\nb"]))
    status, output, errors = ran.run(["serve", "--lines", *table()], given)
    same((status, errors), (0, b""))
    same(output, rows.lines(call("1.1", "confirm", ["a\nb"]), error(1, -32000, "No reply")))


def test_place_of_a_fault() -> None:
    words = ["serve", "--lines", "--explain", "--content", LIMIT]
    given = rows.lines("", rows.REQUEST, rows.REQUEST + " ")
    same(ran.run(words, given), (1, rows.lines(rows.NOT_FOUND), b"input ended: TooLarge\n  line: 3\n"))


def test_answer_that_play_refuses() -> None:
    """`serve` writes a line of any length."""
    given = b"[1" + b",1" * 210_000 + b"]\n"
    same(ran.run(["play", "--lines"], given), (1, b"", b"failed: Long\n"))
    status, output, errors = ran.run(["serve", "--lines"], given)
    same((status, output.count(b"\n"), len(output) > 16_777_216, errors), (0, 1, True, b""))


def test_lines_are_an_option_of_serve() -> None:
    status, output, errors = ran.run(["serve", "--help"])
    same((status, b"--lines" in output, errors), (0, True, b""))


def test_cancel_is_that_of_frames() -> None:
    """The notification that cancels is LSP's, in lines too; that of tool servers is one that the table doesn't name."""
    other = notification("notifications/cancelled", {"requestId": 7})
    same(ran.run(["serve", "--lines", *table()], rows.lines(ASK, other, REPLY)), (0, rows.lines(ASKED, YES), b""))
    status, output, errors = ran.run(["serve", "--lines", *table(), "--workers=1"], rows.lines(ASK, cancel(7)))
    same((status, output.splitlines()[-1:], errors), (0, [error(7, -32800, "Request cancelled").encode()], b""))


SESSION = """
import asyncio
import sys

from bullmyrtle import Client, Error

client = Client(sys.argv[1:], framing="lines")
client.method("confirm")(lambda params: params != ["no"])


async def main():
    async with client:
        print(await client.call("add", [2, 3]))
        print(await client.call("ask", ["yes"]), await client.call("ask", ["no"]))
        print(await asyncio.gather(*(client.call("add", [it, 1]) for it in range(50))) == list(range(1, 51)))
        try:
            await client.call("nothing", [])
        except Error as error:
            print(error.code)
    print("status", await client.close())


asyncio.run(main())
"""


def test_session_of_the_client_in_python() -> None:
    words = [ran.BUILT, "serve", "--lines", *table()]
    path = {**os.environ, "PYTHONPATH": os.path.join(ran.TOP, "bindings", "python")}
    got = subprocess.run(
        [sys.executable, "-c", SESSION, *words], capture_output=True, timeout=60, env=path, check=False
    )
    same((got.returncode, got.stdout, got.stderr), (0, b"5\nTrue False\nTrue\n-32601\nstatus 0\n", b""))
