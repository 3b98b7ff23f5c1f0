"""What `check --explain` draws of a table, and where it says that a text is no TOML. The pictures of docs/methods.md
are compared whole; those of the rows are worked out here from the rules of that page."""

import re
import subprocess
from typing import NamedTuple

import pytest

from support import ran, rows
from support.expecting import check, same
from support.naming import named

# So many characters are between the two sides, but for what a longer text takes.
WIDTH = 32
METHOD = 'version = 2\n[[method]]\nname = "m"\n'


def sends(label: str, note: str = "") -> str:
    """A line on which the peer sends something."""
    return f"  |<- {label} {'-' * (WIDTH - len(label))}-|" + (f"  {note}" if note else "")


def hears(label: str) -> str:
    """A line on which the other side sends something."""
    return f"  |-- {label} {'-' * (WIDTH - len(label))}>|"


def rests(note: str) -> str:
    """A line on which nothing is sent."""
    return f"  |{' ' * (WIDTH + 5)}|  {note}"


def steps_of(*steps: str) -> str:
    """A table of one method of these steps."""
    return METHOD + "step = [" + ", ".join(f"{{ {it} }}" for it in steps) + "]\n"


# What the rows have of a method's steps: name, the steps, and the lines below the request
END, ANSWER = sends("result", "end: null"), 'kind = "answer", value = 1'
SKIP = 'kind = "skip", left = 1, right = 1, count = {}'
LONG = "n" * 128
STEPS = [
    ("no steps", [], [END]),
    ("an answer", [ANSWER], [sends("result", "1 answer")]),
    ("an error", ['kind = "fail", code = -7, message = "no"'], [sends("error -7", "1 fail")]),
    (
        "a step behind an answer",
        [ANSWER, 'kind = "set", to = "r", value = 1'],
        [sends("result", "1 answer"), rests("2 set to r"), END],
    ),
    (
        "a call",
        ['kind = "call", to = "r", method = "a"', ANSWER],
        [sends("a", "1 call to r"), hears("reply"), sends("result", "2 answer")],
    ),
    (
        "an error that fails",
        ['kind = "call", to = "r", method = "a", on_error = "fail"'],
        [sends("a", "1 call to r"), hears("reply"), END],
    ),
    (
        "an error that is kept",
        ['kind = "call", to = "r", method = "a", on_error = "keep"'],
        [sends("a", "1 call to r, errors too"), hears("reply"), END],
    ),
    (
        "a batch",
        ['kind = "calls", to = "r", list = [{ method = "a" }, { method = "b" }]'],
        [sends("a", "1 calls to r"), sends("b"), hears("replies"), END],
    ),
    (
        "a call for each",
        ['kind = "each", to = "r", over = [], method = "a", on_error = "keep"'],
        [sends("a", "1 each to r, errors too"), hears("replies"), END],
    ),
    ("a notification", ['kind = "notify", method = "a"'], [sends("a", "1 notify"), END]),
    ("a sum", ['kind = "add", to = "r", left = 1, right = 1'], [rests("1 add to r"), END]),
    (
        "a skip inside",
        [SKIP.format(1), ANSWER, ANSWER],
        [rests("1 skip to 3"), sends("result", "2 answer"), sends("result", "3 answer")],
    ),
    ("a skip to the end", [SKIP.format(1), ANSWER], [rests("1 skip to the end"), sends("result", "2 answer"), END]),
    (
        "a skip behind the end",
        [SKIP.format(64), ANSWER],
        [rests("1 skip to the end"), sends("result", "2 answer"), END],
    ),
    ("a skip at the end", [ANSWER, SKIP.format(1)], [sends("result", "1 answer"), rests("2 skip to the end"), END]),
    (
        "a name as wide as the picture",
        [f'kind = "notify", method = "{LONG[:32]}"'],
        [f"  |<- {LONG[:32]} -|  1 notify", END],
    ),
    ("a longer name", [f'kind = "notify", method = "{LONG}"'], [f"  |<- {LONG} -|  1 notify", END]),
    ("letters of several bytes", ['kind = "notify", method = "é→"'], [sends("é→", "1 notify"), END]),
    ("control characters", [r'kind = "notify", method = "a\n\u001b[31m"'], [sends(r"a\n\u{1b}[31m", "1 notify"), END]),
]
# Whole tables: name, text, and all lines
OPENING = 'version = 2\nopening = [{ kind = "call", to = "r", method = "a" }, { kind = "answer", value = 1 }]\n'
TABLES = [
    ("an empty table", "version = 1\n", ["ok: 0 methods"]),
    (
        "two methods",
        'version = 1\nmethod = [{ name = "a" }, { name = "b" }]\n',
        ["ok: 2 methods", "", hears("a"), END, "", hears("b"), END],
    ),
    (
        "an opening",
        OPENING,
        ["ok: 0 methods", "", rests("opening"), sends("a", "1 call to r"), hears("reply"), rests("2 answer")],
    ),
    ("an opening without steps", "version = 2\nopening = []\n", ["ok: 0 methods"]),
    (
        "an opening that fails",
        'version = 2\nopening = [{ kind = "fail", code = 1, message = "m" }]\n',
        ["ok: 0 methods", "", rests("opening"), rests("1 fail")],
    ),
]
# Texts that aren't TOML: name, text, and the line and the column at which no TOML can go on
NOT_TOML = [
    ("the first character", b"@", 1, 1),
    ("a value", b"x = @\n", 1, 5),
    ("a value in a later line", b"version = 1\r\n\r\n  x = @\r\n", 3, 7),
    ("behind letters of several bytes", '"é→" = @\n'.encode(), 1, 8),
    ("after a comment of several bytes", "x = 1 # é→\ny = @\n".encode(), 2, 5),
]


class Picture(NamedTuple):
    """A picture of a page, and the table above it."""

    name: str
    table: str
    lines: str


def pictures_of_page() -> list[Picture]:
    """The pictures of docs/methods.md stand four spaces in, each below its table."""
    text, found, table = ran.text_of("docs", "methods.md"), list[Picture](), ""
    for block in re.finditer(r"^```toml\n((?:.*\n)*?)```$|^(    ok: .*\n(?:(?:    .*)?\n)*)", text, re.M):
        if block[1] is not None:
            table = block[1]
        else:
            lines = re.sub(r"^    ", "", block[2], flags=re.M).rstrip("\n") + "\n"
            found.append(Picture(f"picture {len(found) + 1}", table, lines))
    return found


PICTURES = pictures_of_page()


def judge(table: str, wanted: str) -> None:
    """Compares what `check` prints with and without the option."""
    file = ran.file_of("table.toml", table)
    same(ran.run(["check", "--table", file, "--explain"]), (0, wanted.encode(), b""), "drawn")
    same(ran.run(["check", "--table", file]), (0, wanted.encode().splitlines(True)[0], b""), "plain")


def test_page_has_a_picture() -> None:
    check(PICTURES)


@pytest.mark.parametrize("picture", named(PICTURES))
def test_picture_of_the_page(picture: Picture) -> None:
    judge(picture.table, picture.lines)


@pytest.mark.parametrize("row", named(STEPS))
def test_steps(row: tuple[str, list[str], list[str]]) -> None:
    judge(steps_of(*row[1]), "\n".join(["ok: 1 methods", "", hears("m"), *row[2], ""]))


@pytest.mark.parametrize("row", named(TABLES))
def test_table(row: tuple[str, str, list[str]]) -> None:
    judge(row[1], "\n".join([*row[2], ""]))


def test_largest_table() -> None:
    """256 methods of 64 steps, each of 16 calls."""
    calls = "[" + ", ".join(['{ method = "c" }'] * 16) + "]"
    step = f'[[method.step]]\nkind = "calls"\nto = "r"\nlist = {calls}\n'
    table = "version = 1\n" + "".join(f'[[method]]\nname = "m{it}"\n{step * 64}' for it in range(256))
    more = [*[sends("c")] * 15, hears("replies")]
    steps = [line for it in range(1, 65) for line in (sends("c", f"{it} calls to r"), *more)]
    methods = [line for it in range(256) for line in ("", hears(f"m{it}"), *steps, END)]
    judge(table, "\n".join(["ok: 256 methods", *methods, ""]))


@pytest.mark.parametrize("command", ("check", "play", "serve"))
@pytest.mark.parametrize("row", named(NOT_TOML))
def test_place_of_what_is_no_toml(row: tuple[str, bytes, int, int], command: str) -> None:
    """The line and the column stand after the file and before the cause."""
    _, text, line, column = row
    file = ran.file_of("refused.toml", text)
    status, output, errors = ran.run([command, "--table", file, "--explain"])
    first, *added, cause = errors.decode().splitlines()
    same((status, output, first), (2, b"", "table: NotToml, method 0, step 0"))
    same(added, [f"  file: {file}", f"  line: {line}", f"  column: {column}"], "the place")
    check(re.fullmatch("  cause: .+", cause), cause)


@pytest.mark.parametrize("command", ("play", "serve"))
def test_nothing_is_drawn_elsewhere(command: str) -> None:
    same(ran.run([command, "--table", rows.file_of(rows.METHODS), "--explain"]), (0, b"", b""))


def test_picture_that_is_not_written() -> None:
    words = [ran.BUILT, "check", "--table", rows.file_of(rows.METHODS), "--explain"]
    with open("/dev/full", "wb") as full:
        ended = subprocess.run(words, stdout=full, stderr=subprocess.PIPE, check=False)
    same((ended.returncode, ended.stderr.splitlines()[0]), (1, b"failed: Write"))
