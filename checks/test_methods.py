"""Takes each table out of the page on tables of methods, has the program judge it and play the lines that stand below
it, and compares what it prints with the page."""
import os
from dataclasses import dataclass, field

import pytest

from support import pages, ran
from support.expecting import COUNT, check, same
from support.naming import named

PAGE = ("docs", "methods.md")


@dataclass
class Table:
    """A table of the page, what `check` prints for it, and its plays: words, lines in and lines out."""

    number: int
    text: str
    printed: str = ""
    plays: list[tuple[list[str], str, str]] = field(default_factory=list)


def tables_of_page() -> list[Table]:
    """A block `toml` is followed by one `text`, and then by any number of pairs `in` (with words of `play`) and
    `out`."""
    tables, given = list[Table](), (list[str](), "")
    for mark, text in pages.read_blocks(*PAGE):
        kind, *words = mark.split() or [""]
        if kind == "toml":
            tables.append(Table(len(tables) + 1, text))
        elif kind == "text":
            tables[-1].printed = text
        elif kind == "in":
            given = words, text
        elif kind == "out":
            tables[-1].plays.append((*given, text))
    return tables


TABLES = tables_of_page()


def test_blocks_stand_in_their_places() -> None:
    pages.check_fences(COUNT, *PAGE)
    before, follows = "", {"toml": ("", "text", "out"), "text": ("toml",), "in": ("text", "out"), "out": ("in",)}
    for mark, text in pages.read_blocks(*PAGE):
        kind = (mark.split() or [""])[0]
        check(before in follows.get(kind, ()), f"a block {mark!r} stands behind {before!r}: {text!r}")
        before = kind
    check(before in ("text", "out"), "the last block of the page is no output")


def test_page_has_tables() -> None:
    """(A page of which nothing is read would pass.)"""
    check(len(TABLES) >= 6 and sum(len(it.plays) for it in TABLES) >= 6)


def judge(file: str, printed: str) -> None:
    """Has a table judged; where it is refused it can't be played either."""
    is_well = printed.startswith("ok: ")
    wanted = (0, printed.encode(), b"") if is_well else (2, b"", printed.encode())
    same(ran.run(["check", "--table", file]), wanted)
    if not is_well:
        same(ran.run(["play", "--table", file]), wanted, "played")


@pytest.mark.parametrize("table", named(TABLES, lambda it: f"table {it.number}"))
def test_table(table: Table) -> None:
    file = ran.file_of("table.toml", table.text)
    judge(file, table.printed)
    for words, given, output in table.plays:
        for piece in ("1", "65536"):
            pages.check_play(COUNT, "played", ["--table", file, *words, "--piece", piece], given, output)


# What is looked for first, and each kind of fault: name, table, what is printed
SMALL = [
    (
        "a float, deep inside a template",
        """version = 1

[[method]]
name = "half"
[[method.step]]
kind = "set"
to = "all"
value = { list = [1, [2, 0.5]] }
""",
        "table: Field, method 1, step 1\n",
    ),
    (
        "a count out of range comes before a wrong reference",
        """version = 1

[[method]]
name = "first"

[[method]]
name = "second"
[[method.step]]
kind = "skip"
left = "$nothing"
right = 1
count = 65
""",
        "table: Limit, method 2, step 1\n",
    ),
    (
        "a name that is taken, and a step that is wrong after it",
        """version = 1

[[method]]
name = "twice"

[[method]]
name = "twice"
step = [{ kind = "go" }]
""",
        "table: Name, method 2, step 0\n",
    ),
    (
        "a reserved code",
        """version = 1

[[method]]
name = "refuse"
[[method.step]]
kind = "fail"
code = -32100
message = "no"
""",
        "table: Code, method 1, step 1\n",
    ),
    (
        "a register of the opening in a method",
        """version = 2

[[opening]]
kind = "call"
to = "name"
method = "hello"

[[method]]
name = "who"
[[method.step]]
kind = "answer"
value = "$name"
""",
        "table: Register, method 1, step 1\n",
    ),
    (
        "a wrong step of the opening comes before a wrong name",
        """version = 2

[[opening]]
kind = "notify"

[[method]]
name = "rpc.a"
""",
        "table: Field, method 0, step 1\n",
    ),
    (
        "an opening in version 1",
        """version = 1
opening = []
""",
        "table: Field, method 0, step 0\n",
    ),
    (
        "each in version 1",
        """version = 1

[[method]]
name = "all"
[[method.step]]
kind = "each"
to = "r"
over = "$params"
method = "f"
""",
        "table: Step, method 1, step 1\n",
    ),
    (
        "an unknown kind",
        """version = 1

[[method]]
name = "loop"
[[method.step]]
kind = "repeat"
""",
        "table: Step, method 1, step 1\n",
    ),
    (
        "an unknown version",
        """version = 3
""",
        "table: Version, method 0, step 0\n",
    ),
    (
        "no TOML",
        """version = 1
[[method]
""",
        "table: NotToml, method 0, step 0\n",
    ),
    (
        "no methods",
        """version = 1
""",
        "ok: 0 methods\n",
    ),
]


@pytest.mark.parametrize("row", named(SMALL))
def test_small_table(row: tuple[str, str, str]) -> None:
    judge(ran.file_of("table.toml", row[1]), row[2])


# Rows: what is said of a table, and its text, in which `;` ends a line. In a group of steps the words leave out their
# method, and how many methods there are.

# Where the rows of a group stand: what is before and behind each, and the number of its method.
HOMES = {
    "alone": ("", "", ""),
    "version-1": ("version = 1\n", "", ""),
    "version-2": ("version = 2\n", "", ""),
    "method-1": ('version = 1\n[[method]]\nname = "m"\nstep = [', "]", "1"),
    "method-2": ('version = 2\n[[method]]\nname = "m"\nstep = [', "]", "1"),
    "opening": ("version = 2\nopening = [", "]", "0"),
}
FIRST = HOMES["method-1"][0]


def groups() -> list[tuple[str, str, list[str]]]:
    """The name of each group and home, the home, and the rows."""
    found = []
    for group in ran.text_of("checks", "table_rows", "refused.txt").removesuffix("\n").split("\n\n"):
        head, *rows = group.split("\n")
        name, _, homes = head.rpartition(": ")
        found += [(f"{name} {home}", home, rows) for home in homes.split(" ")]
    return found


def printed_for(words: str, method: str) -> str:
    """What `check` prints for a table of which a row has these words."""
    kind, *places = words.split(" ")
    if kind.startswith("ok"):
        return f"ok: {places[0] if places else method} methods\n"
    number, step = places if len(places) == 2 else (method, *places)
    return f"table: {kind}, method {number}, step {step}\n"


@pytest.mark.parametrize("group", named(groups()))
def test_rows_of_tables(group: tuple[str, str, list[str]]) -> None:
    _, home, rows = group
    before, behind, method = HOMES[home]
    check(rows != [] and all(" <-" in it for it in rows))
    for row in rows:
        words, _, text = row.partition(" <-")
        judge(ran.file_of("table.toml", before + text.replace(";", "\n") + behind + "\n"), printed_for(words, method))


# Numbers, lengths and depths at their limits

STEP, NOTICE, NAME = '{kind="answer",value=1},', '{kind="notify",method="%s"}', 'version = 1\n[[method]]\nname = "%s"'
LIST, SET = FIRST + '{kind="calls",to="r",list=[%s]}]', FIRST + '{kind="set",value=1,to="%s"}]'
VALUE = 'version = 1\n[[method]]\nname = "m"\n[[method.step]]\nkind = "answer"\nvalue = '
SIZES = [
    ("64 steps of a method", FIRST + STEP * 64 + "]", "ok: 1"),
    ("65 steps of a method", FIRST + STEP * 65 + "]", "Limit 1 0"),
    ("64 steps of the opening", HOMES["opening"][0] + STEP * 64 + "]", "ok: 0"),
    ("65 steps of the opening", HOMES["opening"][0] + STEP * 65 + "]", "Limit 0 0"),
    ("16 calls of a step", LIST % ('{method="f"},' * 16), "ok: 1"),
    ("17 calls of a step", LIST % ('{method="f"},' * 17), "Limit 1 1"),
    ("a method's name of 128 letters", NAME % ("n" * 128), "ok: 1"),
    ("a method's name of 129 letters", NAME % ("n" * 129), "Name 1 0"),
    ("a called method's name of 128 letters", FIRST + NOTICE % ("n" * 128) + "]", "ok: 1"),
    ("a called method's name of 129 letters", FIRST + NOTICE % ("n" * 129) + "]", "Limit 1 1"),
    ("a register's name of 32 letters", SET % ("n" * 32), "ok: 1"),
    ("a register's name of 33 letters", SET % ("n" * 33), "Register 1 1"),
    ("arrays 16 deep in a template", VALUE + "[" * 16 + "]" * 16, "ok: 1"),
    ("arrays 17 deep in a template", VALUE + "[" * 17 + "]" * 17, "Limit 1 1"),
    ("arrays 80 deep in a template", VALUE + "[" * 80 + "]" * 80, "Limit 1 1"),
    ("arrays 81 deep in a template", VALUE + "[" * 81 + "]" * 81, "NotToml 0 0"),
    ("256 methods", "version = 1\n" + "".join(f'[[method]]\nname = "m{it}"\n' for it in range(256)), "ok: 256"),
    ("257 methods", "version = 1\n" + "".join(f'[[method]]\nname = "m{it}"\n' for it in range(257)), "Limit 0 0"),
]


@pytest.mark.parametrize("row", named(SIZES))
def test_sizes(row: tuple[str, str, str]) -> None:
    judge(ran.file_of("table.toml", row[1] + "\n"), printed_for(row[2], ""))


# Large tables, and what the file itself may do


def full_table(last: str) -> str:
    """A table of 256 methods of 64 steps, of which the very last is given."""
    step = '[[method.step]]\nkind = "set"\nto = "r"\nvalue = 1\n'
    methods = [f'[[method]]\nname = "m{it}"\n' + step * 64 for it in range(256)]
    return ("version = 1\n" + "".join(methods))[: -len(step)] + "[[method.step]]\n" + last


# name, the table's last step, what is printed: the largest table, and one with a fault at its very last step
LARGE = [
    ("256 methods of 64 steps", 'kind = "set"\nto = "r"\nvalue = 1\n', "ok: 256 methods\n"),
    ("a fault at the last step of 16,384", 'kind = "nosuch"\n', "table: Step, method 256, step 64\n"),
]


@pytest.mark.parametrize("row", named(LARGE))
def test_large_table(row: tuple[str, str, str]) -> None:
    judge(ran.file_of("table.toml", full_table(row[1])), row[2])


def test_largest_table_is_kept_whole() -> None:
    """Each of 256 methods adds 1 to its own number by each of its steps but the first and the last."""
    add, answer = '{kind="add",to="r",left="$r",right=1}', '{kind="answer",value="$r"}'
    steps = [",".join(['{kind="set",to="r",value=%d}' % it, *[add] * 62, answer]) for it in range(256)]
    table = "version = 1\n" + "".join(f'[[method]]\nname = "m{at}"\nstep = [{it}]\n' for at, it in enumerate(steps))
    asked = "".join('{"jsonrpc":"2.0","method":"m%d","id":%d}\n' % (it, it) for it in range(256))
    answers = "".join('{"id":%d,"jsonrpc":"2.0","result":%d}\n' % (it, it + 62) for it in range(256))
    words = ["play", "--lines", "--table", ran.file_of("table.toml", table)]
    same(ran.run(words, asked.encode()), (0, answers.encode(), b""))


CANT_READ = "table: cannot be read\n"


def test_missing_file() -> None:
    judge(os.path.join(ran.ROOM.name, "none.toml"), CANT_READ)


def test_folder() -> None:
    judge(ran.ROOM.name, CANT_READ)


def test_bytes_that_arent_utf_8() -> None:
    judge(ran.file_of("table.toml", b'version = 1\nx = "\xff"\n'), "table: NotToml, method 0, step 0\n")
