"""What `--explain` adds to the one line on standard error: for each cause its lines, which are those of the table of
docs/commands.md, in its order; without the option the line stands alone. And what else the program says to its user:
help, and refused words."""
import errno
import os
import re
import resource
import subprocess
from functools import partial
from typing import Any, Callable, Iterator, NamedTuple

import pytest

from support import ran, rows
from support.expecting import check, same
from support.naming import named

FRAME = rows.frames(rows.REQUEST)
LINE = f"{rows.REQUEST}\n".encode()
STANDARD_INPUT, STANDARD_OUTPUT = "stream: standard input", "stream: standard output"
ENDLESS = "cause: it didn't end within 1000000 reads"

Ended = tuple[int, bytes, bytes]


class Row(NamedTuple):
    """What runs the program, given some more words; the line that it says, and those that `--explain` adds; and the
    status."""

    name: str
    run: Callable[[list[str]], Ended]
    first: str
    added: tuple[str, ...]
    status: int = 1


# The page


def pattern_of(template: str) -> str:
    """What a text of the page stands for: N is a number, and any other word in capitals some text."""
    words = re.split(r"\b([A-Z]+)\b", template)
    return "".join(r"\d+" if it == "N" else ".+" if number % 2 else re.escape(it) for number, it in enumerate(words))


def section_of(page: str, heading: str, level: str = "##") -> str:
    return ran.text_of("docs", page).split(f"{level} {heading}\n")[1].split("\n## ")[0]


def table_of_page() -> list[tuple[list[str], list[str]]]:
    """For each first line that standard error may have, the lines that may stand after it, as docs/commands.md has
    them."""
    found = [
        it.strip("|").split("|") for it in section_of("commands.md", "More lines").splitlines() if it.startswith("| `")
    ]
    return [
        ([pattern_of(it) for it in re.findall(r"`(.+?)`", first)], re.findall(r"`(\w+: .+?)`", added))
        for first, added in found
    ]


PAGE = table_of_page()


def lines_on_page(row: Row) -> list[tuple[int | None, str | None]]:
    """Where the page has each of a row's added lines, in its order: by the number of the first line, and the line
    there; None where it hasn't."""
    number = next(
        (it for it, (firsts, _) in enumerate(PAGE) if any(re.fullmatch(pattern, row.first) for pattern in firsts)), None
    )
    templates = iter(PAGE[number][1] if number is not None else [])
    return [(number, next((it for it in templates if re.fullmatch(pattern_of(it), line)), None)) for line in row.added]


# Ways to run the program


def after(run: Callable[[list[str]], Ended], *words: str) -> Callable[[list[str]], Ended]:
    """What runs the program with these words and some more."""
    return lambda more: run([*words, *more])


def words_of(*words: str, given: bytes = b"", **more: object) -> Callable[[list[str]], Ended]:
    return after(partial(ran.run, given=given, **more), *words)


def on_streams(*words: str, given: bytes | None = None, **opened: Callable[[], int]) -> Callable[[list[str]], Ended]:
    """What runs the program on streams of its own, which are opened for each run."""

    def run(all_words: list[str]) -> Ended:
        streams = {name: open_it() for name, open_it in opened.items()}
        how: dict[str, Any] = {"stdout": subprocess.PIPE, **streams, "stderr": subprocess.PIPE}
        how |= {} if given is None else {"input": given}
        try:
            ended = subprocess.run([ran.BUILT, *all_words], timeout=60, check=False, **how)
        finally:
            for it in streams.values():
                os.close(it)
        return ended.returncode, ended.stdout, ended.stderr

    return after(run, *words)


def with_file(
    name: str, text: str, run: Callable[[list[str]], Ended], size: int | None = None
) -> Callable[[list[str]], Ended]:
    """What runs the program once a file has this text, and so many bytes; the file is gone afterwards."""

    def written(more: list[str]) -> Ended:
        path = ran.file_of(name, text)
        if size is not None:
            os.truncate(path, size)
        try:
            return run(more)
        finally:
            os.remove(path)

    return written


def path_of(name: str) -> str:
    return os.path.join(ran.ROOM.name, name)


def of_table(*command: str) -> Callable[[list[str]], Ended]:
    """What runs the program with the file that has the methods."""
    return lambda more: ran.run([*command, "--table", rows.file_of(rows.METHODS), *more])


def system_says(number: int) -> str:
    return f"cause: {os.strerror(number)} (os error {number})"


def idle() -> int:
    """An input that would block."""
    reader, writer = os.pipe2(os.O_NONBLOCK)
    IDLE_WRITERS.append(writer)
    return reader


IDLE_WRITERS: list[int] = []  # (with none, the input would end)


def folder() -> int:
    return os.open("/", os.O_RDONLY)


def full_device() -> int:
    return os.open("/dev/full", os.O_WRONLY)


# Frames at fault after a frame of 62 bytes, each with how many bytes of it show the fault. Bytes count from 1.

LENGTH = b"Content-Length: "
FAULTS = [
    ("BadHead", b"x\r\n", 3),
    ("BadHead", LENGTH + b"2\n", 18),
    ("BadHead", b"x\r\n" + FRAME, 3),
    ("TwoLengths", LENGTH + b"1\r\n" + LENGTH + b"1\r\n", 38),
    ("BadLength", LENGTH + b"x\r\n", 19),
    ("TooLarge", LENGTH + b"16777217\r\n\r\n{}", 26),
    ("NoLength", b"\r\n", 2),
    ("HeadTooLong", b"X:" + b"a" * 5_000, 4_096),
    ("Truncated", LENGTH + b"40\r\n\r\n{", 23),
    ("Truncated", b"C", 1),
]
COMMANDS = (["play"], ["play", "--piece", "1"], ["serve"])


def faults() -> Iterator[Row]:
    for fault, rest, shown in FAULTS:
        for command in COMMANDS:
            first, name = f"input ended: {fault}", f"{' '.join(command)}, {rest[:40].decode()!r}"
            yield Row(name, words_of(*command, given=rest), first, ("frame: from byte 1", f"fault: at byte {shown}"))
            behind = ("frame: from byte 63", f"fault: at byte {62 + shown}")
            yield Row(f"{name} after a frame", words_of(*command, given=FRAME + rest), first, behind)


def limits() -> Iterator[Row]:
    for command in COMMANDS:
        name = " ".join(command)
        # (the line with the length has 20 bytes)
        limited = words_of(*command, "--content", "39", given=FRAME)
        yield Row(
            f"{name}, a lower limit", limited, "input ended: TooLarge", ("frame: from byte 1", "fault: at byte 20")
        )
        full = words_of(*command, "--calls", "2", given=FRAME * 3)
        yield Row(f"{name}, too many calls", full, "input ended: Full", ("limit: 2 calls",))
    for given, number in ((LINE, 1), (b"\n{}\r\n" + LINE + b"{}\n", 3), (b"\n" * 70_000 + LINE[:-1], 70_001)):
        run = words_of("play", "--lines", "--content", "39", given=given)
        yield Row(f"a long line, {number}", run, "input ended: TooLarge", (f"line: {number}",))


# Streams that fail: an input that is a folder, one that would block, and one that is reset; a full device, and an
# output of five bytes.

PLAYED, SERVED = "failed: Read", "input ended: Read"
LONG = LINE + b"[1" + b",1" * 210_000 + b"]\n"


def streams() -> Iterator[Row]:
    for command, given, first in (
        (["play"], FRAME, PLAYED),
        (["play", "--lines"], LINE, PLAYED),
        (["serve"], FRAME, SERVED),
    ):
        name = " ".join(command)
        yield Row(
            f"{name} of a folder",
            on_streams(*command, stdin=folder),
            first,
            (STANDARD_INPUT, system_says(errno.EISDIR)),
        )
        yield Row(
            f"{name} of what doesn't block",
            on_streams(*command, stdin=idle),
            first,
            (STANDARD_INPUT, system_says(errno.EAGAIN)),
        )
        broken = partial(ran.run_on_broken, given=given)
        yield Row(
            f"{name} of what is reset", after(broken, *command), first, (STANDARD_INPUT, system_says(errno.ECONNRESET))
        )
    for command, given in ((["play", "--lines"], LINE), (["serve"], FRAME)):
        name, full = " ".join(command), on_streams(*command, given=given, stdout=full_device)
        yield Row(f"{name} into a full device", full, "failed: Write", (STANDARD_OUTPUT, system_says(errno.ENOSPC)))
        narrow = after(partial(ran.run_into, 5, given=given), *command)
        yield Row(
            f"{name} into an output of five bytes", narrow, "failed: Write", (STANDARD_OUTPUT, system_says(errno.EFBIG))
        )
    full = lambda more: on_streams("check", "--table", rows.file_of(rows.METHODS), given=b"", stdout=full_device)(more)
    yield Row("check into a full device", full, "failed: Write", (STANDARD_OUTPUT, system_says(errno.ENOSPC)))
    narrow = lambda more: ran.run_into(5, ["check", "--table", rows.file_of(rows.METHODS), *more])
    yield Row(
        "check into an output of five bytes", narrow, "failed: Write", (STANDARD_OUTPUT, system_says(errno.EFBIG))
    )
    limit = "limit: 16777216 bytes a line; frames have none"
    yield Row("an answer that is no line", words_of("play", "--lines", given=LONG), "failed: Long", (limit,))


# What could not be made, in little room: the tree of a content, the text of a table, and the stacks of threads.

SMALL: dict[str, Any] = {"preexec_fn": lambda: resource.setrlimit(resource.RLIMIT_AS, (100 << 20, 100 << 20))}
MEMORY = "failed: Memory"


def memory() -> Iterator[Row]:
    tree = lambda more: ran.run(["play", *more], rows.frames("[" + "1," * 8_000_000 + "1]"), **SMALL)
    yield Row("a content of many values", tree, MEMORY, ("missing: memory for the input and what comes of it",))
    threads = "missing: memory, or one of 64 threads for methods and one for the input"
    yield Row("64 threads", words_of("serve", "--workers", "64", given=FRAME, **SMALL), MEMORY, (threads,))
    large = path_of("large.toml")
    run = lambda more: with_file("large.toml", "#" * (150 << 20), words_of("check", "--table", large, **SMALL))(more)
    yield Row("a large table", run, MEMORY, (f"file: {large}", "missing: memory for the table"))


# Tables that can't be read. 1,000,000 reads give 256,000,000 bytes.

CANT_READ = "table: cannot be read"
PATHS = [
    ("none.toml", "none.toml", errno.ENOENT),
    ("two\nlines\x1b[31m\x85", r"two\nlines\u{1b}[31m\u{85}", errno.ENOENT),
    ("/", "/", errno.EISDIR),
    ("/dev/full/none", "/dev/full/none", errno.ENOTDIR),
]


def unread_tables() -> Iterator[Row]:
    for path, shown, number in PATHS:
        for command in ("check", "play", "serve"):
            run = words_of(command, "--table", path)
            yield Row(f"{command}, {path!r}", run, CANT_READ, (f"file: {shown}", system_says(number)), 2)
    endless = path_of("endless.toml")
    run = with_file("endless.toml", "", words_of("check", "--table", endless), 256_000_000)
    yield Row("a table of too many bytes", run, CANT_READ, (f"file: {endless}", ENDLESS), 2)


# Tables that are refused: text, fault and place, and the lines after the file's. Those of steps are of the second
# method's first.

METHODS = 'version = 2\n[[method]]\nname = "first"\n[[method]]\nname = "seco\\nnd"\n'
SECOND = r"method: seco\nnd"
UNKNOWN, MISSING = "cause: no such field stands here", "cause: the field is missing"
NAME = "cause: the name is empty, too long or reserved, or an earlier method has it"
REFUSED = [
    ("version = 3\n", "Version, method 0, step 0", "field: version", "cause: the version is neither 1 nor 2"),
    ("version = 1\nopening = []\n", "Field, method 0, step 0", "field: opening", UNKNOWN),
    (
        "version = 2\nmethod = 1\n",
        "Field, method 0, step 0",
        "field: method",
        "cause: the field isn't a list of tables",
    ),
    ("version = 1\n[[method]]\n", "Field, method 1, step 0", "field: name", MISSING),
    (METHODS + "stop = 1\n", "Field, method 2, step 0", SECOND, "field: stop", UNKNOWN),
    (METHODS.replace("seco\\nnd", "first"), "Name, method 2, step 0", "method: first", "field: name", NAME),
    (
        'version = 2\n[[opening]]\nkind = "notify"\n',
        "Field, method 0, step 1",
        "kind: notify",
        "field: method",
        MISSING,
    ),
]
# kind, its other fields, fault, the field at fault, what is wrong
STEPS = [
    ("go", "", "Step", "kind", "this version has no such kind of step"),
    ("call", 'to = "r", method = "m", parms = []', "Field", "parms", "no such field stands here"),
    ("call", 'to = "r"', "Field", "method", "the field is missing"),
    ("call", 'to = 1, method = "m"', "Field", "to", "the field isn't a string"),
    ("skip", 'left = 1, right = 1, count = "2"', "Field", "count", "the field isn't a whole number"),
    ("set", 'to = "r", value = [{ a = 0.5 }]', "Field", "value", "a float or a date stands in the field"),
    (
        "each",
        'to = "r", over = [], method = "m", on_error = "x"',
        "Field",
        "on_error",
        'the field is neither "fail" nor "keep"',
    ),
    (
        "calls",
        'to = "r", list = [{ method = "m" }, { params = 1 }]',
        "Field",
        "list",
        "the field isn't a list of calls",
    ),
    ("fail", 'code = -32100, message = "m"', "Code", "code", "JSON-RPC reserves the codes from -32768 to -32100"),
    (
        "answer",
        'value = "$r"',
        "Register",
        "",
        "a register or a reference breaks its rule, or no earlier step sets the register",
    ),
    ("skip", "left = 1, right = 1, count = 65", "Limit", "", "a number, a length or a depth is out of its range"),
]


def of_step(kind: str, fields: str, fault: str, field: str, cause: str) -> tuple[str, ...]:
    text = METHODS + "step = [{ " + ", ".join(filter(None, (f'kind = "{kind}"', fields))) + " }]\n"
    return (
        text,
        f"{fault}, method 2, step 1",
        SECOND,
        f"kind: {kind}",
        *([f"field: {field}"] if field else []),
        f"cause: {cause}",
    )


def refused_tables() -> Iterator[Row]:
    path = path_of("refused.toml")
    for number, (text, fault, *added) in enumerate([*REFUSED, *(of_step(*it) for it in STEPS)], 1):
        for command in ("check", "play", "serve"):
            run = with_file("refused.toml", text, words_of(command, "--table", path))
            yield Row(
                f"{command}, refused table {number}, {fault}", run, f"table: {fault}", (f"file: {path}", *added), 2
            )


ROWS = [it for of in (faults, limits, streams, memory, unread_tables, refused_tables) for it in of()]


def expect(row: Row) -> None:
    """Compares what a run says with the option and without; its status and its output are the same."""
    plain, more = row.run([]), row.run(["--explain"])
    said = "".join([f"{row.first}\n", *(f"  {it}\n" for it in row.added)]).encode()
    same((plain[0], plain[2]), (row.status, f"{row.first}\n".encode()), "one line")
    same(more, (*plain[:2], said), "explained")
    for line, (_, template) in zip(row.added, lines_on_page(row)):
        check(template is not None, f"the page has no {line!r} after {row.first!r}, or not in this order")


@pytest.mark.parametrize("row", named(ROWS))
def test_row(row: Row) -> None:
    expect(row)


NOT_TOML = "table: NotToml, method 0, step 0"


def not_toml(cause: str) -> Row:
    path = path_of("refused.toml")
    run = with_file("refused.toml", "version = 1\n\n[[method]\n", words_of("check", "--table", path))
    return Row("a text that isn't TOML", run, NOT_TOML, (f"file: {path}", "line: 3", "column: 10", cause), 2)


def test_text_that_isnt_toml() -> None:
    """How the reader of TOML puts its cause isn't ours."""
    said = not_toml("").run(["--explain"])[2].decode().splitlines()
    expect(not_toml(said[-1].strip()))


@pytest.mark.parametrize("number", range(len(PAGE)))
def test_each_line_of_the_page_is_shown(number: int) -> None:
    seen = {it for row in [*ROWS, not_toml("cause: SOME")] for it in lines_on_page(row)}
    firsts, templates = PAGE[number]
    for template in templates:
        check((number, template) in seen, f"no row shows {template!r} after {firsts}")


def test_page_has_kinds_of_first_lines() -> None:
    check(len(PAGE) >= 8, f"{PAGE}")


# Nothing is added to a run that does what it was asked.


@pytest.mark.parametrize("command", ("play", "serve"))
def test_run_that_ends_well(command: str) -> None:
    same(ran.run([command, "--explain"], FRAME), (0, rows.frames(rows.NOT_FOUND), b""))


# Words are refused as if their control characters stood escaped in them, and shown so.
ESCAPED = {"\n": r"\n", "\r": r"\r", "\t": r"\t", "\x1b": r"\u{1b}", "\x7f": r"\u{7f}", "\x9b": r"\u{9b}"}
TABLE = "TABLE"  # (stands for the file with the methods)
REFUSED_WORDS = (
    ["pl\nay"],
    ["play", "--no\x1b[31m\nsuch"],
    ["play", "--piece", "5\n"],
    ["serve", "--workers=\n"],
    ["serve", "--lines\r"],
    ["check", "--table", TABLE, "a\tb\x7f\x9b"],
)


@pytest.mark.parametrize("words", named(REFUSED_WORDS, lambda it: ascii(" ".join(it))))
def test_refused_words_are_shown_escaped(words: list[str]) -> None:
    words = [rows.file_of(rows.METHODS) if it == TABLE else it for it in words]
    status, output, errors = ran.run(words, LINE)
    escaped = ["".join(ESCAPED.get(it, it) for it in word) for word in words]
    is_plain = not re.search(r"[\x00-\x09\x0b-\x1f\x7f-\x9f]", errors.decode())
    well = (
        is_plain and errors.startswith(b"error: ") and (status, output, errors) == (2, b"", ran.run(escaped, LINE)[2])
    )
    check(well, f"{status}, {output!r}, {errors!r}")
    check(
        [it for it in escaped if "\\" in it and it.split("=")[-1] in errors.decode()],
        f"what was refused isn't shown: {errors!r}",
    )


# Help has each status with its line, and what a caller has to know.

FAULT_NAMES = re.findall(r"^\| `(\w+)` \|", section_of("protocol.md", "Faults", "###"), re.M)
ENDS = re.findall(r"^\| (\d) \| `([^`]+)` ", section_of("commands.md", "How a run ends"), re.M)


def test_page_has_the_faults_of_frames() -> None:
    check(len(FAULT_NAMES) == 7, f"{FAULT_NAMES}")


def test_page_has_the_ends_of_a_run() -> None:
    check(len(ENDS) >= 8, f"{ENDS}")


TOLD = [it for it in ENDS if it[1] != "input ended: X"] + [
    ("1", f"input ended: {it}") for it in (*FAULT_NAMES, "Read", "Full")
]


@pytest.mark.parametrize("row", named(TOLD, lambda it: it[1]))
def test_help_tells_of_each_end(row: tuple[str, str]) -> None:
    status, line = row
    told = ran.run(["--help"])[1].decode()
    check(re.search(rf"^  {status}  {re.escape(line)}  +\w", told, re.M), told)


@pytest.mark.parametrize(
    "text",
    named(
        ("must be blocking", "CR LF is a message", "as Long; serve --lines and frames have no such limit", "--explain"),
        str,
    ),
)
def test_help_says(text: str) -> None:
    told = ran.run(["--help"])[1].decode()
    check(text in told, told)


# What docs/commands.md shows of the examples of help.
EXAMPLES = {
    "play": (0, '{"id":1,"jsonrpc":"2.0","result":5}\n'),
    "check": (0, "ok: 10 methods\n"),
    "judge": (1, "judged: 2 must\n"),
}


def examples_of(told: str) -> list[str]:
    """The command lines between what the program is and its usage. A line that goes on is indented further."""
    found = re.match(r".+\n\nExamples:\n((?:  .+\n)+)\nUsage: ", told)
    return re.findall(r"^  \S.*(?:\n    .*)*", found[1], re.M) if found else []


def test_help_begins_with_examples_that_run() -> None:
    """As they stand, at the top of the repository."""
    seen = []
    for it in examples_of(ran.run(["--help"])[1].decode()):
        command = re.findall(r"bin/rpc_tool (\w+)", it)[0]
        status, told = ran.told_by(["sh", "-c", it], 60, cwd=ran.TOP)
        wanted, line = EXAMPLES[command]
        check(status == wanted and line in told.decode(), f"{it}: {status}, {told!r}")
        seen.append(command)
    same(seen, [*EXAMPLES])


@pytest.mark.parametrize("command", ("serve", "play", "check"))
def test_help_of_a_command_tells_of_explain(command: str) -> None:
    check(b"--explain" in ran.run([command, "--help"])[1])
