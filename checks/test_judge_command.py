"""`rpc_tool judge`: recordings of the rows of judge_rows/ have the findings that these say, with their places and
sections; what a line of a recording is; options; and the recordings of examples/judge have what `python3 -m
bullmyrtle.judge` finds."""
import glob
import os
import re
import subprocess
import sys
from typing import Iterator

import pytest

from support import judge_rows, ran
from support.expecting import check, same
from support.judge_rules import CONNECTION, HOST, NOT_JUDGED
from support.naming import named

MARKS = {"client": ">", "server": "<"}
LINE = re.compile(
    r"(?P<level>\w+): (?P<side>\w+), (?:(?P<of>\w+)'s )?message (?P<count>\d+) at byte (?P<offset>\d+)"
    r"(?:, entry (?P<entry>\d+))?: (?P<rule>[\w-]+)(?: \((?P<section>.*)\))?"
)
# Where each rule stands, by the page.
PAGE = ran.text_of("docs", "judge.md").partition("\n## The rules\n")[2].partition("\n## ")[0]
SECTIONS = {it[0]: it[1].split(" | ")[-1] for it in re.findall(r"^\| `([\w-]+)` \| (.*) \|$", PAGE, re.M)}


def recorded(row: judge_rows.Row) -> bytes:
    lines = [f"judge 1 {row.rules} {row.framing}"]
    lines += [f"{MARKS[it.side]} {it.ended or it.data.hex()}" for it in row.seen]
    return "".join(f"{it}\n" for it in lines).encode()


def ended(musts: int) -> tuple[int, bytes]:
    return (1, f"judged: {musts} must\n".encode()) if musts else (0, b"")


def summary(levels: list[str]) -> str:
    must, should, note = (levels.count(it) for it in judge_rows.LEVELS)
    return f"found: {must} must, {should} should, {note} note"


# Findings

# (the command has the judge's own limits)
ROWS = [it for it in judge_rows.all_rows() if not it.limits]


@pytest.mark.parametrize("row", named(ROWS, lambda it: it.name))
def test_row(row: judge_rows.Row) -> None:
    status, output, errors = ran.run(["judge"], recorded(row))
    *lines, last = output.decode().splitlines() or [""]
    wanted = [it for seen in row.seen for it in seen.found]
    same(
        [told_as(it, index < len(wanted) and wanted[index].offset >= 0) for index, it in enumerate(lines)], row.wanted()
    )
    levels = [it.level for it in wanted]
    same((last, status, errors), (summary(levels), *ended(levels.count("must"))), row.name)


def told_as(line: str, has_offset: bool) -> str:
    """A line of the program as a row has it."""
    it = LINE.fullmatch(line)
    if it is None:
        return line
    of = it["of"] or it["side"]
    offset = int(it["offset"]) if has_offset else -1
    count, entry = int(it["count"]), int(it["entry"] or 0)
    return judge_rows.Found(it["side"], it["rule"], it["level"], of, count, entry, offset).line


def test_there_are_rows_of_each_rule() -> None:
    found = {it.rule for row in ROWS for seen in row.seen for it in seen.found}
    same({*CONNECTION, *HOST, NOT_JUDGED} - found, set())


@pytest.mark.parametrize("rule", (*CONNECTION, *HOST))
def test_section_is_that_of_the_page(rule: str) -> None:
    row = next(it for it in ROWS if any(found.rule == rule for seen in it.seen for found in seen.found))
    output = ran.run(["judge"], recorded(row))[1].decode()
    found = {it["rule"]: it["section"] for it in map(LINE.fullmatch, output.splitlines()) if it}
    same(found[rule], SECTIONS[rule])


# Recordings. `{"jsonrpc":"2.0","id":7,"method":"a"}` and its LF have 38 bytes.

ASK = '{"jsonrpc":"2.0","id":7,"method":"a"}\n'
ANSWER = '{"jsonrpc":"2.0","id":7,"result":1}\n'
OTHERS = '{"jsonrpc":"2.0","id":"7","result":1}\n'
HEAD = "judge 1 jsonrpc lines"
NONE = "found: 0 must, 0 should, 0 note\n"
NOT_OWED = "must: server, message 1 at byte 0: not-owed (JSON-RPC 4.1, 5)\n"
UNANSWERED = "must: server, client's message 2 at byte 38: unanswered (JSON-RPC 5; LSP, Cancellation Support)\n"


def wrote(side: str, text: str) -> str:
    return f"{MARKS[side]} {text.encode().hex()}"


# name, the lines, the words, what is printed, and what is said of its end
TALKS: list[tuple[str, list[str], list[str], str, str]] = [
    ("a head alone", [HEAD], [], NONE, ""),
    ("a request and its answer", [HEAD, wrote("client", ASK), wrote("server", ANSWER)], [], NONE, ""),
    (
        "an answer of another type",
        [HEAD, wrote("client", ASK), wrote("server", OTHERS)],
        [],
        NOT_OWED + "found: 1 must, 0 should, 0 note\n",
        "judged: 1 must",
    ),
    (
        "a request without an answer",
        [
            HEAD,
            wrote("client", ASK.replace("7", "6")),
            wrote("client", ASK),
            wrote("server", ANSWER.replace("7", "6")),
            "< closed",
        ],
        [],
        UNANSWERED + "found: 1 must, 0 should, 0 note\n",
        "judged: 1 must",
    ),
    (
        "an entry of a batch",
        [HEAD, wrote("client", f"[{ASK.strip()},1]\n")],
        [],
        "must: client, message 1 at byte 0, entry 2: object (JSON-RPC 4)\nfound: 1 must, 0 should, 0 note\n",
        "judged: 1 must",
    ),
    (
        "no must",
        [HEAD, wrote("client", ASK.replace('"id":7', '"id":null'))],
        [],
        "should: client, message 1 at byte 0: id-null (JSON-RPC 4; LSP, Request Message; MCP, messages)\n"
        "found: 0 must, 1 should, 0 note\n",
        "",
    ),
    (
        "rules other than the recording's",
        [HEAD, wrote("client", ASK.replace('"id":7', '"id":null'))],
        ["--rules", "mcp"],
        "must: client, message 1 at byte 0: id-null (JSON-RPC 4; LSP, Request Message; MCP, messages)\n"
        "found: 1 must, 0 should, 0 note\n",
        "judged: 1 must",
    ),
    ("a framing other than the recording's", ["judge 1 jsonrpc frames", wrote("client", ASK)], ["--lines"], NONE, ""),
    (
        "each piece a content",
        [HEAD, wrote("client", "1")],
        ["--contents"],
        "must: client, message 1 at byte 0: object (JSON-RPC 4)\nfound: 1 must, 0 should, 0 note\n",
        "judged: 1 must",
    ),
    (
        "frames in place of lines",
        [HEAD, wrote("client", "Content-Length: 1\r\n\r\n1")],
        ["--frames"],
        "must: client, message 1 at byte 21: object (JSON-RPC 4)\nfound: 1 must, 0 should, 0 note\n",
        "judged: 1 must",
    ),
    (
        "times",
        [HEAD, wrote("client", ASK) + " # 0", wrote("server", ANSWER) + " # 123456789012345", "< closed #7"],
        [],
        NONE,
        "",
    ),
    ("remarks and empty lines", [HEAD, "", "# > zz", wrote("client", ASK), "", wrote("server", ANSWER)], [], NONE, ""),
    (
        "blanks and a CR at the end",
        [HEAD + " \t\r", wrote("client", ASK) + "\r", wrote("server", ANSWER) + " "],
        [],
        NONE,
        "",
    ),
    ("capital digits", [HEAD, wrote("client", ASK).upper(), wrote("server", ANSWER).upper()], [], NONE, ""),
    ("a side that wrote nothing", [HEAD, ">", "<", "> # 5"], [], NONE, ""),
    (
        "a failed read",
        [HEAD, wrote("client", ASK), "< failed"],
        [],
        UNANSWERED.replace("must:", "note:").replace("message 2 at byte 38", "message 1 at byte 0")
        + "found: 0 must, 0 should, 1 note\n",
        "",
    ),
]


@pytest.mark.parametrize("row", named(TALKS))
def test_talk(row: tuple[str, list[str], list[str], str, str]) -> None:
    _, lines, words, printed, end = row
    status, errors = (1, f"{end}\n".encode()) if end else (0, b"")
    given = "".join(f"{it}\n" for it in lines).encode()
    same(ran.run(["judge", *words], given), (status, printed.encode(), errors))
    same(ran.run(["judge", *words], given[:-1]), (status, printed.encode(), errors), "no LF behind the last line")


# name, the lines, and the first that is none of a recording
FAULTY: list[tuple[str, list[str], int]] = [
    ("nothing", [], 1),
    ("no head", [wrote("client", ASK)], 1),
    ("a head of another version", ["judge 2 jsonrpc lines"], 1),
    ("rules without a name", ["judge 1 http lines"], 1),
    ("a framing without a name", ["judge 1 jsonrpc words"], 1),
    ("a remark before the head", ["# a remark", HEAD], 1),
    ("a digit too few", [HEAD, "> 7b7"], 2),
    ("no digit", [HEAD, ">", "> 7g"], 3),
    ("no blank", [HEAD, ">7b"], 2),
    ("no side", [HEAD, "= 7b"], 2),
    ("another end", [HEAD, "> ended"], 2),
    ("a time that is none", [HEAD, "> 7b # 1x"], 2),
    ("a time of 16 digits", [HEAD, "> 7b # 1234567890123456"], 2),
]


@pytest.mark.parametrize("row", named(FAULTY))
def test_fault_of_a_recording(row: tuple[str, list[str], int]) -> None:
    _, lines, number = row
    given = "".join(f"{it}\n" for it in lines).encode()
    same(ran.run(["judge"], given), (2, b"", f"recording: fault in line {number}\n".encode()))


def test_what_is_found_before_a_fault_is_told() -> None:
    given = "\n".join([HEAD, wrote("client", ASK), wrote("server", OTHERS), "zz"]).encode()
    same(ran.run(["judge"], given), (2, NOT_OWED.encode(), b"recording: fault in line 4\n"))


# Words, and devices that fail


@pytest.mark.parametrize(
    "words", (["--frames", "--lines"], ["--lines", "--contents"], ["--rules", "http"], ["--table=x"]), ids=" ".join
)
def test_refused_words(words: list[str]) -> None:
    status, output, errors = ran.run(["judge", *words], f"{HEAD}\n".encode())
    check(status == 2 and output == b"" and errors.startswith(b"error: "), f"{status}, {output!r}, {errors!r}")


def test_help_tells_the_options() -> None:
    status, output, _ = ran.run(["judge", "--help"])
    for it in (b"--rules <NAME>", b"--frames", b"--lines", b"--contents", b"mcp:2025-06-18", b"mcp:2024-11-05"):
        check(status == 0 and it in output, f"no {it!r} in {output!r}")


@pytest.mark.parametrize("room", (0, len(NOT_OWED) - 1, len(NOT_OWED)))
def test_output_that_takes_no_more(room: int) -> None:
    given = "\n".join([HEAD, wrote("client", ASK), wrote("server", OTHERS)]).encode()
    same(ran.run_into(room, ["judge"], given), (1, NOT_OWED.encode()[:room], b"failed: Write\n"))


def test_input_that_cannot_be_read() -> None:
    """A folder can be opened, and not read."""
    folder = os.open(ran.TOP, os.O_RDONLY)
    try:
        got = subprocess.run([ran.built(), "judge"], stdin=folder, capture_output=True, timeout=60, check=False)
    finally:
        os.close(folder)
    same((got.returncode, got.stdout, got.stderr), (1, b"", b"failed: Read\n"))


# The command of the Python package, over the C library

ENVIRONMENT = {**os.environ, "PYTHONPATH": os.path.join(ran.TOP, "bindings", "python")}


@pytest.mark.parametrize("file", sorted(os.path.basename(it) for it in glob.glob(f"{ran.TOP}/examples/judge/*.record")))
def test_agrees_with_the_command_in_python(file: str) -> None:
    """It has more to say of a finding; and the rules of a session's life, which aren't the library's."""
    path = os.path.join(ran.TOP, "examples", "judge", file)
    words = [sys.executable, "-m", "bullmyrtle.judge", "--replay", path]
    said = subprocess.run(words, capture_output=True, timeout=120, env=ENVIRONMENT, check=False).stderr.decode()
    lines = [it.removeprefix("judge: ") for it in said.splitlines()]
    with open(path, "rb") as recording:
        found = ran.run(["judge"], recording.read())[1].decode().splitlines()
    same([*places_of(found[:-1])], [*places_of(lines)])


# Lines behind the first one, and whether they are a recording's.
LINES = [
    (b"# a remark\xff", False),
    ("# a \N{LINE SEPARATOR} remark of two \N{SNOWMAN}".encode(), True),
    (b"# \0", True),
    (b" # a remark", False),
    (b" \t ", True),
    (b"> 7b \t\r", True),
    (b"> 7b\xa0", False),
    (b"> 7b\x0b", False),
    (b">  7b", False),
    (b"> 7b # 5 # 6", False),
    (b"> 7b # \xc2\xb2", False),
]


# What the package says of recordings, one in a line.
READS = """
import ast, io, sys
from bullmyrtle.judge import NoRecording, Recording
for given in ast.literal_eval(sys.stdin.read()):
    try:
        print(len(list(Recording(io.BytesIO(given)))), "events")
    except NoRecording as fault:
        print(fault)
"""


def test_both_read_the_same_lines() -> None:
    given = [b"\n".join([HEAD.encode(), line, wrote("client", ASK).encode()]) for line, _ in LINES]
    words = [sys.executable, "-c", READS]
    read = subprocess.run(words, input=repr(given), capture_output=True, text=True, env=ENVIRONMENT, check=True)
    for (line, is_right), it, told in zip(LINES, given, read.stdout.splitlines(), strict=True):
        same(told.endswith(" events"), is_right, repr(line))
        check(is_right or told.startswith("line 2: "), told)
        same(ran.run(["judge"], it)[0] == 2, not is_right, repr(line))


def places_of(lines: list[str]) -> Iterator[str]:
    """Of each finding by a rule of the library's all that stands before the section."""
    for line in lines:
        it = LINE.match(line)
        if it and it["rule"] in (*CONNECTION, *HOST, NOT_JUDGED):
            yield it[0].partition(" (")[0]
