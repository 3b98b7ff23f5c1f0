"""What holds of every page: each link leads somewhere, lines are short, each block has a check that reads it, each command
that a page names is there, and each picture shows what is."""
import os
import re
import tomllib
from pathlib import Path
from typing import NamedTuple

import pytest

import wings
from support import bodies, connection_rows, connection_script, pages, ran
from support import connection_fuzzing as fuzzing
from support.expecting import check, same
from tools import findings, repository, sources, tidying  # (they stand in bin/)
from tools import words as wording

PAGES = [it for it in tidying.files(".md") if "/node_modules/" not in it]
FENCED = re.compile(r"^```.*?^```$\n?", re.M | re.S)


def prose_of(page: str) -> str:
    return FENCED.sub("", ran.text_of(page))


# Links


def anchors_of(page: str) -> set[str]:
    """The names by which a page's headings are linked."""
    headings = re.findall(r"^#+ (.*)$", prose_of(page), re.M)
    return {re.sub(r"[^\w\- ]", "", it.strip().lower()).replace(" ", "-") for it in headings}


def is_there(page: str, link: str) -> bool:
    """Whether a link of a page that doesn't leave the repository leads to a file or a folder, and to a heading where it
    names one."""
    place, _, heading = link.partition("#")
    file = os.path.normpath(os.path.join(os.path.dirname(page), place)) if place else page
    return os.path.exists(f"{ran.TOP}/{file}") and (not heading or heading in anchors_of(file))


@pytest.mark.parametrize("page", PAGES)
def test_links(page: str) -> None:
    for link in re.findall(r"\]\((?!http)([^)\s]+)\)", prose_of(page)):
        check(is_there(page, link), f"{link} leads nowhere")


@pytest.mark.parametrize("link", ("nowhere.md", "README.md#nowhere", "#nowhere"))
def test_link_that_leads_nowhere(link: str) -> None:
    check(not is_there("README.md", link))


def links_of(page: str) -> set[str]:
    """The pages to which a page leads."""
    places = re.findall(r"\]\((?!http)([^)\s#]+\.md)", prose_of(page))
    return {os.path.normpath(os.path.join(os.path.dirname(page), it)) for it in places} & {*PAGES}


def test_each_page_of_docs_is_reached() -> None:
    """From README, by links."""
    reached, waiting = set[str](), ["README.md"]
    while waiting:
        page = waiting.pop()
        reached.add(page)
        waiting += links_of(page) - reached
    same(sorted(it for it in PAGES if it.startswith("docs/") and it not in reached), [])


def test_pages_that_code_names() -> None:
    """What code says stands on a page leads to one, and to a heading where it names one."""
    for file in [it for it in tidying.files("") if not it.endswith(".md") and not it.startswith("release/")]:
        with open(f"{ran.TOP}/{file}", "rb") as it:
            found = re.findall(r"\bdocs/[\w/]+\.md(?:#[\w-]+)?", it.read().decode(errors="replace"))
        for link in found:
            check(is_there("", link), f"{file} names {link}, which leads nowhere")


# Lines


@pytest.mark.parametrize("page", PAGES)
def test_lines_are_short(page: str) -> None:
    long = [it for it in prose_of(page).splitlines() if len(it) > 120 and not it.startswith("|")]
    same(long, [])


@pytest.mark.parametrize("page", PAGES)
def test_sections_stand_once(page: str) -> None:
    """No two of a section have one heading, as what is merged twice has."""
    above, found = [""] * 7, list[str]()
    for marks, heading in re.findall(r"^(#+) (.*)$", prose_of(page), re.M):
        above[len(marks) :] = [heading] + [""] * (6 - len(marks))
        found.append("/".join(above))
    same([it for it in {*found} if found.count(it) > 1], [])


# Words. (bin/tidy looks at each page and message)

WRONG = ("The event is told.", "a call of ours", "It is\none of more.", "4 if you don't say", "None is a whole number")
RIGHT = (
    "There are none.",
    "None is left out.",
    "`is told`",
    "    is told",
    "[it](#is-told)",
    "```text\nis told\n```\n",
)


@pytest.mark.parametrize("text", (*WRONG, *RIGHT))
def test_words_that_must_not_stand(text: str) -> None:
    same(bool([*wording.found_in(text)]), text in WRONG)


def test_texts_that_are_looked_at(tmp_path: Path) -> None:
    """Messages, and the docstrings of what is public."""
    file = tmp_path / "some.py"
    public, private = '"""It is told."""', 'def _it():\n    """It is told."""\n'
    for text, lines in ((public, [1]), (private, []), (f"{private}    raise ValueError('it is told')", [3])):
        file.write_text(text)
        found = wording.texts_of(os.path.relpath(file, ran.TOP))
        same([line for line, it in found if [*wording.found_in(it)]], lines)


# A reader goes through these in one sitting.
MOST_LINES = {"README.md": 150, "docs/proofs.md": 185}
MOST_WORDS = {"README.md": 1_100, "docs/servers.md": 5_000}


@pytest.mark.parametrize("page", MOST_LINES)
def test_page_is_short(page: str) -> None:
    lines = len(ran.text_of(page).splitlines())
    check(lines <= MOST_LINES[page], f"{lines} lines")


@pytest.mark.parametrize("page", MOST_WORDS)
def test_page_has_few_words(page: str) -> None:
    words = len(ran.text_of(page).split())
    check(words <= MOST_WORDS[page], f"{words} words")


@pytest.mark.parametrize("page", [it for it in PAGES if it.startswith("docs/decisions/")])
def test_decisions_have_dates(page: str) -> None:
    decisions = re.findall(r"^- \*\*.*\n(?:  .*\n)*", prose_of(page), re.M)
    same([it for it in decisions if not re.search(r"\b\d{4}-\d\d-\d\d\b", it)], [])
    check(len(decisions) >= 5, f"{len(decisions)} decisions")


# What the examiner found. (bin/servers reads the page and writes it anew, without running what isn't installed)

FOUND = "docs/servers.md"
DEPTH = findings.Rule("a reader may limit the depth", "RFC 8259 9")
ONE = findings.Rule("each request has one response", "JSON-RPC 5")
SMALL = [
    findings.Part(
        "first | C",
        ["1.0; a server.", "3 must, 1 should, 1 note."],
        [
            findings.Finding("must", 1, DEPTH, "100 deep"),
            findings.Finding("must", 2, ONE, "the id (a|b), c"),
            findings.Finding("should", 1, ONE, "100 deep"),
            findings.Finding("note", 1, DEPTH, "1,000 deep"),
        ],
        ["It is its limit.", "", "| Level | Times |", "|---|---|", "| must | 14 |"],
    ),
    findings.Part("second", ["1.1; a client.", "1 must."], [findings.Finding("must", 1, DEPTH, "1,000 deep")]),
    findings.Part("third", ["1.2; a client."], [], ["It couldn't be examined.", "", "Nothing is wrong."]),
    findings.Part(
        "fourth | C",
        [
            "this repository, 1.3; a server, by the rules lsp, in frames; 2026-11-29.",
            "0 must, 0 should, 0 note, 0 slow, 21 not tried, 255 ok of 276 cases.",
        ],
    ),
]
SMALL_PAGE = """## The rules

| Name | What is asked | Section | First case |
|---|---|---|---|
| `depth` | a reader may limit the depth | RFC 8259 9 | 1,000 deep |
| `the-id-a-b-c` | each request has one response | JSON-RPC 5 | the id (a\\|b), c |

## first | C

1.0; a server.
3 must, 1 should, 1 note.

- must: `depth` 1 (100 deep), `the-id-a-b-c` 2
- should: `the-id-a-b-c` 1 (100 deep)
- note: `depth` 1

It is its limit.

| Level | Times |
|---|---|
| must | 14 |

## second

1.1; a client.
1 must.

- must: `depth` 1

## third

1.2; a client.

It couldn't be examined.

Nothing is wrong.

## Nothing was found

| Of this repository | Side, rules, framing | Version, date | Cases that are well |
|---|---|---|---|
| fourth \\| C | server, lsp, frames | 1.3, 2026-11-29 | 255 of 276 |
"""


def test_servers_are_read_as_they_were_written() -> None:
    same(findings.written(SMALL, {DEPTH: "depth", findings.Rule("gone", "JSON-RPC 4"): "gone"}), SMALL_PAGE)
    parts, names = findings.read("# Servers\n\nSome.\n\n" + SMALL_PAGE)
    same([repr(it) for it in parts], [repr(it) for it in SMALL])
    same(repr(names), repr({DEPTH: "depth", ONE: "the-id-a-b-c"}))
    same(findings.read(""), ([], {}))


def test_new_rules_of_servers_have_names_of_their_own() -> None:
    found = [findings.Finding("must", 1, findings.Rule(text, "JSON-RPC 5"), "The id 5.") for text in "abc"]
    known = {found[2].rule: "the-id-5"}
    names = findings.all_names(found, known)
    same([names[it.rule] for it in found], ["the-id-5-2", "the-id-5-3", "the-id-5"])


@pytest.mark.parametrize(
    "old, new, why",
    [
        ("`depth` 1 (", "`width` 1 (", KeyError),
        ("`depth` 1 (", "`depth` one (", ValueError),
        ("`the-id-a-b-c` 2", "and 2 more", ValueError),
        ("## The rules", "## zeroth", ValueError),
    ],
)
def test_servers_that_can_not_be_read(old: str, new: str, why: type[Exception]) -> None:
    with pytest.raises(why):
        findings.read(SMALL_PAGE.replace(old, new))


def wrong_counts(page: str) -> list[str]:
    """The servers whose findings aren't as many, by level, as the line above them says."""
    parts, _ = findings.read(page)
    assert parts, "a page without servers"
    found = []
    for part in parts:
        said = {level: int(number) for number, level in re.findall(r"(\d+) (must|should|note)\b", part.before[-1])}
        if any(sum(it.cases for it in part.findings if it.level == level) != said[level] for level in said):
            found.append(part.name)
    return found


def test_servers_of_the_page() -> None:
    """It is what its parts are written as, and each finding that is counted is there."""
    page = ran.text_of(FOUND)
    parts, names = findings.read(page)
    same(page[: page.index("## ")] + findings.written(parts, names), page)
    same(wrong_counts(page), [])


def test_finding_that_servers_lack() -> None:
    same(wrong_counts(SMALL_PAGE), [])
    same(wrong_counts(SMALL_PAGE.replace("`depth` 1 (100 deep), ", "")), ["first | C"])
    same(wrong_counts(SMALL_PAGE.replace("- should: `the-id-a-b-c` 1 (100 deep)\n", "")), ["first | C"])


# Blocks. What runs or reads those of a page, by the words behind their fences.

EXAMPLES, SERVERS = "checks/test_examples.py", "bindings/python/tests/test_docs.py"
NODE, HERE = "bindings/node/tests/docs.test.js", "checks/test_pages.py"
JUDGING = "bindings/python/tests/test_judge_docs.py"
EXAMINING = "bindings/python/tests/test_examine_docs.py"
EDITORS = "checks/test_pages_of_editors.py"
HTTP = "bindings/python/tests/test_tool_http_docs.py"
READ_BY = {
    "CONTRIBUTING.md": dict.fromkeys(("rust", "console", "toml"), HERE),
    "README.md": dict.fromkeys(("sh", "out", "python"), EXAMPLES),
    "bindings/node/README.md": dict.fromkeys(("js", "sh", "out"), NODE),
    "bindings/python/README.md": {"python": SERVERS},
    "bindings/rust/README.md": {"rust": "checks/rust_crate.py"},
    "docs/architecture.md": dict.fromkeys(("", "text"), HERE),
    "docs/commands.md": dict.fromkeys(("sh", "out", "toml"), EXAMPLES),
    "docs/connection.md": {
        "": HERE,
        "conversation": "checks/support/connection_pictures.py",
        **dict.fromkeys(("in", "out"), EXAMPLES),
    },
    "docs/editors.md": dict.fromkeys(("text", "lua", "elisp", "json", "js", "toml", "rust", "kak"), EDITORS),
    "docs/hosts.md": {"json": EDITORS},
    "docs/embedding.md": dict.fromkeys(("sh", "out", "c"), "checks/test_embedding.py"),
    "docs/examining.md": dict.fromkeys(("python", "sh", "out", "yaml", "text"), EXAMINING),
    "docs/job_slots.md": {"text": HERE},
    "docs/judge.md": dict.fromkeys(("python", "sh", "out", "lua", "elisp", "json", "text"), JUDGING),
    "docs/language_servers.md": {
        **dict.fromkeys(("python", "sh", "out", "lua", "text"), SERVERS),
        "elisp": EDITORS,
    },
    "docs/methods.md": {
        **dict.fromkeys(("toml", "in", "in --lazy", "out"), "checks/test_methods.py"),
        "text": "checks/test_explain_tables.py",
    },
    "docs/node.md": dict.fromkeys(("js", "sh", "out", "ts", "text"), NODE),
    "docs/proofs.md": {"antt": HERE},
    "docs/protocol.md": {"": HERE, **dict.fromkeys(("picture", "toml"), "checks/test_pictures.py")},
    "docs/python.md": dict.fromkeys(("python", "sh", "out", "text"), SERVERS),
    "docs/rust.md": {"rust": "checks/rust_crate.py", "text": HERE},
    "docs/server.md": {"text": HERE},
    "docs/tools_over_http.md": dict.fromkeys(("python", "sh", "out", "text"), HTTP),
    "examples/README.md": dict.fromkeys(("sh", "out"), EXAMPLES),
}


@pytest.mark.parametrize("page", PAGES)
def test_blocks_have_a_check(page: str) -> None:
    """Each kind of a page's blocks has a check, which names the page; and no kind is gone."""
    readers = READ_BY.get(page, {})
    same({mark for mark, _ in pages.read_blocks(page)}, {*readers})
    fences = len(re.findall(r"^\s*```", ran.text_of(page), re.M))
    same(fences, 2 * len(pages.read_blocks(page)), "fences")
    for it in {*readers.values()}:
        check(os.path.basename(page) in ran.text_of(it), f"{it} doesn't name {page}")


# What a page shows of a file without a fence stands there, line by line.
FROM_FILES = [
    ("docs/testing.md", "a call back and its reply: eager lazy served", "checks/played_rows/calls.txt"),
    ("docs/testing.md", "a call back, and the answer with its reply: frames", "checks/connection_rows/calls.txt"),
    ("docs/testing.md", "[[wrong]]", "crates/rpc_messages/wrong-bodies/read/their_call.toml"),
]


@pytest.mark.parametrize("page, first, file", FROM_FILES)
def test_what_is_shown_of_a_file(page: str, first: str, file: str) -> None:
    shown = ran.text_of(page).partition(f"\n\n    {first}\n")[2].partition("\n\n")[0]
    lines = iter(ran.text_of(file).splitlines())
    check(shown.count("\n") >= 3, shown)
    same([it for it in shown.splitlines() if it.removeprefix("    ") not in lines], [])


# Commands that a page names, in its prose or by themselves: the script is there, and knows the options.

COMMAND = re.compile(r"(?:`|^    )(?:python3 )?((?:bin|bench|checks)/[\w/.-]+)([^`\n]*)", re.M)
# (a page of changes names what was there then; NAME and the like stand for names)
PAST = "CHANGELOG.md"


def commands_of(page: str) -> list[tuple[str, list[str]]]:
    return [(it[1], re.findall(r"(?<!\S)--[a-z][\w-]*", it[2])) for it in COMMAND.finditer(prose_of(page))]


def knows(script: str, option: str) -> bool:
    """Whether a script's text, or that of what it stands on, has the option; or the help of the program."""
    folder, name = os.path.split(script)
    below = {"bin": "bin/tools", "bench": "bench/measures", "checks": "checks/support"}[folder]
    if name in ("examine", "judge"):  # (each runs a part of the Python package)
        below = f"bindings/python/bullmyrtle/{name}"
    texts = [ran.text_of(it) for it in (script, *tidying.files(".py", below=below))]
    if name == sources.PROGRAM:
        texts += [ran.run([it, "--help"])[1].decode() for it in ("play", "serve", "check")]
    return any(re.search(rf"{re.escape(option)}\b", it) for it in texts)


@pytest.mark.parametrize("page", [it for it in PAGES if it != PAST])
def test_commands_are_there(page: str) -> None:
    for script, options in commands_of(page):
        here = os.path.join(os.path.dirname(page), script)
        if not re.search(r"\b[A-Z]+\b", os.path.basename(script)):
            check(any(os.path.exists(f"{ran.TOP}/{it}") for it in (script, here)), f"{script} isn't there")
            for it in options:
                check(knows(script, it), f"{script} doesn't know {it}")


def test_option_that_a_command_does_not_know() -> None:
    check(not knows("bin/test", "--nothing") and knows("bin/test", "--only"))


# Pictures and figures


def pictures_in(page: str) -> list[str]:
    """The files of the images that a page shows."""
    return re.findall(r'\b(?:src|srcset)="([^"]+)"', prose_of(page))


@pytest.mark.parametrize("page", PAGES)
def test_images_are_there(page: str) -> None:
    for it in pictures_in(page):
        file = os.path.normpath(os.path.join(ran.TOP, os.path.dirname(page), it))
        check(os.path.isfile(file), f"{it} isn't there")
        with open(file, "rb") as image:
            same(image.read(8), b"\x89PNG\r\n\x1a\n", it)


def test_images_show_the_report() -> None:
    same(len(pictures_in("README.md")), 2)
    same(ran.told_by([f"{ran.TOP}/bin/pictures", "--check"], 60), (0, b""))


def pictures_of(page: str, mark: str = "") -> list[str]:
    return [text for it, text in pages.read_blocks(page) if it == mark]


# Words of a picture that are names of the code.
NAMES = re.compile(r"\b(?:[a-z]+(?:_[a-z]+)+|[A-Z]\w*(?:::\w+)?)\b")
OF_CODE = [
    ("docs/architecture.md", "text"),
    ("docs/architecture.md", ""),
    ("docs/job_slots.md", "text"),
    ("docs/server.md", "text"),
]


@pytest.fixture(scope="module")
def names_of_code() -> set[str]:
    files = [it for it in tidying.files(".rt", ".antt") if it.startswith("crates/")]
    texts = [re.sub(r"//.*|-- .*", "", ran.text_of(it)) for it in files]
    words = {word for it in texts for word in re.findall(r"\w+", it)}
    return words | {*os.listdir(f"{ran.TOP}/crates")}


@pytest.mark.parametrize("page, mark", OF_CODE)
def test_names_in_pictures(page: str, mark: str, names_of_code: set[str]) -> None:
    """What looks like a name of the code in a picture is one."""
    shown = {word for text in pictures_of(page, mark) for it in NAMES.findall(text) for word in it.split("::")}
    check(len(shown) > 4, f"{shown}")
    same(sorted(shown - names_of_code), [])


GROUPS, _ = wings.groups_of(ran.text_of("crates.txt"))


def test_picture_of_the_wings() -> None:
    """It has the crates of each wing, and below them those of the floor, group by group."""
    head, _, floor = pictures_of("docs/architecture.md")[0].partition(" ---")
    shown = dict[str, str]()
    for line in head.splitlines()[1:]:
        # (what the library for C stands on is told in a sentence)
        for it in re.finditer(r"(\w+)(?: \S+)*", "" if " stands on " in line else line):
            before = [wing for wing in wings.WINGS if it.start() > head.index(wing) - 16]
            shown[it[1]] = before[-1] if before else wings.WINGS[0]
    group = ""
    for line in floor.splitlines()[1:]:
        first, *crates = line.split()
        group, crates = (first, crates) if first in wings.FLOOR else (group, [first, *crates])
        shown.update(dict.fromkeys(crates, group))
    same(shown, {crate: group for crate, group in GROUPS.items() if group in [*wings.WINGS, *wings.FLOOR]})


def test_picture_of_the_floors() -> None:
    """Each crate stands on none that is drawn above it, and none of the table peer is missing."""
    lines = pictures_of("docs/architecture.md")[2].splitlines()
    height = {word: at for at, line in enumerate(lines) for word in re.findall(r"\w+", line) if word in GROUPS}
    libraries = repository.Listing(ran.text_of("crates.txt")).libraries
    same([it for it, group in GROUPS.items() if group == "the table peer" and it not in height], [])
    for crate, at in height.items():
        above = [it for it in libraries[crate] if height.get(it, at) < at]
        same(above, [], f"what {crate} stands on")


ARROWS = re.compile(r"^ +\|(--|<-) (request|call|reply to|answer to) (\d+): (\S+)(?: (\S+))? -*", re.M)


class Message(NamedTuple):
    is_ours: bool
    kind: str
    number: str
    first: str
    second: str


def conversation(text: str) -> list[Message]:
    return [Message(it[0] == "<-", *it[1:]) for it in ARROWS.findall(text)]


def row_of(messages: list[Message]) -> str:
    """The picture of docs/connection.md as a row of a connection: what comes and goes, and what the host does between."""
    request, call, reply, answer = messages
    params = f'["{request.second}"]'
    lines = [
        "the picture: contents",
        f'< {{"jsonrpc":"2.0","method":"{request.first}","params":{params},"id":{request.number}}}',
        f"next => call 1 '{request.first}' '{params}' '{request.number}'",
        f"call 1 '{call.first}' '[\"{call.second}\"]' => key {call.number}",
        f'> {{"id":{call.number},"jsonrpc":"2.0","method":"{call.first}","params":["{call.second}"]}}',
        f'< {{"jsonrpc":"2.0","id":{reply.number},"result":{reply.first}}}',
        f"next => replied {call.number} result '{reply.first}'",
        f"answer 1 '\"{answer.first}\"'",
        f'> {{"id":{answer.number},"jsonrpc":"2.0","result":"{answer.first}"}}',
    ]
    return "\n".join(lines)


def test_picture_of_a_host() -> None:
    """It is what a connection does, by the plain model of its page."""
    found = conversation(pictures_of("docs/connection.md")[0])
    same(
        [(it.is_ours, it.kind) for it in found],
        [(False, "request"), (True, "call"), (False, "reply to"), (True, "answer to")],
    )
    row = connection_rows.row_in(row_of(found))
    same(fuzzing.difference(row.actions, row.gives, list(connection_script.ran(row.actions))), None)


def test_picture_of_a_frame() -> None:
    """Its lines are a head that the program takes, before a content of that length."""
    head = "".join(line.split("  ")[0] for line in pictures_of("docs/protocol.md")[0].splitlines()[:2])
    same(head, r"Content-Length: 40\r\n\r\n")
    content = '{"jsonrpc":"2.0","method":"nope","id":1}'
    status, output, _ = ran.run(["play"], (head.replace(r"\r\n", "\r\n") + content).encode())
    check(status == 0 and b"Method not found" in output, f"{status}, {output!r}")


def test_figures_of_sums() -> None:
    """What sums.py holds the program to are the figures of the page."""
    reached = re.findall(r"inputs\.\w+, ([\d_]+), ([\d.]+)\)", ran.text_of("checks", "sums.py"))
    cells = r"([\d.,]+); ([\d.,]+); ([\d.,]+) \| 5 % more \| `checks/sums.py` \|"
    rows = re.findall(rf"^\| .* \| {cells}$", ran.text_of("docs", "performance.md"), re.M)
    same([*zip(*rows)], [(instructions.replace("_", ","), requests) for instructions, requests in reached])


DEFINITIONS = (
    ("IsRun", "crates/stream_session/specs/Promise.antt"),
    ("StandsAfter", "crates/connection/specs/Connections.antt"),
)


@pytest.mark.parametrize("number, definition", enumerate(DEFINITIONS))
def test_definitions_that_are_shown(number: int, definition: tuple[str, str]) -> None:
    """What the page on proofs shows of a record are its first fields, line by line and without comments, behind its
    name."""
    name, file = definition
    record = ran.text_of(file).partition(f"\npub record {name} ")[2].partition(" where\n")[2]
    fields = [it for it in record.splitlines() if not it.strip().startswith("--")]
    shown = pictures_of("docs/proofs.md", "antt")[number].splitlines()
    same(shown, fields[: len(shown)])
    before = ran.text_of("docs", "proofs.md").split("```antt\n")[number]
    check(f"`{name}`, of" in before.rpartition("\n\n")[0].rpartition("\n\n")[2], f"the page names {name} before it")


def test_definitions_that_are_named(names_of_code: set[str]) -> None:
    """Each of the thirteen stands in the file of its row."""
    rows = re.findall(r"^\| (`\w+`(?:, `\w+`)?) \| (\w+), `(specs/\w+\.antt)` \|", ran.text_of("docs/proofs.md"), re.M)
    same(len(rows), 13)
    for names, crate, file in rows:
        text = ran.text_of("crates", crate, file)
        for it in re.findall(r"\w+", names):
            check(
                re.search(rf"^(?:abbrev |abstract )?pub (?:\w+ )?{it}\b|^(?:\w+ )*pub \w* ?{it}\b", text, re.M),
                f"{crate} has no {it}",
            )


# The worked change of CONTRIBUTING.md. It is proved by who follows it: here is looked whether it still fits what lies here.

FOLLOWED = "CONTRIBUTING.md"


def test_worked_change_fits_the_crate() -> None:
    """The function isn't there yet, what it stands on is, and so are the names that its clause uses."""
    crate = ran.text_of("crates", "number_set", "src", "number_set.rt")
    (shown,) = pictures_of(FOLLOWED, "rust")
    check("pub fn is_empty" in shown and "pub fn is_empty" not in crate)
    check("    pub fn len(&self) -> u32\n        ensures { result ≡ length (numbers self.now) }" in crate)
    used = crate.partition("\n\n")[0]
    same(
        [
            it
            for it in re.findall(r"\w+", shown.partition("ensures")[2].partition("}")[0])
            if it not in used and it not in ("result", "self", "now", "0")
        ],
        [],
    )
    check("set.len() == place" in ran.text_of("crates", "library_rows", "src", "numbers.rt"))


def test_wrong_body_of_the_worked_change() -> None:
    """It reads as one, of the function that is added."""
    (shown,) = pictures_of(FOLLOWED, "toml")
    (body,) = tomllib.loads(shown)["wrong"]
    same({*body} - bodies.KEYS, set())
    same((body["function"], body["old"]), ("NumberSet::is_empty", "self.len() == 0"))


def test_commands_of_the_worked_change() -> None:
    """Scripts are there and know their options; what else is called is a command of the kit."""
    said = [it for text in pictures_of(FOLLOWED, "console") for it in re.findall(r"^\$ (.*)$", text, re.M)]
    scripts = [it.removeprefix("python3 ").split() for it in said if it.startswith("python3 ")]
    for script, *words in scripts:
        same([it for it in words if it.startswith("--") and not knows(script, it)], [], script)
    same([it for it in said if not it.startswith(("python3 checks/", "rt check "))], [])
    check(len(scripts) == 2 and len(said) == 4, f"{said}")
