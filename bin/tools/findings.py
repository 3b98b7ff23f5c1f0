"""The parts of docs/servers.md. Each rule that was broken stands once, under a name. The part of a server or a client has
these names by level, each with the number of cases and, where it isn't the usual one, the first of them. What is written is
read back the same, so that the parts of what isn't installed stay, and so do the names."""
from __future__ import annotations

import re
from collections import Counter
from itertools import count, groupby
from textwrap import wrap
from typing import Iterable, NamedTuple

LEVELS = ("must", "should", "note")
HEADING = "## The rules"
RULES = ["| Name | What is asked | Section | First case |", "|---|---|---|---|"]
FOUND = re.compile(rf"- ({'|'.join(LEVELS)}): (.*)")
CELLS = re.compile(r"(?<!\\)\|")
NAMED = re.compile(r"`([^`]+)` (\d+)(?: \((.*?)\))?(?:, (?=`)|$)")

# Those of this repository in which nothing was found stand in one table: what isn't well of their cases wasn't tried.
CLEAN = "## Nothing was found"
CLEAN_HEAD = [
    "| Of this repository | Side, rules, framing | Version, date | Cases that are well |",
    "|---|---|---|---|",
]
CLEAN_PART = re.compile(
    r"this repository, (\S+); a (\w+), by the rules (\S+), in (\w+); (\S+)\.\n"
    r"0 must, 0 should, 0 note, 0 slow, (\d+) not tried, (\d+) ok of (\d+) cases\."
)


class Rule(NamedTuple):
    """What is asked, and by which section of a standard."""

    text: str
    section: str


class Finding(NamedTuple):
    """A rule that was broken: how bad that is, in how many cases, and the name of the first of them."""

    level: str
    cases: int
    rule: Rule
    first: str


class Part(NamedTuple):
    """A server or a client: the lines before the list of what was found, without empty ones; that; the lines behind it."""

    name: str
    before: list[str]
    findings: list[Finding] = []  # the worst first
    behind: list[str] = []


Names = dict[Rule, str]


def row_of(cells: Iterable[str]) -> str:
    """A row of a table."""
    return "| " + " | ".join(text.replace("|", "\\|") for text in cells) + " |"


def cells_of(row: str) -> list[str]:
    """The cells of such a row."""
    return [it.strip().replace("\\|", "|") for it in CELLS.split(row)[1:-1]]


def written(parts: list[Part], known: Names) -> str:
    """The page behind its head: the table of the rules, by the names that are known, and the parts. A rule without a name
    gets one of the words of its first case."""
    every = [finding for part in parts for finding in part.findings]
    names, usual = all_names(every, known), usual_of(every)
    lines = [HEADING, "", *RULES]
    for rule in sorted(usual, key=lambda it: names[it]):
        lines.append(row_of([f"`{names[rule]}`", *rule, usual[rule]]))
    clean = {it.name: row for it in parts if (row := clean_row(it))}
    for part in [it for it in parts if it.name not in clean]:
        lines += ["", f"## {part.name}", "", *part.before]
        lines += [""] if part.findings else []
        for level, some in groupby(part.findings, lambda it: it.level):
            words = f"- {level}: {', '.join(named(it, names, usual) for it in some)}"
            lines += wrap(words, 120, subsequent_indent="  ", break_long_words=False, break_on_hyphens=False)
        lines += ["", *part.behind] if part.behind else []
    lines += ["", CLEAN, "", *CLEAN_HEAD, *clean.values()] if clean else []
    return "\n".join(lines) + "\n"


def clean_row(part: Part) -> str | None:
    """The row of one of this repository in which nothing was found."""
    said = CLEAN_PART.fullmatch("\n".join(part.before))
    if not said or part.findings or part.behind or int(said[6]) + int(said[7]) != int(said[8]):
        return None
    version, *what, date, _, well, cases = said.groups()
    return row_of([part.name, ", ".join(what), f"{version}, {date}", f"{well} of {cases}"])


def all_names(every: list[Finding], known: Names) -> Names:
    """The name of each rule; no two have the same."""
    names = {rule: name for rule, name in known.items() if any(it.rule == rule for it in every)}
    for it in every:
        if it.rule not in names:
            words = "-".join(re.findall(r"\w+", it.first.lower())) or "rule"
            fresh = (f"{words}-{at}" if at > 1 else words for at in count(1))
            names[it.rule] = next(name for name in fresh if name not in names.values())
    return names


def usual_of(every: list[Finding]) -> dict[Rule, str]:
    """The first case of each rule that most of its findings have."""
    counts = Counter((it.rule, it.first) for it in every)
    return {rule: first for (rule, first), _ in reversed(counts.most_common())}


def named(it: Finding, names: Names, usual: dict[Rule, str]) -> str:
    """A finding as it stands in the part of a server."""
    return f"`{names[it.rule]}` {it.cases}{'' if it.first == usual[it.rule] else f' ({it.first})'}"


def read(page: str) -> tuple[list[Part], Names]:
    """The parts of a page, and the names of the rules. Raises KeyError where a name isn't in the table of the rules, and
    ValueError where the page doesn't begin with that table, or a row can't be read."""
    _, *sections = re.split(r"^## ", page, flags=re.M)
    if not sections:
        return [], {}
    if f"## {sections[0].splitlines()[0]}" != HEADING:
        raise ValueError("the page has no table of rules")
    rows = [cells_of(line) for line in sections[0].splitlines() if line.startswith("| `")]
    rules = {name.strip("`"): (Rule(text, section), usual) for name, text, section, usual in rows}
    parts = []
    for section in sections[1:]:
        lines = section.rstrip().splitlines()
        parts += clean_parts(lines) if f"## {lines[0]}" == CLEAN else [part_of(lines, rules)]
    return parts, {rule: name for name, (rule, _) in rules.items()}


def clean_parts(lines: list[str]) -> list[Part]:
    """Those in which nothing was found, of the lines of their table."""
    found = []
    for name, *cells in (cells_of(it) for it in lines[2 + len(CLEAN_HEAD) :]):
        side, rules, framing, version, date = ", ".join(cells[:2]).split(", ")
        well, cases = cells[2].split(" of ")
        said = f"this repository, {version}; a {side}, by the rules {rules}, in {framing}; {date}."
        tried = f"{int(cases) - int(well)} not tried, {well} ok of {cases} cases."
        found.append(Part(name, [said, f"0 must, 0 should, 0 note, 0 slow, {tried}"]))
    return found


def part_of(lines: list[str], rules: dict[str, tuple[Rule, str]]) -> Part:
    """A part of the page, of its lines and what each name of a rule stands for."""
    name, _, *rest = lines
    before, rest = until_empty(rest)
    if not rest or not FOUND.fullmatch(rest[0]):
        return Part(name, before, [], rest)
    lines, behind = until_empty(rest)
    items = "\n".join(lines).replace("\n  ", " ").splitlines()
    return Part(name, before, [it for item in items for it in findings_of(item, rules)], behind)


def until_empty(lines: list[str]) -> tuple[list[str], list[str]]:
    """The lines before the first empty one, and those behind it."""
    at = [*lines, ""].index("")
    return lines[:at], lines[at + 1 :]


def findings_of(item: str, rules: dict[str, tuple[Rule, str]]) -> list[Finding]:
    """What an item of a part says."""
    read_item = FOUND.fullmatch(item)
    if not read_item or NAMED.sub("", read_item[2]):
        raise ValueError(f"this line can't be read: {item}")
    level, text = read_item.groups()
    found = []
    for name, cases, first in NAMED.findall(text):
        rule, usual = rules[name]
        found.append(Finding(level, int(cases), rule, first or usual))
    return found
