"""The plain model of the judge finds what the rows of checks/judge_rows have, which are worked out by hand from
docs/judge.md; also where what a side writes comes byte by byte. Each rule of that page has rows that keep it, that break
it, and that break it at its border; together they find judges that are wrong in one thing. The language of these rows
refuses each line that it doesn't know."""
import re
from collections import Counter
from typing import Callable

import pytest

from support import judge_rows as rows
from support import ran
from support.expecting import check, same
from support.judge_model import Judge
from support.judge_rules import CONNECTION, HOST, LEVELS_BY_RULE, NOT_JUDGED, RULES
from support.naming import named
from support.row_language import Unread
from support.wrong_judges import WRONGS, Wrong, judge_of

FEWEST = 3
ALL = rows.all_rows()
NAMES = (*CONNECTION, *HOST, NOT_JUDGED)


@pytest.mark.parametrize("row", named(ALL, lambda it: it.name))
def test_row(row: rows.Row) -> None:
    same(row.found(), row.wanted(), row.name)


@pytest.mark.parametrize("row", named((it for it in ALL if it.framing != "contents"), lambda it: it.name))
def test_row_byte_by_byte(row: rows.Row) -> None:
    same(row.found_by_bytes(), row.found_whole(), row.name)


def test_names() -> None:
    """Each row has a name of its own, so that a failure says which it is."""
    same([it for it, times in Counter(it.name for it in ALL).items() if times > 1], [])


@pytest.mark.parametrize("rule", NAMES)
def test_rows_of_a_rule(rule: str) -> None:
    """A rule has rows enough, and they show what their names say."""
    its = [it for it in ALL if it.rule == rule]
    for row in its:
        same(rule in {it.rule for seen in row.seen for it in seen.found}, row.shows != "kept", row.name)
    check(len(its) >= FEWEST, f"{len(its)} rows")
    same(sorted({it.shows for it in its}), sorted(rows.SHOWS))


# What the page says of a rule: a line of its table, and one of its examples


def table(heading: str) -> dict[str, list[str]]:
    """The rows of the table under a heading of docs/judge.md, by the name in the first column."""
    text = ran.text_of("docs", "judge.md").partition(f"\n## {heading}\n")[2].partition("\n## ")[0]
    return {it[0]: it[1].split(" | ") for it in re.findall(r"^\| `([\w-]+)` \| (.*) \|$", text, re.M)}


def test_rules_of_the_page() -> None:
    whose = {it: words[2] for it, words in table("The rules").items()}
    same(whose, {**dict.fromkeys(CONNECTION, "connection"), **dict.fromkeys(HOST, "host")})


def test_each_rule_has_an_example() -> None:
    same([*table("Each rule, broken")], [*table("The rules")])


@pytest.mark.parametrize("rule", (*CONNECTION, *HOST))
def test_level_of_the_page(rule: str) -> None:
    """The levels that rows have are those of the page. Behind a fault, and where a content couldn't be read, they are
    notes."""
    found = {
        it.level for row in ALL for seen in row.seen for it in seen.found if it.rule == rule and not is_softened(row)
    }
    words = {*re.findall(r"must|should|note", table("The rules")[rule][1])}
    check(found <= words, f"{found} and not {words}")
    same(words, {*LEVELS_BY_RULE[rule]})


def is_softened(row: rows.Row) -> bool:
    return any(it.rule in ("head", "not-json", NOT_JUDGED) for seen in row.seen for it in seen.found)


# Judges that are wrong


def finds(row: rows.Row, kind: type) -> bool:
    """Whether a judge finds what the row has, but for its places."""
    judge = kind(row.rules, row.framing, **row.limits)
    for seen in row.seen:
        before = len(judge.findings)
        rows.show(judge, seen, [seen.data])
        lines = [rows.found_of(it, False).line for it in judge.findings[before:]]
        if lines != [it.line.partition(" at ")[0] for it in seen.found]:
            return False
    return True


@pytest.mark.parametrize("wrong", named(WRONGS, lambda it: it.what))
def test_wrong_judge(wrong: Wrong) -> None:
    """Some row finds it; it may fail in any way."""
    kind = judge_of(wrong)
    try:
        is_found = not all(finds(it, kind) for it in ALL)
    except Exception:  # noqa: BLE001
        is_found = True
    check(is_found, "no row finds it")


def test_right_judge() -> None:
    check(all(finds(it, Judge) for it in ALL))


# Lines that no row has


BROKEN_ROWS = [
    ("x kept: a: jsonrpc lines\n> 1", "a rule that isn't known"),
    ("object keeps: a: jsonrpc lines\n> 1", "what the row shows isn't known"),
    ("object kept: a: json lines\n> 1", "rules that aren't known"),
    ("object kept: a: jsonrpc line\n> 1", "a framing that isn't known"),
    ("object kept: a: jsonrpc lines limit\n> 1", "a limit without its number"),
    ("object kept: a: jsonrpc lines room 5\n> 1", "a limit that isn't known"),
    ("object kept: a: jsonrpc lines\n! client object must 1", "a finding before anything is seen"),
    ("object kept: a: jsonrpc lines\n> 1\n! host object must 1", "a side that isn't known"),
    ("object kept: a: jsonrpc lines\n> 1\n! client objects must 1", "a finding of no rule"),
    ("object kept: a: jsonrpc lines\n> 1\n! client object may 1", "a level that isn't known"),
    ("object kept: a: jsonrpc lines\n> 1\n! client object must", "no message"),
    ("object kept: a: jsonrpc lines\n> 1\nclient ended", "an end that isn't known"),
]


@pytest.mark.parametrize("row", named(BROKEN_ROWS, lambda it: it[1]))
def test_broken_row(row: tuple[str, str]) -> None:
    check(is_refused(Unread, lambda: rows.row_in(row[0])), row[1])


def is_refused(fault: type[Exception], call: Callable[[], object]) -> bool:
    try:
        call()
    except fault:
        return True
    return False


@pytest.mark.parametrize("rules", RULES)
def test_behind_an_end(rules: str) -> None:
    """Nothing is seen of a side that has ended."""
    judge = Judge(rules)
    judge.end("client", "closed")
    check(is_refused(ValueError, lambda: judge.saw("client", b"1\n")))
    check(is_refused(ValueError, lambda: judge.end("client", "failed")))
    judge.saw("server", b"1\n")
    same([it.rule for it in judge.findings], ["object"])
