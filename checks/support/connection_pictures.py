"""The pictures of docs/connection.md, read as rows: scripts with what each action gives."""
import re
from typing import Any, Callable

from support import connection_rows as rows
from support import pages

FEWEST = 5
# What a picture shows where a setting isn't the standard one, and the way of that setting.
SHOWS = {"notifications/cancelled": "mcp", "Broken ": "broken"}

# The arrows of a picture, each with the action that it stands for, and what that gives: of the wire on the left, and of
# the host on the right.
ARROWS: tuple[tuple["re.Pattern[str]", Callable[[str], tuple[str, str]]], ...] = (
    (re.compile(r"  \|-- (\S.*\S) -+>\| +\|"), lambda came: (f"feed '{came}'", "ok")),
    (re.compile(r"  \|<- (\S.*\S) -+\| +\|"), lambda goes: ("take 1000", f"bytes '{goes}'")),
    (re.compile(r"  \| +\|-- (\S.*\S) -+>\|"), lambda event: ("next", event_of(event))),
    (re.compile(r"  \| +\|<- (\S.*\S) -+\|"), lambda says: action_of(says)),
)


def optional(text: str) -> str:
    return f"'{text}'" if text else "-"


def event_of(words: str) -> str:
    """An event of a picture as what a row has."""
    if found := re.fullmatch(r"Call ([0-9]+) (\S+)(?: ([\[{]\S*))?(?: id (\S+))?", words):
        return f"call {found[1]} '{found[2]}' {optional(found[3])} {optional(found[4])}"
    if found := re.fullmatch(r"Replied ([0-9]+) (-?[0-9]+) (.+)", words):
        return f"replied {found[1]} error {found[2]} '{found[3]}' -"
    if found := re.fullmatch(r"Replied ([0-9]+) (\S+)", words):
        return f"replied {found[1]} result '{found[2]}'"
    if found := re.fullmatch(r"Broken ([0-9]+) (unreadable|invalid [0-9]+ [0-9]+) (.+)", words):
        return f"broken {found[1]} {found[2]} '{found[3]}'"
    return words.lower()


def action_of(words: str) -> tuple[str, str]:
    """What the host says in a picture as what a row has; pictures have one call each, so its key is 1."""
    name, *given = words.split(" ")
    if name == "call":
        return f"call {given[0]} '{given[1]}' {optional(''.join(given[2:]))}", "key 1"
    return " ".join([name, given[0], *(f"'{it}'" for it in given[1:])]), "ok"


def picture_of(count: Any, name: str, text: str) -> rows.Row:
    lines = [it for it in text.splitlines() if "--" in it]
    found = [say(it[1]) for line in lines for arrow, say in ARROWS if (it := arrow.fullmatch(line))]
    count.check("each arrow of a picture is read", len(found) == len(lines), f"{len(found)} of {len(lines)}")
    actions = (f"{action} => {gives}" for action, gives in found)
    ways = " ".join(["contents", *(way for shown, way in SHOWS.items() if shown in text)])
    return rows.row_in("\n".join([f"{name}: {ways}", *actions, "next => none", "pending => pending 0"]))


def pictures(count: Any) -> list[rows.Row]:
    """The pictures of the page. Counts whether they are read, and whether they are enough."""
    texts = [text for mark, text in pages.blocks_of(count, "docs", "connection.md") if mark == "conversation"]
    count.check(f"the page has {FEWEST} pictures at least", len(texts) >= FEWEST, f"{len(texts)}")
    return [picture_of(count, f"picture {number}", text) for number, text in enumerate(texts, 1)]
