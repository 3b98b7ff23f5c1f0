"""The table of docs/performance.md, from the figures that are kept."""
import os
import re
import textwrap
from typing import Dict, Iterator, List, NamedTuple, Tuple

from measures.contenders import TOP
from measures.figures import Part, Values, read

PAGE = os.path.join(TOP, "docs", "performance.md")
MARKED = re.compile(r"^<!-- figures -->\n(.*?)^<!-- end -->$", re.M | re.S)
HEAD = (
    "| What | Unit | Plain peer | Ours | Model | Limit | Ratio | Peak KiB: plain, ours | What limits ours |\n"
    "|---|---|---|---|---|---|---|---|---|"
)
EACH, BYTE, US, MS, BYTES, REQUESTS = (
    *("instructions each", "instructions a byte", "us each", "ms each", "bytes", "requests for memory"),
)


class Unit(NamedTuple):
    """The kind of figures that are shown in a unit, how they are written, and by what they are divided."""

    kind: str
    form: str
    divisor: int = 1


UNITS = {
    EACH: Unit("instructions", ",.0f"),
    BYTE: Unit("instructions", ",.1f"),
    US: Unit("us", ",.1f"),
    MS: Unit("us", ",.1f", 1_000),
    BYTES: Unit("each", ",.0f"),
    REQUESTS: Unit("each", ",.1f"),
}


class Row(NamedTuple):
    """A row of the page: its name, its unit, the row of a table that it shows, and what limits ours."""

    name: str
    unit: str
    table: str
    row: str
    limits: str


class Section(NamedTuple):
    """A heading, the names of our programs in the tables, and rows."""

    title: str
    ours: Tuple[str, ...]
    rows: Tuple[Row, ...]


# The long messages, by their names on the page and in the tables; what limits ours, and what limits a host besides.
LONG = (
    ("a completion list", "completion list", "reading", ""),
    ("the same with blanks", "list with blanks", "reading", ", blanks"),
    ("the same indented", "list, indented", "reading", ", blanks"),
    ("a document opened", "didOpen", "reading", ""),
    ("the same with blanks", "didOpen with blanks", "reading", ", blanks"),
    ("semantic tokens", "semantic tokens", "reading, numbers", ""),
    ("the same with blanks", "tokens with blanks", "reading, numbers", ", blanks"),
    ("text beyond ASCII", "beyond ASCII", "reading", ""),
    ("the same as `\\u`", "beyond ASCII as \\u", "reading, escapes", ""),
)
PLAY, SENT, TRIPS = "play", "sent at once", "there and back"
HOSTS_SENT, HOSTS_TRIPS, HOSTS_PLAYED = "sent at once (lib)", "there and back (lib)", "played (lib)"
MEMORY, HELD, HELD_BY_SERVERS = "requests for memory", "bytes held", "bytes held by servers"


def long_messages(unit: str, table: str, of_hosts: bool) -> Tuple[Row, ...]:
    return tuple(Row(name, unit, table, row, why + (more if of_hosts else "")) for name, row, why, more in LONG)


OF_PLAY = (
    Row("unknown methods", EACH, PLAY, "single requests", "desk"),
    Row("the same in batches of 100", EACH, PLAY, "batches of 100", "desk"),
    Row("hovers", EACH, PLAY, "hovers", "desk"),
    Row("hovers with blanks", EACH, PLAY, "hovers with blanks", "desk"),
    Row("a param of 8 MB, unknown method", BYTE, PLAY, "one param of 8 MB", "copies"),
    *long_messages(BYTE, PLAY, of_hosts=False),
    Row("a completion list for a method", BYTE, PLAY, "completion list, known", "values"),
    Row("the same with blanks", BYTE, PLAY, "list with blanks, known", "values"),
    Row("sums", EACH, PLAY, "adds", "steps"),
    Row("sums with blanks", EACH, PLAY, "adds with blanks", "steps"),
    Row("sums in batches of 100", EACH, PLAY, "adds in batches", "steps"),
    Row("calls back", EACH, PLAY, "calls back", "steps"),
    Row("calls back in batches of 100", EACH, PLAY, "the same in batches", "steps"),
    Row("cancels", EACH, PLAY, "cancels", "steps"),
)
OF_SERVE = (
    Row("200,000 unknown methods", US, SENT, "unknown methods", "hand-overs, desk"),
    Row("200,000 sums", US, SENT, "adds", "hand-overs, steps"),
    Row("the same with blanks", US, SENT, "adds with blanks", "hand-overs, steps"),
    Row("the same in batches of 100", US, SENT, "adds in batches", "hand-overs, steps"),
    Row("20,000 open calls", US, SENT, "open calls", "open calls, hand-overs"),
    Row("one of them", BYTES, HELD_BY_SERVERS, "one of open calls", "open calls"),
    Row("a request there and back", US, TRIPS, "a request", "hand-overs"),
    Row("a request after 5 ms", US, TRIPS, "one after 5 ms", "wake-ups"),
    Row("a call back there and back", US, TRIPS, "a call back", "hand-overs"),
    Row("a cancel there and back", US, TRIPS, "a cancel", "hand-overs"),
    Row("a param of 8 MB, unknown method", MS, TRIPS, "8 MB, unknown method", "copies"),
    Row("a reply of 8 MB", MS, TRIPS, "a reply of 8 MB", "copies"),
    Row("a param of 8 MB, called back", MS, TRIPS, "a param of 8 MB", "copies"),
    *long_messages(MS, TRIPS, of_hosts=False),
)
OF_HOSTS = (
    Row("200,000 sums", US, HOSTS_SENT, "requests", "edge"),
    Row("the same with blanks", US, HOSTS_SENT, "requests with blanks", "edge, blanks"),
    Row("the same in batches of 100", US, HOSTS_SENT, "batches of 100", "edge"),
    Row("20,000 open calls", US, HOSTS_SENT, "open calls", "open calls"),
    Row("one of them", BYTES, HELD, "one of open calls", "open calls"),
    Row("the same, its id a string", BYTES, HELD, "one, string id", "open calls"),
    Row("a request there and back", US, HOSTS_TRIPS, "a request", "edge"),
    Row("a call back there and back", US, HOSTS_TRIPS, "a call back", "edge"),
    Row("a cancel there and back", US, HOSTS_TRIPS, "a cancel", "edge"),
    Row("a param of 8 MB, called back", MS, HOSTS_TRIPS, "a param of 8 MB", "copies"),
    *long_messages(MS, HOSTS_TRIPS, of_hosts=True),
    Row("hovers", EACH, HOSTS_PLAYED, "hovers", "edge"),
    Row("hovers with blanks", EACH, HOSTS_PLAYED, "hovers with blanks", "edge, blanks"),
    *long_messages(BYTE, HOSTS_PLAYED, of_hosts=True),
    Row("a long result", BYTE, HOSTS_PLAYED, "long results", "reading, copies"),
    Row("sums", EACH, HOSTS_PLAYED, "adds", "edge"),
    Row("sums with blanks", EACH, HOSTS_PLAYED, "adds with blanks", "edge, blanks"),
    Row("sums in batches of 100", EACH, HOSTS_PLAYED, "adds in batches", "edge"),
    Row("sums, ids that are strings", EACH, HOSTS_PLAYED, "adds, string ids", "edge"),
    Row("calls back", EACH, HOSTS_PLAYED, "calls back", "edge"),
    Row("cancels", EACH, HOSTS_PLAYED, "cancels", "edge"),
    Row("open calls", EACH, HOSTS_PLAYED, "open calls", "open calls"),
    Row("open calls, ids that are strings", EACH, HOSTS_PLAYED, "open, string ids", "open calls"),
    Row("a small request", REQUESTS, MEMORY, "a small request", "edge"),
    Row("a notification", REQUESTS, MEMORY, "a notification", "edge"),
)
SECTIONS = (
    Section("`play`", ("ours",), OF_PLAY),
    Section("`serve`, 1 worker; 4 workers", ("ours, 1 worker", "ours, 4 workers"), OF_SERVE),
    Section("a host in C; in Rust", ("in C", "in Rust"), OF_HOSTS),
)
# What the figures of a table and a kind are called; those of the tables of each section are of one name.
NAMES = {
    **{PLAY: "`play`", SENT: "`serve`", TRIPS: "`serve`", HELD_BY_SERVERS: "`serve`"},
    **dict.fromkeys((HOSTS_SENT, HOSTS_TRIPS, HOSTS_PLAYED, MEMORY, HELD), "hosts"),
}
KINDS = {"instructions": "instructions", "us": "times", "ratio": "ratios", "peak": "peaks", "each": "memory"}

Kept = Dict[Tuple[str, str, str], Values]


def joined(values: Values, labels: Tuple[str, ...], form: str, divisor: int = 1) -> str:
    return "; ".join(f"{values[it] / divisor:{form}}" for it in labels if it in values)


def line(row: Row, ours: Tuple[str, ...], kept: Kept) -> str:
    unit = UNITS[row.unit]
    values, ratio, peak = (kept.get((row.table, kind, row.row), {}) for kind in (unit.kind, "ratio", "peak"))
    shown = (joined(values, it, unit.form, unit.divisor) for it in (("baseline",), ours, ("model",), ("limit",)))
    of_times = joined(ratio, ours, ".2f"), joined(peak, ("baseline", *ours), ",.0f")
    return f"| {' | '.join((row.name, row.unit, *shown, *of_times, row.limits))} |"


def lines(parts: List[Part]) -> Iterator[str]:
    kept = {(it.table, it.kind, row): values for it in parts for row, values in it.rows.items()}
    yield HEAD
    for section in SECTIONS:
        yield f"| **{section.title}** {'| ' * 8}|"
        yield from (line(it, section.ours, kept) for it in section.rows)


def origins(parts: List[Part]) -> Iterator[str]:
    """When and where the figures were measured: the latest first."""
    found: Dict[Tuple[str, str], Dict[str, None]] = {}
    for it in parts:
        found.setdefault((it.date, it.machine), {})[f"{KINDS[it.kind]} of {NAMES[it.table]}"] = None
    for (date, machine), what in sorted(found.items(), reverse=True):
        text = f"- {date}, {machine}: {', '.join(what)}"
        yield textwrap.fill(text, 118, subsequent_indent="  ", break_on_hyphens=False)


def table(parts: List[Part]) -> str:
    return "\n".join(["<!-- figures -->", *lines(parts), "", *origins(parts), "<!-- end -->"])


def rendered(page: str, parts: List[Part]) -> str:
    """The page with the table of these figures."""
    return MARKED.sub(lambda _: table(parts), page)


def write() -> None:
    with open(PAGE, encoding="utf-8") as it:
        page = it.read()
    with open(PAGE, "w", encoding="utf-8") as it:
        it.write(rendered(page, read()))
