"""The table of docs/performance.md is what bench/run --write makes of the figures that bench/run kept, and it has all
that is measured."""
import os
import re
import sys
from pathlib import Path

import pytest

from support import ran
from support.expecting import check, same

sys.path.insert(0, os.path.join(ran.TOP, "bench"))

from measures import figures, hosting, inputs, page, serving  # noqa: E402 (it stands in bench/)

KEPT = figures.read()
# The rows of each table that the page shows.
MEASURED = {
    page.PLAY: [it.name for it in inputs.INPUTS],
    page.SENT: [it.name for it in serving.BULKS],
    page.TRIPS: [it.name for it in (*serving.TRIPS, *serving.LONG)],
    page.HOSTS_SENT: [it.name for it in hosting.BULKS],
    page.HOSTS_TRIPS: [it.name for it in hosting.TRIPS],
    page.HOSTS_PLAYED: [it.name for it in inputs.HOSTED],
    page.HELD: [*hosting.OPEN],
}
ROWS = [(section, row) for section in page.SECTIONS for row in section.rows]


def test_table_of_the_page() -> None:
    text = ran.text_of("docs", "performance.md")
    same(page.rendered(text, KEPT), text)
    same(len(page.MARKED.findall(text)), 1)


def test_figures_kept_as_they_are_written(tmp_path: Path) -> None:
    file = tmp_path / "figures.json"
    figures.write(str(file), KEPT)
    same(file.read_text(encoding="utf-8"), ran.text_of("bench", "figures.json"))


@pytest.mark.parametrize("part", KEPT, ids=lambda it: f"{it.kind} of {it.table}")
def test_another_figure_is_seen(part: figures.Part) -> None:
    """Each figure that is kept is on the page, but for those of programs and rows that it doesn't show."""
    shown = {row.row for _, row in ROWS if row.table == part.table}
    row = next(it for it in part.rows if it in shown)
    ours = {label for section, it in ROWS if it.table == part.table for label in section.ours}
    label = next(it for it in part.rows[row] if it in ours)
    other = part._replace(rows={**part.rows, row: {**part.rows[row], label: 7_654_321}})
    before, after = (page.table([other if it is part else it for it in KEPT]), page.table(KEPT))
    check(before != after, f"{label} of {row}")


@pytest.mark.parametrize("table", MEASURED)
def test_rows_on_the_page(table: str) -> None:
    """All rows of a table, and no other ones."""
    same(sorted({row.row for _, row in ROWS if row.table == table}), sorted(MEASURED[table]))


@pytest.mark.parametrize("section, row", ROWS, ids=lambda it: "" if isinstance(it, page.Section) else it.row)
def test_figures_of_a_row(section: page.Section, row: page.Row) -> None:
    """Each is measured of the plain peer and of all of ours."""
    kind = page.UNITS[row.unit].kind
    found = next(it.rows for it in KEPT if (it.table, it.kind) == (row.table, kind))
    same({"baseline", *section.ours} - {*found.get(row.row, {})}, set())


def test_why_ours_is_slower() -> None:
    """What limits ours is explained below the table, and each word there stands in it."""
    explained = re.findall(r"^- \*\*([\w -]+):\*\*", ran.text_of("docs", "performance.md"), re.M)
    same({*explained}, {word for _, row in ROWS for word in row.limits.split(", ")})


def noted(file: Path, is_whole: bool = True) -> list[figures.Part]:
    """What is kept of a part that was measured before, and of another one, once it is measured again."""
    old = figures.Part("t", "us", "2026-01-01", "one", {"a": {"x": 1}, "b": {"x": 2}})
    figures.write(str(file), [old, old._replace(kind="peak")])
    run = figures.Figures(is_whole, str(file))
    run.note("t", "us", "a", {"x": 12.3456789, "before, 1 worker": 3, "y": 0.0})
    run.keep()
    return figures.read(str(file))


def test_part_that_is_measured_again(tmp_path: Path) -> None:
    """As a whole, so that its date is that of each of its rows."""
    peak, us = noted(tmp_path / "figures.json")
    same((peak.date, [*peak.rows]), ("2026-01-01", ["a", "b"]))
    same(us.rows, {"a": {"x": 12.3457, "y": 0}})
    check(us.date > "2026-01-01" and us.machine != "one")


def test_figures_of_small_sizes(tmp_path: Path) -> None:
    """They aren't kept."""
    same([it.date for it in noted(tmp_path / "figures.json", is_whole=False)], ["2026-01-01"] * 2)
