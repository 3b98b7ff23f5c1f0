"""Plays the rows of checks/played_rows, or those of `--rows FILE`, by the proved program peer_bench, or by `--player
FILE`.

A row says what the peer writes for a stream, byte for byte, how its input ends and what is counted. It is played by
each of its schedules, and served where it says so, in one process: whole and byte by byte, and where it is played
eagerly, cut in two at each place and, if it is short, in three at each pair of places. checks/support/row_files.py has
the format of the files."""
import glob
import os
from typing import Iterator, NamedTuple

import pytest

from support import cases, needing, rows
from support.cases import Case, Ran
from support.expecting import check, same
from support.naming import named, word_of
from support.row_files import COUNTS, FOLDER, WAYS, Row, read_rows
from support.row_language import Unread

# A right file, and texts of it with what breaks them.
RIGHT = "Rows.\ntables: none\n\na row: eager\n<2 []\n<< \\r\nor\n= numbers 0, polls 0\n"
BROKEN = (
    ("Rows.", "rows"),
    ("tables", "table"),
    ("none", "nil"),
    ("\n\n", "\n"),
    ("\n\n", "\n\n\n"),
    (RIGHT[RIGHT.index("\n\n") :], ""),
    (": eager", ""),
    ("eager", "eager eagre"),
    ("<2", "<0"),
    ("<2", "<x"),
    ("<2 ", "<2"),
    ("<< ", "<<< "),
    ("\\r", "\\q"),
    ("or", "or > []"),
    ("= ", "! Clear\n= "),
    ("= ", "! NoLength\n! BadHead\n= "),
    ("numbers 0", "numbers"),
    ("numbers 0", "number 0"),
    ("polls", "numbers"),
    ("= ", "= polls 1\n= "),
    ("polls 0\n", "polls 0\n\na row: lazy\n"),
    ("polls 0\n", "polls 0\n\n"),
)
# Streams of at most so many bytes are cut at each pair of places, at each place, and anywhere.
SHORT, MIDDLE = 190, 5_000
# Longer ones come in pieces as large as readers give them.
READS = (4_095, 4_097, 70_000)
# So many seconds the cases of a row have.
PATIENCE = 300


class Played(NamedTuple):
    """A row, the table with which it is played, and the way; or why its file can't be read."""

    file: str
    row: Row | None
    table: str = ""
    way: str = ""
    fault: str = ""


def rows_of(file: str) -> list[Played]:
    name = os.path.basename(file)
    try:
        with open(file, encoding="utf-8", newline="") as it:
            tables, found = read_rows(it.read())
    except (Unread, OSError) as fault:
        return [Played(name, None, fault=str(fault))]
    return [Played(name, row, table, way) for row in found for table in tables for way in row.ways]


def name_of(it: Played) -> str:
    if it.row is None:
        return word_of(it.file)
    return "-".join(map(word_of, (it.file.removesuffix(".txt"), it.row.name, it.way, it.table)))


def pytest_generate_tests(metafunc: pytest.Metafunc) -> None:
    if "played" in metafunc.fixturenames:
        files = metafunc.config.getoption("--rows") or sorted(glob.glob(f"{FOLDER}/*.txt"))
        metafunc.parametrize("played", named((it for file in files for it in rows_of(file)), name_of))


def cuttings(length: int, is_eager: bool) -> Iterator[tuple[int, ...]]:
    """The sizes of the pieces in which a stream of so many bytes comes. What is left behind them is a piece too."""
    yield ()
    if length <= MIDDLE:
        yield (1,) * length
    else:
        yield from ((it,) * (length // it) for it in READS)
    if is_eager and length <= MIDDLE:
        yield from ((first,) for first in range(length))
    if is_eager and length <= SHORT:
        yield from ((first, second) for first in range(length) for second in range(length - first))


def differs(row: Row, got: Ran) -> bool:
    are_counted = all(getattr(got, COUNTS[name]) == wanted for name, wanted in row.counts.items())
    return not (got.output in row.outputs and got.end == row.end and are_counted)


def wanted_of(row: Row, got: Ran) -> tuple[str, dict[str, int], bytes]:
    """What had to come of a row, where something else did: of several right outputs the first is shown."""
    return row.end, row.counts, got.output if got.output in row.outputs else row.outputs[0]


def test_row(played: Played, request: pytest.FixtureRequest) -> None:
    row = played.row
    assert row is not None, played.fault
    player = request.config.getoption("--player") or needing.gates_program("peer_bench")
    text = rows.TABLES[played.table]
    hows = WAYS.get(played.way, [f"serve {played.way}"])
    tried = [Case(how, sizes, row.stream) for how in hows for sizes in cuttings(len(row.stream), how in WAYS["eager"])]
    ran = cases.run(player, text and rows.file_of(text), tried, PATIENCE)
    case, got = next((it for it in zip(tried, ran) if differs(row, it[1])), (tried[0], ran[0]))
    counts = {name: getattr(got, COUNTS[name]) for name in row.counts}
    same((got.end, counts, got.output), wanted_of(row, got), f"{case.how}, in pieces of {case.sizes[:20] or 'all'}")


def test_there_are_rows(request: pytest.FixtureRequest) -> None:
    check(request.config.getoption("--rows") or glob.glob(f"{FOLDER}/*.txt"), f"no file in {FOLDER}")


# A line that isn't known is refused, so that no row passes because it was mistyped.


def is_refused(text: str) -> bool:
    try:
        read_rows(text)
    except Unread:
        return True
    return False


@pytest.mark.parametrize("row", named(BROKEN, lambda it: f"{it[1]!r} in the place of {it[0]!r}"))
def test_refused_line(row: tuple[str, str]) -> None:
    check(is_refused(RIGHT.replace(*row, 1)))


def test_right_file() -> None:
    check(not is_refused(RIGHT))
