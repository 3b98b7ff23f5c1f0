#!/usr/bin/env python3
"""usage: checks/quick.py     what `bin/test --quick` runs, with python3 and git alone, in two minutes at most

What the first pages show; 200 worked rows of each peer, those of the connection through Python's package; a session of
each language that is installed; and recordings that the judge reads. The released program and library are tried. Each
part is given a fault once, which it has to see. The last line is 'N passed, M failed'."""
import os
import re
import shutil
import subprocess
import sys
import tempfile
from concurrent.futures import ThreadPoolExecutor
from typing import Callable, Iterable, NamedTuple

from support import commands, connection_fuzzing, connection_rows, ran, row_files, rows
from support.commands import Command
from support.package_connection import PackageConnection

# So many rows of each peer are played.
ROWS = 200
# Those of longer streams take longer than the rest together.
LONGEST = 10_000
PAGES = (("README.md",), ("examples", "README.md"), ("docs", "commands.md"))
# What tests of the Python package run without pytest: the pages that a newcomer reads, and recordings of real sessions.
TESTS = ("test_docs", "test_judge_docs", "test_examine_docs", "test_judge_recordings")
EXAMPLES = f"{ran.TOP}/examples"
EMBEDDING = ("docs", "embedding.md")
# So many parts run at once, on however few processors: most of them wait for others.
SIDE_BY_SIDE = 3
# So many seconds a command may take, on a machine that does much else.
PATIENCE = 300
LINKED = ("release", "include", "examples", "bindings")

Part = Callable[[ran.Count], None]


# What pages show


def fault_of(command: Command, folder: str = ran.TOP) -> str:
    """How a command differs from what its page shows, or nothing."""
    status, output, said = commands.run(command, folder)
    well = (status, output) == (0, command.printed)
    return "" if well else f"status {status}, {output!r} in place of {command.printed!r}; it said {said[-300:]!r}"


def page(place: tuple[str, ...]) -> Part:
    def part(count: ran.Count) -> None:
        for command in commands.commands_of(place):
            why = fault_of(command)
            count.check(f"{command.page}: {command.text.splitlines()[0]}", not why, why)

    return part


# Rows


class Play(NamedTuple):
    """A row of the peer with a table, with the words by which it is played."""

    row: row_files.Row
    words: list[str]


def plays() -> Iterable[Play]:
    """Rows of all files, in turn, so that the first ones are of each."""
    # (a table of their methods lies beside them)
    files = sorted(it.removesuffix(".txt") for it in os.listdir(row_files.FOLDER) if it.endswith(".txt"))
    found = [list(plays_of(it)) for it in files]
    return (of[at] for at in range(max(map(len, found))) for of in found if at < len(of))


def plays_of(file: str) -> Iterable[Play]:
    tables, found = row_files.rows_of(file)
    for row in found:
        for way in rows.OPTIONS if len(row.stream) < LONGEST and row.end != "Workers" else ():
            for table in tables if way in row.ways else ():
                text = rows.TABLES[table]
                yield Play(row, [*rows.OPTIONS[way], *(["--table", rows.file_of(text)] if text else [])])


def is_played(row: row_files.Row, words: list[str]) -> bool:
    status, output, said = ran.run(["play", *words], row.stream)
    return output in row.outputs and (status, said) == rows.ended(row.end.replace("Clean", ""))


def table_peer(count: ran.Count) -> None:
    found = [it for _, it in zip(range(ROWS), plays())]
    for row, words in found:
        count.check(f"row {row.name}: play {' '.join(words)}", is_played(row, words))
    count.check(f"{ROWS} rows of the peer with a table", len(found) == ROWS, f"{len(found)}")
    wrong = row_files.Row("wrong", [], found[0].row.stream, [b"{}"], found[0].row.end)
    count.check("a row of another output is seen", not is_played(wrong, found[0].words))


def difference(row: connection_rows.Row, wanted: Iterable[str]) -> str | None:
    got = connection_fuzzing.play_by_model(PackageConnection, row.actions)
    return connection_fuzzing.difference(row.actions, [*wanted], got)


def connection(count: ran.Count) -> None:
    found = connection_rows.rows_by_hand()[:ROWS]
    for row in found:
        why = difference(row, row.gives)
        count.check(f"row {row.name}, by Python's package", why is None, why)
    count.check(f"{ROWS} rows of the connection", len(found) == ROWS, f"{len(found)}")
    count.check("a row that gives something else is seen", difference(found[0], ["refused over"] * len(found[0].gives)))


# Sessions


def differs(words: list[str], wanted: str) -> str:
    """How a command's output differs from what is wanted, or nothing."""
    env = {**os.environ, "PYTHONPATH": f"{ran.TOP}/bindings/python"}
    ended = subprocess.run(words, env=env, capture_output=True, timeout=PATIENCE, check=False)
    well = (ended.returncode, ended.stdout.decode()) == (0, wanted)
    return "" if well else f"status {ended.returncode}, {ended.stdout[-500:]!r}, {ended.stderr[-500:]!r}"


def client(tool: str, file: str) -> Part:
    """A session of a client with the servers of its language."""
    wanted = ran.text_of("examples", os.path.dirname(file), "client.out")

    def part(count: ran.Count) -> None:
        why = differs([tool, f"{EXAMPLES}/{file}"], wanted)
        count.check(f"{tool} {file}", not why, why)
        if tool == sys.executable:
            count.check("a session that prints something else is seen", differs([tool, "-c", "print(1)"], wanted))

    return part


def embedded(word: str) -> Part:
    """The first answer in a language that is compiled, as its page has it, in a folder of its own."""
    command = next(it for it in commands.commands_of(EMBEDDING) if it.text.startswith(word))

    def part(count: ran.Count) -> None:
        with tempfile.TemporaryDirectory() as room:
            for it in LINKED:
                os.symlink(f"{ran.TOP}/{it}", f"{room}/{it}")
            why = fault_of(command, room)
        count.check(f"{'/'.join(EMBEDDING)}: {command.text.splitlines()[0]}", not why, why)

    return part


def has(*tools: str) -> bool:
    """Whether these are installed; the first one that isn't is told."""
    lacking = next((it for it in tools if shutil.which(it) is None), None)
    if lacking:
        print(f"SKIPPED: a session with {tools[-1]}, which needs {lacking}", flush=True)
    return lacking is None


def sessions() -> Iterable[Part]:
    yield client(sys.executable, "python/client.py")
    if has("node"):
        yield client("node", "node/client.mjs")
    if has("cc"):
        yield embedded("cc ")
    if has("cc", "cargo"):
        yield embedded("cargo ")


# Tests


def passed_by(words: list[str]) -> tuple[int, str]:
    """How many tests pass, and what failed."""
    folder = f"{ran.TOP}/bindings/python/tests"
    ended = subprocess.run(
        [sys.executable, "-m", "unittest", *words], cwd=folder, capture_output=True, timeout=PATIENCE, check=False
    )
    said = ended.stderr.decode(errors="replace")
    found = re.search(r"^Ran (\d+) tests? in", said, re.M)
    return int(found[1]) if found and not ended.returncode else 0, said[-1500:]


def tests(name: str) -> Part:
    def part(count: ran.Count) -> None:
        many, said = passed_by([name])
        count.check(f"bindings/python/tests/{name}.py", many, said)
        if name == TESTS[0]:
            count.check("a test that isn't there is seen", not passed_by(["test_nothing"])[0])

    return part


def planted(count: ran.Count) -> None:
    """A command of a page that prints something else is seen."""
    first = next(commands.commands_of(PAGES[0]))
    count.check("a command that prints something else is seen", fault_of(first._replace(printed="nothing\n")))


def counted(part: Part) -> ran.Count:
    """Runs a part with a count of its own, since parts run side by side."""
    count = ran.Count()
    try:
        part(count)
    except subprocess.TimeoutExpired as late:
        count.check(f"an end of {late.cmd} within {late.timeout} seconds", False)
    return count


def main(words: list[str]) -> int:
    if words:
        print(__doc__, file=sys.stdout if words == ["--help"] else sys.stderr)
        return 0 if words == ["--help"] else 2
    ran.built()
    slow: list[Part] = [tests(it) for it in TESTS] + [*sessions()] + [page(it) for it in PAGES] + [planted]
    total = ran.Count()
    with ThreadPoolExecutor(SIDE_BY_SIDE) as pool:
        for it in pool.map(counted, [*slow, table_peer, connection]):
            total.passed, total.failed = total.passed + it.passed, total.failed + it.failed
    return total.end()


if __name__ == "__main__":
    sys.exit(main(sys.argv[1:]))
