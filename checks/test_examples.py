"""Plays each stream of examples/ with the table there, read as it comes, lazily, and with the last method first, and
compares what is printed with the file beside the stream; and runs the commands of its page, of the first one and of the
page on commands. The page on connections shows the host that the gate runs, and the page on changes begins with the
program's version."""
import glob
import os
import re

import pytest

from support import commands, pages, ran
from support.expecting import COUNT, check, same
from support.naming import named

FOLDER = os.path.join(ran.TOP, "examples")
TABLE = os.path.join(FOLDER, "toolbox.toml")
# The ways to play, and the endings of their outputs: where there is none of a way's own, it is as for the first.
WAYS: list[tuple[list[str], str]] = [([], ".out"), (["--lazy"], ".lazy.out"), (["--last"], ".last.out")]

# Streams

STREAMS = sorted(os.path.basename(it)[: -len(".in")] for it in glob.glob(f"{FOLDER}/*.in"))


@pytest.mark.parametrize("name", STREAMS)
def test_stream(name: str) -> None:
    for words, ending in WAYS:
        own = os.path.join(FOLDER, name + ending)
        output = ran.text_of(own if os.path.exists(own) else os.path.join(FOLDER, f"{name}.out"))
        for piece in ("1", "7", "65536"):
            pages.check_play(
                COUNT, name, ["--table", TABLE, *words, "--piece", piece], ran.text_of(FOLDER, f"{name}.in"), output
            )


def test_there_are_streams() -> None:
    check(len(STREAMS) >= 3, f"{STREAMS}")


def test_each_output_is_compared() -> None:
    """It belongs to a stream and a way."""
    known = {name + ending for name in STREAMS for _, ending in WAYS}
    strange = [it for it in os.listdir(FOLDER) if it.endswith(".out") and it not in known]
    check(not strange, f"{strange}")


# Commands of pages

PAGES = (("examples", "README.md"), ("README.md",), ("docs", "commands.md"))


COMMANDS = [it for place in PAGES for it in commands.commands_of(place)]


@pytest.mark.parametrize("place", named(PAGES, "/".join))
def test_blocks_of_page(place: tuple[str, ...]) -> None:
    """Each is a command, or what it prints."""
    pages.check_fences(COUNT, *place)
    kinds = [mark for mark, _ in commands.blocks_of(place) if mark not in commands.FILES]
    check(kinds and kinds == ["sh", "out"] * (len(kinds) // 2), f"{kinds}")


@pytest.mark.parametrize("command", named(COMMANDS, lambda it: f"{it.page} {it.text[:60]}"))
def test_command(command: commands.Command) -> None:
    ran.built()  # (which bin/rpc_tool would do too)
    status, output, said = commands.run(command)
    same((status, output), (0, command.printed), f"{command.text!r}; it said {said!r}")


# The page on connections shows what the smallest host reads and what it writes, just as the gate has them.


def test_fences_of_page_on_connections() -> None:
    pages.check_fences(COUNT, "docs", "connection.md")


@pytest.mark.parametrize("mark, file", (("in", "stdin"), ("out", "stdout")))
def test_host_on_page_on_connections(mark: str, file: str) -> None:
    shown = dict(pages.read_blocks("docs", "connection.md"))
    same(shown.get(mark), ran.text_of("crates", "connection_example", file))


def test_latest_changes_are_those_of_this_version() -> None:
    """They may be of a version that isn't released yet."""
    _, printed, _ = ran.run(["--version"])
    latest = re.search(r"^## (?:Unreleased: )?(\S+?),?(?: |$)", ran.text_of("CHANGELOG.md"), re.M)
    check(latest and printed.decode() == f"rpc_tool {latest[1]}\n", f"{printed!r}")
