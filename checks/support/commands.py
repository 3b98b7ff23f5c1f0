"""The commands that a page shows, and what each prints."""
import os
import re
import subprocess
from typing import Any, Iterator, NamedTuple

from support import pages, ran

# The file that a page has its reader write with a block of this kind: a comment in its first line may name it.
FILES = {"toml": "first.toml", "python": ""}
NAMED = re.compile(r"# (\w+\.py)\n")


class Command(NamedTuple):
    """A command of a page, the files that the page has had its reader write, and what it prints."""

    page: str
    text: str
    files: dict[str, str]
    printed: str


def blocks_of(place: tuple[str, ...]) -> list[pages.Block]:
    return [it for it in pages.read_blocks(*place) if it[0]]


def commands_of(place: tuple[str, ...]) -> Iterator[Command]:
    """The commands of a page. A block of one of the kinds of FILES is that file of the commands below."""
    blocks, files = blocks_of(place), dict[str, str]()
    for (mark, text), (_, printed) in zip(blocks, blocks[1:]):
        if mark in FILES:
            name = NAMED.match(text)
            files = {**files, name[1] if name else FILES[mark]: text}
        elif mark == "sh":
            yield Command("/".join(place), text, files, printed)


def run(command: Command, folder: str = ran.TOP) -> tuple[int, str, bytes]:
    """The status of a command that runs in a folder, what it prints, and what it says."""
    files = {name: ran.file_of(name, text) for name, text in command.files.items()}
    text = re.sub("|".join(map(re.escape, files)) or "$^", lambda it: files[it[0]], command.text)
    how: dict[str, Any] = {"cwd": folder, "capture_output": True, "timeout": 300, "check": False}
    ended = subprocess.run(["sh", "-c", text], env={**os.environ, "LC_ALL": "C.UTF-8"}, **how)
    # (a block ends with an LF, and frames need none)
    output = ended.stdout.decode() + ("" if ended.stdout.endswith(b"\n") else "\n")
    return ended.returncode, output, ended.stderr
