"""A stranger with docs/embedding.md: its commands are run in a copy of what the repository has for hosts, without the
Rattle kit on the PATH, and print what stands below them. What it shows of an example stands there."""
import glob
import os
import shutil
import subprocess
from pathlib import Path

import pytest

from support import needing, pages, ran
from support.expecting import COUNT, check, same

PAGE = ("docs", "embedding.md")
# What a stranger needs of the repository.
NEEDED = ("release", "include", "examples/c", "bindings/rust")
LEFT_OUT = shutil.ignore_patterns("target", "Cargo.lock")
BLOCKS = [it for it in pages.read_blocks(*PAGE) if it[0]]


def without_kit() -> str:
    """The PATH without the folders that have the kit's command."""
    return os.pathsep.join(
        it for it in os.environ["PATH"].split(os.pathsep) if not os.path.exists(os.path.join(it, "rt"))
    )


def test_blocks_of_page() -> None:
    """Each is a command, or what it prints."""
    pages.check_fences(COUNT, *PAGE)
    kinds = [mark for mark, _ in BLOCKS if mark != "c"]
    check(kinds and kinds == ["sh", "out"] * (len(kinds) // 2), f"{kinds}")


def stands_in(file: str, text: str) -> bool:
    """Whether each line of a text stands in a file, in this order."""
    with open(file, encoding="ascii") as it:
        lines = iter([line.strip() for line in it])
    return all(line.strip() in lines for line in text.splitlines())


@pytest.mark.parametrize("number", range(sum(mark == "c" for mark, _ in BLOCKS)))
def test_shown_in_c(number: int) -> None:
    """What is shown in C stands in an example."""
    text = [it for mark, it in BLOCKS if mark == "c"][number]
    check(any(stands_in(it, text) for it in glob.glob(f"{ran.TOP}/examples/c/*.c")), f"no example has {text}")


@pytest.fixture(scope="module")
def stranger(tmp_path_factory: pytest.TempPathFactory) -> Path:
    """The folder of a stranger."""
    room = tmp_path_factory.mktemp("stranger")
    for it in NEEDED:
        shutil.copytree(os.path.join(ran.TOP, it), room / it, ignore=LEFT_OUT)
    return room


def run_commands(room: Path, of_cargo: bool) -> None:
    """The page's commands with cargo, or those without, in their order."""
    path = without_kit()
    check(shutil.which("rt", path=path) is None, "there is a kit")
    for (mark, text), (_, printed) in zip(BLOCKS, BLOCKS[1:]):
        if mark == "sh" and ("cargo" in text) == of_cargo:
            env = {**os.environ, "PATH": path}
            ended = subprocess.run(
                ["sh", "-ec", text], cwd=room, env=env, capture_output=True, timeout=300, check=False
            )
            got = (ended.returncode, ended.stdout.decode(errors="replace"))
            same(got, (0, printed), f"{text.splitlines()[0]} ..: {ended.stderr[-500:]!r}")


def test_commands_for_c(stranger: Path) -> None:
    needing.tool("cc", "the commands of docs/embedding.md")
    run_commands(stranger, False)


def test_commands_for_rust(stranger: Path) -> None:
    needing.tool("cc", "the commands of docs/embedding.md")
    needing.tool("cargo", "the commands of docs/embedding.md for Rust")
    run_commands(stranger, True)
