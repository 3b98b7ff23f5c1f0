"""Takes the fenced blocks out of a page, and plays the lines that pages and examples show."""
import re
from typing import Any

from support import ran

Block = tuple[str, str]  # (the words behind its fence, and its text)


def read_blocks(*place: str) -> list[Block]:
    """The blocks of a page in their order."""
    return re.findall(r"^```([^\n]*)\n(.*?)^```$\n?", ran.text_of(*place), re.M | re.S)


def check_fences(count: Any, *place: str) -> None:
    """Each block begins and ends."""
    fences, blocks = len(re.findall(r"^\s*```", ran.text_of(*place), re.M)), len(read_blocks(*place))
    count.check(
        f"each block of {'/'.join(place)} begins and ends", fences == 2 * blocks, f"{fences} fences round {blocks}"
    )


def blocks_of(count: Any, *place: str) -> list[Block]:
    """The blocks of a page, each of which begins and ends."""
    check_fences(count, *place)
    return read_blocks(*place)


def check_play(count: Any, name: str, words: list[str], given: str, output: str) -> None:
    """Plays lines with a table, and compares what is printed; the input ends clean."""
    count.same(
        f"{name}: {' '.join(words)}", ran.run(["play", "--lines", *words], given.encode()), (0, output.encode(), b"")
    )
