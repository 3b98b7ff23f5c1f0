"""Plays what the left side sends in each picture of the page on the protocol: up to each message, what is written is
the picture's."""
import re
from typing import Iterator

import pytest

from support import pages, ran
from support.expecting import COUNT, check

PAGE = ("docs", "protocol.md")
COMES, GOES = re.compile(r"  \|-- (\S.*\S) -+>\|"), re.compile(r"  \|<- (\S.*\S) -+\|")
TABLES, PICTURES = ([text for mark, text in pages.read_blocks(*PAGE) if mark == kind] for kind in ("toml", "picture"))


def messages_of(picture: str) -> Iterator[tuple[bool, str]]:
    """The messages of a picture in their order, each with whether it comes in."""
    for line in picture.splitlines():
        if found := COMES.fullmatch(line) or GOES.fullmatch(line):
            yield found.re is COMES, f"{found[1]}\n"


def test_page() -> None:
    """It has a table and four pictures at least."""
    pages.check_fences(COUNT, *PAGE)
    check(len(TABLES) == 1 and len(PICTURES) >= 4, f"{len(TABLES)}, {len(PICTURES)}")


@pytest.mark.parametrize("number", range(1, len(PICTURES) + 1))
def test_picture(number: int) -> None:
    picture, table = PICTURES[number - 1], ran.file_of("table.toml", "".join(TABLES))
    messages = [*messages_of(picture)]
    coming = [at for at, (comes, _) in enumerate(messages) if comes]
    arrows = len(re.findall(r"\|--|\|<-", picture))
    check(coming and len(coming) < len(messages) == arrows, f"{len(messages)} messages are read of {arrows} arrows")
    for at in [*coming, len(messages)]:
        given = "".join(it for comes, it in messages[:at] if comes)
        output = "".join(it for comes, it in messages[:at] if not comes)
        status, printed, errors = ran.run(["play", "--lines", "--table", table], given.encode())
        # (an input that ends early gives more: what there is to say of replies that never came)
        is_as_shown = printed.startswith(output.encode()) if at < len(messages) else printed == output.encode()
        well = (status, errors) == (0, b"") and is_as_shown
        check(well, f"its first {at} messages: status {status}, {printed.decode()!r}, {errors!r}, and not {output!r}")
