"""What the tests of the judge have in common."""
import os
import re
import sys

from helping import HERE, Case, environment

#: The command.
COMMAND = [sys.executable, "-m", "bullmyrtle.judge"]
FOUND = re.compile(r"! (client|server) ([\w-]+) (must|should|note)(?: (client|server))? (\d+)(?:\.(\d+))?")


def found_of(it):
    """A finding, as the rows have it."""
    of = "" if it.of == it.side else f" {it.of}"
    entry = f".{it.entry}" if it.entry else ""
    return f"! {it.side} {it.rule} {it.level}{of} {it.number}{entry}"


def rows_of(file):
    """The rows of a file: each with its name, and with its lines."""
    with open(os.path.join(HERE, "judge_rows", file), encoding="utf-8") as it:
        _, *blocks = it.read().strip().split("\n\n")
    named, rows = {}, []
    for block in blocks:
        head, *lines = block.split("\n")
        if head.startswith("@"):
            named[head] = lines
            continue
        if not re.match(r"[\w-]+ (kept|broken|border): \S", head):
            continue  # (what the file says of itself)
        rows.append(
            (head, [one for line in lines for one in (named[line] if line.startswith("@") else [line])])
        )
    return rows


__all__ = ["COMMAND", "FOUND", "Case", "environment", "found_of", "rows_of"]
