#!/usr/bin/env python3
"""usage: checks/figures.py           whether the figures of docs/testing.md are those of the repository
       checks/figures.py --write   writes them anew

They are counted in the files, so nothing is run. The last line is 'N passed, M failed'."""
import glob
import json
import os
import re
import sys
from typing import Iterable

from promises import bodies_of
from support import connection_rows, judge_rows, row_files
from support.ran import TOP, Count, text_of
from support.wrong_judges import WRONGS
from tools.repository import listing  # (it stands in bin/)

PAGE = "docs/testing.md"
FIGURES = re.compile(r"^<!-- figures -->\n(.*?)^<!-- end -->$", re.M | re.S)


def files(pattern: str) -> list[str]:
    return sorted(glob.glob(f"{TOP}/{pattern}", recursive=True))


def lines(pattern: str) -> int:
    return sum(text_of(it).count("\n") for it in files(pattern))


def found(form: str, pattern: str) -> int:
    """How often a form is in some files."""
    return sum(len(re.findall(form, text_of(it), re.M)) for it in files(pattern))


def thousands(count: int) -> str:
    return f"{round(count, -3):,}"


def of_proofs() -> Iterable[tuple[str, str]]:
    yield "lines of code with contracts, of definitions and of proofs, rounded", " / ".join(
        thousands(lines(f"crates/*/{it}")) for it in ("src/**/*.rt", "specs/**/*.antt", "proofs/**/*.antt")
    )
    edits = len(files("crates/*/must-fail/*.edit"))
    bodies = sum(len(bodies_of(it)) for it in listing().lines) - edits
    yield "wrong bodies: bugs in one function or definition, which the prover has to refuse", f"{bodies:,}"
    yield "must-fail edits, which the gate tries itself", f"{edits}"
    model = [it for it in text_of("checks/progress/tried.txt").splitlines() if it and not it.startswith("#")]
    yield "runs of the model of the server's threads, each through every order of their steps", f"{len(model)}"


def of_examples() -> Iterable[tuple[str, str]]:
    names = [os.path.basename(it).removesuffix(".txt") for it in files("checks/played_rows/*.txt")]
    played = sum(len(row_files.rows_of(it)[1]) for it in names)
    yield "rows of the peer with a table, each whole, byte by byte, cut at each place, and served", f"{played}"
    yield "rows of a connection, by Rattle, C, Rust, Python and Node.js", f"{len(connection_rows.rows_by_hand())}"
    yield "rows of the judge, and judges that are wrong in one thing, which they find", f"{len(judge_rows.all_rows())} / {len(WRONGS)}"
    yield "sessions of tool servers, by Python and Node.js", f"{len(json.loads(text_of('checks/tool_rows/sessions.json')))}"
    yield "recordings of real sessions, with what is found in each", f"{len(files('examples/judge/*.record'))}"


def of_tests() -> Iterable[tuple[str, str]]:
    yield "test functions, each of one case or of many rows, in checks/", f"{found(r'^def test_', 'checks/test_*.py')}"
    yield "scripts beside them", f"{len([it for it in files('checks/*.py') if '/test_' not in it and '/conftest' not in it])}"
    python = found(r"^ +(?:async )?def test_", "bindings/python/tests/test_*.py")
    node, rust = found(r"^ *test\(", "bindings/node/tests/*.test.js"), found(r"#\[test\]", "bindings/rust/**/*.rs")
    yield "tests of the packages for Python, Node.js and Rust", f"{python} / {node} / {rust}"


def figures() -> str:
    rows = [f"| {what} | {many} |" for part in (of_proofs, of_examples, of_tests) for what, many in part()]
    return "\n".join(["<!-- figures -->", "| What | How many |", "|---|---|", *rows, "<!-- end -->"])


def main(words: list[str]) -> int:
    page = text_of(PAGE)
    fresh = FIGURES.sub(lambda _: figures(), page)
    if words == ["--write"]:
        with open(f"{TOP}/{PAGE}", "w", encoding="utf-8") as it:
            it.write(fresh)
        return 0
    if words:
        print(__doc__, file=sys.stdout if words == ["--help"] else sys.stderr)
        return 0 if words == ["--help"] else 2
    count = Count()
    count.check("the figures are those that python3 checks/figures.py --write makes", fresh == page)
    count.check("the page has figures", len(FIGURES.findall(page)) == 1)
    # (a look that can't fail shows nothing)
    other = re.sub(r"\d+ \|\n", "0 |\n", page, count=1)
    count.check("another figure is seen", FIGURES.sub(lambda _: figures(), other) != other)
    return count.end()


if __name__ == "__main__":
    sys.exit(main(sys.argv[1:]))
