#!/usr/bin/env python3
"""usage: checks/promises.py           whether the links and counts of docs/promises.md are those of the crates
       checks/promises.py --write   writes them anew

A row of the page's tables has a crate, a promise, the contract that carries it, and a wrong body, which are written by
hand: the names of the last two stand as `NAME`. This makes links of the crate and of the body, and counts what is refused.
Each crate that has wrong bodies has a row. The last line is 'N passed, M failed'."""
import glob
import os
import re
import sys
import tomllib
from functools import cache

from support.ran import TOP, Count, text_of
from tools.repository import listing  # (it stands in bin/)

PAGE = "docs/promises.md"
ROW = re.compile(r"^\| (?:\[)?`(\w+)`(?:\]\([^)]*\))? \| (.*) \| (.*) \| (?:(?:\[)?`(\w+)`(?:\]\([^)]*\))? )?\|$", re.M)
COUNTS = re.compile(r"^<!-- counts -->\n(.*?)^<!-- end -->$", re.M | re.S)


@cache
def bodies_of(crate: str) -> dict[str, str]:
    """The wrong bodies and must-fail edits of a crate: by their names, the files that they stand in."""
    folder = f"{TOP}/crates/{crate}"
    found = {os.path.basename(it).removesuffix(".edit"): it for it in glob.glob(f"{folder}/must-fail/*.edit")}
    for file in sorted(glob.glob(f"{folder}/wrong-bodies/**/*.toml", recursive=True)):
        found.update((body["name"], file) for body in tomllib.loads(text_of(file)).get("wrong", []))
    return found


def place_of(name: str, crate: str) -> str | None:
    """The file of a wrong body: of this crate, or of another one."""
    others = (bodies_of(it).get(name) for it in listing().lines)
    return bodies_of(crate).get(name) or next(filter(None, others), None)


def link(text: str, file: str) -> str:
    return f"[`{text}`]({os.path.relpath(file, f'{TOP}/docs')})"


def row_of(found: re.Match[str]) -> str:
    crate, promise, contract, name = found.groups()
    file = place_of(name, crate) if name else None
    body = f"{link(name, file)} " if file else f"`{name}` " if name else ""
    return f"| {link(crate, f'{TOP}/crates/{crate}')} | {promise} | {contract} | {body}|"


def counts() -> str:
    crates = [it for it in listing().lines if bodies_of(it)]
    bodies = sum(len(bodies_of(it)) for it in crates)
    return f"<!-- counts -->\nThe prover refuses {bodies:,} wrong bodies of {len(crates)} crates, one by one.\n<!-- end -->"


def written(page: str) -> str:
    """The page with the links and counts that its crates give."""
    return COUNTS.sub(lambda _: counts(), ROW.sub(row_of, page))


def faults(page: str) -> list[str]:
    """What is wrong with a page."""
    rows = [it.groups() for it in ROW.finditer(page)]
    lines = [it for it in page.split("\n") if re.match(r"\| \[?`", it)]
    told = ["links or counts that --write makes otherwise"] if written(page) != page else []
    told += [f"{len(lines) - len(rows)} rows that can't be read"] if len(lines) != len(rows) else []
    told += [f"{crate} isn't a crate" for crate, *_ in rows if crate not in listing().lines]
    told += [f"{name} isn't a wrong body" for crate, *_, name in rows if name and place_of(name, crate) is None]
    shown = {crate for crate, *_, name in rows if name}
    return told + [
        f"{it} has wrong bodies and no row with one" for it in listing().lines if bodies_of(it) and it not in shown
    ]


def main(words: list[str]) -> int:
    if words == ["--write"]:
        page = written(text_of(PAGE))
        with open(f"{TOP}/{PAGE}", "w", encoding="utf-8") as it:
            it.write(page)
        return 0
    if words:
        print(__doc__, file=sys.stdout if words == ["--help"] else sys.stderr)
        return 0 if words == ["--help"] else 2
    count, page = Count(), text_of(PAGE)
    count.same("what python3 checks/promises.py --write makes otherwise", faults(page), [])
    # (a look that can't fail shows nothing)
    count.check(
        "another wrong body is seen", faults(re.sub(r"\[`\w+`\]\(([^)]*toml)\)", r"[`nothing`](\1)", page, count=1))
    )
    count.check("a page without rows is seen", faults(ROW.sub("", page)))
    count.check("another count is seen", faults(re.sub(r"refuses [\d,]+", "refuses 7", page)))
    return count.end()


if __name__ == "__main__":
    sys.exit(main(sys.argv[1:]))
