"""What checks/ has, by the parts that `bin/test --only` names: tests that pytest runs (test_*.py), and scripts that end
with a tally."""
from __future__ import annotations

import ast
import glob
import os
from typing import Iterable

from tools.repository import TOP, read_text

PARTS = ("pages", "rows", "python", "rust", "c", "node", "proofs")
# The part of a file whose name doesn't begin with that of its part. What stands nowhere is of the rows.
OF = {
    **dict.fromkeys(("examples", "methods", "pictures", "embedding", "promises", "quick", "site", "figures"), "pages"),
    "ports": "c",
    **dict.fromkeys(("wrong_bodies", "wrong_body_judge", "tried", "wings", "progress"), "proofs"),
}
# The scripts in which nothing is late: they count, compare, or run programs that have minutes for seconds of work. In each other
# one, and in the tests, a process waits for another one by the clock.
WITHOUT_CLOCK = {
    *("c_judge", "c_judge_costs", "c_library", "c_library_largest", "c_library_many", "c_library_memory"),
    *("c_library_stack", "c_library_use", "connection_fuzz", "connection_model", "figures", "fuzz", "growth"),
    *("judge_conversations", "laws", "progress", "promises", "python_extension", "random_streams", "refused_memory"),
    *("sums", "tried", "wings", "wrong_body_judge"),
}


# The script that takes longest.
LONGEST = "ports"


def name_of(script: str) -> str:
    return os.path.basename(script).removesuffix(".py")


def has_clock(script: str) -> bool:
    return name_of(script) not in WITHOUT_CLOCK


def part_of(file: str) -> str:
    name = os.path.basename(file).removesuffix(".py").removeprefix("test_")
    first = name.partition("_")[0]
    return OF.get(name) or (first if first in PARTS else "rows")


def files_of(parts: Iterable[str]) -> tuple[list[str], list[str]]:
    """The tests and the scripts of these parts."""
    found = [
        it for it in sorted(glob.glob(f"{TOP}/checks/*.py")) if part_of(it) in parts and not it.endswith("/conftest.py")
    ]
    tests = [it for it in found if os.path.basename(it).startswith("test_")]
    return tests, [it for it in found if it not in tests]


def marked(test: str) -> set[bool]:
    """Of the tests of a file, whether they have the mark `alone`: whether there are such, and others."""
    functions = [it for it in ast.walk(ast.parse(read_text(test))) if isinstance(it, ast.FunctionDef)]
    tests = [it for it in functions if it.name.startswith("test_")]
    return {"pytest.mark.alone" in map(ast.unparse, it.decorator_list) for it in tests}


def measures(test: str) -> bool:
    """Whether a file has tests that measure, and so run while nothing else does."""
    return True in marked(test)


def has_others(test: str) -> bool:
    """Whether a file has tests that don't. (A file without any is run too, so that this is seen.)"""
    return marked(test) != {True}
