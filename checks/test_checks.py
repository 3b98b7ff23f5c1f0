"""What stands about the checks themselves: each file has its line on the page of this folder and its part in bin/test,
and the list of files without types has none that is gone."""
import glob
import os
import re
import sys
import tomllib
from pathlib import Path

import pytest

from support import ran
from support.expecting import check, same
from tools import parts, tidying  # (they stand in bin/)

FILES = sorted(os.path.basename(it) for it in glob.glob(f"{ran.TOP}/checks/*.py") if not it.endswith("/conftest.py"))


@pytest.mark.parametrize("file", FILES)
def test_line_on_the_page(file: str) -> None:
    lines = re.findall(rf"^\| `{re.escape(file)}` ", ran.text_of("checks", "README.md"), re.M)
    same(len(lines), 1, f"lines of checks/README.md that begin with `{file}`")


def test_no_line_of_a_file_that_is_gone() -> None:
    named = re.findall(r"^\| `(\w+\.py)` ", ran.text_of("checks", "README.md"), re.M)
    same(sorted(named), sorted({*named} & {*FILES}))


def test_each_file_has_one_part() -> None:
    found = [it for part in parts.PARTS for files in parts.files_of([part]) for it in files]
    same(sorted(os.path.basename(it) for it in found), FILES)


# A file, and the part that it is of.
PARTS = [
    ("fuzz.py", "rows"),
    ("test_methods.py", "pages"),
    ("test_python_servers.py", "python"),
    ("wrong_bodies.py", "proofs"),
]


@pytest.mark.parametrize("file, part", PARTS)
def test_part(file: str, part: str) -> None:
    same(parts.part_of(f"checks/{file}"), part)


def test_what_has_no_clock() -> None:
    same(sorted({*parts.WITHOUT_CLOCK, parts.LONGEST} - {it.removesuffix(".py") for it in FILES}), [])
    same([parts.has_clock(f"checks/{it}.py") for it in ("node_package", "fuzz", "new")], [True, False, True])


def test_what_measures_is_known_to() -> None:
    tests, _ = parts.files_of(parts.PARTS)
    found = [os.path.basename(it) for it in tests if parts.measures(it)]
    check("test_serving.py" in found and "test_checks.py" not in found, f"{found}")


# A file of tests, and whether it has some that measure, and others.
MARK, TEST = "@pytest.mark.alone\n", "def test_it():\n    pass\n"
MARKED = {
    "one with rows that measures": (f"{MARK}@pytest.mark.parametrize('it', [1])\n{TEST}", True, False),
    "both": (MARK + TEST + TEST.replace("it", "that"), True, True),
    "a mark in a text": (f'TEXT = """\n{MARK}"""\n{TEST}', False, True),
}


@pytest.mark.parametrize("name", MARKED)
def test_what_measures(name: str, tmp_path: Path) -> None:
    text, measures, has_others = MARKED[name]
    file = tmp_path / "test_file.py"
    file.write_text(text)
    same((parts.measures(str(file)), parts.has_others(str(file))), (measures, has_others))


def test_run_by_name_tells_what_it_lacks(tmp_path: Path) -> None:
    """On a machine without tools and without apt-get: what is missing is named, and no test with the name is a failure."""
    (tmp_path / "python3").symlink_to(sys.executable)
    words = [f"{ran.TOP}/bin/test", "--only", "pages", "-k", "no_test_has_this_name"]
    status, output = ran.told_by(words, 120, env={**os.environ, "PATH": str(tmp_path)})
    lines = output.decode().splitlines()
    same((status, lines[-1:]), (1, ["0 passed, 1 failed"]), output.decode())
    for tool in ("cc", "valgrind", "spin"):
        check(f"SKIPPED: what needs {tool}" in lines, output.decode())
    check(any("apt-get install -y gcc" in it for it in lines), output.decode())


def test_run_by_name_of_a_part_without_names(tmp_path: Path) -> None:
    (tmp_path / "python3").symlink_to(sys.executable)
    words = [f"{ran.TOP}/bin/test", "--only", "node", "-k", "test_line_on_the_page"]
    status, output = ran.told_by(words, 120, env={**os.environ, "PATH": str(tmp_path)})
    same((status, output.decode().splitlines()[-1:]), (1, ["0 passed, 1 failed"]), output.decode())
    check("bin/test --only node runs the scripts of this part" in output.decode(), output.decode())


# What TypeScript's compiler says, and whether bin/tidy takes it for a fault.
FOUND = {
    "a name in a test": ("bindings/node/tests/a.test.js(1,1): error TS2304: Cannot find name 'hearer'.", True),
    "a type in the package": (
        "bindings/node/lib/a.js(1,1): error TS2339: Property 'a' does not exist on type 'B'.",
        True,
    ),
    "a type in a test": (
        "bindings/node/tests/a.test.js(1,1): error TS2339: Property 'a' does not exist on 'B'.",
        False,
    ),
    "no place": ("error TS2688: Cannot find type definition file for 'node'.", True),
}


@pytest.mark.parametrize("name", FOUND)
def test_what_counts_in_javascript(name: str) -> None:
    line, counts = FOUND[name]
    same(tidying.counted(line), line if counts else "")


def test_files_without_types() -> None:
    """Each that pyproject.toml lists is there; a name that ends with .* is a folder of modules."""
    settings = tomllib.loads(ran.text_of("pyproject.toml"))
    (listed,) = [it["module"] for it in settings["tool"]["mypy"]["overrides"]]
    gone = [it for it in listed if not any(is_there(folder, it) for folder in ("checks", "bench", "bin"))]
    check(not gone, f"{gone}")


def is_there(folder: str, name: str) -> bool:
    at = os.path.join(ran.TOP, folder, name.removesuffix(".*").replace(".", "/"))
    return os.path.isdir(at) if name.endswith(".*") else os.path.isfile(at) or os.path.isfile(f"{at}.py")
