"""The references of docs/reference are what bin/reference makes of the sources, and have what the packages export."""
import ast
import re
from pathlib import Path

import pytest

from support import ran
from support.expecting import check, same
from tools import reference  # (it stands in bin/)


def test_pages_are_fresh() -> None:
    same(ran.told_by([f"{ran.TOP}/bin/reference", "--check"], 60), (0, b""))


def test_page_that_is_stale(monkeypatch: pytest.MonkeyPatch) -> None:
    monkeypatch.setitem(reference.PAGES, "c", lambda: reference.of_c().replace("bm_feed", "bm_fed"))
    same(reference.stale(), ["c"])


def test_names_of_python() -> None:
    """Each class and function that the package exports, and no private method."""
    page = reference.of_python()
    exported = reference.module(f"{reference.PYTHON}/__init__.py").exported()
    # (a module, and a value)
    missing = [it for it in exported if not re.search(rf"^### {it}\b|`{it}\(", page, re.M)]
    same(missing, ["LATER", "events"])
    check(not re.search(r"^\| `_", page, re.M))


def test_calls_of_c() -> None:
    """Each call that the header declares has a row."""
    header = ran.text_of("include", "bullmyrtle.h")
    declared = {it for it in re.findall(r"^(?:[a-z_0-9]+ )+\**(bm_\w+)\(", header, re.M)}
    inline = set(re.findall(r"^static .*?(bm_\w+)\(", header, re.M))
    rows = set(re.findall(r"^\| `[^`]*?(bm_\w+)\(", reference.of_c(), re.M))
    same(sorted(declared - inline - rows), [])


def test_overloads_are_left_out(tmp_path: Path) -> None:
    file = tmp_path / "some.py"
    file.write_text(
        '__all__ = ["It"]\n\n\nclass It:\n    """A thing."""\n\n    @overload\n    def take(self): ...\n\n'
        '    def take(self, most: int = 3) -> int:\n        """Takes some."""\n\n    def _own(self): ...\n'
    )
    text = "\n".join(reference.of_module(reference.Module(str(file), ast.parse(file.read_text()))))
    same(re.findall(r"^\| `.*$", text, re.M), ["| `take(most=3)` | Takes some. |"])
