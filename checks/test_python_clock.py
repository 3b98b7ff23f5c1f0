"""The Python package's tests that hold a bound on time, while nothing else runs: those that are marked `by_the_clock`.
checks/python_package.py runs all the others."""
import os
import re
import subprocess
import sys
from typing import Iterator

import pytest

from support import ran
from support.expecting import check
from tools.repository import read_text  # (it stands in bin/)

TESTS = f"{ran.TOP}/bindings/python/tests"
MARKED = re.compile(r"^(?:class (\w+)|    @by_the_clock\n    (?:async )?def (\w+))", re.M)


def marked() -> Iterator[str]:
    for file in sorted(os.listdir(TESTS)):
        if not file.startswith("test_") or not file.endswith(".py"):
            continue
        owner = ""
        for is_class, name in MARKED.findall(read_text(f"{TESTS}/{file}")):
            owner = is_class or owner
            if name:
                yield f"{file[:-3]}.{owner}.{name}"


@pytest.mark.alone
@pytest.mark.parametrize("name", marked())
def test_in_time(name: str) -> None:
    env = {**os.environ, "PYTHONDONTWRITEBYTECODE": "1"}
    ended = subprocess.run(
        [sys.executable, "-m", "unittest", "-v", name],
        cwd=TESTS,
        env=env,
        capture_output=True,
        text=True,
        timeout=300,
        check=False,
    )
    is_run = re.search(r"^Ran 1 test in", ended.stderr, re.M) and "skipped" not in ended.stderr
    check(ended.returncode == 0 and is_run, ended.stderr[-1_500:])
