"""What a test needs of the machine, and skips without; what a script needs of the gate, and fails without."""
import shutil

import pytest

from support import ran


def tool(name: str, why: str) -> None:
    """Skips the test where a tool isn't there; `why` says what the test does with it."""
    if shutil.which(name) is None:
        pytest.skip(f"what needs {name}, which isn't there: {why}")


def gates_program(name: str) -> str:
    """A program of the repository as the gate built it. Where there is none the test fails, or is skipped in a run that
    goes without the gate."""
    file = ran.gates_program(name)
    if file is None and ran.is_without_gate():
        pytest.skip(f"what needs {name}, which the gate builds, or rt run in crates/{name}")
    assert file is not None, f"the gate built no {name}: rt run in crates/{name} does too"
    return file
