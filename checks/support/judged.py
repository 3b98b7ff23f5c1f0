"""The judge of the Python package, for the checks that run it."""
import os
import sys

from support import ran

PACKAGE = f"{ran.TOP}/bindings/python"
EXTENSION = f"{ran.TOP}/release/_bullmyrtle.abi3.so"
JUDGE = [sys.executable, "-m", "bullmyrtle.judge"]


def environment(**more: str) -> dict[str, str]:
    return {**os.environ, "PYTHONPATH": PACKAGE, "PYTHONDONTWRITEBYTECODE": "1", **more}


def lacks_judge() -> bool:
    """Whether the command can't be run; what is skipped for want of it is told."""
    is_there = os.path.isfile(EXTENSION)
    if not is_there:
        what = os.path.relpath(sys.argv[0], ran.TOP)
        print(f"SKIPPED: what {what} does with {EXTENSION}, which isn't there", flush=True)
    return not is_there
