"""The Rattle kit, by its command rt: which one it is, where it lies, and the words of its gate."""
from __future__ import annotations

import os
import shutil
import subprocess

from tools.repository import Fault

# The word by which the gate takes nothing of what it has kept.
ANEW = "--anew"


def asked(*words: str) -> tuple[str, int]:
    """What the command rt says, and how it ended."""
    ended = subprocess.run(
        ["rt", *words], stdin=subprocess.DEVNULL, stdout=subprocess.PIPE, stderr=subprocess.STDOUT, check=False
    )
    return ended.stdout.decode(errors="replace").strip(), ended.returncode


def version() -> str | None:
    """The kit's version, or None where the command rt isn't there."""
    if shutil.which("rt") is None:
        return None
    told, status = asked("version")
    if status or not told or "\n" in told:
        raise Fault(f"the kit's version can't be read: rt version ended with status {status} and said {told!r}")
    return told


def logic(version: str) -> str:
    """The logic by which a kit proves, as its version tells it: two kits of one logic accept the same proofs. A version
    that tells none stands for itself."""
    return version.partition(" logic ")[2] or version


def folder() -> str:
    """The kit's folder, in whose bin/ the command rt lies."""
    return os.path.dirname(os.path.dirname(os.path.realpath(shutil.which("rt") or "rt")))


def gate(is_anew: bool) -> list[str]:
    """The words of the gate. Some kits keep what it has proved, and have a word to take nothing of that; others keep
    nothing."""
    return ["rt", "ci", *([ANEW] if is_anew and ANEW in asked("help")[0] else [])]
