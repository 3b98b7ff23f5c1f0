"""The program, as released in release/ or as built here in out/, and which of them is of the sources that lie here."""
from __future__ import annotations

import hashlib
import os
import shutil
import subprocess
import sys
import tempfile

from tools import sources
from tools.repository import TOP, Fault, read_bytes, read_text

RELEASED = f"{TOP}/release/{sources.PROGRAM}"
RELEASED_STAMP = f"{TOP}/release/stamp"
# (as sha256sum writes it, so that `sha256sum -c` reads it)
CHECKSUM = f"{TOP}/release/{sources.PROGRAM}.sha256"
BUILT = f"{TOP}/out/{sources.PROGRAM}"
BUILT_STAMP = f"{BUILT}.stamp"
LOG = f"{TOP}/out/build.log"


def say(text: str) -> None:
    print(f"bin/{sources.PROGRAM}: {text}", file=sys.stderr, flush=True)


def checksum_line(file: str) -> str:
    return f"{hashlib.sha256(read_bytes(file)).hexdigest()}  {sources.PROGRAM}\n"


def is_released(stamp: list[str]) -> bool:
    """Whether release/ holds the program with this stamp, whole."""
    if not os.path.isfile(RELEASED) or not sources.is_stamped(RELEASED_STAMP, stamp):
        return False
    is_whole = os.path.isfile(CHECKSUM) and read_text(CHECKSUM) == checksum_line(RELEASED)
    if not is_whole:
        say("release/ isn't used: the program there isn't the one of its checksum")
    return is_whole


def is_built(stamp: list[str]) -> bool:
    return os.access(BUILT, os.X_OK) and sources.is_stamped(BUILT_STAMP, stamp)


def current(stamp: list[str]) -> str | None:
    """The program of the sources that lie here, or None."""
    return RELEASED if is_released(stamp) else BUILT if is_built(stamp) else None


def stripped(data: bytes) -> bytes:
    """A program without its symbols, by Debian's strip (of binutils): what is released. It leaves a program that is
    stripped as it is. Two programs are compared by one strip, since another version may lay out the file otherwise."""
    if shutil.which("strip") is None:
        raise Fault("strip isn't there (Debian's binutils): without it no program is released or compared")
    with tempfile.TemporaryDirectory(prefix="strip-") as room:
        write(f"{room}/given", data)
        ended = subprocess.run(
            ["strip", "--strip-all", "-o", f"{room}/made", f"{room}/given"],
            stdin=subprocess.DEVNULL,
            capture_output=True,
            text=True,
            check=False,
        )
        if ended.returncode:
            raise Fault(f"strip ended with status {ended.returncode}: {ended.stderr.strip()}")
        return read_bytes(f"{room}/made")


def write(file: str, data: bytes, mode: int = 0o644) -> None:
    """Writes a file in one step, so that a run beside this one reads the old file or the new one."""
    os.makedirs(os.path.dirname(file), exist_ok=True)
    with open(f"{file}.new", "wb") as it:
        it.write(data)
    os.chmod(f"{file}.new", mode)
    os.replace(f"{file}.new", file)


def keep(made: str, stamp: list[str]) -> None:
    """Keeps a program that was proved and built from the sources with this stamp, as out/ has it."""
    if os.path.exists(BUILT_STAMP):
        os.remove(BUILT_STAMP)
    write(BUILT, read_bytes(made), 0o755)
    write(BUILT_STAMP, stamp_text(stamp))


def stamp_text(stamp: list[str]) -> bytes:
    return "".join(f"{it}\n" for it in stamp).encode()


def release(stamp: list[str]) -> None:
    """Writes release/ from the program in out/, which it strips."""
    if not is_built(stamp):
        raise Fault(f"{BUILT} isn't of the sources that lie here")
    write(RELEASED, stripped(read_bytes(BUILT)), 0o755)
    write(CHECKSUM, checksum_line(RELEASED).encode())
    write(RELEASED_STAMP, stamp_text(stamp))


def compared() -> tuple[bool | None, str]:
    """Compares the program in out/ with the released one, after the same strip: whether they are the same, or None where
    nothing can be compared, and what to say."""
    if not os.path.isfile(RELEASED) or not os.path.isfile(RELEASED_STAMP):
        return None, "there is no released program to compare with: bin/release writes it"
    (released, released_kit), (built, built_kit) = (
        [*read_text(it).split("\n"), ""][:2] for it in (RELEASED_STAMP, BUILT_STAMP)
    )
    if released != built:
        return None, "release/ is of other sources, and isn't compared: bin/release writes it anew"
    if shutil.which("strip") is None:
        return None, "strip isn't there (Debian's binutils), and the released program isn't compared"
    held = read_bytes(RELEASED)
    if stripped(held) != stripped(read_bytes(BUILT)):
        if released_kit != built_kit:
            return (
                None,
                f"release/rpc_tool was built by another kit, {released_kit}, and differs from what this one makes: bin/release writes it anew",
            )
        return False, "release/rpc_tool has the stamp of these sources, and DIFFERS from the program that they give"
    if read_text(CHECKSUM) != checksum_line(RELEASED):
        return False, "release/ has another checksum than that of its program"
    if len(stripped(held)) < len(held):
        return None, "release/rpc_tool isn't stripped: bin/release writes it anew"
    return True, "the released program is the one that these sources give, byte for byte, after the same strip"
