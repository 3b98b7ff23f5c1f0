"""What packages are made of: the version, and files of the repository as files of an archive."""
import os
import subprocess
from types import MappingProxyType
from typing import Mapping

from tools.archives import File
from tools.repository import TOP, Fault, read_bytes, read_text

RELEASED = f"{TOP}/release"
PROGRAM, SHARED, STATIC, HEADER = "rpc_tool", "libbullmyrtle.so.1", "libbullmyrtle.a", "bullmyrtle.h"


def version() -> str:
    """The version, which stands in one place."""
    return read_text(f"{TOP}/VERSION").strip()


def released(name: str) -> bytes:
    return read_bytes(f"{RELEASED}/{name}")


def filled(file: str, words: Mapping[str, str] = MappingProxyType({})) -> bytes:
    """A text of packaging/ with the version in it, and these words in the places that have their names."""
    text = read_text(f"{TOP}/packaging/{file}")
    for name, word in {"VERSION": version(), **words}.items():
        text = text.replace(f"@{name}@", word)
    return text.encode()


def tracked(folder: str) -> list[str]:
    """The files of a folder that are checked in, by their names in it."""
    ended = subprocess.run(
        ["git", "ls-files", "-z", "--", "."], cwd=f"{TOP}/{folder}", capture_output=True, check=False
    )
    if ended.returncode:
        raise Fault(f"{folder}: git can't list its files: {ended.stderr.decode().strip()}")
    return sorted(it for it in ended.stdout.decode().split("\0") if it)


def file_of(source: str, name: str) -> File:
    """A file of the repository under another name."""
    is_run = os.access(f"{TOP}/{source}", os.X_OK)
    return File(name, read_bytes(f"{TOP}/{source}"), 0o755 if is_run else 0o644)
