"""The repository's folders, and its crates as crates.txt lists them: a line 'NAME: LIBRARY ..' for each."""
from __future__ import annotations

import os
import re
from typing import Iterable

TOP = os.path.dirname(os.path.dirname(os.path.dirname(os.path.realpath(__file__))))


class Fault(Exception):
    """What a command says before it ends with status 1."""


class Listing:
    """The lines of a crates.txt: which crate stands on which."""

    def __init__(self, text: str) -> None:
        self.lines: dict[str, str] = {}
        self.libraries: dict[str, list[str]] = {}
        for line in text.split("\n"):
            line = " ".join(line.partition("#")[0].split())
            if not line:
                continue
            name = re.match(r"\w+", line)
            if not name or name[0] in self.lines:
                raise Fault(f"crates.txt: a line names no crate, or one for the second time: {line}")
            self.lines[name[0]] = line
            self.libraries[name[0]] = line.partition(":")[2].split()

    def below(self, name: str) -> list[str]:
        """The crates that a crate stands on, and itself, each behind those that it uses."""
        if name not in self.lines:
            raise Fault(f"crates.txt has no line for {name}")
        found = []
        for library in self.libraries[name]:
            if library in self.lines:
                found += [it for it in self.below(library) if it not in found]
        return [*found, name]

    def is_static(self, name: str) -> bool:
        """Whether the crate is a static library, as in a line `NAME staticlib: LIBRARY ..`."""
        return self.lines[name].partition(":")[0].split()[1:] == ["staticlib"]

    def above(self, names: Iterable[str]) -> list[str]:
        """The crates that stand on one of these, and these, lowest first."""
        return sorted((it for it in self.lines if {*self.below(it)} & {*names}), key=lambda it: len(self.below(it)))


def read_bytes(file: str) -> bytes:
    try:
        with open(file, "rb") as it:
            return it.read()
    except OSError as error:
        raise Fault(f"{file} can't be read: {error.strerror}") from error


def read_text(file: str) -> str:
    try:
        return read_bytes(file).decode()
    except UnicodeDecodeError as error:
        raise Fault(f"{file} isn't UTF-8") from error


def listing(top: str = TOP) -> Listing:
    return Listing(read_text(f"{top}/crates.txt"))
