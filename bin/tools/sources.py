"""What the program and the C library are built from, and their stamps: the files of the crates that each stands on
without those of their tests, these crates' lines of crates.txt, HANDLES, and of the library what lies in include/ and how it is linked.
docs/decisions/tests_and_releases.md#building says why just these."""
from __future__ import annotations

import hashlib
import os

from tools import kit
from tools.repository import TOP, Fault, listing, read_bytes, read_text

PROGRAM, LIBRARY = "rpc_tool", "bullmyrtle"
# What is built from files beside those of crates.
BESIDE: dict[str, list[str]] = {PROGRAM: [], LIBRARY: ["include/bullmyrtle.h", "include/bullmyrtle.map"]}
# What the linker is told beside the names of files, where it isn't the kit that links. The build id is a sum of what is
# linked, so it is the same wherever the same sources are built.
LINKED: dict[str, list[str]] = {
    PROGRAM: [],
    LIBRARY: [
        *("-z", "relro", "-z", "now", "-z", "noexecstack"),
        *("--build-id=sha1", "--gc-sections", "--icf=safe", "--strip-all"),
    ],
}


def files_below(folder: str) -> list[str]:
    """The sources and proofs at or below a folder."""

    def refuse(error: OSError) -> None:
        raise Fault(f"{error.filename} can't be read: {error.strerror}")

    found = []
    for at, folders, names in os.walk(folder, onerror=refuse):
        folders.sort()
        found += [f"{at}/{name}" for name in sorted(names) if name.endswith((".rt", ".antt"))]
    return found


def files_of(crate: str) -> list[str]:
    """The files that a crate is built from: src/ without its tests, specs/, and proofs/ without those of the tests.
    Tests stand in the module `tests`."""
    if not any(os.path.isfile(f"{crate}/src/{it}.rt") for it in ("lib", "main")):
        raise Fault(f"{crate} has neither src/lib.rt nor src/main.rt")
    tests = tuple(f"{crate}/{it}" for it in ("src/tests.rt", "src/tests/", "proofs/tests/"))
    parts = [f"{crate}/{it}" for it in ("src", "specs", "proofs") if os.path.isdir(f"{crate}/{it}")]
    return [it for part in parts for it in files_below(part) if not it.startswith(tests)]


def sum_of(top: str = TOP, of: str = PROGRAM) -> str:
    """One number for all that the program or the library is built from."""
    listed = listing(top)
    told = hashlib.sha256(read_bytes(f"{top}/HANDLES"))
    for name in listed.below(of):
        told.update(f"\n{listed.lines[name]}\n".encode())
        for file in files_of(f"{top}/crates/{name}"):
            told.update(line_of(file, top))
    for file in BESIDE[of]:
        told.update(line_of(f"{top}/{file}", top))
    for word in LINKED[of]:
        told.update(f"{word}\n".encode())
    return told.hexdigest()


def line_of(file: str, top: str) -> bytes:
    return f"{os.path.relpath(file, top)} {hashlib.sha256(read_bytes(file)).hexdigest()}\n".encode()


def stamp(top: str = TOP, of: str = PROGRAM) -> list[str]:
    """The lines of the stamp: the sum of the sources and, where the command rt is there, the kit's version."""
    version = kit.version()
    return [sum_of(top, of), *([version] if version else [])]


def is_stamped(file: str, wanted: list[str]) -> bool:
    """Whether a file holds this stamp. Of the kit's version only the logic is compared, and only where the stamp has
    one: by one logic the same sources are proved, whatever the kit around it is called."""
    if not os.path.isfile(file):
        return False
    held = read_text(file).split("\n")
    return held[:1] == wanted[:1] and [*map(kit.logic, wanted[1:])] in ([], [*map(kit.logic, held[1:2])])
