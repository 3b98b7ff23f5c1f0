"""What the program and the C library hold beside this repository's code: the crates of the Rattle kit that they are linked with. They are
listed in release/components.json, so that a bill of materials can be made where there is no kit."""
import hashlib
import json
import os
import re
from typing import Any, Optional

from tools import kit, sources
from tools.repository import TOP, Fault, listing, read_bytes, read_text

LISTED = f"{TOP}/release/components.json"


def used_by(name: str, folder: str) -> list[str]:
    """The kit's crates that a crate of the kit uses, as its built library names them."""
    lines = read_text(f"{folder}/rlibs/{name}.rlib/format").split("\n")
    return [it.split()[1] for it in lines if it.startswith("dep ")]


def linked(of: str, folder: str) -> list[str]:
    """The kit's crates that the program or the library stands on, itself or by way of others, by name."""
    listed = listing()
    waiting = ["std", *(it for name in listed.below(of) for it in listed.libraries[name] if it not in listed.lines)]
    found: set[str] = set()
    while waiting:
        name = waiting.pop()
        if name not in found:
            found.add(name)
            waiting += used_by(name, folder)
    return sorted(found)


def version_of(name: str, folder: str) -> Optional[str]:
    """The version of the Rust crate that the kit's crate follows, where its page tells one."""
    page = f"{folder}/rattle/{name}/README.md"
    told = re.search(r"Rust crate `([\w-]+)` (\d[\w.-]*\d)", read_text(page)) if os.path.isfile(page) else None
    return f"{told[1]} {told[2]}" if told else None


def sum_of(name: str, folder: str) -> str:
    """One sum for all of a crate's sources."""
    top = f"{folder}/rattle/{name}"
    told = hashlib.sha256()
    for file in sources.files_below(top):
        told.update(f"{os.path.relpath(file, top)} {hashlib.sha256(read_bytes(file)).hexdigest()}\n".encode())
    return told.hexdigest()


def found() -> dict[str, Any]:
    """What is linked today, as the file lists it."""
    folder = kit.folder()
    crates = {of: linked(of, folder) for of in (sources.PROGRAM, sources.LIBRARY)}
    names = sorted({*crates[sources.PROGRAM], *crates[sources.LIBRARY]})
    about = {it: {"follows": version_of(it, folder), "sha256": sum_of(it, folder)} for it in names}
    return {"kit": kit.version(), "crates": about, "linked": crates}


def write() -> None:
    with open(LISTED, "w", encoding="utf-8") as it:
        it.write(json.dumps(found(), indent=2, sort_keys=True) + "\n")


def listed() -> dict[str, Any]:
    if not os.path.isfile(LISTED):
        raise Fault("release/components.json isn't there: bin/release writes it")
    made: dict[str, Any] = json.loads(read_text(LISTED))
    return made
