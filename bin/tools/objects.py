"""The program's objects: what the kit compiled of the proved program, one for each kind of processor that its check
knows. bin/build-static links them with musl.

The gate leaves that for x86-64 beside the program. The verdict names the processor, so for AArch64 the last crate is
checked once more over the same libraries, as it is for the library's modules. The archive has both, so that a clone
makes the programs without a proof."""
from __future__ import annotations

import os

from tools import building, library, modules, program, sources
from tools.archives import File
from tools.prover import TRIPLES, Prover
from tools.repository import TOP, read_bytes

PACKED, STAMP = "objects.tar.xz", "objects.stamp"
BUILT, RELEASED = f"{TOP}/out/objects", library.RELEASED
LOG = f"{TOP}/out/objects.log"
PROCESSORS = [*TRIPLES]
# What the gate compiled, beside the program that it linked of it.
OF_THE_GATE = f"{TOP}/crates/{sources.PROGRAM}/out/{sources.PROGRAM}.o"


def name(processor: str) -> str:
    return f"{sources.PROGRAM}-{processor}.o"


NAMES = [*map(name, PROCESSORS)]


def link(prover: Prover) -> str:
    """Links the program, proves its crate for the other processors too, and packs all objects. Gives the folder where
    they lie."""
    building.link_program(prover)
    for it in PROCESSORS:
        if not os.path.isfile(prover.object_file(it)):
            modules.check_for(prover, it)
    folder = f"{prover.room}/objects"
    files = [File(name(it), read_bytes(prover.object_file(it))) for it in PROCESSORS]
    program.write(f"{folder}/{PACKED}", modules.packed(files))
    return folder


def keep(made: str, stamp: list[str]) -> None:
    write(BUILT, made, stamp)


def write(folder: str, made: str, stamp: list[str]) -> None:
    """Writes the objects of a folder and their stamp into another, the stamp last."""
    if os.path.exists(f"{folder}/{STAMP}"):
        os.remove(f"{folder}/{STAMP}")
    program.write(f"{folder}/{PACKED}", read_bytes(f"{made}/{PACKED}"))
    program.write(f"{folder}/{STAMP}", program.stamp_text(stamp))


def is_whole(folder: str, stamp: list[str]) -> bool:
    """Whether a folder has the objects of the sources with this stamp."""
    return os.path.isfile(f"{folder}/{PACKED}") and sources.is_stamped(f"{folder}/{STAMP}", stamp)


def folder() -> str | None:
    """The folder that has the objects of these sources, as they were built here or as they were released."""
    stamp = sources.stamp()
    return next((it for it in (BUILT, RELEASED) if is_whole(it, stamp)), None)


def unpacked(at: str) -> dict[str, bytes]:
    """What the archive in a folder holds, by processors."""
    held = modules.held(f"{at}/{PACKED}", NAMES)
    return {it: held[name(it)] for it in PROCESSORS}


def compared() -> tuple[bool | None, str]:
    """Compares the released object for x86-64 with the one that the gate compiled: whether they are the same, or None
    where nothing can be compared, and what to say."""
    if not is_whole(RELEASED, sources.stamp()):
        return None, "release/ has no objects of these sources, and they aren't compared: bin/release writes them"
    if not os.path.isfile(OF_THE_GATE):
        return None, f"the kit left no {os.path.relpath(OF_THE_GATE, TOP)}, and the released object isn't compared"
    if unpacked(RELEASED)["x64"] == read_bytes(OF_THE_GATE):
        return True, "the released object of the program is the one that the gate compiled, byte for byte"
    return False, "release/ has objects with the stamp of these sources, and that for x86-64 DIFFERS from the gate's"
