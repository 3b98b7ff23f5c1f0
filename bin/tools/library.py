"""The C library: a shared and a static library and their header, as built here in out/library/ or as released in
release/.

Both libraries hold the same compiled code: that of the crate, for any x86-64, and the few lines of C by which it takes
memory. They are made by the kit's own linker, so they are the same byte for byte wherever they are made, and need no
kit to be used. Why so: docs/decisions/tests_and_releases.md#building."""
from __future__ import annotations

import hashlib
import os
import subprocess
import sys

from tools import program, sources
from tools.prover import Prover
from tools.repository import TOP, Fault, read_bytes, read_text

# The shared library's name, which changes when a program that was linked with an older one can't run with this one.
SHARED = "libbullmyrtle.so.1"
STATIC, HEADER = "libbullmyrtle.a", "bullmyrtle.h"
FILES = [SHARED, STATIC, HEADER]
BUILT, RELEASED = f"{TOP}/out/library", f"{TOP}/release"
LOG = f"{TOP}/out/library.log"
SUMS, STAMP = "library.sha256", "library.stamp"


def say(text: str) -> None:
    print(f"bin/build-library: {text}", file=sys.stderr, flush=True)


def shared(linker: str, listed: str, static_library: str, made: str) -> list[str]:
    """The words that make the shared library of the static one: of what it has only the calls that are listed can be
    seen. It names no C library: what loads it has one already, glibc's or musl's, and its six functions are the same in
    both. (Linked with libc.so.6 it would ask for versions of symbols that musl hasn't.)"""
    words = [linker, "-shared", "-soname", SHARED, f"--version-script={listed}", *sources.LINKED[sources.LIBRARY]]
    return [*words, "--whole-archive", static_library, "--no-whole-archive", "-o", made]


def static(prover: Prover, made: str) -> str:
    """What the archiver is told, to make the static library."""
    lines = [f"CREATE {made}", f"ADDLIB {prover.made}.a", f"ADDLIB {prover.kit}/c/liblibc_c.a", "SAVE", "END"]
    return "".join(f"{it}\n" for it in lines)


def run(words: list[str], told: str = "") -> None:
    ended = subprocess.run(words, input=told, capture_output=True, text=True, check=False)
    if ended.returncode:
        raise Fault(f"the library can't be linked:\n{ended.stdout}{ended.stderr}")


def link(prover: Prover) -> str:
    """Makes the three files of what was built of the crate, and gives the folder where they lie."""
    folder = f"{prover.room}/made"
    os.makedirs(folder)
    run([f"{prover.kit}/toolchain/bin/llvm-ar", "-M"], static(prover, f"{folder}/{STATIC}"))
    linker, listed = f"{prover.kit}/toolchain/bin/ld.lld", f"{prover.room}/include/bullmyrtle.map"
    run(shared(linker, listed, f"{folder}/{STATIC}", f"{folder}/{SHARED}"))
    program.write(f"{folder}/{HEADER}", read_bytes(f"{prover.room}/include/{HEADER}"))
    return folder


def sums_of(folder: str) -> str:
    """(as sha256sum writes it, so that `sha256sum -c` reads it)"""
    return "".join(f"{hashlib.sha256(read_bytes(f'{folder}/{it}')).hexdigest()}  {it}\n" for it in FILES)


def write(folder: str, made: str, stamp: list[str]) -> None:
    """Writes the files of a folder, their sums and their stamp into another, the stamp last."""
    if os.path.exists(f"{folder}/{STAMP}"):
        os.remove(f"{folder}/{STAMP}")
    for it in FILES:
        program.write(f"{folder}/{it}", read_bytes(f"{made}/{it}"), 0o755 if it == SHARED else 0o644)
    program.write(f"{folder}/{SUMS}", sums_of(folder).encode())
    program.write(f"{folder}/{STAMP}", program.stamp_text(stamp))


def keep(made: str, stamp: list[str]) -> None:
    write(BUILT, made, stamp)


def is_whole(folder: str, stamp: list[str]) -> bool:
    """Whether a folder has the library of the sources with this stamp, as its sums have it."""
    has_all = all(os.path.isfile(f"{folder}/{it}") for it in (*FILES, SUMS))
    return (
        has_all and sources.is_stamped(f"{folder}/{STAMP}", stamp) and read_text(f"{folder}/{SUMS}") == sums_of(folder)
    )


def compared() -> tuple[bool | None, str]:
    """Compares the files in out/library/ with the released ones: whether they are the same, or None where nothing can
    be compared, and what to say."""
    lacking = [it for it in (*FILES, SUMS, STAMP) if not os.path.isfile(f"{RELEASED}/{it}")]
    if lacking:
        return None, f"there is no released library to compare with: release/ has no {', '.join(lacking)}"
    (released, released_kit), (built, built_kit) = (
        read_text(f"{it}/{STAMP}").split("\n")[:2] for it in (RELEASED, BUILT)
    )
    if released != built:
        return None, "release/ has the library of other sources, and it isn't compared: bin/release writes it anew"
    if read_text(f"{RELEASED}/{SUMS}") != sums_of(RELEASED):
        return False, "release/ has other sums than those of its files"
    other = [it for it in FILES if read_bytes(f"{RELEASED}/{it}") != read_bytes(f"{BUILT}/{it}")]
    if other and released_kit != built_kit:
        return (
            None,
            f"release/ has a library that was built by another kit, {released_kit}, and differs from what this one makes: bin/release writes it anew",
        )
    if other:
        return False, f"release/ has the stamp of these sources, and DIFFERS from what they give: {', '.join(other)}"
    return True, "the released library is the one that these sources give, byte for byte"
