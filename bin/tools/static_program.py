"""The program as one file that needs nothing of a system but Linux: its proved object, as the kit compiled it, linked
with musl's C library and with what stands in packaging/static. The same objects give the same files, byte for byte.

musl's files are those of Debian 12, named by their sums. docs/decisions/tests_and_releases.md#the-static-program says
why musl, and what is trusted."""
from __future__ import annotations

import hashlib
import os
import tempfile
from typing import NamedTuple, Sequence

from tools import hosted, objects, porting, program, sources
from tools.foreign import Apt, unpack
from tools.repository import TOP, Fault, read_bytes, read_text
from tools.targets import TARGETS

BUILT, SUMS = f"{TOP}/out/static", f"{objects.RELEASED}/static.sha256"
HERE = f"{TOP}/packaging/static"
# (musl's own copies for AArch64 are those that Arm wrote, and need nothing in their place)
SOURCES = {"linux-x64": ["outside", "heap", "copies"], "linux-arm64": ["outside", "heap"]}
# Debian's package, whose files are kept here where they aren't installed.
PACKAGE, VERSION, KEPT = "musl-dev", "1.2.3-1", f"{TOP}/out/musl"
# A thread of the program takes what the system gives by itself. That is 128 KiB by musl, where the file doesn't ask for
# more; by glibc it is the stack of the first thread, mostly 8 MiB, which is also the most that musl takes from a file.
STACK = 8 << 20
LINKED = ["-static", "-pie", "--no-dynamic-linker", "-z", "text", "-z", "relro", "-z", "now", "-z", "noexecstack"]
LINKED += ["-z", f"stack-size={STACK}", "--build-id=sha1", "--gc-sections", "--icf=safe", "--strip-all", "--wrap=main"]
# What begins a program that is loaded anywhere, what stands round it, and the C library.
BEFORE, BEHIND = ["rcrt1.o", "crti.o"], ["libc.a", "crtn.o"]


class Musl(NamedTuple):
    """musl for a processor: Debian's word for that, the folder of its files, and their sums."""

    architecture: str
    folder: str
    sums: dict[str, str]


MUSL = {
    "linux-x64": Musl(
        "amd64",
        "usr/lib/x86_64-linux-musl",
        {
            "libc.a": "4c94916f327574053742665e985aa9c4757beff35feee9c971cfd02b9cfabafe",
            "rcrt1.o": "933596d1248562b0eefdaef2d8b47b5095e1cfbf3654e6cd7ea46febd1976f5d",
            "crti.o": "eca29d393323cc30c1e4e89919f93fe9befd63c8600b72713f4d82a11b935d64",
            "crtn.o": "a7ab0d15fd8a52acc58cd1aaffc81119ab22655439ae1f9643779bfc565eae0e",
        },
    ),
    "linux-arm64": Musl(
        "arm64",
        "usr/lib/aarch64-linux-musl",
        {
            "libc.a": "0489bb6d78fc1b4a7128d38d34a3749837bbda4945cd789176a794f842cf0ab9",
            "rcrt1.o": "450bb2ef8354b9a2bb52457214d8148c47206057f67ad92bf0573d6bd9dff68a",
            "crti.o": "7bf10ebb23b971d09843eeb71e4462f07db9429c408df49faf03a4acde941c41",
            "crtn.o": "6a5542f4b043e3849f06307c7f026e2f61012dd3685d2b93cd12149b49cb4855",
        },
    ),
}
PLATFORMS = [*MUSL]


def sum_of(file: str) -> str:
    return hashlib.sha256(read_bytes(file)).hexdigest()


def is_musl(folder: str, platform: str) -> bool:
    """Whether a folder has musl's files, with their sums."""
    files = {f"{folder}/{name}": summed for name, summed in MUSL[platform].sums.items()}
    return all(os.path.isfile(it) for it in files) and all(sum_of(it) == summed for it, summed in files.items())


def musl(platform: str) -> str:
    """The folder of musl's files: where they are installed, or where apt, with a state of its own, fetched them to."""
    it = MUSL[platform]
    kept = f"{KEPT}/{it.architecture}"
    folders = [f"/{it.folder}", f"{kept}/{it.folder}"]
    if not any(is_musl(folder, platform) for folder in folders):
        named = [f"{PACKAGE}={VERSION}"]
        unpack(Apt(it.architecture, f"{kept}/apt").fetch(named, f"{kept}/packages"), kept)
    found = next((folder for folder in folders if is_musl(folder, platform)), None)
    if found is None:
        raise Fault(f"Debian's {PACKAGE} {VERSION} for {it.architecture} has other sums than {__file__} has of it")
    return found


def compiled(platform: str, room: str) -> list[str]:
    """What the program is linked with beside musl, compiled by the kit's clang without a header of the system."""
    target, made = TARGETS[platform], []
    words = [f"--target={target.triple}", *(it for it in target.words if it.startswith("-march")), "-fPIE"]
    # (told so, the compiler doesn't take memmove's own code for a call of memmove)
    words += [*hosted.COMPILED, "-fno-builtin", "-ftls-model=local-exec", "--no-default-config"]
    for name in SOURCES[platform]:
        made.append(f"{room}/{name}.o")
        porting.called("clang", *words, f"-isystem{hosted.FREESTANDING}", "-c", f"{HERE}/{name}.c", "-o", made[-1])
    return made


def link(platform: str, made: str, room: str, words: Sequence[str]) -> str:
    """Links the program's object, which is one of the words, and whatever else they name, and gives the file."""
    at = musl(platform)
    for it in (os.path.dirname(made), room):
        os.makedirs(it, exist_ok=True)
    files = [*(f"{at}/{it}" for it in BEFORE), *words, *compiled(platform, room), *(f"{at}/{it}" for it in BEHIND)]
    porting.called("ld.lld", *LINKED, *files, "-o", made)
    return made


def file_of(platform: str, folder: str = BUILT) -> str:
    return f"{folder}/{platform}/{sources.PROGRAM}"


def make_all(folder: str = BUILT) -> None:
    """Makes the programs in a folder, of the objects of these sources."""
    at = objects.folder()
    if at is None:
        raise Fault(
            "neither out/objects nor release/ has objects of these sources: bin/build-static --objects makes them"
        )
    with tempfile.TemporaryDirectory(prefix="static-") as room:
        for processor, data in objects.unpacked(at).items():
            program.write(f"{room}/{processor}.o", data)
            make(f"linux-{processor}", f"{room}/{processor}.o", folder, room)


def make(platform: str, object_file: str, folder: str, room: str) -> None:
    """Makes a platform's program in a folder."""
    at = f"{room}/{platform}"
    made = link(platform, f"{at}/made", at, [object_file])
    program.write(file_of(platform, folder), read_bytes(made), 0o755)


def sums(folder: str = BUILT) -> str:
    """(as sha256sum writes them, so that `sha256sum -c` in out/static reads them)"""
    return "".join(f"{sum_of(file_of(it, folder))}  {it}/{sources.PROGRAM}\n" for it in PLATFORMS)


def write_sums() -> None:
    program.write(SUMS, sums().encode())


def compared() -> tuple[bool, str]:
    """Compares the programs in out/static with the sums in release/: whether they have them, and what to say."""
    if not os.path.isfile(SUMS):
        return False, "release/ has no sums of these programs: bin/release writes them"
    if read_text(SUMS) != sums():
        return False, "release/ has other sums of these programs"
    return True, "the programs have the sums in release/"


def is_whole() -> bool:
    """Whether out/static has the programs of these sources, with the sums in release/."""
    has_all = all(os.path.isfile(file_of(it)) for it in PLATFORMS)
    return has_all and objects.is_whole(objects.RELEASED, sources.stamp()) and compared()[0]
