"""The files of all platforms in out/ports/, and their sums, which release/ has in place of the files: they can be made again in a minute, of
the modules that it has."""
from __future__ import annotations

import hashlib
import os
from concurrent.futures import ThreadPoolExecutor

from tools import kit, library, modules, porting, program, sources
from tools.repository import TOP, Fault, read_bytes, read_text
from tools.targets import RELEASED, TARGETS

BUILT = f"{TOP}/out/ports"
SUMS = f"{library.RELEASED}/ports.sha256"
# (of the platform that release/ has files of, none are made)
NAMES = [it for it in TARGETS if it != RELEASED]


def modules_folder() -> str:
    """Where the modules of these sources lie: as they were built here, or as they were released."""
    stamp = sources.stamp(of=sources.LIBRARY)
    found = next((it for it in (library.BUILT, library.RELEASED) if modules.is_whole(it, stamp)), None)
    if found is None:
        raise Fault(
            "neither out/library nor release/ has modules of these sources: bin/build-library --modules makes them"
        )
    return found


def unpacked(room: str) -> dict[str, str]:
    """Writes the modules to a folder, and gives their files."""
    held = modules.unpacked(modules_folder())
    for name, data in held.items():
        program.write(f"{room}/{name}", data)
    return {it: f"{room}/{modules.module(it)}" for it in modules.PROCESSORS}


def check_object(processor: str, made: bytes, kits: str) -> None:
    """Sees that a module, compiled for Linux by the kit's words, gives the kit's own object: so it is the module that was proved."""
    if modules.sum_line(processor, made) not in kits.splitlines(keepends=True):
        raise Fault(
            f"the module for {processor}, compiled here, isn't the kit's object: another kit, or another module"
        )
    tools = f"{kit.folder()}/toolchain/bin"
    if processor == "x64" and made != modules.object_of(f"{library.RELEASED}/{library.STATIC}", tools):
        raise Fault("the module for x64, compiled here, isn't the object in the released library: of other sources")


def make_one(name: str, file: str, kits: str, room: str) -> None:
    """Makes a platform's files of the file of its module; of the platform that is released just the object, to be compared."""
    port = porting.port(name)(name, file, f"{room}/{name}", f"{room}/made/{name}")
    own = port.of_module(file) if name == RELEASED else port.make()
    if port.target.is_linux:
        check_object(port.target.module, read_bytes(own), kits)


def make(names: list[str], room: str) -> str:
    """Makes the files of these platforms, and gives the folder that has one for each. Each module is compiled for Linux in any case."""
    files = unpacked(f"{room}/modules")
    kits = read_text(f"{room}/modules/{modules.OBJECTS}")
    wanted = [*dict.fromkeys([*(f"linux-{it}" for it in files), *names])]
    with ThreadPoolExecutor(max(1, len(os.sched_getaffinity(0)))) as pool:
        for it in [pool.submit(make_one, it, files[TARGETS[it].module], kits, room) for it in wanted]:
            it.result()
    return f"{room}/made"


def whole() -> list[str]:
    """The platforms whose files lie in out/ports/ and have the sums in release/."""
    return [it for it in NAMES if os.path.isdir(f"{BUILT}/{it}") and compared([it])[0]]


def sums_of(names: list[str]) -> list[str]:
    """(as sha256sum writes them, so that `sha256sum -c` in out/ports reads them)"""
    files = [f"{name}/{it}" for name in names for it in sorted(os.listdir(f"{BUILT}/{name}"))]
    return [f"{hashlib.sha256(read_bytes(f'{BUILT}/{it}')).hexdigest()}  {it}" for it in files]


def write_sums() -> None:
    program.write(SUMS, "".join(f"{it}\n" for it in sums_of(NAMES)).encode())


def compared(names: list[str]) -> tuple[bool, str]:
    """Compares the files in out/ports/ with the sums in release/: whether they have them, and what to say."""
    if not os.path.isfile(SUMS):
        return False, "release/ has no sums of these files: bin/release writes them"
    held = [it for it in read_text(SUMS).splitlines() if it[66:].partition("/")[0] in names]
    other = sorted({it[66:] for it in {*held} ^ {*sums_of(names)}})
    if other:
        return False, f"release/ has other sums, or none, of: {', '.join(other)}"
    return True, "the files have the sums in release/"
