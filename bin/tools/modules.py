"""The library's modules: what the prover hands to its compiler, one for each kind of processor that its check knows. Of these
bin/build-ports makes the library of each platform.

The verdict names the processor, so AArch64 has a module of its own: the last crate is checked once more for it, over the same libraries.
With each goes the sum of the object that the kit made of it. Compiling the module by the kit's words has to give that object; the one
for x86-64 lies in the released library."""
from __future__ import annotations

import hashlib
import lzma
import os
import subprocess
import tarfile
from io import BytesIO
from typing import Any

from tools import library, program, sources
from tools.archives import File, tar
from tools.prover import TRIPLES, Prover
from tools.repository import Fault, read_bytes

PACKED, STAMP = "modules.tar.xz", "modules.stamp"
# What is packed: the modules, and the sums of their objects.
OBJECTS = "objects.sha256"
PROCESSORS = [*TRIPLES]


def module(processor: str) -> str:
    return f"bullmyrtle-{processor}.bc"


NAMES = [*map(module, PROCESSORS), OBJECTS]


def object_of(archive: str, tools: str) -> bytes:
    """The library's own object in an archive."""
    words = [f"{tools}/llvm-ar", "p", archive, "bullmyrtle.o"]
    ended = subprocess.run(words, stdin=subprocess.DEVNULL, capture_output=True, check=False)
    if ended.returncode:
        raise Fault(f"{archive} has no bullmyrtle.o: {ended.stderr.decode(errors='replace')}")
    return ended.stdout


def sum_line(name: str, data: bytes) -> str:
    return f"{hashlib.sha256(data).hexdigest()}  bullmyrtle-{name}.o\n"


def link(prover: Prover) -> str:
    """Makes the library's files of what was built of the crate, checks it for the other processors too, and packs all modules. Gives the
    folder where these lie."""
    folder, tools = library.link(prover), f"{prover.kit}/toolchain/bin"
    for it in PROCESSORS:
        if not os.path.isfile(prover.module(it)):
            check_for(prover, it)
    sums = "".join(sum_line(it, object_of(prover.archive(it), tools)) for it in PROCESSORS)
    files = [File(module(it), read_bytes(prover.module(it))) for it in PROCESSORS]
    program.write(f"{folder}/{PACKED}", packed([*files, File(OBJECTS, sums.encode())]))
    return folder


def check_for(prover: Prover, processor: str) -> None:
    """Proves the crate for another processor, and keeps what is built of it."""
    words = prover.build_for(processor, os.cpu_count() or 1)
    how: dict[str, Any] = {"stdin": subprocess.DEVNULL, "stdout": subprocess.PIPE, "stderr": subprocess.STDOUT}
    ended = subprocess.run(words, cwd=prover.folder(prover.of), text=True, check=False, **how)
    if ended.returncode or f" target={TRIPLES[processor]} " not in ended.stdout:
        raise Fault(f"{prover.of} isn't proved for {processor}, or doesn't build:\n{ended.stdout[-3000:]}")


def packed(files: list[File]) -> bytes:
    # (the checksum is that of the oldest readers; more than this preset finds nothing more)
    return lzma.compress(tar(files), check=lzma.CHECK_CRC32, preset=9 | lzma.PRESET_EXTREME)


def unpacked(folder: str) -> dict[str, bytes]:
    """What the archive in a folder holds, by its names."""
    return held(f"{folder}/{PACKED}", NAMES)


def held(file: str, names: list[str]) -> dict[str, bytes]:
    """What an archive holds, which has to be these files."""
    try:
        with tarfile.open(fileobj=BytesIO(lzma.decompress(read_bytes(file)))) as archive:
            found = {it.name: archive.extractfile(it).read() for it in archive}  # type: ignore[union-attr]
    except (lzma.LZMAError, tarfile.TarError) as error:
        raise Fault(f"{file} is damaged: {error}") from error
    if [*found] != names:
        raise Fault(f"{file} holds other files: {', '.join(found)}")
    return found


def keep(made: str, stamp: list[str]) -> None:
    """Keeps the library and its modules, as library.keep does the library."""
    library.keep(made, stamp)
    write(library.BUILT, made, stamp)


def write(folder: str, made: str, stamp: list[str]) -> None:
    """Writes the modules of a folder and their stamp into another, the stamp last."""
    if os.path.exists(f"{folder}/{STAMP}"):
        os.remove(f"{folder}/{STAMP}")
    program.write(f"{folder}/{PACKED}", read_bytes(f"{made}/{PACKED}"))
    program.write(f"{folder}/{STAMP}", program.stamp_text(stamp))


def is_whole(folder: str, stamp: list[str]) -> bool:
    """Whether a folder has the modules of the sources with this stamp."""
    return os.path.isfile(f"{folder}/{PACKED}") and sources.is_stamped(f"{folder}/{STAMP}", stamp)


def compared() -> tuple[bool | None, str]:
    """Compares the modules in out/library/ with the released ones: whether they are the same, or None where they can't be compared, and
    what to say. What is packed is compared, since another version of liblzma may pack otherwise."""
    stamp = sources.stamp(of=sources.LIBRARY)
    if not is_whole(library.RELEASED, stamp):
        return None, "release/ has no modules of these sources, and they aren't compared: bin/release writes them"
    if unpacked(library.RELEASED) == unpacked(library.BUILT):
        return True, "the released modules are those that these sources give, byte for byte"
    return False, "release/ has modules with the stamp of these sources, and they DIFFER from what they give"
