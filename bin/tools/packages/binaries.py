"""Archives to be unpacked anywhere, one for each platform whose files are here: the libraries with what programs in C
and C++ need to be linked with them, and for linux-x64 the program; and the program as one file."""
import os

from tools import porting, ports, static_program
from tools.archives import File, tar_gz
from tools.packages.parts import HEADER, PROGRAM, SHARED, STATIC, file_of, filled, released, version
from tools.repository import read_bytes

# Pages for those who have no checkout.
PAGES = [
    "README.md",
    "CHANGELOG.md",
    "docs/commands.md",
    "docs/methods.md",
    "docs/embedding.md",
    "docs/connection.md",
    "docs/using_a_connection.md",
    "docs/protocol.md",
]
PAGES_OF_THE_PROGRAM = ["CHANGELOG.md", "docs/commands.md", "docs/methods.md", "docs/protocol.md"]


# The shared library of a platform as CMake is told of it: its place, and what else a program is linked by.
SONAME = 'IMPORTED_SONAME "{}"'
SHARED_FILES = {
    "linux": (f"lib/{SHARED}", SONAME.format(SHARED)),
    "darwin": ("lib/libbullmyrtle.1.dylib", SONAME.format("@rpath/libbullmyrtle.1.dylib")),
    "win32": ("bin/bullmyrtle-1.dll", 'IMPORTED_IMPLIB "${_bullmyrtle_top}/lib/bullmyrtle.lib"'),
}
# The name by which a linker looks for the shared library, where that is a link to it.
LINKS = {"linux": "lib/libbullmyrtle.so", "darwin": "lib/libbullmyrtle.dylib"}


def for_linking(top: str, platform: str) -> list[File]:
    """What a program in C or C++ needs beside the libraries."""
    system = platform.partition("-")[0]
    shared, linked = SHARED_FILES[system]
    numbers = dict(zip(("MAJOR", "MINOR"), version().split(".")))
    words = {**numbers, "PLATFORM": platform, "SHARED": shared, "LINKED": linked}
    at = f"{top}/lib/cmake/bullmyrtle"
    files = [
        file_of(f"include/{HEADER}", f"{top}/include/{HEADER}"),
        file_of("include/bullmyrtle.hpp", f"{top}/include/bullmyrtle.hpp"),
        File(f"{top}/lib/pkgconfig/bullmyrtle.pc", filled("archive/bullmyrtle.pc")),
        *(
            File(f"{at}/{it}", filled(f"archive/{it}", words))
            for it in ("bullmyrtle-config.cmake", "bullmyrtle-config-version.cmake")
        ),
    ]
    if system in LINKS:
        files.append(File(f"{top}/{LINKS[system]}", link=os.path.basename(shared), mode=0o777))
    return files


def of_linux_x64() -> dict[str, bytes]:
    top = f"bullmyrtle-{version()}-linux-x86_64"
    files = [
        File(f"{top}/bin/{PROGRAM}", released(PROGRAM), 0o755),
        File(f"{top}/lib/{SHARED}", released(SHARED), 0o755),
        File(f"{top}/lib/{STATIC}", released(STATIC)),
        *for_linking(top, "linux-x64"),
        File(f"{top}/share/man/man1/{PROGRAM}.1", filled(f"{PROGRAM}.1")),
        *(file_of(it, f"{top}/share/doc/{it.removeprefix('docs/')}") for it in PAGES),
    ]
    return {f"{top}.tar.gz": tar_gz(files)}


def of_port(platform: str) -> dict[str, bytes]:
    top, at = f"bullmyrtle-{version()}-{platform}", f"{ports.BUILT}/{platform}"
    shared = SHARED_FILES[platform.partition("-")[0]][0]
    names = [shared, f"lib/{STATIC}", *(["lib/bullmyrtle.lib"] if platform.startswith("win32") else [])]
    files = [
        File(f"{top}/{it}", read_bytes(f"{at}/{os.path.basename(it)}"), 0o755 if it == shared else 0o644)
        for it in names
    ]
    files += [
        *for_linking(top, platform),
        *(file_of(it, f"{top}/share/doc/{it.removeprefix('docs/')}") for it in PAGES),
    ]
    return {f"{top}.tar.gz": tar_gz(files)}


def of_wasm() -> dict[str, bytes]:
    """The module for hosts of WebAssembly, with the header that tells of its calls."""
    top = f"bullmyrtle-{version()}-wasm32"
    files = [
        File(f"{top}/{porting.WASM_FILE}", read_bytes(f"{ports.BUILT}/wasm32/{porting.WASM_FILE}")),
        file_of(f"include/{HEADER}", f"{top}/include/{HEADER}"),
        *(file_of(it, f"{top}/share/doc/{it.removeprefix('docs/')}") for it in PAGES),
    ]
    return {f"{top}.tar.gz": tar_gz(files)}


def of_program(platform: str) -> dict[str, bytes]:
    """The program as one file, with what musl's licence wants to go with it."""
    top = f"{PROGRAM}-{version()}-{platform}"
    files = [
        File(f"{top}/{PROGRAM}", read_bytes(static_program.file_of(platform)), 0o755),
        file_of("packaging/static/musl.copyright", f"{top}/musl.copyright"),
        File(f"{top}/{PROGRAM}.1", filled(f"{PROGRAM}.1")),
        *(file_of(it, f"{top}/doc/{it.removeprefix('docs/')}") for it in PAGES_OF_THE_PROGRAM),
    ]
    return {f"{top}.tar.gz": tar_gz(files)}


def archives() -> dict[str, bytes]:
    """Of linux-x64, of each platform that bin/build-ports has made, and of the programs that bin/build-static has."""
    made = of_linux_x64()
    for it in static_program.PLATFORMS if static_program.is_whole() else []:
        made.update(of_program(it))
    for it in ports.whole():
        made.update(of_wasm() if it == "wasm32" else of_port(it))
    return made
