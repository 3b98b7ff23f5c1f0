"""Debian packages: the program, the shared library, what a program in C needs to be linked with it, and Python's
package. Those for amd64 are of the files in release/, those for arm64 of what bin/build-ports and bin/build-static have
left."""
import hashlib
import tomllib
from email.utils import formatdate
from typing import NamedTuple

from tools import extension, ports, static_program
from tools.archives import DATE, File, ar, packed, tar_gz, tar
from tools.packages.parts import HEADER, PROGRAM, RELEASED, SHARED, STATIC, file_of, filled, released, tracked, version
from tools.repository import TOP, read_bytes

MAINTAINER = "The Bullmyrtle maintainers <maintainers@users.noreply.bullmyrtle.example>"
# The revision of the package: a new one where only the packaging changes.
REVISION = 1


class Architecture(NamedTuple):
    """A processor by Debian's words for it and for its libraries, where the files for it lie, and the program, which
    may be one file that needs no other package."""

    name: str
    triple: str
    folder: str
    program: str
    is_one_file: bool

    @property
    def libraries(self) -> str:
        return f"usr/lib/{self.triple}"

    def built(self, name: str) -> bytes:
        return read_bytes(f"{self.folder}/{name}")


AMD64 = Architecture("amd64", "x86_64-linux-gnu", RELEASED, f"{RELEASED}/{PROGRAM}", False)
ARM64 = Architecture(
    "arm64", "aarch64-linux-gnu", f"{ports.BUILT}/linux-arm64", static_program.file_of("linux-arm64"), True
)


def full_version() -> str:
    return f"{version()}-{REVISION}"


def of_program(it: Architecture) -> dict[str, list[File]]:
    """The files of the program's package; with what musl's licence wants to go with it, where that is linked in."""
    files = [
        File(f"usr/bin/{PROGRAM}", read_bytes(it.program), 0o755),
        File(f"usr/share/man/man1/{PROGRAM}.1.gz", packed(filled(f"{PROGRAM}.1"))),
    ]
    if it.is_one_file:
        files.append(file_of("packaging/static/musl.copyright", "usr/share/doc/rpc-tool/musl.copyright"))
    return {"rpc-tool": files}


def of_library(it: Architecture) -> dict[str, list[File]]:
    """The files of each package that has the library in it, or is for linking with it."""
    at = it.libraries
    return {
        "libbullmyrtle1": [File(f"{at}/{SHARED}", it.built(SHARED))],
        "libbullmyrtle-dev": [
            File(f"usr/include/{HEADER}", released(HEADER)),
            File("usr/include/bullmyrtle.hpp", read_bytes(f"{TOP}/include/bullmyrtle.hpp")),
            File(f"{at}/{STATIC}", it.built(STATIC)),
            File(f"{at}/libbullmyrtle.so", link=SHARED, mode=0o777),
            File(f"{at}/pkgconfig/bullmyrtle.pc", filled("bullmyrtle.pc", {"MULTIARCH": it.triple})),
        ],
        "python3-bullmyrtle": python(it),
    }


def contents() -> dict[Architecture, dict[str, list[File]]]:
    """The files of each package, by processors: of what is there."""
    of_arm64 = {
        **(of_program(ARM64) if static_program.is_whole() else {}),
        **(of_library(ARM64) if "linux-arm64" in ports.whole() else {}),
    }
    return {AMD64: {**of_program(AMD64), **of_library(AMD64)}, ARM64: of_arm64}


def python(architecture: Architecture) -> list[File]:
    """Python's package, which has the extension beside its modules, and its commands."""
    at, code = "usr/lib/python3/dist-packages/bullmyrtle", "bindings/python/bullmyrtle"
    files = [file_of(f"{code}/{it}", f"{at}/{it}") for it in tracked(code)]
    files.append(File(f"{at}/{extension.EXTENSION}", architecture.built(extension.EXTENSION)))
    for name in ("examine", "judge", "mcp"):
        script = f"#!/usr/bin/python3\nimport sys\n\nfrom bullmyrtle.{name}._command import run\n\nsys.exit(run())\n"
        files.append(File(f"usr/bin/bullmyrtle-{name}", script.encode(), 0o755))
    return files


def documents(package: str) -> list[File]:
    at = f"usr/share/doc/{package}"
    return [
        File(f"{at}/copyright", read_bytes(f"{TOP}/packaging/debian/copyright")),
        File(f"{at}/NEWS.md.gz", packed(read_bytes(f"{TOP}/CHANGELOG.md"))),
        File(f"{at}/changelog.Debian.gz", packed(changes())),
    ]


def changes() -> bytes:
    """The package's own change log, which points to that of what is packed."""
    head, tail = f"bullmyrtle ({full_version()}) unstable; urgency=medium", f" -- {MAINTAINER}  {formatdate(DATE)}"
    return f"{head}\n\n  * What changed is in NEWS.md.gz.\n\n{tail}\n".encode()


def needs(package: str, about: dict[str, str], it: Architecture) -> str:
    """The line of what a package depends on; of one that needs no other, what is linked into it."""
    if package == "rpc-tool" and it.is_one_file:
        return f"Static-Built-Using: musl (= {static_program.VERSION})"
    return f"Depends: {about['depends'].replace('${version}', full_version())}"


def control(package: str, about: dict[str, str], files: list[File], architecture: Architecture) -> bytes:
    size = sum((len(it.data) + 1023) // 1024 for it in files)
    lines = [
        f"Package: {package}",
        "Source: bullmyrtle",
        f"Version: {full_version()}",
        f"Architecture: {architecture.name}",
        f"Maintainer: {MAINTAINER}",
        f"Installed-Size: {size}",
        needs(package, about, architecture),
        *(["Multi-Arch: same"] if package.startswith("lib") else []),
        f"Section: {about['section']}",
        "Priority: optional",
        f"Description: {about['summary']}",
        *(f" {it}" for it in about["text"].strip().split("\n")),
    ]
    return "".join(f"{it}\n" for it in lines).encode()


def sums(files: list[File]) -> bytes:
    return "".join(
        f"{hashlib.md5(it.data, usedforsecurity=False).hexdigest()}  {it.name}\n" for it in files if not it.link
    ).encode()


def described(package: str, about: dict[str, str], files: list[File], architecture: Architecture) -> list[File]:
    """The part of a package that says what it is."""
    found = [File("./control", control(package, about, files, architecture)), File("./md5sums", sums(files))]
    if package == "libbullmyrtle1":
        found.append(File("./shlibs", f"libbullmyrtle 1 libbullmyrtle1 (>= {version()})\n".encode()))
        found.append(File("./triggers", b"activate-noawait ldconfig\n"))
    return found


def packed_one(package: str, about: dict[str, str], own: list[File], architecture: Architecture) -> bytes:
    """A package with these files, and with those that each has."""
    files = [*own, *documents(package)]
    data = packed(tar([it._replace(name=f"./{it.name}") for it in files], has_folders=True))
    parts = [
        File("debian-binary", b"2.0\n"),
        File("control.tar.gz", tar_gz(described(package, about, files, architecture))),
    ]
    return ar([*parts, File("data.tar.gz", data)])


def packages() -> dict[str, bytes]:
    """The packages, by their files' names."""
    abouts = tomllib.loads(read_bytes(f"{TOP}/packaging/debian/descriptions.toml").decode())
    return {
        f"{package}_{full_version()}_{it.name}.deb": packed_one(package, abouts[package], own, it)
        for it, packages_of_it in contents().items()
        for package, own in packages_of_it.items()
    }
