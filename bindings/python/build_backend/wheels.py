"""Builds the package's wheel: its modules and the extension, by nothing that isn't in the standard library.

The extension is the one that the variable BULLMYRTLE_EXTENSION names, that of the package's folder, or that in release/
of the repository. One that the variable names and that isn't the released one is told on standard error, and the
version has a label with the first digits of its sum, as in 0.1.0+extension.1a2b3c4d. The same files give the same
wheel, byte for byte.

A source distribution has no extension, since the library in it is made by a kit of its own. It has the sum of the
released one, so that a wheel of these sources and that extension is the one that the repository gives.
"""
import base64
import gzip
import hashlib
import io
import os
import re
import sys
import sysconfig
import tarfile
import zipfile

HERE = os.path.dirname(os.path.dirname(os.path.abspath(__file__)))
NAME, EXTENSION, FOR_WINDOWS = "bullmyrtle", "_bullmyrtle.abi3.so", "_bullmyrtle.pyd"
# Linux's extension names no C library, so one wheel is for both of Linux's.
LINUX = ("manylinux2014", "musllinux_1_1")
# What a wheel is for, by the format of the extension's file and the processor that it is for.
ELF, MACH, PE = b"\x7fELF", b"\xcf\xfa\xed\xfe", b"PE\0\0"
PLATFORMS = {
    (ELF, b"\x3e\x00"): [f"{it}_x86_64" for it in LINUX],
    (ELF, b"\xb7\x00"): [f"{it}_aarch64" for it in LINUX],
    (MACH, b"\x07\x00\x00\x01"): ["macosx_11_0_x86_64"],
    (MACH, b"\x0c\x00\x00\x01"): ["macosx_11_0_arm64"],
    (PE, b"\x64\x86"): ["win_amd64"],
}
# By what such a platform's name begins with.
SYSTEMS = {"macosx": "MacOS", "manylinux": "POSIX :: Linux", "win": "Microsoft :: Windows"}
VARIABLE = "BULLMYRTLE_EXTENSION"
# Each CPython from this version on has the limited API by which the extension is made.
PYTHON = "cp38-abi3"
# What a source distribution has in place of the extension, as sha256sum writes it.
SUM = f"{EXTENSION}.sha256"
# The commands that are installed, and the function that each runs.
COMMANDS = {
    "bullmyrtle-examine": "bullmyrtle.examine._command:run",
    "bullmyrtle-judge": "bullmyrtle.judge._command:run",
    "bullmyrtle-mcp": "bullmyrtle.mcp._command:run",
}
STAMP = (1980, 1, 1, 0, 0, 0)
SUMMARY = "A JSON-RPC 2.0 peer whose protocol is proved: language servers, tool servers and their clients"


def read(*place):
    with open(os.path.join(HERE, *place), "rb") as file:
        return file.read()


# Where the extension may lie: where it was put beside the modules, and where the repository has the released one.
PLACES = [
    os.path.join(HERE, NAME, FOR_WINDOWS if sys.platform == "win32" else EXTENSION),
    os.path.normpath(os.path.join(HERE, "..", "..", "release", EXTENSION)),
]


def bytes_of(place):
    with open(place, "rb") as file:
        return file.read()


def extension():
    named = os.environ.get(VARIABLE)
    places = [named] if named else PLACES
    for place in places:
        if os.path.isfile(place):
            return bytes_of(place)
    raise SystemExit(
        f"{EXTENSION} isn't there: neither {' nor '.join(places)}; {VARIABLE} may name it, "
        "as it has to for a source distribution, and for a pip before 21.3, which copies this folder elsewhere"
    )


def kind(data):
    """The format of an extension's file, and the processor that it is for, as the file has them."""
    if data[:4] == MACH:
        return MACH, data[4:8]
    if data[:2] == b"MZ":
        at = int.from_bytes(data[60:64], "little")
        return data[at : at + 4], data[at + 4 : at + 6]
    return data[:4], data[18:20]


def of_this_machine():
    """What a wheel is for that is used where it is made."""
    system, _, rest = re.sub("[-.]", "_", sysconfig.get_platform()).partition("_")
    return [f"{it}_{rest}" for it in (LINUX if system == "linux" else [system])]


def platforms(data):
    """What a wheel with this extension is for. (One that is none is taken as this machine's: it goes into no release.)"""
    return PLATFORMS.get(kind(data)) or of_this_machine()


def file_of(data):
    """What an extension is called in the package."""
    return FOR_WINDOWS if kind(data)[0] == PE else EXTENSION


def sum_line(data):
    return f"{hashlib.sha256(data).hexdigest()}  {file_of(data)}\n".encode()


def released_sums():
    """The lines with the sums of the released extensions, that of linux-x64 first; nothing where neither these nor their
    sums lie here."""
    if not os.path.isfile(PLACES[1]):
        kept = os.path.join(HERE, SUM)
        return bytes_of(kept) if os.path.isfile(kept) else b""
    of_others = os.path.join(os.path.dirname(PLACES[1]), "ports.sha256")
    lines = bytes_of(of_others).splitlines() if os.path.isfile(of_others) else []
    of_ports = [(it[:66], it.rpartition(b"/")[2].decode()) for it in lines]
    others = [line + name.encode() + b"\n" for line, name in of_ports if name in (EXTENSION, FOR_WINDOWS)]
    return sum_line(bytes_of(PLACES[1])) + b"".join(others)


def label(data):
    """What the version has behind it, where this extension isn't the released one."""
    return (
        ""
        if sum_line(data) in released_sums().splitlines(keepends=True)
        else f"+extension.{hashlib.sha256(data).hexdigest()[:8]}"
    )


def version():
    return re.search(rb'^__version__ = "([^"]+)"$', read(NAME, "__init__.py"), re.M)[1].decode()


def version_with(data):
    """The version of what has this extension in it, told where that isn't the released one."""
    whole = version() + label(data)
    if whole != version():
        named = os.environ.get(VARIABLE, "of these sources")
        print(f"{NAME} {whole}: with the extension {named}, which isn't the released one", file=sys.stderr)
    return whole


def modules():
    """The package's files, by their names in the wheel."""
    names = []
    for room, _, files in os.walk(os.path.join(HERE, NAME)):
        names += [os.path.join(room, it) for it in files if it.endswith((".py", ".pyi", ".typed", ".txt"))]
    return {os.path.relpath(it, HERE): read(it) for it in sorted(names)}


def metadata(of, tags):
    systems = [name for begins, name in SYSTEMS.items() if any(it.startswith(begins) for it in tags)]
    lines = ["Metadata-Version: 2.1", f"Name: {NAME}", f"Version: {of}", f"Summary: {SUMMARY}"]
    lines += [
        "Requires-Python: >=3.8",
        *(f"Classifier: Operating System :: {it}" for it in systems),
        "Classifier: Typing :: Typed",
    ]
    lines += ["Description-Content-Type: text/markdown", "", read("README.md").decode()]
    return "\n".join(lines).encode()


def folder(of):
    return f"{NAME}-{of}.dist-info"


def described(tags, of):
    """The files of a version's wheel that describe it, but for its record."""
    lines = ["Wheel-Version: 1.0", f"Generator: {NAME}", "Root-Is-Purelib: false"]
    lines += [f"Tag: {PYTHON}-{it}" for it in tags]
    commands = "".join(f"{name} = {place}\n" for name, place in COMMANDS.items())
    return {
        f"{folder(of)}/METADATA": metadata(of, tags),
        f"{folder(of)}/WHEEL": "".join(f"{it}\n" for it in lines).encode(),
        f"{folder(of)}/entry_points.txt": f"[console_scripts]\n{commands}".encode(),
    }


def write(room, files, tags, of):
    """Writes a version's wheel for these platforms, and gives its name."""
    files = {**files, **described(tags, of)}
    record = f"{folder(of)}/RECORD"
    lines = []
    for name, data in files.items():
        digest = base64.urlsafe_b64encode(hashlib.sha256(data).digest()).rstrip(b"=").decode()
        lines.append(f"{name},sha256={digest},{len(data)}\n")
    files = {**files, record: "".join([*lines, f"{record},,\n"]).encode()}
    wheel = f"{NAME}-{of}-{PYTHON}-{'.'.join(tags)}.whl"
    with zipfile.ZipFile(os.path.join(room, wheel), "w", zipfile.ZIP_DEFLATED) as archive:
        for name, data in files.items():
            about = zipfile.ZipInfo(name, STAMP)
            about.compress_type = zipfile.ZIP_DEFLATED
            about.external_attr = (0o755 if name.endswith((EXTENSION, FOR_WINDOWS)) else 0o644) << 16
            archive.writestr(about, data)
    return wheel


# What pip calls (PEP 517 and PEP 660).


def build_wheel(wheel_directory, config_settings=None, metadata_directory=None):
    data = extension()
    return write(
        wheel_directory, {**modules(), f"{NAME}/{file_of(data)}": data}, platforms(data), version_with(data)
    )


def build_editable(wheel_directory, config_settings=None, metadata_directory=None):
    return write(wheel_directory, {f"{NAME}.pth": (HERE + "\n").encode()}, platforms(b""), version())


def build_sdist(sdist_directory, config_settings=None):
    top = f"{NAME}-{version()}"
    files = {**modules(), SUM: released_sums(), "PKG-INFO": metadata(version(), LINUX)}
    for name in ("pyproject.toml", "README.md", "build_backend/wheels.py"):
        files[name] = read(name)
    packed = io.BytesIO()
    with tarfile.open(fileobj=packed, mode="w", format=tarfile.PAX_FORMAT) as archive:
        for name, it in files.items():
            about = tarfile.TarInfo(f"{top}/{name}")
            about.size, about.mode = len(it), 0o644
            archive.addfile(about, io.BytesIO(it))
    with open(os.path.join(sdist_directory, f"{top}.tar.gz"), "wb") as file:
        file.write(gzip.compress(packed.getvalue(), mtime=0))
    return f"{top}.tar.gz"
