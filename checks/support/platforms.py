"""The platforms that checks/ports.py tries the library on: by which compiler a program in C is built for one, with which
of the library's files, and by what it is run here."""
import os
import shutil
import sys
from dataclasses import dataclass, field
from typing import Callable

from support import c_interface
from support.c_programs import C99, SUPPORT

from tools import porting

# A program by its file, as it is run here.
Runner = Callable[[str], list[str]]


@dataclass(frozen=True)
class Platform:
    """A platform; `ways` has what a program is linked with, by how; `env` what it is run with."""

    name: str
    compiler: list[str]
    ways: dict[str, list[str]]
    run: Runner
    # The tools that it takes, and Debian's packages that bring them.
    tools: dict[str, str] = field(default_factory=dict)
    # The addon as the program finds it, and what a program that has the calls of Node-API is linked with.
    addon: str = ""
    exports: tuple[str, ...] = ("-rdynamic",)
    env: dict[str, str] = field(default_factory=dict)
    # The file of the shared library.
    shared: str = ""
    # What is run before anything else.
    first: tuple[str, ...] = ()

    def lacking(self) -> list[str]:
        return sorted({package for tool, package in self.tools.items() if shutil.which(tool) is None})


def options() -> list[str]:
    """How a program is compiled beside the name of the compiler."""
    return [it for it in C99[1:] if not it.startswith("-D")] + ["-D_GNU_SOURCE"]


def glibc(library: str) -> Platform:
    """That on which all other checks run."""
    return Platform("linux-x64", ["cc"], {"static": [f"{library}/libbullmyrtle.a"]}, lambda program: [program])


# musl

MUSL_LOADER = "/lib/ld-musl-x86_64.so.1"


def bare_root(room: str, library: str, addon: str) -> str:
    """A root with musl, the shared library and the addon in it, and nothing else."""
    root = f"{room}/root"
    os.makedirs(f"{root}/lib")
    for file in (MUSL_LOADER, f"{library}/libbullmyrtle.so.1", addon):
        shutil.copy(os.path.realpath(file), f"{root}/lib/{os.path.basename(file)}")
    return root


def musl(room: str, library: str, addon: str) -> Platform:
    """Alpine's C library, by the files of Linux: a program runs in a root that has no other. Who isn't root runs it
    where it lies."""
    is_root = os.geteuid() == 0
    root = bare_root(room, library, addon) if is_root and os.path.exists(MUSL_LOADER) else ""

    def run(program: str) -> list[str]:
        if not root:
            return [program]
        shutil.copy(program, root)
        return ["chroot", root, f"/{os.path.basename(program)}"]

    at = "/lib" if root else library
    ways: dict[str, list[str]] = {
        "static": [f"{library}/libbullmyrtle.a", "-static"],
        "shared": [f"{library}/libbullmyrtle.so.1", f"-Wl,-rpath,{at}"],
        "addon": [],
    }
    inside = f"/lib/{os.path.basename(addon)}" if root else addon
    return Platform("linux-x64 with musl", ["musl-gcc"], ways, run, {"musl-gcc": "musl-tools"}, inside)


# Those of out/ports


ARM64 = "aarch64-linux-gnu-gcc"
ARM64_TOOLS = {ARM64: "gcc-aarch64-linux-gnu", "qemu-aarch64-static": "qemu-user-static"}


def in_arm64(program: str) -> list[str]:
    return ["qemu-aarch64-static", "-L", "/usr/aarch64-linux-gnu", program]


def linux_arm64(ports: str) -> Platform:
    at = f"{ports}/linux-arm64"
    ways: dict[str, list[str]] = {
        "static": [f"{at}/libbullmyrtle.a", "-static"],
        "shared": [f"{at}/libbullmyrtle.so.1", f"-Wl,-rpath,{at}"],
        "addon": [],
    }
    addon, shared = f"{at}/bullmyrtle-linux-arm64.node", f"{at}/libbullmyrtle.so.1"
    return Platform("linux-arm64", [ARM64], ways, in_arm64, ARM64_TOOLS, addon, shared=shared)


WINE = "/usr/lib/wine/wine64"


def win32_x64(room: str, ports: str) -> Platform:
    """By Wine. The DLL lies beside the program, where Windows looks for it first."""
    at = f"{ports}/win32-x64"

    def run(program: str) -> list[str]:
        shutil.copy(f"{at}/bullmyrtle-1.dll", os.path.dirname(program))
        return [WINE, program]

    ways: dict[str, list[str]] = {"static": [f"{at}/libbullmyrtle.a"], "shared": [f"{at}/bullmyrtle.lib"], "addon": []}
    compiler = "x86_64-w64-mingw32-gcc"
    tools = {compiler: "gcc-mingw-w64-x86-64", WINE: "wine64"}
    # (its own printf knows no %zu)
    words = [compiler, "-D__USE_MINGW_ANSI_STDIO=1", "-include", f"{SUPPORT}/getline.h"]
    env = {"WINEPREFIX": f"{room}/wine", "WINEDEBUG": "-all"}
    addon = f"{at}/bullmyrtle-win32-x64.node"
    # (what makes the folder in which Wine keeps its Windows tells so)
    first = (WINE, "wineboot", "--init")
    return Platform("win32-x64", words, ways, run, tools, addon, ("-Wl,--export-all-symbols",), env, first=first)


def wasm32(ports: str) -> Platform:
    """By Node.js. A program is linked with what goes into bullmyrtle.wasm, and lowered as that is; the module itself is
    tried with all tests of Node's package."""
    at = f"{ports}/wasm32"
    here = f"{SUPPORT}/wasm"
    ways = {"static": [f"{at}/libbullmyrtle.a"]}
    compiler = [sys.executable, f"{here}/compile.py"]
    tools = {"node": "nodejs"}
    shared = f"{at}/{porting.WASM_FILE}"
    env = {"BULLMYRTLE_ADDON": shared}
    return Platform("wasm32", compiler, ways, lambda it: ["node", f"{here}/run.mjs", it], tools, env=env, shared=shared)


# How a call goes on to the address that the loader found, which it may do by no register that holds an argument.
JUMPS = {
    "arm64": "adrp x16, at_{0}\n ldr x16, [x16, :lo12:at_{0}]\n br x16",
    "x64": "jmpq *at_{0}(%rip)",
}


def calls_as_jumps(processor: str) -> str:
    """The library's calls for mach_loader.c, in assembly."""
    names = c_interface.in_map()
    lines = [".text", *(f".globl {it}\n{it}:\n {JUMPS[processor].format(it)}" for it in names), ".data", ".p2align 3"]
    lines += [f"at_{it}: .quad 0" for it in names] + [f'name_{it}: .asciz "{it}"' for it in names]
    lines += [".p2align 3", ".globl library_calls", "library_calls:"]
    lines += [*(f".quad name_{it}, at_{it}" for it in names), ".quad 0, 0", '.section .note.GNU-stack, "", %progbits']
    return "".join(f"{it}\n" for it in lines)


def darwin(room: str, ports: str, processor: str) -> Platform:
    """The instructions of a Mac's library, in a program of Linux that loads its file: that of Apple's processors by qemu,
    that of Intel's as it is."""
    name = f"darwin-{processor}"
    jumps = f"{room}/{name}.s"
    with open(jumps, "w", encoding="ascii") as it:
        it.write(calls_as_jumps(processor))
    ways = {"shared": [f"{SUPPORT}/mach_loader.c", jumps, "-static"]}
    shared = f"{ports}/{name}/libbullmyrtle.1.dylib"
    env = {"DYLIB": shared}
    if processor == "x64":
        return Platform(name, ["cc"], ways, lambda program: [program], env=env, shared=shared)
    return Platform(name, [ARM64], ways, in_arm64, ARM64_TOOLS, env=env, shared=shared)


def ported(room: str, ports: str) -> list[Platform]:
    """Those that bin/build-ports makes files for."""
    macs = [darwin(room, ports, it) for it in ("arm64", "x64")]
    return [linux_arm64(ports), win32_x64(room, ports), wasm32(ports), *macs]
