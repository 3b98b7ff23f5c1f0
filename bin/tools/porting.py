"""The library, the addon for Node.js and the extension for Python for each platform, made of the library's modules by the kit's one binary of LLVM alone: no SDK, no
headers and no C library of the platform. The same modules give the same files, byte for byte.

The module has no triple and no layout of data. It assumes pointers of 64 bits and the lower byte first, has no instruction of a processor in
it, and takes six functions of C."""
from __future__ import annotations

import os
import re
import subprocess
from typing import Any

from tools import addon, extension, kit, library, lowering, program
from tools.repository import TOP, Fault, read_bytes, read_text
from tools.targets import TARGETS, Target

HERE = f"{TOP}/packaging/ports"
WASM, WASM_FILE, WASM_STACK = f"{HERE}/wasm", "bullmyrtle.wasm", 1 << 18
LISTED = f"{TOP}/include/bullmyrtle.map"
# How the kit calls its compiler for a static library, for every processor.
OF_LLVM = ["-no-trap-after-noreturn", "-trap-unreachable", "-disable-machine-licm", "-disable-postra-machine-licm"]
OF_LLVM += ["-sink-common-insts=false"]
COMPILED = ["-O3", "-ffunction-sections", "-fdata-sections", "--no-default-config", "-no-canonical-prefixes"]
COMPILED += ["-Wno-override-module", *(word for it in OF_LLVM for word in ("-mllvm", it))]
# What the library and the addon take of C.
OF_C = ["malloc", "realloc", "free", "memcpy", "memmove", "memset"]
OF_C_IN_THE_ADDON = [*OF_C, "calloc", "memchr"]
SEEN_OF_THE_ADDON = ["napi_register_module_v1", "node_api_module_get_api_version_v1"]


def called(name: str, *words: str) -> str:
    """Runs a tool of LLVM, which the one binary is by the name that it is called by, and gives what it says."""
    how: dict[str, Any] = {"stdin": subprocess.DEVNULL, "capture_output": True, "text": True, "check": False}
    ended = subprocess.run([name, *words], executable=f"{kit.folder()}/toolchain/bin/clang", **how)
    if ended.returncode:
        raise Fault(f"{name} ended with status {ended.returncode}:\n{ended.stderr[-3000:]}")
    return str(ended.stdout)


def written(file: str, text: str) -> str:
    """Writes a file, and gives its name."""
    program.write(file, text.encode())
    return file


def lines_in(file: str, lines: list[str]) -> str:
    return written(file, "".join(f"{it}\n" for it in lines))


def calls() -> list[str]:
    """The library's calls, as the map has them."""
    return sorted(set(re.findall(r"\b(bm_\w+);", read_text(LISTED))))


class Port:
    """A platform's files, made in a folder from the file of its module. What is made on the way goes to a room."""

    def __init__(self, name: str, module: str, room: str, out: str) -> None:
        self.name, self.module, self.room, self.out = name, module, room, out
        self.target: Target = TARGETS[name]
        os.makedirs(out)
        os.makedirs(room)

    def compiled(self, source: str, words: list[str]) -> str:
        """An object of this source."""
        made = f"{self.room}/{os.path.basename(source).partition('.')[0]}.o"
        called("clang", f"--target={self.target.triple}", *words, "-c", source, "-o", made)
        return made

    def of_module(self, source: str) -> str:
        return self.compiled(source, [*self.target.words, *COMPILED, "-x", "ir"])

    def objects(self) -> list[str]:
        """The library's own code, and what it takes memory by."""
        source = self.module if self.target.is_linux else self.rewritten()
        return [self.of_module(source), self.of_module(f"{HERE}/heap.ll"), *self.beside()]

    def beside(self) -> list[str]:
        return []

    def rewritten(self) -> str:
        """The module without what is said in it of Linux's stack, and with the tables by which debuggers, dumps of a
        crash and handlers of other code's exceptions walk through it."""
        made = f"{self.room}/bullmyrtle.ll"
        words = ["-S", "-emit-llvm", "-x", "ir", "-Xclang", "-disable-llvm-passes", "-Wno-override-module"]
        called("clang", *words, self.module, "-o", made)
        text = re.sub(r"^target (datalayout|triple).*\n", "", read_text(made), flags=re.M)
        text = re.sub(r'^(attributes .*) nounwind (.*"target-cpu")', r"\1 nounwind uwtable \2", text, flags=re.M)
        return written(made, re.sub(r' "(?:target-cpu|probe-stack|stack-probe-size)"="[^"]*"', "", text))

    def of_addon(self) -> str:
        words = [it for it in self.target.words if it == "-fPIC" or it.startswith("-march")]
        return self.compiled(f"{addon.FOLDER}/addon.c", [*words, *addon.compiled(f"{TOP}/include")])

    def of_extension(self) -> str:
        words = [it for it in self.target.words if it == "-fPIC" or it.startswith("-march")]
        return self.compiled(f"{extension.FOLDER}/extension.c", [*words, *extension.compiled(f"{TOP}/include")])

    def make(self) -> str:
        """Makes all files, and gives the library's own object."""
        objects = self.objects()
        self.make_library(objects)
        self.make_addon(f"{self.out}/bullmyrtle-{self.name}.node", [self.of_addon(), *objects])
        self.make_extension([self.of_extension(), *objects])
        written(f"{self.out}/{library.HEADER}", read_text(f"{TOP}/include/{library.HEADER}"))
        return objects[0]

    def archive(self, objects: list[str], *words: str) -> None:
        called("llvm-ar", *words, "rcsD", f"{self.out}/{library.STATIC}", *objects)

    def make_library(self, objects: list[str]) -> None:
        """Makes the static and the shared library."""
        raise NotImplementedError

    def make_addon(self, made: str, objects: list[str]) -> None:
        """Makes the addon."""
        raise NotImplementedError

    def make_extension(self, objects: list[str]) -> None:
        """Makes the extension."""
        raise NotImplementedError


class Linux(Port):
    """Elf, which names no C library."""

    def make_library(self, objects: list[str]) -> None:
        self.archive(objects)
        static, shared = (f"{self.out}/{it}" for it in (library.STATIC, library.SHARED))
        called(*library.shared("ld.lld", LISTED, static, shared))

    def make_addon(self, made: str, objects: list[str]) -> None:
        words = ["-soname", os.path.basename(made), f"--version-script={addon.FOLDER}/addon.map"]
        called("ld.lld", *addon.LINKED, *words, *objects, "-o", made)

    def make_extension(self, objects: list[str]) -> None:
        words = ["-soname", extension.EXTENSION, f"--version-script={extension.MAP}", *objects]
        called("ld.lld", *extension.LINKED, *words, "-o", f"{self.out}/{extension.EXTENSION}")


class Mac(Port):
    """Mach-O, signed as no one's, as a Mac with a processor of Apple's wants it."""

    @property
    def processor(self) -> str:
        return self.target.triple.partition("-")[0]

    def system(self) -> str:
        """What stands for the system's library: the names that are taken of it."""
        names = [f"_{it}" for it in (*OF_C_IN_THE_ADDON, "bzero", "__bzero")]
        lines = ["--- !tapi-tbd", "tbd-version: 4", f"targets: [ {self.processor}-macos ]"]
        lines += ["install-name: '/usr/lib/libSystem.B.dylib'", "exports:", f"  - targets: [ {self.processor}-macos ]"]
        lines += [f"    symbols: [ {', '.join(names)}, dyld_stub_binder ]", "..."]
        return lines_in(f"{self.room}/libSystem.tbd", lines)

    def linked(self, seen: list[str], words: list[str]) -> None:
        all_words = ["-arch", self.processor, "-platform_version", "macos", "11.0", "11.0"]
        all_words += ["-dead_strip", "--icf=safe", "-x", "-adhoc_codesign"]
        all_words += [word for it in seen for word in ("-exported_symbol", f"_{it}")]
        called("ld64.lld", *all_words, *words, self.system())

    def make_library(self, objects: list[str]) -> None:
        self.archive(objects, "--format=darwin")
        name = "libbullmyrtle.1.dylib"
        words = ["-dylib", "-install_name", f"@rpath/{name}", "-current_version", "1", "-compatibility_version", "1"]
        self.linked(calls(), [*words, *objects, "-o", f"{self.out}/{name}"])

    def make_addon(self, made: str, objects: list[str]) -> None:
        self.linked(SEEN_OF_THE_ADDON, ["-bundle", "-undefined", "dynamic_lookup", *objects, "-o", made])

    def make_extension(self, objects: list[str]) -> None:
        """(what it takes of Python it finds in the program that loads it)"""
        made = f"{self.out}/{extension.EXTENSION}"
        self.linked([extension.SEEN], ["-bundle", "-undefined", "dynamic_lookup", *objects, "-o", made])


class Windows(Port):
    """A DLL, and the library by which a program takes its calls. It takes functions of msvcrt.dll, which every Windows has."""

    def beside(self) -> list[str]:
        return [self.compiled(f"{HERE}/windows.s", [])]

    def imports(self, of: str, names: list[str]) -> str:
        """The library by which functions of another DLL are taken."""
        listed = lines_in(f"{self.room}/{of}.def", [f"LIBRARY {of}", "EXPORTS", *names])
        called("llvm-dlltool", "-m", "i386:x86-64", "-d", listed, "-l", f"{self.room}/{of}.lib")
        return f"{self.room}/{of}.lib"

    def linked(self, made: str, words: list[str]) -> None:
        all_words = ["/dll", "/machine:x64", "/nodefaultlib", "/brepro", "/opt:ref,safeicf", "/lldmingw"]
        called("lld-link", *all_words, f"/out:{made}", *words, self.imports("msvcrt.dll", OF_C_IN_THE_ADDON))

    def make_library(self, objects: list[str]) -> None:
        self.archive(objects)
        seen = [f"/export:{it}" for it in calls()]
        self.linked(f"{self.out}/bullmyrtle-1.dll", ["/noentry", f"/implib:{self.out}/bullmyrtle.lib", *seen, *objects])

    def make_addon(self, made: str, objects: list[str]) -> None:
        names = sorted(set(re.findall(r"\bU (napi_\w+)", called("llvm-nm", "-u", objects[0]))))
        found = lines_in(f"{self.room}/found.s", calls_found(names))
        finding = self.compiled(f"{HERE}/windows_addon.c", ["-O2", "-fno-ident"])
        seen = [f"/export:{it}" for it in SEEN_OF_THE_ADDON]
        of_system = self.imports("kernel32.dll", ["GetModuleHandleA", "GetProcAddress"])
        words = ["/entry:DllMainCRTStartup", f"/implib:{self.room}/unused.lib", *seen, *objects]
        self.linked(made, [*words, finding, self.compiled(found, []), of_system])

    def make_extension(self, objects: list[str]) -> None:
        """(python3.dll has the limited API of whichever Python loads it)"""
        names = sorted(set(re.findall(r"\bU (_?Py\w+)", called("llvm-nm", "-u", objects[0]))))
        words = ["/noentry", f"/implib:{self.room}/unused.lib", f"/export:{extension.SEEN}", *objects]
        self.linked(f"{self.out}/{extension.FOR_WINDOWS}", [*words, self.imports("python3.dll", names)])


class Wasm(Port):
    """One module without imports, which has the library's calls and those of the addon, and what they take of C. It is made for memory of 64
    bits, as the library's module is, and lowered to memory of 32."""

    def of_c(self, name: str, *words: str) -> str:
        # (told so, the compiler doesn't take memcpy's own code for a call of memcpy)
        return self.compiled(f"{WASM}/{name}.c", [*self.target.words, "-O2", "-fno-builtin", "-fno-ident", *words])

    def beside(self) -> list[str]:
        return [self.of_c("memory", "-nostdinc"), self.of_c("wide", "-nostdinc")]

    def of_addon(self) -> str:
        return self.of_c("node", *addon.compiled(f"{TOP}/include"), f"-I{addon.FOLDER}")

    def of_extension(self) -> str:
        """(Python has nothing that could load it)"""
        return ""

    def make_extension(self, objects: list[str]) -> None:
        pass

    def make_library(self, objects: list[str]) -> None:
        """(not lowered: it is for who links more to it, as checks/ports.py does)"""
        self.archive(objects)

    def make_addon(self, made: str, objects: list[str]) -> None:
        seen = [f"--export={it}" for it in (*calls(), "malloc", "realloc", "free")]
        linked_wasm([*seen, *objects], f"{self.out}/{WASM_FILE}", self.room)


def linked_wasm(words: list[str], made: str, room: str) -> None:
    """Links a module of WebAssembly, and lowers it. Its stack lies in front of all else, so what runs over its end is out of memory."""
    wide = f"{room}/wide.wasm"
    all_words = ["-mwasm64", "--no-entry", "--gc-sections", "--strip-all", "--compress-relocations"]
    called("wasm-ld", *all_words, "--stack-first", "-z", f"stack-size={WASM_STACK}", *words, "-o", wide)
    program.write(made, lowering.lowered(read_bytes(wide)))


def calls_found(names: list[str]) -> list[str]:
    """The calls of Node-API as jumps to where windows_addon.c finds each, and the table of names and places by which it does."""
    lines = [".text"]
    for it in names:
        lines += [f".globl {it}", f"{it}: jmpq *at_{it}(%rip)"]
    lines += [".data", ".p2align 3", *(f"at_{it}: .quad 0" for it in names)]
    lines += [".globl napi_calls", "napi_calls:", *(f".quad name_{it}, at_{it}" for it in names), ".quad 0, 0"]
    return [*lines, *(f'name_{it}: .asciz "{it}"' for it in names)]


def port(name: str) -> type[Port]:
    """How a platform's files are made."""
    target = TARGETS[name]
    return Linux if target.is_linux else Windows if target.is_windows else Wasm if target.is_wasm else Mac
