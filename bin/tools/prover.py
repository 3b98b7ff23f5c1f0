"""The words by which the kit's prover is called for a crate that lies in a room, over the libraries that were built
there.

The kit's commands prove one crate after another in a checkout, or choose themselves how many processors each check
gets."""
from __future__ import annotations

import os

from tools import kit, sources
from tools.repository import Listing

# What the C library is compiled for: it runs on every x86-64, and unlike a program it doesn't check for more as it
# starts.
PROCESSOR = "x86-64"
# The processors that the library is proved for, each with a module of its own: in npm's words, what the kit calls them, and how each is
# told that it is for any of them.
TRIPLES = {"x64": "x86_64-unknown-linux-gnu", "arm64": "aarch64-unknown-linux-gnu"}
PROCESSORS = {"x64": PROCESSOR, "arm64": "generic"}
# Stands where the kit looks for its compiler, and keeps the module that this is given. (The kit hands it over in a folder that it removes,
# and gives its tools no environment.)
KEEPING = """#!/bin/sh
for word; do
    case $word in
        *.bc) cp "$word" "{module}" || exit ;;
    esac
done
exec "{tools}/clang" "$@"
"""


class Prover:
    """Crates in a folder of their own, and beside them the libraries that are built of them, but for those that are
    given."""

    def __init__(self, room: str, listed: Listing, of: str, given: dict[str, str]) -> None:
        self.room, self.listed, self.of, self.given, self.kit = room, listed, of, given, kit.folder()
        self.made = f"{room}/{of}"
        os.makedirs(f"{room}/libraries")

    def folder(self, name: str) -> str:
        return f"{self.room}/crates/{name}"

    def library(self, name: str) -> str:
        return self.given.get(name, f"{self.room}/libraries/{name}.rlib")

    def check(self, name: str, jobs: int) -> list[str]:
        """A check of a crate from nothing by so many processors."""
        used = ["std", *self.listed.libraries[name]]
        at = {it: self.library(it) if it in self.listed.lines else f"{self.kit}/rlibs/{it}.rlib" for it in used}
        root = "src/main.rt" if name == sources.PROGRAM else "src/lib.rt"
        words = [f"{self.kit}/bin/rattle", "build", "--crate-name", name, root]
        words += [word for it in used for word in ("--extern", f"{it}={at[it]}")]
        folders = [f"{self.kit}/rlibs", f"{self.room}/libraries", *(os.path.dirname(it) for it in self.given.values())]
        words += [word for it in folders for word in ("-L", f"dependency={it}")]
        words += [
            "--antt-project",
            f"{self.kit}/rattle/logic/antt-project.json",
            "--logic-built",
            f"{self.kit}/logic_built",
        ]
        return [*words, "--links", f"{name}=", "--jobs", str(jobs)]

    def build(self, name: str, jobs: int) -> list[str]:
        """The same, which builds the crate's library, of statements alone, or the program, or what the C library holds of Rattle."""
        if name != self.of:
            return [*self.check(name, jobs), "--statements", "-o", self.library(name)]
        return self.build_for("x64", jobs)

    def build_for(self, processor: str, jobs: int) -> list[str]:
        """The same of the program or of the C library, for a kind of processor."""
        if self.of == sources.LIBRARY:
            return self.build_library(jobs, processor)
        toolchain = ["--toolchain", f"{self.kit}/toolchain", "--backend", "llvm", "--target", TRIPLES[processor]]
        return [*self.check(self.of, jobs), *toolchain, "-o", self.object_file(processor)]

    def build_library(self, jobs: int, processor: str) -> list[str]:
        """The same of what the C library holds, for a kind of processor; its module is kept."""
        words = [*self.check(self.of, jobs), "--toolchain", self.keeping(processor), "--backend", "llvm"]
        words += ["--crate-type", "staticlib", "--target", TRIPLES[processor], "--cpu", PROCESSORS[processor]]
        return [*words, "-o", self.archive(processor)]

    def object_file(self, processor: str) -> str:
        """What is built of the program."""
        return f"{self.made}.o" if processor == "x64" else f"{self.made}-{processor}.o"

    def archive(self, processor: str) -> str:
        return f"{self.made}.a" if processor == "x64" else f"{self.made}-{processor}.a"

    def module(self, processor: str) -> str:
        return f"{self.made}-{processor}.bc"

    def keeping(self, processor: str) -> str:
        """A folder with the kit's toolchain, of which the compiler leaves a copy of its module."""
        tools, made = f"{self.kit}/toolchain", f"{self.room}/toolchain-{processor}"
        os.makedirs(f"{made}/bin")
        os.symlink(f"{tools}/lib", f"{made}/lib")
        for name in os.listdir(f"{tools}/bin"):
            if name != "clang":
                os.symlink(f"{tools}/bin/{name}", f"{made}/bin/{name}")
        with open(f"{made}/bin/clang", "w", encoding="utf-8") as it:
            it.write(KEEPING.format(module=self.module(processor), tools=f"{tools}/bin"))
        os.chmod(f"{made}/bin/clang", 0o755)
        return made

    def link(self) -> list[str]:
        """Makes the program of what was built of it."""
        words = [
            f"{self.kit}/bin/rattle-link",
            "--target",
            "x86_64-unknown-linux-gnu",
            "--toolchain",
            f"{self.kit}/toolchain",
        ]
        return [*words, "-o", self.made, f"{self.made}.o", f"{self.kit}/c/libos_c.a", f"{self.kit}/c/liblibc_c.a"]
