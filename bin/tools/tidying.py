"""What bin/tidy runs: the formatters, each of which lays out files or says which aren't, and what looks for faults. Why
these: docs/decisions/tests_and_releases.md#which-tests-run-and-by-what."""
from __future__ import annotations

import os
import re
import shutil
import subprocess
from typing import Callable, Iterator, NamedTuple

from tools import kit, machine, words
from tools.repository import TOP, Fault

PACKAGE = "bindings/python"
# What pyflakes takes for a fault and is meant: tests of what is wrong.
MEANT = re.compile(
    r"bindings/python/tests/\S+ (dictionary key \S+ repeated with different values|undefined name 'Nowhere')"
)
# The crates for stock compilers. (checks/rust_crate.py has clippy look at that of bindings/, for which it builds the library's stand-in.)
STOCK = ["bench/baseline", "bench/embedded", "bindings/rust", "bindings/rust/features"]
# Where Debian's packages of crates leave their sources: librust-serde-json-dev brings what bench/baseline stands on.
REGISTRY = "/usr/share/cargo/registry"
# How TypeScript's compiler looks at JavaScript.
COMPILER = (
    "tsc --allowJs --checkJs --noEmit --skipLibCheck --resolveJsonModule --module node16 --moduleResolution node16"
)
COMPILER += " --target es2022 --types node --pretty false --incremental"
# What runs in a browser, which has names of its own.
OF_BROWSERS = re.compile(r"/browser/|/support/wasm/|/web/(page|worker)\.mjs")
# What it says of a test counts where it is about names and grammar: tests use types wrongly on purpose.
OF_NAMES = re.compile(r": error TS(1\d{3}|2300|2304|2305|2307|2448|2451|2552|2588|18004): ")
SHOWN = 2_000


class Step(NamedTuple):
    """A step, the tools that it needs, and what runs it: that gives why it fails, or nothing."""

    name: str
    tools: list[str]
    fault: Callable[[], str]

    def lacking(self) -> str:
        return ", ".join(it for it in self.tools if shutil.which(it) is None and not os.path.exists(it))


def files(*endings: str, below: str = "") -> list[str]:
    """The files of the repository whose names end so, those too that aren't committed yet."""
    words = ["git", "ls-files", "-z", "--cached", "--others", "--exclude-standard", *([below] if below else [])]
    ended = subprocess.run(words, cwd=TOP, capture_output=True, text=True, check=False)
    if ended.returncode:
        raise Fault(f"git ls-files: {ended.stderr.strip()}")
    found = sorted({it for it in ended.stdout.split("\0") if it.endswith(endings) and os.path.isfile(f"{TOP}/{it}")})
    return [it for it in found if not os.path.islink(f"{TOP}/{it}")]


def texts() -> list[str]:
    """The files whose texts people read: pages, the Python package and the programs."""
    pages = [it for it in files(".md") if "/node_modules/" not in it]
    return [*pages, *files(".py", below=f"{PACKAGE}/bullmyrtle"), *scripts()]


def scripts() -> list[str]:
    """The programs in Python, whose names have no ending."""
    found = [it for it in files("") if it.startswith(("bin/", "bench/")) and "." not in os.path.basename(it)]
    return [it for it in found if is_python(f"{TOP}/{it}")]


def is_python(file: str) -> bool:
    with open(file, "rb") as it:
        return it.readline().startswith(b"#!/usr/bin/env python3")


def all_said(words: list[str], folder: str = TOP) -> str:
    """What a command says that fails, or nothing."""
    ended = subprocess.run(
        words, cwd=folder, stdin=subprocess.DEVNULL, stdout=subprocess.PIPE, stderr=subprocess.STDOUT, check=False
    )
    told = ended.stdout.decode(errors="replace").strip()
    return (told or f"{words[0]} ended with status {ended.returncode}") if ended.returncode else ""


def said(words: list[str], folder: str = TOP) -> str:
    """The same, and no more than fits a screen."""
    return all_said(words, folder)[:SHOWN]


def black(is_check: bool, found: list[str], folder: str = TOP) -> str:
    return said(["black", "-q", *(["--check", "--diff"] if is_check else []), *found], folder)


def pyflakes(found: list[str]) -> str:
    told = said(["pyflakes3", *found]).splitlines()
    return "\n".join(it for it in told if not MEANT.search(re.sub(r":\d+:\d+:", "", it)))


def mypy(found: list[str]) -> str:
    return said(["mypy", "--python-executable", "/usr/bin/python3", "--scripts-are-modules", *found])


def package_types() -> str:
    """The package that people install is typed throughout, for the oldest Python that it runs on."""
    words = [
        "mypy",
        "--config-file",
        "",
        "--strict",
        "--cache-dir",
        f"{TOP}/out/mypy",
        "--python-executable",
        "/usr/bin/python3",
    ]
    return said([*words, "--python-version", "3.8", "bullmyrtle"], f"{TOP}/{PACKAGE}")


def javascript(types: str) -> str:
    """What the compiler finds, with Node.js's types in a folder."""
    all_files = files(".js", ".mjs", ".cjs")
    in_browsers = [it for it in all_files if OF_BROWSERS.search(it)]
    told = compiler("es2022", types, [it for it in all_files if it not in in_browsers])
    return (told + compiler("es2022,dom", types, in_browsers))[:SHOWN]


def compiler(names: str, types: str, found: list[str]) -> str:
    """The same for some files, which have these names. What it knows is kept for the next time."""
    kept = ["--tsBuildInfoFile", f"{TOP}/out/javascript-{names}.tsbuildinfo"]
    return counted(all_said([*COMPILER.split(), "--lib", names, *kept, "--typeRoots", types, *found]))


def counted(told: str) -> str:
    """What counts of the compiler's findings. A line with blanks in front goes on with the one before."""
    lines = [it for it in told.splitlines() if not it.startswith(" ")]
    return "\n".join(it for it in lines if "/tests/" not in it or OF_NAMES.search(it))


def in_each(folders: list[str], words: list[str]) -> str:
    return "\n".join(f"{it}: {why}" for it in folders if (why := said(words, f"{TOP}/{it}")))


def crates(is_check: bool) -> str:
    """The kit's own command, by which `rt fmt` lays out one crate, and the gate looks at all."""
    words = [f"{kit.folder()}/bin/rattle", "fmt", "--check" if is_check else "--write"]
    return said([*words, *files(".rt", ".antt", below="crates")])


def steps(is_check: bool) -> Iterator[Step]:
    yield Step("words of pages and messages", [], lambda: words.faults(texts()))
    package = files(".py", below=PACKAGE)
    own = [it for it in files(".py") if it not in package] + scripts()
    typed = [it for it in own if it.startswith(("bin/", "bench/", "checks/", "spec/"))]
    yield Step("the layout of Python", ["black"], lambda: black(is_check, own))
    yield Step("the layout of the Python package", ["black"], lambda: black(is_check, ["."], f"{TOP}/{PACKAGE}"))
    yield Step("names in Python", ["pyflakes3"], lambda: pyflakes([*own, *package]))
    yield Step("types of Python", ["mypy", "/usr/bin/python3"], lambda: mypy(typed))
    yield Step("types of the Python package", ["mypy", "/usr/bin/python3"], package_types)
    types = machine.node_types() or machine.TYPES
    yield Step("names and types of JavaScript", ["tsc", types], lambda: javascript(types))
    rustfmt = ["cargo", "fmt", *(["--check"] if is_check else [])]
    yield Step("the layout of Rust", ["cargo", "rustfmt"], lambda: in_each(STOCK, rustfmt))
    clippy = ["cargo", "clippy", "-q", "--offline", "--", "-D", "warnings"]
    yield Step("clippy on bench/embedded", ["cargo", "cargo-clippy"], lambda: in_each(["bench/embedded"], clippy))
    yield Step(
        "clippy on bench/baseline", ["cargo", "cargo-clippy", REGISTRY], lambda: in_each(["bench/baseline"], clippy)
    )
    clang = ["clang-format", *(["--dry-run", "-Werror"] if is_check else ["-i"]), *files(".c", ".h", ".cpp", ".hpp")]
    yield Step("the layout of C", ["clang-format"], lambda: said(clang))
    yield Step("the layout of the crates", ["rt"], lambda: crates(is_check))
