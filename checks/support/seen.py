"""What a verdict on a function can rest on, as text, so that nothing has to be built to know it.

**Of the crates below:** the prover shows a check the interface of a library and its statements, and these are the same
to the byte whatever a function does, as long as it keeps its contract (`checks/tried.py` tries that). So of `src`
counts all but what functions do, and what only the crate itself can call; `specs` whole; and of `proofs` the modules
that crates above can cite, with those that these import.

**Of its own crate:** a function is proved by its text and its answers, and by no more of other functions than their
contracts. So of these counts all but what they do, and their answers.

In doubt too much counts: that costs a trial, and too little would keep a verdict that no longer holds."""
import os
import re
from dataclasses import dataclass
from functools import cache
from typing import Iterator

from support.functions import Function, functions_of
from tools.sources import files_of  # (it stands in bin/)

# Lines that are empty or a comment. (A quoted text stays as it is.)
IDLE = re.compile(
    r"""(?P<quoted>r(?P<marks>#*)".*?"(?P=marks)|"(?:\\.|[^"\\])*"|'(?:\\.|[^'\\])')|^[ \t]*(?://[^\n]*)?\n""",
    re.S | re.M,
)
# What stands in the module `tests`, which no check but that of the tests reads.
TESTS = re.compile(r"^[ \t]*#\[cfg\(test\)\]\s*mod \w+;\n", re.M)
USE = re.compile(r"(?<!pub )(?<!ghost )(?<!\) )\buse (?P<path>[\w:]+?)(?:::\{(?P<names>[\w,\s]+)\})?;\n?")
GHOST_USE = re.compile(r"^[ \t]*ghost use (?P<path>[\w.]+)\.\{(?P<names>[^{}]*)\};\n", re.M)
# A function that isn't seen, and with it the lines of comments and attributes above it.
HIDDEN = "\0"
WITH_HIDDEN = re.compile(rf"(?:^ *(?:#\[|//).*\n)*{HIDDEN}", re.M)
MODULE = re.compile(r"^pub mod (\w+)", re.M)
# A module that only the crate itself can name. (What is in it is told with its own file.)
INNER = re.compile(r"^mod \w+;\n", re.M)
ANY_USE = re.compile(r"^(?:ghost )?use [^;]*;\n", re.M)
# What a function's proof needs stands in files of these names, in a folder of the function.
ANSWERS = {"Answers.antt", "Invariants.antt", "Proof.antt"}


def shows_its_text(function: Function, head: str) -> bool:
    """Whether more of a function than its head may be seen: of one that runs in a constant, or whose result has a type
    that only its text tells. (What isn't in a type or a trait, but is indented, may be an argument of a macro.)"""
    is_loose = head.startswith(" ") and "::" not in function.name
    return function.is_const or is_loose or re.search(r"->[^;{]*\bimpl\b", head) is not None


def without_bodies(functions: list[Function], text: str, is_own: bool) -> str:
    """A source without what its functions do, and for crates above without those that they can't call. A macro's text
    goes to where it is called, so a file with one stays whole."""
    if "macro_rules!" in text:
        return text
    for it in reversed(functions):
        if it.opening and not shows_its_text(it, text[it.start : it.opening]):
            head = HIDDEN if it.is_hidden and not is_own else text[it.start : it.opening] + "}"
            text = text[: it.start] + head + text[it.end :]
    return IDLE.sub(lambda it: it["quoted"] or "", TESTS.sub("", WITH_HIDDEN.sub("", text)))


def is_cited(name: str, text: str) -> bool:
    """Whether clauses of the text may cite what a ghost import names: of an operator, what stands between its places."""
    parts = [it for it in name.rpartition(" as ")[2].split("◌") if it]
    return all(re.search(rf"(?<![\w'-]){re.escape(it)}(?![\w'>-])", text) is not None for it in parts)


def without_idle_uses(text: str) -> str:
    """A text without the imports that no other word of it names, as far as these are of functions and modules, which
    have a small letter, or of what clauses cite."""
    rest = GHOST_USE.sub("", USE.sub("", text))

    def kept(use: "re.Match[str]") -> str:
        names = [it.strip() for it in (use["names"] or use["path"].rpartition("::")[2]).split(",")]
        named = [it for it in names if it and (not it[0].islower() or re.search(rf"\b{it.split()[-1]}\b", rest))]
        return f"use {use['path']} {named};\n" if named else ""

    def cited(use: "re.Match[str]") -> str:
        named = [it for it in map(str.strip, use["names"].split(",")) if is_cited(it, rest)]
        return f"ghost use {use['path']} {named};\n" if named else ""

    return GHOST_USE.sub(cited, USE.sub(kept, text))


def read(file: str) -> str:
    with open(file, encoding="utf-8", errors="surrogateescape") as it:
        return it.read()


# (a run looks at the same texts after each of its checks)
@cache
def functions_in(crate: str, file: str, text: str) -> list[Function]:
    return [*functions_of(crate, file, text)]


@cache
def interface(crate: str, file: str, text: str) -> str:
    """What crates above see of a source: nothing where no more is left than what its own functions import."""
    left = INNER.sub("", without_idle_uses(without_bodies(functions_in(crate, file, text), text, False)))
    return left if ANY_USE.sub("", left).strip() else ""


@cache
def outline(crate: str, file: str, text: str) -> str:
    """What other functions of the crate see of a source."""
    return without_bodies(functions_in(crate, file, text), text, True)


def own_imports(crate: str, folder: str, text: str) -> Iterator[str]:
    """The files of its own proofs that a text of a crate may cite: for `Rattle.NAME.proofs.Rows.Cancels` both
    `Rows.antt` and `Rows/Cancels.antt`."""
    for path in re.findall(rf"\bRattle\.{crate}\.proofs\.([\w.+]+)", text):
        parts = path.rstrip(".").split(".")
        yield from (f"{folder}/{'/'.join(parts[:at])}.antt" for at in range(1, len(parts) + 1))


def cited(crate: str, folder: str) -> set[str]:
    """The files of a folder of proofs that crates above can cite, as `Lib.antt` declares them, and what these import in
    turn."""
    top, found = f"{folder}/Lib.antt", set[str]()
    left = [top]
    while left:
        file = left.pop()
        if file not in found and os.path.isfile(file):
            found.add(file)
            inside = folder if file == top else file.removesuffix(".antt")
            left += [f"{inside}/{it}.antt" for it in MODULE.findall(read(file))]
            left += own_imports(crate, folder, read(file)) if file != top else []
    return found - {top}


def is_of_type(path: str) -> bool:
    """Whether a file of proofs, by its path there, belongs to a type and isn't an answer: that it may be sent, say.
    Folders of functions and types stand in those of their source, which begin with a small letter."""
    return path[0].islower() and os.path.basename(path) not in ANSWERS


def seen(folder: str) -> list[tuple[str, str]]:
    """The files of a crate of which crates above see anything, by their paths in it, each with what they see."""
    crate, told = os.path.basename(folder), []
    public = cited(crate, f"{folder}/proofs")
    for file in files_of(folder):
        part, _, path = os.path.relpath(file, folder).partition("/")
        if part == "src":
            shown = interface(crate, f"src/{path}", read(file))
            told += [(f"src/{path}", shown)] if shown else []
        elif part == "specs" or file in public or is_of_type(path):
            told.append((f"{part}/{path}", read(file)))
    return told


@dataclass
class Own:
    """What verdicts on a crate's functions rest on in the crate itself: all of them on `shared`, and each on its text
    and its answers."""

    crate: str
    texts: dict[str, str]  # of its files, by their paths
    shared: list[tuple[str, str]]
    answers: dict[str, list[str]]  # the files that only one function's proof uses, by its name in the check's output

    def of(self, function: Function) -> list[str]:
        named = [files for name, files in self.answers.items() if function.printed.fullmatch(name)]
        text = self.texts[function.file][function.start : function.end]
        return [text, *(self.texts[it] for files in named for it in files)]


def own(folder: str) -> Own:
    crate = os.path.basename(folder)
    texts = {os.path.relpath(it, folder): read(it) for it in files_of(folder)}
    every = [it for file, text in texts.items() if file.startswith("src/") for it in functions_in(crate, file, text)]
    imported = {it for text in texts.values() for it in own_imports(crate, "proofs", text)}
    found = Own(crate, texts, [], {})
    for file, text in texts.items():
        name = "::".join([crate, *os.path.dirname(file).split("/")[1:]])
        is_answer = file.startswith("proofs/") and os.path.basename(file) in ANSWERS and file not in imported
        if is_answer and sum(it.printed.fullmatch(name) is not None for it in every) == 1:
            found.answers.setdefault(name, []).append(file)
        else:
            found.shared.append((file, outline(crate, file, text) if file.startswith("src/") else text))
    return found
