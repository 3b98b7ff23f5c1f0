"""Which files of the crates below a crate its verdicts can rest on, of all that it could see there: those that its own
files name, those that these name in turn, and those with what a type of these does. A proof cites a definition and a
law by its name, and a call is checked by the contract of the function that is named, so an edit of a definition that
nothing here names changes no verdict.

In doubt too much counts: a name that isn't found among what a crate gives stands for all of its files."""
import re
from collections import defaultdict
from functools import cache
from typing import Iterable, Iterator, Mapping

# By crates, what is seen of each file, by its path.
Shown = Mapping[str, Mapping[str, str]]
ROOT = "src/lib.rt"
GHOST = re.compile(r"\bRattle\.(?P<crate>\w+)(?:\.(?P<part>specs|proofs))?(?P<path>(?:\.[\w+'-]+)*)")
RUST = re.compile(r"\b(?P<crate>[a-z_]\w*)::(?:\{(?P<names>[^{}]*(?:\{[^{}]*\}[^{}]*)*)\}|(?P<path>\w+(?:::\w+)*))")
GIVEN = re.compile(r"\bpub use (?P<path>[\w:]+?)::(?:\{(?P<names>[^{}]*)\}|(?P<name>\w+));")
WORD = re.compile(r"\w+")
TYPE = re.compile(r"\b(?:struct|enum|trait|union)\s+(\w+)")
IMPL = re.compile(r"\bimpl\b(?P<head>[^{;]*)")
# The name of a type or a trait, without its place and its arguments.
SUBJECT = re.compile(r"^[&\s]*(?:'\w+\s+)?(?:(?:mut|dyn)\s+)?(?:\w+::)*(\w+)")
# Names of paths that are no items.
IDLE = {"as", "self", "crate", "super"}


def source_of(files: Mapping[str, str], parts: list[str]) -> list[str]:
    """The source that the longest front of a module's path names."""
    for count in range(len(parts), 0, -1):
        if (file := f"src/{'/'.join(parts[:count])}.rt") in files:
            return [file]
    return []


@cache
def given(root: str) -> dict[str, str]:
    """What a crate gives by its root, by name: the path of the module that it comes from."""
    found: dict[str, str] = {}
    for use in GIVEN.finditer(root):
        for name in (use["names"] or use["name"]).split(","):
            if words := name.split():
                found[words[-1]] = use["path"]
    return found


def named_ghost(files: Mapping[str, str], part: str | None, path: str) -> list[str]:
    """The files that a path of definitions or proofs names. What is declared of a source stands in the source."""
    parts = [it for it in path.split(".") if it]
    if part == "specs" and parts[:1] in (["declared"], ["contracts"]):
        found = source_of(files, parts[1:])
    else:
        paths = [f"{part}/{'/'.join(parts[:count])}.antt" for count in range(1, len(parts) + 1)]
        found = [it for it in paths if it in files]
    return found or [*files]


def named_rust(files: Mapping[str, str], root: str, names: Iterable[str]) -> list[str]:
    """The files that names behind a crate's own name stand for."""
    found: list[str] = []
    for name in names:
        if name not in IDLE:
            module = given(root).get(name, "")
            found += source_of(files, module.split("::")) or [it for it in files if it.startswith("src/")]
    return found


@cache
def words_of(text: str) -> tuple[frozenset[tuple[str, str | None, str]], frozenset[tuple[str, tuple[str, ...]]]]:
    """The paths of definitions and proofs in a text, and those of items."""
    ghost = frozenset((it["crate"], it["part"], it["path"]) for it in GHOST.finditer(text))
    items = {
        (it["crate"], tuple(WORD.findall(it["names"])) if it["names"] is not None else (it["path"].split("::")[0],))
        for it in RUST.finditer(text)
    }
    return ghost, frozenset(items)


def named(text: str, shown: Shown, roots: Mapping[str, str]) -> Iterator[tuple[str, str]]:
    """The files of these crates that a text names, each with its crate."""
    ghost, items = words_of(text)
    for crate, part, path in ghost:
        if crate in shown:
            yield from ((crate, it) for it in named_ghost(shown[crate], part, path))
    for crate, names in items:
        if crate in shown:
            yield from ((crate, it) for it in named_rust(shown[crate], roots[crate], names))


def without_arguments(head: str) -> str:
    """What stands behind the arguments of an `impl`, where it has any."""
    depth = 0
    for at, letter in enumerate(head.lstrip()):
        depth += (letter == "<") - (letter == ">")
        if depth == 0:
            return head.lstrip()[at + (letter == ">") :]
    return head


@cache
def subjects(text: str) -> frozenset[str]:
    """The types that a source says what they do, and the traits that it does."""
    heads = (without_arguments(it["head"]).split(" where ")[0].split(" for ") for it in IMPL.finditer(text))
    return frozenset(found[1] for head in heads for it in head if (found := SUBJECT.match(it)))


def named_inside(crate: str, text: str, files: Mapping[str, str]) -> Iterator[tuple[str, str]]:
    """The sources of its own crate that a source names, and those with what its types do."""
    if "super::" in text:
        yield from ((crate, it) for it in files if it.startswith("src/"))
    for use in RUST.finditer(text):
        if use["crate"] == "crate":
            paths = [use["path"]] if use["path"] else re.findall(r"\w+(?:::\w+)*", use["names"])
            yield from ((crate, it) for path in paths for it in source_of(files, path.split("::")))
    if types := {*TYPE.findall(text)}:
        yield from (
            (crate, file) for file, other in files.items() if file.startswith("src/") and types & subjects(other)
        )


def reached(texts: Iterable[str], shown: Shown, roots: Mapping[str, str]) -> dict[str, list[tuple[str, str]]]:
    """Of these crates, the files that a crate with these texts reaches, each with what is seen of it. The root of a
    crate tells where names come from, and counts only by what it has beside that."""
    left = {it for text in texts for it in named(text, shown, roots)}
    found = set[tuple[str, str]]()
    while left:
        crate, file = left.pop()
        if (crate, file) not in found:
            found.add((crate, file))
            text = shown[crate][file]
            left.update(named(text, shown, roots))
            if file.startswith("src/"):
                left.update(named_inside(crate, text, shown[crate]))
    kept = defaultdict[str, list[tuple[str, str]]](list)
    for crate, file in sorted(found):
        kept[crate].append((file, GIVEN.sub("", shown[crate][file]) if file == ROOT else shown[crate][file]))
    return kept
