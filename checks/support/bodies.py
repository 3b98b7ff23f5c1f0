"""Wrong bodies as their files tell them: the function, what is wrong, the old text and the new.

`crates/NAME/wrong-bodies/decoder.toml` is about `src/decoder.rt`, `read/call.toml` beside it about `src/read/call.rt`:

    [[wrong]]
    name = "fault_told_once"
    function = "Decoder::feed"
    what = "A fault is told by one feed, and the next is answered as if nothing had happened."
    old = '''return Err(FeedFault::Ended(fault, Items::new(self.alloc)));'''
    new = '''let _ = fault; return Ok(Vec::new(self.alloc));'''

An old text stands exactly once in its file, or else exactly once in the functions that are named; how its words are
spaced and cut into lines doesn't count. Further texts stand in `[[wrong.also]]`, with a `file` where it is another.
`function` names each function that the texts stand in, one or a list; at least one of them must be refused. `[[right]]`
is a body that is written differently and does the same: it must be proved."""
import os
import re
import tomllib
from dataclasses import dataclass
from typing import Any

from support.functions import Function, functions_of

KEYS = {"name", "function", "what", "old", "new", "also", "file", "alone"}


class Unfit(Exception):
    """A body that can't be tried, and why."""


@dataclass(frozen=True)
class Change:
    """The text from offset `start` to `end` of a file becomes `new`."""

    file: str
    start: int
    end: int
    new: str


@dataclass(frozen=True)
class Body:
    crate: str
    name: str
    is_right: bool
    what: str
    functions: tuple[Function, ...]  # those that its texts stand in
    mates: tuple[Function, ...]  # the others of their cycles of calls, which fall with them
    is_outside: bool  # whether one of its texts stands in no function
    is_apart: bool  # whether it is tried alone: it says so, or one of its texts stands in no function
    changes: tuple[Change, ...]

    @property
    def label(self) -> str:
        return f"{self.crate}/{self.name}"

    @property
    def said(self) -> str:
        return ", ".join(dict.fromkeys(it.name for it in self.functions))


class Sources:
    """The texts of a crate's files and the functions in them, each read once."""

    def __init__(self, folder: str) -> None:
        self.folder, self.crate = folder, os.path.basename(folder)
        self.texts: dict[str, str] = {}
        self.found: dict[str, list[Function]] = {}

    def text(self, file: str) -> str:
        if file not in self.texts:
            try:
                with open(f"{self.folder}/{file}", encoding="utf-8") as it:
                    self.texts[file] = it.read()
            except OSError:
                raise Unfit(f"there is no file {file}") from None
        return self.texts[file]

    def functions(self, file: str) -> list[Function]:
        if file not in self.found:
            self.found[file] = [*functions_of(self.crate, file, self.text(file))]
        return self.found[file]

    def with_changes(self, changes: list[Change]) -> dict[str, str]:
        """The texts of the files that these changes touch, as they make them."""
        made: dict[str, str] = {}
        for it in sorted(changes, key=lambda it: (it.file, -it.start)):
            text = made.get(it.file, self.text(it.file))
            made[it.file] = text[: it.start] + it.new + text[it.end :]
        return made


def places_of(sources: Sources, file: str, old: str) -> list["re.Match[str]"]:
    """Where a text stands in a file: its words, however they are spaced."""
    return [*re.finditer(r"\s+".join(map(re.escape, old.split())), sources.text(file))]


def change_of(sources: Sources, named: list[str], file: str, old: str, new: str) -> Change:
    """The change that a body makes to a file, in which its old text stands once, or once in the functions that are
    named."""
    if not old.split():
        raise Unfit("an old text is empty")
    found = places_of(sources, file, old) if os.path.isfile(f"{sources.folder}/{file}") else []
    if len(found) > 1:
        meant = [fn for fn in sources.functions(file) if fn.name in named]
        found = [it for it in found if any(fn.holds(it.start(), it.end()) for fn in meant)] or found
    if len(found) != 1:
        times = f"stands {len(found)} times, and not once, in {file}" if found else f"no longer stands in {file}"
        raise Unfit(f"its old text {times}: {' '.join(old.split())[:160]}")
    return Change(file, found[0].start(), found[0].end(), new.strip())


def texts_of(table: dict[str, Any], file: str) -> list[tuple[str, str, str]]:
    """The file, the old text and the new of each change that a body makes."""
    pairs = [table, *table.get("also", [])]
    for it in pairs:
        if not isinstance(it.get("old"), str) or not isinstance(it.get("new"), str):
            raise Unfit("a change has no old text or no new one")
    return [(it.get("file", file), it["old"], it["new"]) for it in pairs]


def body_of(sources: Sources, file: str, table: dict[str, Any], is_right: bool) -> Body:
    """Reads one table, and finds its texts and its functions in the crate's files."""
    lacking = {"name", "function", "what"} - {*table}
    if lacking or {*table} - KEYS:
        raise Unfit(
            f"it lacks {', '.join(sorted(lacking))}"
            if lacking
            else f"unknown keys: {', '.join(sorted({*table} - KEYS))}"
        )
    if not re.fullmatch(r"\w+", table["name"]):
        raise Unfit("its name is of letters, digits and _")
    named = [table["function"]] if isinstance(table["function"], str) else table["function"]
    changes = [change_of(sources, named, *it) for it in texts_of(table, file)]
    inside = [next((fn for fn in sources.functions(it.file) if fn.holds(it.start, it.end)), None) for it in changes]
    held = {fn.name: fn for fn in inside if fn}
    for name in named:
        if name not in held and None in inside:
            held |= {fn.name: fn for fn in sources.functions(file) if fn.name == name}
    if {*named} != {*held}:
        raise Unfit(f"its texts stand in {', '.join(held) or 'no function'}, and it names {', '.join(named)}")
    is_outside = None in inside
    is_apart = is_outside or table.get("alone") is True
    mates = tuple(
        fn
        for it in held.values()
        for fn in sources.functions(it.file)
        if it.cycle == fn.cycle != "" and fn not in held.values()
    )
    return Body(
        sources.crate,
        table["name"],
        is_right,
        table["what"],
        tuple(held.values()),
        mates,
        is_outside,
        is_apart,
        tuple(changes),
    )


def files_below(folder: str) -> list[str]:
    """The files below a folder, by their paths in it."""
    found = [os.path.join(at, name) for at, _, names in os.walk(folder) for name in names]
    return sorted(os.path.relpath(it, folder) for it in found)


def read_bodies(sources: Sources, folder: str = "") -> tuple[list[Body], list[str]]:
    """The bodies of a crate that stand in a folder, its own where none is named, and what is wrong with those that
    can't be tried."""
    folder = folder or f"{sources.folder}/wrong-bodies"
    bodies: list[Body] = []
    unfit: list[str] = []
    for path in files_below(folder):
        where = f"{os.path.relpath(folder, f'{sources.folder}/../..')}/{path}"
        try:
            with open(f"{folder}/{path}", "rb") as it:
                tables = tomllib.load(it)
        except (OSError, tomllib.TOMLDecodeError) as error:
            unfit.append(f"{where}: it can't be read: {error}")
            continue
        if not path.endswith(".toml") or not tables or {*tables} - {"wrong", "right"}:
            unfit.append(f"{where}: it is no file of [[wrong]] and [[right]] tables")
            continue
        for kind in ("wrong", "right"):
            for table in tables.get(kind, []):
                try:
                    bodies.append(body_of(sources, f"src/{path.removesuffix('.toml')}.rt", table, kind == "right"))
                except (Unfit, TypeError, AttributeError) as error:
                    unfit.append(f"{where}: {table.get('name', 'a body without a name')}: {error}")
    names = [it.name for it in bodies]
    unfit += [f"{folder}: two bodies are named {it}" for it in {*names} if names.count(it) > 1]
    return bodies, unfit
