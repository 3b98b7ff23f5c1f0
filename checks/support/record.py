"""The record that lands with the sources: which bodies were tried, and became what they should.

A crate has a line with a sum of what all verdicts on its bodies rest on: the logic, the scripts that judge, what other
functions see of its sources, and what it sees of the crates below. Below it each body has a line: a sum of what it
changes and of what it stands in, its name, and how it was judged. The prover's verdict on the same text is the same, so
a body with a line needn't be tried again. Lines are written as soon as bodies are judged, so that a run that is
interrupted keeps what it has. Why it is kept so: docs/decisions/tests_and_releases.md#wrong-bodies."""
import contextlib
import fcntl
import hashlib
import os
import tempfile
from dataclasses import dataclass, field
from itertools import chain
from textwrap import shorten
from typing import Iterable, Iterator

from support.bodies import Body, Change
from support.rounds import Judged
from support.reached import ROOT, reached
from support.seen import Own, own, read, seen
from tools import kit  # (it stands in bin/)
from tools.repository import listing
from tools.sources import line_of

FILE = "checks/tried.txt"
HEAD = """# The wrong bodies that were refused and the right ones that were proved, by their crates: a sum of what a body changes
# and stands in, its name, and what refused it, where that is known. A crate has a sum of what all of its bodies rest on.
# Written by python3 checks/wrong_bodies.py --record
"""
# The scripts that decide a verdict. (What runs the checks, and in which order, decides none.)
JUDGES = [f"checks/support/{it}.py" for it in ("bodies", "functions", "rounds", "verdicts")]


def sum_of(*parts: object) -> str:
    return hashlib.sha256(repr(parts).encode(errors="surrogateescape")).hexdigest()


def change_in(body: Body, change: Change, own: Own) -> tuple[object, ...]:
    """A change by where it is in its function, or by the text that it is of."""
    for it in body.functions:
        if it.file == change.file and it.holds(change.start, change.end):
            return it.name, change.start - it.start, change.end - it.start, change.new
    return change.file, own.texts[change.file][change.start : change.end], change.new


def line_of_body(judged: Judged, told: str) -> str:
    how = {"refused": "clause", "by hand answer": "hand answer"}.get(judged.word)
    why = f"{how}: {shorten(judged.why, 120)}" if how else judged.word
    return f"    {told} {judged.body.name} {why}"


@dataclass
class Lines:
    """What the record has of a crate: the sum that its bodies' lines rest on, and these by the sums of the bodies."""

    rests_on: str
    bodies: dict[str, str] = field(default_factory=dict)


@dataclass
class Today:
    """What a crate is now: a sum of what all of its bodies rest on, one of what any does, and its files."""

    shared: str
    whole: str
    own: Own


class Record:
    """The lines that there are, and what each crate's sum is today: taken as it is made, before any source is read
    otherwise."""

    def __init__(self, root: str) -> None:
        self.root, self.at = root, f"{root}/{FILE}"
        self.listed = listing(root)
        # (two kits of one logic judge alike)
        self.basis = sum_of(kit.logic(kit.version() or ""), [line_of(f"{root}/{it}", root) for it in JUDGES])
        self.today = self.of_today(self.listed.lines)
        self.lines = self.read()

    def of_today(self, names: Iterable[str]) -> dict[str, Today]:
        """What those of these crates that have wrong bodies are now."""
        folders = {it: f"{self.root}/crates/{it}" for it in self.listed.lines}
        with_bodies = [it for it in names if os.path.isdir(f"{folders[it]}/wrong-bodies")]
        below = {it: self.listed.below(it)[:-1] for it in with_bodies}
        shown = {it: dict(seen(folders[it])) for it in {*chain(*below.values())}}
        roots = {it: read(f"{folders[it]}/{ROOT}") for it in shown}

        def of_crate(name: str) -> Today:
            found = own(folders[name])
            rests = reached(found.texts.values(), {it: shown[it] for it in below[name]}, roots)
            others = [(it, self.listed.libraries[it], rests[it]) for it in below[name]]
            rest = sum_of(self.basis, name, self.listed.libraries[name], others)
            return Today(sum_of(rest, found.shared)[:16], sum_of(rest, found.texts), found)

        return {it: of_crate(it) for it in with_bodies}

    def sum_of(self, body: Body) -> str:
        """A sum of what a body changes, and of what it stands in. How it is told plays no part."""
        found = self.today[body.crate].own
        changes = [change_in(body, it, found) for it in body.changes]
        functions = [(it.name, found.of(it)) for it in (*body.functions, *body.mates)]
        return sum_of(body.name, body.is_right, body.is_apart, changes, functions)[:8]

    def read(self) -> dict[str, Lines]:
        """The lines of each crate; a file that can't be read has none, and a line that can't be is none."""
        found: dict[str, Lines] = {}
        with contextlib.suppress(OSError, ValueError), open(self.at, encoding="utf-8") as it:
            last = Lines("")
            for line in it.read().split("\n"):
                words = line.split(maxsplit=2)
                if line.startswith("    ") and len(words) > 1:
                    last.bodies[words[0]] = line
                elif len(words) == 2 and not line.startswith("#"):
                    last = found[words[0]] = Lines(words[1])
        return found

    def has(self, body: Body) -> bool:
        """Whether a body was tried as it stands, in what it stands in."""
        lines = self.lines.get(body.crate)
        return (
            lines is not None and lines.rests_on == self.today[body.crate].shared and self.sum_of(body) in lines.bodies
        )

    @contextlib.contextmanager
    def locked(self) -> Iterator[None]:
        """Other runs wait with what they write."""
        folder = os.open(os.path.dirname(self.at), os.O_RDONLY)
        try:
            fcntl.flock(folder, fcntl.LOCK_EX)
            yield
        finally:
            os.close(folder)

    def keep(self, crate: str, bodies: list[Body], judged: list[Judged]) -> bool:
        """Writes the lines of those bodies of a crate that became what they should, beside the others that there are;
        leaves out those of bodies that the crate no longer has. Says whether it has: it has not where a file has
        changed since this run began."""
        today = self.today[crate]
        if self.of_today([crate])[crate].whole != today.whole:
            return False
        with self.locked():
            self.lines = self.read()
            held = self.lines.get(crate)
            known = held.bodies if held and held.rests_on == today.shared else {}
            for it in judged:
                if it.is_well:
                    told = self.sum_of(it.body)
                    known[told] = line_of_body(it, told)
            kept = {it: known[it] for it in map(self.sum_of, bodies) if it in known}
            self.lines[crate] = Lines(today.shared, kept)
            self.write()
        return True

    def write(self) -> None:
        """Puts the file in the place of the one that is there, in one step."""
        with tempfile.NamedTemporaryFile("w", dir=os.path.dirname(self.at), delete=False, encoding="utf-8") as it:
            it.write(HEAD)
            for name in self.today:
                if lines := self.lines.get(name):
                    it.writelines(f"{line}\n" for line in (f"{name} {lines.rests_on}", *lines.bodies.values()))
        os.chmod(it.name, 0o644)
        os.replace(it.name, self.at)
