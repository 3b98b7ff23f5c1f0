#!/usr/bin/env python3
"""Looks whether the record of wrong bodies holds for just those bodies whose verdicts an edit leaves as they are, in a
copy of the tree: after edits of what crates above see, of what other functions see, and of the rest; of bodies, of the
scripts that judge, of the list of crates and of the record itself; and by another kit. What is written is whole,
anyone who writes beside it, and nothing is written of a crate that has changed meanwhile.

That crates above see no more of a crate than the record's sums go by is tried on a small library, which the kit proves
and builds three times: unless checks/shown.txt has that this was found with this logic, or with --anew. --record writes
that file. No wrong body is tried. The last line is 'N passed, M failed'; the status is 0 only where M is."""
import inspect
import json
import os
import re
import shutil
import subprocess
import sys
from concurrent.futures import ThreadPoolExecutor
from typing import Callable, Iterable, Iterator, Optional

from support import ran, toy_library
from support.bodies import Body, Sources, read_bodies
from support.record import FILE, Record, sum_of
from support.rounds import Judged
from support.seen import own, seen
from tools import kit
from tools.repository import TOP, listing

Change = Callable[[bytes], Optional[bytes]]
# The crate whose edits are looked at, and lemmas of it that others cite.
EDITED, LEMMA = "json_texts", "proofs/Placed.antt"
SHOWN = "checks/shown.txt"


def judged(bodies: Iterable[Body]) -> list[Judged]:
    """What would be recorded of bodies, had they been tried."""
    return [Judged(it, True, "proved" if it.is_right else "refused", "`returns`") for it in bodies]


class Copy:
    """A copy of what the record rests on, and its bodies."""

    def __init__(self, at: str) -> None:
        self.at = at
        hidden = shutil.ignore_patterns("out", "__pycache__", "release")
        for part in ("bin", "checks", "crates", "docs"):
            shutil.copytree(f"{TOP}/{part}", f"{at}/{part}", ignore=hidden)
        shutil.copyfile(f"{TOP}/crates.txt", f"{at}/crates.txt")
        self.bodies = {it: self.read(it) for it in listing().lines}
        self.every = {it.label for bodies in self.bodies.values() for it in bodies}

    def read(self, crate: str) -> list[Body]:
        return read_bodies(Sources(f"{self.at}/crates/{crate}"))[0]

    def of(self, crates: Iterable[str]) -> set[str]:
        return {it.label for crate in crates for it in self.bodies[crate]}

    def lost(self, again: str = "") -> set[str]:
        """The bodies that the record doesn't have as they stand; those of one crate may have to be read again."""
        record = Record(self.at)
        bodies = {**self.bodies, again: self.read(again)} if again else self.bodies
        return {it.label for found in bodies.values() for it in found if not record.has(it)}

    def keep(self, crate: str, record: Optional[Record] = None) -> bool:
        """Records all bodies of a crate as refused or proved."""
        return (record or Record(self.at)).keep(crate, self.bodies[crate], judged(self.bodies[crate]))

    def edited(self, file: str, change: Change, ask: Callable[[], set[str]]) -> set[str]:
        """What is told while a file is changed; with None for its new bytes it is gone."""
        at = f"{self.at}/{file}"
        with open(at, "rb") as it:
            before = it.read()
        after = change(before)
        assert after != before, file
        os.remove(at)
        if after is not None:
            put(at, after)
        told = ask()
        put(at, before)
        return told


def put(file: str, text: bytes) -> None:
    os.makedirs(os.path.dirname(file), exist_ok=True)
    with open(file, "wb") as it:
        it.write(text)


def longer(text: bytes) -> bytes:
    return text + b"\n"


def first(folder: str, ending: str) -> str:
    """The first file below a folder with this ending."""
    found = sorted(f"{at}/{name}" for at, _, names in os.walk(folder) for name in names if name.endswith(ending))
    return os.path.relpath(found[0], folder)


def check_lost(count: ran.Count, name: str, lost: set[str], wanted: Iterable[str]) -> None:
    count.same(name, sorted(lost), sorted(wanted))


def edits_below(copy: Copy) -> Iterator[tuple[str, str, Change, Iterable[str]]]:
    """Edits of a crate on which others stand, and the bodies that these cost."""
    folder, mine = f"crates/{EDITED}", copy.of([EDITED])
    found = own(f"{copy.at}/{folder}")
    function, answer = next(
        (fn, files[0])
        for body in copy.bodies[EDITED]
        for fn in body.functions
        for name, files in found.answers.items()
        if fn.printed.fullmatch(name) and not fn.is_hidden
    )
    its = {it.label for it in copy.bodies[EDITED] if function in it.functions}
    source, shared = f"{folder}/{function.file}", next(it for it, _ in found.shared if it.endswith("/Answers.antt"))

    def does_more(text: bytes) -> bytes:
        return (
            text.decode()[: function.opening].encode() + b"\n    loop {}" + text.decode()[function.opening :].encode()
        )

    yield "what a function does", source, does_more, its
    yield "its answer", f"{folder}/{answer}", longer, its
    yield "an answer of a cycle of calls", f"{folder}/{shared}", longer, mine
    yield "a private function", source, lambda it: it + b"\nfn more() {\n    loop {}\n}\n", mine
    yield "an import", source, lambda it: b"use std::cmp;\n" + it, mine
    yield "a comment", source, lambda it: b"// More.\n" + it, ()


def edits_seen(copy: Copy) -> Iterator[tuple[str, str, Change, str]]:
    """Edits of what crates above see, and what a crate's files have that names it."""
    folder = f"crates/{EDITED}"
    clause = lambda it: re.sub(rb"(?s)(\npub fn .*?)ensures", rb"\1ensures m { 0 } ensures", it, count=1)
    yield "a clause", f"{folder}/src/utf8.rt", clause, rf"\b{EDITED}::[^;]*\butf8_text\b"
    yield "a type", f"{folder}/src/json_text.rt", lambda it: it + b"\npub struct M;\n", rf"\b{EDITED}::[^;]*\bJsonText\b"
    yield "a definition", f"{folder}/specs/Texts.antt", longer, rf"\bRattle\.{EDITED}\.specs\.Texts\b"
    yield "a lemma that other crates cite", f"{folder}/{LEMMA}", longer, rf"\bRattle\.{EDITED}\.proofs\.Placed\b"


def check_seen_below(count: ran.Count, copy: Copy) -> None:
    """What crates above see costs all of each crate that names it, and none of those that don't reach it."""
    above = listing().above([EDITED])
    texts = {it: own(f"{copy.at}/crates/{it}").texts.values() for it in above}
    for name, file, change, named in edits_seen(copy):
        least = copy.of({EDITED, *(it for it in above if any(re.search(named, text) for text in texts[it]))})
        lost = copy.edited(file, change, lambda: copy.lost(EDITED))
        count.check(f"{name} below, for those that name it", least <= lost, f"{sorted(least - lost)}")
        count.check(
            f"{name} below, for none but those above", lost <= copy.of(above), f"{sorted(lost - copy.of(above))}"
        )
    lost = copy.edited(f"crates/{EDITED}/specs/Known.antt", longer, copy.lost)
    count.check(
        "a definition that one crate cites",
        copy.of([EDITED, "connection_messages"]) <= lost
        and not lost & copy.of(["value_reading", "conversation_reading", "open_calls"]),
        f"{sorted(lost)}",
    )


def check_below(count: ran.Count, copy: Copy) -> None:
    """What nothing else sees of a function costs its own bodies alone, and what the crate sees those of the crate."""
    for name, file, change, wanted in edits_below(copy):
        check_lost(count, f"{name} below", copy.edited(file, change, lambda: copy.lost(EDITED)), wanted)
    change = lambda it: it.replace(b"\njob_slots: ", b"\njob_slots: itoa ")
    lost = copy.edited("crates.txt", change, copy.lost)
    check_lost(count, "another library below job_slots", lost, copy.of(listing().above(["job_slots"])))


def check_bodies(count: ran.Count, copy: Copy) -> None:
    """A body that is new or another costs itself alone, and one that goes nothing."""
    crate = "rpc_messages"
    folder = f"crates/{crate}/wrong-bodies"
    file = f"{folder}/{first(f'{copy.at}/{folder}', '.toml')}"
    name = next(it.name for it in copy.bodies[crate] if f'name = "{it.name}"' in ran.text_of(f"{copy.at}/{file}"))

    def lost() -> set[str]:
        return copy.lost(crate)

    def without(text: bytes) -> bytes:
        return b"[[" + b"[[".join(text.split(b"[[")[2:])

    def again(text: bytes) -> bytes:
        return text + b"\n[[" + text.split(b"[[")[1].replace(name.encode(), b"one_more")

    for what, change, wanted in (
        ("a body more", again, {f"{crate}/one_more"}),
        ("a body less", without, set()),
        ("a body of another name", lambda it: it.replace(name.encode(), b"another"), {f"{crate}/another"}),
        ("a body's sentence", lambda it: it.replace(b"\nwhat = ", b'\nwhat = "It is so."\n#', 1), set()),
        (
            "what a body puts in",
            lambda it: re.sub(rb"\nnew = (['\"]+)", rb"\nnew = \1/* */ ", it, count=1),
            {f"{crate}/{name}"},
        ),
        ("how it is tried", lambda it: it.replace(b"\nname = ", b"\nalone = true\nname = ", 1), {f"{crate}/{name}"}),
    ):
        check_lost(count, what, copy.edited(file, change, lost), wanted)


def check_scripts(count: ran.Count, copy: Copy) -> None:
    """What judges is part of each sum, and what runs the checks of none."""
    for it in ("bodies", "functions", "rounds", "verdicts"):
        lost = copy.edited(f"checks/support/{it}.py", longer, copy.lost)
        check_lost(count, f"an edit of what judges, {it}.py", lost, copy.every)
    for it in ("checks/wrong_bodies.py", "checks/support/trial.py", "checks/support/record.py", "bin/test"):
        check_lost(count, f"an edit of {it}", copy.edited(it, longer, copy.lost), ())


def check_lines(count: ran.Count, copy: Copy) -> None:
    """A line that is missing or wrong costs what it stands for."""
    crate = next(it for it, bodies in copy.bodies.items() if bodies)
    label = copy.bodies[crate][0].label
    for name, change, wanted in (
        ("a body's line that is missing", lambda it: re.sub(rb"\n    .*", b"", it, count=1), {label}),
        ("a body's line with another sum", lambda it: re.sub(rb"\n    \w", b"\n    x", it, count=1), {label}),
        (
            "a crate's line with another sum",
            lambda it: re.sub(rb"\n(\w+) \w", rb"\n\1 x", it, count=1),
            copy.of([crate]),
        ),
        ("a crate's line that is cut", lambda it: re.sub(rb"\n(\w+) \w+\n", rb"\n\1\n", it, count=1), copy.of([crate])),
        ("a record that is gone", lambda it: None, copy.every),
        ("a record that is no text", lambda it: b"\xff" + it, copy.every),
    ):
        check_lost(count, name, copy.edited(FILE, change, copy.lost), wanted)
    check_lost(count, "no edit at last", copy.lost(), ())


def check_kits(count: ran.Count, copy: Copy) -> None:
    """Of a kit only the logic counts, and not its name or where it lies."""
    room, path = f"{ran.ROOM.name}/kit", os.environ["PATH"]
    os.makedirs(f"{room}/bin")
    os.symlink(f"{kit.folder()}/bin/rattle", f"{room}/bin/rattle")
    for name, logic, wanted in (
        ("another kit of this logic", kit.logic(kit.version() or ""), set()),
        ("another logic", "another", copy.every),
    ):
        put(f"{room}/bin/rt", f"#!/bin/sh\necho 'a-kit logic {logic}'\n".encode())
        os.chmod(f"{room}/bin/rt", 0o755)
        os.environ["PATH"] = f"{room}/bin:{path}"
        check_lost(count, name, copy.lost(), wanted)
        os.environ["PATH"] = path


def tried(copy: Copy, *words: str) -> list[str]:
    """What the script says that tries wrong bodies."""
    words = (sys.executable, "checks/wrong_bodies.py", *words)
    return subprocess.run(words, cwd=copy.at, capture_output=True, text=True, check=False).stdout.splitlines()


def check_left_out(count: ran.Count, copy: Copy) -> None:
    """Bodies whose lines hold aren't tried, and each crate counts as one that passed."""
    crates = [it for it, bodies in copy.bodies.items() if bodies]
    for words, left_out in (((), crates), (("--record", crates[0]), crates[:1])):
        told = tried(copy, *words)
        wanted = [
            f"== {it}: {len(copy.bodies[it])} bodies not tried: checks/tried.txt has them as they stand"
            for it in left_out
        ]
        found = [it for it in told if "not tried" in it]
        count.same(f"none is tried {words}", (found, told[-1:]), (wanted, [f"{len(left_out)} passed, 0 failed"]))


def check_writing(count: ran.Count, copy: Copy) -> None:
    """Lines are written crate by crate, and by several at once."""
    crates = [it for it, bodies in copy.bodies.items() if bodies]

    def one() -> set[str]:
        copy.keep(crates[1])
        return copy.lost()

    check_lost(
        count, "one crate in a new record", copy.edited(FILE, lambda it: None, one), copy.every - copy.of(crates[1:2])
    )
    gone = lambda it: it.replace(f"\n{crates[0]} ".encode(), b"\ngone 1\n    2 3\nmore ")
    check_lost(count, "one crate more", copy.edited(FILE, gone, one), copy.of(crates[:1]))

    def a_part() -> set[str]:
        bodies = copy.bodies[crates[0]]
        for some in (bodies[:1], bodies[2:]):
            Record(copy.at).keep(crates[0], bodies, judged(some))
        return copy.lost()

    lost = copy.edited(FILE, lambda it: None, a_part)
    check_lost(count, "some bodies, and then more", lost & copy.of(crates[:1]), {copy.bodies[crates[0]][1].label})

    def meanwhile() -> set[str]:
        record = Record(copy.at)
        source = f"crates/{EDITED}/specs/Texts.antt"
        kept = copy.edited(source, longer, lambda: {it for it in crates if copy.keep(it, record)})
        return kept

    kept = copy.edited(FILE, lambda it: None, meanwhile)
    above = {*listing().above([EDITED])}
    count.check(
        "nothing of what has changed meanwhile",
        {*crates} - above <= kept and not kept & {EDITED, "connection_messages", "conversation_reading"},
        f"{kept}",
    )

    def at_once() -> set[str]:
        with ThreadPoolExecutor(8) as pool:
            [*pool.map(copy.keep, crates[:8])]
        return copy.lost()

    lost = copy.edited(FILE, lambda it: None, at_once)
    check_lost(count, "several at once", lost, copy.every - copy.of(crates[:8]))
    left = [it for it in os.listdir(f"{copy.at}/checks") if it.startswith("tmp")]
    count.same("nothing is left beside it", left, [])


def put_library(top: str, edits: list[toy_library.Edit], files: dict[str, str]) -> str:
    """Writes the small library with these edits, and gives its folder."""
    folder = f"{top}/crates/toy"
    put(f"{top}/crates.txt", b"toy:\n")
    for part in ("src", "specs", "proofs"):
        shutil.rmtree(f"{folder}/{part}", ignore_errors=True)
    for path, text in toy_library.edited(files, edits).items():
        put(f"{folder}/{path}", text.encode())
    return folder


def check_seen(count: ran.Count, room: str) -> None:
    """Of each edit of the small library whether its text shows it to crates above."""
    files = {**toy_library.FILES, **toy_library.TEXTS}
    plain = seen(put_library(room, [], files))
    for is_seen, edits in ((False, toy_library.UNSEEN), (True, toy_library.SEEN)):
        for it in edits:
            count.same(
                f"{it.what} is {'' if is_seen else 'not '}seen", seen(put_library(room, [it], files)) != plain, is_seen
            )


def shown(top: str, edits: list[toy_library.Edit]) -> dict[str, str]:
    """What the kit shows to crates above of the small library with these edits: its interface, its definitions, the
    modules that can be named from outside, and what its format says beside its sums."""
    folder = put_library(top, edits, toy_library.FILES)
    ended = subprocess.run(["rt", "lib"], cwd=folder, capture_output=True, text=True, check=False)
    if ended.returncode:
        return {"not built": ended.stdout + ended.stderr}
    library = f"{folder}/out/rlib/toy.rlib"
    # (how a function is compiled is no statement)
    told = {"format": re.sub(r"^(checked|sum|cold|inline\S*) .*\n", "", ran.text_of(f"{library}/format"), flags=re.M)}
    for part in ("interface", "lang/antt/specs"):
        for at, _, names in os.walk(f"{library}/{part}"):
            told |= {os.path.relpath(f"{at}/{it}", library): ran.text_of(f"{at}/{it}") for it in names}
    lines = ran.text_of(f"{library}/lang/antt/made.json").split("\n")
    made = {json.loads(key): text for key, text in zip(lines, lines[1:]) if key.startswith('"')}
    named = {it.removeprefix("facade/") for it in made if it.startswith("facade/")}
    return told | {it: text for it, text in made.items() if it in named or it.startswith("facade")}


def check_library(count: ran.Count, room: str) -> None:
    """The kit shows the same of the small library with all edits that aren't to be seen, and more with one that is."""
    plain = shown(room, [])
    count.check("the small library is built", "interface/lang/src/lib.rt" in plain and len(plain) > 40, f"{[*plain]}")
    unseen = [it for it in toy_library.UNSEEN if it.file in toy_library.FILES]
    found = shown(room, unseen)
    count.same("what crates above see", [it for it in {**plain, **found} if plain.get(it) != found.get(it)], [])
    other = shown(room, toy_library.SEEN[:1])
    count.same(
        "a clause is seen",
        [it for it in plain if plain[it] != other.get(it)],
        ["proofs/echo/Reads", "specs/contracts/echo"],
    )


def sum_of_library() -> str:
    """A sum of what the look at the small library rests on: the logic, the library with its edits, and how it is looked
    at."""
    return sum_of(
        kit.logic(kit.version() or ""),
        ran.text_of("checks", "support", "toy_library.py"),
        *map(inspect.getsource, (put_library, shown, check_library)),
    )


def check_library_once(count: ran.Count, words: list[str]) -> None:
    """The same, unless checks/shown.txt has that it was found so; --record writes that file."""
    recorded = ran.text_of(SHOWN) if os.path.isfile(f"{ran.TOP}/{SHOWN}") else ""
    if recorded == f"{sum_of_library()}\n" and "--anew" not in words:
        count.check(f"{SHOWN} has the small library as it stands", True)
        return
    failed = count.failed
    check_library(count, f"{ran.ROOM.name}/library")
    if "--record" in words and count.failed == failed:
        put(f"{ran.TOP}/{SHOWN}", f"{sum_of_library()}\n".encode())


def main(words: list[str]) -> None:
    count = ran.Count()
    check_seen(count, f"{ran.ROOM.name}/texts")
    check_library_once(count, words)
    copy = Copy(f"{ran.ROOM.name}/tree")
    record = Record(copy.at)
    for crate in copy.bodies:
        if copy.bodies[crate]:
            copy.keep(crate, record)
    count.check("a record of all bodies", not copy.lost() and len(copy.every) > 100)
    for check in (
        check_below,
        check_seen_below,
        check_bodies,
        check_scripts,
        check_lines,
        check_left_out,
        check_writing,
        check_kits,
    ):
        check(count, copy)
    count.end()


if __name__ == "__main__":
    main(sys.argv[1:])
