"""The program as one file that needs nothing of a system but Linux, as bin/build-static links it, tried by
checks/ports.py."""
import os
import re
import shutil
import sys
from functools import partial
from typing import NamedTuple

from support import ran, rows

from tools import machine, objects, sources, static_program  # (ran has put bin/ on the path)
from tools.repository import Fault, read_bytes

QEMU = "qemu-aarch64-static"
# What a program needs, beside what Linux gives: nothing; so no line of readelf says one of these.
NEEDS = ("INTERP", "NEEDED", "TEXTREL")
# The tests that are run with it, but for those that measure.
FILES = [f"{ran.TOP}/checks/test_{it}.py" for it in ("program", "serving", "lines", "methods", "judge_command")]


class Static(NamedTuple):
    """A platform's program: its file, and what runs it here."""

    platform: str
    file: str
    runner: list[str]

    @property
    def is_native(self) -> bool:
        return not self.runner

    def name(self, what: str) -> str:
        return f"rpc_tool for {self.platform}: {what}"


def lacking(platform: str) -> str:
    """What the program for a platform lacks here to be linked or run, or nothing."""
    try:
        static_program.musl(platform)
    except Fault as fault:
        return str(fault)
    if platform == "linux-arm64" and shutil.which(QEMU) is None:
        return f"{QEMU} isn't there (Debian's qemu-user-static)"
    return ""


def check_file(count: ran.Count, it: Static) -> None:
    """It names no loader and no library, and its threads have the stack that they have by glibc, which isn't run."""
    status, told = ran.told_by(["readelf", "-lWd", it.file], 60)
    found = [word for word in NEEDS if word in told.decode()]
    count.check(it.name("readelf tells of it"), status == 0, told[-300:])
    count.same(it.name("what it needs"), found, [])
    stack = re.search(r"^  GNU_STACK .* 0x([0-9a-f]+) (RW[E ]) ", told.decode(), re.M)
    count.same(it.name("its stack"), stack and (int(stack[1], 16), stack[2].strip()), (static_program.STACK, "RW"))


def check_empty_root(count: ran.Count, it: Static, room: str) -> None:
    """It runs in a root in which nothing else is, but for what runs it and a table."""
    root = f"{room}/root-{it.platform}"
    os.makedirs(root)
    files = [*(shutil.which(word) or word for word in it.runner), it.file]
    for file in files:
        shutil.copy(file, root)
    with open(f"{root}/table.toml", "w", encoding="utf-8") as table:
        table.write(rows.METHODS)
    way = ["chroot"] if os.geteuid() == 0 else ["unshare", "-r", "chroot"]
    inside = [*way, root, *(f"/{os.path.basename(file)}" for file in files)]
    if ran.told_by([*inside, "--version"], 60)[0] != 0 and os.geteuid():
        print(f"SKIPPED: {it.name('in an empty root')}, which takes root, or user namespaces", flush=True)
        return
    add = '{"jsonrpc":"2.0","method":"add","params":[2,3],"id":7}'
    for words in (["play"], ["serve"], ["serve", "--workers", "4"]):
        got = ran.run([*inside[1:], *words, "--table", "/table.toml"], rows.frames(add), inside[0])
        count.same(it.name(f"{words} in an empty root"), got, (0, rows.frames(rows.answered("5")), b""))
    got = ran.run([*inside[1:], "check", "--table", "/nothing.toml"], b"", inside[0])
    count.same(it.name("no table in an empty root"), got, (2, b"", b"table: cannot be read\n"))


def called(count: ran.Count, it: Static, what: str, words: list[str], least: int) -> None:
    """Runs a check of this folder, whose last line is its tally."""
    env = {**os.environ, "WITHOUT_GATE": "yes"}
    status, told = ran.told_by(words, 900, env=env, cwd=ran.TOP)
    passed = re.search(r"^(\d+) passed, 0 failed$", told.decode(errors="replace"), re.M)
    well = status == 0 and passed is not None and int(passed[1]) >= least
    count.check(it.name(what), well, told[-1500:].decode(errors="replace"))
    if passed:
        print(f"{it.name(what)}: {passed[1]} passed", flush=True)


def check_tests(count: ran.Count, it: Static, program: str) -> None:
    """The tests of the program that the gate built, with this one: all, or under qemu those of rows and of tables."""
    python = machine.python_with_pytest()
    if python is None:
        print(f"SKIPPED: {it.name('the tests')}, which take pytest", flush=True)
        return
    words = [python, "-m", "pytest", "-q", "-n", str(machine.processors()), "-p", "no:cacheprovider"]
    if it.is_native:
        called(count, it, "the tests", [*words, "-m", "not alone", *FILES, "--program", program], 500)
    else:
        some = [*FILES[1:2], *FILES[3:]]
        called(
            count,
            it,
            "the tests",
            [*words, "-m", "not alone", "-k", "row or methods or each", *some, "--program", program],
            200,
        )


def check_refused(count: ran.Count, it: Static, room: str, object_file: str) -> None:
    """Each request that goes to malloc is refused in turn, of the same object linked with a malloc that refuses."""
    made = f"{room}/refusing/{it.platform}"
    os.makedirs(made)
    source = os.path.join(ran.TOP, "checks", "support", "refuse_malloc.c")
    status, told = ran.told_by(
        ["cc", "-c", "-O2", "-fPIE", "-ffunction-sections", source, "-o", f"{made}/refuse.o"], 60
    )
    count.check(it.name("the malloc that refuses is compiled"), status == 0, told[-900:])
    program = static_program.link(it.platform, f"{made}/rpc_tool", f"{made}/room", [object_file, f"{made}/refuse.o"])
    words = [sys.executable, f"{ran.TOP}/checks/refused_memory.py", "--program", program]
    called(count, it, "refused memory", [*words, "checked", "judged", "served"], 500)


def started(room: str, it: Static) -> str:
    """A file that runs it: itself, or a script that has qemu do so."""
    if it.is_native:
        return it.file
    script = f"{room}/rpc_tool-{it.platform}"
    with open(script, "w", encoding="utf-8") as made:
        made.write(f'#!/bin/sh\nexec {" ".join(it.runner)} {it.file} "$@"\n')
    os.chmod(script, 0o755)
    return script


def check_platform(count: ran.Count, room: str, platform: str, object_file: str) -> None:
    why = lacking(platform)
    if why:
        print(f"SKIPPED: the program for {platform}: {why}", flush=True)
        return
    files = [f"{room}/{it}/{platform}/rpc_tool" for it in ("once", "twice")]
    for at in ("once", "twice"):
        static_program.make(platform, object_file, f"{room}/{at}", f"{room}/{at}/room")
    count.check(f"rpc_tool for {platform}, made in two folders", read_bytes(files[0]) == read_bytes(files[1]))
    check_musl(count, room, platform)
    it = Static(platform, files[0], [] if platform == "linux-x64" else [QEMU])
    check_file(count, it)
    check_empty_root(count, it, room)
    program = started(room, it)
    check_tests(count, it, program)
    streams = [sys.executable, f"{ran.TOP}/checks/random_streams.py", "--program", program]
    called(count, it, "random streams", [*streams, "900" if it.is_native else "150"], 100)
    if it.is_native:
        check_refused(count, it, room, object_file)


def check_parts(count: ran.Count, room: str) -> None:
    """What is trusted beside musl, by itself: copies beside a loop over bytes, and the heap by threads."""
    os.makedirs(room)
    words = ["cc", "-std=c11", "-O2", "-Wall", "-Wextra", "-Werror", "-fno-builtin"]
    renamed = [f"-Dmem{name}=tried_{tried}" for name, tried in (("move", "move"), ("cpy", "copy"), ("set", "set"))]
    more_words: dict[str, list[str]] = {"copies": renamed, "heap": []}
    for name, more in more_words.items():
        made = [*words, *more, "-c", f"{static_program.HERE}/{name}.c", "-o", f"{room}/{name}.o"]
        count.same(f"{name}.c is compiled without a warning", ran.told_by(made, 60), (0, b""))
    source = f"{ran.TOP}/checks/support/static_parts.c"
    tried = ["cc", "-O2", "-Wall", "-Wextra", "-Werror", "-D_GNU_SOURCE", "-pthread", source]
    made = [*tried, f"{room}/copies.o", f"{room}/heap.o", "-o", f"{room}/parts"]
    count.same("what tries them is compiled", ran.told_by(made, 60), (0, b""))
    count.same("copies and the heap", ran.told_by([f"{room}/parts"], 120), (0, b"well\n"))


def check_musl(count: ran.Count, room: str, platform: str) -> None:
    """Another musl isn't taken."""
    for name in static_program.MUSL[platform].sums:
        other = f"{room}/other-musl/{platform}-{name}"
        shutil.copytree(
            static_program.musl(platform),
            other,
            ignore=lambda _, names: {*names} - {*static_program.MUSL[platform].sums},
        )
        count.check(f"musl's files for {platform}", static_program.is_musl(other, platform))
        with open(f"{other}/{name}", "r+b") as it:
            it.seek(100)
            it.write(b"\xaa\x55")
        count.check(f"another {name} for {platform} isn't taken", not static_program.is_musl(other, platform))


def check_sums(count: ran.Count, folder: str) -> None:
    """Both programs have the sums in release/, where that has objects of these sources."""
    if objects.is_whole(objects.RELEASED, sources.stamp()):
        count.same("the sums of the programs", static_program.sums(folder), ran.text_of("release", "static.sha256"))


def check_all(count: ran.Count, room: str) -> None:
    """(`room` is a folder)"""
    check_parts(count, f"{room}/parts")
    if ran.lacks("rt", "the program isn't linked as one file"):
        return
    at = objects.folder()
    if at is None:
        print(
            "SKIPPED: the program as one file, of which no objects lie here: bin/build-static --objects makes them",
            flush=True,
        )
        return
    files = {f"linux-{processor}": f"{room}/{processor}.o" for processor in objects.PROCESSORS}
    for file, data in zip(files.values(), objects.unpacked(at).values()):
        with open(file, "wb") as made:
            made.write(data)
    ran.side_by_side(partial(check_platform, count, room, *it) for it in files.items())
    if not any(map(lacking, static_program.PLATFORMS)):
        check_sums(count, f"{room}/once")
