"""The extension for Python in release/. It is the one that its sources and the released library give, byte for byte, and takes nothing but
functions of Python and of C. The declarations of Python that it is made by are those of Python's own headers. Each of its calls is made again and
again, so that nothing is kept; with each request for memory refused in turn; and under valgrind."""
from __future__ import annotations

import glob
import os
import re
import subprocess
import sys
import sysconfig
import tempfile

from support import ran
from tools import extension, library  # (ran has put bin/ on the path)

TESTS = f"{ran.TOP}/bindings/python/tests"
CALLS = f"{TESTS}/extension_calls.py"
WARNINGS = ["-std=gnu11", "-O2", "-fPIC", "-Wall", "-Wextra", "-Werror", "-Wno-unused-parameter"]
# What memory is taken by.
OF_C = ["malloc", "realloc", "free"]
OF_PYTHON = [
    "Bytes_FromStringAndSize",
    "Bytes_FromObject",
    "MemoryView_FromObject",
    "Unicode_DecodeUTF8",
    "Unicode_AsEncodedString",
]
OF_PYTHON += ["Tuple_New", "List_New", "List_Append", "Long_FromLongLong", "Long_FromUnsignedLongLong"]
# What of the C library the extension and the library in it call.
LIBC = {"malloc", "realloc", "free", "memcpy", "memmove", "memset"}
FEWEST = 100


def said(words: list[str], **more: str) -> tuple[int, str]:
    env = {**os.environ, "PYTHONDONTWRITEBYTECODE": "1", **more}
    ended = subprocess.run(words, cwd=TESTS, env=env, capture_output=True, text=True, check=False)
    return ended.returncode, ended.stdout + ended.stderr[-2000:]


def headers() -> list[str]:
    """The folders of Python's headers that are here."""
    found = glob.glob("/usr/include/python3.*") + glob.glob(
        os.path.expanduser("~/.pyenv/versions/3.*/include/python3.*")
    )
    found.append(sysconfig.get_paths()["include"])
    # (the extension is for 3.8 and later)
    number = re.compile(r"python3\.(\d+)$")
    matches = {it: number.search(it) for it in found if os.path.isfile(f"{it}/Python.h")}
    return sorted(it for it, match in matches.items() if match and int(match[1]) >= 8)


def check_file(count: ran.Count) -> None:
    file = f"{library.RELEASED}/{extension.EXTENSION}"
    count.same("the sum of the extension", extension.sum_of(library.RELEASED), ran.text_of("release", extension.SUM))
    if not ran.lacks("nm", "what the extension calls isn't looked at"):
        status, names = said(["nm", "-D", file])
        found = [it.split()[-2:] for it in names.splitlines()]
        seen = {name for kind, name in found if kind not in "Uw"}
        called = {name for kind, name in found if kind == "U"}
        count.same("what is seen of the extension", (status, seen), (0, {extension.SEEN}))
        count.same("what of C it calls", {it for it in called if not it.startswith("Py")} - LIBC, set())
    if not ran.lacks("rt", "the extension isn't made again"):
        is_same, text = extension.compared(library.RELEASED, library.RELEASED)
        if is_same is None:
            print(f"SKIPPED: {text}", flush=True)
        else:
            count.check("the extension is made again", is_same, text)


def compiled(include: str, words: list[str]) -> tuple[int, str]:
    """Compiles the extension with Python's headers, which the compiler holds against the extension's own declarations."""
    folders = [f"-I{include}", f"-I{ran.TOP}/include"]
    return said(["cc", *WARNINGS, *folders, "-DPYTHON_HEADERS", *words])


def check_declarations(count: ran.Count, room: str) -> None:
    found = headers()
    if not found:
        print("SKIPPED: the extension's declarations beside Python's headers, which aren't here", flush=True)
    for it in found:
        got = compiled(it, ["-c", f"{extension.FOLDER}/extension.c", "-o", f"{room}/extension.o"])
        count.same(f"{it}: the extension's declarations are those of Python's headers", got, (0, ""))


def check_memory(count: ran.Count, room: str) -> None:
    got = said([sys.executable, CALLS])
    count.check("all calls, again and again", got[0] == 0, f"{got}")
    found = headers()
    if not found:
        print("SKIPPED: memory that is refused to the extension, which needs Python's headers", flush=True)
        return
    made, wrapped = f"{room}/refused.so", [*OF_C, *(f"Py{it}" for it in OF_PYTHON)]
    sources = [f"{extension.FOLDER}/extension.c", f"{TESTS}/refused_memory.c", f"{library.RELEASED}/libbullmyrtle.a"]
    words = ["-shared", *(f"-Wl,--wrap={it}" for it in wrapped), *sources, "-o", made]
    got = compiled(found[0], words)
    count.check("the extension is built with what refuses memory", got[0] == 0, f"{got}")
    got = said([sys.executable, CALLS, made])
    many = re.search(r"^(\d+) requests for memory were refused", got[1], re.M)
    count.check("each request for memory is refused in turn", many and int(many[1]) >= FEWEST, f"{got}")


def check_valgrind(count: ran.Count) -> None:
    """(an interpreter of the system's, since valgrind needs its library's symbols)"""
    python = "/usr/bin/python3"
    if ran.lacks("valgrind", "the extension isn't run under it") or not os.path.isfile(python):
        return
    words = ["valgrind", "-q", "--error-exitcode=9", "--errors-for-leak-kinds=none", python, CALLS]
    got = said(words, PYTHONMALLOC="malloc", ROUNDS="3")
    count.check("all calls under valgrind", got[0] == 0, f"{got}")


count = ran.Count()
if os.path.isfile(f"{library.RELEASED}/{extension.EXTENSION}"):
    check_file(count)
    if not ran.lacks("cc", "the extension isn't compiled with Python's headers"):
        with tempfile.TemporaryDirectory() as room:
            check_declarations(count, room)
            check_memory(count, room)
    check_valgrind(count)
else:
    print(f"SKIPPED: the extension for Python, since release/ has no {extension.EXTENSION}", flush=True)
count.end()
