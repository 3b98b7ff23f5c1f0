"""usage: compile.py WORD ..     compiles and links a program in C for WebAssembly, by the words of a compiler of C

It is linked with as much of a C library as it takes (libc.c), and runs by run.mjs. The kit's compiler is the one that makes bullmyrtle.wasm,
and comes without headers: one stands for all."""
import os
import sys
import tempfile

HERE = os.path.dirname(os.path.realpath(__file__))
sys.path.insert(0, f"{HERE}/../../../bin")

from tools import porting  # noqa: E402
from tools.repository import Fault  # noqa: E402
from tools.targets import TARGETS  # noqa: E402

TARGET = TARGETS["wasm32"]
HEADERS = ["errno.h", "stdbool.h", "stddef.h", "stdint.h", "stdio.h", "stdlib.h", "string.h", "unistd.h"]
OWN = ["-ffreestanding", "-nostdinc", "-Wno-unused-parameter", f"-I{HERE}"]


def compiled(file: str, words: list[str], room: str) -> str:
    made = f"{room}/{os.path.basename(file)}.o"
    porting.called(
        "clang", f"--target={TARGET.triple}", *TARGET.words, *words, *OWN, f"-I{room}", "-c", file, "-o", made
    )
    return made


def main(words: list[str]) -> None:
    made = words[words.index("-o") + 1]
    given = [it for it in words if it not in ("-o", made)]
    sources = [it for it in given if it.endswith(".c")]
    linked = [it.removeprefix("-Wl,") for it in given if it.startswith("-Wl,") or it.endswith(".a")]
    options = [it for it in given if it not in sources and it.startswith("-") and not it.startswith("-Wl,")]
    with tempfile.TemporaryDirectory(prefix="wasm-") as room:
        for it in HEADERS:
            porting.written(f"{room}/{it}", '#include "libc.h"\n')
        objects = [compiled(it, options, room) for it in (*sources, f"{HERE}/libc.c")]
        porting.linked_wasm(["--export=program", *objects, *linked], made, room)


try:
    main(sys.argv[1:])
except Fault as fault:
    sys.exit(f"{fault}")
