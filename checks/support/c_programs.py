"""Programs in C over the library: which library is tried, how a program is built with it, and how it is run."""
import os
import re
import shutil
import subprocess
from typing import Any, Iterable, Optional

from support import ran

WARNINGS = ["-Wall", "-Wextra", "-pedantic", "-Werror"]
C99 = ["cc", "-std=c99", "-D_POSIX_C_SOURCE=200809L", "-O1", "-g", *WARNINGS]
EXAMPLES = os.path.join(ran.TOP, "examples", "c")
SUPPORT = os.path.join(ran.TOP, "checks", "support")
PLAYER = os.path.join(SUPPORT, "play_script.c")
# What a program is built with beside its own file.
PLAYER_NEEDS = ["-D_GNU_SOURCE"]
VALGRIND = ["valgrind", "-q", "--error-exitcode=9", "--leak-check=full", "--errors-for-leak-kinds=all"]
HAS_CJSON = b"#include <cjson/cJSON.h>\nint main(void) { return 0; }\n"


def default_library() -> str:
    """The library that `bin/build-library` built here, or else the released one."""
    built, released = (os.path.join(ran.TOP, *it) for it in (("out", "library"), ("release",)))
    return built if os.path.isdir(built) else released


def is_whole(library: str) -> bool:
    return all(os.path.isfile(f"{library}/{it}") for it in ("libbullmyrtle.so.1", "libbullmyrtle.a", "bullmyrtle.h"))


def said(words: list[str], given: bytes = b"", **more: Any) -> tuple[int, bytes, bytes]:
    ended = subprocess.run(words, input=given, capture_output=True, timeout=600, check=False, **more)
    return ended.returncode, ended.stdout, ended.stderr


def said_slowly(words: list[str], given: bytes) -> tuple[int, bytes, bytes]:
    """The same with the input written byte by byte."""
    with subprocess.Popen(
        words, stdin=subprocess.PIPE, stdout=subprocess.PIPE, stderr=subprocess.PIPE, bufsize=0
    ) as it:
        for at in range(len(given)):
            ran.pipe(it.stdin).write(given[at : at + 1])
        output, errors = it.communicate(timeout=60)
    return it.returncode, output, errors


def linked(library: str, way: str) -> list[str]:
    if way == "static":
        return [f"{library}/libbullmyrtle.a"]
    return [f"{library}/libbullmyrtle.so.1", f"-Wl,-rpath,{library}"]


def build(
    count: Any,
    library: str,
    room: str,
    file: str,
    way: str,
    more: Iterable[str] = (),
    words: Optional[list[str]] = None,
) -> str:
    """Builds a program in C with the library, shared or static, and gives its file."""
    made = f"{room}/{os.path.basename(file).removesuffix('.c')}-{way}"
    got = said([*(words or C99), f"-I{library}", file, *linked(library, way), *more, "-o", made])
    count.check(f"{os.path.basename(file)} is built without a warning, {way}", got[0] == 0, f"{got}")
    return made


def built_alone(file: str, room: str, more: Iterable[str] = ()) -> Optional[str]:
    """The same with the library that is tried, where nothing else is; None, and a line that says so, where there is no
    library or no compiler."""
    library = default_library()
    if not is_whole(library) or shutil.which("cc") is None:
        print(f"SKIPPED: what needs {os.path.basename(file)}, since there is no C compiler or no library", flush=True)
        return None
    made = f"{room}/{os.path.basename(file).removesuffix('.c')}"
    subprocess.run([*C99, f"-I{library}", file, *linked(library, "static"), *more, "-o", made], check=True)
    return made


def wrapped(file: str) -> list[str]:
    """The words by which a program's calls go to those that this file in C puts around them."""
    with open(file, encoding="ascii") as it:
        return [f"-Wl,--wrap={name}" for name in sorted({*re.findall(r"__wrap_(\w+)\(", it.read())})]


def has_cjson() -> bool:
    return said([*C99, "-fsyntax-only", "-x", "c", "-"], HAS_CJSON)[0] == 0


def lacks_cjson() -> bool:
    """Whether cJSON isn't there; what is skipped for want of it is told."""
    is_missing = not has_cjson()
    if is_missing:
        print("SKIPPED: the language server in C, since cJSON (libcjson-dev) isn't here", flush=True)
    return is_missing


def watched(count: ran.Count, name: str, words: list[str], given: bytes = b"") -> None:
    """Runs a program under valgrind: it has no error and loses nothing, and gives what it does alone."""
    if shutil.which("valgrind"):
        alone, got = said(words, given), said([*VALGRIND, *words], given)
        count.check(f"{name}, under valgrind", got == alone, f"{got}"[-1500:])
