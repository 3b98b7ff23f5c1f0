"""usage: python3 checks/node_package.py
       python3 checks/node_package.py --tests [FILE ..]     the package's own tests alone, or those of some files, such as calls, each file by itself

The package for Node.js in bindings/node, over the released addon. The addon is the one that its sources and the released library give, byte
for byte; its declarations are those of Node.js's own headers; it calls nothing else. The package's own tests pass, with the examples, what
docs/node.md shows, the types by TypeScript's compiler, and editors' sessions. A player of scripts over the lower floor gives what the model of
docs/connection.md does, for its rows and for random sessions. Tests pass once more with the addon under AddressSanitizer, and others with each
request for memory refused in turn. Each Node.js that is named in the variable NODES, separated by colons, is tried, or else the one on the PATH. What needs a tool that is missing is
skipped, and told."""
import glob
import os
import re
import shutil
import subprocess
import sys
import tempfile
from concurrent.futures import ThreadPoolExecutor, as_completed
from functools import cache, partial

from support import connection_fuzzing as fuzzing
from support import connection_rows as rows
from support import playing_scripts, ran
from support.c_programs import WARNINGS, said

from tools import addon, library  # (ran has put bin/ on the path)

PACKAGE = os.path.join(ran.TOP, "bindings", "node")
PLAYER = os.path.join(PACKAGE, "tests", "play_script.js")
# So many tests there are at least, and so many random sessions are played.
FEWEST, SESSIONS = 300, 500
# (support/arm64.py runs them on a processor that is worked out in software, by fewer processes than there are processors)
TIMES_SLOWER = int(os.environ.get("TIMES_SLOWER", "1"))
PROCESSES = int(os.environ.get("PROCESSES", os.cpu_count() or 1))
# (a limit that a busy machine doesn't meet)
SECONDS = 1_800 * TIMES_SLOWER
# What of the C library the addon and the library in it call.
LIBC = {"calloc", "free", "malloc", "memchr", "memcpy", "memmove", "memset", "realloc"}
# The tests that go through all of the addon, and start no process.
SANITIZED = [f"{it}.test" for it in ("connection", "requests", "calls", "bad_use", "streams", "ends")]
HEADERS = "console.log(require('path').join(process.execPath, '..', '..', 'include', 'node'))"


def check_addon(count: ran.Count) -> None:
    released = os.path.join(library.RELEASED, addon.ADDON)
    count.same("the sum of the addon", addon.sum_of(library.RELEASED), ran.text_of("release", addon.SUM))
    if shutil.which("nm"):
        _, names, _ = said(["nm", "-D", "--undefined-only", "--format=just-symbols", released])
        called = {it.partition("@")[0] for it in names.decode().split()}
        count.same("what the addon calls", {it for it in called if not it.startswith("napi_")}, LIBC)
        _, names, _ = said(["nm", "-D", "--defined-only", "--format=just-symbols", released])
        count.same(
            "what is seen of the addon",
            set(names.decode().split()),
            {"napi_register_module_v1", "node_api_module_get_api_version_v1"},
        )
    if ran.lacks("rt", "the addon isn't made again"):
        return
    is_same, text = addon.compared(library.RELEASED, library.RELEASED)
    if is_same is None:
        print(f"SKIPPED: {text}", flush=True)
    else:
        count.check("the addon is made again", is_same, text)


def headers_of(node: str) -> str:
    """The folder of a Node.js's headers, or nothing."""
    beside = said([node, "-e", HEADERS])[1].decode().strip()
    return next((it for it in (beside, "/usr/include/node") if os.path.isfile(f"{it}/node_api.h")), "")


def compiled(node: str, words: list[str], made: str) -> tuple[int, bytes, bytes]:
    """Compiles the addon with Node.js's headers, which the compiler holds against the addon's own declarations."""
    from_node = ["-DNODE_HEADERS", "-DNAPI_VERSION=8", "-isystem", headers_of(node), f"-I{library.RELEASED}"]
    files = [f"{addon.FOLDER}/addon.c", *([f"{library.RELEASED}/{addon.STATIC}"] if "-shared" in words else [])]
    return said(["cc", "-std=c11", "-fPIC", *words, *from_node, *files, "-o", made])


def check_declarations(count: ran.Count, node: str) -> None:
    if not headers_of(node):
        print(f"SKIPPED: the addon's declarations beside the headers of {node}, which aren't here", flush=True)
        return
    if ran.lacks("cc", "the addon isn't compiled with Node.js's headers"):
        return
    with tempfile.TemporaryDirectory() as room:
        got = compiled(node, [*WARNINGS, "-c"], f"{room}/addon.o")
        count.check(f"{node}: the addon's declarations are those of its headers", got[0] == 0, f"{got}")


@cache
def limit(node: str) -> list[str]:
    """A file that has no end is named then, where its Node.js can: 20.11 and later."""
    return [f"--test-timeout={SECONDS * 500}"] if b"--test-timeout" in said([node, "--help"])[1] else []


def ran_tests(node: str, names: list[str], env: dict[str, str]) -> tuple[int, str]:
    files = [f"{PACKAGE}/tests/{it}.js" for it in names] or sorted(glob.glob(f"{PACKAGE}/tests/*.test.js"))
    words = [node, "--test", "--test-reporter=tap", *limit(node), *files]
    try:
        ended = subprocess.run(
            words, cwd=PACKAGE, env={**os.environ, **env}, capture_output=True, text=True, timeout=SECONDS, check=False
        )
    except subprocess.TimeoutExpired as late:
        return 1, f"no end after {SECONDS} seconds: {late.stdout!r}"
    return ended.returncode, ended.stdout + ended.stderr


def check_tests(count: ran.Count, node: str, way: str, names: list[str], env: dict[str, str], fewest: int) -> None:
    check_told(count, f"{node}{way}", *ran_tests(node, names, env), fewest)


def check_told(count: ran.Count, of: str, status: int, text: str, fewest: int) -> int:
    """What a run of tests told of them, and how many it was."""
    tests = re.findall(r"^ *(not )?ok \d+ - (.*?)(?: # SKIP (.*))?$", text, re.M)
    for is_wrong, name, why in tests:
        if why:
            print(f"SKIPPED: {name}: {why}", flush=True)
        else:
            found = (
                re.search(rf"^ *not ok \d+ - {re.escape(name)}$(.*?)^ *\.\.\.$", text, re.M | re.S)
                if is_wrong
                else None
            )
            count.check(f"{of}: {name}", not is_wrong, found[1].strip()[-1200:] if found else "")
    count.check(
        f"{of}: its status",
        status == 0,
        text[-1500:] if status and not any(it[0] for it in tests) else f"{status}",
    )
    done = sum(not why for _, _, why in tests)
    if fewest:
        count.check(f"{of}: {fewest} tests at least", done >= fewest, f"{done}")
    print(f"{of}: {done} tests", flush=True)
    return done


def check_scripts(count: ran.Count, node: str) -> None:
    """The rows, whole and cut; their texts as bytes and as strings."""
    by_hand = rows.all_rows()
    scripts = playing_scripts.joined(by_hand + [row.cut_once for row in by_hand])
    for way in ("bytes", "strings"):
        playing_scripts.check(count, [node, PLAYER, way], f"{node}, {way}", scripts)
    for line in (*rows.UNREADABLE, "next"):
        got = said([node, PLAYER], f"{line}\n".encode())
        count.check(f"the player in JavaScript refuses {line!r}", got[:2] == (2, b""), f"{got}")


def check_sessions(count: ran.Count) -> None:
    again = f"python3 checks/connection_fuzz.py --program {PLAYER}"
    fuzzing.Fuzzer(partial(fuzzing.play_by_program, PLAYER), count, again).try_all(5, SESSIONS)


def check_sanitized(count: ran.Count, node: str) -> None:
    """The addon, and each string and array that it reads and writes, under AddressSanitizer."""
    if not headers_of(node) or shutil.which("cc") is None:
        print("SKIPPED: the addon under AddressSanitizer, which needs cc and Node.js's headers", flush=True)
        return
    runtimes = [said(["cc", f"-print-file-name={it}"])[1].decode().strip() for it in ("libasan.so", "libubsan.so")]
    if not all(map(os.path.isabs, runtimes)):
        print("SKIPPED: the addon under AddressSanitizer, which this compiler lacks", flush=True)
        return
    with tempfile.TemporaryDirectory() as room:
        words = [
            "-shared",
            "-fvisibility=hidden",
            "-g",
            "-O1",
            "-fsanitize=address,undefined",
            "-fno-sanitize-recover=all",
        ]
        got = compiled(node, words, f"{room}/addon.node")
        count.check("the addon is built for AddressSanitizer", got[0] == 0, f"{got}")
        env = {
            "LD_PRELOAD": ":".join(runtimes),
            "ASAN_OPTIONS": "detect_leaks=0",
            "BULLMYRTLE_ADDON": f"{room}/addon.node",
        }
        check_tests(count, node, ", under AddressSanitizer", SANITIZED, env, 60)


def check_refused_memory(count: ran.Count, node: str) -> None:
    """Each request for memory of the addon and of the library is refused in turn."""
    if not headers_of(node) or shutil.which("cc") is None:
        print("SKIPPED: memory that is refused to the addon, which needs cc and Node.js's headers", flush=True)
        return
    with tempfile.TemporaryDirectory() as room:
        words = ["-shared", "-fvisibility=hidden", "-D_GNU_SOURCE", "-Wl,--wrap=malloc,--wrap=calloc,--wrap=realloc"]
        got = compiled(node, [*words, f"{PACKAGE}/tests/refused_memory.c"], f"{room}/addon.node")
        count.check("the addon is built with what refuses memory", got[0] == 0, f"{got}")
        check_tests(count, node, ", without memory", ["refused_memory"], {"BULLMYRTLE_ADDON": f"{room}/addon.node"}, 3)


def check_files(count: ran.Count, node: str, names: list[str]) -> None:
    """Each file of the tests by itself, told as it ends, since each may take long."""
    files = [it.removesuffix(".test.js") for it in sorted(os.listdir(f"{PACKAGE}/tests")) if it.endswith(".test.js")]
    done = 0
    with ThreadPoolExecutor(PROCESSES) as pool:
        runs = {pool.submit(ran_tests, node, [f"{it}.test"], {}): it for it in names or files}
        for ended in as_completed(runs):
            done += check_told(count, f"{node}, {runs[ended]}", *ended.result(), 0)
    if not names:
        count.check(f"{node}: {FEWEST} tests at least", done >= FEWEST, f"{done}")


def main() -> None:
    count = ran.Count()
    if sys.argv[1:2] == ["--tests"]:
        check_files(count, "node", sys.argv[2:])
        count.end()
    check_addon(count)
    nodes = [it for it in os.environ.get("NODES", "node").split(":") if shutil.which(it)]
    if not nodes:
        print("SKIPPED: the package for Node.js, which isn't here", flush=True)
    for node in nodes:
        check_declarations(count, node)
        check_tests(count, node, "", [], {}, FEWEST)
        check_scripts(count, node)
    if nodes:
        check_sessions(count)
        check_sanitized(count, nodes[0])
        check_refused_memory(count, nodes[0])
    count.end()


if __name__ == "__main__":
    main()
