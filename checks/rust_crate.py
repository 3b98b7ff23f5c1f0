"""The crate in Rust over the C library, in bindings/rust: its declarations are those of the header; its tests and what
its documentation shows pass, with the library that lies in release/; clippy, where it is there, finds nothing; the page
shows the example that is built; and the examples answer. One test runs where requests for memory are refused. A player
of scripts over the crate gives what the model of docs/connection.md does, for its rows and for random sessions. Then
the crate with its features, where Debian's packages of crates are there: its tests, its examples with their sessions,
the examiner on its servers, and Neovim and Eglot with one of them. Nothing is fetched."""
import glob
import json
import os
import re
import shutil
import subprocess
import sys
import tempfile
from functools import partial
from typing import Any

from support import c_interface as interface
from support import connection_fuzzing as fuzzing
from support import connection_rows as rows
from support import hosts, playing_scripts, ran, refusals
from support.c_programs import VALGRIND, said

CRATE = os.path.join(ran.TOP, "bindings", "rust")
WITH_FEATURES = os.path.join(CRATE, "features")
FEATURES = ["--features", "lsp,tokio"]
# Where Debian's packages leave their crates, and those that the features stand on.
REGISTRY = "/usr/share/cargo/registry"
CRATES = ["serde_derive-1", "serde_json-1", "serde_path_to_error-0", "tokio-1", "tower-service-0"]
# The servers of the examples, and the rules by which each is examined.
EXAMINED_PLAIN = {"goto_def": ["--rules", "lsp"], "echo": ["--rules", "jsonrpc", "--lines"]}
EXAMINED = {
    **dict.fromkeys(("hover_on_threads", "hover_on_tokio", "spelling_server"), ["--rules", "lsp"]),
    "tool_server": ["--rules", "mcp"],
}
# So many tests there are at least, with those in the documentation.
FEWEST = 80
FEWEST_WITH_FEATURES = 30
# The one that wants memory to be refused, and from which size on.
WITHOUT_MEMORY, OVER = "memory_that_is_refused", 100_000
# (what is reachable in the end is the standard library's)
LOST = [*VALGRIND, "--errors-for-leak-kinds=definite,indirect,possible"]
# So many random sessions are played.
SESSIONS = 500


def check_declarations(count: ran.Count) -> None:
    header, ours = interface.in_header(), interface.in_rust()
    count.check(
        "the header and the crate have the same calls", header.keys() == ours.keys(), f"{header.keys() ^ ours.keys()}"
    )
    for name in header.keys() & ours.keys():
        count.check(
            f"{name}: the header and the crate are the same",
            header[name] == ours[name],
            f"{header[name]}, {ours[name]}",
        )
    for name in interface.STRUCTS:
        count.check(
            f"{name}: the crate has the same fields", interface.fields_in_rust(name) == interface.fields_in_header(name)
        )


def cargo(*words: str, folder: str = CRATE, **more: str) -> tuple[int, str]:
    env = {**os.environ, "CARGO_TARGET_DIR": f"{folder}/target", **more}
    ended = subprocess.run(
        ["cargo", *words], cwd=folder, env=env, capture_output=True, text=True, timeout=900, check=False
    )
    return ended.returncode, ended.stdout + ended.stderr


def check_tests(count: ran.Count) -> None:
    tests_pass(count, "the crate", FEWEST, *cargo("test", "--offline"))


def tests_pass(count: ran.Count, whose: str, fewest: int, status: int, text: str) -> None:
    count.check(f"the tests of {whose}", status == 0, text[-1500:])
    tests = [it for it in re.findall(r"^test (.*?) \.\.\. (\w+)", text, re.M) if it[1] != "ignored"]
    for name, how in tests:
        count.check(f"the test {name} of {whose}", how == "ok")
    count.check(f"{fewest} tests of {whose} at least", len(tests) >= fewest, f"{len(tests)}")
    print(f"{len(tests)} tests of {whose}", flush=True)


def check_without_memory(count: ran.Count) -> None:
    """One test with each large request for memory refused."""
    if ran.lacks("cc", refusals.WHY):
        return
    status, text = cargo("test", "--offline", "--test", "refusals", "--no-run")
    program = re.search(r"\((target/\S+|/\S+)\)", text)
    count.check("the test without memory is built", status == 0 and program is not None, text[-500:])
    if program:
        words = [os.path.join(CRATE, program[1]), "--ignored", "--exact", WITHOUT_MEMORY, "--test-threads", "1"]
        got = refusals.Refusals().run(words, b"", "REFUSE_OVER", OVER)
        count.check("the test without memory", got[0] == 0 and b"1 passed" in got[1] and got[3], f"{got}")


def check_clippy(count: ran.Count) -> None:
    if subprocess.run(["cargo", "clippy", "--version"], capture_output=True, check=False).returncode:
        print("SKIPPED: clippy, which isn't here", flush=True)
        return
    status, text = cargo("clippy", "--offline", "--all-targets", "--", "-D", "warnings")
    count.check("clippy", status == 0, text[-1500:])


def check_examples(count: ran.Count) -> None:
    status, text = cargo("build", "--offline", "--examples")
    count.check("the examples are built", status == 0 and "warning" not in text, text[-1500:])
    with open(f"{CRATE}/README.md", encoding="utf-8") as page, open(
        f"{CRATE}/examples/echo.rs", encoding="utf-8"
    ) as example:
        count.check("the page shows the example", f"```rust\n{example.read()}```" in page.read())
    folder = f"{CRATE}/target/debug/examples"
    got = said([f"{folder}/echo"], hosts.HOST[0])
    count.check("the host in Rust answers", got == (0, hosts.HOST[1], b""), f"{got}")
    for name, it in hosts.DEFINER.items():
        got = said([f"{folder}/goto_def"], hosts.framed(*it.says))
        count.check(
            f"the language server in Rust: {name}", got == (it.status, hosts.framed(*it.answers), b""), f"{got}"
        )
    check_examined(count, folder, EXAMINED_PLAIN)


def check_memory(count: ran.Count) -> None:
    """A connection that is dropped is freed, and nothing is read or written outside."""
    if shutil.which("valgrind") is None:
        print("SKIPPED: valgrind, which isn't here", flush=True)
        return
    folder = f"{CRATE}/target/debug/examples"
    got = said([*LOST, f"{folder}/echo"], hosts.HOST[0])
    count.check("the host in Rust, under valgrind", got == (0, hosts.HOST[1], b""), f"{got}"[-1500:])
    playing_scripts.check(
        count, [*LOST, f"{folder}/play_script"], "the crate, under valgrind", playing_scripts.short_rows()
    )


def check_scripts(count: ran.Count) -> None:
    player = f"{CRATE}/target/debug/examples/play_script"
    by_hand = rows.all_rows()
    playing_scripts.check(count, [player], "the crate", by_hand + [row.cut_once for row in by_hand])
    for line in (*rows.UNREADABLE, "next"):
        got = said([player], f"{line}\n".encode())
        count.check(f"the player in Rust refuses {line!r}", got[:2] == (2, b""), f"{got}")
    again = f"python3 checks/connection_fuzz.py --program {player}"
    fuzzing.Fuzzer(partial(fuzzing.play_by_program, player), count, again).try_all(3, SESSIONS)


def check_library(count: ran.Count) -> None:
    """The build script takes the library of a folder that is named, and says what is missing."""
    with tempfile.TemporaryDirectory() as room:
        os.mkdir(f"{room}/empty")
        os.mkdir(f"{room}/named")
        for it in ("libbullmyrtle.a", "bullmyrtle.h"):
            shutil.copy(f"{ran.TOP}/release/{it}", f"{room}/named/{it}")
        how: dict[str, Any] = {"CARGO_TARGET_DIR": f"{room}/target"}
        status, text = cargo("build", "--offline", BULLMYRTLE_LIB_DIR=f"{room}/empty", **how)
        missing = f"{room}/empty/libbullmyrtle.a isn't there; set BULLMYRTLE_LIB_DIR to the folder of libbullmyrtle.a"
        count.check("a folder without the library is told", status != 0 and missing in text, text[-500:])
        status, text = cargo("build", "--offline", "--example", "echo", BULLMYRTLE_LIB_DIR=f"{room}/named", **how)
        count.check("a folder that is named", status == 0, text[-500:])
        got = said([f"{room}/target/debug/examples/echo"], hosts.HOST[0])
        count.check("the host over the named library answers", got == (0, hosts.HOST[1], b""), f"{got}")


def has_crates() -> bool:
    missing = [it for it in CRATES if not glob.glob(f"{REGISTRY}/{it}*")]
    if missing:
        print(f"SKIPPED: the crate's features, without Debian's packages of {', '.join(missing)}", flush=True)
    return not missing


def check_features(count: ran.Count) -> None:
    status, text = cargo("test", "--offline", "--tests", "--examples", *FEATURES, folder=WITH_FEATURES)
    tests_pass(count, "the crate with features", FEWEST_WITH_FEATURES, status, text)
    status, text = cargo("test", "--offline", "--doc", *FEATURES, "--", "tasks", "typed", folder=WITH_FEATURES)
    tests_pass(count, "what the features' documentation shows", 3, status, text)
    status, text = cargo("build", "--offline", "--examples", *FEATURES, folder=WITH_FEATURES)
    count.check("the examples with features are built", status == 0 and "warning: " not in text, text[-1500:])
    page = ran.text_of("docs", "rust.md")
    for name in ("hover_on_threads", "hover_on_tokio"):
        shown = f"```rust\n{ran.text_of('bindings/rust/features/examples', f'{name}.rs')}```"
        count.check(f"docs/rust.md shows {name}.rs", shown in page)
    folder = f"{WITH_FEATURES}/target/debug/examples"
    check_hovers(count, folder)
    check_tools(count, folder)
    check_client(count, folder)
    check_examined(count, folder, EXAMINED)
    check_editors(count, f"{folder}/spelling_server")


def check_hovers(count: ran.Count, folder: str) -> None:
    for name in ("hover_on_threads", "hover_on_tokio"):
        for what, it in hosts.WORDS.items():
            got = said([f"{folder}/{name}"], hosts.framed(*it.says))
            wanted = (it.status, hosts.framed(*it.answers), b"")
            count.check(f"{name}: {what}", got == wanted, f"{got}")


def check_tools(count: ran.Count, folder: str) -> None:
    it = hosts.WRONG_PARAMS
    got = said([f"{folder}/tool_server"], hosts.in_lines(*it.says))
    wanted = (it.status, hosts.in_lines(*it.answers), b"")
    count.check("the tool server in Rust names what is wrong with params", got == wanted, f"{got}")


# What the client prints of a language server, and of a tool server.
EDITED = r"""line 2: 'are' stands twice
hover: .*
progress: begin
progress: report
progress: end
words: 11
progress: begin
progress: report
(progress: end
)?cancelled: .*\(-32800\)
(progress: end
)?exit status: 0
"""
USED = """tools: count, title
asked: A title for: Roses are red. Violets are are blue, and roses are not.
title: Flowers
paint: error -32602
exit status: 0
"""


def check_client(count: ran.Count, folder: str) -> None:
    """It drives the servers in Python and in Node.js, which are given the packages of this repository."""
    if ran.lacks("node", "the client in Rust isn't run"):
        return
    env = {**os.environ, "PYTHONPATH": f"{ran.TOP}/bindings/python"}
    words = [f"{folder}/client", f"{ran.TOP}/examples"]
    ended = subprocess.run(words, env=env, capture_output=True, text=True, timeout=120, check=False)
    wanted = f"python3\n{EDITED}{re.escape(USED)}node\n{EDITED}{re.escape(USED)}"
    count.check("the client in Rust", bool(re.fullmatch(wanted, ended.stdout)), ended.stdout + ended.stderr)


def check_examined(count: ran.Count, folder: str, examined: dict[str, list[str]]) -> None:
    """The examiner finds nothing at any level."""
    env = {**os.environ, "PYTHONPATH": f"{ran.TOP}/bindings/python"}
    for name, rules in examined.items():
        words = [sys.executable, "-m", "bullmyrtle.examine", *rules, "--level", "note", "--seconds", "20", "--"]
        ended = subprocess.run(
            [*words, f"{folder}/{name}"], env=env, capture_output=True, text=True, timeout=600, check=False
        )
        count.check(f"the examiner finds nothing in {name}", ended.returncode == 0, ended.stdout[-3000:] + ended.stderr)


SCRIPTS = f"{ran.TOP}/bindings/python/tests/editors"
EDITORS = {
    "nvim": ["--headless", "--clean", "-S", f"{SCRIPTS}/neovim_spelling.lua"],
    "emacs": ["--batch", "-l", f"{SCRIPTS}/eglot_spelling.el"],
}


def check_editors(count: ran.Count, server: str) -> None:
    """Whole sessions of editors' own clients: those of the spelling servers in Python and in Node.js."""
    for editor, words in EDITORS.items():
        if not ran.lacks(editor, "no session with the spelling server in Rust"):
            check_editor(count, [editor, *words], server)


def check_editor(count: ran.Count, words: list[str], server: str) -> None:
    with tempfile.TemporaryDirectory() as room:
        for name, text in hosts.SPELT.items():
            with open(f"{room}/{name}", "w", encoding="utf-8") as it:
                it.write(text)
        env = {**os.environ, "SERVER": json.dumps([server]), "ROOM": room, "HOME": room, "XDG_STATE_HOME": room}
        how: dict[str, Any] = {"stdin": subprocess.DEVNULL, "capture_output": True, "timeout": 120, "check": False}
        asked = ["emacs", "--batch", "--eval", "(require 'eglot)"]
        if words[0] == "emacs" and subprocess.run(asked, env=env, **how).returncode:
            print("SKIPPED: emacs lacks Eglot: no session with the spelling server in Rust", flush=True)
            return
        ended = subprocess.run(words, cwd=room, env=env, **how)
    told = (ended.stdout + ended.stderr).decode(errors="replace")
    is_whole = ended.returncode == 0 and "a whole session" in told and "FAILED" not in told
    count.check(f"{words[0]} with the spelling server in Rust", is_whole, told[-2000:])


def main() -> None:
    count = ran.Count()
    check_declarations(count)
    if not ran.lacks("cargo", "the crate in Rust isn't built"):
        check_tests(count)
        check_without_memory(count)
        check_clippy(count)
        check_examples(count)
        check_scripts(count)
        check_memory(count)
        check_library(count)
        if has_crates():
            check_features(count)
    count.end()


main()
