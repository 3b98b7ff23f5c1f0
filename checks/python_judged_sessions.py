"""usage: python_judged_sessions.py [--keep]

Whole sessions through the driver of `python3 -m bullmyrtle.judge`: Neovim with language servers of Debian, our client
with these, Neovim and Eglot with our examples, and our client of examples/python with both of its servers. Both ends are
teed: each side received just the bytes that the other one wrote, and the driver ended as the server did. What is found
is what examples/judge/README.md has of these programs, and nothing of ours. And 100 MB go each way, past a reader that
sleeps, while the driver holds at most 1 MiB. `--keep` puts the recordings of the sessions into examples/judge."""
import fcntl
import json
import os
import re
import shutil
import subprocess
import sys
import threading
import time
from typing import NamedTuple

from support import ran
from support.judged import JUDGE, PACKAGE, environment, lacks_judge

TEED = [sys.executable, f"{ran.TOP}/checks/support/teed.py"]
EXAMPLES, EDITORS = f"{ran.TOP}/examples/python", f"{PACKAGE}/tests/editors"
KEPT = f"{ran.TOP}/examples/judge"
SOURCES = f"{KEPT}/sources"
SECONDS = 300
TEXTS = {
    "notes.txt": "Roses are red.\nVoilets are are blue.\nThey are.\n",
    "words.txt": "and are blue not red roses they violets",
}
# what a client says last (LSP, Exit Notification), in a frame
EXIT = re.compile(rb'Content-Length: \d+\r\n\r\n\{[^\r\n]*"method": ?"exit"[^\r\n]*\}')
FOUND = re.compile(r"^judge: (?:must|should|note): (client|server), .*?: ([a-z-]+) \(", re.M)


class Server(NamedTuple):
    """A language server of Debian's, and what it is asked about."""

    command: list[str]
    file: str
    language: str
    line: int
    column: int
    comment: str
    found: set[str]  # what examples/judge/README.md has of it, as "server progress-token"
    is_kept: bool = True  # whether its recordings are
    ends_first: bool = False  # whether it ends before its client does: it may have ended before it read what came last

    @property
    def name(self) -> str:
        return self.command[0]

    @property
    def knows(self) -> bool:
        """Whether it knows of the file: gopls asks the compiler, and Perl's server tells of no diagnostics here."""
        return shutil.which("go") is not None if self.name == "gopls" else self.name != "perl"

    @property
    def is_missing(self) -> bool:
        return ran.lacks(self.name, "no session with it") or self.name == "perl" and lacks_perls_server()


def lacks_perls_server() -> bool:
    if subprocess.run([*PERL, "1"], stdin=subprocess.DEVNULL, capture_output=True, check=False).returncode == 0:
        return False
    print("SKIPPED: a session of Perl::LanguageServer, which perl lacks (libperl-languageserver-perl)", flush=True)
    return True


PYLSP = ("progress-token", "shutdown-code", "shape-result")
PERL = ["perl", "-MPerl::LanguageServer", "-e"]
SERVERS = [
    Server(["pylsp"], "words.py", "python", 5, 25, "# ", {f"server {it}" for it in PYLSP}),
    Server(["clangd", "--log=error"], "words.c", "c", 5, 10, "// ", {"server shutdown-code"}),
    # (gopls may end in the middle of a frame once it was told to exit)
    Server(["gopls"], "words.go", "go", 8, 8, "// ", {"server shutdown-code", "server cut-off"}),
]
# (under Neovim alone)
OTHERS = [
    Server(["fortls"], "words.f90", "fortran", 20, 17, "! ", set(), is_kept=False),
    Server(["ccls"], "words.c", "c", 5, 10, "// ", set(), is_kept=False),
    Server(
        ["efm-langserver", "-c", f"{SOURCES}/efm.yaml"],
        "words.sh",
        "sh",
        2,
        6,
        "# ",
        {"server unanswered"},
        is_kept=False,
        ends_first=True,
    ),
    Server(
        [*PERL, "Perl::LanguageServer::run"], "words.pl", "perl", 9, 14, "# ", {"server shape-result"}, is_kept=False
    ),
]


class Room:
    """A folder in which a session runs."""

    def __init__(self, name: str, kept: str = "", ends_first: bool = False) -> None:
        self.name, self.kept = name, kept  # (and by which name its recording is kept)
        self.ends_first = ends_first
        self.at = os.path.join(ran.ROOM.name, re.sub(r"\W", "_", name))
        self.home = f"{self.at}.home"
        for it in (self.at, self.home):
            os.makedirs(it)

    def file(self, name: str) -> str:
        return os.path.join(self.at, name)

    def put(self, name: str, text: str) -> None:
        with open(self.file(name), "w", encoding="utf-8") as file:
            file.write(text)

    def judged(self, command: list[str], rules: str = "lsp") -> list[str]:
        """A command that runs a server behind the driver, with both ends teed."""
        ways = ["--rules", rules, "--record", self.file(f"{rules}.record")]
        return [*TEED, self.file(f"{rules}.outer"), *JUDGE, *ways, "--", *TEED, self.file(f"{rules}.inner"), *command]

    def env(self, **more: str) -> dict[str, str]:
        homes = dict.fromkeys(("HOME", "XDG_CACHE_HOME", "XDG_STATE_HOME", "XDG_CONFIG_HOME"), self.home)
        return environment(ROOM=self.at, EDITS="200", **homes, **more)

    def read(self, name: str) -> bytes:
        with open(self.file(name), "rb") as file:
            return file.read()


def check_session(
    count: ran.Count, room: Room, words: list[str], env: dict[str, str], known: set[str], *rules: str
) -> None:
    """Runs a session, and looks at what went through both ends and at what was found."""
    ended = subprocess.run(
        words, cwd=room.at, env=env, stdin=subprocess.DEVNULL, capture_output=True, timeout=SECONDS, check=False
    )
    said = (ended.stdout + ended.stderr).decode(errors="replace")
    count.check(f"{room.name}: a whole session", ended.returncode == 0 and "FAILED" not in said, said[-1500:])
    for rule in rules or ("lsp",):
        check_ends(count, room, rule)
        found = found_in(room, rule)
        more = found - known
        count.check(f"{room.name}, {rule}: nothing is found beside what is known of it", not more, more)
        print(f"{room.name}, {rule}: {', '.join(sorted(found)) or 'nothing is found'}", flush=True)
        if room.kept and "--keep" in sys.argv:
            keep(room, rule)


def keep(room: Room, rules: str) -> None:
    """Keeps a recording, as if its session had run in a folder that everybody has."""
    lines = list[str]()
    for line in room.read(f"{rules}.record").decode().splitlines():
        mark, _, rest = line.partition(" ")
        data, _, more = rest.partition(" ")
        if mark in "<>" and re.fullmatch("[0-9a-f]+", data):
            data = renamed(bytes.fromhex(data), room.at.encode()).hex()
            line = f"{mark} {data} {more}"
        lines.append(line)
    name = room.kept.replace("RULES", rules)
    with open(f"{KEPT}/{name}.record", "w", encoding="ascii") as file:
        file.write("\n".join(lines) + "\n")


def renamed(data: bytes, folder: bytes) -> bytes:
    """The same with another folder of a name as long, so that each length stays what it is."""
    return data.replace(folder, (b"/home/me/" + b"judged" * len(folder))[: len(folder)]).replace(
        folder.replace(b"/", b"\\/"),
        (b"\\/home\\/me\\/" + b"judged" * len(folder))[: len(folder.replace(b"/", b"\\/"))],
    )


def check_ends(count: ran.Count, room: Room, rules: str) -> None:
    ends = (f"{rules}.outer", f"{rules}.inner")
    for way in ("in", "out", "status"):
        outer, inner = (room.read(f"{it}.{way}") for it in ends)
        # (what a client still says to a server that has ended reaches nobody: `exit`, behind `shutdown`)
        rest = outer[len(inner) :] if way == "in" and room.ends_first else b""
        same = inner and outer == inner + rest and (not rest or EXIT.fullmatch(rest))
        count.check(f"{room.name}, {rules}: both ends have the same {way}", same, f"{len(outer)} {len(inner)} {rest!r}")


def found_in(room: Room, rules: str) -> set[str]:
    """What is found in a recording, as who and the rule."""
    words = [*JUDGE, "--replay", room.file(f"{rules}.record")]
    ended = subprocess.run(words, env=room.env(), capture_output=True, timeout=SECONDS, check=False)
    return {" ".join(it) for it in FOUND.findall(ended.stderr.decode(errors="replace"))}


# The sessions


def put_sources(room: Room) -> None:
    for it in os.listdir(SOURCES):
        shutil.copy(f"{SOURCES}/{it}", room.at)


def neovim(count: ran.Count, server: Server) -> None:
    kept = f"{server.name}_neovim" if server.is_kept else ""
    room = Room(f"Neovim with {server.name}", kept, server.ends_first)
    put_sources(room)
    more = {"FILE": server.file, "LANGUAGE": server.language, "LINE": str(server.line), "COLUMN": str(server.column)}
    more.update(ADDED=server.comment, KNOWS="yes" if server.knows else "no")
    env = room.env(SERVER=json.dumps(room.judged(server.command)), **more)
    script = f"{ran.TOP}/checks/editors/judged_session.lua"
    check_session(count, room, ["nvim", "--headless", "--clean", "-S", script], env, server.found)


def our_client(count: ran.Count, server: Server) -> None:
    """(it asks behind shutdown on purpose)"""
    room = Room(f"our client with {server.name}", f"{server.name}_client")
    put_sources(room)
    about = [server.file, server.language, str(server.line), str(server.column)]
    words = [sys.executable, f"{EDITORS}/asking_client.py", *about, *room.judged(server.command)]
    known = server.found | {"client after-shutdown"}
    check_session(count, room, words, room.env(KNOWS="yes" if server.knows else "no"), known)


def editor_of_ours(count: ran.Count, editor: str, script: str, server: str, known: set[str], kept: str = "") -> None:
    """An editor with a server of examples/python."""
    room = Room(f"{editor} with {server}", kept)
    for name, text in TEXTS.items():
        room.put(name, text)
    start = ["--headless", "--clean", "-S"] if editor == "nvim" else ["--batch", "-l"]
    env = room.env(SERVER=json.dumps(room.judged([sys.executable, f"{EXAMPLES}/{server}"])))
    check_session(count, room, [editor, *start, f"{EDITORS}/{script}"], env, known)


def client_of_ours(count: ran.Count) -> None:
    """The client of examples/python, with its language server and its tool server."""
    room = Room("examples/python/client.py", "client_RULES")
    words = [sys.executable, "$1"]
    lsp, mcp = (" ".join(f'"{it}"' for it in room.judged(words, rules)) for rules in ("lsp", "mcp"))
    room.put("judged", f'#!/bin/sh\ncase "$1" in\n*tool*) exec {mcp} ;;\n*) exec {lsp} ;;\nesac\n')
    os.chmod(room.file("judged"), 0o755)
    words = [sys.executable, f"{EXAMPLES}/client.py", room.file("judged")]
    check_session(count, room, words, room.env(), set(), "lsp", "mcp")


def check_sessions(count: ran.Count) -> None:
    has_neovim = not ran.lacks("nvim", "no session of its client")
    has_emacs = not ran.lacks("emacs", "no session of Eglot")
    for it in SERVERS:
        if not it.is_missing:
            our_client(count, it)
            if has_neovim:
                neovim(count, it)
    for it in OTHERS if has_neovim else ():
        if not it.is_missing:
            neovim(count, it)
    if has_neovim:
        editor_of_ours(count, "nvim", "neovim.lua", "language_server_by_hand.py", set())
        editor_of_ours(count, "nvim", "neovim_spelling.lua", "spelling_server.py", set(), "spelling_neovim")
    if has_emacs and has_eglot():
        known = {"client params"}  # ("params": null, where there are none)
        editor_of_ours(count, "emacs", "eglot.el", "language_server_by_hand.py", known)
        editor_of_ours(count, "emacs", "eglot_spelling.el", "spelling_server.py", known, "spelling_eglot")
    client_of_ours(count)


def has_eglot() -> bool:
    words = ["emacs", "--batch", "--eval", "(require 'eglot)"]
    env = {**os.environ, "HOME": ran.ROOM.name}
    if subprocess.run(words, env=env, stdin=subprocess.DEVNULL, capture_output=True, check=False).returncode == 0:
        return True
    print("SKIPPED: sessions of Eglot, which emacs lacks (elpa-eglot)", flush=True)
    return False


# Much, past a reader that sleeps

LINE = b'{"jsonrpc":"2.0","method":"a","params":["%s"]}\n' % (b"x" * 8_000)
LINES = 100_000_000 // len(LINE) + 1
# A server that writes as much as it reads, and says how much it has written.
WRITES = f"""
import os, sys, threading
line = {LINE!r}
def read():
    size = 0
    while data := os.read(0, 65536):
        size += len(data)
    open("read", "w").write(str(size))
reading = threading.Thread(target=read)
reading.start()
with open("written", "wb", 0) as told:
    for number in range({LINES}):
        left = memoryview(line)
        while left:
            left = left[os.write(1, left):]
        told.seek(0)
        told.write(b"%012d" % ((number + 1) * len(line)))
os.close(1)
reading.join()
"""
HELD, SLEEP = 1 << 20, 5
# How much may wait to be judged, as docs/judge.md has it.
WAITS = 64 << 20
F_GETPIPE_SZ = 1032


def memory_of(process: int) -> int:
    """What a process takes, in bytes."""
    with open(f"/proc/{process}/status", encoding="ascii") as file:
        found = re.search(r"^VmRSS:\s*(\d+) kB$", file.read(), re.M)
    return int(found[1]) * 1024 if found else 0


def check_much(count: ran.Count) -> None:
    room = Room("100 MB each way")
    words = [*JUDGE, "--rules", "jsonrpc", "--lines", "--", sys.executable, "-c", WRITES]
    driver = subprocess.Popen(
        words,
        cwd=room.at,
        env=room.env(),
        stdin=subprocess.PIPE,
        stdout=subprocess.PIPE,
        stderr=subprocess.PIPE,
        bufsize=0,
    )
    # (who reads and writes here would wait for ever for one that stops)
    ends = threading.Timer(SECONDS, driver.kill)
    ends.start()
    source, sink = ran.pipe(driver.stdout), ran.pipe(driver.stdin)
    read, reads = 0, 0

    def write() -> None:
        for _ in range(LINES):
            left = memoryview(LINE)
            while left:
                left = left[os.write(sink.fileno(), left) :]
        sink.close()

    writing = threading.Thread(target=write)
    writing.start()
    while read < len(LINE):
        data = os.read(source.fileno(), 1 << 16)
        if not data:
            raise EOFError(f"{room.name}: {read} bytes, and no more in {SECONDS} seconds")
        read += len(data)
    before = most = memory_of(driver.pid)
    time.sleep(SLEEP)
    pipes = 2 * fcntl.fcntl(source.fileno(), F_GETPIPE_SZ)
    held = int(room.read("written") or 0) - read - pipes
    count.check(f"{room.name}: while the reader sleeps, at most 1 MiB is held", 0 < held + pipes and held <= HELD, held)
    while data := os.read(source.fileno(), 1 << 16):
        read, reads = read + len(data), reads + 1
        if reads % 50 == 0:
            most = max(most, memory_of(driver.pid))
    writing.join()
    said = ran.pipe(driver.stderr).read().decode(errors="replace")
    status = driver.wait(SECONDS)
    ends.cancel()
    count.same(f"{room.name}: the status", status, 0)
    count.same(f"{room.name}: what came from the server", read, LINES * len(LINE))
    count.same(f"{room.name}: what came to it", int(room.read("read")), LINES * len(LINE))
    more = WAITS + 2 * HELD
    count.check(
        f"{room.name}: the driver itself takes at most {more:,} bytes more", most - before <= more, f"{most - before}"
    )
    judged = [
        int(it.replace(",", "")) for it in re.findall(r"messages: .*\(([\d,]+) bytes\).*\(([\d,]+) bytes\)", said)[0]
    ]
    missed = {
        side: int(it.replace(",", "")) for it, side in re.findall(r"([\d,]+) bytes of the (client|server) from", said)
    }
    both = [judged[0] + missed.get("client", 0), judged[1] + missed.get("server", 0)]
    count.same(f"{room.name}: all is judged, or said to be not judged", both, 2 * [LINES * len(LINE)])
    count.check(f"{room.name}: nothing is found", "found: 0 must, 0 should, 0 note" in said, said[-500:])
    print(f"100 MB each way: {max(held, 0):,} bytes held, and {most - before:,} bytes more in the driver", flush=True)


def main() -> None:
    count = ran.Count()
    if not lacks_judge():
        check_sessions(count)
        check_much(count)
    count.end()


if __name__ == "__main__":
    main()
