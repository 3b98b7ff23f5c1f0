"""What all scripts share: they run the built program, count what passed, and end with the tally."""
import glob
import os
import resource
import shutil
import signal
import socket
import subprocess
import sys
import tempfile
from concurrent.futures import ThreadPoolExecutor
from functools import cache
from typing import IO, Any, Callable, Iterable, NoReturn, Sequence, TypeVar

TOP = os.path.dirname(os.path.dirname(os.path.dirname(os.path.abspath(__file__))))
PROGRAM = os.path.join(TOP, "bin", "rpc_tool")
sys.path.insert(0, os.path.join(TOP, "bin"))

from tools import program as programs  # noqa: E402 (it stands in bin/)
from tools import sources  # noqa: E402

T = TypeVar("T")
Found = TypeVar("Found")
Ended = tuple[int, bytes, bytes]  # (a status, and what was written to the two outputs)

# Where a script's files lie, as long as it runs.
ROOM: "tempfile.TemporaryDirectory[str]" = tempfile.TemporaryDirectory(prefix="check-")
# The program that is tested in place of that of the sources that lie here, where one is named.
NAMED: str | None = None
# The program of the sources that lie here: `ran.BUILT`. It is looked for, and built where that has to be, as it is
# first asked for, so that what needs none waits for none.
BUILT: str


class Count:
    """What passed and what failed, with a line for each failure."""

    def __init__(self) -> None:
        self.passed, self.failed = 0, 0

    def check(self, name: str, well: object, why: object = "") -> None:
        if well:
            self.passed += 1
        else:
            self.failed += 1
            print(f"FAILED: {name}{f': {why}' if why else ''}"[:2000], flush=True)

    def same(self, name: str, found: object, wanted: object) -> None:
        self.check(name, found == wanted, f"{str(found)[:900]} in place of {str(wanted)[:900]}")

    def built(self, what: str, found: Found | None) -> Found | None:
        """Counts whether the gate built something, and gives it. In a run without the gate what is missing is told, and
        doesn't count."""
        if found is None and is_without_gate():
            print(
                f"SKIPPED: what {os.path.relpath(sys.argv[0], TOP)} does with {what}, which the gate builds", flush=True
            )
        else:
            self.check(f"the gate built {what}", found is not None)
        return found

    def end(self) -> NoReturn:
        print(f"{self.passed} passed, {self.failed} failed")
        sys.exit(1 if self.failed else 0)


def script(*checks: Callable[[Count], None]) -> NoReturn:
    """Builds the program where it isn't built yet, runs a script's checks, each of which counts, and ends. With
    `--program FILE` it is that program."""
    global NAMED
    if sys.argv[1:2] == ["--program"]:
        NAMED = sys.argv[2]
    built()
    count = Count()
    for it in checks:
        it(count)
    count.end()


def file_of(name: str, text: str | bytes) -> str:
    """A file with this text, or these bytes, as long as the script runs."""
    path = os.path.join(ROOM.name, name)
    with open(path, "wb") as it:
        it.write(text if isinstance(text, bytes) else text.encode())
    return path


def text_of(*place: str) -> str:
    """The text of a file of the repository."""
    with open(os.path.join(TOP, *place), encoding="utf-8") as it:
        return it.read()


def side_by_side(calls: Iterable[Callable[[], T]]) -> list[T]:
    """What each of these gives, in their order. As many run at once as there are processors."""
    with ThreadPoolExecutor(len(os.sched_getaffinity(0))) as pool:
        return [it.result() for it in [pool.submit(call) for call in calls]]


def pipe(stream: IO[bytes] | None) -> IO[bytes]:
    """A stream of a process that was started with a pipe for it."""
    assert stream is not None
    return stream


def run(
    words: Sequence[str],
    given: bytes = b"",
    program: str | None = None,
    env: dict[str, str] | None = None,
    **more: Any,
) -> Ended:
    """Runs the program, and gives its status and what it wrote to its two outputs."""
    ended = subprocess.run([program or built(), *words], input=given, capture_output=True, timeout=120, env=env, **more)
    return ended.returncode, ended.stdout, ended.stderr


def told_by(words: Sequence[str], seconds: float | None, **more: Any) -> tuple[int | str, bytes]:
    """The status of any command, or that it didn't end, and what it wrote to both outputs."""
    how: dict[str, Any] = {
        "stdin": subprocess.DEVNULL,
        "stdout": subprocess.PIPE,
        "stderr": subprocess.STDOUT,
        "timeout": seconds,
        "check": False,
        **more,
    }
    try:
        ended = subprocess.run(words, **how)
    except subprocess.TimeoutExpired:
        return f"no end after {seconds} seconds", b""
    return ended.returncode, ended.stdout


def run_into(room: int, words: Sequence[str], given: bytes = b"", program: str | None = None) -> Ended:
    """Runs the program with an output that takes `room` bytes and then fails, and gives its status and what it wrote to
    its two outputs."""

    def narrow() -> None:
        # (a write over the limit gives an error, as on a full device, in place of the signal)
        signal.signal(signal.SIGXFSZ, signal.SIG_IGN)
        resource.setrlimit(resource.RLIMIT_FSIZE, (room, room))

    with tempfile.TemporaryFile() as output:
        how: dict[str, Any] = {
            "input": given,
            "stdout": output,
            "stderr": subprocess.PIPE,
            "timeout": 120,
            "preexec_fn": narrow,
        }
        ended = subprocess.run([program or built(), *words], check=False, **how)
        output.seek(0)
        return ended.returncode, output.read(), ended.stderr


def run_on_broken(words: Sequence[str], given: bytes, program: str | None = None) -> Ended:
    """Runs the program on an input that gives these bytes and then fails, and gives its status and what it wrote to its
    two outputs."""
    ours, its = socket.socketpair()
    with its:
        # (a peer that closes with bytes unread resets the connection, so the read behind the bytes given fails)
        its.sendall(b"unread")
        ours.sendall(given)
        ours.close()
        ended = subprocess.run(
            [program or built(), *words], stdin=its.fileno(), capture_output=True, timeout=120, check=False
        )
    return ended.returncode, ended.stdout, ended.stderr


def unbuilt(why: str) -> NoReturn:
    """What comes of it where there is no program: a script ends, and tells in a run without the gate that it was
    skipped. (A test fails, or is skipped: conftest.py sees to that.)"""
    is_skipped = is_without_gate()
    print(f"SKIPPED: {why}\n0 passed, 0 failed" if is_skipped else f"{why}\n0 passed, 1 failed", flush=True)
    sys.exit(0 if is_skipped else 1)


@cache
def sought() -> tuple[str | None, str]:
    """The program of the sources that lie here, or why there is none. It is proved and built where that has to be, but
    not in a run without the gate."""
    if NAMED is not None:
        return NAMED, ""
    found = programs.current(sources.stamp())
    if found is None and is_without_gate():
        return None, "release/ and out/ have no program of these sources: bin/rpc_tool --version proves and builds it"
    said = b"" if found else told_by([PROGRAM, "--version"], None)[1]
    return found or programs.current(sources.stamp()), said.decode(errors="replace")[-2000:]


def built() -> str:
    """The program of the sources that lie here."""
    found, why = sought()
    return found or unbuilt(why)


def __getattr__(name: str) -> str:
    if name == "BUILT":
        return built()
    raise AttributeError(name)


def lacks(tool: str, why: str) -> bool:
    """Whether a tool isn't there; what is skipped for want of it is told."""
    is_missing = shutil.which(tool) is None
    if is_missing:
        print(
            f"SKIPPED: what {os.path.relpath(sys.argv[0], TOP)} does with {tool}, which isn't there: {why}", flush=True
        )
    return is_missing


def is_without_gate() -> bool:
    """Whether this run goes without the gate, as `bin/test --only` does: then what only the gate builds may be
    missing."""
    return bool(os.environ.get("WITHOUT_GATE"))


def gates_program(name: str) -> str | None:
    """A program of the repository as the gate built it, or None."""
    file = os.path.join(TOP, "crates", name, "out", name)
    return file if os.access(file, os.X_OK) else None


def names_of(tests: str) -> list[str]:
    """The names of the tests in a program of a crate's tests."""
    ended = subprocess.run([tests, "--list"], capture_output=True, timeout=60, check=True)
    *lines, last = ended.stdout.decode().splitlines()
    names = [it[: -len(": test")] for it in lines if it.endswith(": test")]
    if last != f"tests: {len(lines)}" or len(names) != len(lines):
        raise ValueError(f"{tests} --list has a line that isn't understood, or lacks one: {lines} {last}")
    return names


def test_named(ending: str) -> tuple[str, str] | None:
    """The one test whose name ends so, of whatever crate, as the gate built it: its program and its whole name; or
    None."""
    programs_of_tests = sorted(glob.glob(f"{TOP}/crates/*/out/*_tests"))
    found = [(tests, it) for tests in programs_of_tests for it in names_of(tests) if it.split("::")[-1] == ending]
    return found[0] if len(found) == 1 else None
