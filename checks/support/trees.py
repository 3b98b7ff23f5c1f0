"""Copies of the repository's crates, proved, in which bodies are tried: nothing here touches the tree itself."""
import contextlib
import os
import shutil
import signal
import subprocess
import tempfile
import threading
import time
from dataclasses import dataclass
from typing import Any, Callable, Iterable, Iterator

from support import prover
from tools.building import left_by_gate  # (it stands in bin/)
from tools.repository import listing

PARTS = ("src", "specs", "proofs")
KEPT = "out/incremental"
RUNNING: set[int] = set()  # the commands that run, by their process ids


@dataclass(frozen=True)
class Ran:
    """How a command ended: its output, and the processor seconds of all that it started."""

    status: int
    output: str
    seconds: float
    wall: float
    is_late: bool


def run(words: list[str], folder: str, limit: float) -> Ran:
    """Runs a command to its end, or for at most `limit` seconds."""
    with tempfile.TemporaryFile("w+", errors="replace") as out:
        how: dict[str, Any] = {
            "cwd": folder,
            "stdin": subprocess.DEVNULL,
            "stdout": out,
            "stderr": subprocess.STDOUT,
            "process_group": 0,
        }
        began, started = time.monotonic(), subprocess.Popen(words, **how)
        RUNNING.add(started.pid)
        late = threading.Timer(limit, kill, [started.pid])
        late.start()
        _, status, used = os.wait4(started.pid, 0)
        late.cancel()
        RUNNING.discard(started.pid)
        started.returncode, wall = os.waitstatus_to_exitcode(status), time.monotonic() - began
        out.seek(0)
        return Ran(started.returncode, out.read(), used.ru_utime + used.ru_stime, wall, wall >= limit)


def kill(process: int) -> None:
    """Ends a command that `run` started, and what it has started in turn."""
    with contextlib.suppress(OSError):
        os.killpg(process, signal.SIGKILL)


def stop_all() -> None:
    """Ends each command that runs."""
    for pid in [*RUNNING]:
        kill(pid)


class Trees:
    """Copies of the crates that are needed, as they are and as they are proved, and the libraries of those that others
    stand on.

    Each crate is proved and built in a folder of its own with the crates below it, since two runs of rt in one folder
    would wait for one another. A crate is proved with the texts that are given for it in place of its own.

    Where the gate's libraries are to be taken, and it built all of those below, no library is built: each crate with
    texts is proved over the gate's, and none waits for another."""

    def __init__(
        self, root: str, folder: str, texts: dict[str, dict[str, str]], limit: float, is_over_gate: bool = False
    ) -> None:
        self.root, self.folder, self.limit = root, folder, limit
        self.listed = listing(root)
        self.below = {name: self.listed.below(name)[:-1] for name in self.listed.lines}
        below = {it for name in texts for it in self.below[name]}
        self.libraries = self.take_gates(below) if is_over_gate else {}  # the folders with the libraries that there are
        self.is_over_gate = bool(self.libraries)
        self.needed = [it for it in self.below if it in texts or it in below and not self.is_over_gate]
        self.unproved: set[str] = set()  # the crates that turned out not to be proved
        for name in self.needed:
            for part in PARTS:
                copy_folder(f"{root}/crates/{name}/{part}", f"{self.plain(name)}/{part}")
        for name in self.needed:
            self.put_home(name, texts)

    def plain(self, name: str) -> str:
        """The folder with a crate as it is."""
        return f"{self.folder}/plain/{name}"

    def home(self, name: str) -> str:
        """The folder in which a crate is proved."""
        return f"{self.folder}/homes/{name}"

    def put_home(self, name: str, texts: dict[str, dict[str, str]]) -> None:
        """Makes the folder in which a crate is proved, with these texts in place of its own and of those of the crates
        below it."""
        together = [name] if self.is_over_gate else [*self.below[name], name]
        for it in together:
            self.put_sources(it, f"{self.home(name)}/crates/{it}", texts.get(it, {}))
        self.put_files(self.home(name), together)

    def put_sources(self, name: str, to: str, texts: dict[str, str]) -> None:
        """Copies a crate, with these texts in place of its own."""
        for part in PARTS:
            copy_folder(f"{self.plain(name)}/{part}", f"{to}/{part}")
        for path, text in texts.items():
            with open(f"{to}/{path}", "w", encoding="utf-8") as it:
                it.write(text)

    def put_files(self, top: str, names: list[str]) -> None:
        """Writes the files at the top of a copy that has these crates alone."""
        with open(f"{top}/crates.txt", "w", encoding="utf-8") as it:
            it.writelines(f"{self.listed.lines[name]}\n" for name in names)
        if os.path.isfile(f"{self.root}/HANDLES"):
            shutil.copyfile(f"{self.root}/HANDLES", f"{top}/HANDLES")

    def above(self, name: str) -> list[str]:
        """The crates that stand on it, of those that are needed."""
        return [it for it in self.needed if name in self.below[it]]

    def take_gates(self, names: Iterable[str]) -> dict[str, str]:
        """Takes the libraries that the gate built of these crates, where all of them are there, and gives the folder of
        each."""
        found = left_by_gate(names, self.root)
        for name, library in found.items():
            copy_folder(library, f"{self.folder}/gate/{name}/{name}.rlib", link)
        return {name: f"{self.folder}/gate/{name}" for name in found}

    def take_kept(self, name: str) -> bool:
        """Takes what earlier checks kept of a crate; says whether there was any."""
        out, to = f"{self.root}/crates/{name}/out", f"{self.home(name)}/crates/{name}/out"
        # (another command may be at work there)
        with contextlib.suppress(OSError, shutil.Error):
            for part in ("incremental", "rlib"):
                copy_folder(f"{out}/{part}", f"{to}/{part}", late="stamp")
            if os.path.isdir(f"{to}/incremental"):
                return True
        shutil.rmtree(to, ignore_errors=True)
        return False

    def is_ready(self, name: str) -> bool:
        """Whether a crate can be proved now: the libraries below it are there."""
        return all(it in self.libraries for it in self.below[name])

    def is_lost(self, name: str) -> bool:
        """Whether a crate below is not proved, so that this one never can be."""
        return any(it in self.unproved and it not in self.libraries for it in self.below[name])

    def prove(self, name: str, jobs: int, only: Iterable[str] = ()) -> Ran:
        """Proves a crate, and builds it where others stand on it; else only some of its functions and what these call,
        where any are named. It must be ready."""
        home, above = f"{self.home(name)}/crates/{name}", self.above(name)
        if self.is_over_gate or not above:
            ran = run(self.words(name, home, jobs, only), home, self.limit)
            if only and ran.status == 2:
                # (several functions may have names that end so)
                ran = run(self.words(name, home, jobs), home, self.limit)
            self.unproved |= {name} if ran.status else set()
            return ran
        ran = run(["rt", "lib", "--jobs", str(jobs)], home, self.limit)
        if ran.status:
            self.unproved.add(name)
        else:
            for it in above:
                copy_folder(f"{home}/out/rlib", f"{self.home(it)}/crates/{name}/out/rlib", os.link)
            self.libraries[name] = f"{home}/out/rlib"
        return ran

    def words(self, name: str, folder: str, jobs: int, only: Iterable[str] = ()) -> list[str]:
        """The words of a check of a crate that lies in a folder, or of some of its functions and what these call."""
        root = "src/main.rt" if os.path.isfile(f"{folder}/src/main.rt") else "src/lib.rt"
        words = prover.check(self.listed, name, {it: self.libraries[it] for it in self.below[name]}, root, jobs)
        return [*words, *(word for it in only for word in ("--only", it))]

    @contextlib.contextmanager
    def room(self, name: str, texts: dict[str, str]) -> Iterator[str]:
        """A copy of a crate with these texts, and of what its proof kept: its folder. It is gone afterwards."""
        with tempfile.TemporaryDirectory(prefix=f"{name}-", dir=self.folder) as folder:
            self.put_sources(name, folder, texts)
            copy_folder(f"{self.home(name)}/crates/{name}/{KEPT}", f"{folder}/{KEPT}", link_modules)
            yield folder

    def check(self, name: str, texts: dict[str, str], jobs: int, only: Iterable[str] = ()) -> Ran:
        """Checks a crate with these texts in place of its own, over what its proof kept: all of it, or only some
        functions and what these call."""
        with self.room(name, texts) as folder:
            return run(self.words(name, folder, jobs, only), folder, self.limit)


def link(source: str, to: str) -> None:
    """Links a file that nobody writes into, or copies it where it lies on another device."""
    try:
        os.link(source, to)
    except OSError:
        shutil.copyfile(source, to)


def link_modules(source: str, to: str) -> None:
    """Links a module that a check has kept, in whose place another check puts a new one; copies any other file, into
    which it may write."""
    if source.endswith(".oantt"):
        os.link(source, to)
    else:
        shutil.copy2(source, to)


def copy_folder(source: str, to: str, copied: Callable[[str, str], object] = shutil.copyfile, late: str = "") -> None:
    """Copies a folder, if there is one, each file by `copied`; the one named `late` comes last, so that it stands only
    beside the rest."""
    if not os.path.isdir(source):
        return
    ignored = shutil.ignore_patterns(late) if late else None
    shutil.copytree(source, to, ignore=ignored, copy_function=copied)
    if late and os.path.isfile(f"{source}/{late}"):
        shutil.copyfile(f"{source}/{late}", f"{to}/{late}")
