"""Which crates and files a change touches."""
from __future__ import annotations

import subprocess

from tools.repository import TOP, Fault, Listing, listing


def git(*words: str) -> str:
    ended = subprocess.run(["git", *words], cwd=TOP, capture_output=True, text=True, check=False)
    if ended.returncode:
        raise Fault(f"git {' '.join(words)}: {ended.stderr.strip()}")
    return ended.stdout


def last_landing() -> str:
    """The branch that changes land on, as the remote has it where there is one."""
    for name in ("origin/main", "main"):
        if (
            subprocess.run(
                ["git", "rev-parse", "-q", "--verify", name], cwd=TOP, capture_output=True, check=False
            ).returncode
            == 0
        ):
            return name
    raise Fault("there is no branch main: name the commit to compare with, as in bin/test --changed HEAD~1")


def files_since(base: str) -> list[str]:
    """The files that differ from a commit, those that aren't committed too."""
    changed = git("diff", "--name-only", "--no-renames", base).splitlines()
    return changed + git("ls-files", "--others", "--exclude-standard").splitlines()


def is_as_landed(folder: str) -> bool:
    """Whether what lies in a folder is what the last landing has there; on its branch, what the one before had. Where
    no landing is known it isn't."""
    try:
        base, head = git("merge-base", last_landing(), "HEAD").strip(), git("rev-parse", "HEAD").strip()
        changed = files_since(f"{head}^" if base == head else base)
    except Fault:
        return False
    return not any(it.startswith(f"{folder}/") for it in changed)


def crates_since(reference: str) -> tuple[list[str], str]:
    """The crates of today that have changed since a commit: a file of theirs, or their line of crates.txt; and the
    commit."""
    base = git("merge-base", reference, "HEAD").strip()
    files, now = files_since(base), listing()
    if "HANDLES" in files:
        return list(now.lines), base
    before = Listing(git("show", f"{base}:crates.txt")).lines
    touched = {it.split("/")[1] for it in files if it.startswith("crates/")}
    return [it for it in now.lines if it in touched or before.get(it) != now.lines[it]], base
