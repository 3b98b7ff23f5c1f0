"""Debian's packages for any processor, fetched by apt with a state of its own: nothing of the machine is changed, and
nothing is installed."""
from __future__ import annotations

import glob
import os
import shutil
import subprocess
from typing import Any

from tools import program
from tools.repository import Fault

# Debian 12, whose packages the sums of this repository are of.
SOURCE = """Types: deb
URIs: http://deb.debian.org/debian
Suites: bookworm
Components: main
Architectures: {architecture}
Signed-By: /usr/share/keyrings/debian-archive-keyring.gpg
"""
SETTINGS = """APT::Architecture "{architecture}";
APT::Architectures "{architecture}";
APT::Sandbox::User "root";
Dir::State "{state}";
Dir::State::status "{state}/status";
Dir::Cache "{state}/cache";
Dir::Etc::sourcelist "/dev/null";
Dir::Etc::sourceparts "{state}/sources";
"""


class Apt:
    """apt for a processor, by Debian's word for it, whose state lies in a folder."""

    def __init__(self, architecture: str, state: str) -> None:
        for it in ("lists/partial", "cache/archives/partial"):
            os.makedirs(f"{state}/{it}", exist_ok=True)
        words = {"architecture": architecture, "state": state}
        program.write(f"{state}/status", b"")
        program.write(f"{state}/sources/debian.sources", SOURCE.format(**words).encode())
        program.write(f"{state}/settings", SETTINGS.format(**words).encode())
        self.state = state

    def run(self, *words: str, **more: Any) -> None:
        if shutil.which("apt-get") is None:
            raise Fault("apt-get isn't there, which fetches Debian's packages")
        how: dict[str, Any] = {"stdin": subprocess.DEVNULL, "capture_output": True, "text": True, "check": False}
        ended = subprocess.run(["apt-get", "-q", "-c", f"{self.state}/settings", *words], **how, **more)
        if ended.returncode:
            raise Fault(f"apt-get {' '.join(words)} ended with status {ended.returncode}: {ended.stderr[-1000:]}")

    def fetch(self, names: list[str], folder: str) -> list[str]:
        """Fetches these packages alone to a folder, and gives their files."""
        os.makedirs(folder, exist_ok=True)
        self.run("update")
        self.run("download", *names, cwd=folder)
        return sorted(glob.glob(f"{folder}/*.deb"))

    def fetch_whole(self, names: list[str]) -> list[str]:
        """Fetches these packages with all that they stand on, and gives their files."""
        self.run("update")
        self.run("install", "-y", "--download-only", "--no-install-recommends", *names)
        return sorted(glob.glob(f"{self.state}/cache/archives/*.deb"))


def unpack(packages: list[str], folder: str) -> None:
    """Unpacks packages below a folder, without what they run as they are installed."""
    for it in packages:
        ended = subprocess.run(["dpkg-deb", "-x", it, folder], capture_output=True, text=True, check=False)
        if ended.returncode:
            raise Fault(f"{it} can't be unpacked: {ended.stderr.strip()}")
