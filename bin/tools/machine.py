"""What the machine has: processors, memory, and the tools that the checks use."""
from __future__ import annotations

import glob
import os
import shutil
import subprocess
import sys
import tempfile
from typing import Any, Callable

from tools.repository import TOP

# The most that one check is likely to take, in bytes.
MEMORY = 2_500_000_000
# What has to be there, and Debian's packages that bring it.
TOOLS = {
    "cc": ["gcc", "libc6-dev"],
    "strip": ["binutils"],
    "valgrind": ["valgrind"],
    "/usr/bin/time": ["time"],
    "spin": ["spin"],
    "musl-gcc": ["musl-tools"],
    # (what bin/tidy runs; each is a package of its own)
    **{it: [it] for it in ("black", "pyflakes3", "mypy", "clang-format")},
    "tsc": ["node-typescript"],
    # (what calls a tool server over HTTP, and what stands before two of them)
    "curl": ["curl"],
    "mkdocs": ["mkdocs"],
    "/usr/sbin/nginx": ["nginx-light"],
}
# Node.js's own types: where Debian's package nodejs has them, and where they are unpacked beside another Node.js.
TYPES, TYPES_PACKAGES = "Node.js's types", ["nodejs"]
NODE_TYPES = ["/usr/share/nodejs/@types", f"{TOP}/out/node-types"]
PYTEST, PYTEST_PACKAGES = "pytest with xdist", ["python3-pytest", "python3-pytest-xdist"]
WEB, WEB_PACKAGES = "uvicorn and httpx", ["python3-uvicorn", "python3-httpx"]
# The crates that the Rust crate's features stand on, of Debian's packages of their sources: 38 MB, in some 20 seconds.
CRATES = "/usr/share/cargo/registry"
OF_FEATURES = ("serde_derive-1", "serde_json-1", "serde_path_to_error-0", "tokio-1", "tower-service-0")
FEATURES = "the crates of the Rust crate's features"
FEATURES_PACKAGES = [f"librust-{it}-dev" for it in ("serde-derive", "serde-json", "serde-path-to-error", "tokio")]
FEATURES_PACKAGES.append("librust-tower-service-dev")
# The interpreters that may have it: the one that runs this, and Debian's own, for which its packages are.
PYTHONS = [sys.executable, "/usr/bin/python3"]
FITS = "import sys, pytest, xdist; sys.exit(sys.version_info < (3, 11))"


def processors() -> int:
    return len(os.sched_getaffinity(0))


def memory() -> int:
    """The machine's memory, in bytes."""
    return os.sysconf("SC_PHYS_PAGES") * os.sysconf("SC_PAGE_SIZE")


def python_with_pytest() -> str | None:
    """The interpreter that runs the tests, or None: one of Python 3.11 or later that has pytest and xdist."""
    quiet: dict[str, Any] = {
        "stdin": subprocess.DEVNULL,
        "stdout": subprocess.DEVNULL,
        "stderr": subprocess.DEVNULL,
        "check": False,
    }
    return next(
        (it for it in PYTHONS if shutil.which(it) and subprocess.run([it, "-c", FITS], **quiet).returncode == 0), None
    )


def has_web() -> bool:
    """Whether Debian's own interpreter has what runs a tool server over HTTP, and what calls it."""
    words = [PYTHONS[-1], "-c", "import uvicorn, httpx"]
    return shutil.which(words[0]) is not None and not subprocess.run(words, stderr=subprocess.DEVNULL).returncode


def has_features() -> bool:
    return all(glob.glob(f"{CRATES}/{it}*") for it in OF_FEATURES)


def node_types() -> str | None:
    """The folder of Node.js's types."""
    return next((it for it in NODE_TYPES if os.path.isfile(f"{it}/node/index.d.ts")), None)


def unpack_node_types() -> None:
    """Unpacks them from Debian's package, where another nodejs is installed, which stays."""
    quiet: dict[str, Any] = {"stdin": subprocess.DEVNULL, "stderr": subprocess.DEVNULL, "check": False}
    told = subprocess.run(["apt-cache", "madison", "nodejs"], stdout=subprocess.PIPE, text=True, **quiet).stdout
    version = next((it.split("|")[1].strip() for it in told.splitlines() if "+dfsg" in it), None)
    with tempfile.TemporaryDirectory(prefix="node-types-") as room:
        quiet.update(stdout=subprocess.DEVNULL, cwd=room)
        subprocess.run(["apt-get", "download", f"nodejs={version}"], **quiet)
        for it in os.listdir(room):
            subprocess.run(["dpkg-deb", "-x", it, "unpacked"], **quiet)
        found = f"{room}/unpacked{NODE_TYPES[0]}"
        if os.path.isdir(found):
            shutil.copytree(found, NODE_TYPES[-1], dirs_exist_ok=True)


def lacking() -> list[str]:
    missing = [it for it in TOOLS if shutil.which(it) is None]
    missing += [] if node_types() else [TYPES]
    missing += [] if has_web() else [WEB]
    missing += [] if has_features() else [FEATURES]
    return missing if python_with_pytest() else [*missing, PYTEST]


def packages_of(missing: list[str]) -> list[str]:
    others = {TYPES: TYPES_PACKAGES, PYTEST: PYTEST_PACKAGES, WEB: WEB_PACKAGES, FEATURES: FEATURES_PACKAGES}
    return [package for it in missing for package in {**TOOLS, **others}[it]]


def to_install(missing: list[str]) -> str:
    """The command that brings these."""
    return f"apt-get install -y {' '.join(packages_of(missing))}"


def set_up(say: Callable[[str], None]) -> list[str]:
    """Installs the tools that are missing, where that can be done, and gives those that still are."""
    missing = lacking()
    if not missing:
        return []
    packages = packages_of(missing)
    if os.geteuid() or shutil.which("apt-get") is None:
        say(f"{', '.join(missing)} missing; as root on Debian they would be installed: {to_install(missing)}")
        return missing
    say(f"installing {' '.join(packages)}")
    quiet: dict[str, Any] = {
        "stdin": subprocess.DEVNULL,
        "stdout": subprocess.DEVNULL,
        "stderr": subprocess.STDOUT,
        "check": False,
    }
    quiet["env"] = {**os.environ, "DEBIAN_FRONTEND": "noninteractive"}
    subprocess.run(["apt-get", "update"], **quiet)
    subprocess.run(["apt-get", "install", "-y", *packages], **quiet)
    if node_types() is None:
        unpack_node_types()
    return lacking()
