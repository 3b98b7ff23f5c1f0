"""The tests of the packages for Python and for Node.js on Linux on arm64, as nobody without such a machine can run them
otherwise: by Debian's Python and Node.js for that processor, under qemu, in a copy of the repository that has the
extension and the addon for arm64 where the released ones lie."""
import os
import re
import shutil
import subprocess
import tempfile
from dataclasses import dataclass
from typing import Any

from support import ran

from tools import extension, foreign, ports, program  # (ran has put bin/ on the path)

# Where Debian's packages lie, unpacked, and what runs their programs; they stay.
HERE = os.path.join(ran.TOP, "out", "arm64")
OF_PYTHON, OF_NODE = f"{HERE}/root-python", f"{HERE}/root-node"
COMPILER = "aarch64-linux-gnu-gcc"
NEEDED = {"qemu-aarch64-static": "qemu-user-static", COMPILER: "gcc-aarch64-linux-gnu"}
# So many times longer than on the machine itself something may take, and so many files of tests run side by side, where
# the variables don't say otherwise.
USUAL = {"TIMES_SLOWER": "20", "PROCESSES": "2"}


def checkout(made: str, room: str) -> str:
    """A copy of what is tracked, with a file for arm64 where the released ones lie."""
    copy = f"{room}/checkout"
    for name in subprocess.check_output(["git", "ls-files", "-z"], cwd=ran.TOP).decode().split("\0")[:-1]:
        os.makedirs(os.path.dirname(f"{copy}/{name}"), exist_ok=True)
        shutil.copy(f"{ran.TOP}/{name}", f"{copy}/{name}", follow_symlinks=False)
    shutil.copy(f"{ports.BUILT}/linux-arm64/{made}", f"{copy}/release")
    # (the package for Node.js takes it where there is no addon)
    if "wasm32" in ports.whole():
        shutil.copytree(f"{ports.BUILT}/wasm32", f"{copy}/{os.path.relpath(ports.BUILT, ran.TOP)}/wasm32")
    return copy


@dataclass(frozen=True)
class Language:
    """A package's tests: Debian's packages for them, the files that run a program under qemu, by what is put into them, the
    commands that are those files, the script that runs the tests, and what bin/build-ports makes for the package."""

    name: str
    packages: list[str]
    written: dict[str, str]
    commands: dict[str, str]
    script: list[str]
    made: str

    def commands_folder(self) -> str:
        """The folder of the commands, which are fetched where they aren't here."""
        folder = f"{HERE}/{self.name}"
        if not os.path.isdir(folder):
            apt = foreign.Apt("arm64", f"{HERE}/apt-{self.name}")
            foreign.unpack(apt.fetch_whole(self.packages), f"{HERE}/root-{self.name}")
            for file, text in self.written.items():
                program.write(file, text.encode(), 0o755)
            os.makedirs(f"{folder}.part")
            for name, file in self.commands.items():
                os.symlink(file, f"{folder}.part/{name}")
            os.rename(f"{folder}.part", folder)
        return folder

    def check(self, count: ran.Count, files: list[str]) -> None:
        """The tests of a package, or these files of them, pass there. What they skip is told."""
        for tool, package in NEEDED.items():
            if ran.lacks(tool, f"it is in {package}, and runs the tests of a package for arm64"):
                return
        if "linux-arm64" not in ports.whole():
            print("SKIPPED: the packages on arm64, since bin/build-ports linux-arm64 hasn't made their files")
            return
        path = f"{self.commands_folder()}:{os.environ['PATH']}"
        env = {**USUAL, **os.environ, "PATH": path, "NODE_TYPES": f"{OF_NODE}/usr/share/nodejs/@types"}
        words = [shutil.which(self.script[0], path=path) or "", *self.script[1:], *files]
        # (it takes hours, so what it says is passed on line by line)
        how: dict[str, Any] = {"env": env, "stdout": subprocess.PIPE, "text": True}
        said = list[str]()
        with tempfile.TemporaryDirectory(prefix="arm64-") as room:
            with subprocess.Popen(words, cwd=checkout(self.made, room), **how) as running:
                for line in running.stdout or ():
                    said.append(line)
                    print(line, end="", flush=True)
        tally = re.search(r"^(\d+) passed, (\d+) failed$", "".join(said), re.M)
        count.check(f"the package for {self.name} on arm64", running.returncode == 0 and tally)


PYTHON = Language(
    "python",
    [
        *("python3", "python3-venv", "python3-pip", "python3-pytest", "python3-mypy"),
        *("python3-uvicorn", "python3-httpx", "python3-websockets", "python3-jsonschema"),
    ],
    # (it finds what belongs to it by the name that it is called by, also in an environment of its own)
    {
        f"{OF_PYTHON}/usr/bin/python": "#!/bin/sh\n"
        f'exec qemu-aarch64-static -L {OF_PYTHON} -0 "$0" {OF_PYTHON}/usr/bin/python3.11 "$@"\n'
    },
    {
        "python": f"{OF_PYTHON}/usr/bin/python",
        "python3": f"{OF_PYTHON}/usr/bin/python",
        # (some tests compile an extension)
        "cc": shutil.which(COMPILER) or "",
    },
    ["python3", "checks/python_package.py"],
    extension.EXTENSION,
)
NODE = Language(
    "node",
    ["nodejs"],
    # (it asks the system for its own file, which the system can't run)
    {
        f"{HERE}/called.js": f"process.execPath = '{HERE}/node/node'\n",
        f"{HERE}/run_node": "#!/bin/sh\n"
        f'exec qemu-aarch64-static -L {OF_NODE} {OF_NODE}/usr/bin/node --require {HERE}/called.js "$@"\n',
    },
    {"node": f"{HERE}/run_node"},
    ["python3", "checks/node_package.py", "--tests"],
    "bullmyrtle-linux-arm64.node",
)
