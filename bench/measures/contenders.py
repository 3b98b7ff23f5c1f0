"""What is measured: the baseline, the limit, the model, our program, and a second one of ours where it is named; and
how they are built, or where they lie."""
import glob
import os
import shutil
import subprocess
import sys
from typing import Iterator, List, NamedTuple, Optional, Tuple

TOP = os.path.dirname(os.path.dirname(os.path.dirname(os.path.abspath(__file__))))
sys.path[:0] = [os.path.join(TOP, "bin"), os.path.join(TOP, "checks")]

from tools import program, sources  # noqa: E402 (it stands in bin/)

FOLDER = os.path.join(TOP, "bench", "baseline")
BASELINE = os.path.join(FOLDER, "target", "release", "baseline")
# What plays rounds with a server; it is built beside the baseline.
CLIENT = os.path.join(FOLDER, "target", "release", "client")
# The limit, built for the processors that ours is built for, and for newer ones.
LIMIT = os.path.join(TOP, "bench", "limit", "limit.c")
TARGETS = {"limit": "x86-64", "limit v3": "x86-64-v3"}
# The host in C, and what it is linked with: the released library, or the model of it.
HOST = os.path.join(TOP, "bench", "embedded", "host.c")
LIBRARY = os.path.join(TOP, "release")
BENEATH = {"model": os.path.join(TOP, "bench", "model", "model.c"), "in C": os.path.join(LIBRARY, "libbullmyrtle.a")}
# What a processor of x86-64-v3 has, by the names in /proc/cpuinfo.
V3 = {"avx2", "bmi1", "bmi2", "fma", "movbe", "abm", "f16c"}
# What is measured where there is no kit.
RELEASED = os.path.join(TOP, "release", "rpc_tool")
# The table of the methods that are built into the baseline.
METHODS = ("--table", os.path.join(FOLDER, "methods.toml"))


class Contender(NamedTuple):
    """A program with its words, and its name in the tables."""

    label: str
    words: Tuple[str, ...]


def file_of(label: str) -> str:
    """Where a program in C is built."""
    return os.path.join(TOP, "out", f"bench_{label.replace(' ', '_')}")


def limits() -> List[Contender]:
    """The limit, as far as the processor runs it."""
    return [Contender(it, (file_of(it),)) for it in TARGETS if it == "limit" or has_v3()]


def has_v3() -> bool:
    with open("/proc/cpuinfo", encoding="utf-8") as it:
        return any(V3 <= {*line.split()} for line in it if line.startswith("flags"))


class Programs(NamedTuple):
    """Our program, and another rpc_tool to compare with, if any."""

    ours: str
    before: Optional[str] = None

    def named(self) -> Iterator[Tuple[str, str]]:
        if self.before:
            yield "before", self.before
        yield "ours", self.ours

    def players(self, has_methods: bool, has_calls: bool = False) -> List[Contender]:
        """What plays an input, the baseline first. The limit names its calls as a host does."""
        words = ("play", *(METHODS if has_methods else ()))
        ours = (Contender(name, (it, *words)) for name, it in self.named())
        return [Contender("baseline", (BASELINE,)), *([] if has_calls else limits()), *ours]

    def servers(self, numbers_of_workers: Tuple[int, ...], has_calls: bool = True) -> List[Contender]:
        """What serves, the baseline first, and the limit where the other side isn't called."""
        many = [(count, *it) for count in numbers_of_workers for it in self.named()]
        return [
            Contender("baseline", (BASELINE,)),
            *([] if has_calls else limits()),
            *(server(*it) for it in many),
        ]


def server(workers: int, name: str, program_file: str) -> Contender:
    label = f"{name}, {workers} worker{'' if workers == 1 else 's'}"
    return Contender(label, (program_file, "serve", *METHODS, "--workers", str(workers)))


def lacking(counts: bool) -> List[str]:
    """Debian's packages that have to be installed first."""
    wanted = [] if glob.glob("/usr/share/cargo/registry/serde_json-1.*") else ["librust-serde-json-dev"]
    wanted += [] if shutil.which("cargo") else ["cargo"]
    wanted += [] if shutil.which("cc") else ["gcc", "libc6-dev"]
    wanted += [] if shutil.which("valgrind") or not counts else ["valgrind"]
    return wanted


def has_kit() -> bool:
    return shutil.which("rt") is not None


def want(counts: bool) -> None:
    """Ends the bench where something has to be installed first."""
    wanted = lacking(counts)
    if wanted:
        sys.exit(f"bench/run: first apt-get install -y {' '.join(wanted)}")


def built(before: Optional[str], counts: bool) -> Programs:
    """The programs, built where they aren't yet."""
    want(counts)
    subprocess.run([os.path.join(TOP, "bin", "rpc_tool"), "--version"], check=True, stdout=subprocess.DEVNULL)
    build_others()
    ours = program.current(sources.stamp())
    if ours is None:
        sys.exit("bench/run: the program's sources changed while it was built")
    return Programs(ours, before)


def released(before: Optional[str], counts: bool) -> Programs:
    """The released program."""
    want(counts)
    build_others()
    return Programs(RELEASED, before)


def build_others() -> None:
    """Builds the baseline and the limit."""
    subprocess.run(["cargo", "build", "--release", "--offline", "--quiet"], cwd=FOLDER, check=True)
    os.makedirs(os.path.join(TOP, "out"), exist_ok=True)
    for label, target in TARGETS.items():
        words = ["cc", "-std=c11", "-O3", f"-march={target}", LIMIT, "-o", file_of(label)]
        subprocess.run(words, check=True)


def hosts_in_c() -> List[Contender]:
    """The host over the model and over the library, built."""
    words = ["cc", "-std=c11", "-D_POSIX_C_SOURCE=200809L", "-O2", f"-I{LIBRARY}", HOST]
    for label, beneath in BENEATH.items():
        subprocess.run([*words, beneath, "-o", file_of(label)], check=True)
    return [Contender(it, (file_of(it),)) for it in BENEATH]
