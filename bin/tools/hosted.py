"""What a language's own program loads and has the static C library inside: Node.js's addon, Python's extension.

Each is compiled and linked by the kit's own tools, without headers of the system or of the program that loads it, so it is the same byte for
byte wherever it is made of the same library. Making it takes a second, so its stamp is its own: it covers its sources and the library in it."""
import hashlib
import os
import subprocess
import tempfile
from typing import Optional

from tools import kit, program, sources
from tools.repository import TOP, Fault, read_bytes, read_text

# What of the C library's files it is made of.
STATIC, HEADER = "libbullmyrtle.a", "bullmyrtle.h"
# The headers of C's own, which the kit's clang comes without.
FREESTANDING = f"{TOP}/bindings/node/addon/freestanding"
# (for any processor of the platform's kind; no path, no time and no name of a compiler gets into it)
COMPILED = ["-std=c11", "-O2", "-fvisibility=hidden", "-Wall", "-Wextra", "-Werror"]
COMPILED += ["-Wno-unused-parameter", "-ffunction-sections", "-fno-ident", "-nostdinc"]
PLATFORM = ["-target", "x86_64-unknown-linux-gnu", "-march=x86-64", "-fPIC"]
LINKED = ["-shared", "-z", "relro", "-z", "now", "-z", "noexecstack", "--build-id=none"]
LINKED += ["--gc-sections", "--icf=safe", "--strip-all"]


class Hosted:
    """One of them: the folder that its sources are in, of which one includes the others, and the file that is made."""

    def __init__(self, what: str, folder: str, source: str, made: str) -> None:
        self.what, self.folder, self.source, self.made = what, folder, source, made
        self.sum, self.stamp_file = f"{what}.sha256", f"{what}.stamp"
        self.map = f"{folder}/{source.partition('.')[0]}.map"
        self.linked = LINKED

    def files(self) -> list[str]:
        """Its sources."""
        folders = dict.fromkeys((self.folder, FREESTANDING))
        found = {f"{at}/{name}" for it in folders for at, _, names in os.walk(it) for name in names}
        return sorted(found)

    def stamp(self, library: str) -> list[str]:
        """The lines of the stamp of one over the library in a folder: a sum of all that it is made of and by which words, and the kit's
        version, if there is a kit."""
        told = hashlib.sha256(f"{PLATFORM} {COMPILED} {self.linked}\n".encode())
        for file in (*self.files(), f"{library}/{HEADER}", f"{library}/{STATIC}"):
            told.update(f"{os.path.basename(file)} {hashlib.sha256(read_bytes(file)).hexdigest()}\n".encode())
        version = kit.version()
        return [told.hexdigest(), *([version] if version else [])]

    def sum_of(self, folder: str) -> str:
        """(as sha256sum writes it, so that `sha256sum -c` reads it)"""
        return f"{hashlib.sha256(read_bytes(f'{folder}/{self.made}')).hexdigest()}  {self.made}\n"

    def run(self, words: list[str]) -> None:
        ended = subprocess.run(words, stdin=subprocess.DEVNULL, capture_output=True, text=True, check=False)
        if ended.returncode:
            raise Fault(
                f"the {self.what} can't be built: {' '.join(words[:1])} ended with status {ended.returncode}\n{ended.stdout}{ended.stderr}"
            )

    def compiled(self, header: str) -> list[str]:
        """The words that compile it for any platform, by the library's header in a folder."""
        return [*COMPILED, f"-isystem{FREESTANDING}", f"-I{header}"]

    def make(self, library: str, made: str) -> None:
        """Makes it over the library in a folder."""
        tools = f"{kit.folder()}/toolchain"
        with tempfile.TemporaryDirectory(prefix=f"{self.what}-") as room:
            source, compiled = f"{self.folder}/{self.source}", f"{room}/{self.what}.o"
            self.run([f"{tools}/bin/clang", *PLATFORM, *self.compiled(library), "-c", source, "-o", compiled])
            words = [
                f"{tools}/bin/ld.lld",
                *self.linked,
                "-soname",
                self.made,
                f"--version-script={self.map}",
                compiled,
            ]
            # (it names no C library, as the library itself doesn't: the program that loads it has one, glibc's or musl's)
            self.run([*words, f"{library}/{STATIC}", "-o", made])

    def build(self, library: str, into: str) -> None:
        """Makes it over the library in one folder, and writes it, its sum and its stamp into another, the stamp last."""
        with tempfile.TemporaryDirectory(prefix=f"{self.what}-") as room:
            self.make(library, f"{room}/{self.made}")
            if os.path.exists(f"{into}/{self.stamp_file}"):
                os.remove(f"{into}/{self.stamp_file}")
            program.write(f"{into}/{self.made}", read_bytes(f"{room}/{self.made}"), 0o755)
        program.write(f"{into}/{self.sum}", self.sum_of(into).encode())
        program.write(f"{into}/{self.stamp_file}", program.stamp_text(self.stamp(library)))

    def is_whole(self, folder: str, wanted: list[str]) -> bool:
        """Whether a folder has it with this stamp, as its sum has it."""
        return (
            all(os.path.isfile(f"{folder}/{it}") for it in (self.made, self.sum))
            and sources.is_stamped(f"{folder}/{self.stamp_file}", wanted)
            and read_text(f"{folder}/{self.sum}") == self.sum_of(folder)
        )

    def compared(self, released: str, library: str) -> tuple[Optional[bool], str]:
        """Makes it over the library in a folder, and compares it with the released one: whether they are the same, or None where nothing can
        be compared, and what to say."""
        lacking = [it for it in (self.made, self.sum, self.stamp_file) if not os.path.isfile(f"{released}/{it}")]
        if lacking:
            return None, f"there is no released {self.what} to compare with: release/ has no {', '.join(lacking)}"
        wanted, held = self.stamp(library), read_text(f"{released}/{self.stamp_file}").split("\n")
        anew = f"bin/build-{self.what} writes it anew"
        if held[0] != wanted[0]:
            return (
                None,
                f"release/ has the {self.what} of other sources or another library, and it isn't compared: {anew}",
            )
        if read_text(f"{released}/{self.sum}") != self.sum_of(released):
            return False, f"release/ has another sum than that of its {self.what}"
        with tempfile.TemporaryDirectory(prefix=f"{self.what}-") as room:
            self.make(library, f"{room}/{self.made}")
            if read_bytes(f"{room}/{self.made}") == read_bytes(f"{released}/{self.made}"):
                return (
                    True,
                    f"the released {self.what} is the one that these sources and this library give, byte for byte",
                )
        if held[1:2] != wanted[1:2]:
            return (
                None,
                f"release/ has an {self.what} that was built by another kit, {held[1]}, and differs from what this one makes: {anew}",
            )
        return False, f"release/ has the stamp of these sources, and DIFFERS from what they give: the {self.what}"
