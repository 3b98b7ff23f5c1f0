"""The platforms that the library is made for, by npm's words for them: a system and a processor, or WebAssembly. Which module each is compiled from, and how
the kit's compiler is told so. bin/tools/porting.py makes the files."""
from __future__ import annotations

from typing import NamedTuple

# For any processor of its kind. The kit's own words, so that what is made for Linux is what the kit makes.
X64 = ["-march=x86-64", "-mllvm", "-no-x86-call-frame-opt"]
ARM64 = ["-march=armv8-a", "-mllvm", "-aarch64-load-store-renaming=false"]
# (a Mac's own processors have more, which the compiler takes from the system's name)
MAC_ARM64 = ARM64[1:]
# What each browser and Node.js has had since 2023. LLVM divides numbers of 128 bits by itself.
WASM = ["-mcpu=lime1", "-msimd128", "-mllvm", "-expand-div-rem-bits=64", "-mllvm", "-expand-fp-convert-bits=64"]


class Target(NamedTuple):
    """A platform: whose name the compiler knows, what it is told beside, and from which of the modules it is made."""

    triple: str
    words: list[str]
    module: str

    @property
    def is_linux(self) -> bool:
        return "linux" in self.triple

    @property
    def is_windows(self) -> bool:
        return "windows" in self.triple

    @property
    def is_wasm(self) -> bool:
        return "wasm" in self.triple


TARGETS = {
    "linux-x64": Target("x86_64-unknown-linux-gnu", [*X64, "-fPIC"], "x64"),
    "linux-arm64": Target("aarch64-unknown-linux-gnu", [*ARM64, "-fPIC"], "arm64"),
    "darwin-x64": Target("x86_64-apple-macosx11.0", ["-march=x86-64", "-fPIC"], "x64"),
    "darwin-arm64": Target("arm64-apple-macosx11.0", [*MAC_ARM64, "-fPIC"], "arm64"),
    "win32-x64": Target("x86_64-w64-windows-gnu", X64, "x64"),
    # (made for memory of 64 bits, as the module is, and then lowered)
    "wasm32": Target("wasm64-unknown-unknown", WASM, "x64"),
}
# That of which release/ has the files themselves.
RELEASED = "linux-x64"
