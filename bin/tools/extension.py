"""The extension for Python: _bullmyrtle.abi3.so, which has the static C library inside. It is for each CPython from 3.8 on."""
from tools import hosted
from tools.repository import TOP

FOLDER = f"{TOP}/bindings/python/extension"
EXTENSION, FOR_WINDOWS = "_bullmyrtle.abi3.so", "_bullmyrtle.pyd"
# By platform, of those that there is one for.
FILES = {it: EXTENSION for it in ("linux-x64", "linux-arm64", "darwin-x64", "darwin-arm64")}
FILES["win32-x64"] = FOR_WINDOWS
# What Python looks for in it.
SEEN = "PyInit__bullmyrtle"


class Extension(hosted.Hosted):
    def __init__(self) -> None:
        super().__init__("extension", FOLDER, "extension.c", EXTENSION)
        # (an interpreter that ends may unwind the stack of a thread that comes back from a long call)
        self.linked = [*hosted.LINKED, "--eh-frame-hdr"]


_extension = Extension()
SUM, STAMP, MAP, LINKED = _extension.sum, _extension.stamp_file, _extension.map, _extension.linked
compiled, stamp, sum_of = _extension.compiled, _extension.stamp, _extension.sum_of
build, is_whole, compared = _extension.build, _extension.is_whole, _extension.compared
