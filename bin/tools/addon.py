"""The addon for Node.js: bullmyrtle-linux-x64.node, which has the static C library inside."""
from tools.hosted import HEADER, LINKED, STATIC, Hosted
from tools.repository import TOP

ADDON = "bullmyrtle-linux-x64.node"
SUM, STAMP = "addon.sha256", "addon.stamp"
FOLDER = f"{TOP}/bindings/node/addon"


_addon = Hosted("addon", FOLDER, "addon.c", ADDON)
compiled, stamp, sum_of = _addon.compiled, _addon.stamp, _addon.sum_of
build, is_whole, compared = _addon.build, _addon.is_whole, _addon.compared

__all__ = [
    "ADDON",
    "FOLDER",
    "HEADER",
    "LINKED",
    "STAMP",
    "STATIC",
    "SUM",
    "build",
    "compared",
    "compiled",
    "is_whole",
    "stamp",
    "sum_of",
]
