"""Finds the extension, which has the C library inside, and loads it."""
from __future__ import annotations

import _imp
import os
import sys

from ._hints import TYPE_CHECKING
from .errors import LibraryError

if TYPE_CHECKING:
    from typing import Any, List

#: What an extension for this package says of itself: to be counted up with its own number.
MADE_FOR = 1
FILE = "_bullmyrtle.pyd" if sys.platform == "win32" else "_bullmyrtle.abi3.so"

# Where an ELF file tells of its list of sections: where it lies, how long an entry is, and how many there are.
_SECTIONS, _SIZE, _COUNT = slice(40, 48), slice(58, 60), slice(60, 62)

FRAMINGS = ("frames", "lines", "contents")
ORDERS = ("as-answered", "as-came")
#: Whose cancels there are.
CANCELS = (None, "lsp", "mcp")
#: Whose rules the judge knows, in the order of bullmyrtle.h; "mcp" is MCP 2025-11-25.
RULES = ("jsonrpc", "lsp", "mcp", "mcp:2025-06-18", "mcp:2025-03-26", "mcp:2024-11-05")


def _places() -> List[str]:
    """Where the extension may lie: in the package, and in the repository, where the package stands in a checkout of it.

    What lies three folders above a package that is installed has nothing to do with it.
    """
    here = os.path.dirname(os.path.abspath(__file__))
    folders, name = os.path.split(here)
    top, *_ = os.path.split(os.path.dirname(folders))
    is_checkout = (
        here == os.path.join(top, "bindings", "python", name)
        and os.path.isfile(os.path.join(folders, "pyproject.toml"))
        and not os.path.isfile(os.path.join(here, FILE))
    )
    return [here, os.path.join(top, "release")] if is_checkout else [here]


def find() -> str:
    """The file of the extension: that in the package, or that of the checkout."""
    places = _places()
    for place in places:
        file = os.path.join(place, FILE)
        if os.path.isfile(file):
            return file
    raise LibraryError(f"{FILE} isn't in {' nor in '.join(places)}")


def _is_cut_off(file: str) -> bool:
    """Whether the end of an ELF file is missing, where its list of sections lies: to load one would end the process."""
    with open(file, "rb") as it:
        head = it.read(64)
    at, size, count = (int.from_bytes(head[place], "little") for place in (_SECTIONS, _SIZE, _COUNT))
    return head[:4] == b"\x7fELF" and os.path.getsize(file) < max(64, at + size * count)


def load(file: str) -> Any:
    """The module that this file is. It is the package's, wherever the file lies."""
    # (as the import system does, whose own module for it takes longer to import than all of this)
    spec = type(globals()["__spec__"])(f"{__package__}._bullmyrtle", None, origin=file)
    try:
        if _is_cut_off(file):
            raise ImportError("its end is missing")
        module: Any = _imp.create_dynamic(spec)
        _imp.exec_dynamic(module)
    except (ImportError, OSError) as error:
        raise LibraryError(f"{file} can't be loaded: {error}") from None
    made_for = getattr(module, "MADE_FOR", None)
    if made_for != MADE_FOR:
        raise LibraryError(
            f"{file} is of another version: it is made for {made_for}, and this package is {MADE_FOR}"
        )
    return module


def _loaded() -> Any:
    """The extension, loaded when it is first asked for."""
    name = f"{__package__}._bullmyrtle"
    module = sys.modules.get(name)
    if module is None:
        module = sys.modules[name] = load(find())
    return module


extension = _loaded()
