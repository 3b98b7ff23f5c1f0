"""The standard streams, taken away from everything else in the process."""
from __future__ import annotations

import contextlib
import os
import sys

from ._hints import TYPE_CHECKING

if TYPE_CHECKING:
    from typing import Iterator, List, Optional, Tuple

# No descriptor of ours may take the place of a standard one that is closed.
_LEAST = 3


def _kept(descriptor: int) -> Optional[int]:
    """A duplicate that children don't inherit, or None where the descriptor is closed."""
    lower = []
    try:
        kept = os.dup(descriptor)
        while kept < _LEAST:
            lower.append(kept)
            kept = os.dup(descriptor)
    except OSError:
        return None
    finally:
        for it in lower:
            os.close(it)
    if sys.platform == "win32":
        import msvcrt

        msvcrt.setmode(kept, os.O_BINARY)  # (ends of lines are part of what is said)
    return kept


def _flush() -> None:
    for stream in (sys.stdout, sys.stderr):
        with contextlib.suppress(Exception):
            stream.flush()


def _replace(descriptor: int, by: Optional[int], mode: int) -> None:
    """Puts another descriptor in the place of a standard one, or /dev/null where that isn't open."""
    if by is not None:
        with contextlib.suppress(OSError):
            os.dup2(by, descriptor)
            return
    null = os.open(os.devnull, mode)
    if null != descriptor:
        os.dup2(null, descriptor)
        os.close(null)
    else:
        os.set_inheritable(descriptor, True)


def _restore(descriptor: int, kept: Optional[int]) -> None:
    with contextlib.suppress(OSError):
        if kept is None:
            os.close(descriptor)
        else:
            os.dup2(kept, descriptor)


@contextlib.contextmanager
def taken() -> Iterator[Tuple[Optional[int], Optional[int]]]:
    """Descriptors of the standard input and output that nobody else has, each None where it was closed.

    Meanwhile descriptor 0 is /dev/null and 1 is what 2 is. So anyone who prints, from Python, a C extension or a child
    process, writes to the standard error, and anyone who reads the standard input finds its end.
    """
    kept: List[Optional[int]] = [_kept(0), _kept(1)]
    try:
        _replace(0, None, os.O_RDONLY)
        _replace(1, 2, os.O_WRONLY)
        # (what was printed before, and still lies in a buffer, isn't part of the stream either)
        _flush()
        yield kept[0], kept[1]
    finally:
        _flush()
        for descriptor, it in enumerate(kept):
            _restore(descriptor, it)
            if it is not None:
                os.close(it)
