"""Whether settings are any that there are, and what is said where they aren't."""
from __future__ import annotations

import math
import os

from ._hints import TYPE_CHECKING
from ._json import FEWEST_DIGITS
from ._signatures.parameters import is_async
from .errors import BadSettings

if TYPE_CHECKING:
    from typing import Any, Iterable, NoReturn, Optional, Sequence

#: The greatest content that the library takes, in bytes, and the most calls.
MOST_CONTENT, MOST_CALLS = (1 << 31) - 1, (1 << 64) - 1
#: The greatest content where nothing else is asked for.
USUAL_CONTENT = 16_777_216
#: The greatest setting `entries`, which stands for any number.
ANY_ENTRIES = (1 << 32) - 1


def refuse(name: str, value: Any, there_is: str) -> NoReturn:
    raise BadSettings(f"there is no {name}={value!r}: {there_is}")


def one_of(name: str, value: Any, choices: Sequence[Optional[str]]) -> None:
    """A word of these, or None where that is among them."""
    if value not in choices or not (value is None or isinstance(value, str)):
        *first, last = map(repr, choices)
        refuse(
            name,
            value,
            f"there {'are' if first else 'is'} {', '.join(first)}{' and ' if first else ''}{last}",
        )


def whole(name: str, value: Any, most: Optional[int] = None) -> None:
    """A whole number from 1 on, or None."""
    if value is None or (type(value) is int and 1 <= value and (most is None or value <= most)):
        return
    until = "" if most is None else f" to {most:,}"
    refuse(name, value, f"it must be an integer from 1{until or ' on'}, or None")


def digits(value: Any) -> None:
    """A number of digits that is no less than an id may have."""
    if type(value) is not int or value < FEWEST_DIGITS:
        refuse("digits", value, f"it must be an integer from {FEWEST_DIGITS} on")


def seconds(name: str, value: Any) -> None:
    """A number of seconds that isn't negative."""
    if isinstance(value, bool) or not isinstance(value, (int, float)) or not value >= 0 or math.isnan(value):
        refuse(name, value, "it is a number of seconds, from 0 on")


def trace(value: Any) -> None:
    """Where lines can go, or None."""
    if not (
        value is None or isinstance(value, (str, os.PathLike)) or hasattr(value, "write") or callable(value)
    ):
        refuse("trace", value, "it is a file's name, a file, a function that takes lines, or None")


def hook(name: str, value: Any) -> None:
    """A plain function, or None."""
    if value is not None and (not callable(value) or is_async(value)):
        refuse(name, value, "it is a plain function, or None")


def no_more(unknown: Iterable[str], known: Iterable[str]) -> None:
    """Refuses settings by names that there aren't."""
    import difflib  # (here, since a server starts sooner without it)

    names = list(known)
    for it in unknown:
        (near,) = difflib.get_close_matches(it, names, 1) or [""]
        meant = f" Is {near!r} meant?" if near else ""
        raise TypeError(f"there is no setting {it!r}; there are {', '.join(names)}.{meant}")
