"""Names of rows as pytest's option -k takes them: one word each."""
import re
from typing import Any, Callable, Iterable

import pytest


def word_of(name: str) -> str:
    """`a cancel, by "7"` becomes `a_cancel_by_7`."""
    return re.sub(r"[^\w.+-]+", "_", name).strip("_") or "empty"


def first(row: Any) -> str:
    return str(row[0])


def named(rows: Iterable[Any], name: Callable[[Any], object] = first) -> list[Any]:
    """Rows as the values of one parameter, each under its name."""
    return [pytest.param(it, id=word_of(str(name(it)))) for it in rows]
