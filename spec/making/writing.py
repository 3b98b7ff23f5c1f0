"""Writes a specification as JSON that people can read: a member a line."""
from __future__ import annotations

import json
from typing import Any

Json = dict[str, Any]


def _line(value: Any) -> str:
    return json.dumps(value, ensure_ascii=False)


def _lines(value: Any, depth: int, flat: int) -> str:
    """A value with its members on lines of their own, down to a depth."""
    if depth == flat or not value or not isinstance(value, (dict, list)):
        return _line(value)
    pad, end = "  " * (depth + 1), "  " * depth
    if isinstance(value, list):
        return "[\n" + ",\n".join(f"{pad}{_line(it)}" for it in value) + f"\n{end}]"
    items = (f"{pad}{_line(name)}: {_lines(it, depth + 1, flat)}" for name, it in value.items())
    return "{\n" + ",\n".join(items) + f"\n{end}}}"


#: How deep the members of a part stand on lines of their own.
_FLAT = {"structures": 4, "enumerations": 3, "methods": 2, "unions": 2, "differences": 2, "about": 2, "values": 2}


def text_of(specification: Json) -> str:
    """The text of a specification."""
    parts = (f"  {_line(name)}: {_lines(it, 1, _FLAT.get(name, 2))}" for name, it in specification.items())
    return "{\n" + ",\n".join(parts) + "\n}\n"
