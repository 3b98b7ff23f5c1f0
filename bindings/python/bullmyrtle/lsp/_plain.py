"""Values as LSP has them: a dataclass is an object without the members that it leaves at None."""
from __future__ import annotations

import sys
from .._hints import TYPE_CHECKING

if TYPE_CHECKING:
    from typing import Any


_ATOMS = frozenset((str, int, float, bool, type(None)))


def plain(value: Any) -> Any:
    """A value whose dataclasses, however deep, are objects. A field that is None, and by default is None, isn't there.

    (Who has made a dataclass, has imported the module. Others pay nothing for it.)
    """
    dataclasses: Any = sys.modules.get("dataclasses")
    return value if dataclasses is None else _walked(value, dataclasses)


def _walked(value: Any, dataclasses: Any) -> Any:
    kind = type(value)
    if kind in _ATOMS:
        return value
    if kind is dict:
        if _ATOMS.issuperset(map(type, value.values())):
            return value
        return {name: _walked(it, dataclasses) for name, it in value.items()}
    if kind is list or kind is tuple:
        if _ATOMS.issuperset(map(type, value)):
            return value
        return [_walked(it, dataclasses) for it in value]
    if dataclasses.is_dataclass(kind):
        given = ((it, getattr(value, it.name)) for it in dataclasses.fields(kind))
        return {
            it.name: _walked(part, dataclasses)
            for it, part in given
            if part is not None or it.default is not None
        }
    return value
