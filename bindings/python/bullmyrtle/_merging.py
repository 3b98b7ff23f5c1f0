"""What is made and what is given by hand, in one object."""
from __future__ import annotations

from ._hints import TYPE_CHECKING

if TYPE_CHECKING:
    from typing import Any, Dict

    Json = Dict[str, Any]


def merged(one: Json, other: Json) -> Json:
    """Two objects, and the objects in them; where both have something else, the other's stands."""
    import copy

    both = copy.deepcopy(one)
    for name, value in other.items():
        there = both.get(name)
        both[name] = merged(there, value) if isinstance(there, dict) and isinstance(value, dict) else value
    return both
