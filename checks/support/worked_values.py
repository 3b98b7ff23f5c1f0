"""Values of the types of a specification (`spec/*.json`), made to fit or to break in one place, and the plain rules by
which a value fits. Nothing here is of the package that is checked by it."""
from __future__ import annotations

import copy
import random
from typing import Any, Callable, Iterator

from generating import model  # (it stands in spec/)
from making import notation
from making.notation import Array, Literal, Map, Name, Tuple, Type

Json = dict[str, Any]
#: A value's place: the keys that lead to it.
Path = tuple[Any, ...]

_DEEPEST = 5
# Something else than what is at a place; one of these doesn't fit there.
_OTHERS: list[Any] = [None, True, -3, 1.5, 1_000_000, "nosuch", [], [[]], {}, {"nosuch": 1}]


def _is_integer(value: Any) -> bool:
    return type(value) is int or (type(value) is float and value == int(value))


_PLAIN: dict[str, Callable[[Any], bool]] = {
    "string": lambda value: isinstance(value, str),
    "DocumentUri": lambda value: isinstance(value, str),
    "URI": lambda value: isinstance(value, str),
    "integer": _is_integer,
    "uinteger": lambda value: _is_integer(value) and value >= 0,
    "decimal": lambda value: type(value) in (int, float),
    "boolean": lambda value: isinstance(value, bool),
    "null": lambda value: value is None,
    "LSPAny": lambda value: True,
    "LSPObject": lambda value: isinstance(value, dict),
}


class Values:
    """Values of the types of one specification."""

    def __init__(self, specification: Json, seed: int) -> None:
        self._specification = specification
        self._random = random.Random(seed)

    # The rules

    def fits(self, it: Type, value: Any) -> bool:
        """Whether a value fits. Null and absence count as the same, where one of them is allowed."""
        if isinstance(it, Literal):
            return isinstance(value, str) and value == it.value
        if isinstance(it, Array):
            return isinstance(value, list) and all(self.fits(it.of, part) for part in value)
        if isinstance(it, Map):
            return isinstance(value, dict) and all(self.fits(it.of, part) for part in value.values())
        if isinstance(it, Tuple):
            is_long = isinstance(value, list) and len(value) == len(it.of)
            return is_long and all(self.fits(of, part) for of, part in zip(it.of, value))
        if isinstance(it, Name):
            return self._fits_name(it.name, value)
        return any(self.fits(part, value) for part in it.of)

    def _fits_name(self, name: str, value: Any) -> bool:
        if name in _PLAIN:
            return _PLAIN[name](value)
        unions, enumerations = self._specification["unions"], self._specification["enumerations"]
        if name in unions:
            return self.fits(notation.read(unions[name]), value)
        if name in enumerations:
            known = enumerations[name]
            return _PLAIN[known["of"]](value) and (known["open"] or value in known["values"].values())
        return isinstance(value, dict) and all(
            self.fits(notation.read(about["type"]), value.get(member)) or (is_optional and value.get(member) is None)
            for member, is_optional, about in model.members_of(self._specification, name)
        )

    # Values that fit

    def fitting(self, it: Type, depth: int = 0, is_full: bool | None = None) -> Any:
        """A value that fits: with all members that may be absent, with none, or as it happens."""
        if isinstance(it, Literal):
            return it.value
        if isinstance(it, Array):
            count = 0 if depth > _DEEPEST else 1 if is_full is not None else self._random.randrange(3)
            return [self.fitting(it.of, depth + 1, is_full) for _ in range(count)]
        if isinstance(it, Map):
            return {"file:///a": self.fitting(it.of, depth + 1, is_full)}
        if isinstance(it, Tuple):
            return [self.fitting(of, depth + 1, is_full) for of in it.of]
        if isinstance(it, Name):
            return self._fitting_name(it.name, depth, is_full)
        parts = it.of if is_full is None else it.of[:1]
        return self.fitting(self._random.choice(parts), depth, is_full)

    def _fitting_name(self, name: str, depth: int, is_full: bool | None) -> Any:
        plain: dict[str, list[Any]] = {
            "boolean": [True, False],
            "decimal": [0.5, 2],
            "integer": [7, -7],
            "uinteger": [7, 0],
            "null": [None],
            "LSPAny": [{"a": [1]}, "a", None, 7],
            "LSPObject": [{"a": 1}],
        }
        unions, enumerations = self._specification["unions"], self._specification["enumerations"]
        if name in unions:
            return self.fitting(notation.read(unions[name]), depth, is_full)
        if name in model.PLAIN:
            values = plain.get(name, ["a"])
        elif name in enumerations:
            values = list(enumerations[name]["values"].values())
        else:
            return self._fitting_structure(name, depth, is_full)
        value = values[0] if is_full is not None else self._random.choice(values)
        is_float = is_full is None and type(value) is int and self._random.random() < 0.1
        return float(value) if is_float else value

    def _fitting_structure(self, name: str, depth: int, is_full: bool | None) -> Json:
        made: Json = {}
        for member, is_optional, about in model.members_of(self._specification, name):
            is_there = not is_optional or (
                depth < _DEEPEST and (self._random.random() < 0.5 if is_full is None else is_full)
            )
            if is_there:
                made[member] = self.fitting(notation.read(about["type"]), depth + 1, is_full)
            elif is_full is None and self._random.random() < 0.1:
                made[member] = None
        if is_full is None and self._random.random() < 0.1:
            made["a member that nobody knows"] = [1]
        return made

    # Values that don't

    def broken(self, it: Type, value: Any) -> tuple[Any, Path] | None:
        """A value that fits, broken in one place, with that; None where it can't be broken by a few tries."""
        places = list(_places(value))
        self._random.shuffle(places)
        for place in places[:30]:
            others = [*_OTHERS]
            self._random.shuffle(others)
            for made in (_with(value, place, other) for other in others):
                if not self.fits(it, made):
                    return made, place
        return None


def _places(value: Any, path: Path = ()) -> Iterator[Path]:
    yield path
    if isinstance(value, (dict, list)):
        for key in value if isinstance(value, dict) else range(len(value)):
            yield from _places(value[key], (*path, key))


def _with(value: Any, place: Path, other: Any) -> Any:
    """A value with another one at a place."""
    if not place:
        return other
    made = copy.deepcopy(value)
    inner = made
    for key in place[:-1]:
        inner = inner[key]
    inner[place[-1]] = other
    return made


def shown(place: Path) -> str:
    """A place as the package shows it."""
    words = (f".{it}" if isinstance(it, str) and it.isidentifier() else f"[{it!r}]".replace("'", '"') for it in place)
    return "value" + "".join(words)
