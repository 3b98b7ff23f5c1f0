"""What annotations say of JSON values: the schema, for the other side, and the reader, which holds values to it."""
from __future__ import annotations

import collections.abc
import dataclasses
import enum
import itertools
import json
import typing
from typing import Any, Dict, List, Mapping, NamedTuple, Optional, Tuple

from .fits import hints_of, is_typed_dict, is_union, typed_dict_of
from .parameters import EMPTY
from .readers import ANYTHING, Constants, Every, FirstOf, Formed, Integer, Items, Made, Members
from .readers import Reader, Rule, Typed
from .values import form_of, plain, set_of

Json = Dict[str, Any]

_TYPES = {
    str: "string",
    int: "integer",
    float: "number",
    bool: "boolean",
    type(None): "null",
    list: "array",
    dict: "object",
}
_ARRAYS = (list, collections.abc.Sequence, collections.abc.Iterable)
_OBJECTS = (dict, collections.abc.Mapping)


_MADE: Dict[Any, Any] = {
    tuple: tuple,
    set: set_of,
    collections.abc.Set: set_of,
    frozenset: lambda items: frozenset(set_of(items)),
}


@dataclasses.dataclass(frozen=True)
class Titles:
    """Texts that may be chosen, each with a title that users read: `Annotated[str, Titles({"r": "Red"})]`."""

    of: Mapping[str, str]


class Kind(NamedTuple):
    """What an annotation says: the schema of its values, and what reads them."""

    schema: Json
    reader: Reader


def _is_named_tuple(kind: Any) -> bool:
    return isinstance(kind, type) and issubclass(kind, tuple) and hasattr(kind, "_field_defaults")


class Kinds:
    """Makes schemas and readers, and keeps those of classes, so that a class may have itself as a part."""

    def __init__(self) -> None:
        self.defs: Dict[str, Json] = {}
        self._classes: Dict[str, Any] = {}  # those that these are of, by their names here
        self._readers: Dict[str, Every] = {}

    def of(self, kind: Any) -> Kind:
        """What an annotation says. Raises TypeError if JSON has nothing that could fit it."""
        if kind is None:
            kind = type(None)
        if kind in (Any, object, EMPTY):
            return Kind({}, ANYTHING)
        form = form_of(kind)
        if form is not None:
            types = Typed("string", "number") if "anyOf" in form.schema else Typed("string")
            return Kind(dict(form.schema), Formed(types, form.make, form.wanted))
        if isinstance(kind, type) and kind in _TYPES:
            return Kind({"type": _TYPES[kind]}, Integer() if kind is int else Typed(_TYPES[kind]))
        if hasattr(kind, "__metadata__"):  # (Annotated, whose first text describes it)
            about = next((it for it in kind.__metadata__ if isinstance(it, str)), None)
            titles = next((it for it in kind.__metadata__ if isinstance(it, Titles)), None)
            schema, reader = self.of(kind.__origin__) if titles is None else _titled(kind.__origin__, titles)
            return Kind(schema if about is None else {**schema, "description": about}, reader)
        if isinstance(kind, type) and issubclass(kind, enum.Enum):
            return _constants(list(kind))
        if dataclasses.is_dataclass(kind) or is_typed_dict(kind) or _is_named_tuple(kind):
            return self._of_class(kind)
        return self._of_generic(kind, typing.get_origin(kind), typing.get_args(kind))

    def _of_generic(self, kind: Any, origin: Any, parts: Tuple[Any, ...]) -> Kind:
        if is_union(kind):
            found = [self.of(it) for it in parts]
            return Kind({"anyOf": [it.schema for it in found]}, FirstOf([it.reader for it in found]))
        if origin is typing.Literal:
            return _constants(list(parts))
        given = [it for it in parts if not isinstance(it, typing.TypeVar)]
        array_of = origin or kind
        if array_of is tuple and given and given[-1] is not ...:
            return self._of_tuple([self.of(it) for it in given])
        if isinstance(array_of, type) and array_of in _MADE:
            item = self.of(given[0] if given else Any)
            unique = {"uniqueItems": True} if array_of is not tuple else {}
            array: Json = {"type": "array", **({"items": item.schema} if given else {}), **unique}
            rules = [Rule(word, it) for word, it in unique.items()]
            return Kind(array, Every(Typed("array"), *rules, Items(item.reader), Made(_MADE[array_of])))
        if origin in _ARRAYS:
            item = self.of(given[0] if given else Any)
            schema: Json = {"type": "array", **({"items": item.schema} if given else {})}
            return Kind(schema, Every(Typed("array"), Items(item.reader)))
        if origin in _OBJECTS:
            member = self.of(given[1] if given else Any)
            table: Json = {"type": "object", **({"additionalProperties": member.schema} if given else {})}
            return Kind(table, Every(Typed("object"), Members({}, (), member.reader)))
        raise TypeError(
            f"{kind!r} has no schema: use str, int, float, bool, list, dict, tuple, set, None, Literal, Optional, "
            "Union, an enumeration, a TypedDict, a NamedTuple or a dataclass, a datetime, date, Path, UUID, Decimal or "
            "bytes, or give the schema by hand"
        )

    def _of_tuple(self, items: List[Kind], required: Optional[int] = None) -> Kind:
        """An array of these items, the first of which are required."""
        least = len(items) if required is None else required
        bounds = {"minItems": least, "maxItems": len(items)}
        first = {"prefixItems": [it.schema for it in items]} if items else {}
        rules = [Rule(word, it) for word, it in bounds.items()]
        read = Items(ANYTHING, [it.reader for it in items])
        return Kind({"type": "array", **first, **bounds}, Every(Typed("array"), *rules, read, Made(tuple)))

    def _of_class(self, kind: Any) -> Kind:
        name = self._name_of(kind)
        if name not in self.defs:
            # (they are there before their parts are, which may have this class as a part)
            made: Json = {"type": "object"}
            reader = Every(Typed("object"))
            self.defs[name], self._readers[name] = made, reader
            if _is_named_tuple(kind):
                schema, whole = self._of_tuple(*self._items_of(kind))
                made.update(schema)
                reader.parts = [whole, Made(lambda items: kind(*items))]
                return Kind({"$ref": f"#/$defs/{name}"}, reader)
            of = (
                self._members_of_typed_dict(kind) if is_typed_dict(kind) else self._members_of_dataclass(kind)
            )
            members, required = of
            made["properties"] = {it: member.schema for it, member in members.items()}
            if required:
                made["required"] = required
            reader.parts.append(Members({it: member.reader for it, member in members.items()}, required))
            if not is_typed_dict(kind):
                reader.parts.append(Made(_maker(kind, list(members))))
        return Kind({"$ref": f"#/$defs/{name}"}, self._readers[name])

    def _members_of_typed_dict(self, kind: Any) -> Tuple[Dict[str, Kind], List[str]]:
        hints, required = typed_dict_of(kind)
        return {it: self.of(hint) for it, hint in hints.items()}, required

    def _members_of_dataclass(self, kind: Any) -> Tuple[Dict[str, Kind], List[str]]:
        hints = hints_of(kind)
        fields = [it for it in dataclasses.fields(kind) if it.init]
        required = [it.name for it in fields if it.default is it.default_factory]  # (both are MISSING)
        return {it.name: with_default(self.of(hints[it.name]), it.default) for it in fields}, required

    def _items_of(self, kind: Any) -> Tuple[List[Kind], int]:
        """The items of a NamedTuple, with their names as titles, and how many are required."""
        hints = hints_of(kind)
        found = [
            (it, with_default(self.of(hints.get(it, Any)), _default_of(kind, it))) for it in kind._fields
        ]
        titled = [Kind({"title": name, **it.schema}, it.reader) for name, it in found]
        return titled, len(titled) - len(kind._field_defaults)

    def _name_of(self, kind: Any) -> str:
        """The name of a class here: its own, or with a number behind it if another class has that."""
        name: str = kind.__name__
        for at in itertools.count(2):
            if self._classes.setdefault(name, kind) is kind:
                break
            name = f"{kind.__name__}{at}"
        return name

    def found(self, schema: Json) -> Json:
        """A schema, or what it refers to."""
        return self.defs.get(schema.get("$ref", "").rpartition("/")[2], schema)

    def whole(self, schema: Json) -> Json:
        """A schema with what it refers to. A class stands in the place of a reference to it, if that is the only one."""
        name = schema.get("$ref", "").rpartition("/")[2]
        if name and f'"#/$defs/{name}"' not in json.dumps(self.defs):
            schema = self.defs.pop(name)
        return {**schema, "$defs": self.defs} if self.defs else schema


def _titled(kind: Any, titles: Titles) -> Kind:
    """A choice of texts that have titles, or a list of such."""
    choices = [{"const": value, "title": title} for value, title in titles.of.items()]
    one = Kind({"type": "string", "oneOf": choices}, Constants((it, it) for it in titles.of))
    if kind is str:
        return one
    if typing.get_origin(kind) is not list or typing.get_args(kind) != (str,):
        raise TypeError(f"{kind!r} has no titles: annotate str or List[str] with them")
    return Kind({"type": "array", "items": one.schema}, Every(Typed("array"), Items(one.reader)))


def _default_of(kind: Any, name: str) -> Any:
    return kind._field_defaults.get(name, dataclasses.MISSING)


def _maker(kind: Any, names: List[str]) -> Any:
    """What makes a dataclass of an object, which may have other members too."""

    def make(members: Json) -> Any:
        return kind(**{it: members[it] for it in names if it in members})

    return make


def _constants(values: List[Any]) -> Kind:
    """A few values: those of an enumeration stand for its members."""
    plain = [it.value if isinstance(it, enum.Enum) else it for it in values]
    types = {_TYPES.get(type(it)) for it in plain}
    odd = [it for it in plain if type(it) not in (str, int, float, bool, type(None))]
    if odd:
        raise TypeError(
            f"{odd[0]!r} has no schema: the values of a choice are texts, numbers, booleans and None"
        )
    typed = {"type": types.pop()} if len(types) == 1 else {}
    return Kind({**typed, "enum": plain}, Constants(zip(plain, values)))


def with_default(kind: Kind, default: Any) -> Kind:
    """A kind whose schema has the default of a parameter or field, if there is one that JSON has."""
    if default is dataclasses.MISSING or default is EMPTY:
        return kind
    default = plain(default)
    try:
        json.dumps(default, allow_nan=False)
    except (TypeError, ValueError):
        return kind
    return Kind({**kind.schema, "default": default}, kind.reader)
