"""Whether a value is of a type of LSP's or MCP's, as a generated model has them, and where it isn't.

A type of the model is a name or a tuple: `("|", A, B)`, `("[]", A)`, `("{}", A)`, `("()", A, B)` and `("=", "create")`.
"""
from __future__ import annotations

import itertools
from ._hints import TYPE_CHECKING, NamedTuple

if TYPE_CHECKING:
    from typing import Any, Callable, Dict, Iterator, List, Mapping, Optional, Tuple, Union

    Type = Union[str, Tuple[Any, ...]]
    Fits = Callable[[Any], bool]
else:
    Type = Fits = object


_WORDS = {
    "string": "a string",
    "integer": "an integer",
    "uinteger": "an integer",
    "decimal": "a number",
    "boolean": "true or false",
    "null": "null",
    "object": "an object",
    "array": "an array",
}
_NAMES = {dict: "object", list: "array", str: "string", bool: "boolean", int: "integer", float: "number"}
#: Names that any value fits, and those that are strings and objects.
ANYTHING = frozenset(("LSPAny", "any"))
_STRINGS = frozenset(("string", "DocumentUri", "URI"))
_OBJECTS = frozenset(("LSPObject", "object"))
_INTEGERS = frozenset(("integer", "uinteger"))
#: The largest integer that LSP has, 2^31 - 1.
MOST = 2_147_483_647
# How much of a value is shown, and how many faults of an alternative are looked at.
_SHOWN, _MOST_FAULTS = 40, 1_000


#: Faults that do no harm, so that a value that has no others fits: null for a member that may be absent but not null, a
#: member left out that may be null but not absent, and a range that ends before its start.
SOFT = frozenset(("null", "left out", "order"))


class Fault(NamedTuple):
    """What is wrong at one place of a value."""

    place: str
    words: str
    #: "type", "lacks", "value" (the type is right), "large" (beyond LSP's integers), or one of `SOFT`.
    kind: str
    #: The member of the specification that it breaks, as "Hover.contents"; of a whole value, its type.
    of: str
    #: Whether the member, and each one that it is in, may not be absent.
    is_required: bool = True


class Model(NamedTuple):
    """A specification as a package has it."""

    #: To which side a method is sent ("server", "client" or "both"), its params and its result.
    methods: Mapping[str, Tuple[str, Optional[Type], Optional[Type]]]
    #: Members with their types by the names of structures; `?` behind a name says that it may be absent. The member ""
    #: has the structures that it extends, with blanks between.
    structures: Mapping[str, Mapping[str, Any]]
    unions: Mapping[str, Type]
    #: Their type, and their values; None where there may be others.
    enumerations: Mapping[str, Tuple[str, Optional[Tuple[Any, ...]]]]


#: How many integers were met that are floats to Python, as 1.0 and 1e300, so that nobody looks for them where none were.
floats_met = [0]


def _is_integer(value: Any) -> bool:
    if type(value) is not float:
        return type(value) is int
    floats_met[0] += 1
    return value.is_integer()


def _is_uinteger(value: Any) -> bool:
    return _is_integer(value) and bool(0 <= value <= MOST)


def _is_number(value: Any) -> bool:
    return type(value) in (int, float)


_PLAIN: Dict[Type, Fits] = {
    "integer": _is_integer,
    "uinteger": _is_uinteger,
    "decimal": _is_number,
    "boolean": lambda value: type(value) is bool,
    "null": lambda value: value is None,
    **dict.fromkeys(_STRINGS, lambda value: type(value) is str),
    **dict.fromkeys(_OBJECTS, lambda value: type(value) is dict),
    **dict.fromkeys(ANYTHING, lambda value: True),
}
# What most values of a type are, so that no function has to be called.
_QUICK: Dict[Any, str] = {
    **dict.fromkeys(_STRINGS, "type({0}) is str"),
    **dict.fromkeys(_OBJECTS, "type({0}) is dict"),
    "boolean": "type({0}) is bool",
    "integer": "type({0}) is int",
    "uinteger": f"type({{0}}) is int and 0 <= {{1}} <= {MOST}",
}
# Of a structure with so many members at most, as a position has, they are looked at without a call too.
_FEW = 2


class Specified:
    """The types of a model, each made ready when it is first asked for."""

    def __init__(self, model: Model) -> None:
        self._model = model
        self._fits = dict(_PLAIN)
        self._members: Dict[str, List[Tuple[str, bool, Type]]] = {}

    # Whether a value fits

    def fits(self, type_: Type) -> Fits:
        """What says whether a value fits a type. A member that may be absent may be null, and the other way round."""
        found = self._fits.get(type_)
        if found is None:
            # (a structure may be in itself: it is asked for anew when it is used)
            self._fits[type_] = lambda value: self._fits[type_](value)
            found = self._fits[type_] = self._made(type_)
        return found

    def _made(self, type_: Type) -> Fits:
        if isinstance(type_, tuple):
            return self._compound(type_[0], type_[1:])
        if type_ in self._model.structures:
            return self._structure(type_)
        if type_ in self._model.unions:
            return self.fits(self._model.unions[type_])
        plain, values = self._model.enumerations[type_]
        # (1.0 is 1, and True isn't)
        is_one, known = self.fits(plain), values or ()
        return is_one if values is None else lambda value: is_one(value) and value in known

    def _compound(self, sign: str, parts: Tuple[Any, ...]) -> Fits:
        if sign == "=":
            return lambda value: type(value) is str and value == parts[0]
        each = [self.fits(it) for it in parts]
        first = each[0]
        if sign == "[]":
            return lambda value: type(value) is list and all(map(first, value))
        if sign == "{}":
            return lambda value: type(value) is dict and all(map(first, value.values()))
        if sign == "()":
            return (
                lambda value: type(value) is list
                and len(value) == len(each)
                and all(fits(it) for fits, it in zip(each, value))
            )
        return lambda value: any(fits(value) for fits in each)

    def _structure(self, name: str) -> Fits:
        """A function with a line for each member: a loop over them takes three times as long, at each message."""
        names: Dict[str, Any] = {}
        lines = ["def fits(value):", " if type(value) is not dict: return False", " get = value.get"]
        for at, (member, is_optional, type_) in enumerate(self.members(name)):
            names[f"fits_{at}"] = self.fits(type_)
            quick = self._quick(type_)
            known = "it is None or " if self._may_lack(is_optional, type_) else "it is not None and "
            lines += [f" it = get({member!r})", f" if not ({known}({quick}fits_{at}(it))): return False"]
        exec("\n".join([*lines, " return True"]), names)  # (of the names of the specification alone)
        made: Fits = names["fits"]
        return made

    def _quick(self, type_: Type) -> str:
        """What is true of most values of a type, and of no others, if that is little to look at."""
        if type_ in _QUICK:
            return _QUICK[type_].format("it", "it") + " or "
        members = self.members(type_) if isinstance(type_, str) and type_ in self._model.structures else []
        if not 0 < len(members) <= _FEW or any(lacks or its not in _QUICK for _, lacks, its in members):
            return ""
        each = [_QUICK[its].format(f"part := it.get({name!r})", "part") for name, _, its in members]
        return f"type(it) is dict and {' and '.join(each)} or "

    def _may_lack(self, is_optional: bool, type_: Type) -> bool:
        return is_optional or self.fits(type_)(None)

    def members(self, name: str) -> List[Tuple[str, bool, Type]]:
        """The members of a structure with those of what it extends: name, whether it may be absent, and type."""
        found = self._members.get(name)
        if found is None:
            made: Dict[str, Tuple[str, bool, Type]] = {}
            own = self._model.structures[name]
            for base in own.get("", "").split():
                made.update((it[0], it) for it in self.members(base))
            for member, type_ in own.items():
                if member:
                    made[member.rstrip("?")] = (member.rstrip("?"), member.endswith("?"), type_)
            found = self._members[name] = list(made.values())
        return found

    def with_integers(self, type_: Type, value: Any) -> Any:
        """A value that fits a type, in which 1.0 is 1 wherever the type has integers. (Changed in its place.)"""
        if isinstance(type_, tuple):
            return self._parts_with_integers(type_[0], type_[1:], value)
        if type_ in self._model.structures:
            for member, _, its in self.members(type_):
                if value.get(member) is not None:
                    value[member] = self.with_integers(its, value[member])
            return value
        if type_ in self._model.unions:
            return self.with_integers(self._model.unions[type_], value)
        plain = self._model.enumerations.get(type_, (type_, None))[0]
        return int(value) if type(value) is float and plain in _INTEGERS else value

    def _parts_with_integers(self, sign: str, parts: Tuple[Any, ...], value: Any) -> Any:
        if sign == "|":
            fitting = next((it for it in parts if self.fits(it)(value)), parts[0])
            return self.with_integers(fitting, value)
        if sign != "=":
            for at, it in value.items() if sign == "{}" else enumerate(value):
                value[at] = self.with_integers(parts[at] if sign == "()" else parts[0], it)
        return value

    # Where it doesn't fit

    def faults(
        self, type_: Type, value: Any, place: str, of: str = "", is_required: bool = True
    ) -> Iterator[Fault]:
        """What is wrong with a value, from its beginning on."""
        of = of or (type_ if isinstance(type_, str) else "")
        if isinstance(type_, tuple):
            yield from self._faults_of_parts(type_, value, place, of, is_required)
        elif type_ in self._model.structures:
            yield from self._faults_of_members(type_, value, place, of, is_required)
        elif type_ in self._model.unions:
            yield from self.faults(self._model.unions[type_], value, place, of, is_required)
        elif not self.fits(type_)(value):
            yield self._plain_fault(type_, value, place, of, is_required)

    def _plain_fault(self, type_: str, value: Any, place: str, of: str, is_required: bool) -> Fault:
        plain, values = self._model.enumerations.get(type_, (type_, None))
        if type_ == "uinteger" and _is_integer(value):
            kind, words = ("value", "at least 0") if value < 0 else ("large", f"at most {MOST}")
            return Fault(place, f"must be {words}, got {shown(value)}", kind, of, is_required)
        if values is not None and self.fits(plain)(value):
            known = (
                ", ".join(map(shown, values))
                if len(values) < 8
                else f"{shown(values[0])} to {shown(values[-1])}"
            )
            words = f"must be one of {type_}'s values ({known}), got {shown(value)}"
            return Fault(place, words, "value", of, is_required)
        words = _WORDS["string" if plain in _STRINGS else "object" if plain in _OBJECTS else plain]
        return Fault(place, f"must be {words}, got {named(value)}", "type", of, is_required)

    def _faults_of_parts(
        self, type_: Tuple[Any, ...], value: Any, place: str, of: str, is_required: bool
    ) -> Iterator[Fault]:
        sign, parts = type_[0], type_[1:]
        if sign == "=":
            if type(value) is not str or value != parts[0]:
                kind = "value" if type(value) is str else "type"
                yield Fault(place, f"must be {shown(parts[0])}, got {shown(value)}", kind, of, is_required)
        elif sign == "|":
            yield from self._faults_of_union(parts, value, place, of, is_required)
        else:
            name = "object" if sign == "{}" else "array"
            if named(value) != name:
                yield Fault(place, f"must be {_WORDS[name]}, got {named(value)}", "type", of, is_required)
            elif sign == "()" and len(value) != len(parts):
                words = f"must have {len(parts)} items, got {len(value)}"
                yield Fault(place, words, "type", of, is_required)
            else:
                items = value.items() if sign == "{}" else enumerate(value)
                for at, it in items:
                    part = parts[at] if sign == "()" else parts[0]
                    yield from self.faults(part, it, f"{place}[{shown(at)}]", of, is_required)

    def _faults_of_union(
        self, parts: Tuple[Any, ...], value: Any, place: str, of: str, is_required: bool
    ) -> Iterator[Fault]:
        """The faults of the alternative that is nearest: the one whose first fault is deepest in the value."""
        fitting = [it for it in parts if self.fits(it)(value)]
        if fitting:
            yield from self.faults(fitting[0], value, place, of, is_required)
            return
        found = (self.faults(it, value, place, of, is_required) for it in parts)
        tried = [list(itertools.islice(it, _MOST_FAULTS)) for it in found]
        # (an alternative that asks for another kind of value says nothing about this one)
        inside = [it for it in tried if it[0].place != place or it[0].kind != "type"]
        if inside:
            yield from min(inside, key=lambda faults: sum(it.kind not in SOFT for it in faults))
        else:
            words = " or ".join(dict.fromkeys(self._words(it) for it in parts))
            yield Fault(place, f"must be {words}, got {named(value)}", "type", of, is_required)

    def _words(self, type_: Type) -> str:
        """What a value of a type is, in a word."""
        if isinstance(type_, tuple):
            return {"[]": "an array", "()": "an array", "{}": "an object"}.get(type_[0]) or (
                shown(type_[1]) if type_[0] == "=" else " or ".join(self._words(it) for it in type_[1:])
            )
        if type_ in self._model.structures:
            return f"a {type_}" if type_[0] not in "AEIOU" else f"an {type_}"
        if type_ in self._model.unions:
            return self._words(self._model.unions[type_])
        plain = self._model.enumerations.get(type_, (type_, None))[0]
        return _WORDS["string" if plain in _STRINGS else "object" if plain in _OBJECTS else plain]

    def _faults_of_members(
        self, name: str, value: Any, place: str, of: str, is_required: bool
    ) -> Iterator[Fault]:
        if type(value) is not dict:
            yield Fault(place, f"must be an object, got {named(value)}", "type", of, is_required)
            return
        for member, is_optional, type_ in self.members(name):
            own = f"{name}.{member}"
            needed = is_required and not is_optional
            if member not in value:
                # (any value may be left out where it would be null)
                if not is_optional and type_ not in ANYTHING:
                    kind = "left out" if self.fits(type_)(None) else "lacks"
                    yield Fault(place, f"lacks {member}", kind, own, is_required)
            elif value[member] is None and is_optional and not self.fits(type_)(None):
                yield Fault(f"{place}.{member}", "must be absent, and not null", "null", own, False)
            else:
                yield from self.faults(type_, value[member], f"{place}.{member}", own, needed)
        if name == "Range" and self.fits(name)(value):
            start, end = ((it["line"], it["character"]) for it in (value["start"], value["end"]))
            if end < start:
                yield Fault(
                    place, f"ends before its start: {end} is before {start}", "order", name, is_required
                )


def named(value: Any) -> str:
    """What JSON calls a value."""
    return "null" if value is None else _NAMES.get(type(value), type(value).__name__)


def shown(value: Any) -> str:
    """A value that has no parts as JSON, its beginning if it is long."""
    import json

    text = json.dumps(value[: _SHOWN + 1] if isinstance(value, str) else value, ensure_ascii=False)
    return text if len(text) <= _SHOWN else f"{text[:_SHOWN]}.."
