"""Reads JSON values: one pass, which gives what a value becomes or its first fault.

A reader is called with a value and with what this pass has `seen`. It returns a fault and doesn't raise it: a union asks
its alternatives, so most faults are dropped, and the place of one is written only if it is the answer.

Nothing is read twice. Two alternatives of a union may have the same parts, and these the same again, so that reading
them anew would double the work at each level of a tree. So what `Every` found is kept for the pass, by reader and value.
"""
from __future__ import annotations

import fractions
import json
import re
import typing
from typing import Any, Callable, Dict, Iterable, List, Mapping, Optional, Sequence, Tuple

from .._outgoing import words_of_error

#: What was found in this pass, by the ids of a reader and of a value. The message keeps its values alive meanwhile.
Seen = Dict[Tuple[int, int], Any]
Part = typing.Union[str, int]

_ABSENT = object()
_MOST_SHOWN = 60
_MOST_LISTED = 20

#: How near a value is to what a reader wants: of another type, of another tag, or right except for a part of it.
OTHER, TAGGED, NEAR = range(3)


def shown(value: Any) -> str:
    """A value of the program's as an error shows it, cut if it is long."""
    text = json.dumps(value, ensure_ascii=False, default=str)
    return text if len(text) <= _MOST_SHOWN else text[:_MOST_SHOWN] + ".."


def _received(value: Any) -> str:
    """A received value as an error shows it: by its type, if its text may be long."""
    if isinstance(value, str):
        return shown(value[:_MOST_SHOWN])
    is_short = (
        value is None or isinstance(value, float) or (isinstance(value, int) and value.bit_length() < 64)
    )
    return shown(value) if is_short else type_of(value)


def _listed(texts: Sequence[str]) -> str:
    """Texts as a sentence has them: `a, b or c`."""
    if len(texts) > _MOST_LISTED:
        return ", ".join(texts[:_MOST_LISTED]) + f" or one of {len(texts) - _MOST_LISTED} more"
    return " or ".join(filter(None, (", ".join(texts[:-1]), texts[-1])))


class Fault:
    """What is wrong with a value, or with a part of it."""

    __slots__ = ("_words", "_wanted", "_parts", "nearness")

    def __init__(self, words: str, wanted: Sequence[str] = (), nearness: int = NEAR) -> None:
        """In these words; or, if something else is `wanted`, with what is there as the words."""
        self._words, self._wanted, self.nearness = words, wanted, nearness
        self._parts: Any = ()  # of the value, the outermost first, as pairs: a part, and those within it

    def under(self, part: Part, nearness: int = NEAR) -> Fault:
        """The same fault, as one of the value that has this part."""
        fault = Fault(self._words, self._wanted, nearness)
        fault._parts = (part, self._parts)
        return fault

    def text(self, place: str) -> str:
        """The fault of the value at this place."""
        texts, parts = [place], self._parts
        while parts:
            part, parts = parts
            texts.append(f"[{part}]" if isinstance(part, int) else "." + part[:_MOST_SHOWN])
        words = f"must be {_listed(self._wanted)}, got {self._words}" if self._wanted else self._words
        return f"{''.join(texts)} {words}"


def nearest(faults: List[Fault]) -> Fault:
    """Of faults with alternatives, the first of those that are nearest; all that was wanted, if the value is none."""
    most = max(it.nearness for it in faults)
    alike = [it for it in faults if it.nearness == most]
    first = alike[0]
    if most == NEAR:
        return first
    # (each once: two alternatives that refer to the same one would double them at each reference)
    wanted = dict.fromkeys(text for it in alike if it._parts == first._parts for text in it._wanted)
    merged = Fault(first._words, list(wanted), most)
    merged._parts = first._parts
    return merged


class Reader:
    """Reads values. This one takes any."""

    def read(self, value: Any, seen: Seen) -> Any:
        """What the value becomes, or a Fault."""
        return value


ANYTHING = Reader()


class Nothing(Reader):
    """Takes no value."""

    def read(self, value: Any, seen: Seen) -> Any:
        """A fault."""
        return Fault("isn't allowed")


def read(reader: Reader, value: Any, place: str, refuse: Callable[[str], Exception]) -> Any:
    """What a value at a place becomes. Raises what `refuse` makes of a fault's text."""
    try:
        found = reader.read(value, {})
    except RecursionError:
        raise refuse(f"{place} nests too deep") from None
    if type(found) is Fault:
        raise refuse(found.text(place))
    return found


# Types

_NAMES = {str: "string", int: "integer", float: "number", bool: "boolean", list: "array", dict: "object"}
TYPES: Dict[str, Tuple[str, Callable[[Any], bool]]] = {
    "string": ("a string", lambda it: type(it) is str),
    "integer": ("an integer", lambda it: type(it) is int or (type(it) is float and it.is_integer())),
    "number": ("a number", lambda it: type(it) in (int, float)),
    "boolean": ("a boolean", lambda it: type(it) is bool),
    "null": ("null", lambda it: it is None),
    "array": ("an array", lambda it: type(it) is list),
    "object": ("an object", lambda it: type(it) is dict),
}


def type_of(value: Any) -> str:
    """The name of a value's type in JSON."""
    return "null" if value is None else _NAMES.get(type(value), type(value).__name__)


class Typed(Reader):
    """Takes the values of some types."""

    def __init__(self, *names: str) -> None:
        self._wanted = [TYPES[it][0] for it in names]
        self._checks = [TYPES[it][1] for it in names]

    def read(self, value: Any, seen: Seen) -> Any:
        """The value itself."""
        for is_one in self._checks:
            if is_one(value):
                return value
        return Fault(type_of(value), self._wanted, OTHER)


class Integer(Typed):
    """Takes integers, also those that are written with a fraction of 0, as `1.0`."""

    def __init__(self) -> None:
        super().__init__("integer")

    def read(self, value: Any, seen: Seen) -> Any:
        """The value as an `int`."""
        if type(value) is int:
            return value
        found = super().read(value, seen)
        return int(found) if type(found) is float else found


class Made(Reader):
    """What a function makes of a value. It refuses one by raising ValueError or TypeError."""

    def __init__(self, make: Callable[[Any], Any]) -> None:
        self._make = make

    def read(self, value: Any, seen: Seen) -> Any:
        """What the function gives."""
        try:
            return self._make(value)
        except (ValueError, TypeError) as error:
            return Fault(f"isn't valid: {words_of_error(error)[:200]}")


class Formed(Reader):
    """Takes what a function makes something of; the function refuses a value by raising ValueError."""

    def __init__(self, types: Typed, make: Callable[[Any], Any], wanted: str) -> None:
        self._types, self._make, self._wanted = types, make, (wanted,)

    def read(self, value: Any, seen: Seen) -> Any:
        """What the function gives."""
        if type(self._types.read(value, seen)) is Fault:
            return Fault(type_of(value), self._wanted, OTHER)
        try:
            return self._make(value)
        except (ValueError, ArithmeticError):
            return Fault(_received(value), self._wanted, OTHER)


# Constants


def same(one: Any, other: Any) -> bool:
    """Whether two values are equal in JSON, where 1 is 1.0 and isn't true."""
    if isinstance(one, bool) or isinstance(other, bool):
        return one is other
    if isinstance(one, dict) and isinstance(other, dict):
        return one.keys() == other.keys() and all(same(it, other[name]) for name, it in one.items())
    if isinstance(one, list) and isinstance(other, list):
        return len(one) == len(other) and all(map(same, one, other))
    return bool(one == other)


class Constants(Reader):
    """Takes some values, each of which becomes what stands beside it."""

    def __init__(self, values: Iterable[Tuple[Any, Any]]) -> None:
        self._values = list(values)
        self._wanted = [shown(it) for it, _ in self._values] or ["one of no values"]

    def read(self, value: Any, seen: Seen) -> Any:
        """What stands beside the value."""
        for it, made in self._values:
            if same(value, it):
                return made
        return Fault(_received(value), self._wanted, OTHER)


def _is_constant(reader: Optional[Reader]) -> bool:
    """Whether a reader takes constants alone."""
    if isinstance(reader, Every):
        return any(isinstance(it, Constants) for it in reader.parts)
    return isinstance(reader, Constants)


# Members and items


class Members(Reader):
    """Takes objects by their members, and all that isn't an object."""

    def __init__(
        self, members: Mapping[str, Reader], required: Sequence[str], more: Optional[Reader] = ANYTHING
    ) -> None:
        """With readers of these members, and one of all others, if there may be others."""
        self._members, self._required, self._more = members, required, more
        self._tags: Optional[List[str]] = None  # (found at the first use, when all readers are whole)

    def read(self, value: Any, seen: Seen) -> Any:
        """The object, with what its members became."""
        if type(value) is not dict:
            return value
        if self._tags is None:
            self._tags = [it for it in self._required if _is_constant(self._members.get(it))]
        # (a required constant is a tag: it says which alternative is meant, so it decides before anything else is read)
        for name in self._tags:
            if name not in value:
                return Fault(f"lacks {name}")
            tag = self._members[name].read(value[name], seen)
            if type(tag) is Fault:
                return tag.under(name, TAGGED)
        for name in self._required:
            if name not in value:
                return Fault(f"lacks {name}")
        made = value
        for name, it in value.items():
            reader = self._members.get(name, self._more)
            if reader is None:
                return Fault(f"has a member {_received(name)}, which isn't allowed")
            found = reader.read(it, seen)
            if type(found) is Fault:
                return found.under(name)
            if found is not it:
                made = dict(value) if made is value else made
                made[name] = found
        return made


class Items(Reader):
    """Takes arrays by their items, and all that isn't an array."""

    def __init__(self, rest: Reader, first: Sequence[Reader] = ()) -> None:
        """With one reader for each of the first items, and one for the rest."""
        self._rest, self._first = rest, first

    def read(self, value: Any, seen: Seen) -> Any:
        """The array, with what its items became."""
        if type(value) is not list:
            return value
        made = value
        for at, it in enumerate(value):
            reader = self._first[at] if at < len(self._first) else self._rest
            found = reader.read(it, seen)
            if type(found) is Fault:
                return found.under(at)
            if found is not it:
                made = list(value) if made is value else made
                made[at] = found
        return made


# Several readers of one value


class Every(Reader):
    """Takes what each of its parts takes, each of which gets what the one before it made."""

    def __init__(self, *parts: Reader) -> None:
        self.parts = list(parts)

    def read(self, value: Any, seen: Seen) -> Any:
        """What the last part made."""
        key = id(self), id(value)
        found = seen.get(key, _ABSENT)
        if found is _ABSENT:
            found = value
            for it in self.parts:
                found = it.read(found, seen)
                if type(found) is Fault:
                    break
            seen[key] = found
        return found


class FirstOf(Reader):
    """Takes what one of its alternatives takes. The first one decides."""

    def __init__(self, alternatives: Sequence[Reader]) -> None:
        self._alternatives = alternatives

    def read(self, value: Any, seen: Seen) -> Any:
        """What the first alternative that takes the value made."""
        faults = []
        for it in self._alternatives:
            found = it.read(value, seen)
            if type(found) is not Fault:
                return found
            faults.append(found)
        return nearest(faults)


class OneOf(FirstOf):
    """Takes what exactly one of its alternatives takes."""

    def read(self, value: Any, seen: Seen) -> Any:
        """The value itself."""
        found = [it.read(value, seen) for it in self._alternatives]
        faults = [it for it in found if type(it) is Fault]
        if len(faults) == len(found):
            return nearest(faults)
        fits = len(found) - len(faults)
        return value if fits == 1 else Fault(f"must match exactly one alternative, matches {fits}")


class Not(Reader):
    """Takes what another reader doesn't."""

    def __init__(self, reader: Reader) -> None:
        self._reader = reader

    def read(self, value: Any, seen: Seen) -> Any:
        """The value itself."""
        return value if type(self._reader.read(value, seen)) is Fault else Fault("isn't allowed")


# Rules on values of one type


def _fraction(number: Any) -> Optional[fractions.Fraction]:
    """A number by its decimal digits, so that 0.3 is three times 0.1; None for what is beyond the range of floats."""
    if isinstance(number, float):
        return fractions.Fraction(repr(number)) if number - number == 0 else None
    return fractions.Fraction(number)


def _is_multiple(value: Any, of: fractions.Fraction) -> bool:
    number = _fraction(value)
    return number is not None and number % of == 0


def _ordered(value: Any) -> Any:
    """What two values have in common only if they are equal in JSON, and what may be sorted, whatever they are."""
    if value is None:
        return (0,)
    if isinstance(value, bool):
        return (1, value)
    if isinstance(value, (int, float)):
        return (2, value)
    if isinstance(value, str):
        return (3, value)
    if isinstance(value, list):
        return (4, len(value), [_ordered(it) for it in value])
    return (5, len(value), sorted((name, _ordered(it)) for name, it in value.items()))


def _are_unique(values: List[Any]) -> bool:
    # (sorted, and not a set: a sender of integers can choose as many as they like with one hash)
    found = sorted(map(_ordered, values))
    return all(one != other for one, other in zip(found, found[1:]))


class _Word(typing.NamedTuple):
    """A word of JSON Schema that is about values of one type."""

    type: str
    prepare: Callable[[Any], Any]
    holds: Callable[[Any, Any], Any]
    words: str


def _bound(value: Any) -> Any:
    if type(value) not in (int, float):
        raise ValueError("must be a number")
    return value


def _count(value: Any) -> int:
    if not TYPES["integer"][1](value) or value < 0:
        raise ValueError("must be an integer of at least 0")
    return int(value)


def _divisor(value: Any) -> fractions.Fraction:
    number = _fraction(_bound(value))
    if number is None or number <= 0:
        raise ValueError("must be a number above 0")
    return number


def _flag(value: Any) -> bool:
    if type(value) is not bool:
        raise ValueError("must be a boolean")
    return value


def _pattern(value: Any) -> Any:
    if type(value) is not str:
        raise ValueError("must be a string")
    try:
        return re.compile(value)
    except (re.error, RecursionError, OverflowError) as error:
        raise ValueError(f"must be a pattern of Python's re: {error}") from None


RULES: Dict[str, _Word] = {
    "minLength": _Word(
        "string", _count, lambda it, least: len(it) >= least, "must have at least {} characters"
    ),
    "maxLength": _Word("string", _count, lambda it, most: len(it) <= most, "must have at most {} characters"),
    "pattern": _Word("string", _pattern, lambda it, pattern: pattern.search(it), "must match {}"),
    "minimum": _Word("number", _bound, lambda it, least: it >= least, "must be at least {}"),
    "maximum": _Word("number", _bound, lambda it, most: it <= most, "must be at most {}"),
    "exclusiveMinimum": _Word("number", _bound, lambda it, least: it > least, "must be more than {}"),
    "exclusiveMaximum": _Word("number", _bound, lambda it, most: it < most, "must be less than {}"),
    "multipleOf": _Word("number", _divisor, _is_multiple, "must be a multiple of {}"),
    "minItems": _Word("array", _count, lambda it, least: len(it) >= least, "must have at least {} items"),
    "maxItems": _Word("array", _count, lambda it, most: len(it) <= most, "must have at most {} items"),
    "uniqueItems": _Word(
        "array", _flag, lambda it, wanted: not wanted or _are_unique(it), "must have no item twice"
    ),
    "minProperties": _Word(
        "object", _count, lambda it, least: len(it) >= least, "must have at least {} members"
    ),
    "maxProperties": _Word(
        "object", _count, lambda it, most: len(it) <= most, "must have at most {} members"
    ),
}


class Rule(Reader):
    """Takes values as a word of JSON Schema says, and all that are of another type."""

    def __init__(self, word: str, bound: Any) -> None:
        """For a word of RULES. Raises ValueError if the bound isn't one of this word's."""
        self._word = RULES[word]
        self._is_one = TYPES[self._word.type][1]
        self._bound = self._word.prepare(bound)
        self._words = self._word.words.format(shown(bound))

    def read(self, value: Any, seen: Seen) -> Any:
        """The value itself."""
        if self._is_one(value) and not self._word.holds(value, self._bound):
            return Fault(self._words)
        return value
