"""The notation of types in `spec/*.json`, and what is made of it."""
from __future__ import annotations

import re
from dataclasses import dataclass
from typing import Iterator, Union

_TOKENS = re.compile(r"\s*(?:(\w+)|'([^']*)'|([][{}()|:,]))")


@dataclass(frozen=True)
class Name:
    """A plain type, or one that has a name."""

    name: str


@dataclass(frozen=True)
class Literal:
    """One string."""

    value: str


@dataclass(frozen=True)
class Array:
    """Any number of items."""

    of: Type


@dataclass(frozen=True)
class Map:
    """An object whose members are of one type, whatever their names."""

    key: Type
    of: Type


@dataclass(frozen=True)
class Tuple:
    """An array of just these items."""

    of: tuple[Type, ...]


@dataclass(frozen=True)
class Union_:
    """One of several types."""

    of: tuple[Type, ...]


Type = Union[Name, Literal, Array, Map, Tuple, Union_]


class _Reader:
    def __init__(self, text: str) -> None:
        self._text, self._at = text, 0
        self.kind, self.word = "", ""
        self.next()

    def next(self) -> str:
        """The word that stands here; reads on to the next one."""
        word = self.word
        found = _TOKENS.match(self._text, self._at)
        if found is None:
            if self._text[self._at :].strip():
                raise ValueError(f"not a type: {self._text!r} at {self._at}")
            self.kind, self.word = "end", ""
        else:
            self._at = found.end()
            self.kind = "name" if found[1] else "literal" if found[2] is not None else "sign"
            self.word = found[1] or found[2] or found[3] or ""
        return word

    def take(self, word: str) -> None:
        if self.kind != "sign" or self.word != word:
            raise ValueError(f"not a type: {self._text!r} lacks {word!r} at {self._at}")
        self.next()

    def union(self) -> Type:
        parts = [self.one()]
        while self.kind == "sign" and self.word == "|":
            self.next()
            parts.append(self.one())
        return parts[0] if len(parts) == 1 else Union_(tuple(parts))

    def one(self) -> Type:
        made = self.base()
        while self.kind == "sign" and self.word == "[":
            self.next()
            self.take("]")
            made = Array(made)
        return made

    def base(self) -> Type:
        if self.kind == "name":
            return Name(self.next())
        if self.kind == "literal":
            return Literal(self.next())
        sign = self.next()
        if sign == "(":
            made = self.union()
            self.take(")")
            return made
        if sign == "{":
            self.take("[")
            key = self.union()
            self.take("]")
            self.take(":")
            made = Map(key, self.union())
            self.take("}")
            return made
        if sign == "[":
            items = [self.union()]
            while self.word == ",":
                self.next()
                items.append(self.union())
            self.take("]")
            return Tuple(tuple(items))
        raise ValueError(f"not a type: {self._text!r}")


def read(text: str) -> Type:
    """The type that a text is. Raises ValueError."""
    reader = _Reader(text)
    made = reader.union()
    if reader.kind != "end":
        raise ValueError(f"not a type: {text!r} goes on with {reader.word!r}")
    return made


def written(it: Type) -> str:
    """The text of a type."""
    if isinstance(it, Name):
        return it.name
    if isinstance(it, Literal):
        return f"'{it.value}'"
    if isinstance(it, Array):
        inner = written(it.of)
        return f"({inner})[]" if isinstance(it.of, Union_) else f"{inner}[]"
    if isinstance(it, Map):
        return f"{{[{written(it.key)}]: {written(it.of)}}}"
    if isinstance(it, Tuple):
        return f"[{', '.join(map(written, it.of))}]"
    return " | ".join(map(written, it.of))


def parts(it: Type) -> tuple[Type, ...]:
    """The alternatives of a type: itself, if it isn't a union."""
    return it.of if isinstance(it, Union_) else (it,)


def names(it: Type) -> Iterator[str]:
    """The names that a type is made of."""
    if isinstance(it, Name):
        yield it.name
    elif isinstance(it, Map):
        yield from names(it.key)
        yield from names(it.of)
    elif isinstance(it, Array):
        yield from names(it.of)
    elif isinstance(it, (Tuple, Union_)):
        for part in it.of:
            yield from names(part)
