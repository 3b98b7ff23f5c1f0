"""Whether a value fits an annotation, and what is made of it."""
from __future__ import annotations

import collections.abc
import sys

from .._hints import TYPE_CHECKING
from .parameters import EMPTY
from ..errors import InvalidParams

if TYPE_CHECKING:
    from typing import Any, Callable, Dict, List, Tuple

    # Takes a value and the place where it stands, and gives what the method gets, or raises InvalidParams.
    Fit = Callable[[Any, str], Any]
    # How the members of an object are fitted, and which of them have to be there.
    Members = Tuple[Dict[str, Fit], List[str]]
else:
    Fit = object

_NAMES = {dict: "an object", list: "an array", str: "a string", int: "an integer", bool: "true or false"}
_NAMES.update({float: "a number", type(None): "null"})
_NONE = type(None)
# LSP's structures are held to its model by a language server, which forgives what old clients leave out.
_LSP = "bullmyrtle.lsp.types"
# What may stand around the annotation of a TypedDict's member.
_MARKS = ("Required", "NotRequired", "ReadOnly")


def named(value: Any) -> str:
    return _NAMES.get(type(value), type(value).__name__)


def anything(value: Any, place: str) -> Any:
    return value


def _plain(kind: type) -> Fit:
    def fit(value: Any, place: str) -> Any:
        # (True is an int in Python, and isn't a number in JSON)
        if type(value) is kind or (kind is float and type(value) is int):
            return value
        raise InvalidParams(f"Invalid params: {place} has to be {_NAMES[kind]}, and is {named(value)}")

    return fit


def _one_of(kinds: List[Any]) -> Fit:
    fits = [fit_for(it) for it in kinds]

    def fit(value: Any, place: str) -> Any:
        faults = []
        for it in fits:
            try:
                return it(value, place)
            except InvalidParams as fault:
                faults.append(fault)
        # (what fits except in one part says most)
        raise next((it for it in faults if f" {place} has" not in it.message), faults[0])

    return fit


def _literal(values: Tuple[Any, ...]) -> Fit:
    def fit(value: Any, place: str) -> Any:
        if any(type(it) is type(value) and it == value for it in values):
            return value
        raise InvalidParams(f"Invalid params: {place} has to be one of {', '.join(map(repr, values))}")

    return fit


def _array(of: Any) -> Fit:
    is_array, fits = _plain(list), fit_for(of)

    def fit(value: Any, place: str) -> Any:
        return [fits(it, f"{place}[{at}]") for at, it in enumerate(is_array(value, place))]

    return fit


def _object(of: Any) -> Fit:
    is_object, fits = _plain(dict), fit_for(of)

    def fit(value: Any, place: str) -> Any:
        return {name: fits(it, f"{place}.{name}") for name, it in is_object(value, place).items()}

    return fit


def _dataclass(kind: Any) -> Fit:
    import dataclasses  # (here, since a server without them starts sooner)

    fields = {it.name: it for it in dataclasses.fields(kind) if it.init}
    needed = [name for name, it in fields.items() if it.default is it.default_factory]  # (both are MISSING)

    def members_of() -> Members:
        hints = hints_of(kind)
        return {it: fit_for(hints[it]) for it in fields}, needed

    members = _members(members_of)
    return lambda value, place: kind(**members(value, place))


def _typed_dict(kind: Any) -> Fit:
    def members_of() -> Members:
        hints, required = typed_dict_of(kind)
        return {name: _fit_or_anything(it) for name, it in hints.items()}, required

    members = _members(members_of)

    def fit(value: Any, place: str) -> Any:
        made = members(value, place)
        return {**value, **made}

    return fit


def _members(members_of: Callable[[], Members]) -> Fit:
    """What makes an object of the members of another one that have a fit."""
    is_object = _plain(dict)
    known: List[Members] = []  # (filled at the first use, so that a class may have itself as a part)

    def fit(value: Any, place: str) -> Any:
        given = is_object(value, place)
        if not known:
            known.append(members_of())
        fits, needed = known[0]
        for name in needed:
            if name not in given:
                raise InvalidParams(f"Invalid params: {place} lacks {name}")
        return {name: it(given[name], f"{place}.{name}") for name, it in fits.items() if name in given}

    return fit


def _fit_or_anything(kind: Any) -> Fit:
    """How a member of a TypedDict is fitted: nothing is made of it, so that what isn't JSON's says nothing."""
    try:
        return fit_for(kind)
    except TypeError:
        return anything


def is_typed_dict(kind: Any) -> bool:
    return isinstance(kind, type) and issubclass(kind, dict) and hasattr(kind, "__total__")


def hints_of(kind: Any) -> Dict[str, Any]:
    """The annotations of a class, with what Annotated adds to them, which Python 3.8 doesn't have."""
    import typing

    extras: Dict[str, Any] = {"include_extras": True} if sys.version_info >= (3, 9) else {}
    return typing.get_type_hints(kind, **extras)


def typed_dict_of(kind: Any) -> Tuple[Dict[str, Any], List[str]]:
    """The annotations of a TypedDict's members, and those that have to be there."""
    import typing

    # (Python 3.8 knows only whether all are; and no Python finds a mark in an annotation that is a text)
    hints = hints_of(kind)
    required = set(getattr(kind, "__required_keys__", hints if kind.__total__ else ()))
    for name, hint in hints.items():
        mark = getattr(typing.get_origin(hint), "_name", None)
        while mark in _MARKS:
            if mark != "ReadOnly":
                (required.add if mark == "Required" else required.discard)(name)
            (hint,) = typing.get_args(hint)
            mark = getattr(typing.get_origin(hint), "_name", None)
        hints[name] = hint
    return hints, [it for it in hints if it in required]


def is_union(kind: Any) -> bool:
    import typing

    origin = typing.get_origin(kind)
    if origin is typing.Union:
        return True
    return sys.version_info >= (3, 10) and origin is __import__("types").UnionType


def fit_for(kind: Any) -> Fit:
    """How params are fitted to an annotation. Raises TypeError where it is none that JSON could fit."""
    if kind is None:
        kind = _NONE
    if hasattr(kind, "__metadata__"):  # (Annotated)
        return fit_for(kind.__origin__)
    known: Any = sys.modules.get("typing")
    if kind in (EMPTY, object) or (known is not None and kind is known.Any):
        return anything
    if kind in _NAMES:
        return _plain(kind)
    if hasattr(kind, "__dataclass_fields__"):
        return _dataclass(kind)
    if is_typed_dict(kind):
        return _plain(dict) if kind.__module__ == _LSP else _typed_dict(kind)
    import typing

    origin, parts = typing.get_origin(kind), typing.get_args(kind)
    if is_union(kind):
        return _one_of(list(parts))
    if origin is typing.Literal:
        return _literal(parts)
    if origin in (list, collections.abc.Sequence, collections.abc.Iterable):
        return _array(parts[0]) if parts and not isinstance(parts[0], typing.TypeVar) else _plain(list)
    if origin in (dict, collections.abc.Mapping):
        return _object(parts[1]) if parts and not isinstance(parts[1], typing.TypeVar) else _plain(dict)
    raise TypeError(f"params can't be fitted to {kind!r}: use dict, list, None, a dataclass, or leave it out")
