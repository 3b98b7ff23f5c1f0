"""Types of Python's standard library that JSON has as texts and arrays: times, paths, ids, decimals, bytes, sets."""
from __future__ import annotations

import base64
import collections
import dataclasses
import datetime
import decimal
import enum
import pathlib
import re
import uuid
from typing import Any, Callable, Dict, List, NamedTuple, Optional, Set

Json = Dict[str, Any]

# RFC 3339, section 5.6; its offset may be left out.
_DATE_TIME = re.compile(r"(\d{4}-\d\d-\d\d)[Tt ](\d\d:\d\d:\d\d)(?:\.(\d+))?([Zz]|[+-]\d\d:\d\d)?", re.ASCII)
_DATE = re.compile(r"\d{4}-\d\d-\d\d", re.ASCII)
_UUID = re.compile(r"[0-9A-Fa-f]{8}(-[0-9A-Fa-f]{4}){3}-[0-9A-Fa-f]{12}")
_DECIMAL = r"-?[0-9]+(\.[0-9]+)?"
# How many items of a set may have one hash. Anyone who sends integers can choose as many as they like, and a set of n
# such takes n^2 steps to make.
_MOST_OF_A_HASH = 64


class Form(NamedTuple):
    """How JSON has a type: its schema, what makes one of a text, and how an error describes such a text."""

    schema: Json
    make: Callable[[Any], Any]
    wanted: str


def _matched(pattern: "re.Pattern[str]", text: str) -> "re.Match[str]":
    found = pattern.fullmatch(text)
    if found is None:
        raise ValueError(text)
    return found


def _date_time(text: str) -> datetime.datetime:
    day, time, fraction, offset = _matched(_DATE_TIME, text).groups()
    # (Python before 3.11 takes no Z, and 3 or 6 digits alone)
    part = "" if fraction is None else f".{fraction[:6]:0<6}"
    zone = "" if offset is None else "+00:00" if offset in "Zz" else offset
    return datetime.datetime.fromisoformat(f"{day}T{time}{part}{zone}")


def _date(text: str) -> datetime.date:
    return datetime.date.fromisoformat(_matched(_DATE, text)[0])


def _uuid(text: str) -> uuid.UUID:
    return uuid.UUID(_matched(_UUID, text)[0])


def _decimal(value: Any) -> decimal.Decimal:
    if isinstance(value, str):
        return decimal.Decimal(_matched(re.compile(_DECIMAL), value)[0])
    made = decimal.Decimal(repr(value) if isinstance(value, float) else value)
    if not made.is_finite():
        raise ValueError(value)
    return made


def _bytes(text: str) -> bytes:
    return base64.b64decode(text, validate=True)


def _text(form: str) -> Json:
    return {"type": "string", "format": form}


_ENCODED = {"type": "string", "contentEncoding": "base64"}
_EXACT = {"anyOf": [{"type": "number"}, {"type": "string", "pattern": f"^{_DECIMAL}$"}]}
_FORMS: Dict[Any, Form] = {
    datetime.datetime: Form(_text("date-time"), _date_time, "a date and time, as 2025-11-28T10:00:00Z"),
    datetime.date: Form(_text("date"), _date, "a date, as 2025-11-28"),
    uuid.UUID: Form(_text("uuid"), _uuid, "a UUID, as 123e4567-e89b-12d3-a456-426614174000"),
    decimal.Decimal: Form(_EXACT, _decimal, "a number, or its digits as a string"),
    bytes: Form(_ENCODED, _bytes, "a string of base64"),
}


def form_of(kind: Any) -> Optional[Form]:
    """How JSON has a type; None if it is none of these."""
    if isinstance(kind, type) and issubclass(kind, pathlib.PurePath):
        return Form(_text("path"), kind, "a path")
    try:
        return _FORMS.get(kind)
    except TypeError:  # (an annotation that has no hash)
        return None


def set_of(items: List[Any]) -> Set[Any]:
    """A set of items. Raises ValueError if they were chosen to have one hash, TypeError if one has none."""
    most = max(collections.Counter(map(hash, items)).values(), default=0)
    if most > _MOST_OF_A_HASH:
        raise ValueError(f"{most} items have one hash")
    return set(items)


def plain(value: Any) -> Any:
    """A value with what JSON has of these types."""
    if isinstance(value, (datetime.datetime, datetime.date)):
        return value.isoformat()
    if isinstance(value, (pathlib.PurePath, uuid.UUID)):
        return str(value)
    if isinstance(value, decimal.Decimal):
        return format(value, "f")
    if isinstance(value, bytes):
        return base64.b64encode(value).decode("ascii")
    if isinstance(value, enum.Enum):
        return plain(value.value)
    if isinstance(value, dict):
        return {name: plain(it) for name, it in value.items()}
    if isinstance(value, (list, tuple, set, frozenset)):
        return [plain(it) for it in value]
    if dataclasses.is_dataclass(value) and not isinstance(value, type):
        return {it.name: plain(getattr(value, it.name)) for it in dataclasses.fields(value)}
    return value
