"""JSON values and their texts, the same whichever module does the work.

orjson and ujson are faster than the standard module, and differ from it at the edges: integers over 64 bits, NaN, how
the exponent of a float is written. So a text at such an edge is left to the standard module. What ujson writes differs
in too many ways, so it only reads.

A whole number has a bound of our own for its digits, which isn't the interpreter's: that has one for the whole process,
or none, and anyone who sends digits would choose what they cost. Where a number has more digits than the interpreter
converts, it is made of parts of a few hundred.

One difference is left, since orjson doesn't ask: an enumeration that is made of str or int too, and whose members were
given another `_value_` by its `__new__`, is written by that value, and elsewhere as the str or int that it is.
"""
from __future__ import annotations

import contextlib
import functools
import os
import sys

from ._hints import TYPE_CHECKING, NamedTuple


if TYPE_CHECKING:
    from typing import Any, Callable, Optional, Tuple

    Loads = Callable[[bytes], Any]
    Dumps = Callable[[Any], bytes]

_quick: Any = None
with contextlib.suppress(ImportError):
    # (what does the work in the module `json`, which takes long to import)
    _quick = __import__("_json")

# How many digits a whole number may have where nothing else is said, which is also what interpreters allow, and the
# least that may be said: orjson and ids have numbers of 64 bits.
DIGITS, FEWEST_DIGITS = 4300, 20
# How many digits every interpreter converts, whatever its bound is.
_PART = 640

# Which module to use, for tests: "json", "orjson" or "ujson".
VARIABLE = "BULLMYRTLE_JSON"

_DIGITS = bytes.maketrans(b"123456789", b"000000000")
_LONG = b"0" * 19


_PLAIN = (str, int, float, list, tuple, dict)


def _default(value: Any) -> Any:
    """What stands for a value that JSON has none for."""
    if isinstance(value, _PLAIN):
        # (orjson asks for classes made of these, which the standard module writes without asking)
        raise TypeError(f"{type(value).__name__} isn't known to orjson")
    # (who has made a dataclass, has imported the module)
    dataclasses: Any = sys.modules.get("dataclasses")
    if dataclasses is not None and dataclasses.is_dataclass(value) and not isinstance(value, type):
        return {it.name: getattr(value, it.name) for it in dataclasses.fields(value)}
    enum: Any = sys.modules.get("enum")
    if enum is not None and isinstance(value, enum.Enum):
        return value.value
    # (orjson writes it without asking)
    uuid: Any = sys.modules.get("uuid")
    if uuid is not None and isinstance(value, uuid.UUID):
        return str(value)
    raise TypeError(f"{type(value).__name__} isn't JSON")


def _whole(digits: str) -> int:
    """The number that digits stand for, however many they are."""
    if len(digits) <= _PART:
        return int(digits)
    half = len(digits) // 2
    shift: int = 10**half
    return _whole(digits[:-half]) * shift + _whole(digits[-half:])


def _digits(value: int) -> str:
    """The digits of a number that isn't negative, however many they are."""
    if value.bit_length() <= 2000:
        return int.__repr__(value)
    half = value.bit_length() * 3 // 20  # (about: a digit has 3.32 bits)
    high, low = divmod(value, 10**half)
    return _digits(high) + _digits(low).rjust(half, "0")


def _too_long(most: int) -> ValueError:
    return ValueError(f"an integer has more than {most:,} digits")


def _number_reader(most: int, instead: Optional[Callable[[], Any]] = None) -> Callable[[str], Any]:
    """What reads a whole number of so many digits at most; of more it makes something else, or refuses them."""

    def read(text: str) -> Any:
        digits = text[1:] if text[0] == "-" else text
        if len(digits) > most:
            if instead is None:
                raise _too_long(most)
            return instead()
        return -_whole(digits) if digits is not text else _whole(digits)

    return read


def _number_writer(most: int) -> Callable[[int], str]:
    def write(value: int) -> str:
        # (2^n has more than 0.3 n digits, so what is far too long isn't written to be measured)
        if value.bit_length() * 3 // 10 > most:
            raise _too_long(most)
        text = _digits(abs(value))
        if len(text) > most:
            raise _too_long(most)
        return "-" + text if value < 0 else text

    return write


def _real(value: float) -> str:
    if value - value != 0:
        raise ValueError("Out of range float values are not JSON compliant")
    return float.__repr__(value)


@functools.lru_cache(16)
def _slow_writer(most: int) -> Callable[[Any], str]:
    """What writes whole numbers of more digits than the interpreter converts, by the standard module without its C."""
    import json.encoder

    parts: Any = json.encoder
    write = parts._make_iterencode(
        None,
        _default,
        parts.encode_basestring,
        None,
        _real,
        ":",
        ",",
        False,
        False,
        True,
        _intstr=_number_writer(most),
    )
    return lambda value: "".join(write(value, 0))


def _interpreters_bound() -> int:
    """How many digits the interpreter converts; 0 where it has no bound."""
    bound: Any = getattr(sys, "get_int_max_str_digits", None)
    return 0 if bound is None else int(bound())


def _writer() -> Callable[[Any], str]:
    """What writes a value. A JSONEncoder makes its inner encoder anew for each value, which takes longest."""
    try:
        # (as JSONEncoder does; without a record of what is being written, a ring goes on until it nests too deep)
        inner = _quick.make_encoder(
            None, _default, _quick.encode_basestring, None, ":", ",", False, False, False
        )
        is_as_known = "".join(inner(["\u00e9", {"a": 1.5}], 0)) == '["\u00e9",{"a":1.5}]'
    except (AttributeError, TypeError):
        is_as_known = False

    def quick(value: Any) -> str:
        return "".join(inner(value, 0))

    if is_as_known:
        return quick
    import json

    encoder = json.JSONEncoder(ensure_ascii=False, allow_nan=False, separators=(",", ":"), default=_default)
    return encoder.encode


class _Reading:
    """How the standard module reads."""

    strict, object_hook, object_pairs_hook = True, None, None
    parse_float = parse_constant = float

    def __init__(self, parse_int: Callable[[str], Any]) -> None:
        self.parse_int = parse_int


def _scanner(parse_int: Callable[[str], Any] = int) -> Callable[[str, int], Tuple[Any, int]]:
    """What reads the value at a place of a text, and says where it ends. Raises StopIteration where there is none."""
    scan: Callable[[str, int], Tuple[Any, int]]
    if _quick is not None:
        scan = _quick.make_scanner(_Reading(parse_int))
    else:
        import json

        decoder: Any = json.JSONDecoder(parse_int=parse_int)
        scan = decoder.scan_once
    return scan


_write = _writer()
_read = _scanner()


def _plain(digits: int) -> Tuple[Loads, Dumps]:
    """The two functions by the standard module."""
    read_slowly = _scanner(_number_reader(digits))
    too_long = b"0" * (digits + 1)

    def is_long(text: bytes) -> bool:
        """Whether there may be a number that is too long: a run of digits is one, or part of a string or a fraction."""
        return too_long in text.translate(_DIGITS)

    def read_long(text: bytes) -> Any:
        try:
            return read_slowly(text.decode(), 0)[0]
        except StopIteration:
            raise ValueError("it isn't JSON") from None

    def loads(text: bytes) -> Any:
        if len(text) > digits and is_long(text):
            return read_long(text)
        try:
            return _read(text.decode(), 0)[0]
        except (StopIteration, ValueError):
            return read_long(text)

    def dumps(value: Any) -> bytes:
        try:
            text = _write(value).encode()
        except RecursionError:
            raise ValueError("it nests too deep") from None
        except ValueError:
            if not 0 < _interpreters_bound() < digits:
                raise
            try:
                text = _slow_writer(digits)(value).encode()
            except RecursionError:
                raise ValueError("it nests too deep") from None
        if len(text) > digits and is_long(text):
            read_long(text)
        return text

    return loads, dumps


#: The same for values and texts that are our own, or known to be short.
plain_loads, plain_dumps = _plain(DIGITS)


def _with_orjson(orjson: Any, digits: int) -> Tuple[Loads, Dumps]:
    plain_loads, plain_dumps = _plain(digits)
    read, write = orjson.loads, orjson.dumps
    option = (
        orjson.OPT_PASSTHROUGH_DATACLASS | orjson.OPT_PASSTHROUGH_DATETIME | orjson.OPT_PASSTHROUGH_SUBCLASS
    )

    def loads(text: bytes) -> Any:
        if _LONG in text.translate(_DIGITS):
            return plain_loads(text)
        try:
            return read(text)
        except ValueError:
            return plain_loads(text)

    def dumps(value: Any) -> bytes:
        if value is None:
            return b"null"
        try:
            text: bytes = write(value, _default, option)
        except (TypeError, ValueError):
            return plain_dumps(value)
        # (a null may be NaN, and a float's exponent looks otherwise in Python)
        if b"null" in text or b"0.0000" in text or b"0e" in text.translate(_DIGITS):
            return plain_dumps(value)
        return text

    return loads, dumps


def _with_ujson(ujson: Any, digits: int) -> Tuple[Loads, Dumps]:
    plain_loads, plain_dumps = _plain(digits)
    read = ujson.loads
    too_long = b"0" * (digits + 1)

    def loads(text: bytes) -> Any:
        if len(text) > digits and too_long in text.translate(_DIGITS):
            return plain_loads(text)
        try:
            return read(text)
        except ValueError:
            return plain_loads(text)

    return loads, plain_dumps


def _module(name: str) -> Optional[Any]:
    try:
        return __import__(name)
    except ImportError:
        return None


def chosen(name: Optional[str] = None, digits: int = DIGITS) -> Tuple[str, Loads, Dumps]:
    """The module that does the work, by its name or the first one that is installed, and its two functions."""
    if name in (None, "orjson"):
        orjson = _module("orjson")
        if orjson is not None:
            return ("orjson", *_with_orjson(orjson, digits))
    if name in (None, "ujson"):
        ujson = _module("ujson")
        # (before 5.7 it read some numbers otherwise)
        if ujson is not None and tuple(map(int, ujson.__version__.split(".")[:2])) >= (5, 7):
            return ("ujson", *_with_ujson(ujson, digits))
    return ("json", *_plain(digits))


class Json(NamedTuple):
    """How the values of a session are read and written."""

    loads: Loads
    dumps: Dumps


NAME, loads, dumps = chosen(os.environ.get(VARIABLE))


def with_digits(digits: int) -> Json:
    """How values are read and written whose whole numbers have so many digits at most."""
    return Json(loads, dumps) if digits == DIGITS else Json(*chosen(NAME, digits)[1:])


_read_all = _scanner(_number_reader(FEWEST_DIGITS, lambda: None))


def loads_short(text: bytes) -> Any:
    """The value of a text with None in the place of whole numbers of more than 20 digits: an id has no more."""
    return _read_all(text.decode(), 0)[0]
