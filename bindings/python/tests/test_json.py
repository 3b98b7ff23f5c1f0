"""The same values and texts, whichever JSON module does the work."""
import dataclasses
import datetime
import decimal
import enum
import json
import math
import random
import struct
import typing
import uuid

from helping import Case, rows

from bullmyrtle import _json

MODULES = [it for it in (_json.chosen(name) for name in ("json", "orjson", "ujson")) if it]
MODULES = list({it[0]: it for it in MODULES}.values())


class Number(enum.IntEnum):
    ONE = 1


class Word(str, enum.Enum):
    A = "a"


class Text(str):
    pass


@dataclasses.dataclass
class Fields:
    of: typing.Any


@dataclasses.dataclass
class TextWithFields(str):
    of: int


@dataclasses.dataclass
class ObjectWithFields(dict):
    of: int


class Odd(enum.Enum):
    NAN = math.nan
    HALF = "\ud800"
    BIG = 1 << 70
    LIST = (1, [2.5])


class Pair(typing.NamedTuple):
    first: int
    second: typing.Any


FLOATS = [
    1e16,
    1e15,
    123456789012345680.0,
    1e22,
    1e23,
    1e-4,
    1e-5,
    1.234e-5,
    1e-7,
    5e-324,
    1.7976931348623157e308,
    -0.0,
    0.1,
    1.5,
    2.0,
]
VALUES = [
    None,
    True,
    0,
    -1,
    (1 << 63) - 1,
    -(1 << 63),
    (1 << 64) - 1,
    1 << 64,
    -(1 << 63) - 1,
    10**400,
    *FLOATS,
    "",
    "null",
    "a/b",
    '\u00e9\U0001f600\u2028\0\x1f\x7f"\\',
    [None],
    {"a": [1, {"b": None}], "": {}},
    {"e": [1.5e300]},
    (1, (2,)),
    [Number.ONE, Word.A, Text("x"), uuid.UUID(int=5)],
    {1: 2, None: 3, 1.5: 4, True: 5, Text("k"): 6},
    [1 << 64, {"big": -(1 << 70)}],
    Fields(Fields([1 << 64])),
    TextWithFields(5),
    ObjectWithFields(5),
    [Odd.BIG, Odd.LIST],
    Pair(1, None),
]
REFUSED = [
    math.nan,
    [math.inf],
    {"a": -math.inf},
    "\ud800",
    {"\udfff": 1},
    ["a\udc00b", None],
    Fields(math.nan),
    Fields("\ud800"),
    Odd.NAN,
    [Odd.HALF],
    Pair(1, math.inf),
    b"x",
    {1, 2},
    object(),
    datetime.datetime(2026, 1, 1),
    decimal.Decimal("1.5"),
    {(1,): 2},
    type,
]
TEXTS = [
    "1e400",
    "-0",
    "-0.0",
    "1E5",
    "1e-400",
    "18446744073709551616",
    "-9223372036854775809",
    "1" * 400,
    '{"a":1,"a":2}',
    '"a/b"',
    r'"a\/b\u2028\u0000"',
    r'"\ud83d\ude00"',
    r'["\ud800", {"\udfffa": "\udc00\ud800"}]',
    "[12345678901234567890.5,1.7976931348623159e308,2.4703282292062327e-324]",
]


def same(one, other):
    """Whether two values are the same, with their types and the sign of zero."""
    if type(one) is not type(other):
        return False
    if isinstance(one, float):
        return struct.pack("d", one) == struct.pack("d", other)
    if isinstance(one, list):
        return len(one) == len(other) and all(map(same, one, other))
    if isinstance(one, dict):
        return list(one) == list(other) and all(map(same, one.values(), other.values()))
    return one == other


class Same(Case):
    def test_there_is_the_standard_module(self):
        self.assertEqual(MODULES[0][0], "json")

    @rows(MODULES)
    def test_texts(self, name, _, dumps):
        for value in VALUES:
            with self.subTest(module=name, value=value):
                self.assertEqual(dumps(value), _json.plain_dumps(value))
                self.assertNotIn(b"\\/", dumps(value))

    def test_refused(self):
        ring = []
        ring.append(ring)
        for name, _, dumps in MODULES:
            for value in [*REFUSED, ring]:
                with self.subTest(module=name, value=repr(value)), self.assertRaises((TypeError, ValueError)):
                    dumps(value)

    @rows(MODULES)
    def test_values(self, name, loads, _):
        for text in [
            *TEXTS,
            *map(repr, FLOATS),
            *(json.dumps(it, ensure_ascii=False) for it in VALUES[:30] if it is None or it is True),
        ]:
            with self.subTest(module=name, text=text[:40]):
                self.assertTrue(
                    same(loads(text.encode()), json.loads(text)), (loads(text.encode()), json.loads(text))
                )

    @rows(MODULES)
    def test_long_numbers(self, name, loads, _):
        try:
            expected = json.loads("1" * 5000)
        except ValueError:
            with self.assertRaises(ValueError):
                loads(b"1" * 5000)
        else:
            self.assertEqual(loads(b"1" * 5000), expected)

    @rows(MODULES)
    def test_depth(self, _, loads, dumps):
        text = b"[" * 127 + b"]" * 127
        self.assertEqual(dumps(loads(text)), text)

    def test_random(self):
        chance = random.Random(7)

        def value(depth=0):
            kind = chance.randrange(8 if depth < 3 else 6)
            if kind == 0:
                return chance.choice([None, True, False])
            if kind == 1:
                return chance.randrange(-(1 << 66), 1 << 66) >> chance.randrange(66)
            if kind in (2, 3):
                it = struct.unpack(
                    "d",
                    chance.randbytes(8)
                    if hasattr(chance, "randbytes")
                    else struct.pack("Q", chance.getrandbits(64)),
                )[0]
                return it if math.isfinite(it) else chance.choice([1.0, 1e16]) * chance.random()
            if kind in (4, 5):
                return "".join(
                    chance.choice('ab/e0"\\\n\u00e9\u20ac\U0001f600') for _ in range(chance.randrange(8))
                )
            if kind == 6:
                return [value(depth + 1) for _ in range(chance.randrange(4))]
            return {str(it): value(depth + 1) for it in range(chance.randrange(4))}

        for _ in range(1000):
            it = value()
            text = _json.plain_dumps(it)
            for name, loads, dumps in MODULES:
                self.assertEqual(dumps(it), text, name)
                self.assertTrue(same(loads(text), it), (name, text))
