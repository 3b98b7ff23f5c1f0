"""Types of the standard library as arguments and as results: times (RFC 3339), paths, ids, decimals, bytes, tuples, sets."""
import datetime
import decimal
import pathlib
import typing
import uuid

from helping import Case, rows
from test_tool_server import hosting

from bullmyrtle import InvalidParams
from bullmyrtle.mcp import ToolServer
from bullmyrtle._signatures.functions import Function
from bullmyrtle._signatures.checker import Checker

UTC = datetime.timezone.utc
MOMENT = datetime.datetime(2025, 11, 28, 10, 0, 1, tzinfo=UTC)
ID = uuid.UUID("123e4567-e89b-12d3-a456-426614174000")


class Point(typing.NamedTuple):
    x: float
    y: float = 0.5


class Branch(typing.NamedTuple):
    name: str
    parts: "typing.Tuple[Branch, ...]" = ()


TIMES = "must be a date and time, as 2025-11-28T10:00:00Z, got "
DATES = "must be a date, as 2025-11-28, got "
#: A type, its schema, values of JSON with what they become, and values that are refused, with the words.
ROWS = [
    (
        datetime.datetime,
        {"type": "string", "format": "date-time"},
        [
            ("2025-11-28T10:00:01Z", MOMENT),
            ("2025-11-28t10:00:01z", MOMENT),
            ("2025-11-28 12:00:01+02:00", MOMENT),
            ("2025-11-28T10:00:01.5Z", MOMENT.replace(microsecond=500_000)),
            ("2025-11-28T10:00:01.123456789Z", MOMENT.replace(microsecond=123_456)),
            ("2025-11-28T10:00:01", MOMENT.replace(tzinfo=None)),
        ],
        [
            ("2025-11-28", TIMES),
            ("20251128T100001Z", TIMES),
            ("2025-13-28T10:00:01Z", TIMES),
            (5, TIMES + "integer"),
        ],
    ),
    (
        datetime.date,
        {"type": "string", "format": "date"},
        [("2025-11-28", datetime.date(2025, 11, 28))],
        [
            ("2025-02-30", DATES),
            ("2025-11-28T10:00:01Z", DATES),
            ("20251128", DATES),
            ("\u0662025-11-28", DATES),
        ],
    ),
    (
        pathlib.Path,
        {"type": "string", "format": "path"},
        [("a/b", pathlib.Path("a/b"))],
        [(5, "must be a path, got integer")],
    ),
    (
        uuid.UUID,
        {"type": "string", "format": "uuid"},
        [(str(ID), ID), (str(ID).upper(), ID)],
        [("{%s}" % ID, "must be a UUID"), (ID.hex, "must be a UUID"), (None, "must be a UUID")],
    ),
    (
        decimal.Decimal,
        {"anyOf": [{"type": "number"}, {"type": "string", "pattern": "^-?[0-9]+(\\.[0-9]+)?$"}]},
        [
            (0.1, decimal.Decimal("0.1")),
            (7, decimal.Decimal(7)),
            ("0.10", decimal.Decimal("0.10")),
            ("-12345678901234567890.123", decimal.Decimal("-12345678901234567890.123")),
        ],
        [
            ("NaN", "must be a number"),
            ("1e5", "must be a number"),
            (1e400, "must be"),
            (True, "must be"),
            ("1\n", "must"),
        ],
    ),
    (
        bytes,
        {"type": "string", "contentEncoding": "base64"},
        [("aGk=", b"hi"), ("", b"")],
        [
            ("aGk", "must be a string of base64"),
            ("a-_=", "must be"),
            ("\u00e9", "must be"),
            ([104], "must be"),
        ],
    ),
    (
        typing.Tuple[int, str],
        {
            "type": "array",
            "prefixItems": [{"type": "integer"}, {"type": "string"}],
            "minItems": 2,
            "maxItems": 2,
        },
        [([1.0, "a"], (1, "a"))],
        [
            ([1], "must have at least 2 items"),
            ([1, "a", 2], "must have at most 2 items"),
            ("ab", "must be an array"),
        ],
    ),
    (
        typing.Tuple[datetime.date, ...],
        {"type": "array", "items": {"type": "string", "format": "date"}},
        [([], ()), (["2025-11-28"], (datetime.date(2025, 11, 28),))],
        [([5], DATES)],
    ),
    (tuple, {"type": "array"}, [([1, "a"], (1, "a"))], [({}, "must be an array, got object")]),
    (
        typing.Set[int],
        {"type": "array", "items": {"type": "integer"}, "uniqueItems": True},
        [([], set()), ([3, 1], {1, 3})],
        [([1, 1.0], "must have no item twice"), (["a"], "must be an integer")],
    ),
    (
        typing.FrozenSet[str],
        {"type": "array", "items": {"type": "string"}, "uniqueItems": True},
        [(["a"], frozenset(["a"]))],
        [(["a", "a"], "must have no item twice")],
    ),
    (
        set,
        {"type": "array", "uniqueItems": True},
        [([1, "a"], {1, "a"})],
        [([[1]], "isn't valid: unhashable")],
    ),
    (
        Point,
        {
            "type": "array",
            "prefixItems": [
                {"title": "x", "type": "number"},
                {"title": "y", "type": "number", "default": 0.5},
            ],
            "minItems": 1,
            "maxItems": 2,
        },
        [([1], Point(1)), ([1, 2.5], Point(1, 2.5))],
        [
            ([], "must have at least 1 items"),
            ([1, "a"], "[1] must be a number, got string"),
            ({"x": 1}, "must be an array"),
        ],
    ),
    (
        typing.Optional[datetime.date],
        {"anyOf": [{"type": "string", "format": "date"}, {"type": "null"}]},
        [(None, None), ("2025-11-28", datetime.date(2025, 11, 28))],
        [("x", 'must be a date, as 2025-11-28 or null, got "x"')],
    ),
    (
        typing.Dict[str, decimal.Decimal],
        None,
        [({"a": 1}, {"a": decimal.Decimal(1)})],
        [({"a": "x"}, ".a must be a number")],
    ),
]


def function_of(kind):
    def function(it):
        return it

    function.__annotations__.update({"it": kind, "return": kind})
    return function


class Values(Case):
    """What a type is in JSON, and back."""

    @rows(ROWS)
    def test_arguments(self, kind, schema, allowed, refused):
        function = Function(function_of(kind))
        if schema is not None:
            found = function.schema["properties"]["it"]
            self.assertEqual(function.schema.get("$defs", {}).get("Point", found), schema)
        for value, made in allowed:
            filled = function.filled({"it": value}, None)["it"]
            self.assertEqual((filled, type(filled)), (made, type(made)))
        for value, words in refused:
            with self.assertRaises(InvalidParams, msg=value) as caught:
                function.filled({"it": value}, None)
            self.assertIn(words, caught.exception.message)

    def test_the_schema_allows_what_is_taken(self):
        """Formats aside, which aren't checked, the schema that a host is told refuses nothing that the tool takes."""
        for kind, _, allowed, _ in ROWS:
            function = Function(function_of(kind))
            check = Checker(function.schema)
            for value, _ in allowed:
                check({"it": value}, "it")

    async def test_results(self):
        """What a tool gives back is what it was given, in the form of its type."""
        server = ToolServer("values")
        server.tool(name="none")(
            lambda: {"at": MOMENT, "ids": {ID}, "raw": b"hi", "path": pathlib.PurePosixPath("/a")}
        )
        rows = [(kind, allowed[0]) for kind, _, allowed, _ in ROWS]
        for at, (kind, _) in enumerate(rows):
            server.tool(name=str(at))(function_of(kind))
        plain = {"at": "2025-11-28T10:00:01+00:00", "ids": [str(ID)], "raw": "aGk=", "path": "/a"}
        async with hosting(server, version="2025-11-25") as host:
            for at, (kind, (value, made)) in enumerate(rows):
                result = await host.call("tools/call", {"name": str(at), "arguments": {"it": value}})
                with self.subTest(str(kind)):
                    found = result["structuredContent"]
                    back = found if isinstance(value, dict) else found["result"]
                    again = await host.call("tools/call", {"name": str(at), "arguments": {"it": back}})
                    self.assertEqual(again, result)
            self.assertEqual((await host.call("tools/call", {"name": "none"}))["structuredContent"], plain)

    def test_a_class_in_itself(self):
        function = Function(function_of(Branch))
        self.assertEqual(function.schema["properties"]["it"], {"$ref": "#/$defs/Branch"})
        filled = function.filled({"it": ["a", [["b"], ["c", [["d"]]]]]}, None)
        self.assertEqual(filled["it"], Branch("a", (Branch("b"), Branch("c", (Branch("d"),)))))
        with self.assertRaises(InvalidParams) as caught:
            function.filled({"it": ["a", [["b", [[5]]]]]}, None)
        self.assertIn("arguments.it[1][0][1][0][0] must be a string", caught.exception.message)

    def test_defaults(self):
        def function(at: datetime.date = datetime.date(2025, 1, 2), where: pathlib.Path = pathlib.Path("a")):
            pass

        found = Function(function).schema["properties"]
        self.assertEqual([it["default"] for it in found.values()], ["2025-01-02", "a"])

    def test_items_of_one_hash(self):
        """100,000 integers of one hash would take hours to become a set."""
        function = Function(function_of(typing.Set[int]))
        function.filled({"it": list(range(100_000))}, None)
        with self.assertRaises(InvalidParams) as caught:
            function.filled({"it": [at * (2**61 - 1) for at in range(100_000)]}, None)
        self.assertIn("arguments.it isn't valid: 100000 items have one hash", caught.exception.message)
