"""What the arguments of tools are held to: unions and trees in one pass, words of JSON Schema at their edges, schemas that are refused."""
import dataclasses
import enum
import gc
import json
import sys
import typing

from helping import Case, rows
from tool_wires import table

from bullmyrtle import InvalidParams
from bullmyrtle.mcp import ToolServer
from bullmyrtle._signatures.functions import Function
from bullmyrtle._signatures.checker import Checker


def work(function):
    """How many functions, of Python's and of C's, are called meanwhile: a measure that no load on the machine changes."""
    count = 0

    def counted(frame, event, argument):
        nonlocal count
        count += event in ("call", "c_call")

    gc.disable()  # (whatever is collected meanwhile may have code of its own)
    sys.setprofile(counted)
    try:
        function()
    finally:
        sys.setprofile(None)
        gc.enable()
    return count


@dataclasses.dataclass
class Add:
    left: "typing.Union[Add, Mul, int]"
    right: "typing.Union[Add, Mul, int]"


@dataclasses.dataclass
class Mul:
    left: "typing.Union[Add, Mul, int]"
    right: "typing.Union[Add, Mul, int]"


@dataclasses.dataclass
class Not:
    kind: typing.Literal["not"]
    of: "typing.Union[Not, Maybe, str]"


@dataclasses.dataclass
class Maybe:
    kind: typing.Literal["maybe"]
    of: "typing.Union[Not, Maybe, str]"


@dataclasses.dataclass
class Node:
    value: int
    next: "typing.Optional[Node]" = None


@dataclasses.dataclass
class Left:
    parts: "typing.List[typing.Union[Left, Right]]"


@dataclasses.dataclass
class Right:
    parts: "typing.List[typing.Union[Left, Right]]"
    name: str = ""


class Branch(typing.TypedDict, total=False):
    one: "typing.Union[Branch, Twig]"
    other: "typing.Union[Branch, Twig]"


class Twig(typing.TypedDict):
    one: "typing.Union[Branch, Twig]"
    leaf: int


def nested(depth, leaf, level):
    """A tree of so many levels: `level` puts one around what is below it."""
    tree = leaf
    for _ in range(depth):
        tree = level(tree)
    return tree


#: A kind of tree, what puts a level around one, a leaf that fits, and a leaf that doesn't.
TREES = {
    "two classes": (typing.Union[Add, Mul, int], lambda it: {"left": it, "right": 1}, 1, "x"),
    "two classes, both sides": (typing.Union[Add, Mul, int], lambda it: {"left": 1, "right": it}, 1, "x"),
    "a tag first": (typing.Union[Not, Maybe, str], lambda it: {"kind": "maybe", "of": it}, "x", 1),
    "a tag last": (typing.Union[Not, Maybe, str], lambda it: {"of": it, "kind": "maybe"}, "x", 1),
    "an optional one": (typing.Optional[Node], lambda it: {"value": 1, "next": it}, None, "x"),
    "typed dictionaries": (typing.Union[Branch, Twig], lambda it: {"one": it, "leaf": 1}, {"leaf": 1}, 7),
    "lists of unions": (typing.Union[Left, Right], lambda it: {"parts": [it]}, {"parts": []}, {"parts": 1}),
}

#: The same by hand, each with a leaf that fits and one that doesn't: two alternatives that are alike, so that both are
#: read to their ends.
PART = {"type": "object", "properties": {"a": {"$ref": "#/$defs/tree"}}, "required": ["a"]}
LEAF = {"type": "integer"}
BY_HAND = {
    "anyOf": ({"anyOf": [PART, {**PART, "minProperties": 3}, LEAF]}, 1, "x"),
    "oneOf": ({"oneOf": [PART, {**PART, "minProperties": 3}, LEAF]}, 1, "x"),
    "allOf": (
        {"type": ["object", "integer"], "allOf": [{**PART, "type": ["object", "integer"]}] * 2},
        1,
        "x",
    ),
    "tags": (
        {
            "anyOf": [
                {"properties": {**PART["properties"], "kind": {"const": "b"}}, "required": ["a", "kind"]},
                {
                    "properties": {**PART["properties"], "kind": {"type": "string", "enum": ["a"]}},
                    "required": ["a", "kind"],
                },
            ],
            "type": ["object", "integer"],
        },
        1,
        "x",
    ),
    "not": ({"not": {"not": {"anyOf": [PART, {**PART, "minProperties": 3}, LEAF]}}}, 1, "x"),
}


class Growth(Case):
    """One pass reads each part of a message once: the work grows with the message, and not with its depth's power."""

    def assert_linear(self, read):
        """`read` takes a depth. 120 levels are as many as a message has, at twice the levels the work is twice."""
        read(3)  # (which finds once for all what stays the same)
        counts = [work(lambda: read(depth)) for depth in (15, 30, 60)]
        steps = [counts[1] - counts[0], counts[2] - counts[1]]
        self.assertLess(steps[1], 2.2 * steps[0], counts)
        # (a level takes a bounded number of calls)
        self.assertLess(counts[2], 100 * 60, counts)

    def test_trees_of_annotations(self):
        for name, (kind, level, leaf, wrong) in TREES.items():
            with self.subTest(name):

                def function(tree):
                    pass

                function.__annotations__["tree"] = kind
                tool = Function(function)

                def fill(depth):
                    tool.filled({"tree": nested(depth, leaf, level)}, None)

                def refuse(depth):
                    with self.assertRaises(InvalidParams):
                        tool.filled({"tree": nested(depth, wrong, level)}, None)

                self.assert_linear(fill)
                self.assert_linear(refuse)
                deepest = 59 if name == "lists of unions" else 117  # (a message has 120 levels at most)
                fill(deepest)
                refuse(deepest)

    def test_trees_of_schemas(self):
        for name, (schema, leaf, wrong) in BY_HAND.items():
            with self.subTest(name):
                check = Checker({"$ref": "#/$defs/tree", "$defs": {"tree": schema}})

                def fill(depth):
                    check(nested(depth, leaf, lambda it: {"a": it, "kind": "a"}), "it")

                def refuse(depth):
                    with self.assertRaises(InvalidParams):
                        check(nested(depth, wrong, lambda it: {"a": it, "kind": "a"}), "it")

                self.assert_linear(fill)
                self.assert_linear(refuse)
                # (two "not" at each level are as much as Python's own depth allows)
                deepest = 80 if name == "not" else 117
                fill(deepest)
                refuse(deepest)

    @rows(["allOf", "anyOf", "oneOf"])
    def test_schemas_that_share_their_parts(self, word):
        """Each of 40 schemas refers twice to the next one: 2^40 ways to the last."""
        defs = {str(at): {word: [{"$ref": f"#/$defs/{at + 1}"}] * 2} for at in range(40)}
        check = Checker({"$ref": "#/$defs/0", "$defs": {**defs, "40": {"type": "string"}}})

        def refuse():
            with self.assertRaises(InvalidParams):
                check(1, "it")

        self.assertLess(work(refuse), 3_000, word)

    @rows(
        [
            ("numbers", lambda at: at),
            ("one hash", lambda at: at * (2**61 - 1)),
            ("arrays", lambda at: [at]),
            ("objects", lambda at: {"a": {"b": at}}),
        ]
    )
    def test_items_that_are_compared(self, name, made):
        """n log n, also for what has no hash, or all the same: integers that are multiples of 2^61 - 1 have one."""
        check = Checker({"uniqueItems": True})
        values = [[made(at) for at in range(count)] for count in (500, 1000, 2000)]
        counts = [work(lambda: check(it, "it")) for it in values]
        self.assertLess(counts[2] - counts[1], 2.2 * (counts[1] - counts[0]), counts)

    def test_a_hundred_thousand_items(self):
        check = Checker({"uniqueItems": True})
        values = [at * (2**61 - 1) for at in range(100_000)]
        check(values, "it")
        with self.assertRaises(InvalidParams):
            check([*values, float(2**61 - 1) * 0 + 0.0], "it")

    def test_a_long_name_is_not_written_for_each_item(self):
        """The place of a part is made when it is wrong, and not for each that is right."""
        check = Checker({"additionalProperties": {"items": {"type": "integer"}}})
        message = {"a" * 1_000_000: [0] * 20_000 + ["x"]}
        with self.assertRaises(InvalidParams) as caught:
            check(message, "it")
        self.assertEqual(
            caught.exception.message,
            "Invalid params: it." + "a" * 60 + "[20000] must be an integer, got string",
        )

    def test_what_nests_too_deep_for_python(self):
        deep = {"type": "integer"}
        for _ in range(12):
            deep = {"anyOf": [deep, {"type": "string"}]}
        check = Checker({"items": {"$ref": "#"}, **deep, "type": "array"})
        with self.assertRaises(InvalidParams):
            check(nested(400, [], lambda it: [it]), "it")


class Color(enum.Enum):
    RED = "red"
    ONE = 1


@dataclasses.dataclass
class Even:
    number: int

    def __post_init__(self):
        if self.number % 2:
            raise ValueError(f"{self.number} is odd")


class Unions(Case):
    """The first alternative that fits decides; a fault is that of the nearest."""

    def filled(self, kind, value):
        def function(it):
            pass

        function.__annotations__["it"] = kind
        try:
            return Function(function).filled({"it": value}, None)["it"]
        except InvalidParams as fault:
            return fault.message.replace("Invalid params: arguments.", "")

    def test_they(self):
        expression, query = typing.Union[Add, Mul, int], typing.Union[Not, Maybe, str]
        for kind, value, expected in (
            (expression, {"left": 1, "right": {"left": 2, "right": 3}}, Add(1, Add(2, 3))),
            (expression, 2.0, 2),
            (expression, "x", "it must be an object or an integer, got string"),
            (expression, {"left": 1}, "it lacks right"),
            (
                expression,
                {"left": 1, "right": {"left": 1, "right": None}},
                "it.right.right must be an object or an integer, got null",
            ),
            (query, {"kind": "maybe", "of": {"kind": "not", "of": "a"}}, Maybe("maybe", Not("not", "a"))),
            (query, {"of": 5, "kind": "maybe"}, "it.of must be an object or a string, got integer"),
            (query, {"kind": "maybe"}, "it lacks of"),
            (query, {"kind": "other", "of": 5}, 'it.kind must be "not" or "maybe", got "other"'),
            (query, {"kind": ["not"], "of": 5}, 'it.kind must be "not" or "maybe", got array'),
            (query, {"of": "a"}, "it lacks kind"),
            (query, None, "it must be an object or a string, got null"),
            (typing.Optional[Node], {"value": 1, "next": {"value": 2.0}}, Node(1, Node(2))),
            (
                typing.Optional[Node],
                {"value": 1, "next": 5},
                "it.next must be an object or null, got integer",
            ),
            (typing.Union[int, float], 1.5, 1.5),
            (typing.Union[Color, int], 1, Color.ONE),
            (typing.Union[Color, int], True, 'it must be "red", 1 or an integer, got true'),
            (typing.Literal[1, "a"], 1.0, 1),
            (typing.Literal[Color.RED], "red", Color.RED),
            (
                Branch,
                {"one": {"leaf": 2.0, "one": {"other": {}}}},
                {"one": {"leaf": 2.0, "one": {"other": {}}}},
            ),
            (typing.List[typing.Union[Left, Right]], [{"parts": []}], [Left([])]),
            (typing.Dict[str, Color], {"a": "red"}, {"a": Color.RED}),
            (Even, {"number": 3}, "it isn't valid: 3 is odd"),
            (typing.Union[Even, Node], {"number": 3}, "it isn't valid: 3 is odd"),
            (typing.Union[Even, Node], {"value": 3}, Node(3)),
        ):
            with self.subTest(str(kind), value=value):
                self.assertEqual(self.filled(kind, value), expected)

    def test_what_is_received_stays(self):
        """A value isn't changed where a part of it becomes something else."""
        value = {"a": ["red"], "b": {"value": 1}}

        def function(it: typing.Dict[str, typing.Union[Node, typing.List[Color]]]):
            pass

        before = json.dumps(value)
        filled = Function(function).filled({"it": value}, None)
        self.assertEqual(filled, {"it": {"a": [Color.RED], "b": Node(1)}})
        self.assertEqual(json.dumps(value), before)

    def test_values_that_json_lacks(self):
        class Odd(enum.Enum):
            PAIR = (1, 2)

        for kind in (Odd, typing.Literal[b"a"], typing.Union[int, Odd]):
            with self.assertRaises(TypeError):
                self.filled(kind, 1)


class Words(Case):
    """Words of JSON Schema at their edges (draft 2020-12, validation vocabulary 6.2 and 6.4; core 4.2.2, 8.2 and 10.3)."""

    #: A schema, with values that it allows and forbids. (Integers beyond floats are Python's own.)
    ROWS = [
        *map(tuple, table("schemas")["edges"]),
        ({"multipleOf": 0.1}, [10**40], []),
        ({"multipleOf": 3}, [3 * 10**40, 10**40 - 1], [10**40]),
        ({"multipleOf": 10**400}, [10**401, 0], [10**399, 1e300]),
        ({"uniqueItems": True}, [[10**40, 1e40]], [[10**22, 1e22]]),
    ]

    @rows(ROWS)
    def test_they(self, schema, allowed, forbidden):
        check = Checker(schema)
        for value in allowed:
            with self.subTest(schema=schema, allowed=value):
                check(value, "it")
        for value in forbidden:
            with self.subTest(schema=schema, forbidden=value), self.assertRaises(InvalidParams):
                check(value, "it")


class Refused(Case):
    """A schema that can't be checked is refused when it is registered, with the place."""

    #: A schema, and what the error says of it.
    ROWS = [*map(tuple, table("schemas")["refused"]), ({"const": {1, 2}}, "isn't JSON: ")]

    @rows(ROWS)
    def test_they(self, schema, words):
        for option in ("input_schema", "output_schema"):
            with self.subTest(schema=schema):
                with self.assertRaises(ValueError) as caught:
                    ToolServer("refused").tool(name="it", **{option: schema})(lambda arguments: None)
                self.assertIn(f"<lambda>: {option}", str(caught.exception))
                self.assertIn(words, str(caught.exception))

    def test_a_ring_of_pythons(self):
        schema = {"type": "object"}
        schema["properties"] = {"a": schema}
        with self.assertRaises(ValueError):
            Checker(schema)

    def test_nothing_is_registered(self):
        server = ToolServer("refused")
        with self.assertRaises(ValueError):
            server.tool(name="it", input_schema={"type": "strng"})(lambda arguments: None)
        server.tool(name="it", input_schema={"type": "object"})(lambda arguments: None)

    def test_what_the_program_changes_later(self):
        schema = {"type": "object", "properties": {"a": {"type": "string"}}}
        check = Checker(schema)
        schema["properties"]["a"] = {"type": "strng"}
        check({"a": ""}, "it")
