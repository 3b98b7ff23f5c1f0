"""What annotations say of params, where methods of a server and tools have the same function: both take the same values.

A TypedDict has the rules of PEP 589 and PEP 655: the members that are required have to be there, those that are there have
to fit, and others may come.
"""
from __future__ import annotations

import asyncio
import sys
import typing
import unittest

from helping import Case, joined

from bullmyrtle import Client, InvalidParams, Request, Server
from bullmyrtle._methods import Method
from bullmyrtle._signatures.functions import Function
from bullmyrtle.lsp import LanguageServer, types
from bullmyrtle.mcp import Context


class Place(typing.TypedDict):
    line: int
    words: typing.List[str]


class More(Place, total=False):
    note: str
    inner: More  # (a part of itself)


if sys.version_info >= (3, 11):

    class Marked(typing.TypedDict, total=False):
        line: typing.Required[int]  # (texts here, as all annotations of this module)
        note: str

    class Unmarked(typing.TypedDict):
        line: int
        note: typing.NotRequired[str]


GOOD = [
    (Place, {"line": 1, "words": []}),
    (Place, {"line": 1, "words": ["a"], "other": None}),
    (More, {"line": 1, "words": []}),
    (More, {"line": 1, "words": [], "note": "x", "inner": {"line": 2, "words": []}}),
]
BAD = [
    (Place, {"line": 1}),
    (Place, {"line": "1", "words": []}),
    (Place, {"line": 1, "words": [2]}),
    (Place, []),
    (More, {"line": 1, "words": [], "note": 5}),
    (More, {"line": 1, "words": [], "inner": {"line": 2}}),
]
if sys.version_info >= (3, 11):
    GOOD += [(Marked, {"line": 1}), (Unmarked, {"line": 1}), (Unmarked, {"line": 1, "note": "x"})]
    BAD += [
        (Marked, {}),
        (Marked, {"line": 1, "note": 5}),
        (Unmarked, {}),
        (Unmarked, {"line": 1, "note": 5}),
    ]


def one(kind):
    def function(it):
        return it

    function.__annotations__ = {"it": kind}
    return function


class Signatures(Case):
    def both(self, kind, value):
        """What a method and a tool get of a value, or InvalidParams."""
        found = []
        for take in (
            lambda: Method("m", one(kind), False).params(value),
            lambda: Function(one(kind)).filled({"it": value}, None)["it"],
        ):
            try:
                found.append(take())
            except InvalidParams:
                found.append(InvalidParams)
        return found

    def test_typed_dicts(self):
        for kind, value in GOOD:
            with self.subTest(kind=kind.__name__, value=value):
                self.assertEqual(self.both(kind, value), [value, value])
        for kind, value in BAD:
            with self.subTest(kind=kind.__name__, value=value):
                self.assertEqual(self.both(kind, value), [InvalidParams] * 2)

    def test_the_place_of_a_fault(self):
        with self.assertRaises(InvalidParams) as caught:
            Method("m", one(More), False).params({"line": 1, "words": [], "inner": {"line": 2, "words": [3]}})
        words = "params.inner.words[0] has to be a string, and is an integer"
        self.assertEqual(caught.exception.message, f"Invalid params: {words}")

    def test_a_member_that_json_hasnt_says_nothing(self):
        class Odd(typing.TypedDict):
            it: complex

        Odd.__annotations__ = {"it": complex}
        self.assertEqual(Method("m", one(Odd), False).params({"it": "x"}), {"it": "x"})

    @unittest.skipUnless(sys.version_info >= (3, 9), "Annotated is of Python 3.9")
    def test_annotated(self):
        kind = typing.Annotated[int, {"of": "no hash"}]
        self.assertEqual(self.both(kind, 5), [5, 5])
        self.assertEqual(self.both(kind, "5"), [InvalidParams] * 2)

    def test_structures_of_lsp_are_left_to_its_checks(self):
        params = {"textDocument": {"uri": "a:b"}, "position": {"line": 1, "character": 2}}
        for it in (params, {}):  # (as with `checks=None`)
            self.assertEqual(Method("m", one(types.HoverParams), False).params(it), it)

    def test_who_gets_the_request_the_context_and_the_server(self):
        """By a class, one that may be None, and a name that is imported for type checkers alone."""

        def method(params, asked: typing.Optional[Request]):
            return asked.method

        def tool(it: int, said: typing.Optional[Context] = None):
            return it

        server, editor = Server(), LanguageServer("x")
        server.method("m")(method)
        self.assertEqual(list(Function(tool, None, Context).schema["properties"]), ["it"])

        async def main():
            client = Client()
            async with joined(server, client):
                self.assertEqual(await client.call("m", {}), "m")

        asyncio.run(main())

        for named in ("LanguageServer", "Optional[LanguageServer]", "Nowhere.LanguageServer"):
            function = {"LanguageServer": LanguageServer, "Optional": typing.Optional}
            text = f"def feature(its: {named!r}, position): pass"
            exec(compile(text, "feature", "exec", dont_inherit=True), function)
            editor.command(named)(function["feature"])
            self.assertEqual(editor._commands[named].params([5]), ([5], {}))
