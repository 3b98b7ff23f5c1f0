"""Arrays that are refused whole, by an answer with the id null: where the protocol has no batches they are no message, and
else they may have too many entries. (The library finds so; here stand the words that are told, and versions of MCP.)"""
import json

from helping import rows
from judging import Case

from bullmyrtle.judge import Talk, line_of

NOTIFICATION = {"jsonrpc": "2.0", "method": "a"}
REQUEST = {**NOTIFICATION, "id": 5}
ANSWER = {"jsonrpc": "2.0", "id": 9, "result": {}}
WORDS = "a content may have been refused whole: "


def refusal(code=-32600, id_=None):
    return {"jsonrpc": "2.0", "id": id_, "error": {"code": code, "message": "m"}}


class Arrays(Case):
    def found(self, rules, *messages):
        """What is found in the answers of the server: (side, message) by turns."""
        talk, found = Talk(rules, "lines"), []
        for side, it in messages:
            found += talk.saw(side, json.dumps(it).encode() + b"\n")
        talk.close()
        self.lines = [line_of(it, rules) for it in found if it.side == "server"]
        return [f"{it.level} {it.rule} {it.number}" for it in found if it.side == "server"]

    @rows([(100_000, []), (100_001, ["note not-judged 1"])])
    def test_many_entries(self, many, found):
        """An array of more than 100,000 isn't looked into, and judging goes on."""
        content = b"[" + b",".join([json.dumps(NOTIFICATION).encode()] * many) + b"]\n"
        talk = Talk("jsonrpc", "lines")
        told = talk.saw("client", content + b"1\n")
        talk.close()
        self.assertEqual([f"{it.level} {it.rule} {it.number}" for it in told], [*found, "must object 2"])

    @rows(["lsp", "mcp"])
    def test_one_error_for_each_array(self, rules):
        """(as JSON-RPC 5 and 5.1 say it of what is no request: -32600 with the id null)"""
        for array in ([NOTIFICATION], [NOTIFICATION, NOTIFICATION], [ANSWER], [NOTIFICATION, ANSWER]):
            with self.subTest(rules, array=array):
                found = self.found(rules, ("client", array), ("server", refusal()))
                self.assertEqual(found, ["note not-owed 1"])
                self.assertIn(WORDS, self.lines[0])
                twice = [("client", array), ("client", array), *[("server", refusal())] * 3]
                wanted = ["note not-owed 1", "note not-owed 2", "must not-owed 3"]
                self.assertEqual(self.found(rules, *twice), wanted)

    @rows(["jsonrpc", "mcp:2025-03-26"])
    def test_a_batch_may_be_refused_once(self, rules):
        refusals = [("server", refusal(code=5))] * 3
        found = self.found(rules, ("client", [NOTIFICATION]), ("client", [REQUEST]), *refusals)
        self.assertEqual(found, ["note not-owed 1", "note not-owed 2", "must not-owed 3"])
        self.assertEqual([WORDS in it for it in self.lines], [True, True, False])

    @rows(["lsp", "mcp", "jsonrpc"])
    def test_a_result_behind_a_refusal(self, rules):
        """An error may have been taken for another entry than it was meant for, whose answer then fits nothing."""
        messages = [("client", 5), ("client", [NOTIFICATION]), ("server", refusal())]
        messages += [("server", {**ANSWER, "id": None})] * 2
        self.assertEqual(self.found(rules, *messages), ["note not-owed 2", "must not-owed 3"])
        self.assertEqual([WORDS in it for it in self.lines], [True, False])

    @rows(
        [
            ("before it", [("server", refusal()), ("client", [NOTIFICATION])]),
            ("of one's own", [("server", [NOTIFICATION]), ("server", refusal())]),
            ("with an id", [("client", [NOTIFICATION]), ("server", refusal(id_=9))]),
            ("an array", [("client", [NOTIFICATION]), ("server", [refusal()])]),
            ("no array", [("client", NOTIFICATION), ("server", refusal())]),
        ]
    )
    def test_what_is_no_refusal_of_an_array(self, name, messages):
        found = [it for it in self.found("lsp", *messages) if "not-owed" in it]
        self.assertEqual([it.split()[0] for it in found], ["must"], name)

    @rows(
        [
            ([REQUEST], ["note not-owed 1"], "must not-owed 2"),
            ([REQUEST, NOTIFICATION], ["note not-owed 1"], "must not-owed 2"),
            ([NOTIFICATION, 5], ["note not-owed 1"], "should not-as-array 2"),
            ([], [], "must not-owed 2"),
        ]
    )
    def test_a_request_in_it_is_refused_once(self, array, once, then):
        self.assertEqual(self.found("lsp", ("client", array), ("server", refusal())), once)
        twice = self.found("lsp", ("client", array), *[("server", refusal())] * 2)
        self.assertEqual(twice, [*once, then])
