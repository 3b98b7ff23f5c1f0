"""The shapes of params and results: rows of messages that keep each rule, break it, and break it at its border."""
import json

from helping import frame, notice, ran, request, rows
from judging import COMMAND, Case

from bullmyrtle.judge import Talk
from bullmyrtle.judge._rules import SHAPES

START, END = {"line": 1, "character": 2}, {"line": 1, "character": 4}
RANGE = {"start": START, "end": END}
DOCUMENT = {"uri": "file:///a"}
PLACE = {"textDocument": DOCUMENT, "position": START}
INITIALIZE = {"processId": None, "rootUri": None, "capabilities": {}}
SYMBOL = {"name": "a", "kind": 5, "location": {"uri": "file:///a", "range": RANGE}}


def diagnostics(**more):
    return {"uri": "file:///a", "diagnostics": [{"range": RANGE, "message": "m", **more}]}


def at(line, character, **more):
    return {**PLACE, "position": {"line": line, "character": character}, **more}


def published(start, end):
    return {"uri": "a", "diagnostics": [{"range": {"start": start, "end": end}, "message": "m"}]}


HOVER, SYMBOLS = "textDocument/hover", "textDocument/documentSymbol"
PUBLISH, OF_A_DOCUMENT = "textDocument/publishDiagnostics", {"textDocument": DOCUMENT}
FIRST, TOKEN = "params.diagnostics[0]", "shape-params: params.workDoneToken must be"
KINDS, TYPES = "SymbolKind's values (1 to 26)", "MessageType's values (1, 2, 3, 4)"
SEVERITIES = "one of DiagnosticSeverity's values (1, 2, 3, 4)"
NOT_32_BITS = "params.position.character must be at most 2147483647, got 2147483648"

# Params that a side sends: the side, the method, the params, and what is found.
PARAMS = [
    ("client", HOVER, PLACE, ""),
    ("client", HOVER, {**PLACE, "more": 1}, ""),
    ("client", HOVER, OF_A_DOCUMENT, "must shape-params: params lacks position"),
    ("client", HOVER, None, "must shape-params: params must be an object, got null"),
    ("client", HOVER, at(-1, 0), "must shape-value: params.position.line must be at least 0, got -1"),
    ("client", HOVER, at(0, 2**31), f"note shape-value: {NOT_32_BITS}"),
    ("client", HOVER, at(2**31 - 1, 0), ""),
    ("client", HOVER, at(0, 0), ""),
    ("client", HOVER, at(0, 0, workDoneToken=True), f"should {TOKEN} an integer or a string, got boolean"),
    ("client", HOVER, at(0, 0, workDoneToken=None), f"note {TOKEN} absent, and not null"),
    ("client", "shutdown", None, ""),
    ("server", PUBLISH, diagnostics(severity=4), ""),
    (
        "server",
        PUBLISH,
        diagnostics(severity=5),
        f"should shape-value: {FIRST}.severity must be {SEVERITIES}",
    ),
    ("server", PUBLISH, published(END, START), f"should shape-value: {FIRST}.range ends before its start"),
    ("server", PUBLISH, published(START, START), ""),
    (
        "server",
        "window/logMessage",
        {"type": 9, "message": "m"},
        f"must shape-value: params.type must be one of {TYPES}, got 9",
    ),
    ("server", "my/own", {"type": 9}, ""),
    # (a client has no such method, so what it means isn't known)
    ("server", HOVER, {}, ""),
]
# Results of a server: the method, its params, the result, and what is found.
RESULTS = [
    (HOVER, PLACE, {"contents": "x"}, ""),
    (HOVER, PLACE, None, ""),
    (HOVER, PLACE, {}, "must shape-result: result lacks contents"),
    (HOVER, PLACE, "x", "must shape-result: result must be a Hover or null, got string"),
    (HOVER, PLACE, ["x"], "must shape-result: result must be a Hover or null, got array"),
    (
        SYMBOLS,
        OF_A_DOCUMENT,
        [{**SYMBOL, "containerName": None}],
        "note shape-result: result[0].containerName must be absent, and not null",
    ),
    # (that a symbol's kind is a SymbolKind is by one source alone)
    (
        SYMBOLS,
        OF_A_DOCUMENT,
        [{**SYMBOL, "kind": 27}],
        f"note shape-value: result[0].kind must be one of {KINDS}, got 27",
    ),
    (SYMBOLS, OF_A_DOCUMENT, [{**SYMBOL, "kind": 26}], ""),
    # (of inlay hints one source alone has the types)
    (
        "textDocument/inlayHint",
        {**OF_A_DOCUMENT, "range": RANGE},
        [{"position": START}],
        "note shape-result: result[0] lacks label",
    ),
    ("shutdown", None, {}, "must shape-result: result must be null, got object"),
]
CALL, LIST, STRUCTURE = "tools/call", "tools/list", {"content": [], "structuredContent": [1]}
WORD = {"content": [{"type": "text", "text": "1"}]}

# In MCP: the rules, the method, the params, the result, and what is found.
OF_MCP = [
    ("mcp", CALL, {"name": "add", "arguments": {"a": 1}}, WORD, ""),
    ("mcp", CALL, {"arguments": {}}, {"content": []}, "shape-params: params lacks name"),
    (
        "mcp",
        CALL,
        {"name": "add"},
        {"content": [{"type": "text", "text": 1}]},
        "shape-result: result.content[0].text must be a string, got integer",
    ),
    (
        "mcp",
        CALL,
        {"name": "a"},
        {"content": "1"},
        "shape-result: result.content must be an array, got string",
    ),
    ("mcp", LIST, None, {"tools": [{"name": "a", "inputSchema": {"type": "object"}}]}, ""),
    ("mcp", LIST, {}, {"tools": [{"name": "a"}]}, "shape-result: result.tools[0] lacks inputSchema"),
    (
        "mcp",
        LIST,
        {},
        {"tools": [{"name": "a", "inputSchema": {"type": "array"}}]},
        'shape-value: result.tools[0].inputSchema.type must be "object", got "array"',
    ),
    ("mcp", CALL, {"name": "a"}, STRUCTURE, "shape-result: result.structured"),
    # (which that version hasn't yet)
    ("mcp:2025-03-26", CALL, {"name": "a"}, STRUCTURE, ""),
    ("mcp", "tools/mine", 7, 7, ""),
]


def shapes_in(*pieces, shapes=True):
    """What is found of shapes in frames of both sides, and the summary's lines."""
    talk, found = Talk("lsp", "frames", shapes=shapes), []
    for side, message in pieces:
        found += talk.saw(side, frame(message))
    lines = list(talk.alike())
    talk.close()
    return [it for it in found if it.rule.startswith("shape")], lines


def said(side, method, params):
    return side, request(7, method, params) if params is not None else request(7, method)


class Shapes(Case):
    def is_found(self, found, wanted, method, side):
        found = [(it.side, f"{it.level} {it.rule}: {it.words}") for it in found]
        rule, _, what = wanted.partition(": ")
        self.assertEqual(len(found), 1 if wanted else 0, found)
        for its, words in found:
            self.assertEqual(its, side)
            self.assertTrue(words.startswith(f"{rule}: {method}: {what}"), words)

    @rows(PARAMS)
    def test_params(self, side, method, params, wanted):
        found, _ = shapes_in(said(side, method, params))
        self.is_found(found, wanted, method, side)

    @rows(RESULTS)
    def test_results(self, method, params, result, wanted):
        answer = {"jsonrpc": "2.0", "id": 7, "result": result}
        found, _ = shapes_in(said("client", method, params), ("server", answer))
        self.is_found(found, wanted, method, "server")

    @rows(OF_MCP)
    def test_mcp(self, rules, method, params, result, wanted):
        talk, found = Talk(rules, "lines", shapes=True), []
        asked = {"jsonrpc": "2.0", "id": 7, "method": method, "params": params}
        if params is None:
            del asked["params"]
        for side, it in (("client", asked), ("server", {"jsonrpc": "2.0", "id": 7, "result": result})):
            found += talk.saw(side, json.dumps(it).encode() + b"\n")
        talk.close()
        # (the types are by one source alone)
        shapes = [it for it in found if it.rule.startswith("shape")]
        side = "client" if "params" in wanted else "server"
        self.is_found(shapes, wanted and f"note {wanted}", method, side)

    @rows([("2024-11-05", 0), ("2025-03-26", 0), ("2025-06-18", 1), ("2025-11-25", 1)])
    def test_mcp_by_the_version_that_is_agreed_on(self, version, count):
        """Also by a driver that has asked for the newest types before."""
        asked = {"jsonrpc": "2.0", "id": 8, "method": "tools/call", "params": {"name": "a"}}
        answer = {"jsonrpc": "2.0", "id": 8, "result": {"content": [], "structuredContent": [1]}}
        about = {"protocolVersion": version, "capabilities": {"tools": {}}}
        info = {"name": "n", "version": "1"}
        first = {"jsonrpc": "2.0", "id": 7, "method": "initialize", "params": {**about, "clientInfo": info}}
        agreed = {"jsonrpc": "2.0", "id": 7, "result": {**about, "serverInfo": info}}
        talk, found = Talk("mcp", "lines", shapes=True), []
        for side, it in (("client", first), ("server", agreed), ("client", asked), ("server", answer)):
            found += talk.saw(side, json.dumps(it).encode() + b"\n")
        talk.close()
        self.assertEqual(len([it for it in found if it.rule == "shape-result"]), count, version)

    @rows(SHAPES)
    def test_each_rule_is_kept_and_broken(self, rule):
        words = [words for *_, words in (*PARAMS, *RESULTS)]
        self.assertTrue(any(f" {rule.name}: " in it for it in words), rule.name)

    def test_errors_and_the_end_have_no_shape(self):
        error = {"jsonrpc": "2.0", "id": 7, "error": {"code": -32603, "message": "m"}}
        found, _ = shapes_in(said("client", "textDocument/hover", PLACE), ("server", error))
        self.assertEqual(found, [])

    def test_what_is_alike_is_told_once(self):
        symbols = [{**SYMBOL, "containerName": None} for _ in range(300)]
        answer = {"jsonrpc": "2.0", "id": 7, "result": symbols}
        asked = said("client", "textDocument/documentSymbol", {"textDocument": DOCUMENT})
        found, lines = shapes_in(asked, ("server", answer), asked, ("server", answer))
        self.assertEqual(len(found), 1)
        place = "textDocument/documentSymbol: result[..].containerName"
        self.assertEqual(lines, [f"shape-result: server, {place}: 600 times"])

    def test_names_from_outside_make_no_group_each(self):
        edits = {f"file:///{it}]": [7] for it in range(900)}
        params = {"edit": {"changes": edits}}
        found, lines = shapes_in(("server", request(7, "workspace/applyEdit", params)))
        self.assertEqual((len(found), len(lines)), (1, 1))

    def test_what_nests_deep(self):
        deep = {"range": RANGE}
        for _ in range(400):
            deep = {"range": RANGE, "parent": deep}
        answer = {"jsonrpc": "2.0", "id": 7, "result": [deep]}
        params = {"textDocument": DOCUMENT, "positions": []}
        shapes_in(said("client", "textDocument/selectionRange", params), ("server", answer))

    def test_without(self):
        self.assertEqual(shapes_in(said("client", "textDocument/hover", {}), shapes=False), ([], []))

    def test_other_rules_have_none(self):
        talk = Talk("mcp", "lines", shapes=True)
        found = talk.saw("client", b'{"jsonrpc":"2.0","id":1,"method":"textDocument/hover","params":{}}\n')
        self.assertEqual([it.rule for it in found if it.rule.startswith("shape")], [])
        talk.close()

    def test_the_command(self):
        said = request(1, "initialize", INITIALIZE), notice("textDocument/didOpen", {"textDocument": 7})
        record = "".join(["judge 1 lsp frames\n", *(f"> {frame(it).hex()}\n" for it in said)])
        for words, is_told in (([], True), (["--without", "shape"], False)):
            ended = ran([*COMMAND, *words, "--replay", "/dev/stdin"], record.encode())
            told = (
                b"shape-params" in ended.stderr and b"params.textDocument must be an object" in ended.stderr
            )
            self.assertEqual((ended.returncode, told), (0, is_told), ended.stderr)
