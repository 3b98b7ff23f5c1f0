"""What a language server holds to LSP's types: params, and with checks="results" results and what it sends too."""
import sys

from helping import Case, joined, logged, patience, ran, rows
from test_language_server import URI, Editor, at, code_of, opened

from bullmyrtle import Error
from bullmyrtle.lsp import LanguageServer

PLACE = {"line": 0, "character": 1}
DOCUMENT = {"uri": URI}
# Params of a hover, and what is said of them.
WRONG = [
    (None, "params must be an object, got null"),
    ([], "params must be an object, got array"),
    ({}, "params lacks textDocument"),
    ({"textDocument": DOCUMENT}, "params lacks position"),
    ({"textDocument": DOCUMENT, "position": None}, "params.position must be an object, got null"),
    ({"textDocument": 7, "position": PLACE}, "params.textDocument must be an object, got integer"),
    (
        {"textDocument": {"uri": None}, "position": PLACE},
        "params.textDocument.uri must be a string, got null",
    ),
    (
        {"textDocument": DOCUMENT, "position": {"line": "1", "character": 1}},
        "params.position.line must be an integer, got string",
    ),
    (
        {"textDocument": DOCUMENT, "position": {"line": True, "character": 1}},
        "params.position.line must be an integer, got boolean",
    ),
    (
        {"textDocument": DOCUMENT, "position": {"line": 1.5, "character": 1}},
        "params.position.line must be an integer, got number",
    ),
    (
        {"textDocument": DOCUMENT, "position": {"line": 0, "character": -1}},
        "params.position.character must be at least 0, got -1",
    ),
    (
        {"textDocument": DOCUMENT, "position": {"line": 2**31, "character": 0}},
        "params.position.line must be at most 2147483647, got 2147483648",
    ),
    (
        {"textDocument": DOCUMENT, "position": {"line": 2.0**40, "character": 0}},
        "params.position.line must be at most 2147483647, got 1099511627776.0",
    ),
    ({"textDocument": DOCUMENT, "position": {"line": 0}}, "params.position lacks character"),
    (
        {"textDocument": DOCUMENT, "position": PLACE, "workDoneToken": [1]},
        "params.workDoneToken must be an integer or a string, got array",
    ),
]
RIGHT = [
    at(0, 1),
    {**at(0, 1), "workDoneToken": None},  # (null where it may be absent)
    {"textDocument": DOCUMENT, "position": {"line": 0.0, "character": 1.0}},
    {"textDocument": {"uri": URI, "more": [1]}, "position": PLACE, "context": {"x": 1}},
]
# A method, what its feature returns, and what is wrong with it.
RESULTS = [
    ("textDocument/hover", {}, "result lacks contents"),
    ("textDocument/hover", "text", "result must be a Hover or null, got string"),
    ("textDocument/hover", {"contents": [{"language": "c"}]}, "result.contents[0] lacks value"),
    ("textDocument/references", [{"uri": URI}], "result[0] lacks range"),
    (
        "textDocument/documentHighlight",
        [{"range": {"start": PLACE, "end": PLACE}, "kind": 9}],
        "result[0].kind must be ",
    ),
    ("textDocument/documentColor", None, "result must be an array, got null"),
]


def hovering(**how):
    server = LanguageServer("words", **how)
    server.feature("textDocument/hover")(lambda ls, params: {"contents": params["position"]["line"] * "a"})
    return server


async def message_of(call):
    try:
        return await call
    except Error as error:
        return error.code, error.message


class Params(Case):
    async def test_wrong_ones(self):
        ran = []
        server = LanguageServer()
        server.feature("textDocument/hover")(lambda ls, params: ran.append(params))
        with logged() as log:
            async with joined(server, Editor()) as editor:
                await editor.begin()
                for params, words in WRONG:
                    found = await message_of(editor.call("textDocument/hover", params))
                    self.assertEqual(found, (-32602, f"Invalid params: {words}"))
        self.assertEqual((ran, log.texts), ([], []))

    async def test_right_ones(self):
        async with joined(hovering(), Editor()) as editor:
            await editor.begin()
            for params in RIGHT:
                self.assertEqual(await editor.call("textDocument/hover", params), {"contents": ""})

    async def test_a_number_that_is_an_integer_is_one(self):
        """Wherever LSP has integers, also in lists, and where there may be something else; and nowhere else."""
        came = []
        server = LanguageServer()
        server.feature("textDocument/selectionRange")(lambda params: came.append(params))
        server.feature("textDocument/colorPresentation")(lambda params: came.append(params) or [])
        server.command("take")(lambda value: came.append(value))
        color = {"red": 1.0, "green": 0.0, "blue": 0.5, "alpha": 1.0}
        place = {"start": {"line": 0.0, "character": 0}, "end": {"line": 1e9, "character": -0.0}}
        calls = (
            (
                "textDocument/selectionRange",
                {"textDocument": DOCUMENT, "positions": [PLACE, {"line": 2.0, "character": 1e3}]},
            ),
            (
                "textDocument/colorPresentation",
                {"textDocument": DOCUMENT, "color": color, "range": place, "workDoneToken": 7.0},
            ),
            ("workspace/executeCommand", {"command": "take", "arguments": [1.0]}),
        )
        async with joined(server, Editor()) as editor:
            await editor.begin()
            for method, params in calls:
                await editor.call(method, params)
        selected, presented, taken = came
        self.assertEqual(repr(selected["positions"][1]), "{'line': 2, 'character': 1000}")
        self.assertEqual(repr(presented["color"]), repr(color))
        self.assertEqual(repr(presented["range"]["start"]), "{'line': 0, 'character': 0}")
        self.assertEqual(repr(presented["range"]["end"]), f"{{'line': {int(1e9)}, 'character': 0}}")
        self.assertEqual((repr(presented["workDoneToken"]), repr(taken)), ("7", "1.0"))

    async def test_in_a_thread_and_async_and_with_a_limit(self):
        server = LanguageServer()
        server.feature("textDocument/hover", thread=True)(lambda params: None)

        @server.feature("textDocument/definition", timeout=patience(5))
        async def definition(params):
            return None

        async with joined(server, Editor()) as editor:
            await editor.begin()
            for method in ("textDocument/hover", "textDocument/definition"):
                self.assertEqual(await code_of(editor.call(method, {"textDocument": DOCUMENT})), -32602)
                self.assertIsNone(await editor.call(method, at(0, 1)))

    async def test_enumerations(self):
        kinds = []
        server = LanguageServer()
        server.feature("textDocument/codeAction")(lambda params: kinds.append(params["context"]) or [])
        diagnostic = {"range": {"start": PLACE, "end": PLACE}, "message": "m"}
        about = {"textDocument": DOCUMENT, "range": {"start": PLACE, "end": PLACE}}
        async with joined(server, Editor()) as editor:
            await editor.begin()
            for context, code in [
                ({"diagnostics": [], "only": ["mine.of.mine"]}, 0),
                ({"diagnostics": [{**diagnostic, "severity": 4}]}, 0),
                ({"diagnostics": [{**diagnostic, "severity": 5}]}, -32602),
                ({"diagnostics": [], "triggerKind": 3}, -32602),
            ]:
                call = editor.call("textDocument/codeAction", {**about, "context": context})
                self.assertEqual(await code_of(call), code, context)
        self.assertEqual(len(kinds), 2)

    async def test_names_that_lsp_has_not_are_not_checked(self):
        server = LanguageServer()
        server.feature("my/hover")(lambda params: params)
        server.command("a")(lambda x: x)
        async with joined(server, Editor()) as editor:
            await editor.begin()
            self.assertEqual(await editor.call("my/hover", [1]), [1])
            about = {"command": "a", "arguments": [{"position": 7}]}
            self.assertEqual(await editor.call("workspace/executeCommand", about), {"position": 7})

    async def test_without_checks(self):
        server = LanguageServer(checks=None)
        server.feature("textDocument/hover")(lambda params: {"contents": str(params)})
        async with joined(server, Editor()) as editor:
            await editor.begin()
            self.assertEqual(await editor.call("textDocument/hover", {}), {"contents": "{}"})
            # (what is built in relies on its params)
            self.assertEqual(await code_of(editor.call("workspace/executeCommand", {})), -32602)
        with self.assertRaises(ValueError):
            LanguageServer(checks="all")

    def test_a_server_that_registers_loads_no_model(self):
        code = (
            "import sys; from bullmyrtle.lsp import LanguageServer; server = LanguageServer();"
            "server.feature('textDocument/hover')(lambda params: None);"
            "print([it for it in sys.modules if it in ('bullmyrtle.lsp._model', 'bullmyrtle.lsp.types',"
            " 'bullmyrtle.lsp._features', 'bullmyrtle.lsp._registration')])"
        )
        ended = ran([sys.executable, "-c", code], check=True)
        self.assertEqual(ended.stdout, b"[]\n")


class Results(Case):
    @rows(RESULTS)
    def test_wrong_ones(self, method, result, words):
        server = LanguageServer(checks="results")
        server.feature(method)(lambda params, result=result: result)

        async def main(server=server, method=method):
            async with joined(server, Editor()) as editor:
                await editor.begin()
                params = {**at(0, 0), "context": {"includeDeclaration": True}}
                return await message_of(editor.call(method, params))

        with logged() as log:
            code, message = self.wait(main())
            self.assertEqual(code, -32603)
            self.assertIn(f"{method}: {words}", message)
            self.assertEqual(log.texts, [f"{method} raised TypeError"])

    async def test_they_pass_where_only_params_are_checked(self):
        server = LanguageServer()
        server.feature("textDocument/hover")(lambda params: 7)
        async with joined(server, Editor()) as editor:
            await editor.begin()
            self.assertEqual(await editor.call("textDocument/hover", at(0, 0)), 7)

    async def test_what_is_sent(self):
        server = LanguageServer(checks="results")
        found = []

        @server.feature("textDocument/hover")
        def hover(ls, params):
            for send in (
                lambda: ls.notify("window/showMessage", {"type": 9, "message": "x"}),
                lambda: ls.publish_diagnostics(URI, [{"message": "x"}]),
                lambda: ls.notify("my/own", [7]),
                lambda: ls.show_message("x"),
            ):
                try:
                    send()
                    found.append("sent")
                except TypeError as error:
                    found.append(str(error))

        editor = Editor()
        async with joined(server, editor):
            await editor.begin()
            editor.notify("textDocument/didOpen", opened("a"))
            await editor.call("textDocument/hover", at(0, 0))
            await self.until(lambda: len(editor.told) == 2)
        self.assertIn(
            "window/showMessage: params.type must be one of MessageType's values (1, 2, 3, 4), got 9",
            found[0],
        )
        self.assertEqual(found[1], "textDocument/publishDiagnostics: params.diagnostics[0] lacks range")
        self.assertEqual(found[2:], ["sent", "sent"])
