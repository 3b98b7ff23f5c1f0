"""Params of a language server in which one thing has a wrong type or isn't there: a request is answered -32602, a
notification is dropped and logged in one line, and nothing else of the session changes."""
import copy
import os
import subprocess
import sys

from helping import HERE, PACKAGE, Case, environment, frame, joined, logged, notice, request
from test_language_server import Editor, URI, at, code_of, opened

from bullmyrtle import InvalidParams
from bullmyrtle.lsp import LanguageServer, Workspace

PLACE = {"line": 0, "character": 1}
RANGE = {"start": PLACE, "end": {"line": 0, "character": 2}}
DOCUMENT = {"uri": URI}
FOLDER = {"uri": "file:///a", "name": "a"}
INITIALIZE = {
    "processId": 7,
    "clientInfo": {"name": "editor"},
    "locale": "en",
    "rootPath": "/a",
    "rootUri": "file:///a",
    "capabilities": {},
    "trace": "off",
    "workspaceFolders": [FOLDER],
}
#: Right params of what the layer does itself, and of what it is told (LSP 3.17).
REQUESTS = {"workspace/executeCommand": {"command": "sum", "arguments": [1, 2]}}
NOTIFICATIONS = {
    "textDocument/didOpen": opened("a", uri="file:///other.txt"),
    "textDocument/didChange": {
        "textDocument": {"uri": URI, "version": 2},
        "contentChanges": [{"range": RANGE, "text": "b"}, {"text": "a text"}],
    },
    "textDocument/didClose": {"textDocument": DOCUMENT},
    "workspace/didChangeWorkspaceFolders": {"event": {"added": [FOLDER], "removed": [FOLDER]}},
    "$/setTrace": {"value": "off"},
    "window/workDoneProgress/cancel": {"token": "t"},
}
POSITIONS = """completion declaration definition documentHighlight hover implementation linkedEditingRange moniker
onTypeFormatting prepareCallHierarchy prepareRename prepareTypeHierarchy references rename signatureHelp
typeDefinition""".split()
RANGES = [
    "codeAction",
    "colorPresentation",
    "inlayHint",
    "inlineValue",
    "rangeFormatting",
    "semanticTokens/range",
]
DOCUMENTS = """codeLens diagnostic documentColor documentLink documentSymbol foldingRange formatting
semanticTokens/full willSaveWaitUntil""".split()
REQUESTS.update({f"textDocument/{it}": at(0, 1) for it in POSITIONS})
REQUESTS.update({f"textDocument/{it}": {"textDocument": DOCUMENT, "range": RANGE} for it in RANGES})
REQUESTS.update({f"textDocument/{it}": {"textDocument": DOCUMENT} for it in DOCUMENTS})
REQUESTS["textDocument/selectionRange"] = {"textDocument": DOCUMENT, "positions": [PLACE]}
#: What else these need to have.
OPTIONS_OF_FORMATTING = {"options": {"tabSize": 4, "insertSpaces": True}}
OTHERS = {
    "codeAction": {"context": {"diagnostics": []}},
    "colorPresentation": {"color": {"red": 1, "green": 0, "blue": 0, "alpha": 1}},
    "formatting": OPTIONS_OF_FORMATTING,
    "inlineValue": {"context": {"frameId": 1, "stoppedLocation": RANGE}},
    "onTypeFormatting": {"ch": "}", **OPTIONS_OF_FORMATTING},
    "rangeFormatting": OPTIONS_OF_FORMATTING,
    "references": {"context": {"includeDeclaration": True}},
    "rename": {"newName": "b"},
    "willSaveWaitUntil": {"reason": 1},
}
for name, others in OTHERS.items():
    REQUESTS[f"textDocument/{name}"] = {**REQUESTS[f"textDocument/{name}"], **others}
# What may be null, and what may be left out; and what has nothing in it that has to be there.
NULL = {f"initialize {it}" for it in INITIALIZE}
NULL |= {"textDocument/didOpen textDocument.version", "textDocument/didChange textDocument.version"}
NULL |= {"textDocument/didChange contentChanges.*.range", "workspace/executeCommand arguments"}
OPTIONAL = {f"initialize {it}" for it in (*INITIALIZE, "workspaceFolders.*.name")}
OPTIONAL |= {f"workspace/didChangeWorkspaceFolders event.{it}.*.name" for it in ("added", "removed")}
OPTIONAL |= {f"textDocument/didOpen textDocument.{it}" for it in ("languageId", "version")}
OPTIONAL |= {"textDocument/didChange textDocument.version"}
OPTIONAL |= {"textDocument/didChange contentChanges.*.range", "workspace/executeCommand arguments"}
NULL |= OPTIONAL  # (null for what may be left out counts as left out)
EMPTY = {"initialize ", "initialize capabilities"}
OPTIONS = {
    "textDocument/onTypeFormatting": {"firstTriggerCharacter": "}"},
    "textDocument/semanticTokens/full": {"legend": {}},
    "textDocument/semanticTokens/range": {"legend": {}},
}
VALUES = (None, True, 7, 1.5, "x", [], [7], {}, {"a": 7})
ABSENT = object()


def paths_in(value, path=()):
    """The path of each value in another, the whole one first."""
    yield path
    if isinstance(value, (dict, list)):
        for key in value if isinstance(value, dict) else range(len(value)):
            yield from paths_in(value[key], (*path, key))


def value_at(value, path):
    for key in path:
        value = value[key]
    return value


def put(params, path, value):
    """The params with a value in a place, or without that."""
    if not path:
        return value
    params = copy.deepcopy(params)
    inner = value_at(params, path[:-1])
    if value is ABSENT:
        del inner[path[-1]]
    else:
        inner[path[-1]] = value
    return params


def is_right(value, there, place):
    """Whether a value may be where another one is."""
    if value is None:
        return place in NULL
    if isinstance(value, list):
        return isinstance(there, list) and not value
    if isinstance(value, dict):
        return isinstance(there, dict) and place in EMPTY
    if " color." in place:
        return type(value) in (int, float)
    if place == "window/workDoneProgress/cancel token":
        return type(value) in (str, int)
    return type(value) is type(there)


def wrong(method, params):
    """Params with one thing wrong, each with what that is."""
    for path in paths_in(params):
        place = f"{method} {'.'.join('*' if isinstance(it, int) else it for it in path)}"
        # (params that are neither an array nor an object are a wrong request of JSON-RPC)
        values = VALUES if path else [it for it in VALUES if it is None or isinstance(it, (list, dict))]
        for value in values:
            if not is_right(value, value_at(params, path), place):
                yield f"{place} is {value!r}", put(params, path, value)
        if path and isinstance(path[-1], str) and place not in OPTIONAL:
            yield f"{place} is missing", put(params, path, ABSENT)


def server_of():
    """A server whose features read what they need without a look at what came."""
    server = LanguageServer("words", "1.0")
    for method, params in REQUESTS.items():
        if method != "workspace/executeCommand":
            server.feature(method, OPTIONS.get(method))(reading(params))
    server.feature("textDocument/didSave")(lambda params: params["textDocument"]["uri"])

    @server.command("sum")
    def sum_of(a: int, b: int):
        return a + b

    return server


def reading(params):
    """A feature that reads each member of its params, as they are when they are right."""

    def read(ls, params_):
        for path in paths_in(params):
            if 0 not in path:  # (an array may be empty)
                value_at(params_, path)
        places = [(it["line"], it["character"]) for it in params_.get("positions", ())]
        assert all(type(it) is int for place in places for it in place)
        word = ls.document(params_).word_at(params_["position"]) if "position" in params_ else ""
        return params_["textDocument"]["uri"] + word

    return read


class Wrong(Case):
    async def test_requests(self):
        count = 0
        with logged() as log:
            async with joined(server_of(), Editor()) as editor:
                for what, params in wrong("initialize", INITIALIZE):
                    self.assertEqual(await code_of(editor.call("initialize", params)), -32602, what)
                    count += 1
                await editor.call("initialize", INITIALIZE)
                editor.notify("initialized", {})
                editor.notify("textDocument/didOpen", opened("a text"))
                for method, right in REQUESTS.items():
                    for what, params in wrong(method, right):
                        self.assertEqual(await code_of(editor.call(method, params)), -32602, what)
                        count += 1
                    self.assertEqual(await code_of(editor.call(method, right)), 0, method)
        self.assertEqual(log.texts, [])
        self.assertGreater(count, 1_500)

    async def test_notifications(self):
        count = 0
        server = server_of()
        async with joined(server, Editor()) as editor:
            await editor.call("initialize", {**INITIALIZE, "trace": "messages"})
            editor.notify("textDocument/didOpen", opened("a text"))
            for method, right in {
                **NOTIFICATIONS,
                "textDocument/didSave": {"textDocument": DOCUMENT},
            }.items():
                for what, params in wrong(method, right):
                    with logged() as log:
                        editor.notify(method, params)
                        word = await editor.call("textDocument/hover", at(0, 2))
                    self.assertEqual(word, f"{URI}text", what)
                    (text,) = log.texts
                    self.assertEqual(text.partition("Invalid params: ")[0], f"{method}: ", what)
                    self.assertIsNone(log.errors[0].exc_info, what)
                    count += 1
            self.assertEqual([*server.workspace.documents], [URI])
            self.assertEqual(server.workspace.documents[URI].version, 1)
            self.assertEqual(server.workspace.folders, {FOLDER["uri"]: FOLDER})
            self.assertEqual(server.life.trace, "messages")
        self.assertGreater(count, 300)

    async def test_initialize_without_an_id(self):
        """It is a request."""
        with logged() as log:
            async with joined(server_of(), Editor()) as editor:
                editor.notify("initialize", INITIALIZE)
                self.assertEqual(await code_of(editor.call("textDocument/hover", at(0, 0))), -32002)
                self.assertEqual(await code_of(editor.call("initialize", INITIALIZE)), 0)
                editor.notify("initialize", INITIALIZE)
                self.assertEqual(await code_of(editor.call("nothing")), -32601)
        self.assertEqual(log.texts, 2 * ["initialize: it came as a notification, and is dropped"])

    async def test_uris_that_name_no_file(self):
        server = LanguageServer()
        server.feature("a")(lambda ls, params: [ls.document(params).path, ls.document(params).filename])
        server.feature("b")(lambda ls, params: ls.workspace.get_text_document(params["uri"]).text)
        with logged() as log:
            async with joined(server, Editor()) as editor:
                await editor.begin()
                for uri in ("file://[a/b", "http://[", "", "file:///%00", "["):
                    editor.notify("textDocument/didOpen", opened("a", uri=uri))
                    await editor.call("a", {"textDocument": {"uri": uri}})
                    editor.notify("textDocument/didClose", {"textDocument": {"uri": uri}})
                    self.assertEqual(await code_of(editor.call("b", {"uri": uri})), -32602, uri)
        self.assertEqual(log.records, [])
        with self.assertRaises(InvalidParams):
            Workspace().get_text_document("file:///a\ud800")

    def test_nothing_of_it_is_on_standard_error(self):
        """But for a line of each notification that is dropped."""
        code = "from test_wrong_params import server_of; server_of().start_io()"
        messages = [
            request(1, "initialize", {**INITIALIZE, "workspaceFolders": 5}),
            request(2, "initialize", [1]),
            request(3, "initialize", INITIALIZE),
            notice("textDocument/didOpen", {"textDocument": 7}),
            request(4, "textDocument/hover", {"textDocument": 7}),
            request(5, "shutdown"),
            notice("exit"),
        ]
        ended = subprocess.run(
            [sys.executable, "-c", code],
            input=b"".join(map(frame, messages)),
            env={**environment(), "PYTHONPATH": os.pathsep.join((PACKAGE, HERE))},
            capture_output=True,
            check=False,
        )
        self.assertEqual(ended.returncode, 0, ended.stderr)
        codes = [it for it in ended.stdout.split(b'"code":')[1:]]
        self.assertEqual([it[:6] for it in codes], [b"-32602"] * 3)
        said = ended.stderr.decode()
        self.assertEqual(
            said, "textDocument/didOpen: Invalid params: params.textDocument must be an object, got integer\n"
        )
