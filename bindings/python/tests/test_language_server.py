"""A language server in memory: its life, its capabilities, its documents, and what it asks and tells its editor."""
import asyncio
import contextlib
import dataclasses
import gc
import os
import signal
import subprocess
import tempfile
import threading
import time
import typing
import warnings

from helping import SECONDS, Case, a_port, command, environment, joined, logged, patience, rows

import bullmyrtle
from bullmyrtle import Client, Error, InvalidParams
from bullmyrtle._streams import Memory
from bullmyrtle.lsp import LanguageServer

URI = "file:///tmp/notes.txt"
DOCUMENT = {"textDocument": {"uri": URI}}


def opened(text, version=1, uri=URI):
    return {"textDocument": {"uri": uri, "languageId": "text", "version": version, "text": text}}


def changed(version, *changes, uri=URI):
    return {"textDocument": {"uri": uri, "version": version}, "contentChanges": list(changes)}


def change(start, end, text):
    places = ({"line": line, "character": character} for line, character in (start, end))
    return {"range": dict(zip(("start", "end"), places)), "text": text}


def at(line, character):
    return {**DOCUMENT, "position": {"line": line, "character": character}}


class Editor(Client):
    """A client that keeps what it is told, and answers what it is asked by a table of results."""

    def __init__(self, **replies):
        super().__init__()
        self.told, self.asked, self.replies = [], [], replies
        self.fallback(self.came, dollar=True)

    def came(self, params, request):
        if request.is_notification:
            self.told.append((request.method, params))
            return None
        self.asked.append((request.method, params))
        reply = self.replies.get(request.method.replace("/", "_").replace("$", ""))
        if isinstance(reply, Error):
            raise reply
        return reply(params) if callable(reply) else reply

    def of(self, method):
        return [params for name, params in self.told if name == method]

    async def begin(self, capabilities=None, **more):
        about = {"processId": None, "rootUri": None, "capabilities": capabilities or {}, **more}
        result = await self.call("initialize", about)
        self.notify("initialized", {})
        return result["capabilities"]


@contextlib.asynccontextmanager
async def editing(server, editor=None, capabilities=None, **more):
    editor = editor or Editor()
    async with joined(server, editor):
        await editor.begin(capabilities, **more)
        yield editor


async def code_of(call):
    try:
        await call
    except Error as error:
        return error.code
    return 0


class Life(Case):
    async def test_features_of_its_life(self):
        server, told = LanguageServer("life", "1"), []
        server.feature("textDocument/hover")(lambda params: None)

        @server.feature("initialize")
        async def initialize(params, request):
            await asyncio.sleep(0.01)
            told.append((server.initialize_params["capabilities"], server.session is request.session))
            return {"capabilities": {"experimental": {"a": 1}}}

        server.feature("initialized")(lambda: told.append("initialized"))

        @server.feature("shutdown")
        async def shutdown():
            await asyncio.sleep(0.01)
            told.append("shutdown")
            return "ignored"

        server.feature("exit")(lambda: told.append("exit"))
        editor = Editor()
        ours, theirs = Memory.pair()
        serving = asyncio.ensure_future(server.serve_over(theirs))
        editor.attach(ours)
        first = editor.call("initialize", {"capabilities": {}})
        early = editor.call("textDocument/hover")
        self.assertEqual(await code_of(early), -32002)
        self.assertEqual((await first)["capabilities"]["experimental"], {"a": 1})
        self.assertEqual((await first)["serverInfo"], {"name": "life", "version": "1"})
        editor.notify("initialized", {})
        self.assertIsNone(await editor.call("shutdown"))
        editor.notify("exit")
        self.assertEqual(await serving, 0)
        await editor.close()
        self.assertEqual(told, [({}, True), "initialized", "shutdown", "exit"])

    @rows(["plain", "async"])
    async def test_initialize_that_fails_may_come_again(self, kind):
        server, tries = LanguageServer("life"), []

        def initialize(params):
            tries.append(params)
            if len(tries) == 1:
                raise Error(-32001, "not yet")

        async def later(params):
            await asyncio.sleep(0)
            initialize(params)

        server.feature("initialize")(initialize if kind == "plain" else later)
        methods = ("initialize", "shutdown", "initialize", "initialize")
        async with joined(server, Editor()) as editor:
            codes = [await code_of(editor.call(it, {"capabilities": {}})) for it in methods]
        self.assertEqual(codes, [-32001, -32002, 0, -32600])

    async def test_initialize_that_is_cancelled_may_come_again(self):
        """Once its task has begun, and before the task's first step."""
        server = LanguageServer("life")

        @server.feature("initialize")
        def initialize(params, request):
            loop = asyncio.get_running_loop()
            how = params.get("how")
            if how == "at once":
                loop.call_soon(request.session._incoming.cancel, request)
            elif how == "later":
                loop.call_later(0.01, request.session._incoming.cancel, request)
            return loop.create_future() if how else None

        with warnings.catch_warnings():
            warnings.simplefilter("ignore", RuntimeWarning)  # (a coroutine that never began)
            for how in ("at once", "later"):
                async with joined(server, Editor()) as editor:
                    call = editor.call("initialize", {"capabilities": {}, "how": how})
                    self.assertEqual(await code_of(call), -32800)
                    self.assertEqual(await code_of(editor.call("initialize", {"capabilities": {}})), 0, how)
            gc.collect()


class Capabilities(Case):
    ALWAYS = {
        "textDocumentSync": {"openClose": True, "change": 2},
        "workspace": {"workspaceFolders": {"supported": True, "changeNotifications": True}},
    }
    # Methods with their options, and what the specification has for them in ServerCapabilities.
    TABLE = [
        ({"textDocument/hover": None}, {"hoverProvider": True}),
        ({"textDocument/completion": None}, {"completionProvider": {}}),
        (
            {"completionItem/resolve": None, "textDocument/completion": {"triggerCharacters": ["."]}},
            {"completionProvider": {"triggerCharacters": ["."], "resolveProvider": True}},
        ),
        ({"textDocument/signatureHelp": None}, {"signatureHelpProvider": {}}),
        ({"textDocument/codeAction": None}, {"codeActionProvider": True}),
        (
            {"textDocument/codeAction": None, "codeAction/resolve": None},
            {"codeActionProvider": {"resolveProvider": True}},
        ),
        ({"textDocument/codeLens": None}, {"codeLensProvider": {}}),
        (
            {"textDocument/documentColor": None, "textDocument/colorPresentation": None},
            {"colorProvider": True},
        ),
        (
            {"textDocument/rename": None, "textDocument/prepareRename": None},
            {"renameProvider": {"prepareProvider": True}},
        ),
        (
            {"textDocument/onTypeFormatting": {"firstTriggerCharacter": "}"}},
            {"documentOnTypeFormattingProvider": {"firstTriggerCharacter": "}"}},
        ),
        (
            {"textDocument/prepareCallHierarchy": None, "callHierarchy/incomingCalls": None},
            {"callHierarchyProvider": True},
        ),
        (
            {
                "textDocument/semanticTokens/full": {"legend": {"tokenTypes": ["a"], "tokenModifiers": []}},
                "textDocument/semanticTokens/full/delta": None,
                "textDocument/semanticTokens/range": None,
            },
            {
                "semanticTokensProvider": {
                    "legend": {"tokenTypes": ["a"], "tokenModifiers": []},
                    "full": {"delta": True},
                    "range": True,
                }
            },
        ),
        (
            {"textDocument/diagnostic": None},
            {"diagnosticProvider": {"interFileDependencies": False, "workspaceDiagnostics": False}},
        ),
        (
            {"textDocument/diagnostic": {"identifier": "x"}, "workspace/diagnostic": None},
            {
                "diagnosticProvider": {
                    "identifier": "x",
                    "interFileDependencies": False,
                    "workspaceDiagnostics": True,
                }
            },
        ),
        (
            {"textDocument/didSave": {"includeText": True}, "textDocument/willSave": None},
            {
                "textDocumentSync": {
                    "openClose": True,
                    "change": 2,
                    "save": {"includeText": True},
                    "willSave": True,
                }
            },
        ),
        (
            {"workspace/didCreateFiles": {"filters": [{"pattern": {"glob": "*"}}]}},
            {
                "workspace": {
                    "workspaceFolders": {"supported": True, "changeNotifications": True},
                    "fileOperations": {"didCreate": {"filters": [{"pattern": {"glob": "*"}}]}},
                }
            },
        ),
        ({"workspace/symbol": None, "my/method": None}, {"workspaceSymbolProvider": True}),
    ]

    async def told(self, server, capabilities=None):
        editor = Editor()
        async with joined(server, editor):
            return await editor.begin(capabilities)

    @rows(TABLE)
    async def test_the_table(self, features, expected):
        server = LanguageServer()
        for name, options in features.items():
            server.feature(name, options)(lambda params: None)
        self.assertEqual(await self.told(server), {**self.ALWAYS, **expected})

    async def test_commands_and_what_is_given_by_hand(self):
        server = LanguageServer(sync="full", capabilities={"experimental": {"x": 1}, "hoverProvider": False})
        server.feature("textDocument/hover")(lambda params: None)
        server.command("b")(lambda: None)
        server.command("a")(lambda: None)
        sync = {"openClose": True, "change": 1}
        more = {
            "executeCommandProvider": {"commands": ["a", "b"]},
            "experimental": {"x": 1},
            "hoverProvider": False,
        }
        self.assertEqual(await self.told(server), {**self.ALWAYS, "textDocumentSync": sync, **more})

    @rows(
        [
            (None, {}, None),
            (["utf-8", "utf-16"], {}, "utf-8"),
            (["utf-32", "utf-8"], {}, "utf-32"),
            (["utf-8", "utf-16"], {"position_encodings": ["utf-16"]}, "utf-16"),
            (["utf-7"], {}, "utf-16"),
        ]
    )
    async def test_the_encoding(self, given, settings, expected):
        about = {} if given is None else {"general": {"positionEncodings": given}}
        self.assertEqual(
            (await self.told(LanguageServer(**settings), about)).get("positionEncoding"), expected
        )

    async def test_what_only_options_tell_may_be_given_by_hand(self):
        legend = {"legend": {"tokenTypes": [], "tokenModifiers": []}}
        create = {"filters": [{"pattern": {"glob": "*"}}]}
        server = LanguageServer(
            capabilities={
                "semanticTokensProvider": legend,
                "documentOnTypeFormattingProvider": {"firstTriggerCharacter": ";"},
                "workspace": {"fileOperations": {"didCreate": create}},
            }
        )
        for name in ("semanticTokens/full", "semanticTokens/range", "onTypeFormatting"):
            server.feature(f"textDocument/{name}")(lambda params: None)
        server.feature("workspace/didCreateFiles")(lambda params: None)
        told = await self.told(server)
        self.assertEqual(told["semanticTokensProvider"], {"full": True, "range": True, **legend})
        self.assertEqual(told["documentOnTypeFormattingProvider"], {"firstTriggerCharacter": ";"})
        self.assertEqual(told["workspace"]["fileOperations"], {"didCreate": create})

    def test_what_can_not_be_registered(self):
        server = LanguageServer()
        server.feature("textDocument/hover")(lambda params: None)
        names = (
            "textDocument/onTypeFormatting",
            "textDocument/semanticTokens/full",
            "workspace/willRenameFiles",
        )
        for name in names:
            with self.assertRaises(TypeError):
                server.feature(name)
        for name in ("textDocument/hover", "workspace/executeCommand"):
            with self.assertRaises(ValueError):
                server.feature(name)(lambda params: None)
        for bad in ({"sync": "some"}, {"position_encodings": ["utf-7"]}):
            with self.assertRaises(ValueError):
                LanguageServer(**bad)


class Documents(Case):
    async def test_what_does_not_fit(self):
        server = LanguageServer()
        with logged() as log:
            async with editing(server) as editor:
                editor.notify("textDocument/didChange", changed(2, {"text": "x"}))
                editor.notify("textDocument/didClose", DOCUMENT)
                editor.notify("textDocument/didOpen", {"textDocument": {"uri": URI}})
                editor.notify("textDocument/didOpen", opened("first"))
                editor.notify("textDocument/didOpen", opened("second"))
                editor.notify(
                    "textDocument/didChange",
                    changed(2, change((0, 0), (0, 1), "S"), {"range": 7, "text": ""}),
                )
                editor.notify("textDocument/didChange", changed(2, change((0, 9), (9, 9), "!")))
                editor.notify("textDocument/didChange", changed(1, change((0, 0), (0, 1), "S")))
                with contextlib.suppress(Error):
                    await editor.call("nothing")
                document = server.document(URI)
                self.assertEqual((document.text, document.version), ("Second!", 1))
        self.assertEqual(len(log.texts), 6, log.texts)
        self.assertTrue(log.texts[-1].endswith("version 1 comes after version 2"))

    async def test_a_thread_sees_a_snapshot(self):
        server = LanguageServer()
        inside, go_on = threading.Event(), threading.Event()

        @server.feature("textDocument/hover", thread=True)
        def hover(ls, params):
            document = ls.document(params)
            inside.set()
            go_on.wait(SECONDS)
            return [document.text, document.version]

        async with editing(server) as editor:
            editor.notify("textDocument/didOpen", opened("old"))
            call = editor.call("textDocument/hover", at(0, 0))
            await self.until(inside.is_set)
            editor.notify("textDocument/didChange", changed(2, {"text": "new"}))
            await self.until(lambda: server.document(URI).text == "new")
            go_on.set()
            self.assertEqual(await call, ["old", 1])

    async def test_files_and_folders(self):
        from bullmyrtle.lsp import uri_of

        server = LanguageServer()
        with tempfile.TemporaryDirectory() as room:
            folder = {"uri": "file:///a", "name": "a"}
            root = {"rootUri": "file:///a%20b", "workspaceFolders": [folder]}
            async with editing(server, **root) as editor:
                file = os.path.join(room, "a b.txt")
                with open(file, "w", encoding="utf-8") as it:
                    it.write("in a file")
                self.assertEqual(server.workspace.get_text_document(uri_of(file)).text, "in a file")
                editor.notify("textDocument/didOpen", opened("open", uri=uri_of(file)))
                event = {"added": [{"uri": "file:///c", "name": "c"}], "removed": [folder]}
                editor.notify("workspace/didChangeWorkspaceFolders", {"event": event})
                with contextlib.suppress(Error):
                    await editor.call("nothing")
                self.assertEqual(server.workspace.get_text_document(uri_of(file)).text, "open")
                self.assertEqual(list(server.workspace.folders), ["file:///c"])
                self.assertEqual(server.workspace.root_path, "/a b")
                self.assertEqual(server.position_encoding, "utf-16")
                with self.assertRaises(InvalidParams):
                    server.workspace.get_text_document("untitled:1")

    async def test_two_editors_at_once(self):
        server = LanguageServer()
        server.feature("textDocument/hover")(lambda ls, params: ls.document(params).text)

        @server.feature("textDocument/definition")
        async def definition(ls, params):
            await asyncio.sleep(0.01)
            ls.show_message(ls.document(params).text)

        async with editing(server) as one, editing(server) as other:
            for editor, text in ((one, "one"), (other, "other")):
                editor.notify("textDocument/didOpen", opened(text))
            for editor, text in ((one, "one"), (other, "other")):
                self.assertEqual(await editor.call("textDocument/hover", at(0, 0)), text)
            await asyncio.gather(*(it.call("textDocument/definition", at(0, 0)) for it in (one, other)))
            for editor, text in ((one, "one"), (other, "other")):
                self.assertEqual(editor.of("window/showMessage"), [{"type": 3, "message": text}])
            with self.assertRaises(RuntimeError):
                server.show_message("to whom?")


class Asking(Case):
    """What the editor is asked and told, as the specification has it."""

    async def asked(self, what, replies=None, capabilities=None, thread=False, **more):
        """What an editor is asked and told by one command, and the command's result."""
        server = LanguageServer()
        server.command("do", thread=thread)(what)
        editor = Editor(**(replies or {}))
        async with editing(server, editor, capabilities, **more):
            editor.notify("textDocument/didOpen", opened("text", 7))
            result = await editor.call("workspace/executeCommand", {"command": "do"})
            await asyncio.sleep(0.01)
        return editor.asked, editor.told, result

    async def test_notifications(self):
        def tell(ls):
            ls.show_message("a")
            ls.show_message("b", "error")
            ls.show_message_log("c", 2)
            ls.send_telemetry({"d": 1})
            ls.publish_diagnostics(URI, [])
            ls.publish_diagnostics("file:///other", [{"message": "x"}])
            ls.publish_diagnostics(ls.document(URI), [], 3)

        expected = [
            ("window/showMessage", {"type": 3, "message": "a"}),
            ("window/showMessage", {"type": 1, "message": "b"}),
            ("window/logMessage", {"type": 2, "message": "c"}),
            ("telemetry/event", {"d": 1}),
            ("textDocument/publishDiagnostics", {"uri": URI, "diagnostics": [], "version": 7}),
            ("textDocument/publishDiagnostics", {"uri": "file:///other", "diagnostics": [{"message": "x"}]}),
            ("textDocument/publishDiagnostics", {"uri": URI, "diagnostics": [], "version": 3}),
        ]
        self.assertEqual((await self.asked(tell))[1], expected)

    async def test_requests(self):
        async def ask(ls):
            await ls.unregister_capability(await ls.register_capability("textDocument/hover"))
            await ls.show_document("file:///x", takeFocus=True)
            await ls.refresh("diagnostics")
            chosen = await ls.show_message_request("a", ["Yes", "No"], "warning")
            return [chosen, await ls.workspace_folders(), await ls.configuration(scope_uri="file:///x")]

        def ask_in_thread(ls):
            return [ls.configuration("words.label"), ls.apply_edit({"changes": {}})]

        replies = {
            "window_showMessageRequest": {"title": "Yes"},
            "window_showDocument": {"success": True},
            "workspace_applyEdit": {"applied": True},
            "workspace_configuration": lambda params: [len(params["items"])],
            "workspace_workspaceFolders": [],
        }
        asked, _, result = await self.asked(ask, replies)
        self.assertEqual(result, [{"title": "Yes"}, [], 1])
        methods = [method.rpartition("/")[2] for method, _ in asked[:2]]
        self.assertEqual(methods, ["registerCapability", "unregisterCapability"])
        actions = [{"title": "Yes"}, {"title": "No"}]
        self.assertEqual(
            asked[2:],
            [
                ("window/showDocument", {"uri": "file:///x", "takeFocus": True}),
                ("workspace/diagnostic/refresh", None),
                ("window/showMessageRequest", {"type": 2, "message": "a", "actions": actions}),
                ("workspace/workspaceFolders", None),
                ("workspace/configuration", {"items": [{"scopeUri": "file:///x"}]}),
            ],
        )
        self.assertEqual((await self.asked(ask_in_thread, replies, thread=True))[2], [1, {"applied": True}])

    async def test_what_is_no_message(self):
        async def tell(ls):
            for call, given in ((ls.show_message, ("a", "loud")), (ls.refresh, ("hover",))):
                with self.assertRaises(ValueError):
                    call(*given)
            with self.assertRaises(ValueError):
                await ls.unregister_capability("nobody's")

        self.assertEqual((await self.asked(tell))[:2], ([], []))

    @rows([False, True])
    async def test_registered_by_itself(self, able):
        watchers = {"watchers": [{"globPattern": "**/*.txt"}]}
        server = LanguageServer()
        server.feature("workspace/didChangeWatchedFiles", watchers)(lambda params: None)
        about = {"workspace": {"didChangeWatchedFiles": {"dynamicRegistration": able}}}
        async with editing(server, capabilities=about) as editor:
            with contextlib.suppress(Error):
                await editor.call("nothing")
            await asyncio.sleep(0.01)
        self.assertEqual([method for method, _ in editor.asked], ["client/registerCapability"] * able)
        for _, params in editor.asked:
            self.assertEqual(params["registrations"][0]["registerOptions"], watchers)

    @rows(
        [
            ("off", []),
            ("messages", [{"message": "m"}]),
            ("verbose", [{"message": "m", "verbose": "more"}]),
            ("wrong", [{"message": "m"}]),
        ]
    )
    async def test_trace(self, value, told):
        server = LanguageServer()
        server.command("do")(lambda ls: ls.log_trace("m", "more"))
        with logged() as log:
            async with editing(server, trace="messages") as editor:
                editor.notify("$/setTrace", {"value": value})
                await editor.call("workspace/executeCommand", {"command": "do"})
                self.assertEqual(editor.of("$/logTrace"), told)
        self.assertEqual(len(log.texts), int(value == "wrong"))

    @rows(
        [
            ("one", None, 5),
            ("one", [7], 7),
            ("two", [1], [1, 2]),
            ("two", [], -32602),
            ("all", [1, 2], [1, 2]),
            ("all", None, []),
            ("typed", [3], 3),
            ("typed", ["3"], -32602),
            ("none", [], -32602),
        ]
    )
    async def test_commands(self, name, arguments, result):
        server = LanguageServer()
        server.command("one")(lambda ls, seconds=5: seconds)
        server.command("two")(lambda a, b=2: [a, b])
        server.command("all")(lambda ls, arguments: arguments)

        @server.command("typed")
        async def typed(ls: LanguageServer, count: int):
            return count

        about = {"command": name, **({} if arguments is None else {"arguments": arguments})}
        async with editing(server) as editor:
            try:
                self.assertEqual(await editor.call("workspace/executeCommand", about), result)
            except Error as error:
                self.assertEqual(error.code, result)


class Progress(Case):
    ABLE = {"window": {"workDoneProgress": True}}

    def kinds(self, editor):
        return [it["value"]["kind"] for it in editor.of("$/progress")]

    async def served(self, function, editor, capabilities=None, params=None, thread=False, act=None):
        """What one request that shows progress is answered with."""
        server = LanguageServer()
        server.behind = self.behind = []
        server.feature("my/work", thread=thread)(function)
        async with editing(server, editor, capabilities):
            call = editor.call("my/work", params or {})
            if act is not None:
                await act(editor, call)
            try:
                result = await call
            except Error as error:
                result = error.code
            await asyncio.sleep(0.02)
            return result

    @staticmethod
    async def work(ls, params):
        async with ls.progress("Work", params, message="m", percentage=0, cancellable=True) as progress:
            progress.report("half", 50)
            await asyncio.sleep(params.get("seconds", 0))
        ls.behind.append("behind the block")
        return progress.is_cancelled

    @staticmethod
    def work_in_thread(ls, params):
        with ls.progress("Work", params, cancellable=True) as progress:
            for _ in range(params.get("times", 1)):
                progress.report("on")
                threading.Event().wait(0.005)
        return progress.is_cancelled

    async def test_the_requests_own_token(self):
        editor = Editor()
        self.assertIs(await self.served(self.work, editor, self.ABLE, {"workDoneToken": 7}), False)
        self.assertEqual(editor.asked, [])
        begin = {"kind": "begin", "title": "Work", "message": "m", "percentage": 0, "cancellable": True}
        values = [begin, {"kind": "report", "message": "half", "percentage": 50}, {"kind": "end"}]
        self.assertEqual(editor.of("$/progress"), [{"token": 7, "value": it} for it in values])

    @rows([({}, {}), ({"window_workDoneProgress_create": Error(-32603, "no")}, ABLE)])
    async def test_none(self, replies, able):
        """An editor without progress, and one that refuses a token."""
        for function, thread in ((self.work, False), (self.work_in_thread, True)):
            editor = Editor(**replies)
            self.assertIs(await self.served(function, editor, able, thread=thread), False)
            self.assertEqual(self.kinds(editor), [])

    async def cancel_the_progress(self, editor, call):
        await self.until(lambda: "report" in self.kinds(editor))
        token = editor.of("$/progress")[0]["token"]
        editor.notify("window/workDoneProgress/cancel", {"token": "another"})
        editor.notify("window/workDoneProgress/cancel", {"token": token})

    async def cancel_the_request(self, editor, call):
        await self.until(lambda: "report" in self.kinds(editor))
        editor.notify("$/cancelRequest", {"id": call.key})

    async def test_it_is_cancelled(self):
        editor, cancel = Editor(), self.cancel_the_progress
        self.assertIs(await self.served(self.work, editor, self.ABLE, {"seconds": 60}, act=cancel), True)
        self.assertEqual(self.kinds(editor), ["begin", "report", "end"])
        self.assertEqual(self.behind, ["behind the block"])
        editor, given = Editor(), {"times": 10_000}
        self.assertIs(
            await self.served(self.work_in_thread, editor, self.ABLE, given, True, act=cancel), True
        )
        begin, *_, end = kinds = self.kinds(editor)
        self.assertEqual((begin, end, kinds.count("end")), ("begin", "end", 1))

    @rows([({}, ["begin", "report", "end"]), ({"workDoneToken": "t"}, ["begin", "report"])])
    async def test_its_request_is_cancelled(self, params, kinds):
        """A token that was made is ended; one that came with the request has no meaning behind its answer."""
        editor, given = Editor(), {"seconds": 60, **params}
        code = await self.served(self.work, editor, self.ABLE, given, act=self.cancel_the_request)
        self.assertEqual((code, self.kinds(editor), self.behind), (-32800, kinds, []))

    async def test_a_plain_function_can_not_wait(self):
        def work(ls, params):
            with ls.progress("Work", params):
                return "done"

        with logged():
            self.assertEqual(await self.served(work, Editor(), self.ABLE), -32603)
        editor = Editor()
        self.assertEqual(await self.served(work, editor, self.ABLE, {"workDoneToken": 1}), "done")
        self.assertEqual(self.kinds(editor), ["begin", "end"])

    async def test_of_no_request(self):
        server = LanguageServer()
        done = []

        async def index(ls):
            async with ls.progress("Index", cancellable=True) as progress:
                await asyncio.sleep(60)
            done.append(progress.is_cancelled)

        server.feature("initialized")(lambda ls: done.append(asyncio.ensure_future(index(ls))) and None)
        async with editing(server, capabilities=self.ABLE) as editor:
            await self.until(lambda: self.kinds(editor) == ["begin"])
            token = editor.of("$/progress")[0]["token"]
            editor.notify("window/workDoneProgress/cancel", {"token": token})
            await self.until(lambda: self.kinds(editor) == ["begin", "end"])
            await self.until(lambda: done[1:] == [True])

    @rows([({}, [1]), ({"partialResultToken": "p"}, []), ({"partialResultToken": [1]}, -32602)])
    async def test_partial_results(self, params, result):
        async def find(ls, params):
            async with ls.partial(params) as partial:
                partial.send([1])
            return partial.result

        self.assertEqual(await self.served(find, Editor(), params=params), result)


@dataclasses.dataclass
class Place:
    line: int
    character: int


@dataclasses.dataclass
class HoverParams:
    textDocument: dict
    position: Place


@dataclasses.dataclass
class Hover:
    contents: str
    range: typing.Optional[dict] = None
    version: typing.Optional[int] = 0
    places: typing.List[Place] = dataclasses.field(default_factory=list)


class Outside:
    """A class of another library's, which only a converter knows."""

    def __init__(self, word):
        self.word = word


class Converter:
    """As those of cattrs are."""

    def structure(self, value, kind):
        if kind is not Outside:
            raise TypeError(kind)
        return Outside(value["word"])

    def unstructure(self, value):
        if isinstance(value, Outside):
            return {"word": value.word}
        return [self.unstructure(it) for it in value] if isinstance(value, list) else value


class Types(Case):
    async def test_dataclasses(self):
        server = LanguageServer()

        @server.feature("textDocument/hover")
        def hover(ls, params: HoverParams):
            return params.position

        async with editing(server) as editor:
            self.assertEqual(await editor.call("textDocument/hover", at(1, 2)), {"line": 1, "character": 2})
            self.assertEqual(await code_of(editor.call("textDocument/hover", at("1", 2))), -32602)

    async def test_over_tcp(self):
        """`start_tcp`, in a process of its own, with two editors at once; Ctrl-C ends it."""
        script = (
            "import signal\nimport sys\nfrom bullmyrtle.lsp import LanguageServer\nserver = LanguageServer()\n"
            # (a shell's background processes ignore it)
            "signal.signal(signal.SIGINT, signal.default_int_handler)\n"
            'server.feature("my/text")(lambda ls, params: ls.document(params).text)\n'
            'server.start_tcp("127.0.0.1", int(sys.argv[1]))\n'
        )

        async def edit(text, port):
            streams, end = None, time.monotonic() + SECONDS
            while streams is None:
                self.assertLess(time.monotonic(), end, "nobody listens in time")
                try:
                    streams = await asyncio.open_connection("127.0.0.1", port)
                except ConnectionError:
                    await asyncio.sleep(0.02)
            async with Editor() as editor:
                editor.connect(*streams)
                await editor.begin()
                editor.notify("textDocument/didOpen", opened(text))
                await asyncio.sleep(0.05)
                result = await editor.call("my/text", DOCUMENT)
                await editor.call("shutdown")
                editor.notify("exit")
            return result

        with tempfile.TemporaryDirectory() as room, a_port() as port:
            file = os.path.join(room, "tcp.py")
            with open(file, "w", encoding="utf-8") as it:
                it.write(script)
            process = subprocess.Popen(command(file, str(port)), env=environment())
            try:
                edited = await asyncio.gather(edit("one", port), edit("other", port))
                self.assertEqual(edited, ["one", "other"])
                process.send_signal(signal.SIGINT)
                self.assertEqual(process.wait(SECONDS), 0)
            finally:
                process.kill()
                process.wait()

    async def test_members_that_are_left_out(self):
        """What is None, and by default is None, isn't there: LSP has null in few places."""
        server = LanguageServer()

        @server.feature("textDocument/hover")
        async def hover(ls, params):
            ls.notify("my/told", {"all": [Hover("a"), (Hover("b", {"x": 1}, None),)], "none": None})
            return [Hover("c", places=[Place(1, 2)]), {"deep": {"er": Hover("d")}}, None]

        async with editing(server) as editor:
            c = {"contents": "c", "version": 0, "places": [{"line": 1, "character": 2}]}
            d = {"contents": "d", "version": 0, "places": []}
            self.assertEqual(
                await editor.call("textDocument/hover", at(0, 0)), [c, {"deep": {"er": d}}, None]
            )
            a = {"contents": "a", "version": 0, "places": []}
            b = {"contents": "b", "range": {"x": 1}, "version": None, "places": []}
            self.assertEqual(editor.of("my/told"), [{"all": [a, [b]], "none": None}])

    async def test_a_converter(self):
        server = LanguageServer(converter=Converter())

        @server.feature("my/plain")
        def plain(ls, params: Outside):
            ls.notify("my/told", Outside("told"))
            return [Outside(params.word * 2)]

        @server.feature("my/async")
        async def later(params: Outside, request):
            return Outside(params.word + request.method)

        @server.feature("my/thread", thread=True)
        def threaded(params: Outside):
            return Outside(params.word.upper())

        server.feature("my/json")(lambda params: params)
        async with editing(server) as editor:
            self.assertEqual(await editor.call("my/plain", {"word": "a"}), [{"word": "aa"}])
            self.assertEqual(await editor.call("my/async", {"word": "a"}), {"word": "amy/async"})
            self.assertEqual(await editor.call("my/thread", {"word": "a"}), {"word": "A"})
            self.assertEqual(await editor.call("my/json", {"word": "a"}), {"word": "a"})
            self.assertEqual(await code_of(editor.call("my/plain", {})), -32602)
            self.assertEqual(editor.of("my/told"), [{"word": "told"}])

    async def test_where_the_server_goes(self):
        server = LanguageServer()

        class Mine(LanguageServer):
            pass

        server.feature("a")(lambda ls, params: ls is server and params)
        server.feature("b")(lambda params: params)
        server.feature("c", thread=True)(lambda ls, a, b: [ls is server, a, b])

        @server.feature("d")
        def d(me: Mine, params: typing.Optional[dict], request):
            return [me is server, params, request.method]

        @server.feature("e")
        @server.thread()
        def e(ls):
            return threading.current_thread() is threading.main_thread()

        async with editing(server) as editor:
            self.assertEqual(await editor.call("a", [1]), [1])
            self.assertEqual(await editor.call("b", [1]), [1])
            self.assertEqual(await editor.call("c", {"a": 1, "b": 2}), [True, 1, 2])
            self.assertEqual(await editor.call("d", {}), [True, {}, "d"])
            self.assertIs(await editor.call("e"), False)


class Limits(Case):
    """Time limits (-32803, RequestFailed), middleware, and features in a class."""

    async def test_they_are_kept(self):
        server = LanguageServer()
        ended = []

        @server.feature("textDocument/hover", timeout=0.05)
        async def hover(ls, params):
            try:
                await asyncio.sleep(60)
            finally:
                ended.append("hover")

        # (so long that its thread has begun, which on a busy machine may be late)
        @server.feature("textDocument/definition", thread=True, timeout=patience(1))
        def definition(ls, params):
            try:
                ls.configuration("never")
            except bullmyrtle.Closed:
                ended.append("definition")

        @server.command("wait", timeout=0.05)
        async def wait(ls, seconds):
            await asyncio.sleep(seconds)

        with logged():
            editor = Editor(workspace_configuration=lambda params: asyncio.sleep(60))
            async with editing(server, editor):
                self.assertEqual(await code_of(editor.call("textDocument/hover", at(0, 0))), -32803)
                self.assertEqual(await code_of(editor.call("textDocument/definition", at(0, 0))), -32803)
                about = {"command": "wait", "arguments": [60]}
                self.assertEqual(await code_of(editor.call("workspace/executeCommand", about)), -32803)
                await self.until(lambda: ended == ["hover", "definition"])

    async def test_middleware(self):
        """It is around whatever comes, also at a wrong time."""
        server = LanguageServer()
        seen = []

        @server.middleware
        def watch(request, params):
            if request.method == "textDocument/definition":
                raise Error(-32001, "forbidden")
            try:
                yield
                seen.append(request.method)
            except Error as error:
                seen.append((request.method, error.code))
                raise

        server.feature("textDocument/hover")(lambda ls, params: ls.document(params).text)
        server.feature("textDocument/definition")(lambda params: None)
        async with joined(server, Editor()) as editor:
            self.assertEqual(await code_of(editor.call("textDocument/hover", DOCUMENT)), -32002)
            await editor.begin()
            editor.notify("textDocument/didOpen", opened("text"))
            self.assertEqual(await editor.call("textDocument/hover", at(0, 0)), "text")
            self.assertEqual(await code_of(editor.call("textDocument/definition", DOCUMENT)), -32001)
        names = ["initialize", "initialized", "textDocument/didOpen", "textDocument/hover"]
        self.assertEqual(seen, [("textDocument/hover", -32002), *names])

    async def test_features_in_a_class(self):
        class Words:
            @bullmyrtle.method("textDocument/hover")
            def hover(self, ls, params):
                return ls.document(params).text

            @bullmyrtle.method("words/sum", timeout=patience(5))
            async def sum(self, a: int, b: int):
                return a + b

        server = LanguageServer()
        server.register(Words())
        async with joined(server, Editor()) as editor:
            self.assertIs((await editor.begin())["hoverProvider"], True)
            editor.notify("textDocument/didOpen", opened("text"))
            self.assertEqual(await editor.call("textDocument/hover", at(0, 0)), "text")
            self.assertEqual(await editor.call("words/sum", {"a": 1, "b": 2}), 3)
