"""What a language server refuses where it is written: names and options of features, and names of methods."""

from helping import Case, rows

from bullmyrtle.lsp import LanguageServer

# A name, and what is said of it.
NAMES = [
    ("textDocument/hovr", "did you mean textDocument/hover?"),
    ("textDocument/Hover", "did you mean textDocument/hover?"),
    ("textdocument/hover", "did you mean textDocument/hover?"),
    ("textDocument/hover ", "did you mean textDocument/hover?"),
    ("textDocument/semanticTokens", "no method 'textDocument/semanticTokens'"),
    ("completionItem/resolv", "did you mean completionItem/resolve?"),
    ("workspace/didChangeConfig", "did you mean workspace/didChangeConfiguration?"),
    ("$/setTrce", "did you mean $/setTrace?"),
    ("textDocument/", "no method 'textDocument/'"),
    (
        "textDocument/qqq",
        "no method 'textDocument/qqq'. One that isn't LSP's is registered by @server.method",
    ),
]
# What a client answers, or a server sends.
OF_CLIENTS = [
    "window/showMessage",
    "window/showMessageRequest",
    "textDocument/publishDiagnostics",
    "client/registerCapability",
    "workspace/applyEdit",
    "workspace/configuration",
    "workspace/diagnostic/refresh",
    "workspace/semanticTokens/refresh",
    "telemetry/event",
    "$/logTrace",
]
# What is registered as before.
TAKEN = [
    "textDocument/hover",
    "textDocument/semanticTokens/full/delta",
    "notebookDocument/didOpen",
    "$/progress",
    "initialized",
    "my/text",
    "rust-analyzer/analyzerStatus",
    "hover",
    "textDocument",
]
# A method, its options, and what is said of them.
OPTIONS = [
    (
        "textDocument/completion",
        {"trigger_characters": ["."]},
        "the option is triggerCharacters, not trigger_characters",
    ),
    (
        "textDocument/completion",
        {"TriggerCharacters": ["."]},
        "the option is triggerCharacters, not TriggerCharacters",
    ),
    ("textDocument/completion", {"triggerCharacter": ["."]}, "did you mean triggerCharacters?"),
    ("textDocument/completion", {"qqq": 1}, "it has allCommitCharacters, completionItem, documentSelector, "),
    ("textDocument/hover", {"triggerCharacters": ["."]}, "it has documentSelector, workDoneProgress"),
    (
        "textDocument/rename",
        {"prepare_provider": True},
        "the option is prepareProvider, not prepare_provider",
    ),
    ("workspace/didCreateFiles", {"filters": [], "glob": "*"}, "it has filters"),
    ("initialize", {"x": 1}, "it has none"),
    ("textDocument/hover", [], "its options are an object, got list"),
    ("textDocument/hover", {1: 2}, "no option '1'"),
]
GOOD_OPTIONS = [
    (
        "textDocument/completion",
        {"triggerCharacters": ["."], "resolveProvider": True, "workDoneProgress": True},
    ),
    ("textDocument/codeAction", {"codeActionKinds": ["quickfix"], "documentSelector": None}),
    ("textDocument/semanticTokens/full", {"legend": {"tokenTypes": [], "tokenModifiers": []}, "range": True}),
    ("textDocument/inlayHint", {"resolveProvider": True, "id": "x"}),
    ("textDocument/didSave", {"includeText": True}),
    ("workspace/didChangeWatchedFiles", {"watchers": []}),
    ("my/text", {"anything": 1}),
]


def nothing(params):
    return None


class Registering(Case):
    @rows(NAMES)
    def test_names_that_are_no_method(self, name, words):
        with self.assertRaises(ValueError) as caught:
            LanguageServer().feature(name)
        self.assertIn(words, str(caught.exception))

    @rows(OF_CLIENTS)
    def test_features_that_only_clients_have(self, name):
        with self.assertRaises(ValueError) as caught:
            LanguageServer().feature(name)
        self.assertIn(f"{name} is a method of clients", str(caught.exception))

    @rows(TAKEN)
    def test_names_that_are_taken(self, name):
        LanguageServer().feature(name)(nothing)

    @rows(OPTIONS)
    def test_options_that_there_are_not(self, name, options, words):
        with self.assertRaises(TypeError) as caught:
            LanguageServer().feature(name, options)
        self.assertIn(name, str(caught.exception))
        self.assertIn(words, str(caught.exception))

    @rows(GOOD_OPTIONS)
    def test_options_that_there_are(self, name, options):
        LanguageServer().feature(name, options)(nothing)

    def test_nothing_is_registered_by_what_is_refused(self):
        server = LanguageServer()
        for name in ("textDocument/hovr", "window/showMessage"):
            with self.assertRaises(ValueError):
                server.feature(name)(nothing)
        with self.assertRaises(TypeError):
            server.feature("textDocument/hover", {"x": 1})(nothing)
        server.feature("textDocument/hover")(nothing)
        self.assertEqual(list(server._features), ["textDocument/hover"])

    def test_a_decorator_without_parentheses(self):
        server = LanguageServer()
        with self.assertRaises(TypeError) as caught:
            server.feature(nothing)
        self.assertIn('write @server.feature("textDocument/hover")', str(caught.exception))
        with self.assertRaises(TypeError) as caught:
            server.command(nothing)
        self.assertIn('write @server.command("name")', str(caught.exception))
        self.assertIs(server.method(nothing), nothing)

    def test_a_method_of_lsp_that_is_no_feature(self):
        def shutdown():
            """A method whose name LSP has."""

        server = LanguageServer()
        ways = [
            lambda: server.method("textDocument/hover")(nothing),
            lambda: server.method("window/showMessage")(nothing),
            lambda: server.method(shutdown),
            lambda: server.method()(shutdown),
        ]
        for way in ways:
            with self.assertRaises(ValueError) as caught:
                way()
            self.assertIn("write @server.feature(", str(caught.exception))
        server.method("textDocument/inlineCompletion")(nothing)
        server.method("textDocument/hovr")(nothing)

    def test_marks_of_a_class(self):
        import bullmyrtle

        class Wrong:
            @bullmyrtle.method("textDocument/hovr")
            def hover(self, params):
                """A feature by a name that LSP hasn't."""

        with self.assertRaises(ValueError):
            LanguageServer().register(Wrong())
