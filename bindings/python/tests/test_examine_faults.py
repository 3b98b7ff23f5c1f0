"""Servers and clients that are wrong in one thing are found, each by the case that is meant for it; right ones aren't."""
import os
import sys
from concurrent.futures import ThreadPoolExecutor

from helping import HERE, Case, patience, rows

from bullmyrtle.examine._reading import chosen, read_all
from bullmyrtle.examine._runner import Runner
from bullmyrtle.examine._session import Plan
from bullmyrtle.examine._targets import Client, Command
from bullmyrtle.judge._rules import LEVELS

PEER = os.path.join(HERE, "faulty_peer.py")
CASES = read_all()

# The rules, the fault, the case that finds it, and how bad that is.
SERVERS = [
    ("jsonrpc", "id-as-string", "a session begins", "must"),
    ("jsonrpc", "id-as-number", 'the id "007", a string of digits', "must"),
    ("jsonrpc", "id-empty-is-null", "the id that is the empty string", "must"),
    ("jsonrpc", "id-is-float", "the id 2^53 + 1", "must"),
    ("jsonrpc", "id-of-32-bits", "the id 2^32", "must"),
    ("jsonrpc", "id-ends-at-nul", "the id with the character U+0000", "must"),
    ("jsonrpc", "id-is-cut", "the id of 10,000 characters", "must"),
    ("jsonrpc", "id-loses-pairs", "the id in UTF-8 of two and four bytes", "must"),
    ("jsonrpc", "id-negative-ends", "the id -3", "must"),
    ("jsonrpc", "zero-is-no-id", "the id 0", "must"),
    ("jsonrpc", "echoes-any-id", "the id true", "must"),
    ("mcp", "unknown-is-ignored", "an unknown request with params {}", "must"),
    ("mcp", "unknown-is-null", "an unknown request with params {}", "must"),
    ("jsonrpc", "unknown-is-internal", "an unknown request with params []", "must"),
    ("jsonrpc", "answers-twice", "an unknown request with params {}", "must"),
    ("mcp", "needs-params", "an unknown request with no params", "must"),
    ("jsonrpc", "empty-method-ends", "an unknown request whose method is empty", "must"),
    ("jsonrpc", "version-is-first", "an unknown request whose version is its last member", "must"),
    ("jsonrpc", "notifications-are-answered", "an unknown notification with params {}", "must"),
    ("jsonrpc", "loses-some", "500 unknown requests at once", "must"),
    ("jsonrpc", "params-are-trusted", "params that are 5", "must"),
    ("jsonrpc", "version-ends", 'the version "1.0"', "must"),
    ("jsonrpc", "method-is-silent", "a method that is 5", "should"),
    ("jsonrpc", "no-json-ends", "a content that is cut off", "must"),
    ("jsonrpc", "no-json-is-silent", "a content that is a word", "should"),
    ("jsonrpc", "no-json-is-invalid", "a content that is in single quotes", "should"),
    ("jsonrpc", "reads-latin-1", "a content that is an object with the bytes ff fe", "should"),
    ("jsonrpc", "scalar-ends", "a content that is 5", "must"),
    ("jsonrpc", "deep-ends", "params that are 100,000 deep", "must"),
    ("jsonrpc", "deep-is-silent", "params that are 100,000 deep", "should"),
    ("jsonrpc", "big-is-dropped", "a message of 4 MB", "must"),
    ("jsonrpc", "reads-once", "a message in pieces of one byte", "must"),
    ("jsonrpc", "answers-responses", "a response that nobody asked for: a result", "must"),
    ("jsonrpc", "error-null-ends", "a response that nobody asked for: an error with the id null", "must"),
    ("jsonrpc", "broken-response-ends", "a broken response: with a result and an error", "must"),
    ("jsonrpc", "batch-ends", "a batch of two requests", "must"),
    ("jsonrpc", "batch-one-by-one", "a batch of two requests", "must"),
    ("jsonrpc", "empty-batch-is-silent", "the empty batch", "should"),
    ("jsonrpc", "batch-of-nothing", "a batch of two notifications", "must"),
    ("jsonrpc", "header-by-case", "a header content-length in small letters", "must"),
    ("jsonrpc", "header-needs-blank", "a header without a blank behind the colon", "must"),
    ("jsonrpc", "length-is-first", "a header with Content-Type first", "must"),
    ("jsonrpc", "unknown-field-ends", "a header with an unknown field first", "must"),
    ("jsonrpc", "broken-header-hangs", "a header that is broken: no length", "should"),
    ("lsp", "begins-without-initialize", "before initialize: a request", "should"),
    ("lsp", "early-ends", "before initialize: a notification", "must"),
    ("lsp", "initialize-params-ends", "initialize with params []", "must"),
    ("lsp", "initialize-again", "a second initialize", "should"),
    ("lsp", "exit-is-1", "exit after shutdown", "must"),
    ("lsp", "exit-is-0", "exit without shutdown", "should"),
    ("lsp", "shut-and-open", "after shutdown: an unknown request", "should"),
    ("lsp", "stays-at-the-end", "the input ends", "should"),
    ("lsp", "change-needs-open", "the notification didChange of a document that isn't open", "must"),
    ("lsp", "version-must-rise", "a document that is changed to a version that falls", "must"),
    ("lsp", "range-is-trusted", "a document that is changed behind its last line", "must"),
    ("lsp", "cancel-is-answered", "a cancel of an id that nobody used", "must"),
    ("lsp", "params-are-internal", "hover with params []", "should"),
    ("lsp", "needs-open", "hover of a document that isn't open", "must"),
    ("lsp", "position-ends", "hover in an open document, at the greatest position", "must"),
    ("lsp", "register-error-ends", "client/registerCapability is answered by the error -32601", "must"),
    ("lsp", "register-both-ends", "client/registerCapability is answered by a result and an error", "must"),
    ("lsp", "register-again-ends", "client/registerCapability is answered again, behind a request", "must"),
    ("lsp", "register-late-ends", "client/registerCapability is answered late, behind a request", "must"),
    ("lsp", "configuration-null-ends", "workspace/configuration is answered by the result null", "must"),
    ("lsp", "configuration-again-ends", "workspace/configuration is answered twice", "must"),
    ("lsp", "refused-progress", "window/workDoneProgress/create is answered by an error", "must"),
    ("mcp", "roots-error-ends", "roots/list is answered by the error -32601", "must"),
    ("mcp", "roots-again-ends", "roots/list is answered twice", "must"),
    ("mcp", "any-version", "initialize with the version 2999-01-01", "must"),
    ("mcp", "no-server-info", "a session begins", "must"),
    ("mcp", "prints-a-banner", "a session begins", "must"),
    ("mcp", "ping-is-null", "a ping", "must"),
    ("mcp", "any-tool", "a call of a tool that isn't there", "should"),
    ("mcp", "any-cursor", "tools/list with a cursor that nobody gave", "should"),
    ("mcp", "any-arguments", "a call of a tool that is there, with arguments that are a string", "should"),
    ("mcp", "arguments-end", "a call of a tool that is there, with arguments that are null", "must"),
    ("mcp", "keeps-cr", "a line that ends with CR LF", "must"),
    ("mcp", "empty-line-ends", "an empty line", "must"),
    # (a rule of the judge's, of the newest version)
    (
        "mcp",
        "arguments-are-refused",
        "a call of a tool that is there, with the arguments {}, of which it needs some",
        "should",
    ),
    ("mcp", "any-task", "tasks/get of a task that isn't there", "must"),
    ("mcp", "any-task", "tasks/list with a cursor that nobody gave", "should"),
    ("mcp", "no-id-ends", "an error without an id", "must"),
    ("mcp", "answers-responses", "an error without an id", "note"),
    ("mcp:2025-06-18", "later-methods", "the later request tasks/get", "note"),
    ("mcp:2025-06-18", "batch-ends", "a batch of two requests", "must"),
]
CLIENTS = [
    ("lsp", "id-as-string", "a session begins", "must"),
    ("lsp", "id-is-float", "the id 2^53 + 1", "must"),
    ("lsp", "id-negative-ends", "the id -3", "must"),
    ("lsp", "unknown-is-null", "an unknown request with params {}", "must"),
    ("mcp", "unknown-is-ignored", "an unknown request with params {}", "must"),
    ("lsp", "notifications-are-answered", "an unknown notification with no params", "must"),
    ("lsp", "answers-twice", "an unknown request with params {}", "must"),
    ("lsp", "no-json-ends", "a content that is cut off", "must"),
    ("lsp", "scalar-ends", "a content that is 5", "must"),
    ("lsp", "batch-ends", "a batch of two requests", "must"),
    ("lsp", "deep-ends", "params that are 100,000 deep", "must"),
    ("lsp", "big-is-dropped", "a message of 4 MB", "must"),
    ("lsp", "header-by-case", "a header CONTENT-LENGTH in capitals", "must"),
    ("lsp", "length-is-first", "a header with Content-Type first", "must"),
    ("lsp", "answers-responses", "a response that nobody asked for: a result", "must"),
    ("lsp", "error-null-ends", "a response that nobody asked for: an error with the id null", "must"),
    ("lsp", "bad-initialize-hangs", "initialize is answered by the result null", "should"),
    ("lsp", "initialize-twice-ends", "initialize is answered twice", "must"),
    ("lsp", "initialize-again-ends", "initialize is answered again, behind a request", "must"),
    ("lsp", "early-is-ignored", "client/registerCapability before the response of initialize", "should"),
    (
        "lsp",
        "ends-at client/unregisterCapability",
        "a feature that is registered, registered again, and unregistered",
        "must",
    ),
    ("mcp", "tools-again-ends", "tools/list is answered late, and again", "must"),
    ("lsp", "client-without-capabilities", "a session begins", "must"),
    ("lsp", "asks-too-much", "a session begins", "must"),
    ("lsp", "ends-at client/registerCapability", "the request client/registerCapability of nothing", "must"),
    ("lsp", "ignores workspace/applyEdit", "the request workspace/applyEdit of nothing", "must"),
    ("lsp", "ends-at window/logMessage", "the notification window/logMessage without params", "must"),
    (
        "lsp",
        "ends-at textDocument/publishDiagnostics",
        "the notification publishDiagnostics at a line of -1",
        "must",
    ),
    ("lsp", "ends-at $/progress", "the notification $/progress of an unknown token", "must"),
    ("mcp", "ping-is-null", "a ping", "must"),
    ("mcp", "any-version", "initialize is answered by the version 2999-01-01", "should"),
    ("mcp", "ends-at notifications/message", "the notification notifications/message", "must"),
    ("mcp", "ignores sampling/createMessage", "the request sampling/createMessage without messages", "must"),
    ("mcp", "keeps-cr", "a line that ends with CR LF", "must"),
    ("mcp", "ignores tasks/list", "the request tasks/list", "must"),
    (
        "mcp",
        "ends-at notifications/elicitation/complete",
        "the notification notifications/elicitation/complete of nobody",
        "must",
    ),
]


def runner_of(side, rules, fault="-", seconds=patience(5.0), jobs=1):
    """What tries cases on the peer with a fault."""
    words = [sys.executable, "-S", "-E", PEER, side, rules, fault]
    framing = "lines" if rules.startswith("mcp") else "frames"
    target = Command(words) if side == "server" else Client([*words, "{}"])
    return Runner(target, Plan(rules, framing, side, seconds), jobs), framing


class Faults(Case):
    def found_by(self, side, rules, fault, name):
        """What the case of this name says of the peer with this fault."""
        runner, framing = runner_of(side, rules, fault)
        (case,) = [it for it in chosen(CASES, rules, side, framing) if it.name == name]
        return runner.alone(case)

    def check(self, side, rows):
        missed = []
        with ThreadPoolExecutor(8) as pool:  # (they wait more than they work)
            verdicts = list(pool.map(lambda row: self.found_by(side, *row[:3]), rows))
        for (_, fault, name, level), verdict in zip(rows, verdicts):
            if verdict.level != level:
                missed.append(f"{fault} by {name!r}: {verdict.level} and not {level}: {verdict.words}")
        self.assertEqual([], missed)

    def check_without(self, side, rows):
        """The same cases find nothing in the peer that is right."""
        for rules in {its for its, *_ in rows}:
            runner, framing = runner_of(side, rules, seconds=patience(5.0))
            names = {name for its, _, name, _ in rows if its == rules}
            cases = [it for it in chosen(CASES, rules, side, framing) if it.name in names]
            bad = [it for it in runner.verdicts(cases) if it.level in LEVELS]
            self.assertEqual([], [f"{it.case.name}: {it.words}" for it in bad])

    def test_servers(self):
        self.check("server", SERVERS)

    def test_clients(self):
        self.check("client", CLIENTS)

    def test_right_servers(self):
        self.check_without("server", SERVERS)

    def test_right_clients(self):
        self.check_without("client", CLIENTS)

    @rows([("server", "tasks/get without a task", "a ping"), ("client", "the request tasks/list", "a ping")])
    def test_an_older_version_is_agreed_on(self, side, of_newest, of_all):
        """Then nothing is tried that only a later one has."""
        newest, older = self.found_by(side, "mcp", "older", of_newest), self.found_by(
            side, "mcp", "older", of_all
        )
        self.assertEqual((newest.level, newest.words), ("not tried", "it agreed on 2025-06-18"))
        self.assertEqual((older.level, older.words), ("ok", ""))

    def test_a_server_that_wants_initialized(self):
        """It may end at a request that comes before that."""
        runner, framing = runner_of("server", "lsp", "wants-initialized", jobs=4)
        cases = chosen(CASES, "lsp", "server", framing, "initialize with")
        bad = [it for it in runner.verdicts(cases) if it.level in LEVELS]
        self.assertGreater(len(cases), 6)
        self.assertEqual([], [f"{it.case.name}: {it.words}" for it in bad])

    def test_there_are_enough(self):
        self.assertGreaterEqual(len({it[:2] for it in SERVERS}), 50)
        self.assertGreaterEqual(len({it[:2] for it in CLIENTS}), 25)
        least = {
            ("lsp", "server"): 110,
            ("mcp", "server"): 80,
            ("jsonrpc", "server"): 60,
            ("lsp", "client"): 50,
        }
        for (rules, side), count in least.items():
            framing = "lines" if rules == "mcp" else "frames"
            self.assertGreaterEqual(len(chosen(CASES, rules, side, framing)), count)
