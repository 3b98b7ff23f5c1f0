"""All rules by which a conversation is judged: their names, how bad it is to break them, and where they stand."""
from __future__ import annotations

from typing import Dict, Mapping, NamedTuple, Tuple

from ._versions import MCP

MUST, SHOULD, NOTE = LEVELS = ("must", "should", "note")


class Rule(NamedTuple):
    """A rule of JSON-RPC's, of how messages are framed and cancelled, or of a session's life."""

    name: str
    section: str  #: where it stands
    what: str  #: what breaks it
    #: How bad it is to break it, by "lsp" and the versions of MCP that have it, where this package judges it and not
    #: the library.
    levels: Mapping[str, str] = {}


#: The rules that the library judges, in its order, which is that of docs/judge.md.
PROVED: Tuple[Rule, ...] = (
    Rule(
        "head",
        "LSP, Base Protocol",
        "a header line that isn't one, a length that is no number, two lengths, or none",
    ),
    Rule("not-json", "JSON-RPC 4; RFC 8259; MCP, stdio", "a content that isn't JSON in UTF-8"),
    Rule("charset", "LSP, Base Protocol", "a Content-Type that names another charset than UTF-8"),
    Rule("cut-off", "LSP, Base Protocol; MCP, stdio", "the end came inside a message"),
    Rule("line-end", "MCP, stdio", "the last line has no line feed"),
    Rule("object", "JSON-RPC 4", "a message that is no object"),
    Rule("version", "JSON-RPC 4, 5", 'jsonrpc isn\'t "2.0"'),
    Rule("method", "JSON-RPC 4", "a method that is no string"),
    Rule("params", "JSON-RPC 4.2", "params that are neither an array nor an object"),
    Rule("id", "JSON-RPC 4, 5", "an id that is no string, number or null, or an answer without one"),
    Rule("outcome", "JSON-RPC 4, 5", "neither a method nor a result nor an error, or result and error both"),
    Rule("error", "JSON-RPC 5.1", "an error without a whole code or a message"),
    Rule("empty-array", "JSON-RPC 6", "an empty array"),
    Rule("batch", "LSP has no word on them; MCP 2025-06-18, changes", "a batch where the protocol has none"),
    Rule("not-owed", "JSON-RPC 4.1, 5", "an answer to what nobody asked, or what is answered already"),
    Rule("not-as-array", "JSON-RPC 6", "the answers of a batch aren't its array"),
    Rule(
        "id-fraction",
        "JSON-RPC 4; LSP, Request Message; MCP, messages",
        "a request's id that is a number and isn't whole",
    ),
    Rule("id-null", "JSON-RPC 4; LSP, Request Message; MCP, messages", "a request's id that is null"),
    Rule("id-form", "JSON-RPC 4", "a request's id with a fraction or exponent, or beyond 64 bits"),
    Rule("id-again", "JSON-RPC 6; MCP, messages", "a request with an id that is in use"),
    Rule("rpc-name", "JSON-RPC 4", "a method whose name begins with rpc."),
    Rule("code", "JSON-RPC 5.1; LSP, ErrorCodes", "an error code that is reserved and not defined"),
    Rule("cancelled-code", "LSP, Cancellation Support", "-32800 for a request that nobody cancelled"),
    Rule(
        "cancel-params",
        "LSP, Cancellation Support; MCP, cancellation",
        "a cancel whose params aren't a cancel's",
    ),
    Rule(
        "cancel-unknown",
        "LSP, Cancellation Support; MCP, cancellation",
        "a cancel of an id that was never used",
    ),
    Rule("cancel-initialize", "MCP, cancellation", "a cancel of initialize"),
    Rule("after-cancel", "MCP, cancellation", "an answer to a request after its cancel"),
    Rule("unanswered", "JSON-RPC 5; LSP, Cancellation Support", "a request without an answer at the end"),
    Rule("not-judged", "docs/judge.md, What isn't judged", "this can't be judged"),
    Rule("both-kinds", "JSON-RPC 4, 5", "a method and an id, and a result or an error too"),
    Rule("twice", "JSON-RPC 4, 5; RFC 8259, 4", "a member of a message stands twice"),
    Rule("params-object", "MCP, messages", "params that are an array"),
    Rule("result-object", "MCP, messages", "a result that is no object"),
)

_LSP = {"lsp": MUST}
_MCP = dict.fromkeys(MCP, MUST)
_BOTH = {**_LSP, **_MCP}
# The versions in which both sides must use nothing but what was agreed on; before, they should.
_BOUND = "2025-06-18"


def _each(lsp: str, mcp: str) -> Dict[str, str]:
    return {"lsp": lsp, **dict.fromkeys(MCP, mcp)}


def _since(version: str, level: str = MUST, before: str = "") -> Dict[str, str]:
    """The levels of a rule that came with a version of MCP, or was another one before."""
    return {it: level if it >= version else before for it in MCP if it >= version or before}


#: The rules of a session's life, whose page is docs/judge.md.
LIFE: Tuple[Rule, ...] = (
    Rule(
        "initialize-first",
        "LSP, Initialize Request; MCP, lifecycle",
        "the client's first message isn't initialize",
        _BOTH,
    ),
    Rule(
        "initialize-once", "LSP, Initialize Request; MCP, lifecycle", "a second initialize", _each(MUST, NOTE)
    ),
    Rule(
        "initialize-params",
        "LSP, Initialize Request; MCP, lifecycle",
        "initialize lacks what its params must have",
        _BOTH,
    ),
    Rule(
        "initialize-result",
        "LSP, Initialize Request; MCP, lifecycle",
        "the answer of initialize lacks what it must have",
        _BOTH,
    ),
    Rule("initialize-in-batch", "MCP 2025-03-26, lifecycle", "initialize in a batch", {"2025-03-26": MUST}),
    Rule(
        "initialize-wait",
        "LSP, Initialize Request; MCP, lifecycle",
        "the client goes on before initialize is answered",
        _each(MUST, SHOULD),
    ),
    Rule(
        "initialized-missing",
        "LSP, Initialized Notification; MCP, lifecycle",
        "the client goes on without the notification that it is initialized",
        _each(SHOULD, SHOULD),
    ),
    Rule("initialized-once", "LSP, Initialized Notification", "a second initialized", _LSP),
    Rule(
        "too-early",
        "LSP, Initialize Request; MCP, lifecycle",
        "the server sends what it may not send yet",
        _each(MUST, SHOULD),
    ),
    Rule(
        "other-version",
        "MCP, lifecycle",
        "the sides agreed on another version than that of the rules",
        dict.fromkeys(MCP, NOTE),
    ),
    Rule(
        "not-initialized",
        "LSP, Initialize Request",
        "a request before initialize has another answer than the error -32002",
        {"lsp": SHOULD},
    ),
    Rule("after-shutdown", "LSP, Shutdown Request", "the client goes on after shutdown", _LSP),
    Rule(
        "shutdown-code",
        "LSP, Shutdown Request",
        "a request after shutdown has another answer than the error -32600",
        {"lsp": SHOULD},
    ),
    Rule("exit-wait", "LSP, Shutdown Request", "exit before the answer of shutdown", {"lsp": SHOULD}),
    Rule(
        "open-at-end",
        "JSON-RPC 5; LSP, Shutdown Request; MCP, lifecycle",
        "a request that is open when the session ends",
        _each(NOTE, NOTE),
    ),
    Rule(
        "progress-params",
        "LSP, Progress Support; MCP, progress",
        "a progress without a token or without a value",
        _BOTH,
    ),
    Rule(
        "progress-token",
        "LSP, Work Done Progress; MCP, progress",
        "a progress for a token that nobody gave",
        _BOTH,
    ),
    Rule(
        "progress-late",
        "LSP, Work Done Progress; MCP, progress",
        "a progress for a request that is answered",
        _BOTH,
    ),
    Rule(
        "progress-order",
        "LSP, Work Done Progress",
        "a progress that doesn't begin once, report, and end once",
        {"lsp": SHOULD},
    ),
    Rule("progress-rises", "MCP, progress", "a progress that isn't greater than before", _MCP),
    Rule("token-again", "MCP, progress", "a token of another request that is open", _MCP),
    Rule(
        "progress-create",
        "LSP, Work Done Progress",
        "window/workDoneProgress/create for a client that doesn't know it",
        _LSP,
    ),
    Rule("open-again", "LSP, DidOpenTextDocument", "a document is opened that is open", _LSP),
    Rule(
        "not-open",
        "LSP, DidChangeTextDocument, DidCloseTextDocument",
        "a document is changed or closed that isn't open",
        _LSP,
    ),
    Rule("version-rises", "LSP, VersionedTextDocumentIdentifier", "a document's version doesn't rise", _LSP),
    Rule(
        "capability",
        "MCP, lifecycle, Operation",
        "what is used wasn't declared when the session began",
        _since(_BOUND, MUST, SHOULD),
    ),
    Rule("ping-result", "MCP, ping", "a ping has another answer than an empty object", _MCP),
    Rule(
        "later-version",
        "MCP, lifecycle, Operation",
        "a method that came with a later version",
        {it: MUST if it >= _BOUND else SHOULD for it in MCP[:-1]},
    ),
    Rule(
        "tool-output",
        "MCP, tools, Output Schema",
        "the result of a tool with an output schema has no structured content",
        _since("2025-06-18"),
    ),
    Rule(
        "tool-error",
        "MCP, tools, Error Handling",
        "a listed tool's call is answered by the error -32602",
        _since("2025-11-25", SHOULD),
    ),
    Rule(
        "tool-name",
        "MCP, tools, Tool Names",
        "a tool's name isn't 1 to 128 letters, digits, _, - and .",
        _since("2025-11-25", SHOULD),
    ),
    Rule(
        "elicitation-mode",
        "MCP, elicitation, Capabilities",
        "a mode of elicitation that the client didn't declare",
        _since("2025-11-25"),
    ),
    Rule(
        "elicitation-needed",
        "MCP, elicitation, URL Elicitation Required",
        "the error -32042 without the pages that are needed",
        _since("2025-11-25"),
    ),
    Rule(
        "elicitation-complete",
        "MCP, elicitation, Completion Notifications",
        "a completion of an elicitation that there wasn't",
        _since("2025-11-25"),
    ),
    Rule(
        "sampling-tools",
        "MCP, sampling, Capabilities",
        "tools for a client that didn't declare them",
        _since("2025-11-25"),
    ),
    Rule(
        "sampling-context",
        "MCP, sampling, Capabilities",
        "the context of servers for a client that didn't declare it",
        _since("2025-11-25", SHOULD),
    ),
    Rule(
        "sampling-results",
        "MCP, sampling, Message Content Constraints",
        "uses of tools aren't followed by their results alone",
        _since("2025-11-25"),
    ),
    Rule(
        "task-support",
        "MCP, tasks, Tool-Level Negotiation",
        "a listed tool is called as a task or without one, and may not be",
        _since("2025-11-25"),
    ),
    Rule(
        "task-result",
        "MCP, tasks, Creating Tasks",
        "a request with a task is answered without one",
        _since("2025-11-25"),
    ),
    Rule(
        "task-begins",
        "MCP, tasks, Task Status Lifecycle",
        "a new task has another status than working",
        _since("2025-11-25"),
    ),
    Rule(
        "task-over",
        "MCP, tasks, Task Status Lifecycle",
        "a task that was over has another status",
        _since("2025-11-25", NOTE),
    ),
    Rule(
        "task-related",
        "MCP, tasks, Associating Task-Related Messages",
        "the result of tasks/result, or a progress, doesn't name its task",
        _since("2025-11-25"),
    ),
    Rule(
        "cancel-task",
        "MCP, cancellation; MCP, tasks, Task Cancellation",
        "a cancel of a request that is to be a task",
        _since("2025-11-25"),
    ),
)

#: The rules of the shapes of params and results, by the types of the protocols. Each fault has a level of its own, and
#: these are the worst ones.
SHAPES: Tuple[Rule, ...] = (
    Rule(
        "shape-params",
        "LSP, the method's section; MCP, schema",
        "params that aren't the method's",
        _each(MUST, NOTE),
    ),
    Rule(
        "shape-result",
        "LSP, the method's section; MCP, schema",
        "a result that isn't the method's",
        _each(MUST, NOTE),
    ),
    Rule(
        "shape-value",
        "LSP, Basic JSON Structures; MCP, schema",
        "a value that its type doesn't have",
        _each(MUST, NOTE),
    ),
)

#: All rules by their names.
RULES: Dict[str, Rule] = {it.name: it for it in (*PROVED, *LIFE, *SHAPES)}

#: The rules that a message breaks which can't be read.
UNREADABLE = frozenset({"not-json", "charset", "cut-off", "head", "not-judged"})

# What the places of the other protocol begin with.
_OTHERS = {"lsp": "MCP", "mcp": "LSP"}


def section_of(name: str, rules: str) -> str:
    """Where a rule stands, without the other protocol's pages."""
    places = RULES[name].section.split("; ")
    other = _OTHERS.get(rules.partition(":")[0], "-")
    return "; ".join([it for it in places if not it.startswith(other)] or places)
