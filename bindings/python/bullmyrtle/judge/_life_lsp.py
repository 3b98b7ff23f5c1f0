"""The life of a session of the Language Server Protocol 3.17."""
from __future__ import annotations

from typing import Any, Dict
from urllib.parse import unquote

from ._life import OTHER, Asked, Key, Life, Tokens, is_object, is_whole, key_of, member
from ._rules import SHOULD
from ._streams import ABSENT, Entry

_CANCEL, _PROGRESS, _CREATE = "$/cancelRequest", "$/progress", "window/workDoneProgress/create"
_NOT_INITIALIZED, _INVALID_REQUEST, _CANCELLED = -32002, -32600, -32800
# What a server may send before it has answered initialize.
_EARLY = ("window/showMessage", "window/logMessage", "window/showMessageRequest", "telemetry/event")


class Lsp(Life):
    """Initialize, initialized, shutdown and exit; progress; documents that are open."""

    def __init__(self, rules: str) -> None:
        super().__init__(rules)
        self._initialize = self._shutdown = ""  # "", "asked" or "answered"
        self._is_initialized = False
        self._may_create = True  # as long as the client's capabilities aren't known
        self._tokens = {"client": Tokens(), "server": Tokens()}  # by the side that tells progress
        self._first: Dict[Key, bool] = {}  # the tokens of initialize
        self._documents: Dict[str, Any] = {}  # the versions of those that are open
        self._has_notebooks = False

    @property
    def is_over(self) -> bool:
        return self._shutdown == "answered"

    # Messages

    def request(self, asked: Asked, params: Any, is_in_array: bool) -> None:
        if asked.side == "client":
            asked.due = self._client_asks(asked.method, params)
        else:
            self._server_says(asked.method, params)
            if asked.method == _CREATE:
                self._create(asked, params)
        self._give_tokens(asked, params)

    def notification(self, side: str, method: str, params: Any) -> None:
        if side == "client":
            self._client_says(method, is_request=False)
            self._client_tells(method, params)
        else:
            self._server_says(method, params)
        if method == _PROGRESS:
            self._progress(side, params)

    def answer(self, asked: Asked, entry: Entry) -> None:
        by, is_refused = OTHER[asked.side], entry.error is not ABSENT
        if asked.side == "client" and asked.method == "initialize" and self._initialize == "asked":
            self._initialize = "" if is_refused else "answered"
            if not is_refused and not is_object(member(entry.result, "capabilities")):
                self._find(by, "initialize-result", "no object capabilities")
        if asked.side == "client" and asked.method == "shutdown" and not asked.due:
            self._shutdown = "" if is_refused else "answered"
        if asked.method == _CREATE and is_refused:
            self._refuse(asked)
        for key in asked.tokens:
            self._tokens[by].answered(key)
        self._check_code(asked, entry)

    def _check_code(self, asked: Asked, entry: Entry) -> None:
        """The answer that a request has to have where it comes too early or too late."""
        wanted = {"not-initialized": _NOT_INITIALIZED, "shutdown-code": _INVALID_REQUEST}.get(asked.due)
        if wanted is None or entry.code == wanted or (asked.is_cancelled and entry.code == _CANCELLED):
            return
        what = "a result" if entry.error is ABSENT else f"the error {entry.code}"
        self._find(OTHER[asked.side], asked.due, f"{asked.method} is answered by {what}")

    # The client's life

    def _client_asks(self, method: str, params: Any) -> str:
        """A request of the client's; gives the rule that says how it has to be answered."""
        is_before, is_after = not self._initialize, bool(self._shutdown)
        self._client_says(method, is_request=True)
        if method == "initialize" and is_before:
            self._initialize = "asked"
            if not is_object(member(params, "capabilities")):
                self._find("client", "initialize-params", "no object capabilities")
            else:
                self._may_create = member(params, "capabilities", "window", "workDoneProgress") is True
        elif is_before:
            return "not-initialized"
        if is_after:
            return "shutdown-code"
        if method == "shutdown":
            self._shutdown = "asked"
        return ""

    def _client_says(self, method: str, is_request: bool) -> None:
        """Whether a message may come now."""
        if method == "exit" and not is_request:
            if self._shutdown == "asked":
                self._find("client", "exit-wait")
            return
        is_initialize = method == "initialize" and is_request
        if not self._initialize:
            if not is_initialize:
                self._find_once("client", "initialize-first", f"{method} came first")
        elif is_initialize:
            self._find("client", "initialize-once")
        elif self._initialize == "asked":
            if method != _CANCEL:
                self._find("client", "initialize-wait", method)
        elif not self._is_initialized and method not in ("initialized", _CANCEL):
            self._find_once("client", "initialized-missing", f"{method} came first")
        if self._shutdown:
            self._find("client", "after-shutdown", method)

    def _client_tells(self, method: str, params: Any) -> None:
        if method == "initialized":
            if self._is_initialized:
                self._find("client", "initialized-once")
            self._is_initialized = True
        elif method.startswith("notebookDocument/"):
            self._has_notebooks = True
        elif method.startswith("textDocument/did"):
            self._document(method, params)

    # The server's

    def _server_says(self, method: str, params: Any) -> None:
        """Before initialize is answered, a server may only send messages to its user."""
        if self._initialize == "answered" or method in _EARLY:
            return
        is_first = method == _PROGRESS and key_of(member(params, "token")) in self._first
        if not is_first and (method == _PROGRESS or not method.startswith("$/")):
            self._find("server", "too-early", method)

    # Progress

    def _give_tokens(self, asked: Asked, params: Any) -> None:
        for name, kind in (("workDoneToken", "work"), ("partialResultToken", "partial")):
            key = key_of(member(params, name))
            if key is not None:
                self._tokens[OTHER[asked.side]].give(key, kind)
                asked.tokens.append(key)
                if asked.method == "initialize" and kind == "work":
                    self._first[key] = True

    def _create(self, asked: Asked, params: Any) -> None:
        if not self._may_create:
            self._find("server", "progress-create")
        key = key_of(member(params, "token"))
        if key is not None:
            self._tokens["server"].make(key)
            asked.tokens.append(key)

    def _refuse(self, asked: Asked) -> None:
        """The client made no such progress."""
        for key in asked.tokens:
            token = self._tokens["server"].get(key)
            if token is not None and token.kind == "made":
                token.is_refused = True

    def _progress(self, side: str, params: Any) -> None:
        key = key_of(member(params, "token"))
        if key is None or member(params, "value") is ABSENT:
            self._find(side, "progress-params")
            return
        token = self._tokens[side].get(key)
        if token is None:
            self._find(side, "progress-token", repr(key[1]))
            return
        if token.is_refused:
            self._find(side, "progress-token", f"the client refused to show {key[1]!r}")
        elif token.kind != "made" and not token.open:
            level = SHOULD if token.kind == "partial" else None
            self._find(side, "progress-late", f"the request of {key[1]!r} is answered", level)
        if token.kind != "partial":
            self._order(side, token, member(params, "value", "kind"))
            if token.kind == "made" and token.stage == "ended":
                self._tokens[side].over(key)

    def _order(self, side: str, token: Any, kind: Any) -> None:
        """A work begins, reports and ends, once."""
        stages = {"begin": "", "report": "begun", "end": "begun"}
        if kind in ("begin", "report", "end") and token.stage != stages[kind]:
            why = {"": "it hasn't begun", "begun": "it has begun", "ended": "it has ended"}[token.stage]
            self._find(side, "progress-order", f"{kind}, and {why}")
        token.stage = (
            {"begin": "begun", "end": "ended"}.get(kind, token.stage)
            if isinstance(kind, str)
            else token.stage
        )

    # Documents

    def _document(self, method: str, params: Any) -> None:
        uri, version = member(params, "textDocument", "uri"), member(params, "textDocument", "version")
        if not isinstance(uri, str):
            return
        uri = unquote(uri)
        known = self._documents.get(uri, ABSENT)
        if method == "textDocument/didOpen":
            if known is not ABSENT:
                self._find("client", "open-again", uri)
            self._documents[uri] = version
        elif method == "textDocument/didClose":
            self._must_be_open(uri)
            self._documents.pop(uri, None)
        elif method == "textDocument/didChange":
            self._must_be_open(uri)
            if is_whole(version) and is_whole(known) and version <= known:
                self._find("client", "version-rises", f"{version} comes after {known}: {uri}")
            self._documents[uri] = version

    def _must_be_open(self, uri: str) -> None:
        """(A notebook's cells are opened by messages of their own.)"""
        if uri not in self._documents and not self._has_notebooks:
            self._find("client", "not-open", uri)
