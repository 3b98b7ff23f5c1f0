"""The life of a session of the Model Context Protocol, by the version that it is of."""
from __future__ import annotations

from typing import Any, Callable, Dict, Optional, Tuple

from ._later_mcp import PAGE_NEEDED, Call, Pages, Tasks, Tools, check_sampling, name_of
from ._life import OTHER, Asked, Key, Life, Tokens, is_object, key_of, member
from ._rules import NOTE, SHOULD
from ._streams import ABSENT, Entry
from ._versions import MCP, VERSIONS

_CANCEL, _PROGRESS, _INITIALIZED = (
    "notifications/cancelled",
    "notifications/progress",
    "notifications/initialized",
)
# Since when there is what changes the rules: completions as a capability, results by schema, and tasks with all else.
_COMPLETIONS, _OUTPUT, _TASKS = "2025-03-26", "2025-06-18", "2025-11-25"
# The capability that the other side declares, of what a side asks for: whole methods, or all that begin so; and since
# when it has one.
_OF_TASKS = (
    ("tasks/list", ("tasks", "list"), _TASKS),
    ("tasks/cancel", ("tasks", "cancel"), _TASKS),
    ("tasks/", ("tasks",), _TASKS),
)
_NEEDS: Dict[str, Tuple[Tuple[str, Tuple[str, ...], str], ...]] = {
    "client": (
        ("tools/", ("tools",), MCP[0]),
        ("resources/subscribe", ("resources", "subscribe"), MCP[0]),
        ("resources/unsubscribe", ("resources", "subscribe"), MCP[0]),
        ("resources/", ("resources",), MCP[0]),
        ("prompts/", ("prompts",), MCP[0]),
        ("completion/", ("completions",), _COMPLETIONS),
        ("logging/", ("logging",), MCP[0]),
        *_OF_TASKS,
    ),
    "server": (
        ("roots/", ("roots",), MCP[0]),
        ("sampling/", ("sampling",), MCP[0]),
        ("elicitation/", ("elicitation",), _OUTPUT),
        *_OF_TASKS,
    ),
}
# The methods that came with a later version than the first.
_SINCE = {
    **{("server", "elicitation/create"): _OUTPUT, ("server", "notifications/elicitation/complete"): _TASKS},
    **{
        (side, f"tasks/{it}"): _TASKS
        for side in ("client", "server")
        for it in ("get", "result", "list", "cancel")
    },
    **{(side, "notifications/tasks/status"): _TASKS for side in ("client", "server")},
}
# What may be a task, and so each needs a capability of its own.
_AS_TASK = {"client": ("tools/call",), "server": ("sampling/createMessage", "elicitation/create")}
# What of the params says how a request has to be answered.
_ABOUT: Dict[str, Callable[[Any], Any]] = {
    "tools/list": lambda params: member(params, "cursor") is ABSENT,
    "tools/call": Call.of,
    "tasks/result": lambda params: name_of(member(params, "taskId")),
}


class Mcp(Life):
    """Initialize and initialized; progress; capabilities; pings; and what later versions have.

    Params that are an array and results that are no object aren't looked into: the library tells that they are so.
    """

    def __init__(self, rules: str) -> None:
        super().__init__(rules)
        self.version = VERSIONS[rules]
        self._initialize = ""  # "", "asked" or "answered"
        self._is_initialized = False
        self._tokens = {"client": Tokens(), "server": Tokens()}  # by the side that tells progress
        self._capabilities = {"client": ABSENT, "server": ABSENT}
        self._tools, self._pages = Tools(self._find), Pages(self._find)
        self._tasks = {it: Tasks(it, self._find, self._close) for it in OTHER}

    # Messages

    def request(self, asked: Asked, params: Any, is_in_array: bool) -> None:
        side, method = asked.side, asked.method
        if side == "client":
            self._client_asks(method, params, is_in_array)
        elif not self._is_initialized and method != "ping":
            self._find("server", "too-early", method)
        if method in _ABOUT:
            asked.about = _ABOUT[method](params)
        if self._has(side, method):
            self._check_capability(side, method)
        self._as_task(asked, params)
        if not isinstance(params, list):
            self._asks_later(asked, params)
        self._give_token(asked, params)

    def notification(self, side: str, method: str, params: Any) -> None:
        if side == "client" and not self._initialize and method != _CANCEL:
            self._find_once("client", "initialize-first", f"{method} came first")
        if side == "client" and method == _INITIALIZED:
            if self._initialize == "asked":
                self._find("client", "initialize-wait", method)
            self._is_initialized = True
        if side == "server" and method == "notifications/message":
            self._declared("server", method, ("logging",), "server")
        if method == _PROGRESS and not isinstance(params, list):
            self._progress(side, params)
        if side == "server" and method == "notifications/tools/list_changed":
            self._tools.changed()
        if not self._has(side, method) or isinstance(params, list):
            return
        if method == "notifications/tasks/status":
            self._tasks[side].seen(params)
        elif side == "server" and method == "notifications/elicitation/complete":
            self._pages.completed(params)

    def answer(self, asked: Asked, entry: Entry) -> None:
        by, is_refused = OTHER[asked.side], entry.error is not ABSENT
        has_object = not is_refused and is_object(entry.result)
        if asked.side == "client" and asked.method == "initialize" and self._initialize == "asked":
            self._initialize = "" if is_refused else "answered"
            if has_object:
                self._check_result(entry.result)
        if asked.method == "ping" and has_object and entry.result:
            self._find(by, "ping-result")
        if is_refused or has_object:
            self._answered_later(asked, entry, by)
        if asked.is_task and has_object and self._tasks[by].made(asked, entry.result):
            return  # (its progress goes on until the task is over)
        for key in asked.tokens:
            self._tokens[by].answered(key)

    # The beginning

    def _client_asks(self, method: str, params: Any, is_in_array: bool) -> None:
        if method == "initialize":
            if is_in_array and self.rules == "mcp:2025-03-26":
                self._find("client", "initialize-in-batch")
            if self._initialize:
                self._find("client", "initialize-once")
                return
            self._initialize = "asked"
            self._capabilities["client"] = member(params, "capabilities")
            if not isinstance(params, list):
                self._check_first("client", "initialize-params", params, "clientInfo")
        elif method == "ping":
            return
        elif not self._initialize:
            self._find_once("client", "initialize-first", f"{method} came first")
        elif self._initialize == "asked":
            self._find("client", "initialize-wait", method)
        elif not self._is_initialized:
            self._find_once("client", "initialized-missing", f"{method} came first")

    def _check_first(self, side: str, rule: str, value: Any, info: str) -> None:
        """What initialize and its answer must have."""
        lacks = [
            *(["protocolVersion"] if not isinstance(member(value, "protocolVersion"), str) else []),
            *(["capabilities"] if not is_object(member(value, "capabilities")) else []),
            *(
                f"{info}.{name}"
                for name in ("name", "version")
                if not isinstance(member(value, info, name), str)
            ),
        ]
        if lacks:
            self._find(side, rule, f"no {', '.join(lacks)}")

    def _check_result(self, result: Any) -> None:
        self._capabilities["server"] = member(result, "capabilities")
        self._check_first("server", "initialize-result", result, "serverInfo")
        agreed = member(result, "protocolVersion")
        if self.rules == "mcp" and agreed in MCP:
            self.version = agreed
        elif isinstance(agreed, str) and agreed != self.version:
            self._find("server", "other-version", f"{agreed}, and not {self.version}")

    # Versions. (Of a rule that the version hasn't nothing is told: its levels say which have it.)

    def edition(self) -> str:
        return self.version

    def _has(self, side: str, method: str) -> bool:
        """Whether the version has a method; says where not."""
        return not self._later(side, method, _SINCE.get((side, method), MCP[0]), None)

    def _later(self, side: str, what: str, since: str, level: Optional[str] = NOTE) -> bool:
        """Whether something that is used came with a later version, which is told. (What is no method may be something
        else to an older one.)"""
        is_later = since > self.version
        if is_later:
            self._find(side, "later-version", f"{what} came with {since}, and this is {self.version}", level)
        return is_later

    def _as_task(self, asked: Asked, params: Any) -> None:
        """A request with a task: whether it is to be one."""
        if asked.method not in _AS_TASK[asked.side] or not is_object(member(params, "task")):
            return
        if not self._later(asked.side, f"{asked.method} with a task", _TASKS):
            names = ("tasks", "requests", *asked.method.split("/"))
            asked.is_task = self._declared(asked.side, asked.method, names, OTHER[asked.side], SHOULD)

    def _asks_later(self, asked: Asked, params: Any) -> None:
        """What later versions have in requests that there were."""
        method, client, server = asked.method, self._capabilities["client"], self._capabilities["server"]
        if asked.side == "client":
            if method == "tools/call" and member(server, "tasks", "requests", "tools", "call") is not ABSENT:
                self._tools.called(member(params, "name"), asked.is_task)
        elif method == "elicitation/create":
            if member(params, "mode") == "url":
                self._later("server", "elicitation by a URL", _TASKS)
            self._pages.asked(params, member(client, "elicitation"))
        elif method == "sampling/createMessage":
            if any(member(params, it) is not ABSENT for it in ("tools", "toolChoice")):
                self._later("server", "sampling with tools", _TASKS)
            check_sampling(self._find, params, member(client, "sampling"))

    def _answered_later(self, asked: Asked, entry: Entry, by: str) -> None:
        """What later versions have in answers."""
        method, is_error = asked.method, entry.error is not ABSENT
        if by == "server" and method == "tools/list" and not is_error:
            self._tools.listed(asked.about, entry.result)
        elif by == "server" and method == "tools/call" and not asked.is_task:
            self._tools.answered(asked.about, entry)
        elif method in ("tasks/get", "tasks/cancel") and not is_error:
            self._tasks[by].seen(entry.result)
        elif method == "tasks/result" and not is_error:
            self._tasks[by].told(asked.about, entry.result)
        if by == "server" and entry.code == PAGE_NEEDED:
            self._later("server", f"the error {PAGE_NEEDED}", _TASKS)
            self._pages.needed(entry.error, member(self._capabilities["client"], "elicitation"))

    # Capabilities

    def _check_capability(self, side: str, method: str) -> None:
        for start, names, since in _NEEDS[side]:
            if method.startswith(start):
                if since <= self.version:
                    self._declared(side, method, names, OTHER[side])
                return

    def _declared(
        self, side: str, method: str, names: Tuple[str, ...], by: str, level: Optional[str] = None
    ) -> bool:
        """Whether a side that uses something may; `by` is who has to have declared it."""
        if not is_object(self._capabilities[by]):
            return False
        found = member(self._capabilities[by], *names)
        if found is ABSENT or found is False or found is None:
            self._find(side, "capability", f"{method}: the {by} didn't declare {'.'.join(names)}", level)
            return False
        return True

    # Progress

    def _give_token(self, asked: Asked, params: Any) -> None:
        key = key_of(member(params, "_meta", "progressToken"))
        if key is None:
            return
        tokens = self._tokens[OTHER[asked.side]]
        known = tokens.get(key)
        if known is not None and known.open:
            self._find(asked.side, "token-again", repr(key[1]))
        tokens.give(key, "work")
        self._tasks[OTHER[asked.side]].given(key)
        asked.tokens.append(key)

    def cancelled(self, asked: Asked) -> None:
        """A request's cancel was seen: it isn't open any more, and its progress may still be on its way."""
        if asked.is_task:
            self._find(asked.side, "cancel-task", asked.method)
        for key in asked.tokens:
            self._tokens[OTHER[asked.side]].cancelled(key)

    def _close(self, side: str, key: Key) -> None:
        """A side's task is over, for which it told progress."""
        self._tokens[side].answered(key)

    def _progress(self, side: str, params: Any) -> None:
        key, value = key_of(member(params, "progressToken")), member(params, "progress")
        if key is None or isinstance(value, bool) or not isinstance(value, (int, float)):
            self._find(side, "progress-params")
            return
        token = self._tokens[side].get(key)
        if token is None:
            self._find(side, "progress-token", repr(key[1]))
            return
        if not token.open and not token.is_cancelled:
            self._find(side, "progress-late", f"the request of {key[1]!r} is answered")
        self._tasks[side].progressed(key, params)
        if token.last is not None and value <= token.last:
            self._find(side, "progress-rises", f"{value} comes after {token.last}")
        token.last = value
