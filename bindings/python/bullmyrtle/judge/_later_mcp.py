"""What the later versions of MCP ask for: results of tools by a schema since 2025-06-18; names and errors of tools,
tasks, pages that a user is asked to open, and sampling with tools since 2025-11-25."""
from __future__ import annotations

import re
from typing import Any, Callable, Dict, List, NamedTuple, Optional, Set

from ._life import Asked, Key, is_object, member
from ._streams import ABSENT, Entry

#: The member of `_meta` that names the task which a message belongs to.
RELATED = "io.modelcontextprotocol/related-task"
#: The code that says that its user has to open a page first.
PAGE_NEEDED = -32042
_INVALID_PARAMS = -32602
_TOOL_NAME = re.compile(r"[A-Za-z0-9_.-]{1,128}")
_OVER = frozenset(("completed", "failed", "cancelled"))
# How many tools, tasks and pages are known, and how long their names are, so that memory has a bound. Of what is beyond
# that nothing is told.
_MOST, _LONGEST = 10_000, 1_000

#: Tells a rule that a side broke: which side, the rule, what is special here, and the level where it isn't the rule's.
Find = Callable[..., None]


class Listed(NamedTuple):
    """A tool, as the server listed it."""

    has_output: bool  # whether it says of what schema its results are
    task: str  # whether it may be called as a task


def name_of(value: Any) -> Any:
    """A name or an id, if it is one that is known by."""
    return value if isinstance(value, str) and len(value) <= _LONGEST else None


class Call(NamedTuple):
    """A call of a tool, as far as its answer has to do with it."""

    name: Any
    is_plain: bool  # whether nothing but its arguments can be wrong

    @staticmethod
    def of(params: Any) -> Call:
        """By the params of tools/call."""
        parts = member(params, "arguments"), member(params, "_meta")
        token = member(params, "_meta", "progressToken")
        is_token = token is ABSENT or isinstance(token, (str, int)) and not isinstance(token, bool)
        is_plain = is_token and all(it is ABSENT or is_object(it) for it in parts)
        return Call(name_of(member(params, "name")), is_plain)


class Tools:
    """The tools that a server has listed."""

    def __init__(self, find: Find) -> None:
        self._find = find
        self._listed: Dict[str, Listed] = {}
        self._has_bad_name = False

    def changed(self) -> None:
        """What was listed may be so no more."""
        self._listed.clear()

    def get(self, name: Any) -> Optional[Listed]:
        return self._listed.get(name) if isinstance(name, str) else None

    def listed(self, is_first: bool, result: Any) -> None:
        """A list is answered, or a page of it."""
        if is_first:
            self.changed()
        tools = member(result, "tools")
        for it in tools if isinstance(tools, list) else ():
            name, support = member(it, "name"), member(it, "execution", "taskSupport")
            if not isinstance(name, str):
                continue
            if len(self._listed) < _MOST and name_of(name) is not None:
                has_output = is_object(member(it, "outputSchema"))
                self._listed[name] = Listed(has_output, support if isinstance(support, str) else "forbidden")
            if _TOOL_NAME.fullmatch(name) is None and not self._has_bad_name:
                self._has_bad_name = True
                self._find("server", "tool-name", repr(name[:60]))

    def called(self, name: Any, is_task: bool) -> None:
        """A tool is called, of a server that has tasks."""
        tool = self.get(name)
        if tool is not None and tool.task == ("forbidden" if is_task else "required"):
            self._find("client", "task-support", f"{name[:60]} has {tool.task!r}")

    def answered(self, about: Call, entry: Entry) -> None:
        """A call is answered, which isn't a task."""
        tool = self.get(about.name)
        if tool is None:
            return
        if entry.error is not ABSENT:
            if entry.code == _INVALID_PARAMS and about.is_plain:
                self._find("server", "tool-error", f"{about.name[:60]} is one of its tools")
        elif tool.has_output and member(entry.result, "isError") is not True:
            if not is_object(member(entry.result, "structuredContent")):
                self._find("server", "tool-output", about.name[:60])


class Task:
    """A task of a side's."""

    __slots__ = ("status", "tokens")

    def __init__(self, status: str, tokens: List[Key]) -> None:
        self.status, self.tokens = status, tokens

    @property
    def is_over(self) -> bool:
        return self.status in _OVER


class Tasks:
    """The tasks of a side, which the other side made by its requests."""

    def __init__(self, side: str, find: Find, over: Callable[[str, Key], None]) -> None:
        """over -- told that no progress may come for a token any more"""
        self._side, self._find, self._close = side, find, over
        self._tasks: Dict[str, Task] = {}
        self._by_token: Dict[Key, str] = {}  # of those that aren't over

    def made(self, asked: Asked, result: Any) -> bool:
        """A request that is to be a task is answered. Gives whether it is one."""
        id_, status = member(result, "task", "taskId"), member(result, "task", "status")
        if not isinstance(id_, str):
            self._find(self._side, "task-result", f"{asked.method} has a task")
        if name_of(id_) is None:
            return False
        if status != "working":
            self._find(self._side, "task-begins", f"its status is {status!r:.60}")
        if len(self._tasks) >= _MOST:
            self._forget(next(iter(self._tasks)))
        self._tasks[id_] = Task(status if isinstance(status, str) else "", asked.tokens)
        self._by_token.update((key, id_) for key in asked.tokens)
        if self._tasks[id_].is_over:
            self._end(id_)
        return True

    def seen(self, about: Any) -> None:
        """The side says how it stands with a task."""
        id_, status = member(about, "taskId"), member(about, "status")
        task = self._tasks.get(id_) if isinstance(id_, str) else None
        if task is None or not isinstance(status, str):
            return
        if task.is_over:
            if status != task.status:
                self._find(self._side, "task-over", f"it was {task.status}, and is {status[:60]}")
            return
        task.status = status
        if task.is_over:
            self._end(id_)

    def told(self, wanted: Any, result: Any) -> None:
        """tasks/result of this task is answered."""
        if isinstance(wanted, str) and member(result, "_meta", RELATED, "taskId") != wanted:
            self._find(self._side, "task-related", "the result of tasks/result")

    def given(self, key: Key) -> None:
        """A progress token is given. (One that is in use says no more what it is of.)"""
        self._by_token.pop(key, None)

    def progressed(self, key: Key, params: Any) -> None:
        """Progress is told for a token."""
        wanted = self._by_token.get(key)
        if wanted is not None and member(params, "_meta", RELATED, "taskId") != wanted:
            self._find(self._side, "task-related", f"the progress for {key[1]!r:.60}")

    def _end(self, id_: str) -> None:
        for key in self._tasks[id_].tokens:
            self._by_token.pop(key, None)
            self._close(self._side, key)

    def _forget(self, id_: str) -> None:
        if not self._tasks[id_].is_over:
            self._end(id_)
        del self._tasks[id_]


class Pages:
    """The pages that a server asks its client's user to open."""

    def __init__(self, find: Find) -> None:
        self._find = find
        self._known: Dict[str, None] = {}
        self._is_full = False

    def asked(self, params: Any, capability: Any) -> None:
        """elicitation/create, with the client's capability."""
        mode = member(params, "mode")
        mode = "form" if mode is ABSENT else mode
        if mode == "url":
            self._knows(params)
        self._check_mode(mode, "elicitation/create", capability)

    def needed(self, error: Any, capability: Any) -> None:
        """The error that says which pages are needed first."""
        pages = member(error, "data", "elicitations")
        if not isinstance(pages, list) or not pages or not all(map(self._knows, pages)):
            self._find("server", "elicitation-needed")
        self._check_mode("url", f"the error {PAGE_NEEDED}", capability)

    def _check_mode(self, mode: Any, what: str, capability: Any) -> None:
        if not is_object(capability) or mode not in ("form", "url"):
            return
        # (an empty object has forms, as it had before there was another mode)
        if mode not in capability and not (mode == "form" and "url" not in capability):
            self._find("server", "elicitation-mode", f"{what}: the client didn't declare elicitation.{mode}")

    def _knows(self, page: Any) -> bool:
        id_ = member(page, "elicitationId")
        if not isinstance(id_, str) or not isinstance(member(page, "url"), str):
            return False
        self._is_full = self._is_full or len(self._known) >= _MOST or len(id_) > _LONGEST
        if not self._is_full:
            self._known[id_] = None
        return True

    def completed(self, params: Any) -> None:
        """The server says that a page is done."""
        id_ = member(params, "elicitationId")
        if not self._is_full and not (isinstance(id_, str) and id_ in self._known):
            self._find(
                "server", "elicitation-complete", f"{id_!r:.60}" if id_ is not ABSENT else "it names none"
            )


def check_sampling(find: Find, params: Any, capability: Any) -> None:
    """sampling/createMessage, with the client's capability."""
    if is_object(capability):
        for name in ("tools", "toolChoice"):
            if member(params, name) is not ABSENT and "tools" not in capability:
                find("server", "sampling-tools", f"{name}: the client didn't declare sampling.tools")
                break
        if member(params, "includeContext") in ("thisServer", "allServers") and "context" not in capability:
            find("server", "sampling-context", f"{params['includeContext']!r}")
    messages = member(params, "messages")
    wrong = _unbalanced(messages if isinstance(messages, list) else [])
    if wrong:
        find("server", "sampling-results", wrong)


def _unbalanced(messages: List[Any]) -> str:
    """What is wrong with what follows the uses of tools, or ""."""
    used: Set[str] = set()
    for at, message in enumerate(messages):
        parts = _parts(message)
        results = [member(it, "toolUseId") for it in parts if member(it, "type") == "tool_result"]
        if results and len(results) < len(parts):
            return f"messages[{at}] has results of tools and more"
        if not used <= {it for it in results if isinstance(it, str)}:
            return f"messages[{at}] lacks results of the tools that messages[{at - 1}] uses"
        is_use = member(message, "role") == "assistant"
        ids = [member(it, "id") for it in parts if is_use and member(it, "type") == "tool_use"]
        used = {it for it in ids if isinstance(it, str)}
    return f"nothing follows messages[{len(messages) - 1}], which uses tools" if used else ""


def _parts(message: Any) -> List[Any]:
    content = member(message, "content")
    return content if isinstance(content, list) else [content]
