"""A host's side of the Model Context Protocol: it starts a tool server, calls its tools, and answers what it asks."""
from __future__ import annotations

import dataclasses
import inspect
from typing import TYPE_CHECKING, Any, Callable, Dict, List, Mapping, Optional, Sequence, Set, Union

from .._middleware import raw
from .._methods import PLAIN
from .._request import Request
from .._signatures.checker import Checker
from ..client import Client, Word
from ..errors import Error, InvalidParams
from ._about import Icon, icons_of, present, program
from ._life import VERSIONS, settings_of
from ._results import QUESTIONS, InvalidResult, checked
from ._sampling import fault_of
from .content import text
from .context import check_level

if TYPE_CHECKING:
    from ._remote import Remote

Json = Dict[str, Any]
Function = Callable[..., Any]
#: Headers, or what gives them.
Given = Union[Mapping[str, str], Callable[[], Mapping[str, str]], None]

# A list has at most so many pages: a server that always names another cursor would never let the call end.
_MOST_PAGES = 1000


class UnknownVersion(Exception):
    """The server wants to speak a version of the protocol that isn't known here."""


@dataclasses.dataclass
class CallResult:
    """What a tool gave."""

    content: List[Json]
    structured: Optional[Json] = None
    is_error: bool = False
    meta: Optional[Json] = None

    @property
    def text(self) -> str:
        """Its texts, a line each."""
        return "\n".join(it["text"] for it in self.content if it.get("type") == "text")


def _call_result(result: Json) -> CallResult:
    return CallResult(
        result.get("content") or [],
        result.get("structuredContent"),
        bool(result.get("isError")),
        result.get("_meta"),
    )


class ToolTask:
    """A call of a tool that the server works on after it has answered. Its `about` is what the server said of it last."""

    def __init__(self, client: ToolClient, about: Json) -> None:
        self._client, self.about, self.id = client, about, about["taskId"]

    @property
    def status(self) -> str:
        """ "working", "input_required", "completed", "failed" or "cancelled", when the server was asked last."""
        return str(self.about["status"])

    async def refresh(self) -> str:
        """Ask how it is: the status."""
        self.about = await self._client._result("tasks/get", {"taskId": self.id})
        return self.status

    async def result(self) -> CallResult:
        """Wait for what the tool gave. Raises the tool's error, or that of a task which was cancelled."""
        return _call_result(await self._client._result("tasks/result", {"taskId": self.id}))

    async def cancel(self) -> None:
        """Cancel it. Raises an Error if it is over."""
        self.about = await self._client._result("tasks/cancel", {"taskId": self.id})


class ToolClient(Client):
    """A host, which starts a tool server and ends it.

    >>> async def main():
    ...     async with ToolClient(["python3", "server.py"]) as client:
    ...         print(await client.list_tools())
    ...         print((await client.call_tool("count", {"text": "a b"})).text)
    """

    def __init__(
        self,
        command: Optional[Sequence[Word]] = None,
        *,
        url: Optional[str] = None,
        headers: Given = None,
        httpx: Any = None,
        name: str = "bullmyrtle",
        version: str = "0",
        title: Optional[str] = None,
        description: Optional[str] = None,
        icons: Optional[Sequence[Icon]] = None,
        website: Optional[str] = None,
        versions: Sequence[str] = VERSIONS,
        sampling: Optional[Function] = None,
        sampling_tools: bool = False,
        elicitation: Optional[Function] = None,
        page: Optional[Function] = None,
        page_done: Optional[Function] = None,
        roots: Union[Sequence[str], Function, None] = None,
        log: Optional[Function] = None,
        **settings: Any,
    ) -> None:
        """Make a host of the server that a command starts, or that is reached by a URL.

        url -- the server's URL, over Streamable HTTP
        headers -- what requests to it have besides, as `Authorization`; or a function that gives them each time
        httpx -- an `httpx.Client` that makes the requests, in place of the standard library
        name, version, title, description, icons, website -- what the server is told
        versions -- the versions of the protocol that may be agreed on; the first one is asked for
        sampling -- what answers the server's questions to the model: it gets the params, and gives a text or a message
        sampling_tools -- whether it knows the tools that a question may have; one with tools is refused else
        elicitation -- what answers its questions to the user: it gets the message and the schema, and gives the values,
            or None where the user declines
        page -- what asks its user to open a page: it gets the message and the URL, and gives whether the user agrees
        page_done -- what gets the id of such a question when the server says that it is done
        roots -- the URIs of the folders that the server may work in, or a function that gives them
        log -- what gets the server's log messages: their params
        settings -- those of a `Client`; `protocol="mcp"`, unless they say otherwise
        """
        if command is not None and url is not None:
            raise ValueError("a host has a command or a URL, and not both")
        super().__init__(command, **settings_of(settings))
        self._remote: Optional[Remote] = None
        if url is not None:
            from ._remote import remote  # (here, since what starts its server starts sooner without)

            self._remote = remote(url, httpx, headers, self._settings["content"])
        self._versions = tuple(versions)
        about = {"title": title, "description": description, "icons": icons_of(icons), "websiteUrl": website}
        self._about = program(present({"name": name, "version": version, **about}), self._versions[0])
        self._roots = roots
        self._capabilities: Json = {}
        self._progress: Dict[Any, Function] = {}
        self._tokens = 0
        #: What the server said of itself at the beginning.
        self.server: Json = {}
        self.protocol_version = ""
        self._answer("ping", lambda params, request: {})
        self._answer("notifications/progress", self._progressed)
        if sampling is not None:
            has_tools = sampling_tools and self._versions[0] >= "2025-11-25"
            self._capabilities["sampling"] = {"tools": {}} if has_tools else {}
            asks = _sampled_by(sampling, has_tools)
            self._answer("sampling/createMessage", _answering("sampling/createMessage", asks, _message))
        if elicitation is not None or page is not None:
            modes = {"form": elicitation, "url": page}
            # (before 2025-11-25 there were forms alone, and no word for them)
            has: Json = {name: {} for name, it in modes.items() if it is not None}
            self._capabilities["elicitation"] = has if self._versions[0] >= "2025-11-25" else {}
            asks = _elicited_by(elicitation, page)
            self._answer("elicitation/create", _answering("elicitation/create", asks, dict))
        if page_done is not None:
            self._answer("notifications/elicitation/complete", _done(page_done))
        if roots is not None:
            self._capabilities["roots"] = {"listChanged": True}
            self._answer("roots/list", self._list_roots)
        if log is not None:
            tell = log
            self._answer("notifications/message", lambda params, request: tell(params))

    def _answer(self, method: str, function: Function) -> None:
        self._methods.add(raw(method, function, PLAIN))

    async def __aenter__(self) -> ToolClient:
        await super().__aenter__()
        if self._remote is not None and self._serving is None:
            self.attach(self._remote, framing="contents")
        if self._serving is not None:
            try:
                await self.initialize()
            except BaseException:
                await self.close()
                raise
        return self

    async def initialize(self) -> Json:
        """Agree with the server, and give what it says of itself. `async with` does that where there is a command.

        Raises UnknownVersion if the server wants a version that isn't known here.
        """
        params = {
            "protocolVersion": self._versions[0],
            "capabilities": self._capabilities,
            "clientInfo": self._about,
        }
        result = await self._result("initialize", params)
        if result["protocolVersion"] not in self._versions:
            raise UnknownVersion(f"the server speaks version {result['protocolVersion'][:100]!r}")
        self.server, self.protocol_version = result, result["protocolVersion"]
        self.notify("notifications/initialized")
        return self.server

    # What the server has

    async def _result(self, method: str, params: Optional[Json] = None) -> Json:
        """The result of a request. Raises InvalidResult, with the place, if the server's isn't one of the method's."""
        return checked(method, await self.call(method, params))

    async def _all(self, method: str, name: str) -> List[Json]:
        """All items of a list, page by page."""
        items: List[Json] = []
        cursor: Optional[str] = None
        seen: Set[str] = set()
        for _ in range(_MOST_PAGES):
            page = await self._result(method, None if cursor is None else {"cursor": cursor})
            items += page[name]
            cursor = page.get("nextCursor")
            if cursor is None:
                return items
            if cursor in seen:
                raise InvalidResult(
                    f"{method}: result.nextCursor comes again, so the pages go round: {cursor[:100]!r}"
                )
            seen.add(cursor)
        raise InvalidResult(f"{method}: there are more than {_MOST_PAGES:,} pages, so they may never end")

    async def list_tools(self) -> List[Json]:
        """All tools, of all pages."""
        return await self._all("tools/list", "tools")

    async def list_resources(self) -> List[Json]:
        """All resources, of all pages."""
        return await self._all("resources/list", "resources")

    async def list_resource_templates(self) -> List[Json]:
        """All templates of resources, of all pages."""
        return await self._all("resources/templates/list", "resourceTemplates")

    async def list_prompts(self) -> List[Json]:
        """All prompts, of all pages."""
        return await self._all("prompts/list", "prompts")

    async def call_tool(
        self, name: str, arguments: Optional[Json] = None, *, progress: Optional[Function] = None
    ) -> CallResult:
        """Call a tool. `progress` is told how far it is: `progress`, `total` and `message`, the latter two if known.

        Cancel it by cancelling the task that awaits it, as `asyncio.wait_for` does.
        """
        params: Json = {"name": name, "arguments": arguments or {}}
        token = None
        if progress is not None:
            self._tokens += 1
            token = self._tokens
            self._progress[token] = progress
            params["_meta"] = {"progressToken": token}
        try:
            return _call_result(await self._result("tools/call", params))
        finally:
            if token is not None:
                del self._progress[token]

    async def call_tool_as_task(
        self, name: str, arguments: Optional[Json] = None, *, ttl: Optional[float] = None
    ) -> ToolTask:
        """Call a tool as a task, which is kept for `ttl` seconds if the server agrees. Since 2025-11-25."""
        task = {} if ttl is None else {"ttl": 1000 * ttl}
        params = {"name": name, "arguments": arguments or {}, "task": task}
        result = checked("tools/call as a task", await self.call("tools/call", params))
        return ToolTask(self, result["task"])

    async def list_tasks(self) -> List[ToolTask]:
        """All tasks of this session that the server keeps."""
        return [ToolTask(self, it) for it in await self._all("tasks/list", "tasks")]

    async def read_resource(self, uri: str) -> List[Json]:
        """The contents of a resource."""
        contents: List[Json] = (await self._result("resources/read", {"uri": uri}))["contents"]
        return contents

    async def subscribe_resource(self, uri: str) -> None:
        """Be told by `notifications/resources/updated` when a resource changes; register a method of that name."""
        await self._result("resources/subscribe", {"uri": uri})

    async def unsubscribe_resource(self, uri: str) -> None:
        """Be told no more."""
        await self._result("resources/unsubscribe", {"uri": uri})

    async def get_prompt(self, name: str, arguments: Optional[Dict[str, str]] = None) -> Json:
        """A prompt's messages, with its description."""
        return await self._result("prompts/get", {"name": name, "arguments": arguments or {}})

    async def complete(
        self, ref: Json, argument: str, value: str, others: Optional[Dict[str, str]] = None
    ) -> Json:
        """What an argument of a prompt or of a resource may be: `values`, `total` and `hasMore`."""
        params: Json = {"ref": ref, "argument": {"name": argument, "value": value}}
        if others:
            params["context"] = {"arguments": others}
        completion: Json = (await self._result("completion/complete", params))["completion"]
        return completion

    async def set_logging_level(self, level: str) -> None:
        """Have the server send log messages of this level and of more urgent ones."""
        check_level(level)
        await self._result("logging/setLevel", {"level": level})

    async def send_ping(self) -> None:
        """Ask whether the server is there."""
        await self._result("ping")

    def roots_changed(self, roots: Optional[Sequence[str]] = None) -> None:
        """Tell the server that the folders have changed, and which they are now."""
        if roots is not None:
            self._roots = roots
        self.notify("notifications/roots/list_changed")

    # What the server asks

    def _progressed(self, params: Any, request: Request) -> Any:
        token = params.get("progressToken") if isinstance(params, dict) else None
        tell = self._progress.get(token) if type(token) is int else None
        if tell is None:
            return None
        return tell(params.get("progress"), params.get("total"), params.get("message"))

    def _list_roots(self, params: Any, request: Request) -> Any:
        roots = self._roots() if callable(self._roots) else self._roots
        return {"roots": [{"uri": it} for it in roots or ()]}


def _answering(method: str, function: Function, made: Callable[[Any], Json]) -> Function:
    """What answers a question of the server's by a function's result, which may have to be awaited."""
    check = Checker(QUESTIONS[method], method)

    def answer(params: Any, request: Request) -> Any:
        check(params, "params")
        return _then(function(params), made)

    return answer


def _then(result: Any, made: Callable[[Any], Json]) -> Any:
    """What is made of a result, which may have to be awaited."""

    async def later() -> Json:
        return made(await result)

    return later() if inspect.isawaitable(result) else made(result)


def _sampled_by(function: Function, has_tools: bool) -> Function:
    """What asks the model, if the question's tools are used as the protocol has it."""

    def ask(params: Json) -> Any:
        if not has_tools and {"tools", "toolChoice"} & params.keys():
            raise InvalidParams("Invalid params: params.tools: this host's model uses no tools")
        fault = fault_of(params["messages"])
        if fault is not None:
            raise InvalidParams(f"Invalid params: params.{fault}")
        return function(params)

    return ask


def _message(result: Any) -> Json:
    if result is None:
        raise Error(-1, "User rejected sampling request")
    if isinstance(result, str):
        return {"role": "assistant", "content": text(result), "model": "unknown", "stopReason": "endTurn"}
    message: Json = result
    return message


def _elicited_by(form: Optional[Function], page: Optional[Function]) -> Function:
    """What asks the user, by a form or by a page."""

    def ask(params: Json) -> Any:
        if params.get("mode") == "url":
            if page is not None:
                return _then(page(params["message"], params["url"]), _agreed)
        elif form is not None:
            return _then(form(params["message"], params.get("requestedSchema")), _elicited)
        raise InvalidParams("Invalid params: params.mode isn't one that this host has")

    return ask


def _done(function: Function) -> Function:
    """What hears that a page is done; a notification without an id says nothing."""

    def hear(params: Any, request: Request) -> Any:
        id_ = params.get("elicitationId") if isinstance(params, dict) else None
        return function(id_) if isinstance(id_, str) else None

    return hear


def _agreed(result: Any) -> Json:
    return result if isinstance(result, dict) else {"action": "accept" if result else "decline"}


def _elicited(result: Any) -> Json:
    if result is None:
        return {"action": "decline"}
    return (
        result if isinstance(result, dict) and "action" in result else {"action": "accept", "content": result}
    )
