"""A tool server, as the Model Context Protocol has it: tools, resources and prompts by decorator, over `Server`."""
from __future__ import annotations

import asyncio
import base64
import binascii
import dataclasses
import inspect
from typing import (
    TYPE_CHECKING,
    Any,
    Callable,
    Dict,
    List,
    Optional,
    Sequence,
    Tuple,
    TypeVar,
    Union,
    overload,
)

from .._json import plain_loads
from .._lives import LivingServer
from .._log import log
from .._merging import merged
from .._methods import ASYNC, PLAIN, THREAD, Method
from .._middleware import handed, limited, raw
from .._outgoing import words_of_error
from .._request import Request, words_of
from .._session import Session
from .._signatures.checker import Checker
from .._signatures.functions import Function, result_schema
from .._signatures.readers import type_of
from ..errors import INVALID_REQUEST, METHOD_NOT_FOUND, TOO_MANY_OPEN, Closed, Error, InvalidParams
from ._about import Icon, check_tool_name, icons_of, known, present, program
from ._eliciting import UrlElicitationRequired
from ._life import VERSIONS, Life, settings_of
from ._results import InvalidResult
from ._tasks import Tasks
from ._templates import Template
from .content import Content, ToolError, ToolResult, contents_of, json_of, parts_of, text
from .context import LEVELS, Context, check_level

F = TypeVar("F", bound=Callable[..., Any])
if TYPE_CHECKING:
    from ._asgi import App

Json = Dict[str, Any]

RESOURCE_NOT_FOUND = -32002
# How many resources a host may subscribe to, and how long their URIs may be.
_MOST_SUBSCRIBED, _LONGEST_SUBSCRIBED = 1000, 8192
# A completion has at most so many values.
_MOST_VALUES = 100


@dataclasses.dataclass
class _Tool:
    about: Json
    method: Method
    as_task: Method
    task: str


@dataclasses.dataclass
class _Resource:
    about: Json
    method: Method
    template: Optional[Template]


@dataclasses.dataclass
class _Prompt:
    about: Json
    method: Method


class ToolServer(LivingServer):
    """A tool server, for hosts as the Model Context Protocol has them.

    >>> server = ToolServer("words", "1.0")
    >>> @server.tool
    ... def count(text: str) -> int:
    ...     \"\"\"Counts the words of a text.\"\"\"
    ...     return len(text.split())

    `sys.exit(server.run())` then answers on the standard streams.
    """

    _Life = Life
    _lives: Dict[Session, Life]

    def __init__(
        self,
        name: str,
        version: str = "0",
        *,
        title: Optional[str] = None,
        description: Optional[str] = None,
        icons: Optional[Sequence[Icon]] = None,
        website: Optional[str] = None,
        instructions: Optional[str] = None,
        versions: Sequence[str] = VERSIONS,
        page_size: Optional[int] = None,
        task_ttl: float = 3600,
        capabilities: Optional[Json] = None,
        **settings: Any,
    ) -> None:
        """Make one, without tools yet.

        name, version, title, description, icons, website -- what the host is told
        instructions -- what the host may tell its model of the server
        versions -- the versions of the protocol that may be agreed on, the preferred one first
        page_size -- how many tools, resources or prompts are told at once; all where none is given
        task_ttl -- for how many seconds at most a task and its result are kept
        capabilities -- what is to be told beside what is registered
        settings -- those of a `Server`; `protocol="mcp"`, unless they say otherwise
        """
        super().__init__(**settings_of(settings))
        if not set(versions) <= set(VERSIONS) or not versions:
            raise ValueError(f"the versions are {', '.join(VERSIONS)}: {versions!r}")
        if page_size is not None and page_size < 1:
            raise ValueError(f"a page has one item at least: {page_size!r}")
        self.name, self.version, self.title, self.instructions = name, version, title, instructions
        more = {"title": title, "description": description, "icons": icons_of(icons), "websiteUrl": website}
        self._about = present({"name": name, "version": version, **more})
        self._versions, self._page_size, self._by_hand = tuple(versions), page_size, capabilities or {}
        self._task_ttl = task_ttl
        self._tools: Dict[str, _Tool] = {}
        self._resources: Dict[str, _Resource] = {}
        self._prompts: Dict[str, _Prompt] = {}
        self._completions: Dict[Tuple[str, str], Method] = {}
        for method, function in {
            "initialize": self._initialize,
            "notifications/initialized": self._initialized,
            "ping": lambda params, request: {},
            "tools/list": self._list_tools,
            "tools/call": self._call_tool,
            "resources/list": self._list_resources,
            "resources/templates/list": self._list_templates,
            "resources/read": self._read_resource,
            "resources/subscribe": self._subscribe,
            "resources/unsubscribe": self._unsubscribe,
            "prompts/list": self._list_prompts,
            "prompts/get": self._get_prompt,
            "completion/complete": self._complete,
            "logging/setLevel": self._set_level,
            "tasks/list": self._list_tasks,
            "tasks/get": lambda params, request: self._tasks_of(request).found(params).as_json(),
            "tasks/cancel": lambda params, request: self._tasks_of(request).cancel(params),
        }.items():
            self._methods.add(raw(method, function, PLAIN))
        self._methods.add(raw("tasks/result", self._task_result, ASYNC))

    # Tools

    @overload
    def tool(self, name: F) -> F:
        ...

    @overload
    def tool(
        self,
        name: Optional[str] = None,
        *,
        title: Optional[str] = None,
        description: Optional[str] = None,
        annotations: Optional[Json] = None,
        icons: Optional[Sequence[Icon]] = None,
        input_schema: Optional[Json] = None,
        output_schema: Optional[Json] = None,
        task: str = "forbidden",
        thread: bool = False,
        timeout: Optional[float] = None,
    ) -> Callable[[F], F]:
        ...

    def tool(
        self,
        name: Union[str, Callable[..., Any], None] = None,
        *,
        title: Optional[str] = None,
        description: Optional[str] = None,
        annotations: Optional[Json] = None,
        icons: Optional[Sequence[Icon]] = None,
        input_schema: Optional[Json] = None,
        output_schema: Optional[Json] = None,
        task: str = "forbidden",
        thread: bool = False,
        timeout: Optional[float] = None,
    ) -> Any:
        """Register a function as a tool, under this name or its own.

        Its schema is made of its annotations, and its description of its docstring, unless they are given. A parameter
        that is named `context` or `ctx`, or annotated with `Context`, gets the call's `Context`. `task` says whether a
        host may call it as a task: "forbidden", "optional" or "required".
        """
        if callable(name):
            return self.tool()(name)
        if task not in ("forbidden", "optional", "required"):
            raise ValueError(f'task is "forbidden", "optional" or "required": {task!r}')
        given = name

        def register(function: F) -> F:
            spec = Function(function, input_schema, Context)
            called = given or spec.name
            check_tool_name(called)
            if called in self._tools:
                raise ValueError(f"there is a tool {called!r} already")
            schema, is_member = (
                (output_schema, False)
                if output_schema is not None
                else result_schema(function, (Content, ToolResult))
            )
            about = {
                "name": called,
                "title": title,
                "description": description or spec.description,
                "inputSchema": spec.schema,
                "outputSchema": schema,
                "annotations": annotations,
                "icons": icons_of(icons),
                "execution": None if task == "forbidden" else {"taskSupport": task},
            }
            check = None if schema is None else Checker(schema, f"{spec.name}: output_schema")

            def made(result: Any, life: Life) -> Json:
                return _tool_result(result, life.version, check, is_member)

            def failed(error: Exception, life: Life) -> Json:
                if (
                    isinstance(error, UrlElicitationRequired)
                    and life.client_has("elicitation.url") is not None
                ):
                    life.elicitations.update(it.elicitation_id for it in error.pages)
                    raise error
                return _failed(called, error, life)

            method = self._calling(called, spec, thread, made, failed)
            as_task = method if timeout is None else _limited_task(method, timeout)
            self._tools[called] = _Tool(present(about), limited(method, timeout, _late), as_task, task)
            self._changed("tools")
            return function

        return register

    def described(self, name: str, version: str) -> Json:
        """What a tool is, as a version has it. Raises ValueError if there is none of this name."""
        if name not in self._tools:
            raise ValueError(f"there is no tool {name!r}")
        return known(self._tools[name].about, version)

    def remove_tool(self, name: str) -> None:
        """Take a tool away, and tell the hosts."""
        del self._tools[name]
        self._changed("tools")

    def _calling(
        self,
        name: str,
        spec: Function,
        thread: bool,
        made: Callable[[Any, Life], Any],
        failed: Optional[Callable[[Exception, Life], Any]] = None,
    ) -> Method:
        """The method that calls a function with the `arguments` of its params."""
        if thread and spec.is_async:
            raise TypeError(f"{name}: an async function runs on the loop, and not in a thread")

        def filled(params: Any, request: Request, life: Life) -> Json:
            given = params.get("arguments")
            return spec.filled({} if given is None else given, Context(self, life, request, params))

        def call(params: Any, request: Request) -> Any:
            life = self._life_of(request)
            try:
                result = spec.function(**filled(params, request, life))
                return later(result, life) if inspect.isawaitable(result) else made(result, life)
            except Exception as error:
                if failed is None:
                    raise
                return failed(error, life)

        async def later(result: Any, life: Life) -> Any:
            try:
                return made(await result, life)
            except Exception as error:
                if failed is None:
                    raise
                return failed(error, life)

        async def call_async(params: Any, request: Request) -> Any:
            result = call(params, request)
            return await result if inspect.isawaitable(result) else result

        return raw(
            name,
            call_async if spec.is_async else call,
            THREAD if thread else ASYNC if spec.is_async else PLAIN,
        )

    # Resources and prompts

    def resource(
        self,
        uri: str,
        *,
        name: Optional[str] = None,
        title: Optional[str] = None,
        description: Optional[str] = None,
        mime_type: Optional[str] = None,
        icons: Optional[Sequence[Icon]] = None,
        thread: bool = False,
    ) -> Callable[[F], F]:
        """Register a function as the resource of this URI, or, if it has parts as `{name}`, of all such URIs.

        The function gets the parts as texts: `{name}` is what has no slash, `{+name}` a path. It gives a text, bytes,
        or a value that becomes JSON.
        """
        template = Template(uri)
        names = template.names

        def register(function: F) -> F:
            if uri in self._resources:
                raise ValueError(f"there is a resource {uri!r} already")
            spec = Function(function, context=Context)
            if sorted(it.name for it in spec.parameters) != sorted(names):
                raise TypeError(
                    f"{spec.name}: its parameters must be the parts of {uri!r}: {', '.join(names) or 'none'}"
                )
            about = {
                ("uriTemplate" if names else "uri"): uri,
                "name": name or spec.name,
                "title": title,
                "description": description or spec.description,
                "mimeType": mime_type,
                "icons": icons_of(icons),
            }
            method = self._calling(uri, spec, thread, lambda result, life: result)
            self._resources[uri] = _Resource(present(about), method, template if names else None)
            self._changed("resources")
            return function

        return register

    def remove_resource(self, uri: str) -> None:
        """Take a resource away, and tell the hosts."""
        del self._resources[uri]
        self._changed("resources")

    def resource_updated(self, uri: str) -> None:
        """Tell the hosts that have subscribed to a resource that it has changed. Any thread may do that."""
        for life in list(self._lives.values()):
            if uri in life.subscribed and life.session is not None:
                life.session.notify("notifications/resources/updated", {"uri": uri})

    @overload
    def prompt(self, name: F) -> F:
        ...

    @overload
    def prompt(
        self,
        name: Optional[str] = None,
        *,
        title: Optional[str] = None,
        description: Optional[str] = None,
        icons: Optional[Sequence[Icon]] = None,
        thread: bool = False,
    ) -> Callable[[F], F]:
        ...

    def prompt(
        self,
        name: Union[str, Callable[..., Any], None] = None,
        *,
        title: Optional[str] = None,
        description: Optional[str] = None,
        icons: Optional[Sequence[Icon]] = None,
        thread: bool = False,
    ) -> Any:
        """Register a function as a prompt, under this name or its own. Its arguments are texts.

        It gives a text, which is the user's, a message as `{"role": .., "content": ..}`, or a list of these.
        """
        if callable(name):
            return self.prompt()(name)
        given = name

        def register(function: F) -> F:
            spec = Function(function, context=Context)
            called = given or spec.name
            if called in self._prompts:
                raise ValueError(f"there is a prompt {called!r} already")
            arguments = [
                present({"name": it.name, "description": spec.about(it.name), "required": it.is_needed})
                for it in spec.parameters
            ]
            about = {
                "name": called,
                "title": title,
                "description": description or spec.description,
                "arguments": arguments or None,
                "icons": icons_of(icons),
            }

            def made(result: Any, life: Life) -> Json:
                return present(
                    {"description": about["description"], "messages": _messages(result, life.version)}
                )

            self._prompts[called] = _Prompt(present(about), self._calling(called, spec, thread, made))
            self._changed("prompts")
            return function

        return register

    def remove_prompt(self, name: str) -> None:
        """Take a prompt away, and tell the hosts."""
        del self._prompts[name]
        self._changed("prompts")

    def completion(self, of: str, argument: str) -> Callable[[F], F]:
        """Register what completes an argument of a prompt, by its name, or of a resource, by its URI with parts.

        The function gets what is typed so far, and gives a list of texts. Where it has a parameter `arguments`, that
        gets what the other arguments are.
        """

        def register(function: F) -> F:
            spec = Function(function, {"type": "object"}, Context)
            names = [it.name for it in spec.parameters]
            if not names or len(names) > 2 or (len(names) == 2 and names[1] != "arguments"):
                raise TypeError(
                    f"{spec.name}: write `def complete(value)`, or `def complete(value, arguments)`"
                )

            def call(params: Any, request: Request) -> Any:
                value, others = params["value"], params["arguments"]
                result = function(*([value, others] if len(names) == 2 else [value]))
                return later(result) if inspect.isawaitable(result) else _completed(result)

            async def later(result: Any) -> Any:
                return _completed(await result)

            self._completions[of, argument] = raw(of, call, PLAIN)
            return function

        return register

    # Over HTTP

    def asgi(self, **settings: Any) -> App:
        """An ASGI application that is this server over Streamable HTTP; `settings` are those of `HttpSettings`.

        It may be mounted below any path, and needs no lifespan.
        """
        from ._asgi import App  # (here, since a server on standard streams starts sooner without)
        from ._http_settings import HttpSettings

        return App(self, HttpSettings(**settings))

    def run_http(self, port: int = 8000, host: str = "127.0.0.1", **settings: Any) -> None:
        """Answer over HTTP, at the path "/mcp" where the settings have no other, until Ctrl-C.

        That takes uvicorn. Any other server for ASGI can run `server.asgi()`. Raises ImportError where it isn't there.
        """
        from ._serving import run_http

        run_http(self, host, port, settings)

    # Sessions

    def _changed(self, what: str) -> None:
        for life in list(self._lives.values()):
            if life.is_ready and life.session is not None:
                life.session.notify(f"notifications/{what}/list_changed")

    def elicitation_complete(self, elicitation_id: str) -> None:
        """Tell the host whose user was asked to open a page that this is done. Any thread may do that."""
        for life in list(self._lives.values()):
            if elicitation_id in life.elicitations and life.session is not None:
                life.elicitations.discard(elicitation_id)
                life.session.notify("notifications/elicitation/complete", {"elicitationId": elicitation_id})

    def log(self, level: str, data: Any, logger: Optional[str] = None) -> None:
        """Send all hosts a log message, where they want messages of this level. Any thread may do that."""
        check_level(level)
        for life in list(self._lives.values()):
            self.log_to(life, level, data, logger)

    @staticmethod
    def log_to(
        life: Life, level: str, data: Any, logger: Optional[str] = None, request: Optional[Request] = None
    ) -> None:
        """Send one host a log message, on behalf of a request where there is one."""
        check_level(level)
        if life.is_begun and life.session is not None and LEVELS.index(level) >= LEVELS.index(life.level):
            about = present({"level": level, "logger": logger})
            notify = life.session.notify if request is None else request.notify
            notify("notifications/message", {**about, "data": data})

    # The protocol's life

    def _initialize(self, params: Any, request: Request) -> Json:
        life = self._life_of(request)
        if life.is_begun:
            raise Error(INVALID_REQUEST, "Invalid Request: initialize has come already")
        wanted = _member(params, "protocolVersion", str)
        for name in ("capabilities", "clientInfo"):
            _member(params, name, dict)
        life.params = params
        life.version = wanted if wanted in self._versions else self._versions[0]
        life.is_begun = True
        life.has_tasks = not life.is_stateless and self._has_tasks(life.version)
        result = {
            "protocolVersion": life.version,
            "capabilities": self._capabilities(life),
            "serverInfo": program(self._about, life.version),
        }
        return present({**result, "instructions": self.instructions})

    def _capabilities(self, life: Life) -> Json:
        # (without state nobody can be told later what has changed)
        changed: Json = {} if life.is_stateless else {"listChanged": True}
        made: Json = {"logging": {}, "tools": changed}
        if self._resources:
            made["resources"] = {} if life.is_stateless else {"subscribe": True, **changed}
        if self._prompts:
            made["prompts"] = {**changed}
        if self._completions and life.version >= "2025-03-26":
            made["completions"] = {}
        if life.has_tasks:
            made["tasks"] = {"list": {}, "cancel": {}, "requests": {"tools": {"call": {}}}}
        return merged(made, self._by_hand)

    def _has_tasks(self, version: str) -> bool:
        return version >= "2025-11-25" and any(it.task != "forbidden" for it in self._tools.values())

    def _initialized(self, params: Any, request: Request) -> None:
        self._life_of(request).is_ready = True

    def _set_level(self, params: Any, request: Request) -> Json:
        level = _member(params, "level", str)
        if level not in LEVELS:
            raise InvalidParams(f"Invalid params: level must be one of {', '.join(LEVELS)}")
        self._life_of(request).level = level
        return {}

    # What hosts ask for

    def _page(self, params: Any, name: str, items: List[Json], request: Request) -> Json:
        """One page of a list, with the members that the version has."""
        version = self._life_of(request).version
        at = _place_of(params, len(items))
        end = len(items) if self._page_size is None else min(at + self._page_size, len(items))
        page: Json = {name: [known(it, version) for it in items[at:end]]}
        if end < len(items):
            page["nextCursor"] = base64.b64encode(b"%d" % end).decode("ascii")
        return page

    def _list_tools(self, params: Any, request: Request) -> Json:
        return self._page(params, "tools", [it.about for it in self._tools.values()], request)

    def _call_tool(self, params: Any, request: Request) -> Any:
        name = _member(params, "name", str)
        _member(params, "arguments", dict, is_needed=False)
        tool = self._tools.get(name)
        if tool is None:
            raise InvalidParams(f"Unknown tool: {name[:200]}")
        life = self._life_of(request)
        if not life.has_tasks:  # (then `task` says nothing)
            return handed(tool.method, params, request)
        is_task = _member(params, "task", dict, is_needed=False) is not None
        if is_task and tool.task == "forbidden":
            raise Error(METHOD_NOT_FOUND, f"Method not found: {name} can't be called as a task")
        if not is_task and tool.task == "required":
            raise Error(METHOD_NOT_FOUND, f"Method not found: {name} can be called as a task only")
        if is_task:
            return life.tasks.start(tool.as_task, params, request, self._task_ttl)
        return handed(tool.method, params, request)

    def _list_tasks(self, params: Any, request: Request) -> Json:
        return self._page(params, "tasks", self._tasks_of(request).all(), request)

    def _tasks_of(self, request: Request) -> Tasks:
        life = self._lives[request.session]
        if not life.has_tasks:
            raise Error(METHOD_NOT_FOUND, f"Method not found: {request.method}")
        return life.tasks

    async def _task_result(self, params: Any, request: Request) -> Json:
        return await asyncio.shield(self._tasks_of(request).found(params).outcome)

    def _list_resources(self, params: Any, request: Request) -> Json:
        items = [it.about for it in self._resources.values() if it.template is None]
        return self._page(params, "resources", items, request)

    def _list_templates(self, params: Any, request: Request) -> Json:
        items = [it.about for it in self._resources.values() if it.template is not None]
        return self._page(params, "resourceTemplates", items, request)

    def _found(self, uri: str) -> Tuple[_Resource, Json]:
        """The resource of a URI, and the parts of it that its function gets."""
        exact = self._resources.get(uri)
        if exact is not None and exact.template is None:
            return exact, {}
        for it in self._resources.values():
            found = None if it.template is None else it.template.parts_of(uri)
            if found is not None:
                return it, found
        raise Error(RESOURCE_NOT_FOUND, "Resource not found", {"uri": uri})

    def _read_resource(self, params: Any, request: Request) -> Any:
        return self._read(_member(params, "uri", str), params, request)

    def _read(self, uri: str, params: Json, request: Request) -> Any:
        resource, parts = self._found(uri)

        def made(result: Any) -> Json:
            return {"contents": [contents_of(uri, result, resource.about.get("mimeType"))]}

        async def later(result: Any) -> Json:
            return made(await result)

        result = handed(resource.method, {**params, "arguments": parts}, request)
        return later(result) if inspect.isawaitable(result) else made(result)

    async def contents_of(self, uri: str, life: Life, request: Request) -> List[Json]:
        """The contents of a resource of this server's own."""
        result = self._read(uri, {}, request)
        read: Json = await result if inspect.isawaitable(result) else result
        contents: List[Json] = read["contents"]
        return contents

    def _subscribe(self, params: Any, request: Request) -> Json:
        uri = _member(params, "uri", str)
        self._found(uri)
        subscribed = self._life_of(request).subscribed
        if len(subscribed) >= _MOST_SUBSCRIBED or len(uri) > _LONGEST_SUBSCRIBED:
            raise Error(TOO_MANY_OPEN, "Too many subscriptions, or too long a URI")
        subscribed.add(uri)
        return {}

    def _unsubscribe(self, params: Any, request: Request) -> Json:
        self._life_of(request).subscribed.discard(_member(params, "uri", str))
        return {}

    def _list_prompts(self, params: Any, request: Request) -> Json:
        return self._page(params, "prompts", [it.about for it in self._prompts.values()], request)

    def _get_prompt(self, params: Any, request: Request) -> Any:
        name = _member(params, "name", str)
        given = _member(params, "arguments", dict, is_needed=False) or {}
        prompt = self._prompts.get(name)
        if prompt is None:
            raise InvalidParams(f"Unknown prompt: {name[:200]}")
        _check_texts(given, "arguments")
        return handed(prompt.method, params, request)

    def _complete(self, params: Any, request: Request) -> Any:
        ref, argument = _member(params, "ref", dict), _member(params, "argument", dict)
        kind = _member(ref, "type", str)
        if kind not in ("ref/prompt", "ref/resource"):
            raise InvalidParams(f"Invalid params: there is no reference of type {kind[:60]!r}")
        of = _member(ref, "name" if kind == "ref/prompt" else "uri", str)
        if of not in (list(self._prompts) if kind == "ref/prompt" else list(self._resources)):
            raise InvalidParams(f"Invalid params: there is nothing to complete of the name {of[:200]!r}")
        value = _member(argument, "value", str)
        method = self._completions.get((of, _member(argument, "name", str)))
        if method is None:
            return _completed([])
        context = _member(params, "context", dict, is_needed=False) or {}
        others = _member(context, "arguments", dict, is_needed=False) or {}
        _check_texts(others, "context.arguments")
        return handed(method, {"value": value, "arguments": others}, request)


def _object(params: Any) -> Json:
    """Params by name. Raises InvalidParams."""
    if not isinstance(params, dict):
        raise InvalidParams(f"Invalid params: params must be an object, got {type_of(params)}")
    return params


def _member(params: Any, name: str, kind: type, is_needed: bool = True) -> Any:
    """A member of params. Raises InvalidParams where it is missing, or of another kind."""
    value = _object(params).get(name)
    if value is None and not is_needed:
        return None
    if type(value) is not kind:
        words = "a string" if kind is str else "an object"
        wrong = f"must be {words}, got {type_of(value)}" if name in params else "is missing"
        raise InvalidParams(f"Invalid params: {name} {wrong}")
    return value


def _check_texts(members: Json, place: str) -> None:
    for name, it in members.items():
        if not isinstance(it, str):
            raise InvalidParams(f"Invalid params: {place}.{name[:60]} must be a string, got {type_of(it)}")


def _place_of(params: Any, count: int) -> int:
    """Where the page of a cursor begins."""
    cursor = None if params is None else _object(params).get("cursor")
    if cursor is None:
        return 0
    try:
        at = int(base64.b64decode(cursor, validate=True))
    except (TypeError, ValueError, binascii.Error):
        at = -1
    if not 0 < at <= count:
        raise InvalidParams("Invalid params: this cursor isn't one of this list's")
    return at


def _plain(value: Any) -> Any:
    """A value as JSON has it."""
    return plain_loads(json_of(value))


def _tool_result(result: Any, version: str, check: Optional[Checker], is_member: bool) -> Json:
    if isinstance(result, ToolResult):
        parts = [part for it in result.content for part in parts_of(it, version)]
        made: Json = {"content": parts, "isError": True if result.is_error else None, "_meta": result.meta}
        return present(
            {**made, "structuredContent": _plain(result.structured) if version >= "2025-06-18" else None}
        )
    structured = None
    if check is not None:
        structured = {"result": _plain(result)} if is_member else _plain(result)
        try:
            check(structured, "the result")
        except InvalidParams as fault:
            raise ValueError(str(fault.message).replace("Invalid params: ", "")) from None
    elif isinstance(result, dict) or dataclasses.is_dataclass(result) and not isinstance(result, Content):
        structured = _plain(result)
    # (a structured value stands there as a text too, for hosts that know nothing of it)
    parts = parts_of(result, version)
    if structured is not None and version >= "2025-06-18":
        return {"content": parts, "structuredContent": structured}
    return {"content": parts}


def _failed(name: str, error: Exception, life: Life) -> Json:
    """What a tool that raised gives: an error that the model may see."""
    # (since 2025-11-25 a model may see wrong arguments too, and try others)
    if isinstance(error, InvalidParams) and life.version < "2025-11-25":
        raise error
    if isinstance(error, (ToolError, Error, Closed, InvalidResult)):
        words = str(error.message) if isinstance(error, Error) else words_of_error(error)
    else:
        log.error("the tool %s raised %s", name, type(error).__name__, exc_info=error)
        is_told = life.session is None or life.session.tells_errors
        told = (type(error).__name__, words_of_error(error)) if is_told else ("the tool failed",)
        words = ": ".join(filter(None, told))
    return {"content": [text(words_of(words))], "isError": True}


def _limited_task(method: Method, seconds: float) -> Method:
    """The method for a task, whose request is answered already, so that what limits requests can't end it."""

    async def run(params: Any, request: Any) -> Any:
        try:
            return await asyncio.wait_for(handed(method, params, request), seconds)
        except asyncio.TimeoutError:
            return _took_longer(seconds)

    return raw(method.name, run, ASYNC)


def _took_longer(seconds: float) -> Json:
    return {"content": [text(f"The tool took longer than {seconds:g} seconds")], "isError": True}


def _late(request: Request, seconds: float) -> None:
    log.warning("%s took longer than %g seconds", request.method, seconds)
    request.answer(_took_longer(seconds))


def _messages(result: Any, version: str) -> List[Json]:
    given = result if isinstance(result, (list, tuple)) else [result]
    messages = []
    for it in given:
        if isinstance(it, (str, Content)):
            it = {"role": "user", "content": it}
        content = it["content"]
        if isinstance(content, (str, Content)):
            content = parts_of(content, version)[0]
        messages.append({**it, "content": content})
    return messages


def _completed(values: Any) -> Json:
    found = list(values)
    page = found[:_MOST_VALUES]
    return {"completion": {"values": page, "total": len(found), "hasMore": len(found) > len(page)}}
