"""A language server: features by decorator, over `Server`."""
from __future__ import annotations

import functools
import sys
from _thread import get_ident

from .._hints import TYPE_CHECKING
from .._lives import LivingServer
from .._log import log
from .._merging import merged
from .._methods import ASYNC, Method
from .._middleware import handed, limited
from .._request import LATER, Request
from .._session import Session
from .._signatures.calls import Filling
from .._signatures.fits import fit_for
from .._signatures.marks import marked
from .._signatures.parameters import EMPTY, POSITIONAL, annotation_in, is_async, is_awaitable, names_class
from .._signatures.parameters import parameters_of
from ..errors import Error, InvalidParams, INVALID_REQUEST, METHOD_NOT_FOUND
from ._checking import PARAMS, RESULTS, check_result, check_sent, checked
from ._capabilities import DYNAMIC, FULL, INCREMENTAL, capabilities_of, encoding_for, lacks
from ._editor import Editor
from ._life import CURRENT, NEW, RUNNING, SHUT, STARTING, Life
from ._plain import plain
from ._registering import check_feature, check_method, check_options
from ._text import ENCODINGS
from .documents import Document
from .workspace import Workspace

if TYPE_CHECKING:
    from typing import Any, Callable, Dict, Iterable, NoReturn, Optional, TypeVar

    from ._features import Feature

    F = TypeVar("F", bound=Callable[..., Any])
    T = TypeVar("T")
    Json = Dict[str, Any]
else:
    Any = object  # (the annotations of what is registered here are read)


_SYNC = {"full": FULL, "incremental": INCREMENTAL}
_THREAD = "__bullmyrtle_thread__"


class LanguageServer(Editor, LivingServer):
    """A language server, as for an editor.

    >>> server = LanguageServer("words", "1.0")
    >>> @server.feature("textDocument/hover")
    ... def hover(ls, params):
    ...     return {"contents": ls.document(params).word_at(params["position"])}

    `server.start_io()` then answers on the standard streams, until the editor says `exit`.
    """

    _Life = Life
    _lives: Dict[Session, Life]

    def __init__(
        self,
        name: str = "",
        version: Optional[str] = None,
        *,
        sync: str = "incremental",
        position_encodings: Iterable[str] = ENCODINGS,
        capabilities: Optional[Json] = None,
        converter: Any = None,
        checks: Optional[str] = PARAMS,
        **settings: Any,
    ) -> None:
        """Make one, without features yet.

        name, version -- what the editor is told
        sync -- whether the editor tells changes as they are made ("incremental") or whole texts ("full")
        position_encodings -- those that may be agreed on: "utf-8", "utf-16", "utf-32"
        capabilities -- what is to be told beside, or in the place of, what the features tell
        converter -- what makes other types of params, and JSON of results: it has `structure(value, type)` and
            `unstructure(value)`, as those of cattrs and lsprotocol have
        checks -- what is held to LSP's types: "params" that come in; with "results", for tests, what features return and
            what is sent too; or None
        settings -- those of a `Server`
        """
        if checks not in (PARAMS, RESULTS, None):
            raise ValueError(f"the checks are 'params', 'results' or None: {checks!r}")
        self._checks = checks
        settings.setdefault("protocol", "lsp")
        super().__init__(**settings)
        if sync not in _SYNC:
            raise ValueError(f"documents are kept by 'incremental' or 'full' changes: {sync!r}")
        self.name, self.version = name, version
        self._sync = _SYNC[sync]
        self._encodings = tuple(position_encodings)
        if not set(self._encodings) <= set(ENCODINGS):
            raise ValueError(f"the encodings are {', '.join(ENCODINGS)}: {self._encodings!r}")
        self._by_hand = capabilities or {}
        self._converter = converter
        self._features: Dict[str, Optional[Json]] = {}
        self._users: Dict[str, Method] = {}  # what is called behind what is built in
        self._commands: Dict[str, Method] = {}
        self._builtin: Dict[str, Callable[[Any, Life], None]] = {
            "textDocument/didOpen": lambda params, life: life.workspace.opened(params),
            "textDocument/didChange": lambda params, life: life.workspace.changed(params),
            "textDocument/didClose": lambda params, life: life.workspace.closed(params),
            "workspace/didChangeWorkspaceFolders": lambda params, life: life.workspace.folders_changed(
                params
            ),
            "$/setTrace": _set_trace,
            "window/workDoneProgress/cancel": _cancel_progress,
            "initialized": lambda params, life: None,
        }
        for method in self._builtin:
            self._add(method, functools.partial(self._told, method))
        self._add("initialize", self._initialize)
        self._add("shutdown", self._shutdown)
        self._add("exit", self._exit)
        self._add("workspace/executeCommand", self._execute)
        self._own = frozenset(self._methods)

    def _add(self, name: str, function: Callable[..., Any]) -> None:
        # (what is built in relies on its params, whatever is checked beside)
        self._methods.add(_entered(checked(Method(name, function, False)), None, self._checks == RESULTS))

    # What is registered

    if TYPE_CHECKING:
        feature: Feature
    else:

        def feature(self, name, options=None, *, thread=False, timeout=None):
            """Register a function as the method of this name, and tell the editor that there is one.

            The options go to the capability that tells it. A first parameter that is named `ls`, or annotated with this
            class, gets the server; the others are as with `Server.method`. `initialize`, `initialized`, `shutdown`, `exit`,
            and the notifications that tell of documents and folders are done here: a feature of such a name is called
            behind that, when the document is as it says; one of `exit` before it.

            Raises ValueError where LSP has no such method of servers though its name begins like one of LSP's, and TypeError
            where the method's registration has no such option.
            """
            return self._feature(name, options, thread, timeout)

    def _feature(
        self, name: str, options: Optional[Json], thread: bool, timeout: Optional[float]
    ) -> Callable[[F], F]:
        check_feature(name)
        if options is not None:
            options = self._plain(options)
            check_options(name, options)
        missing = lacks(name, options, self._features, self._by_hand)
        if missing is not None:
            raise TypeError(f"{name} needs options with {missing!r}, since nothing else can tell it")

        def register(function: F) -> F:
            if name in self._features or name == "workspace/executeCommand":
                hint = ": use command" if name not in self._features else ""
                raise ValueError(f"there is a feature {name!r} already{hint}")
            is_own, is_checked = name in self._own, self._checks is not None
            # (params that something built in has are checked there)
            how = (lambda method, _: checked(method)) if is_checked and not is_own else _as_it_is
            method = self._method(name, function, thread, timeout, how)
            if is_own:
                self._users[name] = method
            else:
                self._methods.add(method)
            self._features[name] = options
            return function

        return register

    def _check_name(self, name: str) -> None:
        check_method(name)

    def register(self, instance: T) -> T:
        """Register what is marked of an instance by `@bullmyrtle.method("name")` as features, and give it back."""
        for it, function in marked(instance):
            self.feature(it.name, thread=it.thread, timeout=it.timeout)(function)
        return instance

    def command(
        self, name: str, *, thread: bool = False, timeout: Optional[float] = None
    ) -> Callable[[F], F]:
        """Register a function as a command of the editor's. Its parameters are filled by the command's arguments."""
        if not isinstance(name, str):
            raise TypeError('a command has a name: write @server.command("name")')

        def register(function: F) -> F:
            if name in self._commands:
                raise ValueError(f"there is a command {name!r} already")
            self._commands[name] = self._method(name, function, thread, timeout, filled)
            return function

        return register

    @staticmethod
    def thread() -> Callable[[F], F]:
        """Mark a function that is to run in a thread; to be written below `feature` or `command`."""

        def mark(function: F) -> F:
            setattr(function, _THREAD, True)
            return function

        return mark

    def _method(
        self,
        name: str,
        function: Any,
        thread: bool,
        timeout: Optional[float],
        how: Callable[[Method, Any], Method],
    ) -> Method:
        thread = thread or getattr(function, _THREAD, False)
        ours = self._converted(self._bound(function))
        method = how(Method(name, ours, thread), ours)
        return limited(_entered(method, self._converter, self._checks == RESULTS), timeout)

    def _bound(self, function: Any) -> Any:
        """The function with the server as its first argument, where it takes that."""
        try:
            first = next(iter(parameters_of(function)), None)
        except (TypeError, ValueError):
            return function
        if first is None or first.kind not in POSITIONAL:
            return function
        if first.name == "ls" or names_class(function, first, LanguageServer):
            return functools.partial(function, self)
        return function

    def _converted(self, function: Any) -> Any:
        """The function with params of another type than JSON's, where it asks for one and there is a converter."""
        if self._converter is None:
            return function
        parameters = parameters_of(function)
        if not parameters or parameters[0].annotation is EMPTY:
            return function
        kind = annotation_in(function, parameters[0].name)
        try:
            fit_for(kind)
            return function
        except TypeError:
            pass
        structure, takes_request = self._converter.structure, len(parameters) > 1

        def call(params: Any, request: Request) -> Any:
            try:
                value = structure(params, kind)
            except Exception as error:
                raise request.session.invalid_params(error) from error
            return function(value, request) if takes_request else function(value)

        async def call_async(params: Any, request: Request) -> Any:
            return await call(params, request)

        return call_async if is_async(function) else call

    def _plain(self, value: Any) -> Any:
        return plain(value) if self._converter is None else self._converter.unstructure(value)

    # Sessions

    def _request(self) -> Optional[Request]:
        """The request that the code which runs now works on. What it began and left to itself works on none."""
        request = CURRENT.get()
        if request is None or request.session not in self._sessions:
            return None
        is_here = get_ident() == request.session._transport.thread
        if is_here and request.task is not None:
            import asyncio

            if asyncio.current_task() is not request.task:
                return None
        return request if request.is_cancelled or request.is_open else None

    def _single(self, instead: str) -> Session:
        """The session that this code works for, or the only one."""
        request = CURRENT.get()
        return (
            request.session
            if request is not None and request.session in self._sessions
            else super()._single(instead)
        )

    @property
    def life(self) -> Life:  # type: ignore[override]
        """What is known of the session."""
        return self._lives[self._single("it")]

    def call(self, method: str, params: Any = None, *, timeout: Optional[float] = None) -> Any:
        """Call the editor, on behalf of the request that this code works on, if that isn't answered yet.

        In an `async def` it gives what is to be awaited; in a thread it blocks, and gives the result. A call that takes
        longer than `timeout` seconds is cancelled, and raises `TimedOut`.
        """
        return self._single("it")._outgoing.call_one(
            method, self._sent(method, params), self._request(), timeout
        )

    def notify(self, method: str, params: Any = None) -> None:
        """Send the editor a notification. Any thread may do that."""
        self._single("it").notify(method, self._sent(method, params))

    def _sent(self, method: str, params: Any) -> Any:
        made = self._plain(params)
        if self._checks == RESULTS:
            check_sent(method, made)
        return made

    # What is known

    @property
    def workspace(self) -> Workspace:
        """The open documents, and the folders."""
        return self.life.workspace

    def document(self, about: Any) -> Document:
        """An open document, by params that have a `textDocument` or by its URI. In a thread it is a snapshot.

        Raises InvalidParams where it isn't open.
        """
        return self.life.workspace.document(about)

    @property
    def client_capabilities(self) -> Json:
        """What the editor can do."""
        return self.life.client_capabilities

    def client_has(self, path: str) -> Any:
        """One capability of the editor's, as "window.workDoneProgress"; None where it has none."""
        return self.life.client_has(path)

    @property
    def initialize_params(self) -> Json:
        """What `initialize` said."""
        return self.life.params

    @property
    def initialization_options(self) -> Any:
        """What the user's settings gave `initialize`."""
        return self.life.params.get("initializationOptions")

    @property
    def position_encoding(self) -> str:
        """In what positions count: the encoding that was agreed on."""
        return self.life.workspace.encoding

    # The protocol's life

    def _told(self, name: str, params: Any, request: Request) -> Any:
        self._builtin[name](params, self._life_of(request))
        if name == "initialized":
            self._register_while_it_runs()
        return self._go_on(name, params, request)

    def _go_on(self, name: str, params: Any, request: Request) -> Any:
        """What the program's own feature of a built-in name gives."""
        user = self._users.get(name)
        return None if user is None else handed(user, params, request)

    def _initialize(self, params: Any, request: Request) -> Any:
        life = self._life_of(request)
        if request.is_notification:  # (nobody would learn what was agreed on)
            log.warning("initialize: it came as a notification, and is dropped")
            return None
        if life.state is STARTING and life.beginning not in request.session._incoming.open:
            life.state = NEW  # (the one before was cancelled)
        if life.state is not NEW:
            raise Error(INVALID_REQUEST, "Invalid Request: initialize has come already")
        life.params, life.state, life.beginning = params, STARTING, request.number
        life.trace = params.get("trace") or "off"
        encoding = encoding_for(life.client_capabilities, self._encodings)
        try:
            life.workspace.begin(params, encoding or "utf-16")
            told = self._go_on("initialize", params, request)
        except BaseException:
            life.state = NEW
            raise
        result = functools.partial(self._initialized, life, encoding)
        return self._later(life, told, result) if is_awaitable(told) else result(told)

    @staticmethod
    async def _later(life: Life, told: Any, result: Callable[[Any], Json]) -> Json:
        try:
            return result(await told)
        except BaseException:
            life.state = NEW
            raise

    def _initialized(self, life: Life, encoding: Optional[str], told: Any) -> Json:
        made = capabilities_of(self._features, self._commands, self._sync, self._by_hand)
        if encoding is not None:
            made["positionEncoding"] = encoding
        about = {"name": self.name} if self.version is None else {"name": self.name, "version": self.version}
        result = {"capabilities": made, **({"serverInfo": about} if self.name else {})}
        life.state = RUNNING
        return merged(result, told) if isinstance(told, dict) else result

    def _register_while_it_runs(self) -> None:
        for method, capability in DYNAMIC.items():
            options = self._features.get(method)
            if options is not None and self.client_has(capability):
                self._single("it").loop.create_task(self._register_quietly(method, options))

    async def _register_quietly(self, method: str, options: Json) -> None:
        try:
            await self.register_capability(method, options)
        except Exception as error:
            log.warning("%s can't be registered: %s", method, error)

    def _shutdown(self, params: Any, request: Request) -> Any:
        self._life_of(request).state = SHUT
        told = self._go_on("shutdown", params, request)
        return self._nothing(told) if is_awaitable(told) else None

    @staticmethod
    async def _nothing(told: Any) -> None:
        await told

    def _exit(self, params: Any, request: Request) -> Any:
        if not request.is_notification:
            is_shut = self._life_of(request).state is SHUT
            raise Error(INVALID_REQUEST if is_shut else METHOD_NOT_FOUND, "exit is a notification")
        told = self._go_on("exit", params, request)
        if is_awaitable(told):
            return self._exit_later(told, request)
        self._stop(request)
        return None

    async def _exit_later(self, told: Any, request: Request) -> None:
        try:
            await told
        finally:
            self._stop(request)

    def _stop(self, request: Request) -> None:
        status = 0 if self._life_of(request).state is SHUT else 1
        request.session.stop(status, grace=0)

    # Commands

    def _execute(self, params: Any, request: Request) -> Any:
        name = params["command"]
        command = self._commands.get(name)
        if command is None:
            raise InvalidParams(f"Invalid params: there is no command {name[:200]!r}")
        return handed(command, params.get("arguments") or [], request)

    # Ways to run it

    def start_io(self) -> NoReturn:
        """Answer on the standard streams, and end the process with the status of `run`."""
        sys.exit(self.run())

    def start_tcp(self, host: str, port: int) -> None:
        """Answer anyone who connects to this address, until the process is interrupted."""
        import asyncio

        async def answer(reader: asyncio.StreamReader, writer: asyncio.StreamWriter) -> None:
            await self.serve_async(reader, writer)

        async def serve() -> None:
            listening = await asyncio.start_server(answer, host, port)
            async with listening:
                await listening.serve_forever()

        try:
            asyncio.run(serve())
        except KeyboardInterrupt:
            pass


def _as_it_is(method: Method, function: Any) -> Method:
    return method


def filled(method: Method, function: Any) -> Method:
    """The method, whose one parameter gets one argument, and not all of them, unless it is named `arguments`."""
    if isinstance(method.fit, Filling) or not method.takes:
        return method
    one = parameters_of(function)[0]
    if one.name in ("arguments", "args", "params") or method.takes == 2:
        return method
    inner, method.fit = method.function, Filling(function, [one], frozenset())
    method.function = lambda given: inner(*given[0])
    return method


def _set_trace(params: Any, life: Life) -> None:
    value = params["value"]
    if value not in ("off", "messages", "verbose"):
        raise InvalidParams(f"Invalid params: there is no such trace: {value[:50]!r}")
    life.trace = value


def _cancel_progress(params: Any, life: Life) -> None:
    progress = life.progresses.get(params["token"])
    if progress is not None:
        progress.cancel()


def _entered(method: Method, converter: Any, checks_results: bool) -> Method:
    """The method, while whose code runs it is known which request it works on."""
    inner, takes, name = method.function, method.takes, method.name

    def call(given: Any, request: Request) -> Any:
        return inner() if not takes else inner(given) if takes == 1 else inner(given, request)

    def made(result: Any) -> Any:
        if result is not LATER and result is not None:
            result = plain(result) if converter is None else converter.unstructure(result)
        if checks_results and result is not LATER:
            check_result(name, result)
        return result

    def entered(given: Any, request: Request) -> Any:
        token = CURRENT.set(request)
        try:
            result = call(given, request)
        finally:
            CURRENT.reset(token)
        return _awaited(result) if is_awaitable(result) else made(result)

    async def _awaited(result: Any) -> Any:
        return made(await result)

    async def entered_async(given: Any, request: Request) -> Any:
        CURRENT.set(request)
        return made(await call(given, request))

    method.function, method.takes, method.is_quick = entered, 2, False
    if method.kind is ASYNC:
        method.function = entered_async
    return method
