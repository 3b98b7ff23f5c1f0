"""What a language server asks and tells its editor, by name."""
from __future__ import annotations


from .._hints import TYPE_CHECKING
from .._request import Request
from ..errors import InvalidParams
from ._life import Life
from .documents import Document
from .progress import Partial, Progress

if TYPE_CHECKING:
    from typing import Any, Dict, List, Optional, Union

    from .server import LanguageServer

    Json = Dict[str, Any]


#: The types of messages, as `show_message` takes them by name or number.
MESSAGE_TYPES = {"error": 1, "warning": 2, "info": 3, "log": 4}


def _type(kind: Union[int, str]) -> int:
    if isinstance(kind, str):
        if kind not in MESSAGE_TYPES:
            raise ValueError(f"a message is one of {', '.join(MESSAGE_TYPES)}: {kind!r}")
        return MESSAGE_TYPES[kind]
    return int(kind)


class Editor:
    """The editor's side, as a server calls it.

    What is a request gives what is to be awaited, in an `async def`; in a thread it blocks and gives the result.
    """

    life: Life

    def call(self, method: str, params: Any = None, *, timeout: Optional[float] = None) -> Any:
        """Send a request, on behalf of the one that this code works on, if there is one."""
        raise NotImplementedError

    def notify(self, method: str, params: Any = None) -> None:
        """Send a notification. Any thread may do that."""
        raise NotImplementedError

    def _request(self) -> Optional[Request]:
        raise NotImplementedError

    # Messages

    def show_message(self, message: str, msg_type: Union[int, str] = "info") -> None:
        """Show the user a message: "error", "warning", "info" or "log"."""
        self.notify("window/showMessage", {"type": _type(msg_type), "message": message})

    def show_message_log(self, message: str, msg_type: Union[int, str] = "log") -> None:
        """Put a message into the editor's log."""
        self.notify("window/logMessage", {"type": _type(msg_type), "message": message})

    log_message = show_message_log

    def show_message_request(
        self, message: str, actions: List[str], msg_type: Union[int, str] = "info"
    ) -> Any:
        """Show a message with buttons. The result is `{"title": ..}` of the one that was chosen, or None."""
        titles = [{"title": it} for it in actions]
        about = {"type": _type(msg_type), "message": message, "actions": titles}
        return self.call("window/showMessageRequest", about)

    def show_document(self, uri: str, **options: Any) -> Any:
        """Show a document: `external`, `takeFocus` and `selection` are its options."""
        return self.call("window/showDocument", {"uri": uri, **options})

    def send_telemetry(self, event: Any) -> None:
        """Send an event to the editor's telemetry."""
        self.notify("telemetry/event", event)

    def log_trace(self, message: str, verbose: Optional[str] = None) -> None:
        """Tell what happens here, where the editor has asked for a trace; more of it, where it asked for "verbose"."""
        trace = self.life.trace
        if trace == "off":
            return
        about = {"message": message}
        if verbose is not None and trace == "verbose":
            about["verbose"] = verbose
        self.notify("$/logTrace", about)

    # Documents

    def publish_diagnostics(
        self, document: Union[Document, str], diagnostics: List[Any], version: Optional[int] = None
    ) -> None:
        """Tell what is wrong with a document. The version they belong to is the document's, or the one that is given."""
        if isinstance(document, str):
            uri, there = document, self.life.workspace.documents.get(document)
        else:
            uri, there = document.uri, document
        about: Json = {"uri": uri, "diagnostics": diagnostics}
        if version is None and there is not None:
            version = there.version
        if version is not None:
            about["version"] = version
        self.notify("textDocument/publishDiagnostics", about)

    def apply_edit(self, edit: Json, label: Optional[str] = None) -> Any:
        """Have the editor apply a WorkspaceEdit. The result says whether it was `applied`."""
        about: Json = {"edit": edit} if label is None else {"label": label, "edit": edit}
        return self.call("workspace/applyEdit", about)

    # The editor's settings and folders

    def configuration(self, section: Optional[str] = None, scope_uri: Optional[str] = None) -> Any:
        """One setting of the editor's; None where it has none."""
        item = {name: it for name, it in (("section", section), ("scopeUri", scope_uri)) if it is not None}
        return self._then(self.configurations([item]), _first)

    def configurations(self, items: List[Json]) -> Any:
        """Several settings at once, each by `{"section": .., "scopeUri": ..}`: a list."""
        return self.call("workspace/configuration", {"items": items})

    def workspace_folders(self) -> Any:
        """Ask for the folders. Those that the editor told stand in `workspace.folders`."""
        return self.call("workspace/workspaceFolders")

    def _then(self, waited: Any, what: Any) -> Any:
        """What is made of a reply, in a thread or to be awaited."""
        if not hasattr(waited, "__await__"):
            return what(waited)

        async def then() -> Any:
            return what(await waited)

        return then()

    # Methods that come and go while the server runs

    def register_capability(self, method: str, options: Optional[Json] = None) -> Any:
        """Tell the editor of a method that it may call from now on. The result is an id, to unregister it by."""
        life = self.life
        id_ = life.new_token()
        about: Json = {"id": id_, "method": method}
        if options is not None:
            about["registerOptions"] = options

        def registered(_: Any) -> str:
            life.registered[id_] = method
            return id_

        return self._then(self.call("client/registerCapability", {"registrations": [about]}), registered)

    def unregister_capability(self, id_: str) -> Any:
        """Take that back."""
        life = self.life
        if id_ not in life.registered:
            raise ValueError(f"nothing is registered under {id_!r}")
        # (the specification spells it so)
        about = {"unregisterations": [{"id": id_, "method": life.registered[id_]}]}
        return self._then(
            self.call("client/unregisterCapability", about), lambda _: life.registered.pop(id_, None) and None
        )

    # What the editor is to ask for anew

    def refresh(self, what: str) -> Any:
        """Have the editor ask anew for "codeLens", "semanticTokens", "inlayHint", "inlineValue" or "diagnostics"."""
        if what not in ("codeLens", "semanticTokens", "inlayHint", "inlineValue", "diagnostics"):
            raise ValueError(f"there is nothing of this name to ask for anew: {what!r}")
        name = "diagnostic" if what == "diagnostics" else what
        return self.call(f"workspace/{name}/refresh")

    # Progress

    def progress(
        self,
        title: str,
        params: Any = None,
        *,
        message: Optional[str] = None,
        percentage: Optional[int] = None,
        cancellable: bool = False,
    ) -> Progress:
        """Work that the editor shows, as a context manager: `with` in a thread, `async with` in an `async def`.

        With the request's params its own token is used, where it has one.
        """
        begin: Json = {"title": title}
        for name, it in (
            ("message", message),
            ("percentage", percentage),
            ("cancellable", cancellable or None),
        ):
            if it is not None:
                begin[name] = it
        token = _token(params, "workDoneToken")
        server: LanguageServer = self  # type: ignore[assignment]
        return Progress(server, self.life, self._request(), token, begin)

    def partial(self, params: Any) -> Partial:
        """A result that is reported in parts, where the request's params have a `partialResultToken`."""
        return Partial(self.life, self._request(), _token(params, "partialResultToken"))


def _token(params: Any, name: str) -> Any:
    token = params.get(name) if isinstance(params, dict) else None
    if token is not None and type(token) not in (str, int):
        raise InvalidParams(f"Invalid params: {name} must be a string or an integer")
    return token


def _first(values: Any) -> Any:
    return values[0] if isinstance(values, list) and values else None
