"""What a tool, a resource or a prompt knows of the call that it answers, and what it can ask the host."""
from __future__ import annotations

from typing import TYPE_CHECKING, Any, Dict, List, Optional, Sequence, Union

from .._request import Request
from ._eliciting import Elicited, PageElicitation, elicited, form_of
from ._results import checked
from ._sampling import CHOICES, fault_of
from ._tasks import TaskRequest
from .content import ToolError, text

if TYPE_CHECKING:
    from ._life import Life
    from .server import ToolServer

Json = Dict[str, Any]

#: The levels of log messages, the least urgent first.
LEVELS = ("debug", "info", "notice", "warning", "error", "critical", "alert", "emergency")


def check_level(level: str) -> None:
    """Raises ValueError where there is no such level."""
    if level not in LEVELS:
        raise ValueError(f"a level is one of {', '.join(LEVELS)}: {level!r}")


class Context:
    """One call, as its function sees it where it has a parameter that is named `context` or `ctx`, or annotated so.

    What asks the host gives what is to be awaited, in an `async def`; in a thread it blocks and gives the result.
    """

    def __init__(self, server: ToolServer, life: Life, request: Request, params: Any) -> None:
        self.server, self.request, self._life = server, request, life
        meta = params.get("_meta") if isinstance(params, dict) else None
        #: What the host sent beside the arguments.
        self.meta: Json = meta if isinstance(meta, dict) else {}
        self._reached: Optional[float] = None

    @property
    def request_id(self) -> Union[str, int, None]:
        """The id of the call."""
        return self.request.id

    @property
    def is_cancelled(self) -> bool:
        """Whether the host has cancelled the call. What runs in a thread has to look, if it is to stop early."""
        return self.request.is_cancelled

    @property
    def version(self) -> str:
        """The version of the protocol that was agreed on."""
        return self._life.version

    @property
    def user(self) -> Any:
        """What the check of a bearer's token gave, over HTTP; None where there is none."""
        return self.request.session.state.get("user")

    def client_has(self, path: str) -> Any:
        """A capability of the host's, as "sampling" or "roots.listChanged"; None where it has none."""
        return self._life.client_has(path)

    # What the host is told

    def report_progress(
        self, progress: float, total: Optional[float] = None, message: Optional[str] = None
    ) -> None:
        """Tell how far it is, where the host asked for that. Progress that doesn't rise isn't sent. Any thread may."""
        token = self.meta.get("progressToken")
        request = self.request
        if isinstance(request, TaskRequest):
            is_over = request.is_over
        else:
            is_over = request.is_cancelled or not request.is_open
        if (
            type(token) not in (str, int)
            or is_over
            or (self._reached is not None and progress <= self._reached)
        ):
            return
        self._reached = progress
        about: Json = {"progressToken": token, "progress": progress}
        if total is not None:
            about["total"] = total
        if message is not None and self._life.version >= "2025-03-26":
            about["message"] = message
        self.request.notify("notifications/progress", about)

    def log(self, level: str, data: Any, logger: Optional[str] = None) -> None:
        """Send the host a log message, where it wants messages of this level."""
        self.server.log_to(self._life, level, data, logger, self.request)

    def debug(self, data: Any) -> None:
        """Log at this level."""
        self.log("debug", data)

    def info(self, data: Any) -> None:
        """Log at this level."""
        self.log("info", data)

    def warning(self, data: Any) -> None:
        """Log at this level."""
        self.log("warning", data)

    def error(self, data: Any) -> None:
        """Log at this level."""
        self.log("error", data)

    # What the host is asked

    def _ask(self, capability: str, method: str, params: Any) -> Any:
        if self.client_has(capability) is None:
            raise ToolError(f"the host has no {capability}")
        return _then(self.request.call(method, params), lambda result: checked(method, result))

    def sample(
        self,
        messages: Union[str, List[Any]],
        max_tokens: int = 1000,
        *,
        tools: Optional[Sequence[Union[str, Json]]] = None,
        tool_choice: Optional[str] = None,
        **more: Any,
    ) -> Any:
        """Ask the host's model. The result is its message: `{"role": .., "content": .., "model": ..}`.

        Messages are texts of the user, or objects as the protocol has them. `tools` are names of this server's, or
        descriptions, that the model may ask for (`tool_uses`) and the next question answers (`tool_result`);
        `tool_choice` is "auto", "required" or "none"; both since 2025-11-25. `more` is what else a question has, as
        `systemPrompt`, `temperature`, `stopSequences` and `modelPreferences`.
        """
        given = [messages] if isinstance(messages, str) else messages
        asked = [{"role": "user", "content": text(it)} if isinstance(it, str) else it for it in given]
        fault = fault_of(asked)
        if fault is not None:
            raise ValueError(fault)
        if tool_choice not in (None, *CHOICES):
            raise ValueError(f"tool_choice is one of {', '.join(CHOICES)}: {tool_choice!r}")
        params: Json = {"messages": asked, "maxTokens": max_tokens, **more}
        if tools is not None:
            params["tools"] = [
                self.server.described(it, self.version) if isinstance(it, str) else it for it in tools
            ]
        if tool_choice is not None:
            params["toolChoice"] = {"mode": tool_choice}
        uses_tools = tools is not None or tool_choice is not None
        return self._ask("sampling.tools" if uses_tools else "sampling", "sampling/createMessage", params)

    def elicit(self, message: str, schema: Any) -> Any:
        """Ask the host's user for some values. The result is an `Elicited`, whose content is as the schema has it.

        The schema is a dataclass of texts, numbers, booleans and choices, or an object by hand. Since 2025-06-18.
        """
        form = self.client_has("elicitation")
        if isinstance(form, dict) and form and "form" not in form:
            raise ToolError("the host has no elicitation by forms")
        asked = schema if isinstance(schema, dict) else form_of(schema, self.version)
        params = {"message": message, "requestedSchema": asked}
        waited = self._ask("elicitation", "elicitation/create", params)
        return _then(waited, lambda result: elicited(result, asked))

    def elicit_page(self, message: str, url: str, elicitation_id: Optional[str] = None) -> Any:
        """Ask the host's user to open a page. The result is an `Elicited` without content. Since 2025-11-25.

        It says whether the user agreed to open it. `server.elicitation_complete(id)` tells the host when all is done.
        """
        more = {} if elicitation_id is None else {"elicitation_id": elicitation_id}
        page = PageElicitation(message, url, **more)
        waited = self._ask("elicitation.url", "elicitation/create", page.as_json())
        self._life.elicitations.add(page.elicitation_id)

        def answered(result: Any) -> Elicited:
            said = elicited(result)
            if said.action != "accept":
                self._life.elicitations.discard(page.elicitation_id)
            return said

        return _then(waited, answered)

    def list_roots(self) -> Any:
        """The folders that the host lets the server work in: a list of `{"uri": .., "name": ..}`."""
        return _then(self._ask("roots", "roots/list", None), lambda result: result["roots"])

    def read_resource(self, uri: str) -> Any:
        """The contents of one of the server's own resources, to be awaited: a list."""
        return self.server.contents_of(uri, self._life, self.request)


def _then(waited: Any, what: Any) -> Any:
    """What is made of a reply, in a thread or to be awaited."""
    if not hasattr(waited, "__await__"):
        return what(waited)

    async def then() -> Any:
        return what(await waited)

    return then()
