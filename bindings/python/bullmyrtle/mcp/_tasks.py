"""Tool calls that run as tasks: the host is answered at once, and asks for the result later (2025-11-25, experimental)."""
from __future__ import annotations

import asyncio
import contextlib
import datetime
import inspect
import uuid
from typing import TYPE_CHECKING, Any, Callable, Dict, List, Optional

from .._middleware import handed
from .._methods import Method
from .._request import Request
from ..errors import INTERNAL_ERROR, REQUEST_CANCELLED, TOO_MANY_OPEN, Closed, Error, InvalidParams, Refused

if TYPE_CHECKING:
    from .._session import Session

Json = Dict[str, Any]

#: The member of `_meta` that names the task which a message belongs to.
RELATED = "io.modelcontextprotocol/related-task"
# How many tasks a session may have that aren't over and forgotten, so that a host that never asks can't fill memory.
_MOST = 1000
# How long a host should wait before it asks again, in milliseconds.
_POLL = 1000
_OVER = ("completed", "failed", "cancelled")


def _related(value: Optional[Json], id_: str) -> Json:
    """Params or a result that belong to a task, with its id."""
    given = value or {}
    return {**given, "_meta": {**(given.get("_meta") or {}), RELATED: {"taskId": id_}}}


def _now() -> str:
    now = datetime.datetime.now(datetime.timezone.utc)
    return now.isoformat(timespec="milliseconds").replace("+00:00", "Z")


class Task:
    """One call of a tool that goes on after its request was answered."""

    def __init__(self, session: Session, ttl: float) -> None:
        """With the time after which it is forgotten, in milliseconds."""
        # (an id is a secret: a host that knows it gets the result)
        self.id = str(uuid.uuid4())
        self.status, self.session, self._ttl = "working", session, ttl
        self._created = self._updated = _now()
        self.outcome: "asyncio.Future[Json]" = session.loop.create_future()
        self.running: "Optional[asyncio.Task[None]]" = None
        self.expiry: Optional[asyncio.TimerHandle] = None

    @property
    def is_over(self) -> bool:
        """Whether it has a result or an error, or is cancelled."""
        return self.status in _OVER

    def as_json(self) -> Json:
        """The task as the protocol has it."""
        about = {"taskId": self.id, "status": self.status, "ttl": self._ttl, "pollInterval": _POLL}
        return {**about, "createdAt": self._created, "lastUpdatedAt": self._updated}

    def became(self, status: str) -> None:
        """Changes its status, and tells the host. What is over stays as it is."""
        if not self.is_over and status != self.status:
            self.status, self._updated = status, _now()
            with contextlib.suppress(Closed, Refused):  # (the session may be over)
                self.session.notify("notifications/tasks/status", self.as_json())

    def end(self, status: str, outcome: Any) -> None:
        """Ends it, with a result or an error."""
        if self.is_over:
            return
        self.became(status)
        if isinstance(outcome, Error):
            self.outcome.set_exception(outcome)
            self.outcome.exception()  # (which isn't to be logged if nobody asks for it)
        else:
            self.outcome.set_result(_related(outcome, self.id))

    def cancel(self) -> None:
        """Cancels it, and what runs for it."""
        self.end("cancelled", Error(REQUEST_CANCELLED, "Request cancelled: its task was cancelled"))
        if self.running is not None:
            self.running.cancel()


class TaskRequest:
    """What a tool that runs as a task has in the place of its request, which is answered already."""

    def __init__(self, request: Request, task: Task) -> None:
        self.session, self.method, self.id = request.session, request.method, request.id
        self.number, self.task = request.number, None
        self._task = task

    @property
    def is_cancelled(self) -> bool:
        """Whether the task is cancelled."""
        return self._task.status == "cancelled"

    @property
    def is_over(self) -> bool:
        """Whether the task is over, so that nothing more is to be said of it."""
        return self._task.is_over

    def call(self, method: str, params: Any = None) -> Any:
        """Asks the host on behalf of the task, which waits for input meanwhile."""
        self._task.became("input_required")
        try:
            waited = self.session._outgoing.call_one(method, _related(params, self._task.id))
        except BaseException:
            self._task.became("working")
            raise
        if isinstance(waited, asyncio.Future):
            waited.add_done_callback(lambda reply: self._task.became("working"))
        else:
            self._task.became("working")
        return waited

    def notify(self, method: str, params: Any = None) -> None:
        """Sends the host a notification, which says what task it belongs to."""
        self.session.notify(method, _related(params, self._task.id))

    def in_thread(self, function: Callable[..., Any], *given: Any) -> Any:
        """Runs a function in a thread of the session's pool."""
        return self.session.in_thread(function, *given)


class Tasks:
    """The tasks of one session, which no other session can ask for."""

    def __init__(self) -> None:
        self._tasks: Dict[str, Task] = {}

    def all(self) -> List[Json]:
        """All that aren't forgotten, the oldest first."""
        return [it.as_json() for it in self._tasks.values()]

    def found(self, params: Any) -> Task:
        """The task that params name. Raises InvalidParams."""
        id_ = params.get("taskId") if isinstance(params, dict) else None
        task = self._tasks.get(id_) if isinstance(id_, str) else None
        if task is None:
            raise InvalidParams("Invalid params: taskId isn't one of a task that there is")
        return task

    def start(self, method: Method, params: Json, request: Request, most: float) -> Json:
        """Begins a call as a task, which is kept for so many seconds at most: gives what its request is answered."""
        if len(self._tasks) >= _MOST:
            raise Error(TOO_MANY_OPEN, f"Too many tasks: {_MOST:,} are kept, until their ttl is over")
        asked = params["task"].get("ttl")
        if asked is not None and (type(asked) not in (int, float) or not asked >= 0):
            raise InvalidParams("Invalid params: task.ttl must be a number of milliseconds")
        ttl = 1000 * most if asked is None else min(asked, 1000 * most)
        task = Task(request.session, ttl)
        self._tasks[task.id] = task
        loop = request.session.loop
        task.expiry = loop.call_later(ttl / 1000, self._forget, task)
        task.running = loop.create_task(_run(task, method, params, TaskRequest(request, task)))
        return {"task": task.as_json()}

    def _forget(self, task: Task) -> None:
        task.cancel()
        del self._tasks[task.id]

    def cancel(self, params: Any) -> Json:
        """Cancels a task. Raises InvalidParams if it is over."""
        task = self.found(params)
        if task.is_over:
            raise InvalidParams(f"Invalid params: the task is {task.status} already")
        task.cancel()
        return task.as_json()

    def end(self) -> None:
        """Cancels all, since their session is over."""
        for it in self._tasks.values():
            if it.expiry is not None:
                it.expiry.cancel()
            if not it.is_over:
                it.status = "cancelled"  # (which a thread looks at; there is nobody to tell)
            if it.running is not None:
                it.running.cancel()
        self._tasks.clear()


async def _run(task: Task, method: Method, params: Json, request: TaskRequest) -> None:
    # (the request is answered first, so that the host knows the task before it hears of it)
    await asyncio.sleep(0)
    try:
        result: Any = handed(method, params, request)  # type: ignore[arg-type]
        if inspect.isawaitable(result):
            result = await result
    except Error as error:
        task.end("failed", error)
    except Exception as error:
        task.end("failed", Error(INTERNAL_ERROR, f"Internal error: {type(error).__name__}: {error}"))
    else:
        task.end("failed" if result.get("isError") else "completed", result)
