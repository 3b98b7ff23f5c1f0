"""A log of what a connection says and hears, as LSP inspectors read it."""
from __future__ import annotations

import contextlib
import functools
import json
import os
import threading
import time
from typing import Any, Callable, Dict, Iterable, List, Optional, Set, TextIO, Tuple, Union, cast

from . import events
from ._log import log
from .connection import Cancels, Connection, Json, Notes
from .events import Event

# A file's name, a file that takes text, or a function that takes one line at a time.
Trace = Union[str, "os.PathLike[str]", TextIO, Callable[[str], Any]]


def _write_to(file: TextIO, line: str) -> None:
    file.write(line + "\n")
    file.flush()


class Log:
    """Where the lines go."""

    def __init__(self, trace: Trace) -> None:
        self._lock = threading.Lock()
        self._is_broken = False
        self._file: Optional[TextIO] = None
        if isinstance(trace, (str, os.PathLike)):
            self._file = open(trace, "a", encoding="utf-8")
            self._say: Callable[[str], Any] = self._write
        elif hasattr(trace, "write"):
            self._say = functools.partial(_write_to, cast(TextIO, trace))
        else:
            self._say = trace

    def _write(self, line: str) -> None:
        assert self._file is not None
        _write_to(self._file, line)

    def say(self, line: str) -> None:
        """Writes a line. A log that can't be written doesn't end the session, and is given up."""
        with self._lock:
            if self._is_broken:
                return
            try:
                self._say(line)
            except Exception as error:
                self._is_broken = True
                log.error("the trace ends here: %s: %s", type(error).__name__, error)

    def close(self) -> None:
        if self._file is not None:
            with contextlib.suppress(OSError):
                self._file.close()


def _string(text: Json) -> str:
    words = text if isinstance(text, str) else bytes(text).decode()
    return json.dumps(words, ensure_ascii=False)


def _raw(text: Json) -> str:
    return text if isinstance(text, str) else bytes(text).decode()


def _call(id_: Optional[str], method: Json, params: Optional[Json]) -> str:
    named = "" if id_ is None else f'"id":{id_},'
    more = "" if params is None else f',"params":{_raw(params)}'
    return f'{{{named}"jsonrpc":"2.0","method":{_string(method)}{more}}}'


def _result(id_: str, result: Json) -> str:
    return f'{{"id":{id_},"jsonrpc":"2.0","result":{_raw(result)}}}'


def _error(id_: str, code: int, message: Json, data: Optional[Json]) -> str:
    more = "" if data is None else f'"data":{_raw(data)},'
    return f'{{"error":{{"code":{code},{more}"message":{_string(message)}}},"id":{id_},"jsonrpc":"2.0"}}'


class Traced:
    """A connection that writes a line for each message that it tells, and for each that is said.

    The messages are made again from the events and the calls: what the other side sent as a batch is a line for each
    of its calls. What brings no event is counted in the last line.
    """

    def __init__(self, connection: Connection, trace: Trace, cancels: Optional[Cancels] = "lsp") -> None:
        self._connection = connection
        self._log = Log(trace)
        self._cancels = cancels
        self._lock = threading.RLock()  # (so that the lines stand in the order of the messages)
        self._ids: Dict[int, Optional[str]] = {}  # of the calls that are open
        self._cancelled: Set[int] = set()  # of these, the ones that the other side has cancelled
        self._keys: Dict[int, Dict[int, bool]] = {}  # our calls on behalf of each: whether they are withdrawn
        self._numbers: Dict[int, int] = {}  # on whose behalf each call is that waits
        self._is_over = False
        self.feed, self.end, self.take = connection.feed, connection.end, connection.take
        self.counts = connection.counts

    @property
    def pending(self) -> int:
        return self._connection.pending

    @property
    def held(self) -> int:
        return self._connection.held

    @property
    def is_done(self) -> bool:
        return self._connection.is_done

    def _line(self, kind: str, message: str, is_message: bool = True) -> None:
        mark = "true" if is_message else "false"
        stamp = int(time.time() * 1000)
        self._log.say(f'{{"isLSPMessage":{mark},"type":"{kind}","message":{message},"timestamp":{stamp}}}')

    def close(self) -> None:
        with self._lock:
            counts = self._connection.counts()._asdict()
            self._connection.close()
            self._line("counts", json.dumps(counts, separators=(",", ":")), is_message=False)
            self._log.close()

    # What is told

    def fed(self, data: bytes, aside: bool = False) -> List[Event]:
        with self._lock:
            return self._told(self._connection.fed(data, aside))

    def events(self) -> List[Event]:
        with self._lock:
            return self._told(self._connection.events())

    def _told(self, told: List[Event]) -> List[Event]:
        for event in told:
            self._tell(event)
        return told

    def _tell(self, event: Event) -> None:
        if isinstance(event, events.Call):
            id_ = None if event.id is None else event.id.decode()
            self._ids[event.number] = id_
            kind = "receive-notification" if id_ is None else "receive-request"
            self._line(kind, _call(id_, event.method, event.params))
        elif isinstance(event, events.Cancelled):
            id_ = self._ids.get(event.number)
            # (where the request was answered meanwhile, its id isn't kept)
            self._line("receive-notification", self._cancel_of(id_ or "null"))
            if id_ is not None:
                self._cancelled.add(event.number)
        elif isinstance(event, events.Replied):
            self._replied(event.key, _result(str(event.key), event.result))
        elif isinstance(event, events.Failed):
            self._replied(event.key, _error(str(event.key), event.code, event.message, event.data))
        elif isinstance(event, events.Broken):
            self._line("broken", json.dumps({"text": event.text}, separators=(",", ":")), is_message=False)
        elif isinstance(event, events.Over):
            self._is_over = True

    def _cancel_of(self, id_: str) -> str:
        """The notification that cancels the request of this id."""
        method, member = (
            ("notifications/cancelled", "requestId") if self._cancels == "mcp" else ("$/cancelRequest", "id")
        )
        return _call(None, method, f'{{"{member}":{id_}}}')

    def _replied(self, key: int, message: str) -> None:
        number = self._numbers.pop(key, None)
        if number is not None:
            self._keys.get(number, {}).pop(key, None)
        self._line("receive-response", message)

    # What is said

    def call(self, number: int, method: Json, params: Optional[Json] = None) -> int:
        with self._lock:
            key = self._connection.call(number, method, params)
            self._called(number, key, method, params)
            return key

    def _called(self, number: int, key: int, method: Json, params: Optional[Json]) -> None:
        self._keys.setdefault(number, {})[key] = False
        self._numbers[key] = number
        self._line("send-request", _call(str(key), method, params))

    def call_batch(self, number: int, calls: Iterable[Tuple[Json, Optional[Json]]]) -> int:
        calls = list(calls)
        with self._lock:
            first = self._connection.call_batch(number, calls)
            for key, (method, params) in enumerate(calls, first):
                self._called(number, key, method, params)
            return first

    def notify(self, method: Json, params: Optional[Json] = None) -> None:
        with self._lock:
            self._connection.notify(method, params)
            self._line("send-notification", _call(None, method, params))

    def withdraw(self, key: int) -> None:
        with self._lock:
            self._connection.withdraw(key)
            self._withdrew(key)
            if self._cancels == "mcp":  # (it waits no longer)
                self._keys[self._numbers.pop(key)].pop(key)
            else:
                self._keys[self._numbers[key]][key] = True

    def _withdrew(self, key: int) -> None:
        self._line("send-notification", self._cancel_of(str(key)))

    def answer(self, number: int, result: Optional[Json] = None) -> None:
        with self._lock:
            self._connection.answer(number, result)
            id_, _ = self._closed(number)
            if id_ is not None and result is not None:
                self._line("send-response", _result(id_, result))

    def _noted(self) -> Notes:
        return self._connection._noted()

    @property
    def fault_offset(self) -> Optional[int]:
        return self._connection.fault_offset

    def fail(self, number: int, code: int, message: Json = "", data: Optional[Json] = None) -> None:
        with self._lock:
            self._connection.fail(number, code, message, data)
            id_, _ = self._closed(number)
            if id_ is not None:
                self._line("send-response", _error(id_, code, message, data))

    def cancel(self, number: int) -> None:
        with self._lock:
            self._connection.cancel(number)
            is_wanted = self._cancels != "mcp" or number not in self._cancelled
            id_, keys = self._closed(number)
            if self._cancels and not self._is_over:
                for key, is_withdrawn in keys.items():
                    if not is_withdrawn:
                        self._withdrew(key)
            if id_ is not None and is_wanted:
                self._line("send-response", _error(id_, -32800, "Request cancelled", None))

    def _closed(self, number: int) -> Tuple[Optional[str], Dict[int, bool]]:
        """Forgets a call that came, and gives its id and the calls on its behalf that waited, in their order."""
        keys = self._keys.pop(number, {})
        for key in keys:
            del self._numbers[key]
        self._cancelled.discard(number)
        return self._ids.pop(number, None), keys
