"""A client's way to a tool server over HTTP: each message is a POST, in threads; streams that break are taken up again."""
from __future__ import annotations

import json
import queue
import threading
from typing import Any, Callable, Dict, Iterator, List, Optional, Protocol, Set

from .._log import log
from ._http_client import BROKEN, Http, Response
from ._web_session import Id, id_key
from .client import Given

# After how many seconds a stream is asked for again where the server says nothing of that, how many more each time that it
# isn't there, and how often in vain.
_RETRY, _MORE, _TRIES = 1.0, 2.0, 6
# How long the next message waits for a request to be on its way.
_SENT = 0.01
_EVENTS = "text/event-stream"
_READS = f"application/json, {_EVENTS}"


class Hears(Protocol):
    """What is told of a link, in its threads."""

    def came(self, message: bytes) -> None:
        """A message came."""

    def sent(self) -> None:
        """A message was sent, or can't be."""

    def over(self, is_lost: bool) -> None:
        """The link is over; lost, if the server knows the session no more."""


class _Events:
    """The events of a stream, over all of its connections."""

    def __init__(self, last: str = "") -> None:
        self.last, self.retry = last, _RETRY
        self._data: List[bytes] = []

    def read(self, lines: Iterator[bytes]) -> Iterator[bytes]:
        """The messages of some lines. What is cut off in the middle isn't one."""
        self._data = []
        id_ = self.last
        for line in lines:
            line = line.rstrip(b"\r\n")
            name, _, value = line.partition(b":")
            value = value[1:] if value[:1] == b" " else value
            if name == b"data":
                self._data.append(value)
            elif name == b"id":
                id_ = value.decode("latin-1")
            elif name == b"retry" and value.isdigit():
                self.retry = int(value[:9]) / 1000
            elif not line:
                self.last = id_
                data, self._data = b"\n".join(self._data), []
                if data:
                    yield data


class Link:
    """The way to a server."""

    def __init__(self, http: Http, headers: Given, most: int, hears: Hears, is_plain: bool = False) -> None:
        """With what makes requests, what headers they have besides, and how many bytes a message may have.

        is_plain -- whether what is sent may be no message, and what the server says of that is told
        """
        self._http, self._given, self._most, self._hears = http, headers, most, hears
        self._is_plain = is_plain
        self._session_id = self._version = ""
        self._queue: "queue.SimpleQueue[Optional[bytes]]" = queue.SimpleQueue()
        self._lock = threading.Lock()
        self._unsent = 0
        self._cuts: Set[Callable[[], None]] = set()  # of the connections that there are
        self._asked: Set[Id] = set()  # what isn't answered
        self._idle = threading.Condition(self._lock)
        self._over = threading.Event()
        in_thread(self._send_all)

    def send(self, text: bytes) -> None:
        """Send a message, behind those before."""
        with self._lock:
            self._unsent += 1
        self._queue.put(text)

    def finish(self) -> None:
        """Send no more: end the session."""
        self._queue.put(None)

    def drain(self, seconds: float) -> None:
        """Wait until all is sent and answered, or for so long."""
        with self._idle:
            self._idle.wait_for(lambda: not self._unsent and not self._asked, seconds)

    def stop(self) -> None:
        """Let go of everything."""
        self._over.set()
        with self._lock:
            cuts = list(self._cuts)
        for it in cuts:
            it()

    def _send_all(self) -> None:
        """Sends the messages in their order. The answer of a request isn't waited for."""
        while True:
            text = self._queue.get()
            if text is None:
                break
            message = _message(text)
            if "method" in message and type(message.get("id")) in (str, int):
                self._ask(text, message)
            else:
                self._tell(text, message)
            with self._idle:
                self._unsent -= 1
                self._idle.notify_all()
            self._hears.sent()
        if self._session_id and not self._over.is_set():
            try:
                self._opened("DELETE").close()
            except (ValueError, *BROKEN) as error:
                log.debug("the session can't be ended: %s", error)
        self._hears.over(False)

    def _ask(self, text: bytes, message: Dict[str, Any]) -> None:
        with self._lock:
            self._asked.add(id_key(message["id"]))
        sent = threading.Event()
        in_thread(self._exchange, text, message, sent)
        # (a cancel, for one, is to come behind its request; and all else behind the session's id)
        is_first = message["method"] == "initialize"
        while not sent.wait(_SENT) and is_first and not self._over.is_set():
            pass

    def _answered(self, id_: Any) -> None:
        with self._idle:
            self._asked.discard(id_key(id_))
            self._idle.notify_all()

    def _is_asked(self, id_: Any) -> bool:
        with self._lock:
            return id_key(id_) in self._asked

    def _tell(self, text: bytes, message: Dict[str, Any]) -> None:
        """Sends what has no answer."""
        if message.get("method") == "notifications/cancelled":
            params = message.get("params")
            id_ = params.get("requestId") if isinstance(params, dict) else None
            if type(id_) in (str, int):
                self._answered(id_)
        try:
            response = self._opened("POST", body=text)
            try:
                self._check(response)
                if self._is_plain:  # (else nothing is to come, and what came could be answered without end)
                    self._whole(response)
            finally:
                self._closed(response)
        except _Status as status:
            # (a notification has no answer, whatever is wrong with it)
            if self._is_plain and status.error and ("method" not in message or "id" in message):
                self._hears.came(status.error)
            else:
                log.warning("a message isn't taken: %s", status)
        except (ValueError, *BROKEN) as error:
            log.warning("a message can't be sent: %s", error)
        if message.get("method") == "notifications/initialized":
            in_thread(self._listen)

    def _opened(self, method: str, last: str = "", body: Optional[bytes] = None) -> Response:
        given = self._given() if callable(self._given) else self._given
        headers = dict(given or {})
        if method != "DELETE":
            headers["Accept"] = _READS if body is not None else _EVENTS
        if body is not None:
            headers["Content-Type"] = "application/json"
        for name, it in (
            ("Mcp-Session-Id", self._session_id),
            ("MCP-Protocol-Version", self._version),
            ("Last-Event-ID", last),
        ):
            if it:
                headers[name] = it
        cuts: List[Callable[[], None]] = []

        def begun(cut: Callable[[], None]) -> None:
            cuts.append(cut)
            self._cut_later(cut)

        try:
            response = self._http.open(method, headers, body, begun)
            self._cut_later(response.cut)
            return response
        finally:
            with self._lock:
                self._cuts.difference_update(cuts)

    def _cut_later(self, cut: Callable[[], None]) -> None:
        """Has a connection cut when all is over."""
        with self._lock:
            self._cuts.add(cut)
        if self._over.is_set():
            cut()

    def _closed(self, response: Response) -> None:
        with self._lock:
            self._cuts.discard(response.cut)
        response.close()

    def _check(self, response: Response) -> None:
        """Raises _Status where a response isn't one of success."""
        if 200 <= response.status < 300:
            return
        if response.status == 404 and self._session_id:
            self._hears.over(True)
        raise _Status(response, self._most)

    def _exchange(self, text: bytes, message: Dict[str, Any], sent: threading.Event) -> None:
        id_, code = message["id"], -32000
        try:
            self._request(text, message, sent)
            why = "the server has ended its response without an answer"
        except _Status as status:
            why, code = str(status), status.error_code
        except (ValueError, *BROKEN) as error:
            why = str(error) or type(error).__name__
        finally:
            sent.set()
        if self._is_asked(id_) and not self._over.is_set():
            self._answered(id_)
            fault = {"code": code, "message": f"HTTP: {why}"}
            self._hears.came(json.dumps({"jsonrpc": "2.0", "id": id_, "error": fault}).encode())

    def _request(self, text: bytes, message: Dict[str, Any], sent: threading.Event) -> None:
        """Sends a request, and reads until it is answered."""
        response = self._opened("POST", body=text)
        try:
            self._check(response)
            if message["method"] == "initialize":
                self._session_id = response.header("Mcp-Session-Id") or self._session_id
            else:
                sent.set()
            if not _is_stream(response):
                self._whole(response)
                return
            events = _Events()
            if self._read(response, events, message["id"]):
                return
        finally:
            self._closed(response)
        self._take_up(events, message["id"])

    def _whole(self, response: Response) -> None:
        """Reads a response that isn't a stream, or whose stream isn't taken up again."""
        if _is_stream(response):
            self._read(response, _Events(), None)
            return
        data = response.body(self._most)
        if data:
            self._came(data)

    def _read(self, response: Response, events: _Events, id_: Any) -> bool:
        """Reads a stream until a request is answered, and says whether it is; or until the connection ends."""
        try:
            for data in events.read(response.lines(self._most + 100)):
                self._came(data)
                if id_ is not None and not self._is_asked(id_):
                    return True
        except BROKEN as error:
            log.debug("a stream broke: %s", error)
        return False

    def _take_up(self, events: _Events, id_: Any) -> None:
        """Asks for the rest of a stream, until a request is answered."""
        tries = 0
        while events.last and tries < _TRIES and not self._over.wait(events.retry + tries * _MORE):
            if id_ is not None and not self._is_asked(id_):
                return
            last = events.last
            try:
                response = self._opened("GET", last)
            except BROKEN as error:
                log.debug("a stream can't be taken up: %s", error)
                tries += 1
                continue
            try:
                self._check(response)
                if self._read(response, events, id_):
                    return
            finally:
                self._closed(response)
            # (one that is there and says nothing is asked for again, as in polling)
            tries = 0

    def _listen(self) -> None:
        """Reads what belongs to no request of ours, where the server has a stream for that."""
        events = _Events()
        try:
            while not self._over.is_set():
                response = self._opened("GET")
                try:
                    self._check(response)
                    self._read(response, events, None)
                finally:
                    self._closed(response)
                if events.last:
                    self._take_up(events, None)
                    return
                self._over.wait(events.retry)
        except _Status as status:
            if status.code != 405 and not self._over.is_set():
                log.warning("the server's stream can't be read: %s", status)
        except (ValueError, *BROKEN) as error:
            if not self._over.is_set():
                log.warning("the server's stream can't be read: %s", error)

    def _came(self, data: bytes) -> None:
        """A message came."""
        message = _loaded(data)
        answers = []
        for it in message if isinstance(message, list) else [message]:
            if not isinstance(it, dict) or "method" in it:
                continue
            result: Any = it.get("result")
            if not self._version and isinstance(result, dict):
                self._version = str(result.get("protocolVersion", ""))
            if type(it.get("id")) in (str, int):
                answers.append(it["id"])
        self._hears.came(data)
        for id_ in answers:
            self._answered(id_)


class _Status(Exception):
    """A response that isn't one of success."""

    def __init__(self, response: Response, most: int) -> None:
        self.code = response.status
        self.error = b""
        words, self.error_code = "", -32000
        try:
            body = response.body(min(most, 1 << 16))
            value = _loaded(body)
            error = (value[0] if isinstance(value, list) else value)["error"]  # (a batch's have it each)
            words = str(error["message"])[:500]
            self.error_code, self.error = int(error["code"]), body
        except (ValueError, TypeError, LookupError, *BROKEN):
            pass
        challenge = response.header("WWW-Authenticate")
        super().__init__(": ".join([f"status {self.code}", *(it for it in (words, challenge) if it)]))


def in_thread(function: Callable[..., None], *given: Any) -> None:
    """Runs a function in a thread that holds up no end."""
    threading.Thread(target=function, args=given, name="bullmyrtle-http", daemon=True).start()


def _is_stream(response: Response) -> bool:
    return response.header("Content-Type").partition(";")[0].strip().lower() == _EVENTS


def _loaded(data: bytes) -> Any:
    try:
        return json.loads(data, parse_constant=_no_number)
    except RecursionError:
        raise ValueError("a message nests too deep") from None


def _no_number(text: str) -> Any:
    raise ValueError(f"{text} isn't JSON")


def _message(text: bytes) -> Dict[str, Any]:
    """What is sent, as far as it is one message."""
    try:
        message = _loaded(text)
    except ValueError:
        return {}
    return message if isinstance(message, dict) else {}
