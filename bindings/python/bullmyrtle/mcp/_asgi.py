"""A tool server as an ASGI application: MCP's Streamable HTTP."""
from __future__ import annotations

import asyncio
import contextlib
import secrets
from typing import TYPE_CHECKING, Any, Awaitable, Callable, Dict, List, Optional, Sequence, Tuple

from .._log import log
from .._settings import USUAL_CONTENT
from ..errors import INTERNAL_ERROR, INVALID_REQUEST, PARSE_ERROR, Closed
from ._bearer import WELL_KNOWN
from ._cors import is_preflight, may_read, may_send
from ._heads import EVENTS, JSON, Answer, Head, Headers, fault
from ._http_settings import HttpSettings
from ._streams import Reader, Stream
from ._web_session import Exchange, Posts, WebSession, id_key, is_result, read

if TYPE_CHECKING:
    from ._life import Life
    from .server import ToolServer

Message = Dict[str, Any]
Receive = Callable[[], Awaitable[Message]]
Send = Callable[[Message], Awaitable[None]]

# How long a POST's answer may take until a stream is made for it.
_PATIENCE = 0.05
# A longer body is read in a thread.
_LONG = 1 << 16
# What a session's first message may have, since it is kept.
_MOST_OF_INITIALIZE = 1 << 16
# The version of a client that says none, the one version with batches, and the first one whose clients ask again.
_SAYS_NONE, _WITH_BATCHES, _POLLS = "2025-03-26", "2025-03-26", "2025-11-25"


class Visit:
    """One session."""

    def __init__(self, session: WebSession, posts: Posts, life: Life, user: Any) -> None:
        self.id = secrets.token_urlsafe(24)
        self.session, self.posts, self.life, self.user = session, posts, life, user
        self.is_kept = False
        self.requests = 0  # over HTTP, that last
        self.used = session.loop.time()
        self.timer: Optional[asyncio.TimerHandle] = None

    def end(self) -> None:
        """Ends it: what still runs has its grace."""
        if self.timer is not None:
            self.timer.cancel()
        self.session.finish_input()


class _Said:
    """What a body says of itself."""

    def __init__(self, value: Any) -> None:
        self.is_batch = isinstance(value, list)
        entries = [it for it in (value if isinstance(value, list) else [value]) if isinstance(it, dict)]
        self.methods = [it["method"] for it in entries if isinstance(it.get("method"), str)]
        #: Of its requests.
        self.ids = [it["id"] for it in entries if "method" in it and "id" in it]

    def refused(self, words: str) -> Answer:
        """What it is answered where none of it is taken: one error, and of a batch one for each request."""
        if not self.is_batch:
            return Answer(400, words)
        ids = [it if isinstance(it, (str, int)) else None for it in self.ids]
        return _Fault(b"[%s]" % b",".join(fault(INVALID_REQUEST, words, it) for it in ids))

    @property
    def is_initialize(self) -> bool:
        """Whether it is a request to begin a session."""
        return not self.is_batch and self.methods == ["initialize"] and len(self.ids) == 1


class _Call:
    """One request over HTTP."""

    head: Head

    def __init__(self, receive: Receive, send: Send) -> None:
        self.receive, self.send = receive, send
        self.user: Any = None
        self.of_page: Headers = []  # what a page in a browser needs, to read the answer
        self.has_begun = False
        self._leaving: "Optional[asyncio.Task[None]]" = None

    async def body(self, most: int, seconds: float) -> bytes:
        """The body. Raises Answer, and Closed where the client has left."""
        length = self.head.length()
        if length is not None and length > most:
            raise Answer(413, f"Payload Too Large: a body may have {most:,} bytes")
        try:
            return await asyncio.wait_for(self._body(most), seconds)
        except asyncio.TimeoutError:
            raise Answer(408, "Request Timeout: the body didn't arrive in time") from None

    async def _body(self, most: int) -> bytes:
        parts: List[bytes] = []
        size = 0
        while True:
            message = await self.receive()
            if message["type"] == "http.disconnect":
                raise Closed("the client has left")
            parts.append(message.get("body", b""))
            size += len(parts[-1])
            if size > most:
                raise Answer(413, f"Payload Too Large: a body may have {most:,} bytes")
            if not message.get("more_body", False):
                return b"".join(parts)

    def leaving(self) -> "asyncio.Task[None]":
        """What ends when the client leaves."""
        if self._leaving is None:
            self._leaving = asyncio.ensure_future(self._until_left())
        return self._leaving

    async def _until_left(self) -> None:
        with contextlib.suppress(Exception):
            while (await self.receive())["type"] != "http.disconnect":
                pass

    async def begin(self, status: int, headers: Headers) -> None:
        """Says a status, with headers."""
        self.has_begun = True
        given = [*headers, *self.of_page]
        await self.send({"type": "http.response.start", "status": status, "headers": given})

    async def say(self, data: bytes, has_more: bool = False) -> None:
        """Says a part of a body, or the rest."""
        await self.send({"type": "http.response.body", "body": data, "more_body": has_more})

    async def whole(
        self, status: int, data: bytes = b"", headers: Sequence[Tuple[bytes, bytes]] = ()
    ) -> None:
        """Says all."""
        given = list(headers)
        if status != 204:  # (which has no body, and mustn't say how long that is: RFC 9110, 8.6)
            given.append((b"content-length", b"%d" % len(data)))
        if data:
            given.append((b"content-type", JSON.encode()))
        await self.begin(status, given)
        await self.say(data)

    def end(self) -> None:
        """Waits for nothing more."""
        if self._leaving is not None:
            self._leaving.cancel()


class App:
    """What `server.asgi()` gives: an ASGI application."""

    def __init__(self, server: ToolServer, settings: HttpSettings) -> None:
        self._server, self._settings = server, settings
        content: int = server._settings["content"] or USUAL_CONTENT
        # (a message that is too large for the connection would end the session)
        self._body = min(settings.body, content)
        self._visits: Dict[str, Visit] = {}
        self._serving: Dict["asyncio.Task[int]", Visit] = {}
        self._requests = 0

    @property
    def sessions(self) -> int:
        """How many sessions there are, with those that are ending."""
        return len(self._serving)

    async def __call__(self, scope: Dict[str, Any], receive: Receive, send: Send) -> None:
        """One request, as ASGI has it."""
        if scope["type"] == "lifespan":
            await self._live(receive, send)
        elif scope["type"] == "http":
            await self._http(scope, receive, send)
        elif scope["type"] == "websocket":
            await send({"type": "websocket.close", "code": 1003})

    async def _live(self, receive: Receive, send: Send) -> None:
        while True:
            kind = (await receive())["type"]
            if kind == "lifespan.shutdown":
                await self.close()
            await send({"type": f"{kind}.complete"})
            if kind == "lifespan.shutdown":
                return

    async def close(self) -> None:
        """End all sessions, and wait for what they still do, for as long as their grace is."""
        for it in list(self._serving.values()):
            it.end()
        if self._serving:
            await asyncio.wait(set(self._serving))

    async def _http(self, scope: Dict[str, Any], receive: Receive, send: Send) -> None:
        call = _Call(receive, send)
        self._requests += 1
        try:
            call.head = Head(scope)
            await self._answer(call)
        except Answer as answer:
            await call.whole(answer.status, answer.body, answer.headers)
        except (Closed, OSError) as left:  # (some servers say by the latter that nobody reads)
            log.debug("a request over HTTP ended before its answer: %s", left)
        except Exception:
            log.exception("a request over HTTP failed")
            if call.has_begun:
                raise
            await call.whole(500, fault(INTERNAL_ERROR, "Internal error"))
        finally:
            self._requests -= 1
            call.end()

    async def _answer(self, call: _Call) -> None:
        head, settings = call.head, self._settings
        bearer = settings.bearer
        if bearer is not None and WELL_KNOWN in head.path:
            await self._tell_metadata(call, bearer.metadata)
            return
        head.check_origin(settings.origins, settings.hosts)
        origin = head.get(b"origin")
        if origin is not None and settings.cors:
            call.of_page = may_read(origin)
        if settings.path is not None and head.path.rstrip("/") != settings.path.rstrip("/"):
            raise Answer(404, "Not Found: there is no such path")
        methods = ("POST",) if settings.stateless else ("GET", "POST", "DELETE")
        if settings.cors and is_preflight(head):
            # (a browser sends no token here, and nothing is told that needs one)
            await call.whole(204, headers=may_send(", ".join(methods)))
            return
        if head.method not in methods:
            raise Answer(405, f"Method Not Allowed: {head.method[:20]}", [("Allow", ", ".join(methods))])
        if self._requests > settings.streams:
            raise Answer(503, "Service Unavailable: too many requests", [("Retry-After", "5")])
        if bearer is not None:
            call.user = await bearer.user(head)
        if head.method == "POST":
            await self._post(call)
        elif head.method == "GET":
            await self._get(call)
        else:
            self._forget(self._visit(call))
            await call.whole(204)

    async def _tell_metadata(self, call: _Call, metadata: bytes) -> None:
        """What any page may read, from where the server's tokens are."""
        call.of_page = [(b"access-control-allow-origin", b"*")]
        if is_preflight(call.head):
            await call.whole(204, headers=may_send("GET"))
        elif call.head.method == "GET":
            await call.whole(200, metadata)
        else:
            raise Answer(405, "Method Not Allowed", [("Allow", "GET")])

    # Sessions

    def _visit(self, call: _Call) -> Visit:
        """The session of a request."""
        id_ = call.head.get(b"mcp-session-id")
        if id_ is None:
            raise Answer(400, "Bad Request: the header Mcp-Session-Id is missing")
        visit = self._visits.get(id_)
        # (what another user's token, or another event loop, asks for isn't told from what isn't there)
        if visit is None or visit.user != call.user or visit.session.loop is not asyncio.get_running_loop():
            raise Answer(404, "Not Found: there is no such session, or no more")
        self._check_version(call.head)
        visit.used = visit.session.loop.time()
        return visit

    def _check_version(self, head: Head) -> str:
        version = head.get(b"mcp-protocol-version")
        if version is not None and version not in self._server._versions:
            known = ", ".join(self._server._versions)
            raise Answer(400, f"Bad Request: MCP-Protocol-Version has to be one of {known}")
        return version or _SAYS_NONE

    def _begin(self, call: _Call, version: Optional[str]) -> Visit:
        """A new session; one without state has a version, unless it is for `initialize`."""
        settings = self._settings
        if len(self._serving) >= settings.sessions:
            raise Answer(503, "Service Unavailable: too many sessions", [("Retry-After", "30")])
        posts = Posts(settings.events(), settings.unread, settings.session_streams)
        session = self._server._session_over(posts, kind=WebSession, framing="contents")
        assert isinstance(session, WebSession)
        visit = Visit(session, posts, self._server._lives[session], call.user)
        session.state["user"] = call.user
        if settings.stateless:
            session.begin_stateless()
            visit.life.begin_stateless(version)
        session._transport.begin()
        task = asyncio.ensure_future(self._server._serve(session))
        self._serving[task] = visit
        task.add_done_callback(self._ended)
        return visit

    def _ended(self, task: "asyncio.Task[int]") -> None:
        visit = self._serving.pop(task)
        self._visits.pop(visit.id, None)
        visit.end()
        if not task.cancelled() and task.exception() is not None:
            log.error("a session failed", exc_info=task.exception())

    def _keep(self, visit: Visit) -> None:
        """A session has begun: requests find it until it is unused for long."""
        visit.is_kept = True
        self._visits[visit.id] = visit
        self._watch(visit)

    def _watch(self, visit: Visit) -> None:
        loop = visit.session.loop
        seconds = self._settings.session_seconds
        left = seconds if visit.requests else visit.used + seconds - loop.time()
        if left > 0:
            visit.timer = loop.call_later(left, self._watch, visit)
        else:
            self._forget(visit)

    def _forget(self, visit: Visit) -> None:
        self._visits.pop(visit.id, None)
        visit.end()

    # POST

    async def _post(self, call: _Call) -> None:
        head = call.head
        head.check_content()
        head.check_accept(*((JSON,) if self._settings.answers == "json" else (JSON, EVENTS)))
        is_new = self._settings.stateless or head.get(b"mcp-session-id") is None
        visit = None if is_new else self._visit(call)
        body = await call.body(self._body, self._settings.body_seconds)
        said = await _said(body)
        if visit is None:
            version = self._version_of(call, said)
            if version is None and len(body) > _MOST_OF_INITIALIZE:
                raise Answer(413, f"Payload Too Large: initialize may have {_MOST_OF_INITIALIZE:,} bytes")
            visit = self._begin(call, version)
        visit.requests += 1
        try:
            exchange = await self._feed(visit, said, body)
            await self._reply(call, visit, exchange)
        finally:
            visit.requests -= 1
            visit.used = visit.session.loop.time()
            if not visit.is_kept:
                visit.end()

    def _version_of(self, call: _Call, said: _Said) -> Optional[str]:
        """The version of a session that begins; None if `initialize` says it."""
        if said.is_initialize:
            return None
        if not self._settings.stateless:
            raise Answer(400, "Bad Request: the header Mcp-Session-Id is missing")
        return self._check_version(call.head)

    async def _feed(self, visit: Visit, said: _Said, body: bytes) -> Exchange:
        posts, version = visit.posts, visit.life.version
        if said.is_batch and version != _WITH_BATCHES:
            raise Answer(400, f"Bad Request: version {version} has no batches")
        if said.is_batch and "initialize" in said.methods:
            raise Answer(400, "Bad Request: initialize can't be in a batch")
        ids = [id_key(it) for it in said.ids if isinstance(it, (str, int))]
        if posts.open >= self._settings.session_streams and said.ids:
            raise Answer(429, "Too Many Requests: the session has too many that aren't answered")
        if None in said.ids or not posts.reserve(ids):
            raise said.refused("Bad Request: a request's id is null, or that of one which isn't answered yet")
        try:
            exchange = await posts.feed(body, self._settings.answers != "json")
        except Closed:
            raise Answer(404, "Not Found: the session is over") from None
        finally:
            posts.release(ids)
        if exchange.fault is not None:
            raise _Fault(exchange.fault)
        return exchange

    async def _reply(self, call: _Call, visit: Visit, exchange: Exchange) -> None:
        if not exchange.has_requests:
            await call.whole(202)
            return
        if self._settings.answers == "stream" and (visit.is_kept or self._settings.stateless):
            visit.posts.stream_of(exchange)
        await self._wait(call, visit, exchange)
        if exchange.stream is not None:
            assert exchange.reader is not None
            await self._stream(call, visit, exchange.stream, exchange.reader)
        elif exchange.is_lost:
            raise Answer(404, "Not Found: the session is over")
        elif exchange.answer is None:  # (it was cancelled, and so there is none)
            await call.whole(202)
        else:
            headers: Headers = []
            if not visit.is_kept and not self._settings.stateless and is_result(exchange.answer):
                self._keep(visit)
                headers.append((b"mcp-session-id", visit.id.encode()))
            await call.whole(200, exchange.answer, headers)

    async def _wait(self, call: _Call, visit: Visit, exchange: Exchange) -> None:
        """Waits for an answer, for a while. Raises Closed where the client has left before."""
        if exchange.ready.done():
            return
        is_patient = self._settings.answers == "json" or not (visit.is_kept or self._settings.stateless)
        seconds = None if is_patient else _PATIENCE
        either = {exchange.ready, call.leaving()}
        await asyncio.wait(either, timeout=seconds, return_when=asyncio.FIRST_COMPLETED)
        if exchange.ready.done():
            return
        if call.leaving().done():
            visit.posts.leave(exchange)
            raise Closed("the client has left")
        visit.posts.stream_of(exchange)

    # Streams

    async def _get(self, call: _Call) -> None:
        call.head.check_accept(EVENTS)
        visit = self._visit(call)
        last = call.head.event()
        if last is None:
            found = visit.posts.own_stream()
            if found is None:
                raise Answer(429, "Too Many Requests: the session has too many streams")
        else:
            found = visit.posts.take_up(*last)
            if found is None:
                raise Answer(400, "Bad Request: Last-Event-ID isn't kept, or isn't one of this session's")
        visit.requests += 1
        try:
            await self._stream(call, visit, *found)
        finally:
            visit.requests -= 1
            visit.used = visit.session.loop.time()

    async def _stream(self, call: _Call, visit: Visit, stream: Stream, reader: Reader) -> None:
        """Sends events until there are no more, the client leaves, or it is to ask again."""
        try:
            await call.begin(200, [(b"content-type", EVENTS.encode()), *_STREAMED])
            sending = asyncio.ensure_future(self._send_events(call, visit, stream, reader))
            try:
                either = {sending, call.leaving()}
                await asyncio.wait(either, return_when=asyncio.FIRST_COMPLETED)
                if sending.done():
                    sending.result()
            finally:
                sending.cancel()
        except (asyncio.TimeoutError, OSError):
            log.warning("a stream ends: its client reads nothing")
        finally:
            reader.end()
            stream.leave(reader)

    async def _send_events(self, call: _Call, visit: Visit, stream: Stream, reader: Reader) -> None:
        settings, loop = self._settings, visit.session.loop
        asks_again = visit.life.version >= _POLLS and not settings.stateless
        end = loop.time() + settings.poll if settings.poll is not None and asks_again else None

        async def say(data: bytes, has_more: bool = True) -> None:
            await asyncio.wait_for(call.say(data, has_more), settings.unread_seconds)

        retry = b"retry: %d\n" % (1000 * settings.retry)
        if asks_again and call.head.method == "POST":
            # (so that the client can ask for the rest, even if nothing has come yet)
            await say(b"%sid: %s-0\ndata: \n\n" % (retry, stream.name.encode()))
        while True:
            seconds = settings.ping if end is None else min(settings.ping, max(0.0, end - loop.time()))
            event = await reader.next(seconds)
            if event is not None:
                # (without state a client can't ask for what follows)
                id_ = b"" if settings.stateless else b"id: %s-%d\n" % (stream.name.encode(), event[0])
                await say(b"%sevent: message\ndata: %s\n\n" % (id_, event[1]))
            elif reader.is_over:
                await say(b": %s\n\n" % reader.why.encode() if reader.why else b"", False)
                return
            elif end is not None and loop.time() >= end:
                await say(retry + b"\n", False)
                return
            else:
                await say(b":\n\n")


# (a proxy that waits for the whole of it would hold up every event)
_STREAMED: Headers = [(b"cache-control", b"no-cache, no-transform"), (b"x-accel-buffering", b"no")]


class _Fault(Answer):
    """What a body that can't be read is answered, by its connection."""

    def __init__(self, text: bytes) -> None:
        super().__init__(400)
        self._text = text

    @property
    def body(self) -> bytes:
        return self._text


def _parsed(body: bytes) -> Any:
    try:
        return read(body.decode("utf-8"))
    except (ValueError, RecursionError):
        raise _Fault(fault(PARSE_ERROR, "Parse error")) from None


async def _said(body: bytes) -> _Said:
    """What a body says of itself. Raises Answer where it isn't JSON."""
    if len(body) <= _LONG:
        return _Said(_parsed(body))
    loop = asyncio.get_running_loop()
    return _Said(await loop.run_in_executor(None, _parsed, body))
