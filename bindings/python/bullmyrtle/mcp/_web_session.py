"""One session over HTTP: what POSTs bring goes to its connection, and what that says to the streams where it belongs."""
from __future__ import annotations

import asyncio
import contextlib
import functools
import json
import re
import secrets
import threading
from collections import deque
from typing import Any, Deque, Dict, List, Optional, Sequence, Set, Tuple, Union

from .. import events
from .._channels import Channel
from .._incoming import Incoming
from .._log import log
from .._outgoing import Outgoing
from .._reply import Reply
from .._request import Request
from .._session import Session
from .._transport import Transport
from .._watch import Watch
from ..errors import Closed, Refused, Unanswered
from ._events import EventStore
from ._streams import Reader, Stream
from ._tasks import RELATED

_ANY = 1 << 62
# The result of a request, and the id that it is of. (Large ones needn't be read whole.)
_RESULT = re.compile(rb'\{"id":("(?:[^"\\]|\\.)*"|-?[0-9]+),"jsonrpc":"2\.0","result":')
# How many messages wait that no stream is there for.
_HELD = 100

Id = Tuple[type, Any]


def _whole(digits: str) -> Any:
    """An integer; a longer one than any id stays as it is, since no more is asked of it."""
    return int(digits) if len(digits) < 100 else digits


read = functools.partial(json.loads, parse_int=_whole)


def id_key(value: Any) -> Id:
    """An id to look up. (In Python, 1 is True.)"""
    return type(value), value


def is_result(text: bytes) -> bool:
    """Whether a message is the result of a request."""
    return _RESULT.match(text) is not None


class Exchange:
    """One POST: the requests that it brought, and what they are answered."""

    def __init__(self, loop: asyncio.AbstractEventLoop) -> None:
        self.heard: "asyncio.Future[None]" = loop.create_future()
        #: Whether it is over, or there is more to send than an answer.
        self.ready: "asyncio.Future[None]" = loop.create_future()
        self.numbers: Set[int] = set()  # of the requests that aren't closed
        self.keys: List[int] = []  # of the requests to the client on their behalf
        self.ids: List[Id] = []
        #: The answer to what can't be read.
        self.fault: Optional[bytes] = None
        #: The answer, where it isn't on a stream.
        self.answer: Optional[bytes] = None
        self.stream: Optional[Stream] = None
        self.reader: Optional[Reader] = None
        self.is_over = self.is_lost = False
        #: The task whose result it waits for.
        self.task: Any = None
        #: Whether a stream may be made for it.
        self.may_stream = True

    @property
    def has_requests(self) -> bool:
        """Whether something is to be answered."""
        return bool(self.ids)


class Posts(Channel):
    """The channel of a session over HTTP."""

    def __init__(self, store: EventStore, unread: int, most: int) -> None:
        """With what keeps events, how many bytes of a stream may be unread, and how many streams there may be."""
        self._store, self._unread, self._most = store, unread, most
        # (an event's id is of this session alone)
        self._name = secrets.token_hex(8)
        self._streams = 0
        self._fed: Deque[Exchange] = deque()  # what the connection hasn't told of
        self._broken: Deque[Exchange] = deque()  # what can't be read, and isn't answered yet
        self._waiting: Set[Exchange] = set()  # what isn't answered
        self._by_number: Dict[int, Exchange] = {}
        self._by_id: Dict[Id, Exchange] = {}
        self._reserved: Set[Id] = set()
        self._by_key: Dict[int, Exchange] = {}
        self._notes: Dict[str, Deque[int]] = {}
        self._lock = threading.Lock()
        self.streams: Dict[str, Stream] = {}  # by their names, that aren't over
        self._own: List[Stream] = []  # of these, the ones of GETs, the newest last
        self._held: Deque[bytes] = deque()
        self._held_size = 0
        self._dropped: Set[int] = set()
        self._resumed: "Optional[asyncio.Future[None]]" = None
        self.is_over = False

    def start(self, transport: Transport) -> None:
        self._transport = transport
        self._loop = transport.loop

    # What comes

    @property
    def open(self) -> int:
        """How many POSTs wait for an answer, and how many streams there are besides."""
        return len(self._waiting) + len(self._own)

    def reserve(self, ids: Sequence[Id]) -> bool:
        """Takes the ids of requests that are about to come; says whether all of them are free."""
        wanted = set(ids)
        if len(wanted) < len(ids) or wanted & self._reserved or wanted & self._by_id.keys():
            return False
        self._reserved |= wanted
        return True

    def release(self, ids: Sequence[Id]) -> None:
        """The requests of these ids have come, or won't."""
        self._reserved.difference_update(ids)

    async def feed(self, body: bytes, may_stream: bool) -> Exchange:
        """What a POST brought. Raises Closed where the session is over."""
        while self._resumed is not None:
            await asyncio.wait({self._resumed})
        exchange = Exchange(self._loop)
        exchange.may_stream = may_stream
        if self.is_over:
            raise Closed("the session is over")
        self._fed.append(exchange)
        self._transport.received(body)
        await exchange.heard
        if exchange.is_lost:
            raise Closed("the session is over")
        return exchange

    def heard(self, told: Sequence[events.Event]) -> None:
        """What a body is, by what the connection told of it."""
        if not self._fed:
            return  # (the end of the input)
        exchange = self._fed.popleft()
        for it in told:
            if isinstance(it, events.Call) and it.id is not None:
                exchange.numbers.add(it.number)
                self._by_number[it.number] = exchange
                self._waiting.add(exchange)
                exchange.ids.append(id_key(read(it.id)))
                self._by_id[exchange.ids[-1]] = exchange
                if it.method == "tasks/result" and it.params is not None:
                    given = read(it.params)
                    exchange.task = given.get("taskId") if isinstance(given, dict) else None
        if any(isinstance(it, events.Broken) for it in told) and not exchange.ids:
            self._broken.append(exchange)
            # (its answer is said already; the one that waits for it gets it once that is taken)
        elif not exchange.heard.done():
            exchange.heard.set_result(None)

    def pause(self) -> None:
        if self._resumed is None:
            self._resumed = self._loop.create_future()

    def resume(self) -> None:
        resumed, self._resumed = self._resumed, None
        if resumed is not None and not resumed.done():
            resumed.set_result(None)

    # What goes out

    def asked(self, key: int, number: int) -> None:
        """The client is asked on behalf of a request of this number."""
        exchange = self._by_number.get(number)
        if exchange is not None:
            exchange.keys.append(key)
            self._by_key[key] = exchange

    def note(self, number: int, method: str, text: Optional[bytes]) -> str:
        """A notification is about to be sent on behalf of a request of this number. Any thread may do that."""
        name = _noted(method, None if text is None else read(text))
        with self._lock:
            self._notes.setdefault(name, deque()).append(number)
        return name

    def noted(self, name: str) -> Optional[int]:
        """The number of the request on whose behalf a notification is sent."""
        with self._lock:
            numbers = self._notes.get(name)
            if numbers is None:
                return None
            number = numbers.popleft()
            if not numbers:
                del self._notes[name]
            return number

    def write(self) -> None:
        text = self._transport.take(_ANY)
        while text:
            self._send(text)
            text = self._transport.take(_ANY)

    def _send(self, text: bytes) -> None:
        found = _RESULT.match(text)
        if found is not None:
            self._answered(self._by_id.get(id_key(read(found.group(1)))), text)
            return
        message = read(text)
        first = message[0] if isinstance(message, list) else message
        if "method" not in first:
            self._answered(self._asker(message), text)
        elif "id" in first:
            self._say(self._by_key.get(first["id"]) or self._waits_for(first.get("params")), text)
        elif not self._is_of_dropped(first):
            self._say(self._about(first), text)

    def _asker(self, answer: Any) -> Optional[Exchange]:
        """Whose answer this is."""
        answers = answer if isinstance(answer, list) else [answer]
        for it in answers:
            if it["id"] is not None:
                return self._by_id.get(id_key(it["id"]))
        return self._broken.popleft() if self._broken else None

    def _is_of_dropped(self, message: Any) -> bool:
        """Whether it is the cancel of what no client has read."""
        if message["method"] != "notifications/cancelled" or not self._dropped:
            return False
        key = message["params"].get("requestId")
        is_dropped = key in self._dropped
        self._dropped.discard(key)
        return is_dropped

    def _about(self, message: Any) -> Optional[Exchange]:
        """What a notification is about."""
        params = message.get("params")
        if message["method"] == "notifications/cancelled" and isinstance(params, dict):
            found = self._by_key.get(params["requestId"])
            if found is not None:
                return found
        number = self.noted(_noted(message["method"], params))
        return self._waits_for(params) if number is None else self._by_number.get(number)

    def _waits_for(self, params: Any) -> Optional[Exchange]:
        """The POST that waits for the result of the task on whose behalf something is said."""
        meta = params.get("_meta") if isinstance(params, dict) else None
        related = meta.get(RELATED) if isinstance(meta, dict) else None
        task = related.get("taskId") if isinstance(related, dict) else None
        return None if task is None else next((it for it in self._waiting if it.task == task), None)

    def _answered(self, exchange: Optional[Exchange], text: bytes) -> None:
        if exchange is None:
            if not self.is_over:
                log.warning("a response has no POST that waits for it")
        elif not exchange.ids:
            exchange.fault = text
            exchange.heard.set_result(None)
        else:
            self._end(exchange, text)

    def _say(self, exchange: Optional[Exchange], text: bytes) -> None:
        """Says a message that is no answer, on the stream of a POST or on one of a GET."""
        if exchange is not None:
            stream = exchange.stream
            if stream is None and exchange.may_stream:
                stream = self.stream_of(exchange)
            if stream is not None:
                stream.send(text)
                return
        own = next((it for it in reversed(self._own) if it.is_read), None)
        if own is not None:
            own.send(text)
            return
        self._held.append(text)
        self._held_size += len(text)
        while len(self._held) > 1 and (len(self._held) > _HELD or self._held_size > self._unread):
            self._refuse(self._unheld())

    def _unheld(self) -> bytes:
        text = self._held.popleft()
        self._held_size -= len(text)
        return text

    def _refuse(self, text: bytes) -> None:
        """What no client reads goes, and what waits for its answer is woken."""
        message = read(text)
        key = message.get("id") if isinstance(message, dict) else None
        reply = self._transport.outgoing.replies.get(key) if isinstance(key, int) else None
        if reply is None:
            return
        self._dropped.add(reply.key)
        self._transport.outgoing.withdraw(reply)
        self._transport.outgoing.refuse(reply, Unanswered("the client reads no stream"))

    def _end(self, exchange: Exchange, text: Optional[bytes]) -> None:
        """A POST is answered, or never will be."""
        exchange.is_over = True
        self._waiting.discard(exchange)
        for number in exchange.numbers:
            self._by_number.pop(number, None)
        for id_ in exchange.ids:
            if self._by_id.get(id_) is exchange:
                del self._by_id[id_]
        for key in exchange.keys:
            self._by_key.pop(key, None)
        if exchange.stream is None:
            exchange.answer = text
        else:
            self._end_stream(exchange.stream, text)
        if not exchange.ready.done():
            exchange.ready.set_result(None)

    def _end_stream(self, stream: Stream, text: Optional[bytes]) -> None:
        if text is not None:
            stream.send(text)
        stream.end()
        self.streams.pop(stream.name, None)

    def closed(self, number: int) -> None:
        """A request was closed as cancelled, which may have no answer."""
        exchange = self._by_number.get(number)
        if exchange is None:
            return
        self.write()
        exchange.numbers.discard(number)
        self._by_number.pop(number, None)
        if not exchange.is_over and not exchange.numbers:
            self._end(exchange, None)

    # Streams

    def _new_stream(self) -> Stream:
        self._streams += 1
        stream = Stream(f"{self._name}-{self._streams}", self._store, self._unread)
        self.streams[stream.name] = stream
        return stream

    def stream_of(self, exchange: Exchange) -> Stream:
        """A stream for what a POST is answered."""
        if exchange.stream is None:
            exchange.stream = self._new_stream()
            exchange.reader = exchange.stream.read()
            if exchange.is_over:
                self._end_stream(exchange.stream, exchange.answer)
            elif not exchange.ready.done():
                exchange.ready.set_result(None)
        return exchange.stream

    def leave(self, exchange: Exchange) -> None:
        """Nobody waits for a POST's answer any more that isn't on a stream: what it asks goes to a stream of a GET."""
        if exchange.stream is None:
            exchange.may_stream = False

    def own_stream(self) -> Optional[Tuple[Stream, Reader]]:
        """A stream for what belongs to no POST; None where there are too many."""
        if len(self._own) >= self._most:
            left = next((it for it in self._own if not it.is_read), None)
            if left is None:
                return None
            self._own.remove(left)
            del self.streams[left.name]
        stream = self._new_stream()
        self._own.append(stream)
        reader = stream.read()
        assert reader is not None
        self._hand_over(stream)
        return stream, reader

    def _hand_over(self, stream: Stream) -> None:
        while self._held:
            stream.send(self._unheld())

    def take_up(self, name: str, number: int) -> Optional[Tuple[Stream, Reader]]:
        """A stream, from behind an event on; None where that isn't one of this session's, or what follows is lost."""
        stream = self.streams.get(name)
        if stream is None:
            stream = Stream.over(name, self._store, self._unread)
        reader = stream.read(number)
        if reader is None:
            return None
        if stream in self._own:
            self._own.remove(stream)
            self._own.append(stream)
            self._hand_over(stream)
        return stream, reader

    # The end

    def stop(self) -> None:
        self.end()

    def end(self) -> None:
        """The session is over: what waits is woken."""
        self.is_over = True
        self.resume()
        for exchange in [*self._fed, *self._broken]:
            exchange.is_lost = True
            if not exchange.heard.done():
                exchange.heard.set_result(None)
        self._fed.clear()
        for exchange in list(self._waiting):
            exchange.is_lost = True
            self._end(exchange, None)
        for stream in list(self.streams.values()):
            stream.end("the session is over")
        self.streams.clear()
        self._own.clear()
        self._held.clear()

    async def close(self, seconds: float) -> None:
        self.end()


def _noted(method: str, params: Any) -> str:
    return json.dumps([method, params], sort_keys=True)


class _Heard(Watch):
    """What sees the input, and tells the channel."""

    posts: Posts

    def read(self, data: bytes, told: Sequence[events.Event]) -> None:
        super().read(data, told)
        self.posts.heard(told)


class WebIncoming(Incoming):
    """The requests of a client over HTTP."""

    def say_cancelled(self, number: int, method: str) -> None:
        super().say_cancelled(number, method)
        _posts_of(self).closed(number)


class WebOutgoing(Outgoing):
    """The requests to a client over HTTP, which go out where their streams are."""

    #: Whether an answer would come in another POST, and maybe to another process.
    is_stateless = False

    def keep(self, reply: Reply, key: int, request: Optional[Request]) -> None:
        super().keep(reply, key, request)
        if request is not None:
            _posts_of(self).asked(key, request.number)

    def notify_for(self, request: Request, method: str, params: Any = None) -> None:
        posts, text = _posts_of(self), self.optional_text(params)
        name = posts.note(request.number, method, text)
        try:
            self.notify_text(method, text)
        except BaseException:
            posts.noted(name)
            raise

    def call_one(
        self, method: str, params: Any, request: Optional[Request] = None, timeout: Optional[float] = None
    ) -> Any:
        self._check_that_it_may_ask(method)
        return super().call_one(method, params, request, timeout)

    def call_all(self, calls: Any, *more: Any, **named: Any) -> Any:
        self._check_that_it_may_ask(calls[0][0] if calls else "")
        return super().call_all(calls, *more, **named)

    def _check_that_it_may_ask(self, method: str) -> None:
        if self.is_stateless:
            raise Refused(f"a stateless server can't ask its client: {method}")


def _posts_of(part: Union[Incoming, Outgoing]) -> Posts:
    posts = part.transport.channel
    assert isinstance(posts, Posts)
    return posts


class WebSession(Session):
    """A session over HTTP."""

    _Incoming, _Outgoing, watching = WebIncoming, WebOutgoing, _Heard
    _outgoing: WebOutgoing

    def __init__(self, *given: Any, **named: Any) -> None:
        super().__init__(*given, **named)
        assert isinstance(self.watch, _Heard)
        self.watch.posts = _posts_of(self._outgoing)

    def begin_stateless(self) -> None:
        """Nothing is asked of the client."""
        self._outgoing.is_stateless = True

    def finish_input(self) -> None:
        """No more comes, and nobody waits for more."""
        _posts_of(self._outgoing).end()
        with contextlib.suppress(Refused):
            self._transport.input_ended(False)
