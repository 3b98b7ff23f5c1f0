"""The bytes of a session: those that come become events, which go on in their order, and what is said goes out. Why large
contents are read aside, calls are held, and a request that was cancelled before its turn never begins:
docs/decisions/library_and_bindings.md#python-messages-bindingspython."""
from __future__ import annotations

import contextlib
import functools
import itertools
from _thread import allocate_lock, get_ident
from collections import deque

from . import _json, events
from ._blocking import Blocking
from ._hints import TYPE_CHECKING
from ._incoming import id_wanted
from ._log import log, log_surely
from ._outgoing import AROUND
from .errors import Closed, InputOver, NoMemory, NotOpen

if TYPE_CHECKING:
    import asyncio
    from typing import Any, Callable, Deque, Dict, List, Optional, Set, Tuple, Union

    from ._channels import Channel
    from ._incoming import Incoming
    from ._outgoing import Outgoing
    from ._session import Session
    from ._trace import Traced
    from .connection import Connection, Notes
    from .events import Event

    # Bytes of the input, and what was told of them.
    Piece = Tuple[bytes, List[Event]]

# How much is read on the loop's own thread, in bytes since something was told: what is longer is a large content.
_LARGE = 1 << 16
# How much may wait to be written as calls begin.
_MUCH = 1 << 20
# How many events go on until the loop has its turn, and how many wait until reading stops.
_TURN, _MANY = 2_000, 4_000
# How much is thrown away at once.
_DROPPED = 1 << 20
# More than ever comes.
_ENDLESS = 1 << 62


def _running_loop() -> asyncio.AbstractEventLoop:
    import asyncio

    return asyncio.get_running_loop()


class Transport:
    """Between the channel, which has the bytes, and the connection, which makes events of them and bytes of what is said.

    All of it is for the loop's thread, but `on_loop`, and what a thread reads by `_read_in_thread`.
    """

    # (an instance with more than 30 attributes is slow without; others may still be set)
    __slots__ = (
        "session",
        "incoming",
        "outgoing",
        "channel",
        "connection",
        "watch",
        "thread",
        "turns",
        "_soon",
        "_cancel_by",
        "_takes_tool_cancels",
        "lock",
        "is_closed",
        "_has_begun",
        "is_stopped",
        "is_broken",
        "over",
        "_until_over",
        "change",
        "_unread",
        "_pauses",
        "aside",
        "put_off",
        "_to_read",
        "_is_in_thread",
        "_is_left",
        "events",
        "held",
        "_is_going",
        "_cancels",
        "gone",
        "take",
        "said",
        "_has_flush",
        "_is_unheard",
        "__dict__",
    )

    incoming: Incoming
    outgoing: Outgoing

    def __init__(
        self,
        session: Session,
        channel: Channel,
        connection: Union[Connection, Traced],
        notes: Notes,
        cancel_by: Optional[str],
        takes_tool_cancels: bool,
        turns: Any,
    ) -> None:
        """(`turns` are what has its turns: an event loop, `Blocking`, or where none is given the loop that runs)"""
        # (these never change, and any thread may read them; the connection has a lock of its own)
        self.session, self.channel, self.connection = session, channel, connection
        self.watch = session.watch
        self.thread: int = get_ident()
        self._cancel_by: Optional[str] = cancel_by
        self._takes_tool_cancels: bool = takes_tool_cancels
        # What has its turns: the loop's thread changes it once, by `go_over`; any thread may have it do something.
        self.turns: Any = turns or _running_loop()
        self._soon: Callable[[Callable[[], None]], Any]
        self._soon = getattr(self.turns, "before_waiting", self.turns.call_soon)
        #: Held by the thread that changes `is_closed`, `_is_in_thread` or the calls that threads wait for.
        self.lock: Any = allocate_lock()
        #: Whether all is let go: set once, by the loop's thread under the lock; any thread may read it.
        self.is_closed: bool = False
        # All below is the loop's thread's alone, but where a line says something else. How far the session is:
        self._has_begun = False
        self.is_stopped: bool = False  #: whether `stop` was called, so that no call begins any more
        self.is_broken: bool = False  #: whether it can't go on
        self.over: Optional[str] = None  #: how the input ended
        self._until_over: Optional["asyncio.Future[None]"] = None  # what `serve` waits for until then
        self.change: Optional["asyncio.Future[None]"] = None  #: what it waits for after that
        # What comes:
        self._unread = 0  # how many bytes were read since something was told
        self._pauses: Set[str] = set()  # why nothing is read now
        #: While another thread reads a large content: what ends then. The loop's thread doesn't call the connection.
        self.aside: Optional["asyncio.Future[None]"] = None
        self.put_off: List[Callable[[], Any]] = []  #: what the loop's thread has for the connection meanwhile
        self._to_read: Deque[bytes] = deque()  # added by the loop's thread, taken by the one that reads
        self._is_in_thread = False  # whether one reads: changed under the lock
        self._is_left = False  # whether one did as all was let go, so that it closes the connection
        # What was told and waits for its turn:
        self.events: Deque[Event] = deque()
        self.held: Deque[events.Call] = deque()  #: calls that wait until what is said has been written
        self._is_going = False
        self._cancels = notes.cancelled
        self.gone: Set[int] = set()  #: of the requests that wait, those that are cancelled
        # What goes out:
        #: What is to be written, so many bytes at most.
        self.take: Callable[[int], bytes] = connection.take
        #: About how many bytes have been said since it was known how many are to be written. Any thread adds to it, and
        #: it may lose some where several do.
        self.said: int = 0
        self._has_flush = self._is_unheard = False

    @property
    def loop(self) -> asyncio.AbstractEventLoop:
        """The event loop, which is made where none was needed yet."""
        loop: asyncio.AbstractEventLoop
        loop = self.turns.event_loop() if type(self.turns) is Blocking else self.turns
        return loop

    def go_over(self) -> None:
        """Has its turns in the event loop from now on."""
        before, loop = self.turns, self.loop
        self.turns, self._soon = loop, getattr(loop, "before_waiting", loop.call_soon)
        before.hand_over()
        self.channel.go_over(loop)

    def begin(self) -> None:
        """Begins to read, where it hasn't."""
        if not self._has_begun:
            self._has_begun = True
            self.channel.start(self)

    # Reading

    def received(self, data: bytes) -> None:
        """Bytes of the input."""
        self._unread += len(data)
        if self._unread > _LARGE:
            if not self.is_closed:
                self._read_aside(data)
            return
        try:
            told = self.connection.fed(data)
            if told:
                self._unread = 0
            self.watch.read(data, told)
            if self._cancels or self._takes_tool_cancels:
                self._note_cancels(told)
        except InputOver:
            return
        except (KeyboardInterrupt, SystemExit):
            raise
        except BaseException as fault:
            self._fail_to_read(fault)
            return
        if len(told) != 1 or not self._goes_on_with(told[0]):
            self.events += told
            if not self._is_going:
                self._go_on()

    def input_ended(self, failed: bool) -> None:
        """The end of the input."""
        if self.is_closed:
            return
        if self.aside is not None:
            self.put_off.append(functools.partial(self.input_ended, failed))
            return
        try:
            with contextlib.suppress(InputOver):
                self.connection.end(failed)
            self._take_in(b"", self.connection.events())
        except (KeyboardInterrupt, SystemExit):
            raise
        except BaseException as fault:
            self._fail_to_read(fault)
            return
        if not self._is_going:
            self._go_on()

    def _fail_to_read(self, fault: BaseException) -> None:
        self.give_up("what was received can't be read", fault)

    def give_up(self, why: str, fault: BaseException) -> None:
        """The session can't go on: it ends, and not well."""
        if isinstance(fault, NoMemory):
            self.watch.because("Memory")
        else:
            self.watch.because("Failed")
            log_surely("the session ends, since %s", why, fault=fault)
        self.is_broken = True
        self.events.clear()
        self.held.clear()
        self.channel.stop()
        self.is_over_by("Read")

    def is_over_by(self, how: str) -> None:
        if self.over is None:
            self.over = how
            if self._until_over is not None:
                self._until_over.set_result(None)

    def _pause(self, why: str) -> None:
        if not self._pauses:
            self.channel.pause()
        self._pauses.add(why)

    def _resume(self, why: str) -> None:
        if why in self._pauses:
            self._pauses.discard(why)
            if not self._pauses:
                self.channel.resume()

    # Large contents

    def _read_aside(self, data: bytes) -> None:
        """Reads in a thread of its own. Until it has, the loop's thread doesn't call the connection."""
        self._to_read.append(data)
        if self.aside is None:
            self.aside = self.loop.create_future()
            self._pause("aside")
            self.take = lambda most: b""
            self._start_thread()

    def _start_thread(self) -> None:
        import threading

        self._is_in_thread = True
        try:
            threading.Thread(target=self._read_in_thread, name="bullmyrtle-reading", daemon=True).start()
        except (RuntimeError, MemoryError):
            # (no thread can be started, and so the others have to wait)
            self._is_in_thread = False
            self.was_read(*self._all_read())

    def _read_in_thread(self) -> None:
        pieces, fault = self._all_read()
        with self.lock:
            self._is_in_thread = False
            is_closed = self.is_closed
        if is_closed:
            self.connection.close()
        else:
            self.on_loop(self.was_read, pieces, fault)

    def _all_read(self) -> Tuple[List[Piece], Optional[BaseException]]:
        pieces: List[Piece] = []
        try:
            while self._to_read:
                data = self._to_read.popleft()
                pieces.append((data, self.connection.fed(data, True)))
        except BaseException as fault:
            return pieces, fault
        return pieces, None

    def was_read(self, pieces: List[Piece], fault: Optional[BaseException]) -> None:
        """A large content, or a part of it, is read: what was put off is done, and all goes on."""
        if self.is_closed or self.aside is None:
            return
        for data, told in pieces:
            self.do(functools.partial(self._take_in, data, told))
        if self._to_read and fault is None:
            self._start_thread()
            return
        aside, self.aside = self.aside, None
        self.take = self.connection.take
        if pieces and pieces[-1][1]:
            self._unread = 0
        if fault is not None and not isinstance(fault, InputOver):
            self._fail_to_read(fault)
        put_off, self.put_off = self.put_off, []
        for it in put_off:
            self.do(it)
        aside.set_result(None)
        self._resume("aside")
        if not self._is_going:
            self._go_on()
        self.flush_soon()

    def when_read(self, what: Callable[..., None], *words: Any) -> None:
        """Does what needs the connection: now, or once a large content is read."""
        if self.aside is None:
            what(*words)
        else:
            self.put_off.append(functools.partial(what, *words))

    def check_that_it_can_be_put_off(self) -> None:
        if self.is_closed:
            raise Closed(self.watch.over(self.session.ended))

    @staticmethod
    def do(what: Callable[[], Any]) -> None:
        try:
            what()
        except (KeyboardInterrupt, SystemExit):
            raise
        except BaseException:
            log.exception("what was put off, or is done at the end, failed")

    def on_loop(self, what: Callable[..., None], *words: Any) -> None:
        """Has something done on the loop's thread; where the loop is gone, nobody waits for it."""
        with contextlib.suppress(RuntimeError):
            self.turns.call_soon_threadsafe(what, *words)

    # Events

    def _take_in(self, data: bytes, told: List[Event]) -> None:
        """A piece was read, and this was told."""
        self.watch.read(data, told)
        if self._cancels or self._takes_tool_cancels:
            self._note_cancels(told)
        self.events += told

    def _note_cancels(self, told: List[Event]) -> None:
        """A request whose cancel is among what was told never begins, if its turn hasn't come."""
        if self._cancels:
            self.gone.update(self._cancels)
            self._cancels.clear()
        elif len(told) > 1 or self.events or self.held:
            self._note_tool_cancels(told)

    def _note_tool_cancels(self, told: List[Event]) -> None:
        name = self._cancel_by
        if not any(type(it) is events.Call and it[1] == name for it in told):
            return
        numbers: Dict[Tuple[type, Any], List[int]] = {}
        for event in itertools.chain(self.held, self.events, told):
            if type(event) is not events.Call:
                continue
            if event.id is not None:
                id_ = _json.loads(event.id)
                numbers.setdefault((type(id_), id_), []).append(event.number)
            elif event.method == name:
                self.gone.update(numbers.pop(id_wanted(event), ()))

    def _go_on(self, is_later: bool = False) -> None:
        """Takes the events in their order, up to a method that starts as a task: that begins before what follows it."""
        if self.aside is not None:
            self._is_going = False
            return
        waiting, gone = self.events, self.gone
        self._is_going = True
        has_begun = has_told = has_more = False
        begin = self.incoming.begin
        try:
            if self.held and not self._has_much_to_write():
                waiting.extendleft(reversed(self.held))
                self.held.clear()
            for _ in range(min(len(waiting), _TURN)):
                if self.said > _MUCH and self._has_much_to_write():
                    self._hold_calls()
                    has_told = True
                    break
                event = waiting.popleft()
                try:
                    if type(event) is not events.Call:
                        has_told = True
                        self._happened(event)
                    elif event[0] in gone and self._never_begins(event[0], event[1]):
                        pass
                    elif begin(event):
                        has_begun = True
                        break
                except (KeyboardInterrupt, SystemExit):
                    raise
                except BaseException as fault:
                    self._went_wrong(event, fault)
        except IndexError:
            pass  # (the session gave up, and so nothing waits any more)
        else:
            has_more = bool(waiting)
        finally:
            # (The task's first step comes before the channel's next turn, where this is the channel's turn. If it was
            # put off until now, the channel may have its turn after it and before that step.)
            self._is_going = has_more or has_begun and (is_later or not self.channel.takes_turns)
            if self._is_going:
                self.turns.call_soon(self._go_on, True)
        if has_more or self._pauses:
            self._pause_while_many_wait()
        if has_begun or has_told:
            self.flush_soon()  # (whatever goes on now may have more to say)
        else:
            self.flush()

    def _goes_on_with(self, event: Event) -> bool:
        """Takes a call that came alone, where nothing waits before it and it is what most calls are; says whether it was
        taken. `_go_on` does the same in more steps."""
        if type(event) is not events.Call or self._is_going or self.events or self.held or self.gone:
            return False
        method = self.incoming.methods.get(event[1])
        if method is None or not method.is_quick or self._pauses or self.said > _MUCH:
            return False
        has_begun, self._is_going = False, True
        try:
            has_begun = self.incoming.begin(event)
        except (KeyboardInterrupt, SystemExit):
            raise
        except BaseException as fault:
            self._went_wrong(event, fault)
        finally:
            # (as in `_go_on`; more may have come meanwhile)
            self._is_going = bool(self.events) or has_begun and not self.channel.takes_turns
            if self._is_going:
                self.turns.call_soon(self._go_on, True)
        if self.events:
            self._pause_while_many_wait()
        if has_begun:
            self.flush_soon()
        else:
            self.flush()
        return True

    def _pause_while_many_wait(self) -> None:
        if len(self.events) > _MANY:
            self._pause("many")
        else:
            self._resume("many")

    def _never_begins(self, number: int, method: str) -> bool:
        """A request was cancelled before its turn: ends it, unless it is one that is never cancelled."""
        self.gone.discard(number)
        if self.outgoing.is_never_cancelled(method):
            return False
        self.end_unbegun(number, method)
        return True

    def end_unbegun(self, number: int, method: str) -> None:
        self.said += AROUND
        with contextlib.suppress(NotOpen):
            self.incoming.say_cancelled(number, method)

    def _went_wrong(self, event: Event, fault: BaseException) -> None:
        """The last resort for an event."""
        if isinstance(event, events.Call):
            self.incoming.escaped(event.number, event.method, fault)
        elif isinstance(event, events.Cancelled):
            self.incoming.escaped(event.number, "a cancel", fault)
        else:
            self.give_up("a reply can't be told", fault)

    def _happened(self, event: Event) -> None:
        if type(event) is events.Replied:
            self.outgoing.replied(event)
        elif isinstance(event, events.Failed):
            self.outgoing.failed(event)
        elif isinstance(event, events.Unanswered):
            self.outgoing.unanswered(event)
        elif isinstance(event, events.Cancelled):
            self.gone.discard(event.number)
            self.incoming.their_cancel(event.number)
        elif isinstance(event, events.Broken):
            self._tell_broken(event)
        elif isinstance(event, events.Over):
            self.is_over_by(event.how)

    def _tell_broken(self, broken: events.Broken) -> None:
        """Tells anyone who wants to know of broken input, and goes on whatever that does."""
        if self.session.on_broken is None:
            return
        try:
            self.session.on_broken(broken, self.session)
        except (KeyboardInterrupt, SystemExit):
            raise
        except BaseException as error:
            log_surely("on_broken raised %s", type(error).__name__, fault=error)

    # What goes out

    @property
    def is_busy(self) -> bool:
        """Whether a large content is being read, so that nothing can be taken."""
        return self.aside is not None

    @property
    def pending(self) -> int:
        """How many bytes there are to be written, as far as they can be taken now."""
        return 0 if self.is_closed or self.aside is not None else self.connection.pending

    @property
    def is_over(self) -> bool:
        """Whether the input is over."""
        return self.over is not None

    @property
    def has_nothing(self) -> bool:
        """Whether nothing waits for its turn."""
        return not (self.events or self.held)

    def flush_soon(self) -> None:
        if not self._has_flush:
            self._has_flush = True
            self._soon(self.flush)

    def flush(self) -> None:
        self._has_flush = False
        if self.is_closed or self.aside is not None:
            return
        try:
            self.channel.write()
            if self._is_unheard:
                self._drop()
        except (KeyboardInterrupt, SystemExit):
            raise
        except BaseException as fault:
            self.give_up("what is said can't be written", fault)
        if self.held and self.channel.is_idle:
            self.turns.call_soon(self._go_on_where_held)
        if self.change is not None:
            self.changed()

    def _drop(self) -> None:
        """Nobody reads what is said, so that it needn't be kept."""
        while self.take(_DROPPED):
            pass

    def was_written(self) -> None:
        """All that there was is written, later than it was said."""
        self.flush_soon()

    def broke(self) -> None:
        """Nobody reads the output any more, so there is no use in going on."""
        self.is_broken = self._is_unheard = True
        self.watch.because("Broken")
        self.input_ended(True)

    def finish(self) -> None:
        """Says no more, once what is said has been written."""
        if self.aside is not None:
            self.put_off.append(self.finish)
            return
        self.watch.is_finished = True
        self.flush()
        self.channel.finish()

    def is_written(self) -> bool:
        return self.is_broken or (self.channel.is_idle and not self.pending)

    def changed(self) -> None:
        if self.change is not None and not self.change.done():
            self.change.set_result(None)

    # Much that waits to be written

    def _has_much_to_write(self) -> bool:
        """Writes what can be written, and says whether so much is left that no call begins."""
        self.flush()
        if self.is_stopped or self.is_broken:
            self.said = 0
            return False
        self.said = self.pending + self.channel.waiting
        return self.said > _MUCH

    def _hold_calls(self) -> None:
        """Calls wait until what is said has been written; all else is told on."""
        waiting = list(self.events)
        self.events.clear()
        held = {it.number for it in self.held}
        for event in waiting:
            if type(event) is events.Cancelled and event.number in held:
                continue  # (it never begins, by what was noted as the cancel was read)
            if type(event) is not events.Call:
                try:
                    self._happened(event)
                except (KeyboardInterrupt, SystemExit):
                    raise
                except BaseException as fault:
                    self._went_wrong(event, fault)
            else:
                if self._takes_tool_cancels and event.method == self._cancel_by:
                    self.incoming.cancel_by_id(event)
                self.held.append(event)
                held.add(event.number)

    def _go_on_where_held(self) -> None:
        """What there was to write is written, and so calls that were held go on."""
        if self.held and not self._is_going and not self.is_closed and self.channel.is_idle:
            self._go_on()

    # The end

    async def wait_until_over(self) -> None:
        """Waits for the end of the input."""
        if self.over is None:
            self._until_over = self.loop.create_future()
            await waited({self._until_over})

    def shut(self) -> bool:
        """Nothing comes or goes any more; says whether there was something to shut."""
        with self.lock:
            if self.is_closed:
                return False
            self.is_closed = True
            self._is_left = self._is_in_thread
        self.take = lambda most: b""
        self._unread = _ENDLESS  # (so that nothing more is read)
        self.events.clear()
        self.held.clear()
        return True

    async def close(self, seconds: float) -> None:
        """Lets go of the channel and the connection, after `shut`."""
        put_off, self.put_off = self.put_off, []
        for it in put_off:
            self.do(it)
        if self.aside is not None and not self.aside.done():
            self.aside.set_result(None)
        await self.channel.close(seconds)
        if not self._is_left:
            self.connection.close()


async def waited(things: Any, seconds: Optional[float] = None) -> None:
    import asyncio  # (here, as a server may end without it)

    await asyncio.wait(things, timeout=seconds)
