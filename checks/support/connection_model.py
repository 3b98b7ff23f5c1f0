"""A plain model of a connection, by the rules of docs/connection.md: what each call of its host gives, by the history
so far."""
from dataclasses import dataclass, field
from typing import Any, Callable, NamedTuple, Optional

from support import connection_reading as reading
from support.connection_reading import SAID_DEPTH, Entry, Error, Input, Members, Unit
from support.framings import Content
from support.reading import ABSENT

PARSE_ERROR = Error(-32700, "Parse error")
INVALID_REQUEST = Error(-32600, "Invalid Request")
CANCELLED = Error(-32800, "Request cancelled")
MOST_KEYS = 2**53 - 1
MOST_CONTENT = 2_147_483_647
USUAL_CONTENT = 16_777_216  # where nothing else is asked for
MOST_CALLS = 2**64 - 1
MOST_PLACE = 2**64 - 1
# So many bytes of a broken content are told.
MOST_START = 64


class Refused(Exception):
    """A call of the host's is refused, by this name, and has changed nothing."""


class Settings(NamedTuple):
    framing: str  # frames, lines, contents
    order: str  # as-answered, as-came
    cancels: Optional[str]  # whose: lsp, mcp, or none
    content: int = USUAL_CONTENT
    calls: int = MOST_CALLS
    tells_broken: bool = False
    entries: Optional[int] = None  # how many a batch may have; None: any number
    null_params: bool = False  # whether params that are null are told


# Events. Params, ids, results and data are compact JSON texts, or None where there are none.


class Broken(NamedTuple):
    """A content is unreadable, or has invalid entries: so many, the first of which stands at `first`."""

    place: int  # of its first byte, counted from the first byte that was fed
    start: bytes  # its first bytes
    first: int
    count: int  # type: ignore[assignment]  # 0 where it is unreadable


class Call(NamedTuple):
    number: int
    method: str
    params: Optional[str]
    id: Optional[str]


class Cancelled(NamedTuple):
    number: int


class Replied(NamedTuple):
    key: int
    result: str


class Failed(NamedTuple):
    """A reply that is an error."""

    key: int
    code: int
    message: str
    data: Optional[str]


class Unanswered(NamedTuple):
    key: int


class Over(NamedTuple):
    how: str


Event = Broken | Call | Cancelled | Replied | Failed | Unanswered | Over


class Report(NamedTuple):
    calls: int
    requests: int
    open: int
    waiting: int
    own_calls: int
    answers_written: int
    unreadable: int
    invalid: int
    ignored: int


# The history


@dataclass
class Came:
    """A unit that came: the answers of its requests and invalid entries in their order, each a text, empty where the
    request was closed without an answer, or None as long as it is open."""

    is_batch: bool
    answers: list[Optional[str]] = field(default_factory=list)
    is_out: bool = False

    @property
    def is_due(self) -> bool:
        return not self.is_out and self.answers != [] and None not in self.answers

    @property
    def text(self) -> str:
        """What is written, or no text where nothing is."""
        texts = [it for it in self.answers if it]
        return f"[{','.join(texts)}]" if self.is_batch and texts else "".join(texts)


@dataclass
class Theirs:
    """A call that came."""

    entry: Entry
    unit: Came
    place: int  # of its answer
    is_open: bool = True
    is_cancelled: bool = False  # whether a cancel reached it


@dataclass
class Ours:
    """A call of the host's."""

    number: int  # on whose behalf
    waits: bool = True
    is_withdrawn: bool = False


def text_or_none(value: Any) -> Optional[str]:
    return None if value is ABSENT else reading.text_of(value)


def error_text(error: Error) -> str:
    data = "" if error.data is ABSENT else f'"data":{reading.text_of(error.data)},'
    return f'{{"code":{error.code},{data}"message":{reading.string_of(error.message)}}}'


def answer_text(id_: Any, said: Any) -> str:
    named = f'"id":{reading.text_of(id_)},"jsonrpc":"2.0"'
    return (
        f'{{"error":{error_text(said)},{named}}}'
        if isinstance(said, Error)
        else f'{{{named},"result":{reading.text_of(said)}}}'
    )


def broken_of(unit: Unit, content: Content) -> Optional[Broken]:
    """What is told of a content, where it is unreadable or has invalid entries."""
    place, start, invalid = min(content.place, MOST_PLACE), content.data[:MOST_START], unit.invalid
    if unit.kind == "unreadable":
        return Broken(place, start, 0, 0)
    return Broken(place, start, invalid[0], len(invalid)) if invalid else None


def message_text(key: Optional[int], method: str, params: Any) -> str:
    named = "" if key is None else f'"id":{key},'
    more = "" if params is ABSENT else f',"params":{reading.text_of(params)}'
    return f'{{{named}"jsonrpc":"2.0","method":{reading.string_of(method)}{more}}}'


# What the host gives


def words_of(given: bytes) -> str:
    try:
        return given.decode("utf-8")
    except ValueError:
        raise Refused("not_text") from None


def value_of(given: bytes) -> Any:
    try:
        return reading.value_of(given, SAID_DEPTH)
    except ValueError:
        raise Refused("not_json") from None


def params_of(given: Optional[bytes]) -> Any:
    """An array or an object, or ABSENT."""
    value = ABSENT if given is None else value_of(given)
    if value is not ABSENT and not isinstance(value, list):
        raise Refused("not_json")
    return value


class Model:
    def __init__(self, settings: Settings) -> None:
        if not 1 <= settings.content <= MOST_CONTENT or not 1 <= settings.calls <= MOST_CALLS:
            raise Refused("settings")
        self.settings = settings
        self.input = Input(settings.framing, settings.content)
        self.input_ended, self.is_over = False, False  # (what the host said; whether it has happened)
        self.calls: list[Theirs] = []  # (the call numbered n is the n-th)
        self.ours: list[Ours] = []  # (the call with the key k is the k-th)
        self.units: list[Came] = []
        self.events: list[Event] = []
        self.told = 0
        self.out: list[bytes] = []  # what is written and not taken
        self.counts = {"answers_written": 0, "unreadable": 0, "invalid": 0, "ignored": 0}

    # The input

    def feed(self, piece: bytes) -> None:
        if self.input_ended:
            raise Refused("over")
        if not self.is_over:
            self.input.feed(piece)

    def end(self, how: str) -> None:
        if self.input_ended:
            raise Refused("over")
        self.input_ended = True
        self.input.finish(how == "failed")

    # Events

    def next(self) -> Optional[Event]:
        """The next event, or None."""
        while self.told == len(self.events):
            if self.is_over or not (self.input.waiting or self.input.end):
                return None
            if self.input.waiting:
                self.take_content(self.input.waiting.pop(0))
            else:
                self.end_now(self.input.end)
        self.told += 1
        return self.events[self.told - 1]

    def take_content(self, content: Content) -> None:
        unit = reading.unit_of(content, self.settings.cancels, self.settings.entries, self.settings.null_params)
        if len(self.calls) + sum(it.kind == "call" for it in unit.entries) > self.settings.calls:
            self.end_now("Full")
            return
        broken = broken_of(unit, content) if self.settings.tells_broken else None
        if broken is not None:
            self.events.append(broken)
        came = Came(unit.kind == "batch")
        self.units.append(came)
        if unit.kind == "unreadable":
            self.counts["unreadable"] += 1
            came.answers.append(answer_text(None, PARSE_ERROR))
        for entry in unit.entries:
            self.take_entry(entry, came)
        self.write_answers()

    def take_entry(self, entry: Entry, came: Came) -> None:
        if entry.kind == "call":
            self.take_call(entry, came)
        elif entry.kind == "cancel":
            self.take_cancel(entry)
        elif entry.kind == "invalid":
            self.counts["invalid"] += 1
            came.answers.append(answer_text(None, INVALID_REQUEST))
        elif entry.kind == "reply" and self.waits(entry.key):
            self.take_reply(entry)
        else:
            self.counts["ignored"] += 1

    def take_call(self, entry: Entry, came: Came) -> None:
        self.calls.append(Theirs(entry, came, len(came.answers)))
        if entry.is_request:
            came.answers.append(None)
        params = None if entry.params is None else reading.text_of(entry.params)
        self.events.append(Call(len(self.calls), entry.method, params, text_or_none(entry.id)))

    def take_cancel(self, cancel: Entry) -> None:
        events = len(self.events)
        for number, call in enumerate(self.calls, 1):
            if call.is_open and call.entry.is_request and call.entry.id == cancel.id and not call.is_cancelled:
                call.is_cancelled = True
                self.events.append(Cancelled(number))
        self.counts["ignored"] += len(self.events) == events

    def take_reply(self, reply: Entry) -> None:
        self.ours[reply.key - 1].waits = False
        if isinstance(reply.said, Error):
            self.events.append(Failed(reply.key, reply.said.code, reply.said.message, text_or_none(reply.said.data)))
        else:
            self.events.append(Replied(reply.key, reading.text_of(reply.said)))

    def end_now(self, how: str) -> None:
        self.events += [Unanswered(it) for it in self.keys_that(lambda call: call.waits)]
        for call in self.ours:
            call.waits = False
        self.events.append(Over(how))
        self.is_over = True

    # What the host says

    def call(self, number: int, method: bytes, params: Optional[bytes]) -> int:
        return self.speak(number, [(method, params)], is_batch=False)

    def batch(self, number: int, calls: list[tuple[bytes, Optional[bytes]]]) -> int:
        return self.speak(number, calls, is_batch=True)

    def speak(self, number: int, calls: list[tuple[bytes, Optional[bytes]]], is_batch: bool) -> int:
        """Calls the other side, and gives the first key."""
        if number != 0:
            self.open_call(number)
        methods = [words_of(method) for method, _ in calls]
        params = [params_of(it) for _, it in calls]
        if self.is_over:
            raise Refused("over")
        if not calls:
            raise Refused("empty")
        first = len(self.ours) + 1
        if len(self.ours) + len(calls) > MOST_KEYS:
            raise Refused("full")
        self.ours += [Ours(number) for _ in calls]
        texts = [message_text(key, *it) for key, it in enumerate(zip(methods, params), first)]
        self.write(f"[{','.join(texts)}]" if is_batch else texts[0])
        return first

    def notify(self, method: bytes, params: Optional[bytes]) -> None:
        self.write(message_text(None, words_of(method), params_of(params)))

    def withdraw(self, key: int) -> None:
        if self.settings.cancels is None or not self.waits(key) or self.ours[key - 1].is_withdrawn:
            raise Refused("not_waiting")
        self.ours[key - 1].is_withdrawn = True
        self.ours[key - 1].waits = self.settings.cancels == "lsp"
        method, member = reading.CANCELS[self.settings.cancels]
        self.write(message_text(None, method, Members([(member, reading.Number(str(key)))])))

    def answer(self, number: int, result: Optional[bytes]) -> None:
        """Answers with a result; None is for a notification."""
        call = self.open_call(number)
        if result is None and call.entry.is_request:
            raise Refused("not_json")
        self.close(number, None if result is None else value_of(result))

    def fail(self, number: int, code: int, message: bytes, data: Optional[bytes]) -> None:
        self.open_call(number)
        self.close(number, Error(code, words_of(message), ABSENT if data is None else value_of(data)))

    def cancel(self, number: int) -> None:
        is_cancelled = self.open_call(number).is_cancelled
        if self.settings.cancels is not None:
            for key in self.keys_that(lambda call: call.number == number and call.waits and not call.is_withdrawn):
                self.withdraw(key)
        self.close(number, ABSENT if is_cancelled and self.settings.cancels == "mcp" else CANCELLED)

    # The output

    def pending(self) -> int:
        texts = self.out[:1] if self.settings.framing == "contents" else self.out
        return sum(map(len, texts))

    def take(self, room: int) -> bytes:
        if self.settings.framing == "contents":
            return self.out.pop(0) if self.out and len(self.out[0]) <= room else b""
        written = b"".join(self.out)
        self.out = [written[room:]] if written[room:] else []
        return written[:room]

    def is_done(self) -> bool:
        is_told = self.told == len(self.events)
        return self.is_over and is_told and self.pending() == 0 and not any(it.is_open for it in self.calls)

    def fault_place(self) -> Optional[int]:
        """Where the frame, line or content at fault begins, once the input is at fault."""
        place = self.input.fault_place
        return None if place is None else min(place, MOST_PLACE)

    def report(self) -> Report:
        requests = sum(it.entry.is_request for it in self.calls)
        still_open = sum(it.is_open for it in self.calls)
        return Report(
            len(self.calls), requests, still_open, sum(it.waits for it in self.ours), len(self.ours), **self.counts
        )

    # What these have in common

    def waits(self, key: int) -> bool:
        return 1 <= key <= len(self.ours) and self.ours[key - 1].waits

    def keys_that(self, which: Callable[[Ours], bool]) -> list[int]:
        return [key for key, call in enumerate(self.ours, 1) if which(call)]

    def open_call(self, number: int) -> Theirs:
        if not 1 <= number <= len(self.calls) or not self.calls[number - 1].is_open:
            raise Refused("not_open")
        return self.calls[number - 1]

    def close(self, number: int, said: Any) -> None:
        """An open call is answered, or closed without an answer, where what is said is ABSENT."""
        call = self.calls[number - 1]
        call.is_open = False
        for ours in self.ours:
            if ours.number == number:
                ours.waits = False
        if call.entry.is_request:
            call.unit.answers[call.place] = "" if said is ABSENT else answer_text(call.entry.id, said)
        self.write_answers()

    def write_answers(self) -> None:
        """Writes the answers of the units that are due, in the order in which these came."""
        for unit in self.units:
            if unit.is_due:
                unit.is_out = True
                if unit.text:
                    self.counts["answers_written"] += 1
                    self.write(unit.text)
            elif self.settings.order == "as-came" and None in unit.answers:
                break

    def write(self, text: str) -> None:
        data = text.encode("utf-8")
        head = b"Content-Length: %d\r\n\r\n" % len(data) if self.settings.framing == "frames" else b""
        self.out.append(head + data + (b"\n" if self.settings.framing == "lines" else b""))
