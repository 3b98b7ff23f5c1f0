"""What the judge reads: the contents of a side's stream with their places, and of each content its entries, strictly by
the standards, as docs/judge.md has it."""
import math
import re
from dataclasses import dataclass
from typing import Any, Iterator, NamedTuple, Optional

from support import connection_reading, reading
from support.connection_reading import Members, Number
from support.framings import Content, Cutter
from support.reading import ABSENT, DEPTH, WHOLE

NUMBER = re.compile(r"(-?)([0-9]+)(?:\.([0-9]+))?(?:[eE]([+-]?[0-9]+))?")
BRACKETS = {"[": "]", "{": "}"}
SAFE_DEPTH = 31  # what nests deeper may be refused by a reader
MOST_ENTRIES = 100_000  # of an array that is looked into


# Contents


class Stream:
    """The bytes of one side, as contents and a fault."""

    def __init__(self, framing: str, limit: int) -> None:
        self.cutter = Cutter(framing, limit)

    @property
    def fault(self) -> str:
        """Nothing, "head", or "not-judged" where it is a limit of the judge's."""
        fault = self.cutter.fault
        is_limit = fault in ("TooLarge", "HeadTooLong") or (fault == "BadLength" and is_long(self.cutter.rest))
        return "not-judged" if is_limit else "head" if fault else ""

    @property
    def place(self) -> int:
        return self.cutter.place

    @property
    def is_over(self) -> bool:
        return self.fault != ""

    def saw(self, data: bytes) -> Iterator[Content]:
        """The contents whose last byte is now seen."""
        if not self.is_over:
            yield from self.cutter.feed(data)

    def closed(self) -> Optional[Content]:
        """What the close leaves: a line without its LF, or a frame that isn't whole."""
        return self.cutter.last()


def is_long(rest: bytes) -> bool:
    """Whether the length in a head has more digits than are read, and nothing else."""
    fields = (line.partition(b":") for line in rest.split(b"\n"))
    values = [value for name, _, value in fields if name.lower() == b"content-length"]
    return re.fullmatch(rb"[0-9]{11,}", values[0].strip(b" \t\r")) is not None


# JSON


class Unreadable(Exception):
    """A content that isn't read, by the name of its rule, and why."""

    def __init__(self, rule: str, why: str) -> None:
        super().__init__(rule, why)
        self.rule, self.why = rule, why


def too_deep_front(text: str) -> Optional[str]:
    """A JSON text that stops where the nesting first goes over the limit, and closes what is open there; or None, where
    it never does."""
    closers, is_string, is_escape = list[str](), False, False
    for at, it in enumerate(text):
        if is_string:
            is_string = is_escape or it != '"'
            is_escape = not is_escape and it == "\\"
        elif it == '"':
            is_string = True
        elif it in BRACKETS:
            if len(closers) == DEPTH:
                return text[:at] + "0" + "".join(reversed(closers))
            closers.append(BRACKETS[it])
        elif it in "]}" and closers:
            closers.pop()
    return None


def loaded(text: str) -> Any:
    try:
        return connection_reading.loaded(text)
    except ValueError:
        raise Unreadable("not-json", "it isn't JSON") from None


def value_of(content: Content) -> Any:
    """The JSON value that a content is."""
    if content.is_foreign:
        raise Unreadable("charset", "its head says another charset")
    try:
        text = content.data.decode("utf-8")
    except ValueError:
        raise Unreadable("not-json", "it isn't UTF-8") from None
    if (front := too_deep_front(text)) is not None:
        loaded(front)
        raise Unreadable("not-judged", f"it nests deeper than {DEPTH}")
    value = loaded(text)
    if reading.has_half_a_pair(text):
        raise Unreadable("not-judged", "a string has half of a surrogate pair")
    return value


def has_huge(value: Any) -> bool:
    """Whether a number in it is beyond a float's range."""
    if isinstance(value, Number):
        return math.isinf(float(value.text))
    if isinstance(value, Members):
        return any(has_huge(it) for _, it in value)
    return isinstance(value, list) and any(map(has_huge, value))


def depth_of(value: Any) -> int:
    """How many arrays and objects stand in one another."""
    inside = [it for _, it in value] if isinstance(value, Members) else value if isinstance(value, list) else None
    return 0 if inside is None else 1 + max(map(depth_of, inside), default=0)


# Ids


class Decimal(NamedTuple):
    """A number by its value: its digits, which begin and end with none that is 0, times ten to a power."""

    is_negative: bool
    digits: str
    power: int

    @property
    def is_whole(self) -> bool:
        return self.power >= 0

    def within(self, numbers: range) -> Optional[int]:
        """The whole number that it is, where it is one of these."""
        if not self.is_whole or len(self.digits) + self.power > 20:
            return None
        value = int(self.digits or "0") * 10**self.power * (-1 if self.is_negative else 1)
        return value if value in numbers else None


Id = str | Decimal | None  # (None is null)


def decimal_of(text: str) -> Decimal:
    found = NUMBER.fullmatch(text)
    assert found is not None
    sign, whole, fraction, power = found.groups()
    fraction = fraction or ""
    digits = (whole + fraction).lstrip("0")
    stripped = digits.rstrip("0")
    if not stripped:
        return Decimal(False, "", 0)
    return Decimal(sign == "-", stripped, int(power or "0") - len(fraction) + len(digits) - len(stripped))


def id_of(value: Any) -> Any:
    """An id, or ABSENT where the value can't be one."""
    if value is None or isinstance(value, str):
        return value
    return decimal_of(value.text) if isinstance(value, Number) else ABSENT


def is_plain(value: Any) -> bool:
    """Whether a number is written as a whole one of 64 bits."""
    return connection_reading.whole_of(value, WHOLE) is not None


# Entries

# The members of a message (JSON-RPC 4, 5). Where one stands twice, its reader may take either, or refuse it all (RFC 8259, 4).
MEMBERS = ("jsonrpc", "id", "method", "params", "result", "error")


class First(NamedTuple):
    """What an entry says by the first of each of its members."""

    id: Any  # the readable id, or ABSENT
    method: Any
    params: Any


@dataclass(frozen=True)
class Entry:
    kind: str  # request, notification, answer, broken answer, invalid
    faults: tuple[str, ...] = ()  # each rule by which it is no message
    id: Any = ABSENT  # the readable id that it has, or ABSENT
    is_odd: bool = False  # its id is a number that isn't written as a whole one of 64 bits
    method: str = ""
    params: Any = ABSENT
    result: Any = ABSENT  # (of an answer, as the next one)
    error: Any = ABSENT
    is_both: bool = False  # it has a method and an id, and a result or an error too
    lacks_id: bool = False  # it is an error alone, and has no id
    first: Optional[First] = None  # where a member of it stands twice

    @property
    def is_answer(self) -> bool:
        return self.kind in ("answer", "broken answer")

    @property
    def is_message(self) -> bool:
        return self.kind in ("request", "notification", "answer")

    @property
    def code(self) -> Optional[Decimal]:
        """The code of its error, where it has one."""
        code = self.error.get("code") if isinstance(self.error, Members) else None
        return decimal_of(code.text) if isinstance(code, Number) else None


def is_structured(value: Any) -> bool:
    return isinstance(value, list)  # (an object's members are a list too)


def is_array(value: Any) -> bool:
    return isinstance(value, list) and not isinstance(value, Members)


def is_error(value: Any) -> bool:
    """Whether an answer's error has a code that is whole by value, and a string message."""
    if not isinstance(value, Members) or not isinstance(value.get("message"), str):
        return False
    code = value.get("code")
    return isinstance(code, Number) and decimal_of(code.text).is_whole


def call_faults(value: dict[str, Any], id_: Any) -> Iterator[str]:
    """Why an object with a method is no request and no notification."""
    if value.get("jsonrpc") != "2.0":
        yield "version"
    if not isinstance(value.get("method"), str):
        yield "method"
    if "params" in value and not is_structured(value.get("params")):
        yield "params"
    if "id" in value and id_ is ABSENT:
        yield "id"


def answer_faults(value: dict[str, Any], id_: Any) -> Iterator[str]:
    """Why an object without a method is no answer. An error beside a result isn't looked into."""
    has_result, has_error = "result" in value, "error" in value
    if value.get("jsonrpc") != "2.0":
        yield "version"
    if id_ is ABSENT and ("id" in value or has_result or has_error):
        yield "id"
    if has_result == has_error:
        yield "outcome"
    if has_error and not has_result and not is_error(value.get("error")):
        yield "error"


def first_of(value: Members) -> Optional[First]:
    names = [name for name, _ in value]
    if all(names.count(it) < 2 for it in MEMBERS):
        return None
    members = dict(reversed(value))
    id_, method, params = (members.get(it, ABSENT) for it in ("id", "method", "params"))
    return First(id_of(id_), method, params)


def entry_of(value: Any) -> Entry:
    if not isinstance(value, Members):
        return Entry("invalid", ("object",))
    members = dict(value)  # (of a name that stands twice the last counts)
    first = first_of(value)
    name = members.get("id", ABSENT)
    id_ = id_of(name)
    is_odd = isinstance(name, Number) and not is_plain(name)
    if "method" in members:
        faults = tuple(call_faults(members, id_))
        kind = "invalid" if faults else "request" if "id" in members else "notification"
        method = members.get("method")
        return Entry(
            kind,
            faults,
            id_,
            is_odd,
            method if isinstance(method, str) else "",
            members.get("params", ABSENT),
            is_both="id" in members and ("result" in members or "error" in members),
            first=first,
        )
    faults = tuple(answer_faults(members, id_))
    is_like = "result" in members or "error" in members
    is_broken = bool(faults) or first is not None
    kind = "invalid" if not is_like else "broken answer" if is_broken else "answer"
    lacks_id = "error" in members and not {"id", "result"} & {*members}
    result, error = members.get("result", ABSENT), members.get("error", ABSENT)
    return Entry(kind, faults, id_, is_odd, result=result, error=error, lacks_id=lacks_id, first=first)


class Unit(NamedTuple):
    """A content that is JSON."""

    is_array: bool
    entries: tuple[Entry, ...]
    texts: tuple[str, ...]  # the words of each entry, compact
    has_huge: bool  # or a member of it stands twice, or a request nests deep: a reader may refuse it whole


def unit_of(content: Content) -> Unit:
    value = value_of(content)
    values = value if is_array(value) else [value]
    if len(values) > MOST_ENTRIES:
        raise Unreadable("not-judged", f"it has more than {MOST_ENTRIES:,} entries")
    texts = tuple(connection_reading.text_of(it) for it in values)
    entries = tuple(map(entry_of, values))
    is_twice = any(it.first is not None for it in entries)
    is_deep = any(it.kind == "request" and depth_of(part) > SAFE_DEPTH for it, part in zip(entries, values))
    may_be_refused = has_huge(value) or is_twice or is_deep
    return Unit(is_array(value), entries, texts, may_be_refused)
