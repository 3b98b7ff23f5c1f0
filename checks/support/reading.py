"""What stands in a stream of bytes: its frames, how it ends, and the units and entries of its contents, by the rules of
docs/protocol.md.

It says what came in and nothing of what goes out."""
import json
import math
import re
from dataclasses import dataclass, field
from typing import Any, Optional

INVALID_REPLY = {"code": -32603, "message": "Invalid reply"}
KEY = re.compile(r"(0|[1-9][0-9]*)\.([1-9][0-9]*)")
SIGNED, WHOLE = range(-(2**63), 2**63), range(-(2**63), 2**64)
HEAD = 4_096
CONTENT = 16_777_216
DEPTH = 127
MOST_TURNS = 1_024
FIELD = re.compile(rb"([A-Za-z0-9!#$%&'*+.^_|~`-]+):([ -~\t]*)\r")
STRING = re.compile(r'"(?:[^"\\]|\\.)*"', re.S)
ESCAPE = re.compile(r"\\(?:u([0-9a-fA-F]{4})|.)", re.S)
ABSENT = object()


@dataclass(frozen=True)
class Frame:
    content: bytes
    is_foreign: bool
    start: int  # where its head begins in the stream
    end: int


@dataclass
class Entry:
    """What an entry is, and where it stands among all entries of the stream."""

    kind: str  # call, reply, stray, invalid, unreadable
    place: int = 0
    number: int = 0  # (of a call, from 1)
    id: Any = ABSENT
    method: str = ""
    params: Any = None
    key: tuple[int, int] = (0, 0)  # (of a reply: the call that it names)
    result: Any = None
    error: Optional[dict[str, Any]] = None

    @property
    def is_request(self) -> bool:
        return self.kind == "call" and self.id is not ABSENT

    @property
    def target(self) -> Any:
        """The id that a cancel names, or ABSENT where the entry is no cancel."""
        is_cancel = self.kind == "call" and not self.is_request and self.method == "$/cancelRequest"
        return self.params["id"] if is_cancel and is_target(self.params) else ABSENT


@dataclass
class Unit:
    is_batch: bool
    entries: list[Entry] = field(default_factory=list)


@dataclass
class Stream:
    frames: list[Frame]
    end: str
    units: list[Unit]

    @property
    def entries(self) -> list[Entry]:
        return [entry for unit in self.units for entry in unit.entries]

    @property
    def calls(self) -> list[Entry]:
        return [it for it in self.entries if it.kind == "call"]


def is_integer(value: Any, numbers: range = WHOLE) -> bool:
    return isinstance(value, int) and not isinstance(value, bool) and value in numbers


def is_whole(value: Any) -> bool:
    """Whether each number in a value is whole."""
    if isinstance(value, (list, dict)):
        return all(map(is_whole, value.values() if isinstance(value, dict) else value))
    return value is None or isinstance(value, (str, bool)) or is_integer(value)


def is_error(value: Any) -> bool:
    """Whether a reply's error has the members that it needs."""
    if not isinstance(value, dict) or not is_integer(value.get("code"), SIGNED):
        return False
    return isinstance(value.get("message"), str) and is_whole(value.get("data"))


def is_call(value: dict[str, Any]) -> bool:
    """Whether an object with a member `method` is a call."""
    name, params = value.get("id"), value.get("params")
    is_id = name is None or isinstance(name, str) or is_integer(name)
    is_params = params is None or isinstance(params, (list, dict))
    return value.get("jsonrpc") == "2.0" and isinstance(value["method"], str) and is_id and is_params


def is_target(params: Any) -> bool:
    """Whether the params of a cancel name a request."""
    if not isinstance(params, dict) or not is_whole(params):
        return False
    return isinstance(params.get("id"), str) or is_integer(params.get("id"))


def is_same_id(one: Any, other: Any) -> bool:
    """Ids are the same as values: a number isn't its text."""
    return type(one) is type(other) and one == other


# Frames


def is_foreign(value: bytes) -> bool:
    """Whether the value of a Content-Type names another charset than UTF-8."""
    found = value.lower().find(b"charset=")
    if found < 0:
        return False
    charset = value[found + len(b"charset=") :].split(b";")[0].strip(b" \t").lower()
    if len(charset) >= 2 and charset[:1] == charset[-1:] == b'"':
        charset = charset[1:-1]
    return charset not in (b"utf-8", b"utf8")


@dataclass
class Head:
    length: Optional[int] = None
    is_foreign: bool = False
    limit: int = CONTENT  # of a content

    def take(self, line: bytes) -> str:
        """Takes a line without its LF, and gives its fault, if it has one."""
        found = FIELD.fullmatch(line)
        if found is None:
            return "BadHead"
        name, value = found[1].lower(), found[2].strip(b" \t")
        if name == b"content-type":
            self.is_foreign = self.is_foreign or is_foreign(value)
        if name != b"content-length":
            return ""
        if self.length is not None:
            return "TwoLengths"
        if not re.fullmatch(rb"[0-9]{1,10}", value):
            return "BadLength"
        self.length = int(value)
        return "TooLarge" if self.length > self.limit else ""


def frame_at(stream: bytes, start: int, limit: int = CONTENT) -> tuple[Optional[Frame], str]:
    """The frame that begins at a place, or why there is none."""
    head, at = Head(limit=limit), start
    while True:
        line_end = stream.find(b"\n", at, start + HEAD)
        if line_end < 0:
            return None, "HeadTooLong" if len(stream) - start >= HEAD else "Truncated"
        line, at = stream[at:line_end], line_end + 1
        if line == b"\r":
            break
        fault = head.take(line)
        if fault:
            return None, fault
    if head.length is None:
        return None, "NoLength"
    end = at + head.length
    return (Frame(stream[at:end], head.is_foreign, start, end), "") if end <= len(stream) else (None, "Truncated")


def frames_of(stream: bytes) -> tuple[list[Frame], str]:
    """The frames of a stream, and how it ends."""
    frames: list[Frame] = []
    at = 0
    while at < len(stream):
        frame, fault = frame_at(stream, at)
        if frame is None:
            return frames, fault
        frames.append(frame)
        at = frame.end
    return frames, "Clean"


# Contents


def number_of(text: str) -> float | int:
    """A number without fraction or exponent; one that isn't whole becomes a float."""
    value = int(text) if len(text) < 25 else None
    if text != "-0" and value is not None and is_integer(value):
        return value
    return float_of(text)


def float_of(text: str) -> float:
    value = float(text)
    if math.isinf(value):
        raise ValueError("a number that is out of range")
    return value


def refuse(name: str) -> None:
    raise ValueError(f"{name} isn't JSON")


def depth_of(text: str) -> int:
    depth = most = 0
    for it in STRING.sub("", text):
        depth += 1 if it in "[{" else -1 if it in "]}" else 0
        most = max(most, depth)
    return most


def has_half_a_pair(text: str) -> bool:
    """Whether half of a surrogate pair is escaped by itself."""
    expected = -1
    for it in ESCAPE.finditer(text):
        code = int(it[1], 16) if it[1] else 0
        is_low = 0xDC00 <= code <= 0xDFFF
        if (it.start() == expected) != is_low or expected >= 0 and it.start() != expected:
            return True
        expected = it.end() if 0xD800 <= code <= 0xDBFF else -1
    return expected >= 0


def value_of(content: bytes) -> Any:
    """The JSON value of a content. Raises ValueError where it is unreadable."""
    text = content.decode("utf-8")
    if depth_of(text) > DEPTH or has_half_a_pair(text):
        raise ValueError("unreadable")
    return json.loads(text, parse_int=number_of, parse_float=float_of, parse_constant=refuse)


def outcome_of(value: dict[str, Any]) -> tuple[Any, Optional[dict[str, Any]]]:
    """What a reply says: its result and its error, of which one is None."""
    result, error = value.get("result"), value.get("error")
    is_well = is_whole(result) and "result" in value if error is None else result is None and is_error(error)
    if not is_well or value.get("jsonrpc") != "2.0":
        return None, INVALID_REPLY
    return (
        (result, None)
        if error is None
        else (None, {it: error[it] for it in ("code", "message", "data") if it in error})
    )


def key_of(name: Any) -> Optional[tuple[int, int]]:
    """The number and the turn of the call that an id names, if it can be one of ours."""
    found = KEY.fullmatch(name) if isinstance(name, str) else None
    if found is None or len(name) > 12 or int(found[1]) > 1_000_000 or int(found[2]) > MOST_TURNS:
        return None
    return int(found[1]), int(found[2])


def call_of(value: dict[str, Any]) -> Entry:
    """A call, or an invalid entry."""
    if not is_call(value):
        return Entry("invalid")
    return Entry("call", id=value.get("id", ABSENT), method=value["method"], params=value.get("params"))


def entry_of(value: Any) -> Entry:
    if not isinstance(value, dict) or not {"method", "result", "error"} & {*value}:
        return Entry("invalid")
    if "method" in value:
        return call_of(value)
    key = key_of(value.get("id"))
    if key is None:
        return Entry("stray")
    result, error = outcome_of(value)
    return Entry("reply", key=key, result=result, error=error)


def unit_of(frame: Frame) -> Unit:
    try:
        value = value_of(frame.content)
    except ValueError:
        return Unit(False, [Entry("unreadable")])
    if frame.is_foreign:
        return Unit(False, [Entry("unreadable")])
    is_batch = isinstance(value, list) and value != []
    return Unit(is_batch, [entry_of(it) for it in (value if is_batch else [value])])


def read(stream: bytes) -> Stream:
    frames, end = frames_of(stream)
    found = Stream(frames, end, [unit_of(it) for it in frames])
    number = 0
    for place, entry in enumerate(found.entries):
        entry.place = place
        if entry.kind == "call":
            number += 1
            entry.number = number
    return found


# A stream without cancels


def without_cancel(value: Any) -> Any:
    """The same entry; where it is a cancel, it names nothing, and is then ignored."""
    return {**value, "params": None} if entry_of(value).target is not ABSENT else value


def without_cancels(stream: bytes) -> bytes:
    """The same stream, in which each cancel names nothing."""
    parts, at = [], 0
    for frame, unit in zip(*((found := read(stream)).frames, found.units)):
        if any(it.target is not ABSENT for it in unit.entries):
            value = value_of(frame.content)
            value = [without_cancel(it) for it in value] if unit.is_batch else without_cancel(value)
            content = json.dumps(value).encode()
            parts += [stream[at : frame.start], b"Content-Length: %d\r\n\r\n%s" % (len(content), content)]
            at = frame.end
    return b"".join([*parts, stream[at:]])
