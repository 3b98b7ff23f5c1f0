"""What a connection is fed: the contents that wait, and the units and entries of a content, by the rules of
docs/connection.md."""
import json
import re
from dataclasses import dataclass, field
from typing import Any, Optional

from support import reading
from support.framings import Content, Cutter
from support.reading import ABSENT, SIGNED, WHOLE

INTEGER = re.compile(r"-?(0|[1-9][0-9]*)")
SAID_DEPTH = 120
# Of the cancels that a conversation may have: the notification, and the member of its params that names the request.
CANCELS = {"lsp": ("$/cancelRequest", "id"), "mcp": ("notifications/cancelled", "requestId")}


# JSON whose numbers are texts


@dataclass(frozen=True)
class Number:
    text: str


# Params that are null, where such are told: by their text.
TOLD_NULL = Number("null")


class Members(list[tuple[str, Any]]):
    """The members of an object, in their order; a name may stand twice."""

    def get(self, name: str, default: Any = None) -> Any:
        return dict(self).get(name, default)

    def __contains__(self, name: object) -> bool:
        return name in dict(self)


def value_of(data: bytes, depth: int = reading.DEPTH) -> Any:
    """The JSON value in some bytes. Raises ValueError where there is none, or one that nests deeper."""
    text = data.decode("utf-8")
    if reading.depth_of(text) > depth or reading.has_half_a_pair(text):
        raise ValueError("no JSON")
    return loaded(text)


def loaded(text: str) -> Any:
    return json.loads(
        text, parse_int=Number, parse_float=Number, parse_constant=reading.refuse, object_pairs_hook=Members
    )


def string_of(text: str) -> str:
    return json.dumps(text, ensure_ascii=False)


def text_of(value: Any) -> str:
    """The compact text of a value."""
    if isinstance(value, Number):
        return value.text
    if isinstance(value, Members):
        return "{" + ",".join(f"{string_of(name)}:{text_of(it)}" for name, it in value) + "}"
    if isinstance(value, list):
        return "[" + ",".join(map(text_of, value)) + "]"
    return json.dumps(value, ensure_ascii=False)


def whole_of(value: Any, numbers: range = WHOLE) -> Optional[int]:
    """The number that a value is, where it is a whole one."""
    if not isinstance(value, Number) or value.text == "-0" or not INTEGER.fullmatch(value.text) or len(value.text) > 20:
        return None
    return int(value.text) if int(value.text) in numbers else None


def is_name(value: Any) -> bool:
    """Whether an id can be compared: a string or a whole number."""
    return isinstance(value, str) or whole_of(value) is not None


# Entries


@dataclass(frozen=True)
class Error:
    code: int
    message: str
    data: Any = ABSENT


INVALID_REPLY = Error(-32603, "Invalid reply")


@dataclass
class Entry:
    kind: str  # call, cancel, reply, stray, invalid
    id: Any = ABSENT  # (of a call or a cancel)
    method: str = ""
    params: Any = None
    key: int = 0  # (of a reply)
    said: Any = None  # what a reply says: a value, or an Error

    @property
    def is_request(self) -> bool:
        return self.kind == "call" and self.id is not ABSENT


@dataclass
class Unit:
    """A content that was read."""

    kind: str  # unreadable, single, batch
    entries: list[Entry] = field(default_factory=list)

    @property
    def invalid(self) -> list[int]:
        """Where its invalid entries stand, from 0."""
        return [at for at, it in enumerate(self.entries) if it.kind == "invalid"]


def is_call(value: Members) -> bool:
    id_is_well = "id" not in value or value.get("id") is None or is_name(value.get("id"))
    params_are_well = value.get("params") is None or isinstance(value.get("params"), list)
    return value.get("jsonrpc") == "2.0" and isinstance(value.get("method"), str) and id_is_well and params_are_well


def target_of(call: Entry, cancels: Optional[str]) -> Any:
    """The id that a call names where it is a cancel, or ABSENT."""
    method, member = CANCELS.get(cancels or "", ("", ""))
    if cancels is None or call.is_request or call.method != method or not isinstance(call.params, Members):
        return ABSENT
    named = call.params.get(member)
    return named if is_name(named) else ABSENT


def said_by(reply: Members) -> Any:
    """What a reply says."""
    result, error = reply.get("result"), reply.get("error")
    if reply.get("jsonrpc") != "2.0":
        return INVALID_REPLY
    if error is None:
        return result if "result" in reply else INVALID_REPLY
    if result is not None or not isinstance(error, Members):
        return INVALID_REPLY
    code, message = whole_of(error.get("code"), SIGNED), error.get("message")
    if code is None or not isinstance(message, str):
        return INVALID_REPLY
    return Error(code, message, error.get("data", ABSENT))


def entry_of(value: Any, cancels: Optional[str], null_params: bool = False) -> Entry:
    if not isinstance(value, Members) or not {"method", "result", "error"} & {name for name, _ in value}:
        return Entry("invalid")
    if "method" in value:
        if not is_call(value):
            return Entry("invalid")
        params = value.get("params", ABSENT)
        if params is None and null_params:
            params = TOLD_NULL
        call = Entry("call", value.get("id", ABSENT), value.get("method"), None if params is ABSENT else params)
        target = target_of(call, cancels)
        return call if target is ABSENT else Entry("cancel", target)
    key = whole_of(value.get("id"))
    return Entry("reply", key=key, said=said_by(value)) if key is not None and key > 0 else Entry("stray")


def unit_of(content: Content, cancels: Optional[str], entries: Optional[int] = None, null_params: bool = False) -> Unit:
    """What a content is, where these are the conversation's cancels, if it has any, and how many entries a batch may have,
    if that is limited."""
    try:
        value = value_of(content.data)
    except ValueError:
        return Unit("unreadable")
    if content.is_foreign:
        return Unit("unreadable")
    is_batch = isinstance(value, list) and not isinstance(value, Members) and value != []
    if is_batch and entries is not None and len(value) > entries:
        return Unit("single", [Entry("invalid")])
    values = value if is_batch else [value]
    return Unit("batch" if is_batch else "single", [entry_of(it, cancels, null_params) for it in values])


# Framings


class Input:
    """The contents that wait, of the bytes that were fed, and how the input ends once it does."""

    def __init__(self, framing: str, limit: int) -> None:
        self.cutter, self.waiting = Cutter(framing, limit), list[Content]()
        self.end = ""
        self.fault_place: Optional[int] = None

    def feed(self, piece: bytes) -> None:
        if not self.end:
            self.waiting += self.cutter.feed(piece)
            self.fail(self.cutter.fault)

    def finish(self, is_failed: bool) -> None:
        """The input ends; a fault that came before is what ends it."""
        if self.end:
            return
        last = None if is_failed else self.cutter.last()
        if last and self.cutter.framing == "frames":
            self.fail("Truncated")
        elif last:
            self.waiting.append(last)
        self.end = self.end or ("Read" if is_failed else "Clean")

    def fail(self, fault: str) -> None:
        """The frame, the line or the content that begins here is at fault, if there is a fault."""
        if fault:
            self.end, self.fault_place = fault, self.cutter.place
