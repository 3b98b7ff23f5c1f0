"""What a peer wrote: its frames, each of which is a message of a handler or an answer."""
import json
import re
from dataclasses import dataclass
from typing import Any, Optional

from support.model import text_of

HEAD = re.compile(rb"Content-Length: (0|[1-9][0-9]*)\r\n\r\n")
CALL_ID = re.compile(r"(0|[1-9][0-9]*)\.([1-9][0-9]*)")


class Unwritten(Exception):
    """Bytes that no peer writes."""


@dataclass(frozen=True)
class Item:
    kind: str  # calls, notice, withdrawal, answers
    text: str
    value: Any
    keys: tuple[tuple[int, int], ...] = ()  # (of calls and of a withdrawal)

    @property
    def is_batch(self) -> bool:
        return isinstance(self.value, list)

    @property
    def entries(self) -> list[dict[str, Any]]:
        found: list[dict[str, Any]] = self.value if self.is_batch else [self.value]
        return found


def contents_of(output: bytes) -> list[str]:
    contents, at = [], 0
    while at < len(output):
        head = HEAD.match(output, at)
        if head is None or head.end() + int(head[1]) > len(output):
            raise Unwritten(f"no frame begins with {output[at : at + 60]!r}")
        at = head.end() + int(head[1])
        contents.append(output[head.end() : at].decode())
    return contents


def key_of(name: Any) -> tuple[int, int]:
    found = CALL_ID.fullmatch(name) if isinstance(name, str) else None
    if found is None:
        raise Unwritten(f"{name!r} isn't the id of a call of ours")
    return int(found[1]), int(found[2])


def withdrawn(entry: dict[str, Any]) -> Optional[tuple[int, int]]:
    """The call that a notification withdraws, if that is what it does."""
    if entry["method"] != "$/cancelRequest" or "id" in entry:
        return None
    return key_of(entry["params"]["id"])


def is_answer(entry: Any) -> bool:
    return {*entry} in ({"id", "jsonrpc", "result"}, {"id", "jsonrpc", "error"})


def item_of(text: str) -> Item:
    value = json.loads(text)
    entries = value if isinstance(value, list) else [value]
    if (
        text_of(value) != text
        or not entries
        or not all(isinstance(it, dict) and it.get("jsonrpc") == "2.0" for it in entries)
    ):
        raise Unwritten(f"{text} isn't compact JSON of version 2.0")
    if all(is_answer(it) for it in entries):
        return Item("answers", text, value)
    if not all(isinstance(it.get("method"), str) and {*it} <= {"id", "jsonrpc", "method", "params"} for it in entries):
        raise Unwritten(f"{text} is neither a message nor an answer")
    if isinstance(value, dict) and "id" not in value:
        key = withdrawn(value)
        return Item("withdrawal", text, value, (key,)) if key else Item("notice", text, value)
    return Item("calls", text, value, tuple(key_of(it.get("id")) for it in entries))


def items_of(output: bytes) -> list[Item]:
    """What was written, item by item. Raises Unwritten, or ValueError where a content isn't JSON in UTF-8."""
    return [item_of(it) for it in contents_of(output)]
