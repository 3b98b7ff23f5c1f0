"""What came back, compared with what may."""
from __future__ import annotations

import json
import re
from typing import Any, Callable, Dict, List, NamedTuple, Optional, Sequence, Tuple

from ..judge._rules import LEVELS
from ..judge._streams import ABSENT, Entry
from ._cases import Outcome, Part
from ._inserts import content_of

#: What a line with < is made of, joined by "and".
PARTS = {
    "anything": "whatever it answers, as long as it goes on",
    "nothing": "no response",
    "end": "it ends, with this status where one is named",
    "silence": "it goes on and answers nothing any more",
    "result": "a result with this id, which has these members",
    "error": "an error with one of these codes and this id",
    "response": "a result or an error with this id",
    "responses": "a result or an error for each id from the first to the last",
    "array": "one array with a response for each of these ids",
}
_LEVEL = re.compile(rf"({'|'.join(LEVELS)}): (.*)")
_PART = re.compile(r"([a-z]+)((?: -?[0-9]+)*)(?: ids? (.+?))?(?: has (\{.*\}))?")
_NO_ID = frozenset({"anything", "nothing", "end", "silence"})


class BadOutcome(ValueError):
    """A line that says what may come back, and can't be read."""


def outcome_of(text: str) -> Outcome:
    """Reads a line, without its <."""
    found = _LEVEL.fullmatch(text)
    level, rest = (found[1], found[2]) if found else ("", text)
    return Outcome(level, tuple(_part(it) for it in rest.split(" and ")), rest)


def _part(text: str) -> Part:
    found = _PART.fullmatch(text)
    if found is None or found[1] not in PARTS:
        raise BadOutcome(
            f"{text!r} isn't `KIND [CODES] id ID [has OBJECT]`, where KIND is of {', '.join(PARTS)}"
        )
    kind, numbers, id_ = found[1], [int(it) for it in found[2].split()], found[3] or ""
    if (kind in _NO_ID) == bool(id_):
        raise BadOutcome(f"{text!r}: {kind} {'has no' if id_ else 'needs an'} id")
    if numbers and kind not in ("error", "end") or kind == "end" and len(numbers) > 1:
        raise BadOutcome(f"{text!r}: numbers are codes of an error, or the status of an end")
    if kind == "end":
        return Part(kind, status=numbers[0] if numbers else -1)
    return Part(kind, tuple(numbers), id_, found[4] or "")


class Came(NamedTuple):
    """A message that answers: its entries, and whether they are an array."""

    entries: Tuple[Entry, ...]
    is_array: bool


class State(NamedTuple):
    """How it stands with the side that is examined when a case is over."""

    how: str  #: "alive", "ended", "silent", "slow" or "flooding"
    status: Optional[int] = None  #: where it ended; below 0, by which signal
    words: str = ""


def fits(outcome: Outcome, came: Sequence[Came], state: State, values: Dict[str, str]) -> bool:
    """Whether all that came is what this outcome says."""
    kinds = {it.kind for it in outcome.parts}
    if "end" in kinds:
        status = outcome.parts[0].status
        return state.how == "ended" and status in (-1, state.status)
    if "silence" in kinds:
        return state.how == "silent"
    if state.how not in ("alive", "slow"):
        return False
    if "anything" in kinds:
        return True
    left = list(came)
    return all(_takes(it, left, values) for it in outcome.parts) and not left


def _takes(part: Part, left: List[Came], values: Dict[str, str]) -> bool:
    """Takes what a part says from what came, if it is there."""
    if part.kind == "nothing":
        return True
    text = content_of(part.id, values).decode()
    if part.kind == "responses":
        first, last = (int(it) for it in text.split(".."))
        return all(_take(left, _is_answer(it, None, values)) for it in range(first, last + 1))
    if part.kind == "array":
        return _take(left, _is_array(json.loads(text)))
    return _take(left, _is_answer(json.loads(text), part, values))


def _take(left: List[Came], wanted: Callable[[Came], bool]) -> bool:
    at = next((at for at, it in enumerate(left) if wanted(it)), None)
    if at is None:
        return False
    del left[at]
    return True


def _is_answer(id_: Any, part: Optional[Part], values: Dict[str, str]) -> Callable[[Came], bool]:
    def is_it(came: Came) -> bool:
        entry = came.entries[0]
        return (
            not came.is_array and same_id(entry.id, id_) and (part is None or _is_kind(entry, part, values))
        )

    return is_it


def _is_kind(entry: Entry, part: Part, values: Dict[str, str]) -> bool:
    is_error = entry.error is not ABSENT and entry.error is not None
    if part.kind == "response":
        return True
    if is_error != (part.kind == "error"):
        return False
    if is_error:
        return not part.codes or entry.code in part.codes
    return not part.has or has(entry.result, json.loads(content_of(part.has, values)))


def _is_array(ids: List[Any]) -> Callable[[Came], bool]:
    def is_it(came: Came) -> bool:
        left = [it.id for it in came.entries]
        for wanted in ids:
            at = next((at for at, it in enumerate(left) if same_id(it, wanted)), None)
            if at is None:
                return False
            del left[at]
        return came.is_array and not left

    return is_it


def same_id(one: Any, other: Any) -> bool:
    """Whether two ids are one: by value, and a number is no string."""
    numbers = isinstance(one, (int, float)) and isinstance(other, (int, float))
    return bool(one == other) and (numbers or type(one) is type(other))


def has(value: Any, wanted: Any) -> bool:
    """Whether a value has all members that another one has."""
    if isinstance(wanted, dict):
        return isinstance(value, dict) and all(it in value and has(value[it], wanted[it]) for it in wanted)
    return bool(value == wanted) and isinstance(value, bool) == isinstance(wanted, bool)


# In words


def told(came: Sequence[Came]) -> str:
    """What came, in words."""
    if not came:
        return "no response"
    texts = [_told(it) for it in came[:3]]
    return " and ".join(texts) + (f" and {len(came) - 3:,} more" if len(came) > 3 else "")


def _told(came: Came) -> str:
    if came.is_array:
        return f"an array of {len(came.entries)} responses"
    entry = came.entries[0]
    id_ = _short(entry.id)
    if entry.error is ABSENT or entry.error is None:
        return f"the result {_short(entry.result)} with the id {id_}"
    text = entry.error.get("message") if isinstance(entry.error, dict) else entry.error
    return f"the error {_short(entry.code)} ({_short(text)}) with the id {id_}"


def _short(value: Any, most: int = 80) -> str:
    text = json.dumps(value, default=str)
    return text if len(text) <= most else text[:most] + ".."
