"""What this package changes of what the library finds by `mcp`, the newest version of MCP: the sides may agree on an older
one, which has other rules. (Of a version that is named, the library has the rules itself.)"""
from __future__ import annotations

from typing import Callable, Dict, List, Optional

from ._judge import Finding
from ._rules import MUST, NOTE
from ._streams import ABSENT, Entry, Message
from ._versions import MCP, WITH_BATCHES


def _cancel_params(found: Finding, version: str) -> Optional[Finding]:
    """A cancel may be without the id of a request since the newest version, and then it is one of nothing."""
    if found.level != NOTE:
        return found
    if version < MCP[-1]:
        return found._replace(level=MUST)
    return found._replace(words="it names no request; tasks/cancel is for tasks")


def _batch(found: Finding, version: str) -> Optional[Finding]:
    """One version has batches, and the first one has no word on them."""
    if version == WITH_BATCHES:
        return None
    return found._replace(level=NOTE) if version == MCP[0] else found


_AMENDED: Dict[str, Callable[[Finding, str], Optional[Finding]]] = {
    "cancel-params": _cancel_params,
    "batch": _batch,
}


def amended(found: Finding, edition: str) -> Optional[Finding]:
    """A finding of the library's by the edition of the rules; None if that has no such rule."""
    amend = _AMENDED.get(found.rule)
    return found if amend is None or edition not in MCP else amend(found, edition)


def _lacks_id(entry: Entry) -> bool:
    """Whether it is an error without an id."""
    is_error = entry.kind == "answer" and entry.error is not ABSENT and entry.result is ABSENT
    return is_error and not entry.has_id


def added(message: Message, edition: str) -> List[Finding]:
    """What an older version finds beside: an error has an id, if only null, before the newest one."""
    if edition not in MCP[:-1]:
        return []
    first = 1 if message.is_array else 0
    places = [at for at, entry in enumerate(message.entries, first) if _lacks_id(entry)]
    side, number, offset = message.side, message.number, message.offset
    return [Finding(side, "id", MUST, side, number, offset, at) for at in places]
