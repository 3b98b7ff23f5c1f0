"""How a session ended, as data, and in words that say what was wrong and what to do."""
from __future__ import annotations

from ._hints import TYPE_CHECKING, NamedTuple
from ._log import shown

if TYPE_CHECKING:
    from typing import Any, List, Mapping, Optional, Sequence

#: How much of a frame or line at fault is told.
SHOWN = 64
# How many methods are named that didn't end, and how much of a name is shown.
_NAMED, _NAME = 3, 80

_CLEAN = ("Clean", "Stopped", "Exited")


class End(NamedTuple):
    """How a session ended."""

    #: "Clean"; "Stopped", by `stop`; "Exited", by `sys.exit` in a method; the name of a fault of the input, as
    #: "BadHead"; or "Read", "Full", "Broken" (the output can't be written), "NoStreams" (they were closed from the
    #: start), "Late" (calls had no answer in time), "Unwritten", "Memory", "Failed", "Interrupted", "Cancelled", or
    #: "Lost" (a client's server ended by itself)
    how: str
    text: str  #: what was wrong, and what to do
    status: Optional[int] = None  #: what serving gave, or None where it was cancelled
    offset: Optional[int] = None  #: where the frame or line at fault begins, where that is known
    first: Optional[bytes] = None  #: its first bytes, at most 64, where they are still known
    unanswered: int = 0  #: how many requests weren't answered in time
    exit_status: Optional[int] = None  #: of a client's server, where it is a process that has ended
    stderr: bytes = b""  #: the last of what that wrote to its standard error, at most 4,096 bytes

    @property
    def is_clean(self) -> bool:
        """Whether nothing was wrong."""
        return self.how in _CLEAN


class Place(NamedTuple):
    """Where a fault of the input is."""

    offset: Optional[int]  # of its frame or line
    first: Optional[bytes]
    piece_offset: int  # of what was read as it was found
    piece: bytes

    @property
    def words(self) -> str:
        if self.first is not None:
            return f", at byte {self.offset}: {self.first!r}"
        if self.offset is not None:
            return f", at byte {self.offset}"
        return f", in what was read from byte {self.piece_offset} on, {self.piece!r}"

    @property
    def start(self) -> bytes:
        """What the frame or line begins with, where that is known."""
        return b"" if self.first is None else self.first.lstrip()


# What each fault is, by its name.
_FAULTS = {
    "BadHead": "a message can't be read",
    "BadLength": "a message has a Content-Length that isn't 1 to 10 digits",
    "TwoLengths": "a message has two Content-Length",
    "NoLength": "a message has a head without Content-Length",
    "HeadTooLong": "a message has a head of more than 4,096 bytes",
    "Truncated": "the input ended inside a message",
}

_CONTENT = "the setting content= takes up to 2,147,483,647"


def is_fault(how: str) -> bool:
    """Whether an end is a fault of the input, with a place."""
    return how in _FAULTS or how == "TooLarge"


def fault_text(how: str, place: Place, settings: Mapping[str, Any], is_client: bool) -> str:
    """What a fault of the input is, where, and what to do."""
    what = _FAULTS.get(how) or _too_large(settings)
    hint = _CONTENT if how == "TooLarge" else _hint(how, place.start, settings, is_client)
    return f"{what}{place.words}: {hint}"


def _too_large(settings: Mapping[str, Any]) -> str:
    most = settings["content"] or 16_777_216
    what = {"frames": "message has a Content-Length of", "lines": "line has"}.get(
        settings["framing"], "message has"
    )
    return f"a {what} more than {most:,} bytes"


def _hint(how: str, start: bytes, settings: Mapping[str, Any], is_client: bool) -> str:
    """What to do about a head that can't be read."""
    if start[:1] in (b"{", b"["):
        return f'is this line framing? {"Client(.., " if is_client else "Server("}framing="lines")'
    if how == "Truncated":
        return "the other side ended before it had written all of it"
    if b" HTTP/1." in start or start.startswith(b"HTTP/1."):
        return "this is HTTP, and not a stream of messages"
    if start.startswith(b"\xef\xbb\xbf"):
        return "it begins with a byte order mark, which has to go"
    if start[:8].lower() == b"content-":
        return "a head is lines that end with CR LF, one of them `Content-Length: N`, and an empty one"
    if is_client:
        return (
            "the server wrote something else than messages to its standard output, as a banner or what it prints, "
            "which belongs on its standard error"
        )
    return "each message begins with `Content-Length: N`, CR LF, CR LF"


class Late(NamedTuple):
    """A call that wasn't answered in time."""

    method: str
    is_later: bool
    is_request: bool


def late_text(calls: Sequence[Late], grace: float) -> str:
    """What is said of calls that weren't answered in time."""
    parts: List[str] = []
    for it in calls:
        how = f"didn't end within the grace of {grace:g} seconds"
        if it.is_later:
            how = "returned LATER, and request.answer or request.fail was never called"
        said = f"{shown(it.method, _NAME)} {how}"
        if said not in parts:
            parts.append(said)
    more = f", and {len(parts) - _NAMED} others" if len(parts) > _NAMED else ""
    count = len(calls)
    return f"{count} call{'s' * (count != 1)} came to no end: {'; '.join(parts[:_NAMED])}{more}"


#: What else there is to say of an end.
TEXTS = {
    "Clean": "the input was closed",
    "Stopped": "it was stopped",
    "Read": "reading failed, as where a connection is reset",
    "Broken": "the output can't be written: nobody reads it any more, or its device is full",
    "NoStreams": "the standard input or output is closed",
    "Unwritten": "what was to be written wasn't taken in time",
    "Memory": "memory was refused",
    "Failed": "something failed in the session itself, as the log says",
    "Exited": "a method ended the process",
    "Interrupted": "it was interrupted, as by Ctrl-C",
    "Cancelled": "the task that served it was cancelled",
    "Lost": "the server closed its output",
}


def exit_text(status: Optional[int]) -> str:
    """What became of a server's process."""
    if status is None:
        return "its process still runs"
    if status < 0:
        import signal

        try:
            return f"the server was killed by {signal.Signals(-status).name}"
        except ValueError:
            return f"the server was killed by the signal {-status}"
    return f"the server ended with status {status}"
