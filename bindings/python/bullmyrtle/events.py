"""What a connection tells. Params, ids, results and data are compact JSON in UTF-8, or None where there are none."""
from __future__ import annotations

from ._hints import TYPE_CHECKING, NamedTuple

if TYPE_CHECKING:
    from typing import Optional, Union

# By the flags of the library's BM_BROKEN.
DEFECTS = ["Unreadable", "Invalid"]
# By the flags of its BM_INPUT_OVER.
HOWS = [
    "Clean",
    "BadHead",
    "BadLength",
    "TwoLengths",
    "TooLarge",
    "NoLength",
    "HeadTooLong",
    "Truncated",
    "Read",
    "Full",
]
# How the extension makes the tuples below.
make = tuple.__new__


class Call(NamedTuple):
    """The other side calls: a request, or a notification where `id` is None."""

    number: int  # counts the calls that came, from 1
    method: str
    params: Optional[bytes]
    id: Optional[bytes]

    @property
    def is_request(self) -> bool:
        return self.id is not None


class Cancelled(NamedTuple):
    """The other side cancels its request of this number, which is still to be answered."""

    number: int


class Replied(NamedTuple):
    """The result of an outgoing request."""

    key: int
    result: bytes


class Failed(NamedTuple):
    """The response to an outgoing request is an error."""

    key: int
    code: int
    message: str
    data: Optional[bytes]


class Unanswered(NamedTuple):
    """The input is over, and this outgoing request has no response."""

    key: int


class Broken(NamedTuple):
    """A content came that can't be read, or in which something is neither a call nor a reply. It is answered already.

    It is told where it is asked for, before what else its content brings.
    """

    offset: int  # of its first byte, counted from the first one that was fed
    first: bytes  # its first bytes, at most 64
    what: str  # "Unreadable" or "Invalid"
    entry: int  # the index of the first invalid entry of a batch, from 0; 0 where there is no batch
    entries: int  # how many entries are invalid; 0 where nothing can be read

    @property
    def text(self) -> str:
        """What is wrong, and where."""
        return f"{self._wrong}, at byte {self.offset}: {self.first!r}"

    @property
    def _wrong(self) -> str:
        if self.what == "Unreadable":
            return "a message can't be read (-32700)"
        if (self.entry, self.entries) == (0, 1):
            return "a message, or the first entry of a batch, is neither a call nor a reply (-32600)"
        many = "an entry that is" if self.entries == 1 else f"{self.entries} entries that are"
        return (
            f"a batch has {many} neither a call nor a reply (-32600), the first with the index {self.entry}"
        )


class Over(NamedTuple):
    """The input is over, and how it ended: "Clean", or the name of what was wrong. It is the last event."""

    how: str


if TYPE_CHECKING:
    Event = Union[Call, Cancelled, Replied, Failed, Unanswered, Broken, Over]
else:
    Event = tuple
