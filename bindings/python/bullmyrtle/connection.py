"""One end of a JSON-RPC conversation without input and output: the C interface in Python's words."""
from __future__ import annotations

from . import _library, _settings, events
from ._hints import TYPE_CHECKING, NamedTuple

if TYPE_CHECKING:
    from typing import Iterable, List, Literal, Optional, Tuple, Union

    from ._bullmyrtle import Connection as Base

    Framing = Literal["frames", "lines", "contents"]
    Order = Literal["as-answered", "as-came"]
    Cancels = Literal["lsp", "mcp"]
    Json = Union[bytes, str]
else:
    Framing = Order = Cancels = Json = object
    Base = _library.extension.Connection


class Counts(NamedTuple):
    """What has happened so far."""

    calls: int  # calls that came, requests and notifications
    requests: int  # of these, the requests
    open: int  # calls that came and aren't answered
    waiting: int  # calls of ours that wait for a reply
    own_calls: int  # calls of ours, each of a batch
    answers_written: int  # answers that have gone out, whether taken or not; an array is one
    unreadable: int  # contents that couldn't be read
    invalid: int  # entries that were neither a call nor a reply
    ignored: int  # replies that nobody waited for, and cancels that reached no request


class Notes:
    """What a session looks for among the events: the requests that are cancelled, and what was broken last."""

    __slots__ = ("cancelled", "broken")

    def __init__(self) -> None:
        self.cancelled: List[int] = []  # their numbers, which are taken out by the one who looks
        self.broken: Optional[events.Broken] = None


def _text(text: Json) -> bytes:
    """(the library itself refuses what isn't UTF-8)"""
    return text.encode("utf-8", "surrogatepass") if isinstance(text, str) else bytes(memoryview(text))


def _json(text: Optional[Json]) -> bytes:
    """The bytes of a JSON text; b"" for None. A text of no bytes isn't JSON, and neither is a blank."""
    return b"" if text is None else _text(text) or b" "


class Connection(Base):
    """One end of a JSON-RPC conversation, without input and output, threads or a clock.

    Feed it the bytes that you have read, ask it for events, answer and call, and take the bytes that are to be written,
    in whatever order you like. Params, results and data are JSON texts: bytes in UTF-8, or str.

    A call that can't be made raises one of the exceptions below `Refused`, and has then changed nothing. Any thread may
    make any call at any time.
    """

    def __init__(
        self,
        framing: Framing = "frames",
        order: Order = "as-answered",
        cancels: Union[Cancels, bool, None] = "lsp",
        content: Optional[int] = None,
        calls: Optional[int] = None,
        broken: bool = False,
        entries: Optional[int] = None,
        null_params: bool = False,
    ) -> None:
        """Make a connection.

        framing -- "frames" with a head, as in LSP; "lines", as in MCP; or "contents", one to each `feed` and `take`
        order -- whether answers go out "as-answered", or in the order in which the requests came ("as-came")
        cancels -- whose cancels the protocol has: "lsp", `$/cancelRequest`; "mcp", `notifications/cancelled`; or None
            (True and False are "lsp" and None)
        content -- how many bytes a content may have, at most 2,147,483,647; by default 16,777,216
        calls -- how many calls may come
        broken -- whether broken input is told, by the event `Broken`
        entries -- how many entries a batch may have: by default 100,000, and 4,294,967,295 is any number. One of more is
            a single invalid entry: none of its calls is told, and its replies are lost
        null_params -- whether params that are null are told as the text `null`; else they are none
        """
        _settings.one_of("framing", framing, _library.FRAMINGS)
        _settings.one_of("order", order, _library.ORDERS)
        if isinstance(cancels, bool):
            cancels = "lsp" if cancels else None
        _settings.one_of("cancels", cancels, _library.CANCELS)
        _settings.whole("content", content, _settings.MOST_CONTENT)
        _settings.whole("calls", calls, _settings.MOST_CALLS)
        _settings.whole("entries", entries, _settings.ANY_ENTRIES)
        ways = _library.FRAMINGS.index(framing), _library.ORDERS.index(order), _library.CANCELS.index(cancels)
        self._begin(*ways, bool(broken), content or 0, calls or 0, entries or 0, bool(null_params))

    def __enter__(self) -> Connection:
        return self

    def __exit__(self, *_: object) -> None:
        self.close()

    def call_batch(self, number: int, calls: Iterable[Tuple[Json, Optional[Json]]]) -> int:
        """Call the other side several times in one batch, and give the first key; the others follow it.

        Refused: `NotOpen`, `NotText`, `NotJson`, `InputOver`, `Empty`, `Full`.
        """
        parts = [part for method, params in calls for part in (_text(method), _json(params))]
        return self._batch(number, b"".join(parts), list(map(len, parts)))

    def counts(self) -> Counts:
        """What has happened so far."""
        return Counts(*self._counted())

    def _noted(self) -> Notes:
        """What is noted of the events from now on."""
        notes = Notes()
        self._note(notes)
        return notes
