"""The head of a request over HTTP, and what of it is refused."""
from __future__ import annotations

import json
import re
from typing import Any, Dict, List, Optional, Sequence, Tuple

from ..errors import INVALID_REQUEST, TOO_MANY_OPEN
from ._http_settings import LOCAL

Headers = List[Tuple[bytes, bytes]]

# (one that stands twice could mean one thing to a proxy and another one here)
_ONCE = frozenset(
    b"authorization content-encoding content-length content-type host last-event-id mcp-protocol-version "
    b"mcp-session-id origin transfer-encoding".split()
)
_LOCAL_ORIGIN = re.compile(r"https?://(localhost|127\.0\.0\.1|\[::1\])(:[0-9]{1,5})?", re.IGNORECASE)
#: What a POST's client has to read, and a GET's.
JSON, EVENTS = "application/json", "text/event-stream"


class Answer(Exception):
    """What a request is answered without its session."""

    def __init__(self, status: int, words: str = "", headers: Sequence[Tuple[str, str]] = ()) -> None:
        super().__init__(status, words)
        self.status, self.words = status, words
        self.headers: Headers = [(name.lower().encode(), it.encode("latin-1")) for name, it in headers]

    @property
    def body(self) -> bytes:
        """An error of JSON-RPC, with the id null."""
        if not self.words:
            return b""
        return fault(TOO_MANY_OPEN if self.status in (429, 503) else INVALID_REQUEST, self.words)


def fault(code: int, words: str, id_: Any = None) -> bytes:
    """An error's text."""
    error = {"code": code, "message": words}
    return json.dumps({"jsonrpc": "2.0", "error": error, "id": id_}, separators=(",", ":")).encode()


class Head:
    """The head of a request."""

    def __init__(self, scope: Dict[str, Any]) -> None:
        """Raises Answer where a header stands twice that may not."""
        self.method: str = scope["method"]
        self.path: str = scope["path"]
        self._values: Dict[bytes, List[str]] = {}
        for name, it in scope["headers"]:
            self._values.setdefault(name.lower(), []).append(it.decode("latin-1"))
        for name in _ONCE & self._values.keys():
            if len(self._values[name]) > 1:
                raise Answer(400, f"Bad Request: the header {name.decode()} stands twice")

    def get(self, name: bytes) -> Optional[str]:
        """A header; None where there is none."""
        found = self._values.get(name)
        return None if found is None else found[0].strip(" \t")

    def check_origin(self, origins: Optional[Sequence[str]], hosts: Optional[Sequence[str]]) -> None:
        """Refuses a page of another site, and a name by which the server isn't known."""
        origin = self.get(b"origin")
        if origin is not None:
            is_known = _LOCAL_ORIGIN.fullmatch(origin) is not None if origins is None else origin in origins
            if not is_known:
                raise Answer(403, "Forbidden: this Origin may not call the server")
        if hosts is not None:
            host = re.sub(r":[0-9]*\Z", "", self.get(b"host") or "")
            if host.lower() not in hosts:
                raise Answer(403, "Forbidden: the server isn't known by this Host")

    def check_accept(self, *kinds: str) -> None:
        """Refuses a client that can't read one of these kinds."""
        found = self._values.get(b"accept")
        if found is None:
            return
        ranges = [_range(it) for it in ",".join(found).split(",")]
        for kind in kinds:
            chances = [quality for it, quality in ranges if it in (kind, f"{kind.split('/')[0]}/*", "*/*")]
            if not chances or max(chances) <= 0:
                raise Answer(406, f"Not Acceptable: the client has to accept {' and '.join(kinds)}")

    def check_content(self) -> None:
        """Refuses a body that isn't JSON in UTF-8."""
        kind, _, more = (self.get(b"content-type") or "").partition(";")
        charset = re.search(r"charset\s*=\s*\"?([^\s\";]+)", more, re.IGNORECASE)
        is_utf8 = charset is None or charset.group(1).lower() in ("utf-8", "utf8")
        if kind.strip().lower() != JSON or not is_utf8:
            raise Answer(415, f"Unsupported Media Type: the body has to be {JSON}, in UTF-8")
        if (self.get(b"content-encoding") or "identity").lower() != "identity":
            raise Answer(415, "Unsupported Media Type: the body has to be without a Content-Encoding")

    def length(self) -> Optional[int]:
        """How many bytes the body has, where the head says that."""
        given = self.get(b"content-length")
        if given is None:
            return None
        if self.get(b"transfer-encoding") is not None:
            # (what is before the server may have gone by the other one: RFC 9112, 6.1)
            words = "Bad Request: Content-Length stands beside Transfer-Encoding"
            raise Answer(400, words, [("Connection", "close")])
        if re.fullmatch(r"[0-9]{1,18}", given, re.ASCII) is None:
            raise Answer(400, "Bad Request: Content-Length has to be a number")
        return int(given)

    def event(self) -> Optional[Tuple[str, int]]:
        """The stream and the number of the last event that the client has."""
        given = self.get(b"last-event-id")
        if given is None:
            return None
        name, _, number = given.rpartition("-")
        if re.fullmatch(r"[0-9]{1,18}", number, re.ASCII) is None:
            raise Answer(400, "Bad Request: Last-Event-ID isn't one of this session's")
        return name, int(number)


def _range(text: str) -> Tuple[str, float]:
    """One range of an Accept, with its quality."""
    kind, *parameters = (it.strip() for it in text.split(";"))
    quality = 1.0
    for it in parameters:
        name, _, value = it.partition("=")
        if name.strip().lower() == "q":
            try:
                quality = float(value)
            except ValueError:
                quality = 0.0
    return kind.lower(), quality


def is_local(host: str) -> bool:
    """Whether only this machine can reach what listens there."""
    return host in (*LOCAL, "::1")
