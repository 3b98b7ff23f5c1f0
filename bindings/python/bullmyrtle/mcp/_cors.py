"""Pages in a browser: which may read what the server answers, by the headers of CORS (the standard of Fetch)."""
from __future__ import annotations

from ._heads import Head, Headers

# What a page sends and reads, beside what any may.
_SENT = b"accept, authorization, content-type, last-event-id, mcp-protocol-version, mcp-session-id"
_READ = b"mcp-session-id, retry-after, www-authenticate"
# How long a browser keeps what it was told; none keeps it for longer than a day, and Chromium for two hours.
_SECONDS = b"7200"


def is_preflight(head: Head) -> bool:
    """Whether a browser asks what a page may send, before that is sent."""
    asks = head.get(b"origin"), head.get(b"access-control-request-method")
    return head.method == "OPTIONS" and None not in asks


def may_read(origin: str) -> Headers:
    """For a page of an Origin that may call. (Its name, and not *: what is answered to one isn't for any other.)"""
    given = (b"access-control-allow-origin", origin.encode("latin-1"))
    return [given, (b"access-control-expose-headers", _READ), (b"vary", b"origin")]


def may_send(methods: str) -> Headers:
    """The rest of the answer to what a browser asks."""
    return [
        (b"access-control-allow-methods", methods.encode()),
        (b"access-control-allow-headers", _SENT),
        (b"access-control-max-age", _SECONDS),
    ]
