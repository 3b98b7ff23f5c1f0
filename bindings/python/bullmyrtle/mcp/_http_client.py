"""Requests over HTTP as a client's threads make them: by the standard library, or by httpx."""
from __future__ import annotations

import contextlib
import http.client
import socket
import ssl
import urllib.parse
from typing import Any, Callable, Dict, Iterator, Optional, Protocol

#: How long a connection may take to be made, in seconds.
_CONNECTING = 30.0
#: What a connection that breaks raises.
BROKEN = (OSError, http.client.HTTPException)


class Response(Protocol):
    """A response, of which the head has come."""

    status: int

    def header(self, name: str) -> str:
        """A header, or an empty text."""

    def body(self, most: int) -> bytes:
        """The whole body. Raises ValueError where it is longer."""

    def lines(self, most: int) -> Iterator[bytes]:
        """The body's lines. Raises ValueError where one is longer."""

    def cut(self) -> None:
        """End what another thread reads."""

    def close(self) -> None:
        """Let go of it."""


#: What is told how a request is cut, while its response hasn't come.
Begun = Callable[[Callable[[], None]], None]


class Http(Protocol):
    """What makes requests."""

    def open(self, method: str, headers: Dict[str, str], body: Optional[bytes], begun: Begun) -> Response:
        """Make a request, and wait for the head of its response. Raises OSError or what BROKEN has."""


class Standard:
    """The standard library's client, with a connection for each request."""

    def __init__(self, url: str) -> None:
        parts = urllib.parse.urlsplit(url)
        if parts.scheme not in ("http", "https") or not parts.hostname:
            raise ValueError(f"a server's URL begins with http:// or https://: {url!r}")
        self._parts = parts
        self._target = urllib.parse.urlunsplit(("", "", parts.path or "/", parts.query, ""))
        self._context = ssl.create_default_context() if parts.scheme == "https" else None

    def open(self, method: str, headers: Dict[str, str], body: Optional[bytes], begun: Begun) -> Response:
        """As `Http` has it."""
        host, port = self._parts.hostname or "", self._parts.port
        if self._context is None:
            made = http.client.HTTPConnection(host, port, timeout=_CONNECTING)
        else:
            made = http.client.HTTPSConnection(host, port, timeout=_CONNECTING, context=self._context)
        try:
            made.connect()
            # (an answer may take as long as its tool; a peer that is gone is found all the same)
            made.sock.settimeout(None)
            made.sock.setsockopt(socket.SOL_SOCKET, socket.SO_KEEPALIVE, 1)
            link = made.sock  # (which the connection forgets, once the response has it)
            begun(lambda: _shut(link))
            made.request(method, self._target, body, {**headers, "Connection": "close"})
            return _StandardResponse(link, made.getresponse())
        except BaseException:
            made.close()
            raise


class _StandardResponse:
    def __init__(self, link: socket.socket, response: http.client.HTTPResponse) -> None:
        self._link, self._response = link, response
        self.status = response.status

    def header(self, name: str) -> str:
        return self._response.getheader(name) or ""

    def body(self, most: int) -> bytes:
        data = self._response.read(most + 1)
        if len(data) > most:
            raise ValueError(f"a response has more than {most:,} bytes")
        return data

    def lines(self, most: int) -> Iterator[bytes]:
        while True:
            line = self._response.readline(most + 1)
            if len(line) > most:
                raise ValueError(f"a line of a response has more than {most:,} bytes")
            if not line:
                return
            yield line

    def cut(self) -> None:
        _shut(self._link)

    def close(self) -> None:
        self._response.close()
        self._link.close()


def _shut(link: Any) -> None:
    with contextlib.suppress(OSError):
        link.shutdown(socket.SHUT_RDWR)


class ByHttpx:
    """A client of httpx's, which keeps connections and has proxies and other settings."""

    def __init__(self, url: str, client: Any) -> None:
        self._url, self._client = url, client

    def open(self, method: str, headers: Dict[str, str], body: Optional[bytes], begun: Begun) -> Response:
        """As `Http` has it. (How a request is cut before its response, httpx doesn't say.)"""
        timeout = (_CONNECTING, None, None, None)  # (an answer may take as long as its tool)
        build = self._client.build_request
        request = build(method, self._url, headers=headers, content=body, timeout=timeout)
        try:
            return _HttpxResponse(self._client.send(request, stream=True))
        except Exception as error:
            raise ConnectionError(str(error)) from error


class _HttpxResponse:
    def __init__(self, response: Any) -> None:
        self._response = response
        self.status: int = response.status_code

    def header(self, name: str) -> str:
        return str(self._response.headers.get(name, ""))

    def body(self, most: int) -> bytes:
        data = b""
        for it in self._parts():
            data += it
            if len(data) > most:
                raise ValueError(f"a response has more than {most:,} bytes")
        return data

    def lines(self, most: int) -> Iterator[bytes]:
        rest = b""
        for it in self._parts():
            *lines, rest = (rest + it).split(b"\n")
            if len(rest) > most:
                raise ValueError(f"a line of a response has more than {most:,} bytes")
            for line in lines:
                yield line + b"\n"

    def _parts(self) -> Iterator[bytes]:
        try:
            yield from self._response.iter_bytes()
        except Exception as error:
            raise ConnectionError(str(error)) from error

    def cut(self) -> None:
        stream = self._response.extensions.get("network_stream")
        if stream is not None:
            _shut(stream.get_extra_info("socket"))

    def close(self) -> None:
        with contextlib.suppress(Exception):
            self._response.close()


def http_of(url: str, client: Any) -> Http:
    """What makes requests: the standard library, or a client of httpx's that is given."""
    standard: Http = Standard(url)  # (which refuses what isn't a URL)
    return standard if client is None else ByHttpx(url, client)
