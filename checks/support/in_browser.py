"""A page in Chromium that tries the package for browsers (browser/page.mjs): this serves it, answers its WebSocket, and takes what it tells."""
import base64
import contextlib
import hashlib
import json
import os
import signal
import subprocess
import sys
import tempfile
import threading
from dataclasses import dataclass, field
from http.server import BaseHTTPRequestHandler, ThreadingHTTPServer
from typing import Any, BinaryIO, Iterator

from support.c_programs import SUPPORT

from tools import browser
from tools.repository import read_bytes

HTML = b"<!doctype html><title>bullmyrtle</title><script type=module src=page.mjs></script>"
TYPES = {"": "text/html", "mjs": "text/javascript", "wasm": "application/wasm"}
FILES = {"page.mjs": "browser", "worker.mjs": "browser", "program.mjs": "wasm"}
WORDS = ["--headless", "--no-sandbox", "--disable-gpu", "--no-first-run", "--disable-dev-shm-usage"]
# (RFC 6455)
KEY = b"258EAFA5-E914-47DA-95CA-C5AB0DC85B11"
TEXT, CLOSE = 1, 8


@dataclass(frozen=True)
class Play:
    """A program of C in WebAssembly that the page runs: its file, its words, its environment, and what it reads."""

    name: str
    program: str
    words: list[str]
    env: dict[str, str]
    given: bytes

    def told(self) -> dict[str, object]:
        return {"name": self.name, "program": self.program, "words": self.words, "env": self.env}


@dataclass
class Told:
    """What came of a page: of each of its checks why it failed, or nothing; and of each program how it ended and what it wrote."""

    checks: list[tuple[str, str]] = field(default_factory=list)
    played: dict[str, dict[str, Any]] = field(default_factory=dict)
    is_over: threading.Event = field(default_factory=threading.Event)


def files(programs: dict[str, bytes]) -> dict[str, bytes]:
    """All files of the page."""
    own = {name: read_bytes(f"{SUPPORT}/{folder}/{name}") for name, folder in FILES.items()}
    return {"": HTML, **own, **browser.files(), **programs}


class Handler(BaseHTTPRequestHandler):
    """Serves what stands in `served`, which a subclass has."""

    served: dict[str, bytes]
    plays: list[Play]
    told: Told
    protocol_version = "HTTP/1.1"

    def log_message(self, format: str, *args: object) -> None:  # pylint: disable=redefined-builtin
        pass

    def answer(self, status: int, kind: str = "text/plain", data: bytes = b"") -> None:
        self.send_response(status)
        self.send_header("Content-Type", kind)
        self.send_header("Content-Length", str(len(data)))
        self.end_headers()
        self.wfile.write(data)

    def do_GET(self) -> None:
        name = self.path[1:]
        scripts = {f"scripts/{it.name}": it.given for it in self.plays}
        if name == "socket":
            self.web_socket()
        elif name == "scripts":
            self.answer(200, "application/json", json.dumps([it.told() for it in self.plays]).encode())
        elif name in scripts:
            self.answer(200, data=scripts[name])
        elif name in self.served:
            self.answer(200, TYPES[name.rpartition(".")[2]], self.served[name])
        else:
            self.answer(404)

    def do_POST(self) -> None:
        got = json.loads(self.rfile.read(int(self.headers["Content-Length"])))
        if self.path == "/told":
            self.told.checks += [(name, why) for name, why in got]
            self.told.is_over.set()
        else:
            self.told.played[self.path.removeprefix("/played/")] = got
        self.answer(200)

    def web_socket(self) -> None:
        """Answers each request with its params, until the other side closes."""
        accepted = base64.b64encode(hashlib.sha1(self.headers["Sec-WebSocket-Key"].encode() + KEY).digest())
        self.send_response(101)
        for it in (("Upgrade", "websocket"), ("Connection", "Upgrade"), ("Sec-WebSocket-Accept", accepted.decode())):
            self.send_header(*it)
        self.end_headers()
        self.close_connection = True
        while True:
            kind, data = frame(self.rfile)
            if kind == CLOSE:
                self.wfile.write(framed(CLOSE, data))
                return
            asked = json.loads(data)
            reply = {"jsonrpc": "2.0", "id": asked["id"], "result": asked["params"]}
            self.wfile.write(framed(TEXT, json.dumps(reply, ensure_ascii=False).encode()))


def frame(stream: BinaryIO) -> tuple[int, bytes]:
    """A frame that a browser sends, whole and masked."""
    kind, length = stream.read(1)[0] & 15, stream.read(1)[0] & 127
    if length > 125:
        length = int.from_bytes(stream.read(2 if length == 126 else 8), "big")
    mask = stream.read(4)
    return kind, bytes(it ^ mask[at % 4] for at, it in enumerate(stream.read(length)))


def framed(kind: int, data: bytes) -> bytes:
    length = len(data)
    if length < 126:
        return bytes([128 | kind, length]) + data
    if length < 1 << 16:
        return bytes([128 | kind, 126]) + length.to_bytes(2, "big") + data
    return bytes([128 | kind, 127]) + length.to_bytes(8, "big") + data


class Server(ThreadingHTTPServer):
    """(a browser that is ended cuts its connections)"""

    def handle_error(self, request: Any, client_address: Any) -> None:
        if not isinstance(sys.exc_info()[1], ConnectionError):
            super().handle_error(request, client_address)


@contextlib.contextmanager
def serving(served: dict[str, bytes], plays: list[Play], told: Told) -> Iterator[str]:
    """Serves a page, and gives its address."""
    handler = type("Served", (Handler,), {"served": served, "plays": plays, "told": told})
    server = Server(("127.0.0.1", 0), handler)
    thread = threading.Thread(target=server.serve_forever)
    thread.start()
    try:
        yield f"http://127.0.0.1:{server.server_address[1]}/"
    finally:
        server.shutdown()
        thread.join()
        server.server_close()


def opened(programs: dict[str, bytes], plays: list[Play], seconds: float) -> Told:
    """Opens the page in Chromium, and gives what it told in time."""
    told = Told()
    with tempfile.TemporaryDirectory(prefix="page-", ignore_cleanup_errors=True) as room, serving(
        files(programs), plays, told
    ) as address:
        how: dict[str, Any] = {"stdin": subprocess.DEVNULL, "stdout": subprocess.DEVNULL, "stderr": subprocess.DEVNULL}
        env = {**os.environ, "HOME": room}
        words = ["chromium", *WORDS, f"--user-data-dir={room}/profile", address]
        with subprocess.Popen(words, env=env, start_new_session=True, **how) as page:
            told.is_over.wait(seconds)
            os.killpg(page.pid, signal.SIGKILL)  # (it is several processes, some of which outlive the first)
    return told
