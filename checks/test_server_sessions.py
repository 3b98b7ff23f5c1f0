"""Sessions with a language server and with a tool server, message by message, over both languages: the tables
language_rows/sessions.json and tool_rows/sessions.json, and the servers in support/sessions, each in Python and in JavaScript.

A session has steps: what is sent, and what comes then, in this order and nothing else. An error without a message may
have any. A text that begins with $ is what came first for it, wherever it stands. A text that is sent is no message, and
goes out as it is."""
import contextlib
import json
import os
import queue
import subprocess
import sys
import threading
from typing import Any, BinaryIO, Iterator, Optional

import pytest

from support import needing, ran
from support.expecting import check, same

HERE = os.path.dirname(os.path.abspath(__file__))
SERVERS = f"{HERE}/support/sessions"
LANGUAGES = {"python": (sys.executable, "py"), "node": ("node", "mjs")}
ENV = {**os.environ, "PYTHONPATH": f"{ran.TOP}/bindings/python"}
# So many seconds a server has for what is to come.
PATIENCE = 60
Message = Any


def lines(stream: BinaryIO) -> Iterator[Message]:
    for line in stream:
        yield json.loads(line)


def frames(stream: BinaryIO) -> Iterator[Message]:
    while head := stream.readline():
        length = int(head.removeprefix(b"Content-Length: "))
        stream.readline()
        yield json.loads(stream.read(length))


class Protocol:
    """How a kind of server is spoken with."""

    def __init__(self, name: str, read: Any, head: str, end: str, barrier: str) -> None:
        self.server, self.read, self.head, self.end = f"{name}_server", read, head, end
        # a request that is answered at any time, whatever with
        self.barrier = {"id": "barrier", "method": barrier}
        with open(f"{HERE}/{name}_rows/sessions.json", encoding="utf-8") as it:
            self.sessions: list[dict[str, Any]] = json.load(it)

    def framed(self, message: Message) -> bytes:
        text = message if isinstance(message, str) else json.dumps(whole(message))
        return (self.head.format(len(text.encode())) + text + self.end).encode()

    def begun(self, session: dict[str, Any]) -> Optional[dict[str, Any]]:
        """What `initialize` is sent with, if the session is to have begun."""
        capabilities = session.get("capabilities", {})
        if self.server == "language_server":
            return (
                {"processId": None, "rootUri": None, "capabilities": capabilities}
                if "capabilities" in session
                else None
            )
        about = {"clientInfo": {"name": "h", "version": "1"}, "capabilities": capabilities}
        return {"protocolVersion": session["version"], **about} if "version" in session else None


LANGUAGE = Protocol("language", frames, "Content-Length: {}\r\n\r\n", "", "$/barrier")
TOOL = Protocol("tool", lines, "", "\n", "ping")
NOTES = {LANGUAGE: "initialized", TOOL: "notifications/initialized"}
ROWS = [(protocol, it) for protocol in (LANGUAGE, TOOL) for it in protocol.sessions]


def whole(message: Message) -> Message:
    """A message of the table with what all have."""
    return [whole(it) for it in message] if isinstance(message, list) else {"jsonrpc": "2.0", **message}


class Talk:
    """A session with a server."""

    def __init__(self, protocol: Protocol, server: "subprocess.Popen[bytes]") -> None:
        self.protocol, self.server = protocol, server
        self.came: "queue.SimpleQueue[Message]" = queue.SimpleQueue()
        self.known: dict[str, Any] = {}
        threading.Thread(target=self.read, daemon=True).start()

    def read(self) -> None:
        assert self.server.stdout
        for it in self.protocol.read(self.server.stdout):
            self.came.put(it)
        self.came.put(None)

    def send(self, *messages: Message) -> None:
        assert self.server.stdin
        self.server.stdin.write(b"".join(self.protocol.framed(self.given(it)) for it in messages))
        self.server.stdin.flush()

    def next(self) -> Message:
        try:
            return self.came.get(timeout=PATIENCE)
        except queue.Empty:
            return f"nothing came in {PATIENCE} seconds"

    def given(self, value: Any) -> Any:
        """A value with what is known of its texts that begin with $."""
        if isinstance(value, dict):
            return {name: self.given(it) for name, it in value.items()}
        if isinstance(value, list):
            return [self.given(it) for it in value]
        return self.known.get(value, value) if isinstance(value, str) else value

    def learned(self, wanted: Any, found: Any) -> None:
        """Takes what came first for texts that begin with $."""
        if isinstance(wanted, dict) and isinstance(found, dict):
            for name in wanted.keys() & found.keys():
                self.learned(wanted[name], found[name])
        elif isinstance(wanted, list) and isinstance(found, list):
            for one, other in zip(wanted, found):
                self.learned(one, other)
        elif isinstance(wanted, str) and wanted[:1] == "$" and wanted[1:].isalnum():
            self.known.setdefault(wanted, found)

    def step(self, sent: list[Message], received: list[Message]) -> None:
        self.send(*sent)
        for it in received:
            wanted, found = whole(it), self.next()
            self.learned(wanted, found)
            same(kept(found, wanted), self.given(wanted), f"what came of {json.dumps(sent)}")
        if any(isinstance(it, dict) and it.get("method") == "exit" for it in sent):
            return
        self.send(self.protocol.barrier)
        after = self.next()
        check(isinstance(after, dict) and after.get("id") == "barrier", f"{after} came too of {json.dumps(sent)}")


def kept(message: Message, wanted: Message) -> Message:
    """A message that was received, without the words of an error if none are wanted."""
    if isinstance(message, list) and isinstance(wanted, list):
        return [kept(*it) for it in zip(message, wanted)] + message[len(wanted) :]
    error = wanted.get("error") if isinstance(wanted, dict) else None
    if error is not None and "message" not in error and isinstance(message, dict) and "error" in message:
        return {**message, "error": {name: it for name, it in message["error"].items() if name != "message"}}
    return message


@contextlib.contextmanager
def talking(protocol: Protocol, language: str, session: dict[str, Any]) -> Iterator[Talk]:
    """A session that is over when it is left: the server has ended as it should, and said nothing else."""
    program, suffix = LANGUAGES[language]
    words = [program, f"{SERVERS}/{protocol.server}.{suffix}", json.dumps(session.get("pageSize"))]
    if protocol is TOOL:
        words.append(json.dumps(session.get("tasks", False)))
    pipes: dict[str, Any] = dict.fromkeys(("stdin", "stdout", "stderr"), subprocess.PIPE)
    with subprocess.Popen(words, env=ENV, **pipes) as server:
        try:
            yield Talk(protocol, server)
            assert server.stdin and server.stderr
            server.stdin.close()
            logged = server.stderr.read().decode()
            same((server.wait(PATIENCE), logged), (session.get("status", 0), ""), "the status, and what was logged")
        finally:
            server.kill()


@pytest.mark.parametrize("language", LANGUAGES)
@pytest.mark.parametrize("protocol, session", ROWS, ids=[f"{one.server}: {it['name']}" for one, it in ROWS])
def test_session(protocol: Protocol, session: dict[str, Any], language: str) -> None:
    needing.tool(LANGUAGES[language][0], "no sessions with the servers in JavaScript")
    begun = protocol.begun(session)
    with talking(protocol, language, session) as talk:
        if begun is not None:
            talk.send(
                {"id": "begin", "method": "initialize", "params": begun}, {"method": NOTES[protocol], "params": {}}
            )
            answer = talk.next()
            check("result" in answer, f"{answer}")
        for sent, received in session["steps"]:
            talk.step(sent, received)


def test_there_are_enough() -> None:
    for protocol, least in ((LANGUAGE, 60), (TOOL, 100)):
        steps = sum(len(it["steps"]) for it in protocol.sessions)
        check(steps >= least, f"{protocol.server}: {steps} steps")
