"""A client of the server: it starts the program, sends contents in frames, and reads the frames that come."""
import os
import queue
import subprocess
import threading
from typing import IO, Any, Iterator, Sequence

from support import ran
from support import rows
from support.model import text_of as compact

# How long anything is waited for, in seconds, before a check fails.
PATIENCE = 60


def contents_in(stream: IO[bytes]) -> Iterator[str]:
    """The contents of the frames of a stream of bytes, one by one, until it ends."""
    while True:
        head = stream.readline()
        if not head:
            return
        if not head.startswith(b"Content-Length: ") or stream.readline() != b"\r\n":
            raise ValueError(f"not a head: {head!r}")
        size = int(head[len(b"Content-Length: ") :])
        content = stream.read(size)
        if len(content) != size:
            raise ValueError(f"a frame of {size} bytes has {len(content)}")
        yield content.decode()


def ended(process: "subprocess.Popen[bytes]", patience: float = PATIENCE) -> tuple[int | str, bytes]:
    """What a server ends with, and what it wrote of errors."""
    try:
        status = process.wait(patience)
    except subprocess.TimeoutExpired:
        process.kill()
        return f"no end after {patience} seconds", b""
    return status, ran.pipe(process.stderr).read()


class Client:
    """One server that runs, and the pipes to it."""

    def __init__(self, words: Sequence[str], program: str | None = None, **more: Any) -> None:
        how: dict[str, Any] = {"stdin": subprocess.PIPE, "stdout": subprocess.PIPE, "stderr": subprocess.PIPE, **more}
        self.process = subprocess.Popen([program or ran.BUILT, "serve", *words], **how)
        self.came: queue.Queue[str | Exception | None] = queue.Queue()
        self.reader = threading.Thread(target=self._read, daemon=True)
        self.reader.start()

    def __enter__(self) -> "Client":
        return self

    def __exit__(self, *_: object) -> None:
        self.process.kill()
        self.process.wait()

    def _read(self) -> None:
        try:
            for content in contents_in(ran.pipe(self.process.stdout)):
                self.came.put(content)
        except (ValueError, OSError) as fault:
            self.came.put(fault)
        self.came.put(None)

    def send(self, *contents: str) -> None:
        self.send_bytes(rows.frames(*contents))

    def send_bytes(self, data: bytes) -> None:
        ran.pipe(self.process.stdin).write(data)
        ran.pipe(self.process.stdin).flush()

    def receive(self, patience: float = PATIENCE) -> str | Exception | None:
        """The next content that comes: None where no more does, and a text that tells so where it was waited for in
        vain."""
        try:
            return self.came.get(timeout=patience)
        except queue.Empty:
            return f"nothing for {patience} seconds"

    def close_input(self) -> None:
        ran.pipe(self.process.stdin).close()

    def end(self) -> tuple[list[str], int | str, bytes]:
        """Waits for its end, and gives the contents that were left, its status and what it wrote of errors."""
        left = []
        while True:
            content = self.receive()
            if content is None or not isinstance(content, str) or content.startswith("nothing for "):
                break
            left.append(content)
        return left, *ended(self.process)

    def seconds_used(self) -> float:
        """The processor seconds that it has used so far, by all its threads."""
        with open(f"/proc/{self.process.pid}/stat", encoding="ascii") as it:
            fields = it.read().rsplit(")", 1)[1].split()
        return (int(fields[11]) + int(fields[12])) / os.sysconf("SC_CLK_TCK")

    def resident(self) -> int:
        """Its resident memory, in bytes."""
        with open(f"/proc/{self.process.pid}/statm", encoding="ascii") as it:
            return int(it.read().split()[1]) * os.sysconf("SC_PAGE_SIZE")

    def peak(self) -> int:
        """The most memory that was resident at any time, in bytes."""
        with open(f"/proc/{self.process.pid}/status", encoding="ascii") as it:
            return next(int(line.split()[1]) * 1024 for line in it if line.startswith("VmHWM:"))

    def threads(self) -> int:
        return len(os.listdir(f"/proc/{self.process.pid}/task"))


def request(number: object, method: str, params: object = None) -> str:
    """A request, or, with the key of a call for its number, a call to the other side."""
    return compact({"id": number, "jsonrpc": "2.0", "method": method, **({} if params is None else {"params": params})})


def notification(method: str, params: object = None) -> str:
    value: dict[str, object] = {"jsonrpc": "2.0", "method": method}
    return compact(value if params is None else {**value, "params": params})


def cancel(number: object) -> str:
    return notification("$/cancelRequest", {"id": number})


def result(number: object, value: object) -> str:
    return compact({"id": number, "jsonrpc": "2.0", "result": value})


def error(number: object, code: int, text: str, **data: object) -> str:
    return compact({"error": {"code": code, "message": text, **data}, "id": number, "jsonrpc": "2.0"})


call = request
