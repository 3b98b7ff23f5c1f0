"""Runs programs under a malloc that refuses, or one that counts; or where a thread can't be started."""
import os
import struct
import subprocess
import tempfile
from functools import cache
from typing import IO, Any, Sequence

from support import ran

WHY = "it compiles the malloc that refuses, and the one that counts"


@cache
def compiled(name: str) -> str:
    """A library of support/, compiled: its file."""
    library = os.path.join(ran.ROOM.name, f"{name}.so")
    source = os.path.join(ran.TOP, "checks", "support", f"{name}.c")
    made = subprocess.run(["cc", "-shared", "-fPIC", "-O2", "-o", library, source], capture_output=True, check=False)
    if made.returncode:
        raise OSError(made.stderr.decode(errors="replace"))
    return library


class Held:
    """What a program holds that runs with `how`, of the arguments of Popen. With `lose` it loses 24 bytes behind each
    so many requests."""

    def __init__(self, lose: int = 0) -> None:
        self.told = tempfile.TemporaryFile()
        self.told.write(bytes(40))
        self.told.flush()
        env = {**os.environ, "LD_PRELOAD": compiled("count_malloc"), "HELD_TELL": str(self.told.fileno())}
        self.how: dict[str, Any] = {
            "env": {**env, **({"HELD_LOSE": str(lose)} if lose else {})},
            "pass_fds": [self.told.fileno()],
        }

    def numbers(self) -> tuple[int, int, int, int]:
        """The most bytes that it held so far, those that it held behind its last request, those that it holds now, and
        how many requests for memory it has made."""
        most, behind_request, now, requests = struct.unpack("QQQQ", os.pread(self.told.fileno(), 32, 0))
        return most, behind_request, now, requests

    def trim(self) -> None:
        """Has it give all memory that is free back to the system, before it next asks for some."""
        os.pwrite(self.told.fileno(), struct.pack("Q", 1), 32)


def counted(words: Sequence[str], given: bytes | IO[bytes] = b"") -> tuple[int, int, int, int, int]:
    """Runs a program: its status, the most bytes that it held, the bytes that it held behind its last request and at
    its end, and how often it asked for memory. The input is bytes, or a file."""
    held = Held()
    stream: dict[str, Any] = {"input": given} if isinstance(given, bytes) else {"stdin": given}
    ended = subprocess.run(words, capture_output=True, timeout=600, check=False, **stream, **held.how)
    return ended.returncode, *held.numbers()


class Refusals:
    """The library that refuses memory, or threads."""

    def __init__(self, name: str = "refuse_malloc") -> None:
        self.library = compiled(name)

    def run(
        self, words: Sequence[str], given: bytes | IO[bytes], how: str, number: int
    ) -> tuple[int, bytes, bytes, bool]:
        """Runs a program under refusals: its status, what it wrote to its two outputs, and whether anything was
        refused. `how` is REFUSE_NTH, REFUSE_FROM or REFUSE_OVER, as refuse_malloc.c says; of threads it is REFUSE_NTH.
        The input is bytes, or a file."""
        told, tell = os.pipe()
        env = {**os.environ, "LD_PRELOAD": self.library, how: str(number), "REFUSE_TELL": str(tell)}
        stream: dict[str, Any] = {"input": given} if isinstance(given, bytes) else {"stdin": given}
        ended = subprocess.run(words, capture_output=True, timeout=120, env=env, pass_fds=[tell], check=False, **stream)
        os.close(tell)
        was_refused = os.read(told, 1) != b""
        os.close(told)
        return ended.returncode, ended.stdout, ended.stderr, was_refused
