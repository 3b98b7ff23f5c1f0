"""usage: python3 checks/c_library_largest.py [--library FOLDER]

The longest content that a connection of the C library may have, 2,147,483,647 bytes: in frames and in lines it is taken
and answered, with blanks among its tokens. One of a byte more is a fault, at the place where its frame or line begins.
It was seen to hold 2.2 GB; room that grows may take thrice a content, so it is skipped where fewer than 12 are free."""
import argparse
import ctypes
import os
import sys
from typing import Iterator

from support import ran
from support.c_programs import default_library

# As docs/embedding.md has them.
FRAMES, LINES = 0, 1
OK, NONE, CALL, INPUT_OVER = 0, 0, 1, 5
REQUEST, TOO_LARGE = 1, 4
LONGEST = 2_147_483_647
PIECE, FREE = 1 << 24, 12 << 30
# A request whose blanks come in its middle, and its answer.
HEAD, END = b'{"jsonrpc":"2.0","id":1,', b'"method":"m"}'
ANSWER = b'{"id":1,"jsonrpc":"2.0","result":true}'


class Options(ctypes.Structure):
    _fields_ = [
        (name, ctypes.c_uint64 if name == "calls" else ctypes.c_uint32)
        for name in "size framing order cancels broken content calls entries null_params".split()
    ]


class Event(ctypes.Structure):
    _fields_ = [
        ("kind", ctypes.c_uint32),
        ("flags", ctypes.c_uint32),
        ("number", ctypes.c_uint64),
        ("key", ctypes.c_uint64),
        ("code", ctypes.c_int64),
        ("name_len", ctypes.c_size_t),
        ("text_len", ctypes.c_size_t),
        ("id_len", ctypes.c_size_t),
        ("name", ctypes.c_void_p),
        ("text", ctypes.c_void_p),
        ("id", ctypes.c_void_p),
    ]


class Connection:
    """A connection with the greatest limit. The C library's struct of it is a pointer."""

    def __init__(self, library: ctypes.CDLL, framing: int) -> None:
        self.library, self.at = library, ctypes.c_void_p()
        options = Options(size=ctypes.sizeof(Options), framing=framing, content=LONGEST)
        assert library.bm_open(ctypes.byref(options), ctypes.byref(self.at)) == OK

    def feed(self, bytes_read: bytes) -> int:
        return int(self.library.bm_feed(ctypes.byref(self.at), bytes_read, ctypes.c_size_t(len(bytes_read))))

    def next(self) -> tuple[int, int, int, tuple[bytes, bytes, bytes]]:
        event = Event()
        code = self.library.bm_next(ctypes.byref(self.at), ctypes.byref(event))
        assert code == OK, code
        texts = ((event.name, event.name_len), (event.text, event.text_len), (event.id, event.id_len))
        name, text, id_ = (ctypes.string_at(at, length) if length else b"" for at, length in texts)
        return event.kind, event.flags, event.number, (name, text, id_)

    def answer(self, number: int, result: bytes) -> int:
        length = ctypes.c_size_t(len(result))
        return int(self.library.bm_answer(ctypes.byref(self.at), ctypes.c_uint64(number), result, length))

    def output(self) -> bytes:
        """All that is to be written, which is written then."""
        made, place = b"", ctypes.c_void_p()
        while length := self.library.bm_output(ctypes.byref(self.at), ctypes.byref(place)):
            made += ctypes.string_at(place, length)
            assert self.library.bm_written(ctypes.byref(self.at), ctypes.c_size_t(length)) == OK
        return made

    def fault(self) -> int | None:
        place = ctypes.c_uint64()
        return place.value if self.library.bm_fault_at(ctypes.byref(self.at), ctypes.byref(place)) else None

    def free(self) -> None:
        self.library.bm_free(self.at)


def loaded(folder: str) -> ctypes.CDLL:
    library = ctypes.CDLL(f"{folder}/libbullmyrtle.so.1")
    library.bm_output.restype, library.bm_fault_at.restype, library.bm_free.restype = (
        ctypes.c_size_t,
        ctypes.c_bool,
        None,
    )
    return library


def pieces_of(length: int) -> Iterator[bytes]:
    """A request of so many bytes, in pieces."""
    blanks = length - len(HEAD) - len(END)
    yield HEAD
    yield from (b" " * PIECE for _ in range(blanks // PIECE))
    yield b" " * (blanks % PIECE) + END


def framed(framing: int, length: int) -> Iterator[bytes]:
    if framing == FRAMES:
        yield b"Content-Length: %d\r\n\r\n" % length
    yield from pieces_of(length)
    if framing == LINES:
        yield b"\n"


def check_longest(count: ran.Count, library: ctypes.CDLL, framing: int, name: str) -> None:
    connection = Connection(library, framing)
    length = 0
    for piece in framed(framing, LONGEST):
        count.check(f"{name}: a piece is taken", connection.feed(piece) == OK)
        length += len(piece)
    count.same(f"{name}: the longest content is a request", connection.next(), (CALL, REQUEST, 1, (b"m", b"", b"1")))
    count.same(f"{name}: it is answered", connection.answer(1, b"true"), OK)
    answer = b"Content-Length: %d\r\n\r\n%s" % (len(ANSWER), ANSWER) if framing == FRAMES else ANSWER + b"\n"
    count.same(f"{name}: the answer", connection.output(), answer)
    count.same(f"{name}: nothing else is told", connection.next()[0], NONE)
    count.same(f"{name}: nothing is at fault", connection.fault(), None)
    for piece in framed(framing, LONGEST + 1):
        count.check(f"{name}: a piece of the next one is taken", connection.feed(piece) == OK)
        if connection.fault() is not None:
            break
    count.same(f"{name}: the next one is at fault where it begins", connection.fault(), length)
    count.same(f"{name}: it is too large", connection.next()[:2], (INPUT_OVER, TOO_LARGE))
    connection.free()


def free_bytes() -> int:
    line = next(it for it in ran.text_of("/proc/meminfo").splitlines() if it.startswith("MemAvailable:"))
    return int(line.split()[1]) * 1024


def main(words: list[str]) -> None:
    parser = argparse.ArgumentParser(usage=__doc__.partition("\n\n")[0].removeprefix("usage: "))
    parser.add_argument("--library", default=default_library())
    folder, count = os.path.abspath(parser.parse_args(words).library), ran.Count()
    if not os.path.isfile(f"{folder}/libbullmyrtle.so.1"):
        print(f"SKIPPED: there is no library in {folder}: bin/build-library builds it", flush=True)
        count.end()
    if free_bytes() < FREE:
        print(f"SKIPPED: the longest content, since fewer than {FREE >> 30} GB of memory are free", flush=True)
        count.end()
    library = loaded(folder)
    check_longest(count, library, FRAMES, "frames")
    check_longest(count, library, LINES, "lines")
    count.end()


main(sys.argv[1:])
