"""Streams that fail at each byte, and streams that give or take few bytes at a time: `play` and `serve` write the row's
very bytes, or the front of them that was taken, and say why they ended. What is waited for ends within 20 seconds, and
a server's threads end with it."""
import errno
import random
import re
import resource
import signal
import subprocess
import tempfile
import time
from typing import Any

import pytest

from support import narrow, needing, ran, rows
from support.client import Client, ended, error, request, result
from support.expecting import check, same

GIVEN = rows.frames(rows.ask(), rows.replied("1.1"))
FIRST = len(rows.frames(rows.ask()))
CALLED = rows.frames(rows.called("1.1"))
REPLIED, UNREPLIED = CALLED + rows.frames(rows.answered("true")), CALLED + rows.frames(rows.NO_REPLY)
WRITE, READ, READ_END = b"failed: Write\n", b"failed: Read\n", b"input ended: Read\n"
FEW = (1, 2, 7)
# What a read or a write that fails may say; one that was interrupted may be made again by who writes all bytes.
READ_ERRORS = (errno.EIO, errno.EINTR, errno.EAGAIN, errno.ECONNRESET, errno.EBADF)
WRITE_ERRORS = (errno.EIO, errno.EAGAIN, errno.ENOSPC, errno.EPIPE)

Narrowed = narrow.Narrowed
COMMANDS = pytest.mark.parametrize("command", ("play", "serve"))


@pytest.fixture(scope="session")
def narrowed() -> Narrowed:
    needing.tool("cc", narrow.WHY)
    return Narrowed()


def words_of(command: str, workers: int = 2) -> list[str]:
    words = [command, "--table", rows.file_of(rows.METHODS)]
    return [*words, "--workers", str(workers)] if command == "serve" else words


def expect(narrowed: Narrowed, command: str, wanted: tuple[int, bytes, bytes], **limits: object) -> None:
    """The program's status and its two outputs on streams with these limits."""
    same(narrowed.run(words_of(command), GIVEN, **limits), wanted, f"{limits}")


def test_lengths() -> None:
    """The row's bytes are as long as they are worked out."""
    same((FIRST, len(GIVEN), len(REPLIED)), (76, 140, 144))


# An output that takes so many bytes, however few at once


@COMMANDS
@pytest.mark.parametrize("few", FEW)
def test_output_that_takes_few_bytes_at_once(narrowed: Narrowed, command: str, few: int) -> None:
    expect(narrowed, command, (0, REPLIED, b""), write_most=few)


@COMMANDS
@pytest.mark.parametrize("stop", range(len(REPLIED) + 1))
def test_output_that_stops_at_byte(narrowed: Narrowed, command: str, stop: int) -> None:
    wanted = (0, REPLIED, b"") if stop == len(REPLIED) else (1, REPLIED[:stop], WRITE)
    expect(narrowed, command, wanted, write_stop=stop, write_most=FEW[stop % 3])


ERRORS_OF_OUTPUTS = [*((command, it) for command in ("play", "serve") for it in WRITE_ERRORS), ("serve", errno.EINTR)]


@pytest.mark.parametrize(
    "command, number", ERRORS_OF_OUTPUTS, ids=[f"{command}-{errno.errorcode[it]}" for command, it in ERRORS_OF_OUTPUTS]
)
def test_error_of_an_output(narrowed: Narrowed, command: str, number: int) -> None:
    expect(narrowed, command, (1, REPLIED[:90], WRITE), write_stop=90, stream_error=number)


# An input that gives so many bytes, however few at once, and then fails; and one that ends well


@COMMANDS
@pytest.mark.parametrize("few", FEW)
def test_input_that_gives_few_bytes_at_once(narrowed: Narrowed, command: str, few: int) -> None:
    expect(narrowed, command, (0, REPLIED, b""), read_most=few)


@COMMANDS
@pytest.mark.parametrize("stop", range(len(GIVEN) + 1))
def test_input_that_fails_at_byte(narrowed: Narrowed, command: str, stop: int) -> None:
    served = b"" if stop < FIRST else UNREPLIED if stop < len(GIVEN) else REPLIED
    wanted = (1, served, READ_END) if command == "serve" else (1, b"", READ)
    expect(narrowed, command, wanted, read_stop=stop, read_most=FEW[stop % 3])


@COMMANDS
@pytest.mark.parametrize("number", READ_ERRORS, ids=[errno.errorcode[it] for it in READ_ERRORS])
def test_error_of_an_input(narrowed: Narrowed, command: str, number: int) -> None:
    wanted = (1, UNREPLIED, READ_END) if command == "serve" else (1, b"", READ)
    expect(narrowed, command, wanted, read_stop=100, stream_error=number)


@pytest.mark.parametrize("stop", range(0, len(UNREPLIED), 5))
def test_both_fail(narrowed: Narrowed, stop: int) -> None:
    """The input fails behind the request, and the output in the middle of what comes of it: the write is told."""
    expect(narrowed, "serve", (1, UNREPLIED[:stop], WRITE), read_stop=80, write_stop=stop)


# Many requests, their input cut and their output stopped at random places


@pytest.mark.parametrize("seed", range(40))
def test_much_traffic(narrowed: Narrowed, seed: int) -> None:
    chance, numbers = random.Random(20_261_123 + seed), range(1, 2_001)
    given = rows.frames(*(request(it, "add", [it, 1]) for it in numbers))
    output = rows.frames(*(result(it, it + 1) for it in numbers))
    stop, few = chance.randrange(len(output)), chance.choice((1, 13, 300, 5_000))
    cuts = ",".join(map(str, sorted(chance.sample(range(1, len(given)), 30))))
    got = narrowed.run(words_of("serve"), given, write_stop=stop, write_most=few, read_cuts=cuts)
    same(got, (1, output[:stop], WRITE), f"an output that stops at {stop}, {few} bytes at once; an input cut at {cuts}")
    got = narrowed.run(words_of("serve"), given, write_most=few, read_cuts=cuts)
    same(got, (0, output, b""), f"an output that takes {few} bytes at once; an input cut at {cuts}")


# A server's threads, while its input is open

WORKERS = pytest.mark.parametrize("workers", (1, 2, 8, 64))
GOES_ON = pytest.mark.parametrize("goes_on", (False, True), ids=("no_more_input", "more_input"))


def threads_become(client: Client, wanted: int) -> bool:
    """Whether there soon are so many threads."""
    until = time.monotonic() + narrow.PATIENCE
    while client.threads() != wanted and time.monotonic() < until:
        time.sleep(0.005)
    return client.threads() == wanted


def end_after(it: Client, goes_on: bool) -> tuple[object, bytes]:
    """How a server ends that reads once more: more input, or its end."""
    if goes_on:
        it.send(rows.replied("1.1"))
    else:
        it.close_input()
    return ended(it.process, narrow.PATIENCE)


@WORKERS
@GOES_ON
def test_threads_after_a_failed_write(narrowed: Narrowed, workers: int, goes_on: bool) -> None:
    """The workers end at once. The reader is in the middle of a read: it ends as more comes, or as the input ends."""
    with Client(words_of("serve", workers)[1:], env=narrowed.environment(write_stop=30)) as it:
        check(threads_become(it, workers + 2), f"{it.threads()} threads, not {workers} workers, a reader and a clerk")
        it.send(rows.ask())
        check(threads_become(it, 2), f"the workers don't end: {it.threads()} threads")
        same(end_after(it, goes_on), (1, WRITE))


@WORKERS
@GOES_ON
def test_threads_after_a_frame_fault(narrowed: Narrowed, workers: int, goes_on: bool) -> None:
    """What came is answered at once, and the workers end. The reader is in the middle of a read."""
    with Client(words_of("serve", workers)[1:]) as it:
        it.send(rows.ask())
        it.send_bytes(b"x\r\n")
        same(
            [it.receive(narrow.PATIENCE) for _ in range(2)],
            [rows.called("1.1"), error(7, -32000, "No reply")],
            "what came before is answered",
        )
        check(threads_become(it, 2), f"the workers don't end: {it.threads()} threads")
        same(end_after(it, goes_on), (1, b"input ended: BadHead\n"))


@WORKERS
def test_threads_after_a_failed_read(narrowed: Narrowed, workers: int) -> None:
    """All threads end, though the other side would send more and still holds the pipes."""
    with Client(words_of("serve", workers)[1:], env=narrowed.environment(read_stop=FIRST)) as it:
        it.send(rows.ask())
        got = [it.receive(narrow.PATIENCE) for _ in range(3)]
        same(got, [rows.called("1.1"), error(7, -32000, "No reply"), None], "what came before is answered")
        same(ended(it.process, narrow.PATIENCE), (1, READ_END))


# The system's own limits, as docs/commands.md has them


@COMMANDS
def test_a_limit_of_a_files_size(command: str) -> None:
    """The system ends the program where nobody ignores its signal, and else the write fails."""
    wanted = (1, REPLIED[:100], WRITE)
    same(ran.run_into(100, words_of(command), GIVEN), wanted, "a signal that is ignored")
    limit = lambda: resource.setrlimit(resource.RLIMIT_FSIZE, (100, 100))
    with tempfile.TemporaryFile() as output:
        how: dict[str, Any] = {"input": GIVEN, "stdout": output, "stderr": subprocess.PIPE, "timeout": 60}
        ended = subprocess.run([ran.built(), *words_of(command)], check=False, preexec_fn=limit, **how)
        output.seek(0)
        same((ended.returncode, output.read(), ended.stderr), (-signal.SIGXFSZ, REPLIED[:100], b""), "a signal")


@COMMANDS
def test_a_small_stack(command: str) -> None:
    """The stack that the page names is enough, with contents that nest as deep as may be and deeper."""
    (found,) = re.findall(
        r"stack of (\d+) KB, as by `ulimit -s (\d+)`", " ".join(ran.text_of("docs", "commands.md").split())
    )
    size = int(found[0]) * 1024
    same(found[0], found[1], "the page's two numbers")
    deep = [
        f'{{"jsonrpc":"2.0","id":1,"method":"none","params":{"[" * it}{"]" * it}}}' for it in (100, 127, 128, 100_000)
    ]
    given = GIVEN + rows.frames(*deep, "[" + ",".join(deep[:2] * 20) + "]")
    small = ran.run(
        words_of(command), given, preexec_fn=lambda: resource.setrlimit(resource.RLIMIT_STACK, (size, size))
    )
    same(small, ran.run(words_of(command), given), f"a stack of {size} bytes")
    check(small[0] == 0 and len(small[1]) > len(REPLIED), f"all is answered: {small}")
