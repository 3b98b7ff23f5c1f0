"""Runs the server as its clients do: rows by 1 to 64 workers, messages that go back and forth while the input is open,
devices that fail at each byte, a client that doesn't read, and nothing to do. Reads and writes are counted, so that a
program which goes byte by byte is seen."""
import contextlib
import os
import select
import shutil
import signal
import subprocess
import threading
import time
from typing import Callable

import pytest

from support import ran, rows
from support.client import PATIENCE, Client, call, cancel, ended, error, notification, request, result
from support.expecting import check, same
from support.naming import named
from support.resting import rested
from support.written import contents_of

ASK, ASKED = request(7, "ask", ["x"]), call("1.1", "confirm", ["x"])
REPLY, YES = result("1.1", True), result(7, True)
NO_REPLY, CANCELLED = error(7, -32000, "No reply"), error(7, -32800, "Request cancelled")
WITHDRAWN = notification("$/cancelRequest", {"id": "1.1"})
UNKNOWN = request(1, "nope")
CALLED_BACK = rows.frames(ASKED, YES)
WRITE = b"failed: Write\n"


def table(text: str = rows.METHODS) -> list[str]:
    return ["--table", rows.file_of(text)]


def expect(words: list[str], given: bytes, outputs: list[bytes], errors: bytes = b"", status: int = 0) -> None:
    """The server's whole output for this input is one of these."""
    got = ran.run(["serve", *words], given)
    wanted = got[1] if got[1] in outputs else outputs[0]
    same(got, (status, wanted, errors), f"{words}; there are {len(outputs)} right outputs, of which this is the first")


# Whole inputs


@pytest.mark.parametrize("workers", ("1", "4"))
@pytest.mark.parametrize("row", named(rows.ROWS))
def test_row(row: tuple[str, bytes, bytes, str], workers: str) -> None:
    _, given, output, end = row
    status, errors = rows.ended(end)
    expect(["--workers", workers], given, [output], errors, status)


SUMS = rows.frames(*(request(it, "add", [it, 1]) for it in range(1, 1001)))
# name, input, and the outputs that it may have (the handler may be parked, out or not turned yet as a cancel comes)
CALLS = [
    ("a call back", rows.frames(ASK, REPLY), [CALLED_BACK]),
    ("a call without a reply", rows.frames(ASK), [rows.frames(ASKED, NO_REPLY)]),
    (
        "a cancel",
        rows.frames(ASK, cancel(7), REPLY),
        [rows.frames(*it) for it in ([ASKED, WITHDRAWN, CANCELLED], [ASKED, CANCELLED], [CANCELLED])],
    ),
    (
        "two calls at once",
        rows.frames(request(1, "two"), f'[{result("1.2", "B")},{result("1.1", "A")}]'),
        [rows.frames(f'[{call("1.1", "a")},{call("1.2", "b")}]', result(1, ["A", "B"]))],
    ),
    ("1,000 sums in order", SUMS, [rows.frames(*(result(it, it + 1) for it in range(1, 1001)))]),
]


@pytest.mark.parametrize("workers", ("1", "3", "64"))
@pytest.mark.parametrize("row", named(CALLS))
def test_methods(row: tuple[str, bytes, list[bytes]], workers: str) -> None:
    _, given, outputs = row
    expect([*table(), "--workers", workers], given, outputs)


def test_each() -> None:
    asked = f'[{call("1.1", "f", [1])},{call("1.2", "f", [2])}]'
    given = rows.frames(request(1, "all", [1, 2]), f'[{result("1.2", 20)},{result("1.1", 10)}]')
    expect([*table(rows.EACH), "--workers", "3"], given, [rows.frames(asked, result(1, [10, 20]))])


def test_opening_and_no_input() -> None:
    expect(table(rows.OPENING), b"", [rows.frames(call("0.1", "hello"))])


# While the input is open


def test_opening_goes_on_with_its_reply() -> None:
    with Client([*table(rows.OPENING), "--workers", "2"]) as it:
        same(it.receive(), call("0.1", "hello"), "the opening calls before anything came")
        it.send(result("0.1", True))
        same(it.receive(), notification("ready", [True]), "and goes on with the reply")
        it.close_input()
        same(it.end(), ([], 0, b""), "and ends")


def test_conversation() -> None:
    with Client([*table(), "--workers", "2"]) as it:
        it.send(ASK)
        same(it.receive(), ASKED, "a call goes out while the input is open")
        it.send(REPLY)
        same(it.receive(), YES, "its answer too")
        it.send(UNKNOWN)
        same(it.receive(), rows.NOT_FOUND, "and the next")
        it.send(request(7, "ask", ["x"]))
        same(it.receive(), call("3.1", "confirm", ["x"]), "a second call")
        it.send(cancel(7))
        same(it.receive(), notification("$/cancelRequest", {"id": "3.1"}), "is withdrawn")
        same(it.receive(), CANCELLED, "as its request is cancelled")
        it.close_input()
        same(it.end(), ([], 0, b""), "the server ends with its input")


@pytest.mark.parametrize("workers", ("1", "2", "4", "64"))
def test_what_comes_while_all_sleep_wakes_whom_it_needs(workers: str) -> None:
    """A request, a reply, some requests at once, and the end, each once all threads of the server sleep."""
    steps = [
        ([ASK], [call("2.1", "confirm", ["x"])]),
        ([result("2.1", True)], [YES]),
        ([request(it, "add", [it, 1]) for it in range(1, 4)], [result(it, it + 1) for it in range(1, 4)]),
    ]
    with Client([*table(), "--workers", workers]) as it:
        it.send(UNKNOWN)
        same(it.receive(), rows.NOT_FOUND, "it has begun")
        for sent, wanted in steps:
            rested(it.process.pid, lambda: None)
            it.send(*sent)
            same([it.receive() for _ in wanted], wanted, f"{sent}")
        rested(it.process.pid, lambda: None)
        it.close_input()
        same(it.end(), ([], 0, b""), "its end")


def test_client_that_reads_late_gets_all() -> None:
    """Where nobody reads, the reader sleeps as well as the others; as the client reads at last, it goes on."""
    given, wanted = rows.frames(UNKNOWN) * 40_000, rows.frames(rows.NOT_FOUND) * 40_000
    process = subprocess.Popen([ran.BUILT, "serve"], stdin=subprocess.PIPE, stdout=subprocess.PIPE)

    def send() -> None:
        with contextlib.suppress(BrokenPipeError), ran.pipe(process.stdin) as stream:
            stream.write(given)

    def taken() -> int:
        return int(ran.text_of("/proc", str(process.pid), "io").split()[1])

    sender, ends = threading.Thread(target=send), threading.Timer(2 * PATIENCE, process.kill)
    sender.start()
    try:
        before, now = -1, rested(process.pid, taken)
        while now != before:
            before, now = now, rested(process.pid, taken)
        check(sender.is_alive(), "all was taken before anything was read")
        ends.start()
        got = ran.pipe(process.stdout).read()
        same((process.wait(), len(got), got == wanted), (0, len(wanted), True))
    finally:
        ends.cancel()
        process.kill()
        sender.join()
        ran.pipe(process.stdout).close()
        process.wait()


def test_single_bytes_and_an_end_inside_a_frame() -> None:
    with Client(table()) as it:
        for byte in rows.frames(ASK):
            it.send_bytes(bytes([byte]))
        same(it.receive(), ASKED, "a request in single bytes")
        it.send_bytes(b"Content-Length: 40\r\n\r\n{")
        it.close_input()
        same(it.end(), ([NO_REPLY], 1, b"input ended: Truncated\n"), "an input that ends inside a frame")


def line_of_errors(process: "subprocess.Popen[bytes]") -> bytes:
    """What a server tells on standard error, up to the end of a line. (One that told it only once its input is closed
    would tell nothing here.)"""
    file = ran.pipe(process.stderr).fileno()
    end, line = time.monotonic() + PATIENCE, b""
    while not line.endswith(b"\n") and select.select([file], [], [], max(0.0, end - time.monotonic()))[0]:
        line += os.read(file, 1)
    return line


# name, options, what the client sends behind a first request, and the line that it is told
ENDS = [
    ("a broken header", [], b"Content-Length 2\r\n\r\n{}", b"input ended: BadHead\n"),
    ("a length that is none", [], b"Content-Length: x\r\n\r\n", b"input ended: BadLength\n"),
    ("a content over the limit", ["--content", "100"], b"Content-Length: 101\r\n\r\n", b"input ended: TooLarge\n"),
    ("a call over the limit", ["--calls", "1"], rows.frames(UNKNOWN), b"input ended: Full\n"),
]


@pytest.mark.parametrize("workers", ("1", "4"))
@pytest.mark.parametrize("row", named(ENDS))
def test_end_is_told_while_the_input_is_open(row: tuple[str, list[str], bytes, bytes], workers: str) -> None:
    """A client that goes on reads the line, and has its answers before; the server ends as it closes."""
    _, options, given, line = row
    with Client(["--workers", workers, *options]) as it:
        it.send(UNKNOWN)
        it.send_bytes(given)
        same(line_of_errors(it.process), line, "the line")
        same(it.receive(), rows.NOT_FOUND, "the answer to what came before")
        same(it.process.poll(), None, "it waits for its reader while the input is open")
        it.close_input()
        same(it.end(), ([], 1, b""), "and tells no more")


def test_output_that_is_closed_is_told_before_a_broken_header() -> None:
    with subprocess.Popen(
        [ran.BUILT, "serve"], stdin=subprocess.PIPE, stdout=subprocess.PIPE, stderr=subprocess.PIPE
    ) as process:
        ran.pipe(process.stdout).close()
        ran.pipe(process.stdin).write(rows.frames(UNKNOWN) + b"Content-Length 2\r\n\r\n{}")
        ran.pipe(process.stdin).flush()
        same(line_of_errors(process), WRITE, "while the input is open")
        ran.pipe(process.stdin).close()
        same(ended(process), (1, b""))


# Refused before anything is read


@pytest.mark.parametrize("word", ("0", "65", "x"))
def test_refused_number_of_workers(word: str) -> None:
    with Client(["--workers", word]) as it:
        left, status, errors = it.end()
        check((left, status) == ([], 2) and b"--workers" in errors, f"{left} {status} {errors!r}")


def test_table_that_isnt_there() -> None:
    expect(["--table", "/nowhere"], rows.frames(UNKNOWN), [b""], b"table: cannot be read\n", 2)


# Devices that fail


@pytest.mark.parametrize("room", range(len(CALLED_BACK) + 1))
def test_output_that_takes_so_many_bytes(room: int) -> None:
    got = ran.run_into(room, ["serve", *table(), "--workers", "2"], rows.frames(ASK, REPLY))
    same(got, (0, CALLED_BACK, b"") if room == len(CALLED_BACK) else (1, CALLED_BACK[:room], WRITE))


def test_input_that_fails() -> None:
    same(ran.run_on_broken(["serve"], rows.frames(UNKNOWN)), (1, rows.frames(rows.NOT_FOUND), b"input ended: Read\n"))


def test_closed_output() -> None:
    with subprocess.Popen(
        [ran.BUILT, "serve"], stdin=subprocess.PIPE, stdout=subprocess.PIPE, stderr=subprocess.PIPE
    ) as process:
        ran.pipe(process.stdout).close()
        ran.pipe(process.stdin).write(rows.frames(UNKNOWN))
        ran.pipe(process.stdin).flush()
        time.sleep(0.2)
        # (the server waits for the read that its reader is in the middle of)
        same(process.poll(), None, "while the input is open")
        ran.pipe(process.stdin).close()
        same(ended(process), (1, WRITE))


def test_interrupt() -> None:
    # (what a shell starts behind an & ignores interrupts, and so does what that starts)
    with Client(["--workers", "8"], preexec_fn=lambda: signal.signal(signal.SIGINT, signal.SIG_DFL)) as it:
        it.send(UNKNOWN)
        it.receive()
        it.process.send_signal(signal.SIGINT)
        same(ended(it.process), (-signal.SIGINT, b""))


# What it costs


def resident(process: "subprocess.Popen[bytes]") -> int:
    with open(f"/proc/{process.pid}/statm", encoding="ascii") as it:
        return int(it.read().split()[1]) * os.sysconf("SC_PAGE_SIZE")


def taken_of(process: "subprocess.Popen[bytes]", most: int) -> tuple[int, int]:
    """How many bytes of those that are offered a server takes, until it takes none for two seconds; and the most memory
    that it had."""
    offered = rows.frames(*[UNKNOWN] * 1000)
    taken, left, still, sizes = 0, b"", time.monotonic(), list[tuple[float, int]]()
    while taken < most and time.monotonic() - still < 2:
        left = left or offered
        try:
            went = os.write(ran.pipe(process.stdin).fileno(), left)
            taken, left, still = taken + went, left[went:], time.monotonic()
        except BlockingIOError:
            time.sleep(0.01)
        if not sizes or time.monotonic() - sizes[-1][0] > 0.2:
            sizes.append((time.monotonic(), resident(process)))
    return taken, max(size for _, size in sizes)


@pytest.mark.alone
def test_client_that_doesnt_read_holds_the_server_back() -> None:
    """It takes no more, and its memory stays."""
    with subprocess.Popen(
        [ran.BUILT, "serve"], stdin=subprocess.PIPE, stdout=subprocess.PIPE, stderr=subprocess.PIPE
    ) as process:
        os.set_blocking(ran.pipe(process.stdin).fileno(), False)
        taken, most = taken_of(process, 100_000_000)
        print(
            f"of 100 MB that were offered to a server whose output nobody reads it took {taken:,} bytes; at most {most / 1e6:.1f} MB were resident"
        )
        check(taken < 8_000_000 and most < 32_000_000, f"{taken:,} taken, {most:,} resident")
        ran.pipe(process.stdout).close()
        os.set_blocking(ran.pipe(process.stdin).fileno(), True)
        ran.pipe(process.stdin).close()
        same(ended(process), (1, WRITE), "one that then closes both ends ends it")


def peak_of(requests: int) -> int:
    """The most memory of a server that answers so many requests, each in its turn."""
    with Client([*table(), "--workers", "2"]) as it:
        for first in range(1, requests + 1, 100):
            numbers = range(first, first + 100)
            it.send(*(request(number, "add", [number, 1]) for number in numbers))
            same(
                [it.receive() for _ in numbers],
                [result(number, number + 1) for number in numbers],
                f"requests from {first} on",
            )
        return it.peak()


@pytest.mark.alone
def test_finished_requests_leave_no_memory_behind() -> None:
    few, many = peak_of(1_000), peak_of(200_000)
    print(f"the most memory: {few / 1e6:.2f} MB for 1,000 requests, {many / 1e6:.2f} MB for 200,000")
    check(many - few < 4_000_000, f"{few:,} and {many:,} bytes")


TRACE = "strace -f -qq -e trace=read,write -e signal=none -o".split()


def is_traced() -> bool:
    """Whether system calls can be counted here."""
    is_there = shutil.which("strace") is not None
    return (
        is_there
        and subprocess.run(["strace", "-o", os.devnull, "true"], check=False, capture_output=True).returncode == 0
    )


@pytest.mark.parametrize("words, piece", ((["play"], 65_536), (["serve"], 16_384)), ids=("play", "serve"))
def test_bytes_go_in_large_pieces(words: list[str], piece: int) -> None:
    """A call of read for each piece of a file and one for its end, and at most one of write for each content."""
    if not is_traced():
        pytest.skip("what needs strace, which isn't there or may not trace: it counts system calls")
    texts = [str(it) * 1_000_000 for it in range(1, 5)]
    given = rows.frames(*(request(it, "ask", [text]) for it, text in enumerate(texts, 1)))
    sent = [call(f"{it}.1", "confirm", [text]) for it, text in enumerate(texts, 1)]
    calls = ran.file_of("calls", b"")
    with open(ran.file_of("given", given), "rb") as file:
        traced = [*TRACE, calls, ran.BUILT, *words, *table()]
        ended_so = subprocess.run(traced, stdin=file, capture_output=True, timeout=120, check=False)
    same(ended_so.returncode, 0)
    found = sorted(contents_of(ended_so.stdout))
    same(found, sorted([*sent, *(error(it, -32000, "No reply") for it in range(1, 5))]), "all calls go out")
    told = ran.text_of(calls)
    reads, writes = told.count("read(0,"), told.count("write(1,")
    print(f"{words[0]}: {reads} reads and {writes} writes for {len(given):,} bytes")
    check(reads <= len(given) // piece + 2 and writes <= len(found), f"{reads} reads, {writes} writes")


MANY, ROUND = 20_000, 20


@pytest.mark.parametrize("workers", ("1", "3", "64"))
def test_many_requests_go_in_a_round(workers: str) -> None:
    """What is sent at once is taken, worked on and answered in rounds of many requests, and not one by one: a write has
    20 answers or more."""
    if not is_traced():
        pytest.skip("what needs strace, which isn't there or may not trace: it counts system calls")
    given = rows.frames(*(request(it, "add", [it, 1]) for it in range(1, MANY + 1)))
    calls = ran.file_of("calls", b"")
    with open(ran.file_of("given", given), "rb") as file:
        traced = [*TRACE, calls, ran.BUILT, "serve", *table(), "--workers", workers]
        ended_so = subprocess.run(traced, stdin=file, capture_output=True, timeout=120, check=False)
    same(ended_so.returncode, 0)
    same(ended_so.stdout, rows.frames(*(result(it, it + 1) for it in range(1, MANY + 1))), "all answers, in order")
    writes = ran.text_of(calls).count("write(1,")
    print(f"{workers} workers: {writes} writes for {MANY:,} requests")
    check(writes <= MANY // ROUND, f"{writes} writes")


IDLE, PINGS, TURNS = 3, 200, 10
# The most processor time of a request behind a pause, in seconds: a thread that has slept looks only a few times before the
# next sleep.
BEHIND_A_PAUSE = 350e-6


def least(measure: Callable[[], float], bound: float) -> float:
    """The least of some turns, up to one that is within the bound: a machine whose processors are taken away for a while
    makes turns longer, and a server that does too much takes too long in each. Such a while may be longer than three
    turns, so these lie ever further apart: more than half a minute if all are needed."""
    found = measure()
    for pause in range(TURNS - 1):
        if found < bound:
            break
        time.sleep(pause)
        found = min(found, measure())
    return found


@pytest.mark.alone
@pytest.mark.parametrize("workers", ("1", "4", "64"))
def test_nothing_to_do_costs_nothing(workers: str) -> None:
    """And a request after a pause is answered at once."""
    with Client([*table(), "--workers", workers]) as it:
        pauses: list[float] = []

        def idle() -> float:
            """The part of a processor that it takes with nothing to do."""
            time.sleep(0.3)
            before = it.seconds_used()
            time.sleep(IDLE)
            return (it.seconds_used() - before) / IDLE

        def pinged() -> float:
            """The processor seconds of each request behind a pause."""
            pauses.clear()
            before = it.seconds_used()
            for number in range(PINGS):
                time.sleep(0.005)
                start = time.monotonic()
                it.send(request(number, "add", [number, 1]))
                same(it.receive(), result(number, number + 1), f"ping {number}")
                pauses.append((time.monotonic() - start) * 1000)
            return (it.seconds_used() - before) / PINGS

        it.send(UNKNOWN)
        it.receive()
        used = least(idle, 0.01)
        check(used < 0.01, f"{used:.1%} of a processor")
        bound = BEHIND_A_PAUSE if workers != "64" else float("inf")
        each = least(pinged, bound)
        check(each < bound, f"{each * 1e6:.0f} us of a processor for a request behind a pause")
        pauses.sort()
        median, late = pauses[PINGS // 2], pauses[PINGS * 99 // 100]
        print(
            f"{workers} workers: {used:.2%} of a processor with nothing to do; after a pause {each * 1e6:.0f} us of it, and a median of {median:.3f} ms, the 99th of 100 {late:.3f} ms"
        )
        it.close_input()
        same(it.end(), ([], 0, b""), "its end")
