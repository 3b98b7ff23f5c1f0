"""What hosts are measured by, whose methods are their own code: loads in bulk and round trips, how often each asks for
memory for one small request, and what it holds for an open one."""
import sys
from typing import Dict, List, Tuple

from measures.contenders import Contender, limits
from measures.inputs import (
    KEPT,
    TEXTS,
    Entry,
    add,
    add_with_blanks,
    ask,
    ask_with_string_id,
    cancel,
    frame,
    frames,
    reply_to,
    request,
)
from measures.loads import FIRST, Load, Round, added, batches, bulk, cancelled, load, numbers, result, text_of
from measures.running import Run
from measures.serving import LONG_MESSAGES, Row
from support import refusals  # (it stands in checks/)

# Requests for memory are counted of the second of so many requests.
COUNTED = 1_000
# What is held is counted of so many open requests beside half as many.
HELD = 20_000


def confirm(number: int, param: bytes = b'"x"') -> bytes:
    """The call on behalf of a request. The first request makes none, so its key is one less than the request's id."""
    return b'{"id":%d,"jsonrpc":"2.0","method":"confirm","params":[%s]}' % (number - 1, param)


def reply(number: int, value: bytes = b"true") -> bytes:
    return reply_to(number - 1, value)


def requests(count: int) -> Load:
    return load([Round(frames(add, numbers(count)), count)], 1, [], [*map(added, numbers(count))])


def requests_with_blanks(count: int) -> Load:
    return bulk(count, add_with_blanks, added)


def withdrawal(number: int) -> bytes:
    return b'{"jsonrpc":"2.0","method":"$/cancelRequest","params":{"id":%d}}' % (number - 1)


def cancels(count: int) -> Load:
    """Each request is cancelled while its call waits."""
    rounds = [it for number in numbers(count) for it in (Round(frame(ask(number)), 1), Round(frame(cancel(number)), 2))]
    return load(
        rounds,
        2,
        [*map(confirm, numbers(count))],
        [it(number) for number in numbers(count) for it in (withdrawal, cancelled)],
    )


def open_calls(count: int) -> Load:
    """All requests at once; when all their calls are there, all replies, the last first. Each answer goes out at
    once."""
    asked = Round(frames(ask, numbers(count)), count)
    replied = Round(frames(reply, reversed(numbers(count))), count)
    return load([asked, replied], 2, [*map(confirm, numbers(count))], [*map(result, reversed(numbers(count)))])


def pings(count: int) -> Load:
    return load([Round(frame(add(it)), 1) for it in numbers(count)], 1, [], [*map(added, numbers(count))])


def calls_back(count: int) -> Load:
    rounds = [Round(frame(it), 1) for number in numbers(count) for it in (ask(number), reply(number))]
    return load(rounds, 2, [*map(confirm, numbers(count))], [*map(result, numbers(count))])


def long_param(length: int) -> Load:
    """One call back with a long param, which comes back in its reply."""
    text = text_of(length)
    rounds = [Round(frame(ask(FIRST, text)), 1), Round(frame(reply(FIRST, text)), 1)]
    return load(rounds, 2, [confirm(FIRST, text)], [result(FIRST, text)])


BULKS = (
    Row("requests", requests, 200_000, KEPT),
    Row("requests with blanks", requests_with_blanks, 200_000, KEPT),
    Row("batches of 100", batches, 200_000, KEPT),
    Row("open calls", open_calls, 20_000, KEPT),
)
TRIPS = (
    Row("a request", pings, 5_000, KEPT),
    Row("a call back", calls_back, 5_000, KEPT),
    Row("a cancel", cancels, 5_000, KEPT),
    Row("a param of 8 MB", long_param, 8_000_000, TEXTS),
    *(it._replace(why=TEXTS) for it in LONG_MESSAGES),
)
SMALL = {
    "a small request": add(1),
    "an unknown method": request(1),
    "a notification": b'{"jsonrpc":"2.0","method":"note"}',
}
OPEN: Dict[str, Entry] = {"one of open calls": ask, "one, string id": ask_with_string_id}
REQUESTED, BYTES = "requests for memory", "bytes held"


def counted(host: Contender, given: bytes) -> Tuple[int, int]:
    """The most bytes that a host holds, and how often it asks for memory."""
    status, most, *_, number = refusals.counted([*host.words], given)
    if status:
        sys.exit(f"bench/run: {host.label} ends with the status {status}")
    return most, number


def requests_for_memory(host: Contender, entry: bytes) -> float:
    """How often a host asks for memory for an entry, once it has taken many of them."""
    (_, few), (_, many) = (counted(host, frame(entry) * count) for count in (COUNTED, 2 * COUNTED))
    return (many - few) / COUNTED


def bytes_held(host: Contender, entry: Entry, most: int) -> float:
    """What one more open request takes, once there are many."""
    (few, _), (many, _) = (counted(host, frames(entry, range(1, count + 1))) for count in (most // 2, most))
    return (many - few) / (most - most // 2)


def show_memory(title: str, name: str, found: Dict[str, float], run: Run) -> None:
    for label, it in found.items():
        print(f"{name:20} {label:17} {it:>10.2f}", flush=True)
    run.figures.note(title, "each", name, found)


def memory_tables(hosts: List[Contender], run: Run) -> None:
    """(the limit keeps one block, and says nothing of how a host keeps its texts)"""
    print(f"{REQUESTED:20} {'program':17} {'of each':>10}")
    for name, small in SMALL.items():
        found = {it.label: requests_for_memory(it, small) for it in hosts if it not in limits()}
        show_memory(REQUESTED, name, found, run)
    print()
    print(f"{BYTES:20} {'program':17} {'of each':>10}")
    for name, entry in OPEN.items():
        most = max(2, HELD // run.small)
        show_memory(BYTES, name, {it.label: bytes_held(it, entry, most) for it in hosts}, run)
    run.figures.keep()
