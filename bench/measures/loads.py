"""What is played with a server: rounds, each of which sends something and waits for contents; and what has to come.

The first request of each load isn't timed, so that the server's start isn't. So those that are timed have the numbers
from FIRST on; the id of each is its number, and its call is therefore that of the same number."""
from typing import List, NamedTuple

from measures.inputs import Entry, add, add_with_blanks, ask, batch, cancel, frame, frames, hundreds, reply, request
from measures.messages import Message, parts_of

FIRST = 2


class Round(NamedTuple):
    """Bytes that are sent at once, after a pause of so many milliseconds, and how many contents are then waited for."""

    sent: bytes
    contents: int
    pause: int = 0


class Load(NamedTuple):
    """Rounds, so many of which make up a trip, and what has to come: calls in any order, answers in theirs."""

    rounds: List[Round]
    rounds_of_trip: int
    calls: List[bytes]
    answers: List[bytes]


def not_found(number: int) -> bytes:
    return b'{"error":{"code":-32601,"message":"Method not found"},"id":%d,"jsonrpc":"2.0"}' % number


def result(number: int, value: bytes = b"true") -> bytes:
    return b'{"id":%d,"jsonrpc":"2.0","result":%s}' % (number, value)


def added(number: int) -> bytes:
    return result(number, b"%d" % (number + 1))


def confirm(number: int, param: bytes = b'"x"') -> bytes:
    return b'{"id":"%d.1","jsonrpc":"2.0","method":"confirm","params":[%s]}' % (number, param)


def cancelled(number: int) -> bytes:
    return b'{"error":{"code":-32800,"message":"Request cancelled"},"id":%d,"jsonrpc":"2.0"}' % number


def withdrawal(number: int) -> bytes:
    """Of the call that the call with this number has made."""
    return b'{"jsonrpc":"2.0","method":"$/cancelRequest","params":{"id":"%d.1"}}' % number


def numbers(count: int) -> range:
    return range(FIRST, FIRST + count)


def load(rounds: List[Round], rounds_of_trip: int, calls: List[bytes], answers: List[bytes]) -> Load:
    """A load behind its first request."""
    return Load([Round(frame(request(1)), 1), *rounds], rounds_of_trip, calls, [not_found(1), *answers])


def bulk(count: int, entry: Entry, answer: Entry) -> Load:
    """All requests at once."""
    return load([Round(frames(entry, numbers(count)), count)], 1, [], [*map(answer, numbers(count))])


def unknown(count: int) -> Load:
    return bulk(count, request, not_found)


def adds(count: int) -> Load:
    return bulk(count, add, added)


def adds_with_blanks(count: int) -> Load:
    return bulk(count, add_with_blanks, added)


def array(entry: Entry, some: range) -> bytes:
    return b"[" + b",".join(map(entry, some)) + b"]"


def batches(count: int) -> Load:
    """All requests at once, in batches of 100."""
    hundred = [range(it.start + FIRST - 1, it.stop + FIRST - 1) for it in hundreds(count)]
    sent = b"".join(batch(add, it) for it in hundred)
    return load([Round(sent, len(hundred))], 1, [], [array(added, it) for it in hundred])


def open_calls(count: int) -> Load:
    """All requests at once; when all their calls are there, all replies, the last first."""
    asked = Round(frames(ask, numbers(count)), count)
    replied = Round(frames(reply, reversed(numbers(count))), count)
    return load([asked, replied], 2, [*map(confirm, numbers(count))], [*map(result, numbers(count))])


def pings(count: int, pause: int = 0) -> Load:
    """Each request is sent once the one before it is answered."""
    return load([Round(frame(add(it)), 1, pause) for it in numbers(count)], 1, [], [*map(added, numbers(count))])


def late_pings(count: int) -> Load:
    return pings(count, pause=5)


def calls_back(count: int) -> Load:
    """Each request's call is replied to, and its answer waited for."""
    rounds = [Round(frame(it), 1) for number in numbers(count) for it in (ask(number), reply(number))]
    return load(rounds, 2, [*map(confirm, numbers(count))], [*map(result, numbers(count))])


def cancels(count: int) -> Load:
    """Each request is cancelled while its call waits, and the call is withdrawn. A cancel is a call too, so the calls that
    came have every other number."""
    rounds = [it for number in numbers(count) for it in (Round(frame(ask(number)), 1), Round(frame(cancel(number)), 2))]
    calls = [2 * it - FIRST for it in numbers(count)]
    due = [it for number, call in zip(numbers(count), calls) for it in (withdrawal(call), cancelled(number))]
    return load(rounds, 2, [*map(confirm, calls)], due)


def messages(message: Message, size: int) -> Load:
    """So many bytes of long messages, each sent once the one before is answered."""
    count, length = parts_of(size)
    rounds = [Round(frame(it), 1) for it in message.entries(length, numbers(count))]
    return load(rounds, 1, [], [*map(not_found, numbers(count))])


def text_of(length: int) -> bytes:
    return b'"%s"' % (b"a" * length)


def long_reply(length: int) -> Load:
    """One call back, whose reply is long."""
    text = text_of(length)
    rounds = [Round(frame(ask(FIRST)), 1), Round(frame(reply(FIRST, text)), 1)]
    return load(rounds, 2, [confirm(FIRST)], [result(FIRST, text)])


def long_unknown(length: int) -> Load:
    """One request with a long param to a method that there isn't."""
    request_of = b'{"jsonrpc":"2.0","method":"nope","params":[%s],"id":%d}' % (text_of(length), FIRST)
    return load([Round(frame(request_of), 1)], 1, [], [not_found(FIRST)])


def long_param(length: int) -> Load:
    """One call back, whose request has a long param, which is handed to the call and comes back in its reply."""
    text = text_of(length)
    rounds = [Round(frame(ask(FIRST, text)), 1), Round(frame(reply(FIRST, text)), 1)]
    return load(rounds, 2, [confirm(FIRST, text)], [result(FIRST, text)])
