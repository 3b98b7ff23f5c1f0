"""Inputs to play: entries, frames of them, and what each row of the table reads."""
from functools import partial
from typing import Callable, Iterable, Iterator, NamedTuple, Optional, Tuple

from measures.messages import LENGTH, MESSAGES, Message, parts_of

Entry = Callable[[int], bytes]
# Of arrays that a host answers with.
ITEM = b'{"detail":"def method(self, value: int) -> str","kind":2,"label":"method"}'


def frame(content: bytes) -> bytes:
    return b"Content-Length: %d\r\n\r\n%s" % (len(content), content)


def frames(entry: Entry, numbers: Iterable[int]) -> bytes:
    return b"".join(frame(entry(it)) for it in numbers)


def batch(entry: Entry, numbers: Iterable[int]) -> bytes:
    return frame(b"[" + b",".join(map(entry, numbers)) + b"]")


def request(number: int) -> bytes:
    return b'{"jsonrpc":"2.0","method":"nope","id":%d}' % number


def add(number: int) -> bytes:
    return b'{"jsonrpc":"2.0","method":"add","params":[%d,1],"id":%d}' % (number, number)


def add_with_blanks(number: int) -> bytes:
    return b'{"jsonrpc": "2.0", "method": "add", "params": [%d, 1], "id": %d}' % (number, number)


def hover(number: int) -> bytes:
    place = b'{"textDocument":{"uri":"file:///home/user/project/src/file.py"},"position":{"line":%d,"character":4}}'
    return b'{"jsonrpc":"2.0","id":%d,"method":"nope","params":%s}' % (number, place % (number % 1000))


def hover_with_blanks(number: int) -> bytes:
    return hover(number).replace(b',"', b', "').replace(b'":', b'": ')


def cancel(number: int) -> bytes:
    return b'{"jsonrpc":"2.0","method":"$/cancelRequest","params":{"id":%d}}' % number


def ask(number: int, param: bytes = b'"x"') -> bytes:
    return b'{"jsonrpc":"2.0","method":"ask","params":[%s],"id":%d}' % (param, number)


def reply(number: int, result: bytes = b"true") -> bytes:
    """The reply to the one call on behalf of the number-th call that came."""
    return b'{"jsonrpc":"2.0","id":"%d.1","result":%s}' % (number, result)


def reply_to(key: int, result: bytes = b"true") -> bytes:
    """The reply to a host's call with this key."""
    return b'{"jsonrpc":"2.0","id":%d,"result":%s}' % (key, result)


def with_string_id(entry: Entry) -> Entry:
    return lambda number: entry(number).replace(b'"id":%d}' % number, b'"id":"id-%d"}' % number)


add_with_string_id, ask_with_string_id = with_string_id(add), with_string_id(ask)


def hundreds(count: int) -> Iterator[range]:
    return (range(first, min(first + 100, count + 1)) for first in range(1, count + 1, 100))


def singles(count: int, entry: Entry = request) -> bytes:
    return frames(entry, range(1, count + 1))


def batches(count: int, entry: Entry = request) -> bytes:
    return b"".join(batch(entry, it) for it in hundreds(count))


def adds(count: int) -> bytes:
    return singles(count, add)


def batches_of_adds(count: int) -> bytes:
    return batches(count, add)


def adds_with_blanks(count: int) -> bytes:
    return singles(count, add_with_blanks)


def hovers(count: int) -> bytes:
    return singles(count, hover)


def hovers_with_blanks(count: int) -> bytes:
    return singles(count, hover_with_blanks)


def cancels(count: int) -> bytes:
    """Each request is cancelled while its call waits."""
    return b"".join(frame(ask(it)) + frame(cancel(it)) for it in range(1, count + 1))


def calls_back(count: int) -> bytes:
    """Each request is followed by the reply to its call."""
    return b"".join(frame(ask(it)) + frame(reply(it)) for it in range(1, count + 1))


def batches_of_calls_back(count: int) -> bytes:
    return b"".join(batch(ask, it) + batch(reply, it) for it in hundreds(count))


def calls_back_of_hosts(count: int) -> bytes:
    return b"".join(frame(ask(it)) + frame(reply_to(it)) for it in range(1, count + 1))


def open_calls(count: int, entry: Entry = ask) -> bytes:
    """All requests first, and then all replies to a host's calls on their behalf, the last first."""
    return frames(entry, range(1, count + 1)) + frames(reply_to, range(count, 0, -1))


def items_of(size: int) -> Tuple[int, int]:
    """How many long results so many bytes are, and how many items each has."""
    count, length = parts_of(size)
    return count, max(1, length // (len(ITEM) + 1))


def long_results(size: int) -> bytes:
    count, items = items_of(size)
    form = b'{"jsonrpc":"2.0","method":"give","params":[%d,%s],"id":%d}'
    return frames(lambda number: form % (items, ITEM, number), range(1, count + 1))


def bytes_of_results(size: int) -> int:
    count, items = items_of(size)
    return count * (items * (len(ITEM) + 1) + 1)


def long_messages(message: Message, size: int, method: str = "nope") -> bytes:
    count, length = parts_of(size)
    return b"".join(map(frame, message.entries(length, range(1, count + 1), method)))


def long_text(count: int) -> bytes:
    return frame(b'{"jsonrpc":"2.0","method":"nope","params":["' + b"a" * count + b'"],"id":1}')


class Input(NamedTuple):
    """A row of the table: how what it reads is made, its size, which counts requests, or bytes where a request has a
    length, and what ours does that the baseline doesn't, where it takes longer. Its bytes are those that it reads, but
    for those of results."""

    name: str
    make: Callable[[int], bytes]
    size: int
    why: str
    has_methods: bool = False
    has_calls: bool = False  # the other side is called, by ids that are other ones in a host
    length: int = 0
    results: Optional[Callable[[int], int]] = None

    def requests(self, size: int) -> int:
        return max(1, size // self.length) if self.length else size

    def bytes_of(self, size: int, given: bytes) -> int:
        return self.results(size) if self.results else len(given)


DESK = "each request has a place at the desk and a stage in the session, and its call is shared by both"
COPIED = "a content is copied out of the pieces that were read, and its strings out of it"
STEPS = "a method is steps of a table, run by a handler that is parked, turned and taken back; the baseline calls a function"

VALUES = "each value of a message is read, checked and kept by itself; the baseline keeps them in one tree"
PASSED = "a content is copied out of the pieces that were read, and its bytes are checked one after another"
# Of hosts.
KEPT = "what came and what is said are texts of their own, and each call has a place until it is answered"
TEXTS = (
    "what came and what is said are texts of their own, each read and written compactly; the baseline's are one value"
)

HOVERS = (
    Input("hovers", hovers, 100_000, DESK),
    Input("hovers with blanks", hovers_with_blanks, 100_000, DESK),
)
LONG = tuple(Input(it.name, partial(long_messages, it), 8 * LENGTH, PASSED, length=LENGTH) for it in MESSAGES)
# To a method that there is, and that answers that these params are none for it.
KNOWN = tuple(
    Input(f"{it.name}, known", partial(long_messages, it, method="add"), 8 * LENGTH, VALUES, True, length=LENGTH)
    for it in MESSAGES[:2]
)
ADDS = (
    Input("adds", adds, 200_000, STEPS, has_methods=True),
    Input("adds with blanks", adds_with_blanks, 200_000, STEPS, has_methods=True),
)
ADDS_IN_BATCHES = Input("adds in batches", batches_of_adds, 200_000, STEPS, has_methods=True)
CANCELS = Input("cancels", cancels, 100_000, STEPS, has_methods=True, has_calls=True)
INPUTS: Tuple[Input, ...] = (
    Input("single requests", singles, 200_000, DESK),
    Input("batches of 100", batches, 200_000, DESK),
    *HOVERS,
    Input("one param of 8 MB", long_text, 8_000_000, COPIED, length=8_000_000),
    *LONG,
    *KNOWN,
    *ADDS,
    ADDS_IN_BATCHES,
    Input("calls back", calls_back, 100_000, STEPS, has_methods=True, has_calls=True),
    Input("the same in batches", batches_of_calls_back, 100_000, STEPS, has_methods=True, has_calls=True),
    CANCELS,
)
# What hosts answer too, as a `play` does; and what they alone do, since there the ids of calls are keys.
HOSTED: Tuple[Input, ...] = (
    *(it._replace(why=TEXTS if it.length else KEPT) for it in (*HOVERS, *LONG, *ADDS, ADDS_IN_BATCHES, CANCELS)),
    Input("adds, string ids", partial(singles, entry=add_with_string_id), 200_000, KEPT),
    Input("calls back", calls_back_of_hosts, 100_000, KEPT),
    Input("open calls", open_calls, 100_000, KEPT),
    Input("open, string ids", partial(open_calls, entry=ask_with_string_id), 100_000, KEPT),
    Input("long results", long_results, 8 * LENGTH, TEXTS, length=LENGTH, results=bytes_of_results),
)

# Each method, replied to with a result, an error and not at all, in a batch and alone, and cancelled: it is compared,
# and not measured.
EACH_METHOD = b"".join(
    map(
        frame,
        [
            b'{"jsonrpc":"2.0","method":"note","params":["x"]}',
            b'{"jsonrpc":"2.0","method":"note","id":1}',
            b'[{"jsonrpc":"2.0","method":"add","params":[2,3],"id":2},'
            b'{"jsonrpc":"2.0","method":"add","params":[2,"3"],"id":3}]',
            b'[{"jsonrpc":"2.0","method":"two","id":4},{"jsonrpc":"2.0","method":"keep","id":5},'
            b'{"jsonrpc":"2.0","method":"gate"},5]',
            b'[{"jsonrpc":"2.0","id":"5.2","result":"B"},{"jsonrpc":"2.0","id":"5.1","result":"A"}]',
            b'{"jsonrpc":"2.0","id":"6.1","error":{"code":5,"message":"x","data":[1]}}',
            b'{"jsonrpc":"2.0","id":"7.1","result":true}',
            b'{"jsonrpc":"2.0","method":"gate","id":6}',
            b'{"jsonrpc":"2.0","id":"8.1","result":true}',
            b'{"jsonrpc":"2.0","method":"gate","id":7}',
            b'{"jsonrpc":"2.0","id":"9.1","result":1}',
            b'{"jsonrpc":"2.0","method":"two","id":"a"}',
            b'{"jsonrpc":"2.0","method":"two","id":"b"}',
            b'{"jsonrpc":"2.0","id":"10.1","result":1}',
            b'{"jsonrpc":"2.0","method":"$/cancelRequest","params":{"id":"a"}}',
            b'{"jsonrpc":"2.0","id":"10.2","result":1}',
            b'{"jsonrpc":"2.0","method":"ask","params":["x"],"id":8}',
            b'{"jsonrpc":"2.0","method":"ask","params":["x"],"id":9}',
            b'{"jsonrpc":"2.0","id":"14.1","result":1.5}',
            b"{",
        ],
    )
)
