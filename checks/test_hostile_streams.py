"""Hostile streams, by a peer with methods: heads and contents at their limits, cut at each place; thousands of replies
that nobody waits for; batches of 10,000 requests, and one of 200,000; values as deep as they may be; ids of up to 1 MB;
and cancels by ids of every kind. They are played, eagerly and lazily, and served by two workers."""
import random
import zlib
from functools import partial

import pytest

from support import narrow, needing, ran, rows
from support.expecting import check, same
from support.naming import named
from support.written import contents_of

# Inputs of at most so many bytes are cut at each place; longer ones about their ends.
SHORT = 300
MANY = 10_000
PAIRS = 300
DEEP = "[" * 126 + "]" * 126
SUM = '{"jsonrpc":"2.0","method":"add","params":[%d,1],"id":%d}'

Stream = tuple[str, bytes, bytes, str]  # name, input, output, how the input ends ("" where it ends clean)
BATCH = (
    "a batch with a sum",
    rows.frames(rows.MIXED),
    rows.frames(rows.batch(rows.answered("5", 1), rows.INVALID, rows.NOT_FOUND_X)),
    "",
)
CALL = (
    "a call and its reply",
    rows.frames(rows.ask(), rows.replied("1.1")),
    rows.frames(rows.called("1.1"), rows.answered("true")),
    "",
)
NOTICES = ("a batch of notifications", rows.frames(rows.NOTICES), b"", "")
DEEP_REPLY = (
    "a deep reply in a batch",
    rows.frames(rows.batch(rows.ask()), rows.replied("1.1", DEEP)),
    rows.frames(rows.called("1.1"), rows.batch(rows.answered(DEEP))),
    "",
)
STREAMS = [*(it for it in rows.ROWS if b'"add"' not in it[1] or b"1.5" in it[1]), BATCH, NOTICES, CALL, DEEP_REPLY]
# Those that are cut at two places at once.
NAMED = ("an unknown method", "a batch with a sum", "a call and its reply")


def table() -> list[str]:
    return ["--table", rows.file_of(rows.METHODS)]


def play(*words: str) -> list[str]:
    return ["play", *table(), *words]


def serve() -> list[str]:
    return ["serve", *table(), "--workers", "2"]


def expect(words: list[str], given: bytes, output: bytes, end: str = "") -> None:
    status, errors = rows.ended(end)
    same(ran.run(words, given), (status, output, errors), f"{words[0]} {words[3:]}")


def by_all(given: bytes, output: bytes, lazily: bytes | None = None) -> None:
    """An input, played eagerly and lazily and with the last first, and served."""
    for words in ((), ("--last",), ("--piece", "1000")):
        expect(play(*words), given, output)
    expect(play("--lazy"), given, output if lazily is None else lazily)
    expect(serve(), given, output)


# Cuts


def places(size: int) -> list[int]:
    """Where an input of so many bytes is cut."""
    if size <= SHORT:
        return list(range(1, size))
    ends = (*range(1, 40), *range(4_086, 4_100), *range(size - 50, size))
    return sorted({it for it in ends if 0 < it < size})


@pytest.mark.parametrize("row", named(STREAMS))
def test_played_in_pieces(row: Stream) -> None:
    """Pieces of each size, eagerly and lazily."""
    _, given, output, end = row
    for place in places(len(given)):
        for words in ((), ("--lazy",)):
            expect(play("--piece", str(place), *words), given, output, end)


def served_cut(row: Stream, cuts: list[str]) -> None:
    """A server whose reads are cut at these places."""
    needing.tool("cc", narrow.WHY)
    _, given, output, end = row
    status, errors = rows.ended(end)
    narrowed = narrow.Narrowed()
    for it in cuts:
        same(narrowed.run(serve(), given, read_cuts=it), (status, output, errors), f"served, cut at {it}")


@pytest.mark.parametrize("row", named(STREAMS))
def test_served_in_two_reads(row: Stream) -> None:
    served_cut(row, [str(it) for it in places(len(row[1]))])


@pytest.mark.parametrize("row", named(it for it in STREAMS if it[0] in NAMED))
def test_served_in_three_reads(row: Stream) -> None:
    """Cut at pairs of places at random. (Each pair is played by test_played_rows.py.)"""
    chance = random.Random(zlib.crc32(row[0].encode()))
    pairs = [sorted(chance.sample(range(1, len(row[1])), 2)) for _ in range(PAIRS)]
    served_cut(row, [f"{first},{second}" for first, second in pairs])


# Replies that come too late, and replies to calls that nobody made


def test_second_replies() -> None:
    given = rows.frames(rows.ask(), rows.replied("1.1")) + rows.frames(rows.replied("1.1", "false")) * MANY
    by_all(given, rows.frames(rows.called("1.1"), rows.answered("true")))


def test_replies_to_no_call() -> None:
    given = rows.frames(rows.ask()) + rows.frames(rows.replied("1.2"), rows.replied("2.1")) * (MANY // 2)
    by_all(given, rows.frames(rows.called("1.1"), rows.NO_REPLY))


def test_replies_with_ids_that_no_call_has() -> None:
    given = (
        rows.frames(rows.ask())
        + rows.frames(*(rows.replied(key) for key in ("1.0", "1.1025", "1000001.1", "01.1", "1", "", "1.1.1"))) * 1_000
    )
    by_all(given, rows.frames(rows.called("1.1"), rows.NO_REPLY))


def test_20_MB_of_replies_to_no_call() -> None:
    large = rows.replied("1.2", '"' + "a" * 1_000_000 + '"')
    given = rows.frames(rows.ask(), *[large] * 20, rows.replied("1.1"))
    by_all(given, rows.frames(rows.called("1.1"), rows.answered("true")))


# Batches of 10,000

NUMBERS = range(1, MANY + 1)


def test_batch_of_sums() -> None:
    sums = rows.frames(rows.batch(*(SUM % (it, it) for it in NUMBERS)))
    by_all(sums, rows.frames(rows.batch(*(rows.answered(str(it + 1), it) for it in NUMBERS))))


def test_batch_of_200_000_sums() -> None:
    numbers = range(1, 200_001)
    given = rows.frames(rows.batch(*(SUM % (it, it) for it in numbers)))
    output = rows.frames(rows.batch(*(rows.answered(str(it + 1), it) for it in numbers)))
    expect(play(), given, output)
    expect(serve(), given, output)


@pytest.mark.parametrize("length", (1, 10_000, 1_000_000))
def test_id_of_so_many_bytes(length: int) -> None:
    id_ = '"%s"' % ("i" * length)
    given = '{"jsonrpc":"2.0","method":"add","params":[2,3],"id":%s}' % id_
    by_all(rows.frames(given), rows.frames('{"id":%s,"jsonrpc":"2.0","result":5}' % id_))


def test_batch_of_entries_that_are_none() -> None:
    by_all(rows.frames(rows.batch(*["1"] * MANY)), rows.frames(rows.batch(*[rows.INVALID] * MANY)))


@pytest.mark.parametrize("is_replied", (True, False), ids=("replied", "without_replies"))
def test_batch_of_calls(is_replied: bool) -> None:
    """The calls of different requests go out in whatever order they are made, and one by one they are in order."""
    asks, calls = rows.batch(*map(rows.ask, NUMBERS)), [rows.called(f"{it}.1") for it in NUMBERS]
    replies = rows.batch(*(rows.replied(f"{it}.1") for it in reversed(NUMBERS)))
    answer_of = partial(rows.answered, "true") if is_replied else partial(rows.failed, -32000, "No reply")
    given, answer = rows.frames(asks, *([replies] if is_replied else [])), rows.batch(*map(answer_of, NUMBERS))
    expect(play(), given, rows.frames(*calls, answer))
    expect(play("--lazy"), given, rows.frames(*calls, answer))
    expect(play("--last"), given, rows.frames(*reversed(calls), answer))
    served_contents(given, [*calls, answer])


def served_contents(given: bytes, contents: list[str]) -> None:
    """A server writes these contents, the last of them last, and the others in any order."""
    status, output, errors = ran.run(serve(), given)
    found = contents_of(output)
    is_well = (status, errors) == (0, b"") and found[-1:] == contents[-1:] and sorted(found) == sorted(contents)
    check(is_well, f"served: status {status}, {len(found):,} contents, {errors!r}")


def test_batch_that_cancels_itself() -> None:
    cancels = rows.batch(*map(rows.ask, NUMBERS), *map(rows.cancel, reversed(NUMBERS)))
    by_all(
        rows.frames(cancels), rows.frames(rows.batch(*(rows.failed(-32800, "Request cancelled", it) for it in NUMBERS)))
    )


# An id of a request as it comes and as it goes out, the params of a cancel, and whether these cancel it.
CANCELS = [
    ("7", "7", '{"id":7}', True),
    ("7", "7", '{"id":"7"}', False),
    ('"7"', '"7"', '{"id":7}', False),
    ('"7"', '"7"', '{"id":"7"}', True),
    ("0", "0", '{"id":0}', True),
    ("0", "0", '{"id":-0}', False),
    ("7", "7", '{"id":7.0}', False),
    ("7", "7", '{"id":7e0}', False),
    ("7", "7", '{"id":-7}', False),
    ("-7", "-7", '{"id":-7}', True),
    ("-9223372036854775808", "-9223372036854775808", '{"id":-9223372036854775808}', True),
    ("9223372036854775807", "9223372036854775807", '{"id":9223372036854775807}', True),
    ("9223372036854775808", "9223372036854775808", '{"id":9223372036854775808}', True),
    ("9223372036854775808", "9223372036854775808", '{"id":-9223372036854775808}', False),
    ("18446744073709551615", "18446744073709551615", '{"id":18446744073709551615}', True),
    ("18446744073709551615", "18446744073709551615", '{"id":-1}', False),
    ("18446744073709551615", "18446744073709551615", '{"id":18446744073709551616}', False),
    ('""', '""', '{"id":""}', True),
    ('"a"', '"a"', '{"id":"A"}', False),
    ('"a"', '"a"', '{"id":"a "}', False),
    ('"a"', '"a"', '{"id":"\\u0061"}', True),
    ('"\\u00e9"', '"\u00e9"', '{"id":"\u00e9"}', True),
    ('"e\u0301"', '"e\u0301"', '{"id":"\u00e9"}', False),
    ('"\\/"', '"/"', '{"id":"/"}', True),
    ('"\\u0000"', '"\\u0000"', '{"id":"\\u0000"}', True),
    ('"\\u0000"', '"\\u0000"', '{"id":""}', False),
    ('"\\ud83d\\ude00"', '"\U0001f600"', '{"id":"\U0001f600"}', True),
    ('"%s"' % ("x" * 100_000), '"%s"' % ("x" * 100_000), '{"id":"%s"}' % ("x" * 100_000), True),
    ('"%s"' % ("x" * 100_000), '"%s"' % ("x" * 100_000), '{"id":"%sy"}' % ("x" * 99_999), False),
    ("null", "null", '{"id":null}', False),
    ("7", "7", '{"id":null}', False),
    ("1", "1", '{"id":true}', False),
    ("7", "7", '{"id":[7]}', False),
    ("7", "7", '{"id":{"id":7}}', False),
    ("7", "7", "[7]", False),
    ("7", "7", "{}", False),
    ("7", "7", "null", False),
    ("7", "7", '{"ID":7}', False),
    ("7", "7", '{"id":7,"more":[{"a":"b"}]}', True),
    ("7", "7", '{"id":7,"more":1.5}', False),
    ("7", "7", '{"more":[{"a":[1e3]}],"id":7}', False),
    ("7", "7", '{"id":8,"id":7}', True),
    ("7", "7", '{"id":7,"id":8}', False),
    ('"1.1"', '"1.1"', '{"id":"1.1"}', True),
]


def of_cancel(row: tuple[str, str, str, bool]) -> str:
    """An id and the params of a cancel as a name."""
    return f"id {row[0][:20]} params {row[2][:40]}"


class Cancelling:
    """A request that waits for its reply, or for its turn, a cancel, and what comes of them."""

    def __init__(self, sent: str, named: str, params: str, hits: bool) -> None:
        self.asked = '{"jsonrpc":"2.0","method":"ask","params":["x"],"id":%s}' % sent
        self.cancel = '{"jsonrpc":"2.0","method":"$/cancelRequest","params":%s}' % params
        self.stopped = '{"error":{"code":-32800,"message":"Request cancelled"},"id":%s,"jsonrpc":"2.0"}' % named
        self.waits = '{"error":{"code":-32000,"message":"No reply"},"id":%s,"jsonrpc":"2.0"}' % named
        whole = [rows.called("1.1"), self.stopped if hits else self.waits]
        self.parked = rows.frames(whole[0], *([rows.withdrawn("1.1")] if hits else []), whole[1])
        self.unturned = rows.frames(self.stopped) if hits else self.parked
        self.whole = rows.frames(*whole)


@pytest.mark.parametrize("row", named(CANCELS, of_cancel))
def test_cancel(row: tuple[str, str, str, bool]) -> None:
    it, hits = Cancelling(*row), row[3]
    given = rows.frames(it.asked, it.cancel)
    expect(play(), given, it.parked)
    expect(play("--lazy"), given, it.unturned)
    got = ran.run(serve(), given)
    allowed = (it.parked, it.whole, it.unturned)
    same(got, (0, got[1] if got[1] in allowed else it.parked, b""), "served, or one of two other outputs")
    in_batch = rows.frames(rows.batch(it.asked, it.cancel))
    batch = rows.frames(rows.batch(it.stopped)) if hits else rows.frames(rows.called("1.1"), rows.batch(it.waits))
    by_all(in_batch, batch)


@pytest.mark.parametrize("row", named(CANCELS, of_cancel))
def test_cancel_in_front(row: tuple[str, str, str, bool]) -> None:
    """A cancel in front of a request doesn't reach it."""
    it = Cancelling(*row)
    by_all(rows.frames(rows.batch(it.cancel, it.asked)), rows.frames(rows.called("2.1"), rows.batch(it.waits)))


@pytest.mark.parametrize("row", named(CANCELS, of_cancel))
def test_request_of_that_name(row: tuple[str, str, str, bool]) -> None:
    """It isn't a cancel."""
    it = Cancelling(*row)
    request = it.cancel.replace('"params"', '"id":0,"params"')
    by_all(
        rows.frames(it.asked, request),
        rows.frames(rows.called("1.1"), it.waits, rows.NOT_FOUND.replace('"id":1', '"id":0')),
    )
