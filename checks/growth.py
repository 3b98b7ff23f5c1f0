"""The program's work grows with its input and no faster: twice the input takes at most 2.2 times the instructions, and so
does what `judge` is shown: contents that can be read and that can't, long ids, ids that are used again and that are held
open. And no memory is asked for what is only promised: a head that says 16 MiB, with nothing behind it, makes no large
request. Nor is any kept for what is over: a million runs of a method take as much as a thousand, ten thousand batches
and cancels that the judge saw and that are answered hold what a thousand hold, and a server that rests holds the same
bytes, to the kilobyte, behind the second and the third content, line or response of 16 MB, long batch or piece of many
lines. Behind 100,000 open calls, and as many notifications that run on once their batch is answered, it is known to hold
more: the sets of numbers keep their room. At rest it has little room for what may come, and an entry of a batch takes
what it needs. A long content is read once if its method comes first, and without its params if the table lacks it.

Instructions are callgrind's, so that a busy machine changes nothing. What a size costs beside its start, the program's
own beginning, is left out. Why by instructions: docs/decisions/tests_and_releases.md#measuring."""
import os
import tempfile
from functools import partial
from itertools import chain

from support import c_programs, ran
from support import refusals
from support import rows
from support.callgrind import instructions
from support.resting import Resting

MOST = 2.2
# A request for more bytes is a large one: the program reads in pieces of so many at most.
LARGE = 65_536
# How many bytes a run of any length may hold beside those of a short one.
SPARE = 4_000_000


TABLE = ("--table", rows.file_of(rows.METHODS))


def request(number, params=""):
    return '{"jsonrpc":"2.0","method":"nope",%s"id":%d}' % (params, number)


def with_params(params):
    return rows.frames(request(1, f'"params":{params},'))


def add_to(text):
    return '{"jsonrpc":"2.0","method":"add","params":["%s",1],"id":1}' % text


def to(size):
    return range(1, size + 1)


# How the inputs are made, of so many calls, bytes or members. The requests of the last ones make one call each.
SHAPES = {
    "single requests": lambda size: rows.frames(*map(request, to(size))),
    "lines": lambda size: rows.lines(*map(request, to(size))),
    "a line of so many bytes": lambda size: rows.lines(request(1, '"params":["%s"],' % ("a" * size))),
    # (the table has the method, so the string is made, and then it is no number)
    "a string of escapes": lambda size: rows.frames(add_to(r"\u0001" * (size // 6))),
    "a string of runs and escapes": lambda size: rows.frames(add_to(r"aaaaaaaaaaaaaa\n" * (size // 16))),
    # (a head of so many bytes: its length, a field as long as needed, and the empty line)
    "heads of so many bytes": lambda size: f"Content-Length: 40\r\nX:{'a' * (size - 26)}\r\n\r\n{request(1)}".encode()
    * 20,
    "a content of so many bytes": lambda size: with_params(f'["{"a" * (size - len(request(1, PARAMS)))}"]'),
    "batches of 100": lambda size: rows.frames(
        *(rows.batch(*map(request, range(it, it + 100))) for it in to(size)[::100])
    ),
    "one batch": lambda size: rows.frames(rows.batch(*map(request, to(size)))),
    "notifications": lambda size: rows.frames(*['{"jsonrpc":"2.0","method":"nope","params":[1,2]}'] * size),
    "unreadable contents": lambda size: rows.frames(*["{"] * size),
    "one long string": lambda size: with_params(f'["{"a" * size}"]'),
    "params of many members": lambda size: with_params(
        "{" + ",".join('"%d":%d' % (it * 7919 % size, it) for it in range(size)) + "}"
    ),
    "calls": lambda size: rows.frames(*(text for it in to(size) for text in (rows.ask(it), rows.replied(f"{it}.1")))),
    "open calls": lambda size: rows.frames(
        *map(rows.ask, to(size)), *(rows.replied(f"{it}.1") for it in reversed(to(size)))
    ),
    "calls without a reply": lambda size: rows.frames(*map(rows.ask, to(size))),
    "cancels": lambda size: rows.frames(*map(rows.ask, to(size)), *map(rows.cancel, reversed(to(size)))),
}
# Params that hold an empty text.
PARAMS = '"params":[""],'

# the shape, its greater size, and the options it is played with
INPUTS = [
    ("single requests", 4_000, ()),
    ("single requests", 2_000, ("--piece", "512")),
    ("single requests", 400, ("--piece", "1")),
    ("heads of so many bytes", 4_096, ("--piece", "1")),
    ("a content of so many bytes", 16_777_216, ("--piece", "512")),
    ("batches of 100", 4_000, ()),
    ("one batch", 4_000, ()),
    ("notifications", 2_000, ()),
    ("unreadable contents", 2_000, ()),
    ("one long string", 2_000_000, ()),
    ("one long string", 2_000_000, ("--piece", "512")),
    ("params of many members", 20_000, ()),
    ("calls", 2_000, TABLE),
    ("open calls", 2_000, TABLE),
    ("open calls", 2_000, ("--lazy", "--last", *TABLE)),
    ("calls without a reply", 20_000, TABLE),
    ("lines", 4_000, ("--lines",)),
    ("a line of so many bytes", 2_000_000, ("--lines", "--piece", "512")),
    ("a string of escapes", 1_000_000, TABLE),
    ("a string of runs and escapes", 1_000_000, TABLE),
    ("cancels", 2_000, TABLE),
    ("cancels", 2_000, ("--lazy", *TABLE)),
]


# What the judge is shown: the side that says it, and its line.
def asks(id_):
    return ">", '{"jsonrpc":"2.0","method":"m","id":%s}' % id_


def answers(id_):
    return "<", '{"jsonrpc":"2.0","id":%s,"result":1}' % id_


def left(id_):
    """A cancel by MCP's rules, behind which a request may be left."""
    return ">", '{"jsonrpc":"2.0","method":"notifications/cancelled","params":{"requestId":%s}}' % id_


def array_of(side, ids, form):
    return side, rows.batch(*(form(it)[1] for it in ids))


def shown(*lines, rules="lsp"):
    """A recording of these lines."""
    return "".join(
        [f"judge 1 {rules} lines\n", *(f"{side} {rows.lines(text).hex()}\n" for side, text in lines)]
    ).encode()


def said_with(text):
    return shown((">", '{"jsonrpc":"2.0","method":"m","params":["%s"]}' % text))


# Name, how the recording of a size is made, and the greater size.
JUDGED = [
    ("a content that can be read", lambda size: said_with("a" * size), 2_000_000),
    ("a content that isn't JSON", lambda size: said_with("a" * size + '",'), 2_000_000),
    ("a content that is too deep", lambda size: shown((">", "[" * (size // 2) + "]" * (size // 2))), 2_000_000),
    ("an id of so many bytes", lambda size: shown(asks(f'"{"a" * size}"')), 2_000_000),
    ("an id with so many digits in its exponent", lambda size: shown(asks("0e9" + "9" * size)), 200_000),
    ("an id that is used again", lambda size: shown(*[asks(1), answers(1)] * size), 4_000),
    ("equal ids that are held open", lambda size: shown(*[asks(1)] * size, *[answers(1)] * size), 2_000),
    (
        "a batch, answered in order",
        lambda size: shown(array_of(">", to(size), asks), array_of("<", to(size), answers)),
        800,
    ),
    (
        "a batch, answered from its end",
        lambda size: shown(array_of(">", to(size), asks), array_of("<", reversed(to(size)), answers)),
        800,
    ),
    (
        "a batch of equal ids, answered as one",
        lambda size: shown(array_of(">", [1] * size, asks), array_of("<", [1] * size, answers)),
        800,
    ),
    (
        "a batch of invalid entries, answered by null",
        lambda size: shown((">", rows.batch(*["1"] * size)), array_of("<", ["null"] * size, answers)),
        800,
    ),
    ("cancels of equal ids", lambda size: shown(*[asks(1)] * size, *[(">", rows.cancel(1))] * size), 1_000),
    (
        "cancels of equal ids by MCP's rules, and answers to these",
        lambda size: shown(*[asks(1)] * size, *[left(1)] * size, *[answers(1)] * size, rules="mcp"),
        1_000,
    ),
    ("a batch, answered one by one", lambda size: shown(array_of(">", to(size), asks), *map(answers, to(size))), 1_000),
    (
        "a batch, answered one by one from its end",
        lambda size: shown(array_of(">", to(size), asks), *map(answers, reversed(to(size)))),
        1_000,
    ),
    (
        "a batch of equal ids, answered one by one",
        lambda size: shown(array_of(">", [1] * size, asks), *[answers(1)] * size),
        1_000,
    ),
    (
        "a batch, half of it answered one by one and the rest as one",
        lambda size: shown(
            array_of(">", to(size), asks),
            *map(answers, to(size // 2)),
            array_of("<", reversed(range(size // 2 + 1, size + 1)), answers),
        ),
        1_000,
    ),
    (
        "arrays that fit no batch",
        lambda size: shown(*[array_of(">", (1, 2), asks)] * size, *[array_of("<", (3, 1), answers)] * size),
        600,
    ),
]
# What passes before the judge: its name, the rules, and what is said by a number.
PASSING = [
    ("batches", "jsonrpc", lambda it: (array_of(">", (it, -it), asks), array_of("<", (-it, it), answers))),
    (
        "batches that are answered one by one",
        "jsonrpc",
        lambda it: (array_of(">", (it, -it), asks), answers(it), answers(-it)),
    ),
    ("cancels", "lsp", lambda it: (asks(it), (">", rows.cancel(it)), answers(it))),
    (
        "batches with a cancel",
        "lsp",
        lambda it: (array_of(">", (it, -it), asks), (">", rows.cancel(it)), array_of("<", (-it, it), answers)),
    ),
    (
        "batches of which a request is left",
        "mcp:2025-03-26",
        lambda it: (array_of(">", (it, -it), asks), left(it), array_of("<", (-it,), answers)),
    ),
]

# The bench program's ways to finish units at the desk, and its greater number of them.
ORDERS, UNITS = ("straight", "windows", "cancels", "stream", "behind", "batch"), 20_000


def add(number):
    return '{"jsonrpc":"2.0","method":"add","params":[%d,1],"id":%d}' % (number, number)


def hosted_calls(size):
    """Requests that a host answers at once."""
    return rows.frames(*map(add, range(1, size + 1)))


def hosted_batch(size):
    """One batch of them."""
    return rows.frames("[" + ",".join(map(add, range(1, size + 1))) + "]")


def hosted_open_calls(size):
    """Requests for each of which a host calls back, replied to once all have come, the last first."""
    asked = ('{"jsonrpc":"2.0","method":"ask","params":[%d],"id":%d}' % (it, it) for it in range(1, size + 1))
    return rows.frames(*asked, *('{"jsonrpc":"2.0","id":%d,"result":true}' % it for it in range(size, 0, -1)))


def hosted_cancels(size):
    """The same, cancelled, the last first."""
    asked = ('{"jsonrpc":"2.0","method":"ask","params":[%d],"id":%d}' % (it, it) for it in range(1, size + 1))
    return rows.frames(
        *asked, *('{"jsonrpc":"2.0","method":"$/cancelRequest","params":{"id":%d}}' % it for it in range(size, 0, -1))
    )


def hosted_text(size):
    """A param that is called back with."""
    return rows.frames('{"jsonrpc":"2.0","method":"ask","params":["' + "a" * size + '"],"id":1}') if size else b""


def head_in_bytes(size):
    """A head of so many bytes, fed one at a time; the content and its answer, in a script."""
    head = b"Content-Length: 40\r\nX:" + b"a" * (size - 26) + b"\r\n\r\n"
    feeds = "".join("feed %02x\n" % it for it in head) if size else ""
    ends = f"feed {request(1).encode().hex()}\nnext\ntake 1000\n" if size else ""
    return f"settings frames as-answered cancels 1000 10\n{feeds}{ends}".encode()


# The host in C that bench/run measures, the player of scripts, and a program that writes many notifications.
HOST = os.path.join(ran.TOP, "bench", "embedded", "host.c")
PLAYER = c_programs.PLAYER
WRITER = os.path.join(c_programs.SUPPORT, "kept_output.c")

# what a connection is measured by: name, how the input is made, its greater size, and the program in C that takes it
CONNECTION = [
    ("a host's calls", hosted_calls, 20_000, HOST),
    ("a host's open calls", hosted_open_calls, 20_000, HOST),
    ("a host's cancelled calls", hosted_cancels, 20_000, HOST),
    ("a host's one batch", hosted_batch, 100_000, HOST),
    ("a host's param of so many bytes", hosted_text, 16_700_000, HOST),
    ("a head of so many bytes, in single bytes", head_in_bytes, 4_096, PLAYER),
]
# So many lines are written by a host before the first is taken.
LINES_OUT = 200_000


def inputs():
    """What is measured of the program: a label, the greater size, and what gives the instructions of a size."""
    for name, size, options in INPUTS:
        words = [ran.BUILT, "play", *options]
        yield " ".join([name, *(it for it in options if it not in TABLE)]), size, lambda size, make=SHAPES[
            name
        ], words=words: instructions(words, make(size) if size else b"")


def judged(conversations):
    """The same of what the program judges. (Its status tells whether a rule was broken.)"""
    for name, make, size in conversations:
        yield f"judged: {name}", size, lambda size, make=make: instructions([ran.BUILT, "judge"], make(size), (0, 1))


def orders(bench):
    """The same of the desk."""
    for order in ORDERS:
        yield f"the desk, {order}", UNITS, lambda units, order=order: instructions(
            [bench, "desk", "--order", order, "--units", str(units)]
        )


def connections(room):
    """The same of a connection, by programs in C that are built in a folder."""
    programs = {it: c_programs.built_alone(it, room, c_programs.PLAYER_NEEDS) for it in (HOST, PLAYER, WRITER)}
    for name, make, size, file in CONNECTION:
        if programs[file]:
            yield name, size, lambda size, make=make, program=programs[file]: instructions([program], make(size))
    if programs[WRITER]:
        yield "a host's lines that wait", LINES_OUT, lambda size: instructions(
            [programs[WRITER], "lines", "1000", str(max(size, 1))]
        )


def growth_of(count, label, size, begun, half, whole):
    """How many times what half of a size takes it takes itself, each beside what a run of size 0 does."""
    if begun is None or half is None or whole is None:
        count.check(f"{label} is counted", False)
        return None
    growth = (whole - begun) / (half - begun)
    print(f"{label}: {half:,} instructions at {size // 2:,} and {whole:,} at {size:,}, growth {growth:.2f}", flush=True)
    return growth


def check_growth(count, label, size, *taken):
    growth = growth_of(count, label, size, *taken)
    if growth is not None:
        count.check(label, growth <= MOST, f"growth {growth:.2f}, at most {MOST}")


def check_all(count):
    """Counts the instructions of all sizes, as many side by side as there are processors, and compares them."""
    if ran.lacks("valgrind", "it counts the instructions"):
        return
    bench = count.built("peer_bench", ran.gates_program("peer_bench"))
    with tempfile.TemporaryDirectory(prefix="growth-") as room:
        measured = [
            *((check_growth, it) for it in (*inputs(), *judged(JUDGED), *(orders(bench) if bench else ()))),
            *((check_growth, it) for it in connections(room)),
        ]
        counts = iter(
            ran.side_by_side(partial(counted, it) for _, (_, size, counted) in measured for it in (0, size // 2, size))
        )
    for check, (label, size, _) in measured:
        check(count, label, size, next(counts), next(counts), next(counts))


def check_long(count):
    """Compares what the same long content takes, as its method stands before its params or behind them, and as the
    table has it or hasn't."""
    if ran.lacks("valgrind", "it counts the instructions"):
        return
    params = f'"params":[{",".join("1" * VALUES)}]'
    first, last, unknown = (
        instructions([ran.BUILT, "play", *TABLE], rows.frames('{"jsonrpc":"2.0","id":1,%s,%s}' % it))
        for it in (('"method":"add"', params), (params, '"method":"add"'), ('"method":"nope"', params))
    )
    if first is None or last is None or unknown is None:
        count.check("a long content is counted", False)
        return
    print(f"a long content: {first:,} instructions, {last:,} by its method at its end, {unknown:,} by an unknown one")
    count.check("a long content is read once", first <= 0.8 * last, f"{first:,} and {last:,}")
    count.check("params of an unknown method aren't made", unknown <= 0.6 * first, f"{unknown:,} and {first:,}")


def check_memory(count):
    if not ran.lacks("cc", refusals.WHY):
        check_promise(count)
        check_finished(count)
        check_rests(count)
        check_runs_on(count)
        check_open(count)
        check_at_rest(count)
        check_batches(count)
        check_passing(count)
        check_reads(count)


def check_promise(count):
    """Refuses each large request: a promise of bytes makes none, and bytes that come do."""
    refusing = refusals.Refusals()
    promised = refusing.run([ran.BUILT, "play"], b"Content-Length: 16777216\r\n\r\n", "REFUSE_OVER", LARGE)
    count.same("a promise costs nothing", promised, (1, b"", b"input ended: Truncated\n", False))
    came = refusing.run([ran.BUILT, "play"], rows.frame(b" " * 70_000), "REFUSE_OVER", LARGE)
    count.same("70,000 bytes that come are refused", came, (1, b"", b"failed: Memory\n", True))


def check_finished(count):
    """Compares the most that is held through a thousand runs of a method and through many. The program keeps what it
    writes until the input is over, so it is told apart: notifications write nothing, and of answers twice their bytes
    are left out."""
    play = [ran.BUILT, "play", *TABLE]
    notice = '{"jsonrpc":"2.0","method":"add","params":[2,3]}'
    thousand = rows.frames(rows.batch(*[notice] * 1_000))
    requests = [notice.replace("}", ',"id":%d}' % it) for it in range(1, 1_000_001)]
    answers = len(rows.frames(*(rows.answered("5", it) for it in range(1, 1_000_001))))
    for name, few, more, written in (
        ("1,000,000 notifications", thousand, thousand * 999, 0),
        ("100,000 notifications, one by one", rows.frames(*[notice] * 1_000), rows.frames(*[notice] * 99_000), 0),
        ("1,000,000 requests", rows.frames(*requests[:1_000]), rows.frames(*requests[1_000:]), answers),
    ):
        status, least, *_ = refusals.counted(play, few)
        then, most, *_ = refusals.counted(play, few + more)
        print(f"{name}: {most:,} bytes at most, {least:,} for the first 1,000 of them, {written:,} written", flush=True)
        count.check(
            f"{name} leave nothing behind",
            (status, then) == (0, 0) and 0 < most <= least + 2 * written + SPARE,
            f"{least:,}, {most:,}",
        )


def text_of(size):
    return f'"{"a" * size}"'


def escapes_of(size):
    return '"%s"' % (r"\u0001" * (size // 6))


def invalid_lines(server, size):
    """Lines of one byte, so that thousands come in a piece."""
    server.given(["0"] * size, [rows.INVALID] * size)


def invalid_batch(server, size):
    """A batch of entries of one byte."""
    server.given([rows.batch(*["0"] * size)], [rows.batch(*[rows.INVALID] * size)])


# What comes to a server and passes: whether in lines, the size with which it begins, a large one, and what does it.
RESTS = {
    "a content": (False, 200_000, 16_000_000, lambda it, size: it.add(text_of(size))),
    "a line": (True, 200_000, 16_000_000, lambda it, size: it.add(text_of(size))),
    "escapes": (True, 200_000, 16_000_000, lambda it, size: it.add(escapes_of(size))),
    "a call and its response": (True, 200_000, 16_000_000, lambda it, size: it.ask(1, text_of(size), text_of(size))),
    "open calls": (True, 3_000, 100_000, lambda it, size: it.ask(size)),
    "lines": (True, 100, 20_000, invalid_lines),
    "entries of a batch": (True, 50_000, 200_000, invalid_batch),
}
# They are the same to the kilobyte. Known: behind open calls the sets of numbers keep room for the most that were open.
EVEN, KEPT = 1_024, {"open calls": 200_000}
# So many notifications run on behind the answer of their batch, and nothing is written as the last of them is done.
RUN_ON = 100_000
# So many calls are open, and each takes so many bytes: docs/performance.md, "What bin/test holds".
OPEN, OPEN_BYTES = 20_000, 1_586 * 1.05
# So many bytes a server holds that rests behind two requests, and so many it has held: one of them has 70,000 bytes.
AT_REST, SO_FAR = 100_000, 1_000_000
# So many entries has a batch, and each takes so many bytes in `play`, with those of the entry and of its answer
# (docs/performance.md).
BATCH = 5_000
ENTRIES = {
    "that is invalid": ("0", 243.4 * 1.05),
    "of an unknown method": (request(1), 622.7 * 1.05),
    "that adds": ('{"jsonrpc":"2.0","method":"add","params":[1,1],"id":1}', 1_340.0 * 1.05),
}
# So many values are in the params of a long content.
VALUES = 100_000
# A server asks for 16,384 bytes at once. A pipe may give fewer, but not so few for each read of so many.
READ, A_READ = 4_000_000, 1_000


def check_rests(count):
    for name, (in_lines, small, large, come) in RESTS.items():
        with Resting(in_lines) as server:
            held = []
            for size in (small, small, large, large):
                come(server, size)
                held.append(server.at_rest())
        _, before, *behind = held
        more = [it - before for it in behind]
        print(f"{name} of {large:,}: {before:,} bytes held before, {more[0]:,} and {more[1]:,} more behind", flush=True)
        if name in KEPT:
            count.check(f"room is kept behind {name}, which is known", EVEN < max(more) <= KEPT[name], f"{held}")
        else:
            count.check(f"no room is kept behind {name}", max(map(abs, more)) <= EVEN, f"{held}")


def runs_on(server, size):
    """A batch of a request, which is answered at once, and of so many notifications."""
    notice = '{"jsonrpc":"2.0","method":"add","params":[2,3]}'
    batch = rows.batch(notice.replace("}", ',"id":1}'), *[notice] * size)
    server.given([batch], [rows.batch(rows.answered("5", 1))])
    return server.quiet()


def check_runs_on(count):
    """Compares what a server holds with no content behind them: it gives room back as handlers end, where none of them
    writes anything."""
    with Resting(in_lines=False) as server:
        few = [runs_on(server, 100) for _ in range(2)]
        many = [runs_on(server, RUN_ON) for _ in range(2)]
        server.number += sum((100, 100, RUN_ON, RUN_ON)) + 4
        behind = server.at_rest()
    # (the sets of numbers keep their room, as behind open calls)
    most = few[-1] + KEPT["open calls"]
    print(
        f"{RUN_ON:,} notifications run on: {few[-1]:,} bytes held before, {many} behind, {behind:,} at the next content"
    )
    count.check("no room is kept behind notifications that run on", 0 < max(many) <= most, f"{few}, {many}, {most:,}")
    count.check("nor at the next content", 0 < behind <= most, f"{behind:,}, at most {most:,}")


def check_open(count):
    with Resting(in_lines=False) as server:
        before = server.at_rest()
        server.asked(OPEN)
        each = (server.quiet() - before) / OPEN
    print(f"{OPEN:,} open calls: {each:,.0f} bytes each", flush=True)
    count.check("an open call takes what it needs", 0 < each <= OPEN_BYTES, f"{each:.0f}, at most {OPEN_BYTES:.0f}")


def check_at_rest(count):
    """A table that has room for all numbers at once, or a piece of a megabyte, is seen here."""
    with Resting(in_lines=False) as server:
        server.add(text_of(10))
        held = server.at_rest()
        most = server.held.numbers()[0]
    print(f"a server at rest: {held:,} bytes held, {most:,} at most so far", flush=True)
    count.check("a server at rest holds little", 0 < held <= AT_REST, f"{held:,}, at most {AT_REST:,}")
    count.check("it has never held much", 0 < most <= SO_FAR, f"{most:,}, at most {SO_FAR:,}")


def most_held_for(content):
    """The status of `play`, and the most bytes that it held. (The input is a file: a pipe gives what it has, and room
    grows by what comes.)"""
    with tempfile.TemporaryFile() as file:
        file.write(rows.frames(content))
        file.seek(0)
        return refusals.counted([ran.BUILT, "play", *TABLE], file)[:2]


def check_batches(count):
    for name, (entry, reached) in ENTRIES.items():
        (status, few), (then, many) = (most_held_for(rows.batch(*[entry] * it)) for it in (BATCH, 2 * BATCH))
        each = (many - few) / BATCH
        print(f"an entry of a batch {name}: {each:,.1f} bytes", flush=True)
        well = (status, then) == (0, 0) and 0 < each <= reached
        count.check(f"an entry of a batch {name} takes what it needs", well, f"{each:,.1f}, at most {reached:,.1f}")


def check_passing(count):
    """Nothing is kept of what was answered before the judge, in whatever way it was."""
    for name, rules, said in PASSING:
        held = [judged_bytes(shown(*chain.from_iterable(map(said, to(it))), rules=rules)) for it in (1_000, 10_000)]
        print(f"judged: {name}: {held[0]:,} bytes held of 1,000, {held[1]:,} of 10,000", flush=True)
        count.same(f"judged: nothing is kept of {name}", held[1], held[0])


def judged_bytes(recording):
    """The most bytes that are held."""
    return refusals.counted([ran.BUILT, "judge"], recording)[1]


def check_reads(count):
    with Resting(in_lines=False) as server:
        server.at_rest()
        before = server.reads()
        server.add(text_of(READ))
        made = server.reads() - before
    print(f"{READ:,} bytes: {made:,} reads", flush=True)
    count.check("a long content is read in long pieces", 0 < made <= READ // A_READ, f"{made:,} reads")


ran.script(check_memory, check_long, check_all)
