"""usage: python3 checks/c_library_many.py [--library FOLDER]

Nothing gives up where there is much, though memory is there: a connection and a judge of the C library, and the table
peer, beyond each bound that they may have inside. A batch of 200,000 requests, where so many entries are allowed; 200,000 requests open at once;
10,000 contents in one piece; ids of 1, 10,000 and 1,000,000 bytes; output of more than 1 MB; and an array of
5,000 responses before the judge, where just the wrong one is found. The table peer takes the same batch, pieces and ids,
and params with much of each kind, which it calls back with, or passes by for a method that it doesn't have. (The judge has 200,000 requests open in
c_judge_costs.py, and 100,000 findings from one piece in c_library_memory.py.) What is wanted is written by hand from the
form of JSON-RPC's messages."""
import argparse
import os
import tempfile
from typing import Callable, Iterable, Iterator

from support import ran
from support.c_programs import PLAYER, PLAYER_NEEDS, build, default_library, is_whole, said
from support.rows import METHODS, answered, batch, failed, file_of, frames, lines

# An action of a script, and the line that it gives.
Step = tuple[str, str]
ENTRIES, OPEN, IN_PIECE, RESPONSES, OUTPUT = 200_000, 200_000, 10_000, 5_000, 1_100_000
SETTINGS = "settings %s as-answered no-cancels 2147483647 18446744073709551615%s"


def request(id_: object) -> str:
    return '{"jsonrpc":"2.0","method":"m","id":%s}' % id_


def hexed(data: str | bytes) -> str:
    return (data if isinstance(data, bytes) else data.encode()).hex()


def begun(framing: str, data: bytes, more: str = "") -> Iterator[Step]:
    yield SETTINGS % (framing, more), "ok"
    yield f"feed {hexed(data)}", "ok"


def called(count: int) -> Iterator[Step]:
    """Requests with the ids from 1 to a number are told, and no more."""
    for it in range(1, count + 1):
        yield "next", f"call {it} 6d - {hexed(str(it))}"
    yield "next", "none"


def answers(count: int) -> Iterator[Step]:
    for it in range(1, count + 1):
        yield f"answer {it} 31", "ok"


def taken(data: bytes) -> Iterator[Step]:
    yield f"take {2 * len(data)}", f"bytes {hexed(data)}"


def large_batch() -> Iterator[Step]:
    numbers = range(1, ENTRIES + 1)
    yield from begun("lines", lines(batch(*map(request, numbers))), f" entries={ENTRIES}")
    yield from called(ENTRIES)
    yield from answers(ENTRIES)
    yield from taken(lines(batch(*(answered("1", it) for it in numbers))))


def many_open() -> Iterator[Step]:
    numbers = range(1, OPEN + 1)
    yield SETTINGS % ("lines", ""), "ok"
    for it in numbers:
        yield f"feed {hexed(lines(request(it)))}", "ok"
        yield "next", f"call {it} 6d - {hexed(str(it))}"
    yield "report", f"report {OPEN} {OPEN} {OPEN} 0 0 0 0 0 0"
    yield from answers(OPEN)
    yield from taken(lines(*(answered("1", it) for it in numbers)))


def in_one_piece(framing: str, form: Callable[..., bytes]) -> Iterator[Step]:
    numbers = range(1, IN_PIECE + 1)
    yield from begun(framing, form(*map(request, numbers)))
    yield from called(IN_PIECE)
    yield from answers(IN_PIECE)
    yield from taken(form(*(answered("1", it) for it in numbers)))


def long_ids() -> Iterator[Step]:
    yield SETTINGS % ("frames", ""), "ok"
    for number, length in enumerate((1, 10_000, 1_000_000), 1):
        id_ = '"%s"' % ("i" * length)
        yield f"feed {hexed(frames(request(id_)))}", "ok"
        yield "next", f"call {number} 6d - {hexed(id_)}"
        yield f"answer {number} 31", "ok"
        yield from taken(frames('{"id":%s,"jsonrpc":"2.0","result":1}' % id_))


def large_output() -> Iterator[Step]:
    text = '"%s"' % ("o" * OUTPUT)
    yield from begun("frames", frames(request(1)))
    yield from called(1)
    yield f"answer 1 {hexed(text)}", "ok"
    yield from taken(frames(answered(text, 1)))


SCRIPTS: dict[str, Callable[[], Iterable[Step]]] = {
    f"a batch of {ENTRIES:,} requests": large_batch,
    f"{OPEN:,} open requests": many_open,
    f"{IN_PIECE:,} lines in one piece": lambda: in_one_piece("lines", lines),
    f"{IN_PIECE:,} frames in one piece": lambda: in_one_piece("frames", frames),
    "ids of 1, 10,000 and 1,000,000 bytes": long_ids,
    f"{OUTPUT:,} bytes of output": large_output,
}


def check_scripts(count: ran.Count, player: str) -> None:
    for name, make in SCRIPTS.items():
        steps = [*make()]
        status, output, errors = said([player], "".join(f"{it}\n" for it, _ in steps).encode())
        found, wanted = output.decode().splitlines(), [it for _, it in steps]
        places = (at for at, (one, other) in enumerate(zip(found, wanted)) if one != other)
        at = next(places, min(len(found), len(wanted)))
        why = f"status {status}, {errors!r}; action {at} of {len(steps)} gives {found[at : at + 1]!r}"
        count.check(name, (status, found, errors) == (0, wanted, b""), why[:900])


# Params with much of a kind, or nested as deep as the table peer reads: 127 levels, of which the content and its params
# are two (docs/protocol.md, "Limits").
DEEPEST = 125
PARAMS = {
    "numbers": f"[{','.join(map(str, range(200_000)))}]",
    "members": "{%s}" % ",".join(f'"{it}":{it}' for it in range(100_000, 200_000)),
    "words": f"[{','.join(['true', 'false', 'null'] * 50_000)}]",
    "strings": '["a"%s]' % (',"b"' * 200_000),
    "a long string": '["%s"]' % ("s" * 2_000_000),
    "a long name": '{"%s":1}' % ("n" * 1_000_000),
    "escapes": '["%s"]' % (r"\u0001" * 200_000),
    "an escape in a name": '{"%s":1}' % (r"n\n" * 200_000),
    "depth": "[" * DEEPEST + "]" * DEEPEST,
}


def check_peer(count: ran.Count) -> None:
    numbers = range(1, ENTRIES + 1)
    missing = [failed(-32601, "Method not found", it) for it in numbers]
    play = [ran.BUILT, "play", "--table", file_of(METHODS)]
    for name, given, wanted in (
        (f"a batch of {ENTRIES:,}", frames(batch(*map(request, numbers))), frames(batch(*missing))),
        (f"{IN_PIECE:,} contents", frames(*map(request, numbers[:IN_PIECE])), frames(*missing[:IN_PIECE])),
        *(
            (
                f"an id of {it:,} bytes",
                frames(request('"%s"' % ("i" * it))),
                frames(missing[0].replace('"id":1,', '"id":"%s",' % ("i" * it))),
            )
            for it in (1, 10_000, 1_000_000)
        ),
    ):
        count.check(f"the table peer, {name}", said(play, given) == (0, wanted, b""), "another output")
    for name, params in PARAMS.items():
        content = '{"jsonrpc":"2.0","method":"%s","params":[%s],"id":1}'
        replied = '{"jsonrpc":"2.0","id":"1.1","result":true}'
        called = '{"id":"1.1","jsonrpc":"2.0","method":"confirm","params":[%s]}' % params
        got = said(play, frames(content % ("ask", params), replied))
        count.check(f"params of {name} that it calls with", got == (0, frames(called, answered("true", 1)), b""))
        got = said(play, frames(content % ("nope", params)))
        count.check(f"params of {name} that it passes by", got == (0, frames(missing[0]), b""))


def recording(*talk: tuple[str, bytes]) -> bytes:
    return "".join(["judge 1 jsonrpc lines\n", *(f"{side} {data.hex()}\n" for side, data in talk)]).encode()


NOTHING = "found: 0 must, 0 should, 0 note\n"
# The last response has an id that nothing in the batch has: by 4.1 and 5 it isn't owed, and by 6 one answer is missing.
ONE_WRONG = (
    "should: server, message 1 at byte 0: not-as-array (JSON-RPC 6)\n"
    f"must: server, message 1 at byte 0, entry {RESPONSES}: not-owed (JSON-RPC 4.1, 5)\n"
    "found: 1 must, 1 should, 0 note\n"
)


def check_judge(count: ran.Count, program: str) -> None:
    numbers = range(1, RESPONSES + 1)
    asked = lines(batch(*map(request, numbers)))
    for name, last, wanted in (("right", RESPONSES, NOTHING), ("the last one wrong", RESPONSES + 1, ONE_WRONG)):
        said_back = lines(batch(*(answered("1", it) for it in (*numbers[:-1], last))))
        _, output, _ = said([program, "judge"], recording((">", asked), ("<", said_back)))
        count.same(f"an array of {RESPONSES:,} responses, {name}", output.decode(), wanted)


def main() -> None:
    parser = argparse.ArgumentParser(usage=(__doc__ or "").partition("\n\n")[0].removeprefix("usage: "))
    parser.add_argument("--library", default=default_library())
    library, count = os.path.abspath(parser.parse_args().library), ran.Count()
    check_peer(count)
    if ran.lacks("cc", "it compiles the hosts"):
        count.end()
    if not is_whole(library):
        print(f"SKIPPED: there is no such library in {library}: bin/build-library builds it", flush=True)
        count.end()
    with tempfile.TemporaryDirectory(prefix="c-library-") as room:
        check_scripts(count, build(count, library, room, PLAYER, "static", PLAYER_NEEDS))
    check_judge(count, ran.BUILT)
    count.end()


main()
