"""usage: extension_calls.py [EXTENSION]

Makes each call of the extension, with each kind of text and each kind of event, and again and again, so that what isn't
given back shows. With an extension that refused_memory.c is part of, each request for memory is refused in turn: the call
then raises NoMemory, and once it is made again all goes on as if nothing had been.
"""
import contextlib
import ctypes
import gc
import os
import sys

from helping import frame, made_over, request

from bullmyrtle import Connection, NoMemory, _library
from bullmyrtle.judge import Judge

HOST = request(1, "ab", {"a": 1}), request("x", "c"), {"jsonrpc": "2.0", "method": "n"}
CANCEL = {"jsonrpc": "2.0", "method": "$/cancelRequest", "params": {"id": "x"}}
# How often all calls are made in a turn to see that nothing is kept of them, and how many turns there are at most.
ROUNDS = int(os.environ.get("ROUNDS", "900"))
TURNS = 6
LARGE = '["' + "x" * 1_100_000 + '"]'


def surely(call, *given, **named):
    """Makes a call until it isn't refused memory."""
    while True:
        try:
            return call(*given, **named)
        except MemoryError as error:
            assert isinstance(error, NoMemory) or type(error) is MemoryError, error


def all_calls(connection_kind, judge_kind, large=LARGE):
    """What a session gives in which each call is made."""
    it = surely(connection_kind, broken=True)
    notes = surely(it._noted)
    told = []

    def events():
        while True:
            more = surely(it.events)
            if not more:
                return
            told.extend(more)

    def events_or_later():
        """(those that are refused memory wait, whatever is fed meanwhile)"""
        with contextlib.suppress(MemoryError):
            told.extend(it.events())

    for value in (*HOST, CANCEL, b"nonsense", b"[5]"):
        surely(it.feed, frame(value))
        events_or_later()
    values = b"none", b"[6]", {"jsonrpc": "2.0", "method": "large", "params": [large]}
    surely(it.feed, bytearray(b"".join(map(frame, values))))
    events()
    surely(it.answer, 1, "[1]")
    surely(it.fail, 2, -5, "why", memoryview(b'{"a":1}'))
    surely(it.answer, 3)
    surely(it.cancel, 4)
    key = surely(it.call, 0, b"m", large)
    first = surely(it.call_batch, 0, [("a", b"[1]"), ("b", None)])
    surely(it.notify, "n", "{}")
    surely(it.withdraw, first)
    out = b""
    assert surely(getattr, it, "held") >= surely(getattr, it, "pending")
    while surely(getattr, it, "pending"):
        out += surely(it.take, 100_000)
    surely(it.feed, frame({"jsonrpc": "2.0", "id": key, "result": {"a": [1]}}))
    surely(it.feed, frame({"jsonrpc": "2.0", "id": first, "error": {"code": 7, "message": "é", "data": [1]}}))
    events_or_later()
    surely(it.end)
    while not it.is_done:
        with contextlib.suppress(MemoryError):
            event = it.next_event()
            if event is not None:
                told.append(event)
    counts, offset = surely(it.counts), surely(getattr, it, "fault_offset")
    cancelled = sorted(set(notes.cancelled))
    surely(it.close)
    return told, out, counts, offset, cancelled, notes.broken, judged(judge_kind)


def judged(judge_kind):
    judge = surely(judge_kind, "lsp")
    for side, data in (("client", frame(request(1, "a"))), ("server", frame(b'{"id":2}'))):
        try:
            judge.saw(side, data)
        except NoMemory:
            return None
    try:
        judge.ended("client", "closed")
        judge.ended("server", "failed")
    except NoMemory:
        return None
    return surely(judge.findings)


def each_refused(file, kinds, wanted):
    library = ctypes.CDLL(file)
    at, asked, held = (ctypes.c_long.in_dll(library, f"refused_{it}") for it in ("at", "asked", "held"))
    before, number = held.value, 0
    while True:
        number += 1
        asked.value, at.value = 0, number
        found = all_calls(*kinds)
        at.value = 0
        for place, (one, other) in enumerate(zip(found, wanted)):
            assert one == other or (place == len(wanted) - 1 and one is None), (
                number,
                place,
                str(one)[-900:],
                str(other)[-900:],
            )
        assert held.value == before, (number, held.value - before)
        if asked.value < number:
            return number - 1


def check_that_nothing_is_kept(kinds, wanted):
    """What is kept for later stops to grow, and when it does depends on the hashes of one run. So it is the least growth of
    several turns that counts: what each round kept would show in every one of them."""
    grown = []
    while len(grown) < TURNS and (not grown or min(grown) >= ROUNDS / 2):
        gc.collect()
        before = sys.getallocatedblocks()
        for _ in range(ROUNDS):
            assert all_calls(*kinds, "[1]")[2:] == wanted[2:]
        gc.collect()
        grown.append(sys.getallocatedblocks() - before)
    assert min(grown) < max(ROUNDS // 2, 300), grown


def main(words):
    extension = _library.load(words[0]) if words else _library.extension
    kinds = made_over(Connection, extension.Connection), made_over(Judge, extension.Judge)
    wanted = all_calls(*kinds)
    if words:
        print(each_refused(words[0], kinds, wanted), "requests for memory were refused in turn")
    else:
        check_that_nothing_is_kept(kinds, wanted)
    print(len(wanted[0]), "events")


if __name__ == "__main__":
    main(sys.argv[1:])
