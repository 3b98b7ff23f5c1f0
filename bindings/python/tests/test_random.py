"""Two connections back to back, with random traffic: each of them tells and writes what the plain model does."""
import os
import random
import sys
import unittest

from helping import TOP, Case

from bullmyrtle import Connection, Refused, events

if sys.version_info < (3, 9):
    raise unittest.SkipTest("the plain model needs Python 3.9 or later: no random traffic judged by it")
sys.path.append(os.path.join(TOP, "checks"))
from support import connection_model as model  # noqa: E402

SESSIONS, STEPS = 120, 120
NAMES = {
    "NotOpen": "not_open",
    "NotWaiting": "not_waiting",
    "InputOver": "over",
    "NotJson": "not_json",
    "Empty": "empty",
}
TEXTS = [
    b"[]",
    b"[1,2.50,1e400]",
    b'{"a":"\xc3\xa9","a":null}',
    b' { "x" : [ -0 ] } ',
    b'["' + b"x" * 5000 + b'"]',
]
VALUES = [*TEXTS, b"null", b"0", b'"\\u0000/"', b"nope"]


def as_model(event):
    """An event as the model has it."""
    if isinstance(event, events.Call):
        return model.Call(
            event.number, event.method, *(it and it.decode() for it in (event.params, event.id))
        )
    if isinstance(event, events.Failed):
        return model.Failed(event.key, event.code, event.message, event.data and event.data.decode())
    if isinstance(event, events.Replied):
        return model.Replied(event.key, event.result.decode())
    if isinstance(event, events.Broken):
        return model.Broken(event.offset, event.first, event.entry, event.entries)
    return getattr(model, type(event).__name__)(*event)


class Side:
    """A connection and its model, which are told the same."""

    def __init__(self, case, chance, settings):
        self.case, self.chance = case, chance
        self.framing = settings["framing"]
        self.real = Connection(**settings)
        ways = (settings["framing"], settings["order"], settings["cancels"])
        self.model = model.Model(model.Settings(*ways, tells_broken=settings["broken"]))
        self.calls, self.keys = [0], [0]

    def both(self, ours, theirs):
        """Makes the same call on both, and gives what both gave."""
        found = []
        for call in (ours, theirs):
            try:
                found.append(call())
            except Refused as refused:
                found.append(NAMES[type(refused).__name__])
            except model.Refused as refused:
                found.append(str(refused))
        self.case.assertEqual(*found)
        return found[0]

    def listen(self):
        wanted = []
        while (event := self.model.next()) is not None:
            wanted.append(event)
        if self.chance.random() < 0.5:
            got = self.real.events()
        else:
            got = []
            while (event := self.real.next_event()) is not None:
                got.append(event)
        self.case.assertEqual([as_model(it) for it in got], wanted)
        self.calls += [it.number for it in got if isinstance(it, events.Call)]
        self.keys += [it.key for it in got if isinstance(it, events.Replied)][:1]

    def number(self):
        return self.chance.choice(self.calls[-6:] + [0, len(self.calls) + 3])

    def act(self):
        chance = self.chance
        name, text, value = (
            chance.choice([b"a", b"b/c", b"\xc3\xa9"]),
            chance.choice([*TEXTS, None]),
            chance.choice(VALUES),
        )
        number, key = self.number(), chance.choice(self.keys[-4:])
        what = chance.randrange(10)
        if what < 3:
            got = self.both(
                lambda: self.real.call(number, name, text), lambda: self.model.call(number, name, text)
            )
            self.keys += [got] if isinstance(got, int) else []
        elif what == 3:
            calls = [(name, text)] * chance.randrange(3)
            self.both(lambda: self.real.call_batch(number, calls), lambda: self.model.batch(number, calls))
        elif what == 4:
            self.both(lambda: self.real.notify(name, text), lambda: self.model.notify(name, text))
        elif what == 5:
            self.both(lambda: self.real.withdraw(key), lambda: self.model.withdraw(key))
        elif what == 6:
            self.both(lambda: self.real.cancel(number), lambda: self.model.cancel(number))
        elif what == 7:
            code = chance.choice([-32603, 0, 1 << 40])
            self.both(
                lambda: self.real.fail(number, code, "n\u00f6", value),
                lambda: self.model.fail(number, code, "n\u00f6".encode(), value),
            )
        else:
            value = None if chance.random() < 0.3 else value
            self.both(lambda: self.real.answer(number, value), lambda: self.model.answer(number, value))
        self.same()

    def same(self):
        self.case.assertEqual(self.real.pending, self.model.pending())
        self.case.assertEqual(self.real.is_done, self.model.is_done())
        self.case.assertEqual(tuple(self.real.counts()), tuple(self.model.report()))
        self.case.assertEqual(self.real.fault_offset, self.model.fault_place())

    def give(self, other):
        """Gives the other side what is written, cut anyhow, and now and then damaged."""
        most = self.chance.choice([1 << 20, 1 << 20, 40, 7])
        data = self.real.take(most)
        self.case.assertEqual(data, self.model.take(most))
        if data and self.chance.random() < 0.02:
            # (a frame, too, is as long as before)
            data = data.replace(b'"jsonrpc"', b'"jsonrpx"')
        if data or self.framing != "contents":
            other.feed(data)

    def feed(self, data):
        self.both(lambda: self.real.feed(data), lambda: self.model.feed(data))

    def end(self, failed):
        self.both(lambda: self.real.end(failed), lambda: self.model.end("failed" if failed else "closed"))


class Traffic(Case):
    def test_random_traffic(self):
        for seed in range(SESSIONS):
            with self.subTest(seed=seed):
                self.session(random.Random(seed))

    def session(self, chance):
        settings = {
            "framing": chance.choice(["frames", "lines", "contents"]),
            "order": chance.choice(["as-answered", "as-came"]),
            "cancels": chance.choice(["lsp", "mcp", None]),
            "broken": chance.random() < 0.5,
        }
        one, other = Side(self, chance, settings), Side(self, chance, settings)
        for _ in range(STEPS):
            side, beside = chance.choice([(one, other), (other, one)])
            what = chance.randrange(6)
            if what < 3:
                side.act()
            elif what == 3:
                side.listen()
            else:
                side.give(beside)
        for side, beside in ((one, other), (other, one)):
            for _ in range(2000):
                if not side.real.pending:
                    break
                side.give(beside)
            beside.end(chance.random() < 0.2)
            beside.listen()
            beside.act()
        for side in (one, other):
            side.listen()
            side.same()
            side.real.close()
