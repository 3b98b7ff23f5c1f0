"""The lower floor: each call, each event and each refusal."""
import contextlib
import gc
import os
import re
import sys
import threading

from helping import TOP, Case, frame, notice, request, rows

import bullmyrtle
from bullmyrtle import Connection, _library, errors, events
from bullmyrtle.testing import carry


def lines(**more):
    return Connection("lines", **more)


class Events(Case):
    def test_a_request_and_its_answer(self):
        with Connection() as connection:
            connection.feed(frame(request(7, "sum", [1, 2.50])))
            self.assertEqual(connection.events(), [events.Call(1, "sum", b"[1,2.5]", b"7")])
            self.assertTrue(events.Call(1, "sum", None, b"7").is_request)
            connection.answer(1, b" 3 ")
            self.assertEqual(
                connection.take(), b'Content-Length: 35\r\n\r\n{"id":7,"jsonrpc":"2.0","result":3}'
            )
            self.assertEqual(connection.pending, 0)

    def test_a_notification_is_closed(self):
        with lines() as connection:
            connection.feed(b'{"jsonrpc":"2.0","method":"saved"}\n')
            self.assertEqual(connection.next_event(), events.Call(1, "saved", None, None))
            self.assertIsNone(connection.next_event())
            self.assertEqual(connection.counts().open, 1)
            connection.answer(1)
            self.assertEqual((connection.counts().open, connection.take()), (0, b""))

    def test_replies(self):
        with lines() as connection:
            keys = [connection.call(0, "ask", b"[]"), connection.call(0, "ask"), connection.call(0, "ask")]
            self.assertEqual(keys, [1, 2, 3])
            connection.take()
            connection.feed(
                b'{"jsonrpc":"2.0","id":2,"error":{"code":-5,"message":"n\xc3\xb6","data":[1]}}\n'
            )
            connection.feed(
                b'{"jsonrpc":"2.0","id":1,"result":1e400}\n{"jsonrpc":"2.0","id":3,"error":{"code":1,"message":""}}\n'
            )
            self.assertEqual(
                connection.events(),
                [
                    events.Failed(2, -5, "n\u00f6", b"[1]"),
                    events.Replied(1, b"1e400"),
                    events.Failed(3, 1, "", None),
                ],
            )

    def test_large_and_many(self):
        large = "x" * 300_000
        with Connection() as connection:
            connection.feed(
                frame(request(1, large, [large])) + frame(request(2, "small")) + frame(request(3, large))
            )
            first = connection.next_event()
            self.assertEqual((first.method, len(first.params)), (large, 300_004))
            self.assertEqual([it.number for it in connection.events()], [2, 3])
            connection.feed(b"".join(frame(notice("n", [it])) for it in range(2000)))
            told = connection.events()
            self.assertEqual([it.params for it in told], [b"[%d]" % it for it in range(2000)])
            connection.answer(1, f'"{large}"')
            self.assertEqual(len(connection.take(10)), 10)
            self.assertEqual(
                len(connection.take()) + 10, 300_000 + len('{"id":1,"jsonrpc":"2.0","result":""}') + 26
            )

    def test_all_events_come_at_once_however_large_they_are(self):
        sizes = [1, 300_000, 5, 70_000, 70_000, *[7] * 2_000, 1_500_000, 2]
        data = b"".join(frame(request(it, "x", ["x" * it])) for it in sizes)
        for way in (
            lambda it: it.feed(data) or it.events(),
            lambda it: it.feed(data) or list(iter(it.next_event, None)),
            lambda it: it.fed(data),
            lambda it: it.fed(data, True),
        ):
            with Connection() as connection:
                self.assertEqual([len(it.params) for it in way(connection)], [it + 4 for it in sizes])
                self.assertEqual(connection.events(), [])

    def test_what_runs_meanwhile_may_ask_for_events_too(self):
        """While an event is made, Python may run what ends objects."""
        data = b"".join(frame(request(it, "x" * it, ["x" * it])) for it in range(200))
        for other in (
            lambda it: told.extend(it.events()),
            lambda it: it.feed(frame(notice("fed"))),
            lambda it: told.append(it.next_event()) or it.feed(frame(notice("fed"))),
        ):
            told = []
            with Connection() as connection:
                connection.feed(data)
                with self.runs_meanwhile(lambda: other(connection)) as times:
                    found = connection.events()
                told = [it for it in (*told, *found, *connection.events()) if it is not None]
                self.assertEqual(sorted(it.number for it in told), list(range(1, len(told) + 1)))
                names = sorted(it.method for it in told if it.method != "fed")
                self.assertEqual(names, ["x" * it for it in range(200)])
                self.assertEqual(len(told) - len(names), connection.counts().calls - 200)
                if sys.version_info < (3, 12):
                    self.assertGreater(len(times), 2)

    @contextlib.contextmanager
    def runs_meanwhile(self, what):
        """Python ends objects as often as it can, and calls this then; up to 3.11 it does so as tuples are made."""
        times = []

        class Ended:
            def __init__(self):
                self.itself = self

            def __del__(self):
                if len(times) < 50:
                    times.append(what())
                    Ended()

        before = gc.get_threshold()
        gc.collect()
        Ended()
        gc.set_threshold(1)
        try:
            yield times
        finally:
            gc.set_threshold(*before)
            times.extend([None] * 50)
            gc.collect()

    def test_texts_of_each_length_lie_where_they_should(self):
        with lines() as connection:
            for length in range(20):
                name, value, id_ = "n" * length, '"%s"' % ("v" * (19 - length)), '"%s"' % ("i" * (length % 8))
                connection.feed(
                    f'{{"jsonrpc":"2.0","method":"{name}","params":[{value}],"id":{id_}}}\n'.encode()
                )
            for length, event in enumerate(connection.events()):
                name, value, id_ = "n" * length, '"%s"' % ("v" * (19 - length)), '"%s"' % ("i" * (length % 8))
                self.assertEqual(event, events.Call(length + 1, name, b"[%s]" % value.encode(), id_.encode()))

    def test_names_may_hold_anything(self):
        name = 'a\0b"\\\n\u00e9\U0001f600'
        with lines() as one, lines() as other:
            one.notify(name, '{"\u00e9\\u0000":[]}')
            carry(one, other)
            self.assertEqual(other.events(), [events.Call(1, name, '{"\u00e9\\u0000":[]}'.encode(), None)])

    def test_what_may_be_fed(self):
        with lines() as connection:
            connection.feed(bytearray(b'{"jsonrpc":"2.0",'))
            connection.feed(memoryview(b'"method":"x"}\n'))
            self.assertEqual(len(connection.events()), 1)
            for it in ("text", 5, None):
                with self.assertRaises(TypeError):
                    connection.feed(it)


class Cancels(Case):
    LSP = b'{"jsonrpc":"2.0","method":"$/cancelRequest","params":{"id":7}}\n'
    MCP = b'{"jsonrpc":"2.0","method":"notifications/cancelled","params":{"requestId":7}}\n'

    @rows([("lsp", LSP), (True, LSP), ("mcp", MCP), (None, None), (False, None)])
    def test_by_each_word(self, cancels, is_one):
        with lines(cancels=cancels) as it:
            it.feed(b'{"jsonrpc":"2.0","method":"build","id":7}\n' + self.LSP + self.MCP)
            told = [isinstance(one, events.Cancelled) for one in it.events()]
            self.assertEqual(told[1:], [is_one == one for one in (self.LSP, self.MCP)])


class BrokenInput(Case):
    """Broken input is told, where that is asked for."""

    def test_of_lines(self):
        before = b'{"jsonrpc":"2.0","method":"a"}\n'
        call = b'{"jsonrpc":"2.0","method":"b","id":1}'
        with lines(broken=True) as it:
            it.feed(before + b"nonsense\n" + b"[5,%s,%s,6]\n" % (call, call) + b"5\n[]\n\xff\0\n")
            told = it.events()
        self.assertEqual(
            told,
            [
                events.Call(1, "a", None, None),
                events.Broken(31, b"nonsense", "Unreadable", 0, 0),
                events.Broken(40, (b"[5,%s,%s,6]" % (call, call))[:64], "Invalid", 0, 2),
                events.Call(2, "b", None, b"1"),
                events.Call(3, "b", None, b"1"),
                events.Broken(122, b"5", "Invalid", 0, 1),
                events.Broken(124, b"[]", "Invalid", 0, 1),
                events.Broken(127, b"\xff\0", "Unreadable", 0, 0),
            ],
        )

    @rows(
        [
            (events.Broken(9, b"x", "Unreadable", 0, 0), "a message can't be read (-32700), at byte 9: b'x'"),
            (events.Broken(0, b"5", "Invalid", 0, 1), "neither a call nor a reply (-32600), at byte 0: b'5'"),
            (
                events.Broken(0, b"[", "Invalid", 3, 1),
                "a batch has an entry that is neither a call nor a reply",
            ),
            (events.Broken(0, b"[", "Invalid", 3, 2), "a batch has 2 entries that are neither a call nor a"),
        ]
    )
    def test_in_words(self, broken, words):
        self.assertIn(words, broken.text)


class Rules(Case):
    """How contents are read, where that can be chosen."""

    @rows([({}, 100_000), ({"entries": (1 << 32) - 1}, 100_001)])
    def test_how_many_entries_a_batch_may_have(self, settings, most):
        for count in (100_000, 100_001):
            with lines(**settings) as it:
                it.feed(b"[" + b",".join([b"1"] * count) + b"]\n")
                it.events()
                self.assertEqual(it.counts().invalid, count if count <= most else 1)

    @rows([({}, None), ({"content": (1 << 31) - 1}, 16_777_220)])
    def test_a_content_over_the_usual_size(self, settings, length):
        text = b'{"jsonrpc":"2.0","method":"a","params":["' + b"x" * 16_777_216 + b'"]}\n'
        with lines(**settings) as it:
            it.feed(text)
            (event,) = it.events()
            self.assertEqual(length, len(event.params) if isinstance(event, events.Call) else None)


class Refusals(Case):
    def setUp(self):
        self.connection = lines()
        self.connection.feed(b'{"jsonrpc":"2.0","method":"a","id":1}\n{"jsonrpc":"2.0","method":"b"}\n')
        self.connection.events()

    def tearDown(self):
        self.connection.close()

    def refused(self, name, call, *words):
        before = self.connection.counts(), self.connection.pending
        with self.assertRaises(name) as caught:
            call(*words)
        self.assertIsInstance(caught.exception, bullmyrtle.Refused)
        self.assertTrue(str(caught.exception))
        self.assertEqual((self.connection.counts(), self.connection.pending), before)

    def test_not_open(self):
        it = self.connection
        for number in (0, 3, -1, 1 << 64, (1 << 64) + 1):
            self.refused(bullmyrtle.NotOpen, it.answer, number, b"1")
            self.refused(bullmyrtle.NotOpen, it.fail, number, 1, "x")
            self.refused(bullmyrtle.NotOpen, it.cancel, number)
            if number:
                self.refused(bullmyrtle.NotOpen, it.call, number, "x")
                self.refused(bullmyrtle.NotOpen, it.call_batch, number, [("x", None)])
        it.answer(1, b"1")
        self.refused(bullmyrtle.NotOpen, it.answer, 1, b"1")
        self.refused(bullmyrtle.NotOpen, it.call, 1, b"\xff", b"nonsense")

    def test_not_waiting(self):
        it = self.connection
        for key in (0, 1, -1, 1 << 64):
            self.refused(bullmyrtle.NotWaiting, it.withdraw, key)
        key = it.call(1, "x")
        it.withdraw(key)
        self.refused(bullmyrtle.NotWaiting, it.withdraw, key)

    @rows([b"\xff", "\ud800", b"\xed\xa0\x80"])
    def test_not_text(self, name):
        it = self.connection
        self.refused(bullmyrtle.NotText, it.call, 0, name)
        self.refused(bullmyrtle.NotText, it.call_batch, 0, [("x", None), (name, None)])
        self.refused(bullmyrtle.NotText, it.notify, name)
        self.refused(bullmyrtle.NotText, it.fail, 1, 1, name)

    def test_not_json(self):
        it = self.connection
        deep = b"[" * 121 + b"]" * 121
        for text in (b"", b" ", b"nope", b"NaN", b"[1,]", b'"\\ud800"', b"\xff", deep, b"1 2", "\ud800"):
            self.refused(bullmyrtle.NotJson, it.answer, 1, text)
            self.refused(bullmyrtle.NotJson, it.notify, "x", text)
            self.refused(bullmyrtle.NotJson, it.fail, 1, 1, "x", text)
        for text in (b"1", b"null", b'"x"'):
            self.refused(bullmyrtle.NotJson, it.call, 1, "x", text)
        self.refused(bullmyrtle.NotJson, it.answer, 1)
        it.answer(1, b"[" * 120 + b"]" * 120)

    @rows(
        [
            ("framing", ("pipes",)),
            ("order", ("soon",)),
            ("content", (0, -1, 1 << 31, 1 << 40)),
            ("calls", (0, 1 << 64)),
            ("entries", (0, -1, 1 << 32, 1.5, True)),
        ]
    )
    def test_settings(self, name, values):
        for it in values:
            with self.assertRaises(bullmyrtle.BadSettings):
                Connection(**{name: it})
        Connection(content=16_777_216, calls=(1 << 64) - 1).close()

    def test_a_code_has_64_bits(self):
        it = self.connection
        for code in (1 << 63, -(1 << 63) - 1):
            with self.assertRaises(ValueError):
                it.fail(1, code, "x")
        it.fail(1, -(1 << 63), "x")
        self.assertIn(b"-9223372036854775808", it.take())

    def test_every_refusal_has_a_name(self):
        names = {it.__name__ for it in errors.Refused.__subclasses__() if it.__module__ == errors.__name__}
        self.assertEqual(len(names), 9)
        self.assertTrue(names <= set(bullmyrtle.__all__))
        self.assertTrue(issubclass(bullmyrtle.NoMemory, MemoryError))

    def test_closed(self):
        it = lines()
        it.close()
        it.close()
        calls = [
            lambda: it.feed(b""),
            it.end,
            it.events,
            it.next_event,
            lambda: it.call(0, "x"),
            lambda: it.call_batch(0, []),
            lambda: it.notify("x"),
            lambda: it.withdraw(1),
            lambda: it.answer(1),
            lambda: it.fail(1, 1),
            lambda: it.cancel(1),
            lambda: it.pending,
            lambda: it.held,
            it.take,
            lambda: it.is_done,
            it.counts,
        ]
        for call in calls:
            with self.assertRaises(bullmyrtle.Closed):
                call()


class Room(Case):
    """What the buffers of a connection have room for follows what waits, and not what has passed."""

    LITTLE = 73_728 + 4_096
    TEXT = b'["' + b"x" * 4_000_000 + b'"]'

    def test_of_output(self):
        for framing in ("frames", "lines", "contents"):
            with self.subTest(framing), Connection(framing) as it:
                self.assertEqual(it.held, 0)
                for _ in range(3):
                    it.notify("a", self.TEXT)
                    self.assertGreater(it.pending, len(self.TEXT))
                    if framing != "contents":  # (whose texts count while they are lent, and here none is)
                        self.assertGreaterEqual(it.held, it.pending)
                        it.take(1_000)
                        self.assertGreaterEqual(it.held, it.pending)
                    self.assertGreater(len(it.take()), len(self.TEXT) - 1_000)
                    self.assertLessEqual(it.held, self.LITTLE)

    def test_of_an_event(self):
        text = b'["' + b"x" * 500_000 + b'"]'
        with lines() as it:
            it.feed(b'{"jsonrpc":"2.0","method":"a","params":' + text + b"}\n")
            self.assertEqual(it.next_event().params, text)
            self.assertGreaterEqual(it.held, len(text))
            self.assertIsNone(it.next_event())
            self.assertLessEqual(it.held, self.LITTLE)


class Threads(Case):
    def test_eight_threads_use_one(self):
        each = 500
        faults, told = [], []
        with Connection() as one, Connection() as other:

            def call(name):
                try:
                    for number in range(each):
                        one.call(0, name, b"[%d]" % number)
                        one.notify(name)
                        with_events(number)
                except Exception as error:
                    faults.append(error)

            def with_events(number):
                if number % 7 == 0:
                    with carrying:
                        other.feed(one.take())
                        for event in other.events():
                            told.append(event)
                            other.answer(event.number, event.params if event.is_request else None)
                        one.feed(other.take())
                        told.extend(one.events())

            carrying = threading.Lock()
            threads = [threading.Thread(target=call, args=(f"t{it}",)) for it in range(8)]
            for it in threads:
                it.start()
            for it in threads:
                it.join()
            with_events(0)
            self.assertEqual(faults, [])
            calls = [it for it in told if isinstance(it, events.Call)]
            self.assertEqual(len(calls), 16 * each)
            for name in {it.method for it in calls}:
                numbers = [it.params for it in calls if it.method == name and it.is_request]
                self.assertEqual(numbers, [b"[%d]" % it for it in range(each)])
            self.assertEqual(
                sorted(it.key for it in told if isinstance(it, events.Replied)), list(range(1, 8 * each + 1))
            )


class Header(Case):
    """The package's words stand in the order of the header's numbers. (All else of it the extension's compiler reads.)"""

    def setUp(self):
        file = os.path.join(TOP, "include", "bullmyrtle.h")
        if not os.path.isfile(file):
            self.skipTest("the header isn't there")
        with open(file, encoding="utf-8") as header:
            text = re.sub(r"/\*.*?\*/", "", header.read(), flags=re.S)
        self.lists = [re.findall(r"BM_\w+", it) for it in re.findall(r"enum \{(.*?)\}", text, re.S)]

    def test_enums(self):
        def in_words(names):
            return ["BM_" + it.upper().replace("-", "_") for it in names]

        self.assertIn(in_words(_library.FRAMINGS), self.lists)
        self.assertIn(in_words(_library.ORDERS), self.lists)
        self.assertIn(in_words(f"cancels-{it or 'none'}" for it in _library.CANCELS), self.lists)
        self.assertIn(in_words(f"rules-{it.replace(':', '-')}" for it in _library.RULES), self.lists)
        self.assertIn(in_words(events.DEFECTS), self.lists)
        hows = next(it for it in self.lists if it[0] == "BM_OVER_CLEAN")
        ours = {"Read": "READ", "Full": "CALLS"}
        spelled = [ours.get(it) or re.sub(r"(?<=[a-z])([A-Z])", r"_\1", it).upper() for it in events.HOWS]
        self.assertEqual([f"BM_OVER_{it}" for it in spelled], hows)
