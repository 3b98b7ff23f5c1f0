"""What the package passes to the library is what C sees: by calls in C that write down what they are given."""
import os
import shutil
import sys
import tempfile
import threading

from helping import HERE, Case, extension_of, made_over, patience

from bullmyrtle import Closed, Connection, Counts, Empty, NoMemory, NotOpen, NotWaiting, Refused, events

SAID = """\
open 1 1 1 1 0 123 9223372036854775808 0 0
feed 3 255
feed 0 -1
feed 1 49
call 18446744073709551615 3 120 2 93
call 0 1 109 0 -1
batch 3 6 99 4 2 3 1 0
batch 0 0 -1 0
notify 2 169 0 -1
notify 1 110 4 125
withdraw 9223372036854775808
answer 1099511627776 4 108
answer 2 0 -1
answer 7 1 49
fail 9 -9223372036854775808 3 103 2 125
fail 9 9223372036854775807 0 -1 0 -1
cancel 7
end 1
"""


class Interface(Case):
    def setUp(self):
        if shutil.which("cc") is None:
            self.skipTest("cc isn't there: nothing shows how C sees what the package passes")
        room = tempfile.TemporaryDirectory()
        self.addCleanup(room.cleanup)
        sources = [os.path.join(HERE, it) for it in ("interface.c", "interface_judge.c")]
        self.kind = made_over(Connection, extension_of(room.name, *sources).Connection)

    def test_it(self):
        event = events.Call((1 << 64) - 1, "a\0b", b"[10]", b'"i"')
        with self.kind("lines", "as-came", True, 123, 1 << 63) as it:
            self.assertIs(it.is_done, True)
            self.assertEqual(it.held, 2 * sys.maxsize + 1)
            self.assertEqual(it.counts(), Counts(1 << 40, 1, 2, 3, 4, 5, 6, 7, 1 << 41))
            it.feed(b"x\0\xff")
            it.feed(b"")
            self.assertEqual((it.events(), it.events()), ([event, event], []))
            it.feed(b"1")
            self.assertEqual((it.next_event(), it.next_event()), (event, None))
            self.assertEqual(it.call((1 << 64) - 1, b"m\0x", b"[]"), 1 << 52)
            it.call(0, "m")
            self.assertEqual(it.call_batch(3, [("ab", b"[1]"), ("c", None)]), 5)
            with self.assertRaises(Empty):
                it.call_batch(0, [])
            it.notify("\u00e9")
            it.notify("n", '{""}')
            with self.assertRaises(NotWaiting):
                it.withdraw(1 << 63)
            it.answer(1 << 40, b"null")
            it.answer(2)
            with self.assertRaises(NoMemory):
                it.answer(7, "1")
            it.fail(9, -(1 << 63), b"msg", b"{}")
            it.fail(9, (1 << 63) - 1)
            with self.assertRaises(NotOpen):
                it.cancel(7)
            it.end(failed=True)
            pending = it.pending
            said = it.take(5) + it.take()
            self.assertEqual((said.decode(), pending), (SAID, len(said)))
        with self.kind(cancels=False) as it:
            self.assertIs(it.is_done, False)
            self.assertTrue(it.take().startswith(b"open 1 0 0 0 0 0 0 0 0\n"))

    def test_what_it_is_made_with(self):
        with self.kind("contents", cancels="mcp", broken=True) as it:
            self.assertEqual(it.take(), b"open 1 2 0 2 1 0 0 0 0\n")
            self.assertEqual(it.fault_offset, (1 << 64) - 1)
            self.assertEqual(it.take(), b"fault_at\n")
        with self.kind(cancels=None) as it:
            self.assertIsNone(it.fault_offset)
        with self.kind(entries=7, null_params=True) as it:
            self.assertEqual(it.take(), b"open 1 0 0 1 0 0 0 7 1\n")

    def test_others_go_on_during_a_long_call(self):
        """Other threads go on, and those that call the same connection wait, also with what closes it."""
        calls = {
            "feed": (b"x",),
            "end": (),
            "events": (),
            "fed": (b"x",),
            "next_event": (),
            "call": (0, "m"),
            "call_batch": (0, [("m", None)]),
            "notify": ("m",),
            "withdraw": (1,),
            "answer": (1, b"1"),
            "fail": (1, 1),
            "cancel": (1,),
            "take": (),
            "counts": (),
            "pending": None,
            "held": None,
            "is_done": None,
            "fault_offset": None,
            "close": (),
        }
        public = {it for it in dir(Connection) if it[0] != "_"}
        self.assertEqual(public, set(calls))
        for name, given in calls.items():
            with self.subTest(name):
                self.check_that_it_waits(name, given)

    def check_that_it_waits(self, name, given):
        (read, write), (told, tell) = os.pipe(), os.pipe()
        it, done = self.kind(), []

        def call():
            try:
                found = getattr(it, name)
                done.append(found if given is None else found(*given))
            except Refused:
                done.append("refused")

        long_one = threading.Thread(target=it.fed, args=(b"wait %d %d" % (read, tell), True))
        long_one.start()
        # (it is in the library by then: else the other one might come before it)
        self.assertEqual(os.read(told, 1), b"x")
        other = threading.Thread(target=call)
        other.start()
        other.join(0.02)
        self.assertEqual((long_one.is_alive(), other.is_alive(), done), (True, True, []))
        os.write(write, b"x")
        for thread in (long_one, other):
            thread.join(patience(30))
            self.assertFalse(thread.is_alive())
        self.assertEqual(len(done), 1)
        if name == "close":
            with self.assertRaises(Closed):
                it.counts()
        for descriptor in (read, write, told, tell):
            os.close(descriptor)
