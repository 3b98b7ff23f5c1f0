"""The loop of `run`: what asyncio's own does, in the same order, though it reads one descriptor by itself."""
import asyncio
import json
import os
import threading
import time

from helping import SECONDS, Case, by_the_clock, frame, logged, messages, notice, request, rows

from bullmyrtle import Server, _loop
from bullmyrtle._channels import Channel, Descriptors


class Piped(Case):
    """A server over pipes in a loop of ours, and a thread that talks to it."""

    def setUp(self):
        self.loop = _loop.new()
        self.addCleanup(self.loop.close)
        self.given, self.theirs = os.pipe()
        self.ours, self.taken = os.pipe()
        self.addCleanup(os.close, self.ours)

    def served(self, server, talk):
        """Serves while the function `talk` runs in a thread, and gives the status and what that gives."""
        said = []

        def run():
            try:
                said.append(talk())
            finally:
                os.close(self.theirs)

        thread = threading.Thread(target=run)
        thread.start()
        # (without a limit to its time: that would be a timer of the loop's)
        status = self.loop.run_until_complete(server.serve_over(Descriptors(self.given, self.taken)))
        thread.join()
        for it in asyncio.all_tasks(self.loop):
            it.cancel()
            self.loop.run_until_complete(asyncio.wait({it}))
        return status, said[0]

    def send(self, *values):
        os.write(self.theirs, b"".join(map(frame, values)))

    def read(self, count):
        data = b""
        while data.count(b"Content-Length") < count or not data.endswith(b"}"):
            data += os.read(self.ours, 1 << 16)
        return messages(data)


class OfOurs(Piped):
    def test_it_is_ours_where_the_policy_makes_that_of_asyncio(self):
        self.assertIsInstance(self.loop, _loop.Loop)

    def test_another_policy_is_kept(self):
        class Other(asyncio.SelectorEventLoop):
            pass

        before, asyncio.new_event_loop = asyncio.new_event_loop, Other
        try:
            loop = _loop.new()
        finally:
            asyncio.new_event_loop = before
        self.addCleanup(loop.close)
        self.assertIs(type(loop), Other)

    def test_a_message_is_read_without_a_turn_of_the_loop(self):
        server, turns, begins = Server(), [0], threading.Event()
        server.method("echo")(lambda params: params)
        before = self.loop._run_once

        def count():
            turns[0] += 1
            before()

        self.loop._run_once = count

        def turns_of_many():
            began = turns[0]
            for it in range(100):
                self.send(request(it, "echo", [it]))
                self.assertEqual(self.read(1)[0]["result"], [it])
            return turns[0] - began

        def talk():
            self.send(request(0, "echo", []))
            self.read(1)
            time.sleep(0.1)
            for seconds in (None, 20):
                # (on a busy machine the loop may come late to where it waits, but not each time)
                took = [turns_of_many()]
                while took[-1] and len(took) < 5:
                    took.append(turns_of_many())
                self.assertEqual(min(took), 0, seconds)
                # (a timer begins, which is a turn, and behind that the loop waits again)
                self.loop.call_soon_threadsafe(lambda: begins.set() or self.loop.call_later(SECONDS, print))
                self.assertTrue(begins.wait(SECONDS))
                begins.clear()
                self.send(request(0, "echo", []))
                self.read(1)
                time.sleep(0.1)
            return "all"

        self.assertEqual(self.served(server, talk), (0, "all"))


class Order(Piped):
    def test_kinds_begin_as_they_came(self):
        server, began = Server(), []

        @server.method("plain")
        def plain(params):
            began.append(params[0])

        @server.method("async")
        async def later(params):
            began.append(params[0])
            await asyncio.sleep(0)

        def talk():
            for it in range(300):
                said = [notice(name, [3 * it + at]) for at, name in enumerate(("async", "plain", "async"))]
                if it % 2:
                    self.send(*said)
                else:
                    for one in said:
                        self.send(one)
            self.send(request(1, "plain", [900]))
            return self.read(1)[0]["result"]

        self.assertEqual(self.served(server, talk), (0, None))
        self.assertEqual(began, list(range(901)))

    def test_what_a_channel_reads_in_the_turn_in_which_an_earlier_event_begins(self):
        server, began = Server(), []

        @server.method("plain")
        def plain(params):
            began.append(params[0])

        @server.method("async")
        async def later(params):
            began.append(params[0])

        class Turns(Channel):
            takes_turns = True

            def start(self, transport):
                # (the second call of the first turn begins in the second turn)
                first = frame(notice("async", [0])) + frame(notice("async", [1]))
                transport.loop.call_soon(self.turn, transport, first, frame(notice("plain", [2])), None)

            def turn(self, transport, data, *more):
                if data is None:
                    transport.input_ended(False)
                else:
                    transport.received(data)
                    transport.loop.call_soon(self.turn, transport, *more)

        self.assertEqual(self.wait(server.serve_over(Turns())), 0)
        self.assertEqual(began, [0, 1, 2])

    def test_answers_of_tasks_and_replies(self):
        server = Server()

        @server.method("back")
        async def back(params, request):
            await asyncio.sleep(0)
            return [await request.call("ask", params), await request.call("ask", params)]

        def talk():
            for it in range(50):
                self.send(request(it, "back", [it]))
                for _ in range(2):
                    (asked,) = self.read(1)
                    self.send({"jsonrpc": "2.0", "id": asked["id"], "result": asked["params"][0] + 1})
                self.assertEqual(self.read(1)[0]["result"], [it + 1, it + 1])
            return "all"

        self.assertEqual(self.served(server, talk), (0, "all"))


class Others(Piped):
    """What else the loop has to do is done."""

    @by_the_clock
    def test_timers_and_threads_while_messages_come(self):
        server, ticks = Server(), []
        server.method("echo")(lambda params: params)

        @server.method("block", thread=True)
        def block(params):
            time.sleep(0.01)
            return params

        async def tick():
            while True:
                await asyncio.sleep(0.01)
                ticks.append(time.monotonic())

        @server.method("begin")
        async def begin():
            server.ticking = asyncio.ensure_future(tick())

        def talk():
            self.send(request(1, "begin"))
            self.read(1)
            end = time.monotonic() + 1
            while time.monotonic() < end:
                self.send(request(2, "echo", []), request(3, "block", []))
                self.assertEqual({it["id"] for it in self.read(2)}, {2, 3})
            return "all"

        self.assertEqual(self.served(server, talk), (0, "all"))
        self.assertGreater(len(ticks), 5)

    def test_timers_that_begin_while_it_reads(self):
        server, ticks = Server(), []

        @server.method("soon")
        def soon(params):
            self.loop.call_later(params[0], ticks.append, params[0])

        @server.method("ticks")
        def all_ticks():
            return ticks

        def talk():
            # (in one piece, so that nothing comes between that makes the first one sooner, and with so much between them that
            # a busy machine doesn't either)
            self.send(request(1, "soon", [1.1]), request(2, "soon", [0.1]))
            self.read(2)
            end = time.monotonic() + SECONDS
            while len(ticks) < 2:  # (and no message comes meanwhile)
                self.assertLess(time.monotonic(), end, ticks)
                time.sleep(0.01)
            self.send(request(3, "ticks"))
            return self.read(1)[0]["result"]

        self.assertEqual(self.served(server, talk), (0, [0.1, 1.1]))

    def test_what_a_method_asks_of_the_loop_is_done_though_nothing_more_comes(self):
        server, done = Server(), threading.Event()
        waiting = self.loop.create_future()
        waiting.add_done_callback(lambda _: done.set())

        async def task():
            done.set()

        asked = {
            "soon": lambda: self.loop.call_soon(done.set),
            "thread-safe": lambda: self.loop.call_soon_threadsafe(done.set),
            "later": lambda: self.loop.call_later(0, done.set),
            "at": lambda: self.loop.call_at(self.loop.time(), done.set),
            "task": lambda: server.tasks.append(self.loop.create_task(task())),
            "future": lambda: waiting.set_result(None),
        }
        server.tasks = []
        server.method("ask")(lambda params: asked[params[0]]() and None)

        def talk():
            in_time = []
            for it in asked:
                done.clear()
                self.send(request(1, "ask", [it]))
                self.read(1)
                if done.wait(SECONDS):
                    in_time.append(it)
            return in_time

        self.assertEqual(self.served(server, talk), (0, list(asked)))

    @by_the_clock
    def test_a_timer_is_in_time_though_messages_never_end(self):
        server, ticks = Server(), []
        server.method("echo")(lambda params: params)

        @server.method("soon")
        def soon():
            self.loop.call_later(0.1, lambda: ticks.append(time.monotonic()))

        def talk():
            began = time.monotonic()
            self.send(request(1, "soon"))
            self.read(1)
            while time.monotonic() < began + 1 and not ticks:
                self.send(request(2, "echo"))
                self.read(1)
            return bool(ticks)

        self.assertEqual(self.served(server, talk), (0, True))

    def test_messages_while_a_task_never_waits(self):
        server = Server()
        server.method("echo")(lambda params: params)

        @server.method("spin")
        async def spin(params):
            while True:
                await asyncio.sleep(0)

        def talk():
            self.send(request("s", "spin", []))
            for it in range(20):
                self.send(request(it, "echo", [it]))
                self.assertEqual(self.read(1)[0]["result"], [it])
            self.send(notice("$/cancelRequest", {"id": "s"}))
            return self.read(1)[0]["error"]["code"]

        self.assertEqual(self.served(server, talk), (0, -32800))

    def test_another_descriptor_is_told_of_too(self):
        server, seen = Server(), []
        other, pipe = os.pipe()
        self.addCleanup(os.close, other)
        self.addCleanup(os.close, pipe)

        @server.method("begin")
        def begin():
            self.loop.add_reader(other, lambda: seen.append(os.read(other, 10)))

        def talk():
            self.send(request(1, "begin"))
            self.read(1)
            for it in range(20):
                os.write(pipe, b"x")
                while len(seen) <= it:
                    time.sleep(0.001)
                self.send(request(2, "nothing"))
                self.read(1)
            return len(seen)

        self.assertEqual(self.served(server, talk), (0, 20))

    def test_an_error_of_what_it_reads_or_does_soon_is_told_to_the_loops_handler(self):
        class Odd(BaseException):
            pass

        told, raised = [], [ZeroDivisionError(), GeneratorExit(), Odd()]
        self.loop.set_exception_handler(lambda _, about: told.append(type(about["exception"])))

        def fail():
            if raised:
                raise raised.pop()
            os.read(self.given, 1)
            self.loop.call_soon(self.loop.stop)

        def soon():
            raise Odd()

        os.write(self.theirs, b"x")
        self.loop.add_reader(self.given, fail)
        self.loop.read_by(self.given, fail)
        self.loop.before_waiting(soon)
        self.loop.run_forever()
        self.assertEqual(told, [Odd, Odd, GeneratorExit, ZeroDivisionError])
        os.close(self.theirs)

    def test_a_loop_that_is_stopped_stops(self):
        server, is_stopped = Server(), threading.Event()
        server.method("stop")(lambda params: self.loop.stop())
        in_time = []

        def talk():
            self.send(request(1, "stop"))
            self.read(1)
            # (the end of the input makes one turn that isn't stopped in time)
            in_time.append(is_stopped.wait(SECONDS))
            os.close(self.theirs)

        thread = threading.Thread(target=talk)
        thread.start()
        serving = self.loop.create_task(server.serve_over(Descriptors(self.given, self.taken)))
        with self.assertRaises(RuntimeError):
            self.loop.run_until_complete(serving)
        is_stopped.set()
        self.assertEqual(self.loop.run_until_complete(serving), 0)
        thread.join()
        self.assertEqual(in_time, [True])

    def test_debug_mode(self):
        self.loop.set_debug(True)
        server = Server()
        server.method("echo")(lambda params: params)

        def talk():
            self.send(request(1, "echo", [1]))
            return json.dumps(self.read(1)[0]["result"])

        with logged():
            self.assertEqual(self.served(server, talk), (0, "[1]"))


class Pipes(Case):
    def test_a_pipe_has_a_mode_of_its_own(self):
        ours, theirs = os.pipe()
        kept = os.dup(theirs)
        channel = Descriptors(os.open(os.devnull, os.O_RDONLY), theirs)
        self.assertTrue(channel._is_plain)
        self.assertEqual((os.get_blocking(kept), os.get_blocking(theirs)), (True, False))
        self.assertFalse(os.get_inheritable(theirs))
        asyncio.run(channel.close(0))
        os.close(kept)
        self.assertEqual(os.read(ours, 1), b"")
        os.close(ours)

    def test_one_that_cant_be_opened_anew_is_asked_for_room(self):
        opened, os.open = os.open, lambda *_, **__: (_ for _ in ()).throw(OSError())
        ours, theirs = os.pipe()
        try:
            channel = Descriptors(None, theirs)
        finally:
            os.open = opened
        self.assertFalse(channel._is_plain)
        self.assertTrue(os.get_blocking(theirs))
        asyncio.run(channel.close(0))
        os.close(ours)

    @rows([True, False])
    def test_all_that_is_said_goes_out_by_both(self, is_plain):
        given, theirs = os.pipe()
        ours, taken = os.pipe()
        server = Server()
        server.method("much")(lambda params: "x" * params[0])
        sizes, opened = [1, 100_000, 65_000, 70_000, 300_000, 4096, 4095], os.open
        if not is_plain:
            os.open = lambda *_, **__: (_ for _ in ()).throw(OSError())
        try:
            channel = Descriptors(given, taken)
        finally:
            os.open = opened
        self.assertEqual(channel._is_plain, is_plain)
        os.write(theirs, b"".join(frame(request(at, "much", [it])) for at, it in enumerate(sizes)))
        os.close(theirs)
        found = []

        def read(ours=ours, found=found):
            while data := os.read(ours, 1 << 20):
                found.append(data)

        thread = threading.Thread(target=read)
        thread.start()
        self.assertEqual(self.wait(server.serve_over(channel)), 0)
        thread.join()
        os.close(ours)
        self.assertEqual([len(it["result"]) for it in messages(b"".join(found))], sizes)
