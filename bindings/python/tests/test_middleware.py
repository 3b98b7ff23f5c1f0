"""What stands around methods: functions of the program's, and time limits."""
import asyncio
import threading
import time

from helping import SECONDS, Case, joined, logged, patience

import bullmyrtle
from bullmyrtle import Client, Error, Server


async def code_of(call):
    try:
        await call
    except Error as error:
        return error.code
    return 0


class Middleware(Case):
    def server(self):
        """A server with a method of each kind, and a middleware that keeps what it sees."""
        server = Server()
        self.seen = []

        @server.middleware
        def watch(request, params):
            self.seen.append(("before", request.method, params, request.is_notification))
            try:
                result = yield
            except BaseException as error:
                self.seen.append((type(error).__name__, request.method))
                raise
            self.seen.append(("after", request.method, result))

        def fails():
            raise Error(-32001, "no")

        async def waits(a, b=2):
            await asyncio.sleep(0)
            return a + b

        server.method("plain")(lambda params: params)
        server.method("fails")(fails)
        server.method("waits")(waits)
        server.method("threaded", thread=True)(
            lambda: threading.current_thread() is not threading.main_thread()
        )
        server.method("given")(lambda params, request: server.in_thread(time.sleep, 0))
        return server

    async def run_with(self, server, *calls):
        async with joined(server) as client:
            codes = []
            for name, params in calls:
                codes.append(await code_of(client.call(name, params)))
            client.notify("plain", ["n"])
            await code_of(client.call("unknown"))
        return codes

    async def test_around_each_kind(self):
        calls = [("plain", {"a": 1}), ("fails", None), ("waits", [1]), ("threaded", None), ("given", None)]
        codes = await self.run_with(self.server(), *calls)
        self.assertEqual(codes, [0, -32001, 0, 0, 0])
        expected = []
        for (name, params), last in zip(
            calls,
            [("after", "plain", {"a": 1}), ("Error", "fails"), ("after", "waits", 3)]
            + [("after", "threaded", True), ("after", "given", None)],
        ):
            expected += [("before", name, params, False), last]
        expected += [("before", "plain", ["n"], True), ("after", "plain", ["n"])]
        # (what nobody knows is seen too)
        expected += [("before", "unknown", None, False), ("Error", "unknown")]
        self.assertEqual(self.seen, expected)

    async def test_params_that_do_not_fit_are_seen(self):
        self.assertEqual(
            await self.run_with(self.server(), ("waits", []), ("waits", [1, 2, 3])), [-32602, -32602]
        )
        self.assertEqual(self.seen[:2], [("before", "waits", [], False), ("InvalidParams", "waits")])

    async def test_it_forbids(self):
        server = self.server()

        @server.middleware
        def forbid(request, params):
            if request.method == "plain" and not request.is_notification:
                raise Error(-32000, "forbidden")
            yield

        self.assertEqual(await self.run_with(server, ("plain", []), ("waits", [1])), [-32000, 0])
        # (the outer one sees that)
        self.assertEqual(self.seen[1], ("Error", "plain"))

    async def test_the_first_is_outermost(self):
        server, order = Server(), []

        def around(name):
            def it(request, params):
                order.append(f"{name} before")
                yield
                order.append(f"{name} after")

            return it

        for name in "abc":
            server.middleware(around(name))
        server.method("plain")(lambda params: order.append("method"))
        await self.run_with(server)
        names = ["a before", "b before", "c before", "method", "c after", "b after", "a after"]
        # (and once more around what nobody knows, which raises)
        self.assertEqual(order, [*names, "a before", "b before", "c before"])

    async def test_another_error_in_its_place(self):
        server = self.server()

        @server.middleware
        def hide(request, params):
            try:
                yield
            except ValueError as error:
                raise Error(-32005, "hidden") from error

        @server.method("raises")
        async def raises():
            raise ValueError("secret")

        self.assertEqual(await self.run_with(server, ("raises", None)), [-32005])
        self.assertEqual(self.seen[1], ("Error", "raises"))

    async def test_a_cancel_is_seen(self):
        server = self.server()
        server.method("sleeps")(lambda: asyncio.sleep(60))
        async with joined(server) as client:
            call = client.call("sleeps")
            await self.until(lambda: self.seen)
            client.notify("$/cancelRequest", {"id": call.key})
            self.assertEqual(await code_of(call), -32800)
        self.assertEqual(self.seen[1], ("CancelledError", "sleeps"))

    async def test_notifications_that_nobody_knows(self):
        server = self.server()
        with logged() as log:
            async with joined(server) as client:
                for name in ("unknown", "$/unknown"):
                    client.notify(name, [])
                    self.assertEqual(await code_of(client.call(name)), -32601)
        expected = []
        for name in ("unknown", "$/unknown"):
            expected += [("before", name, [], True), ("after", name, None)]
            expected += [("before", name, None, False), ("Error", name)]
        self.assertEqual(self.seen, expected)
        self.assertEqual(log.texts, [])

    async def test_around_a_fallback(self):
        server = self.server()
        server.fallback(lambda params, request: request.method)
        await self.run_with(server, ("another", [1]))
        self.assertEqual(self.seen[:2], [("before", "another", [1], False), ("after", "another", "another")])

    async def test_what_is_none(self):
        server = Server()
        with self.assertRaises(TypeError):
            server.middleware(lambda request, params: None)

        @server.middleware
        def twice(request, params):
            yield
            yield

        server.method("plain")(lambda params: params)
        with logged() as log:
            self.assertEqual(await self.run_with(server, ("plain", [])), [-32603])
        self.assertIn("yielded twice", str(log.errors[0].exc_info[1]))
        server = Server()

        @server.middleware
        def never(request, params):
            if params is None:
                yield

        server.method("plain")(lambda params: params)
        with logged():
            self.assertEqual(await self.run_with(server, ("plain", [])), [-32603])


class Limits(Case):
    async def test_they_are_kept(self):
        server = Server()
        ended = []

        @server.method("waits", timeout=patience(1))
        async def waits(params, request):
            try:
                await asyncio.sleep(params[0])
            finally:
                ended.append(request.is_cancelled)
            return "done"

        @server.method("threaded", thread=True, timeout=patience(1))
        def threaded(params, request):
            while params[0] and not request.is_cancelled:
                time.sleep(0.001)
            ended.append(request.is_cancelled)
            return "done"

        @server.method("asks", thread=True, timeout=patience(1))
        def asks(params, request):
            try:
                request.call("never")
            except bullmyrtle.Closed:
                ended.append("closed")

        with logged() as log:
            client = Client()
            client.method("never")(lambda: asyncio.sleep(patience(60)))
            async with joined(server, client):
                for name in ("waits", "threaded"):
                    self.assertEqual(await client.call(name, [0]), "done")
                    with self.assertRaises(Error) as caught:
                        await client.call(name, [patience(60)])
                    self.assertEqual(caught.exception.code, -32803)
                    self.assertIn(f"{patience(1)} seconds", caught.exception.message)
                self.assertEqual(await code_of(client.call("asks", [])), -32803)
                await self.until(lambda: len(ended) == 5)
                client.notify("waits", [patience(60)])
                await self.until(lambda: len(ended) == 6)
        self.assertEqual(ended, [False, True, False, True, "closed", True])
        self.assertEqual(len(log.texts), 4, log.texts)
        self.assertTrue(all(f"longer than {patience(1)} seconds" in it for it in log.texts))

    async def test_what_never_ends(self):
        """A task that doesn't let itself be cancelled, and a thread that never looks: each is answered all the same."""
        server = Server(grace=0.1)
        go_on = threading.Event()

        @server.method("deaf", timeout=0.05)
        async def deaf():
            while not go_on.is_set():
                try:
                    await asyncio.sleep(0.01)
                except asyncio.CancelledError:
                    pass

        server.method("blocked", thread=True, timeout=0.05)(lambda: go_on.wait(SECONDS))
        with logged():
            async with joined(server) as client:
                start = time.monotonic()
                for name in ("deaf", "blocked"):
                    self.assertEqual(await code_of(client.call(name)), -32803)
                self.assertLess(time.monotonic() - start, patience(5))
                self.assertEqual(await code_of(client.call("unknown")), -32601)
                go_on.set()

    async def test_under_a_middleware(self):
        server = Server()
        seen = []

        @server.middleware
        def watch(request, params):
            try:
                yield
            except BaseException as error:
                seen.append(type(error).__name__)
                raise

        server.method("waits", timeout=0.02)(sleeps)
        with logged():
            async with joined(server) as client:
                self.assertEqual(await code_of(client.call("waits")), -32803)
        self.assertEqual(seen, ["CancelledError"])

    async def test_many_leave_no_timers(self):
        server = Server()

        @server.method("quick", timeout=60)
        async def quick():
            return 1

        async with joined(server) as client:
            await asyncio.gather(*(client.call("quick") for _ in range(1_000)))
            timers = [it for it in asyncio.get_running_loop()._scheduled if not it.cancelled()]
            self.assertLess(len(timers), 10)

    def test_a_plain_function_has_none(self):
        with self.assertRaises(TypeError) as caught:
            Server().method("plain", timeout=1)(lambda: None)
        self.assertIn("thread=True", str(caught.exception))

    async def test_in_a_class(self):
        class Methods:
            @bullmyrtle.method("waits", timeout=0.02)
            async def waits(self):
                await asyncio.sleep(60)

        server = Server()
        server.register(Methods())
        with logged():
            async with joined(server) as client:
                self.assertEqual(await code_of(client.call("waits")), -32803)


async def sleeps():
    await asyncio.sleep(60)
