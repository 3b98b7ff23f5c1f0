"""Calls to the other side that may take so many seconds."""
import asyncio
import math

from helping import Case, joined, logged, patience

from bullmyrtle import BadSettings, Client, Closed, Error, Server, TimedOut

WORDS = "slow: no reply came within 0.03 seconds"


def a_client(seen, **settings):
    """A client that notes how its slow method ends."""
    client = Client(**settings)

    @client.method("slow")
    async def slow(params):
        try:
            await asyncio.sleep(20)
        except asyncio.CancelledError:
            seen.append("cancelled")
            raise

    @client.method("quick")
    def quick(params):
        return params

    return client


def due_timers():
    return sum(not it.cancelled() for it in asyncio.get_running_loop()._scheduled)


class Timeouts(Case):
    settings = {"framing": "frames"}

    async def over(self, method, kind):
        """What a method gives that calls back, and how the client's slow method ended."""
        seen, server = [], Server(**self.settings)
        server.method("x", thread=kind == "thread")(method)
        async with joined(server, a_client(seen, **self.settings)) as client:
            found = await client.call("x")
            await self.until(lambda: seen)
            # (whatever comes of it now does no harm)
            self.assertEqual(await client.call("x"), found)
            return found, seen[0]

    async def test_async(self):
        async def x(params, request):
            with self.assertRaises(TimedOut) as caught:
                await request.call("slow", timeout=0.03)
            return [str(caught.exception), await request.call("quick", [1], timeout=patience(5))]

        self.assertEqual(await self.over(x, "async"), ([WORDS, [1]], "cancelled"))

    async def test_in_a_thread(self):
        def x(params, request):
            found = []
            for call in (request.call, request.call_and_wait, request.session.call_and_wait):
                with self.assertRaises(TimeoutError) as caught:
                    call("slow", timeout=0.03)
                found.append(str(caught.exception))
            return [*found, request.call("quick", [1], timeout=patience(5))]

        self.assertEqual(await self.over(x, "thread"), ([WORDS] * 3 + [[1]], "cancelled"))

    async def test_of_a_peer(self):
        server, seen = Server(**self.settings), []
        server.method("slow")(lambda params: asyncio.sleep(20))
        async with joined(server, a_client(seen, **self.settings)) as client:
            for one in (server, client, client.session):
                with self.assertRaises(TimedOut):
                    await one.call("slow", timeout=0.03)
            in_thread = server.in_thread(lambda: client.call_and_wait("slow", timeout=0.03))
            with self.assertRaises(TimedOut):
                await in_thread

    async def test_nothing_is_left_of_one_that_is_in_time(self):
        server = Server(**self.settings)
        server.method("now")(lambda params: params)
        async with joined(server, Client(**self.settings)) as client:
            before = due_timers()
            for timeout in (30, 1e9, math.inf, None):
                self.assertEqual(await client.call("now", [1], timeout=timeout), [1])
            self.assertEqual(due_timers(), before)
            waits = client.call("slow", timeout=30)
            waits.cancel()
            await asyncio.sleep(0)
            self.assertEqual(due_timers(), before)
            self.assertEqual(client.session._outgoing.replies, {})

    async def test_of_no_time_at_all(self):
        seen = []
        server = Server(**self.settings)
        async with joined(server, a_client(seen, **self.settings)):
            with self.assertRaises(TimedOut):
                await server.call("slow", timeout=0)

    async def test_no_seconds_call_nobody(self):
        server, called = Server(**self.settings), []
        client = Client(**self.settings)
        client.method("x")(called.append)
        async with joined(server, client):
            for timeout in (-1, "1", True, math.nan, [1]):
                with self.assertRaises(BadSettings) as caught:
                    server.call("x", timeout=timeout)
                self.assertIn(f"no timeout={timeout!r}: it is a number of seconds", str(caught.exception))
            self.assertEqual(await server.call("x", [2], timeout=patience(5)), None)
            self.assertEqual(called, [[2]])

    async def test_a_method_that_catches_nothing_is_answered(self):
        with logged() as log:
            seen, server = [], Server(**self.settings)

            @server.method("x")
            async def x(params, request):
                await request.call("slow", timeout=0.03)

            async with joined(server, a_client(seen, **self.settings)) as client:
                with self.assertRaises(Error) as caught:
                    await client.call("x")
                self.assertEqual(caught.exception.code, -32603)
                self.assertIn(WORDS, caught.exception.message)
        self.assertEqual(log.errors, [])

    async def test_the_request_is_over_first(self):
        seen, found, server = [], [], Server(**self.settings)

        @server.method("x")
        async def x(params, request):
            call = request.call("slow", timeout=0.05)
            request.answer(1)
            with self.assertRaises(Closed):
                await call
            await asyncio.sleep(0.1)
            found.append("closed")

        async with joined(server, a_client(seen, grace=0.05, **self.settings)) as client:
            self.assertEqual(await client.call("x"), 1)
            await self.until(lambda: found)

    async def test_one_that_waits_for_what_is_being_read_is_never_said(self):
        server, called = Server(**self.settings), []
        client = Client(**self.settings)
        client.method("x")(called.append)
        async with joined(server, client):
            session = server.session
            session._transport.aside = asyncio.get_running_loop().create_future()
            waits, other = server.call("x", [1], timeout=0.01), server.call("x", [2], timeout=patience(10))
            with self.assertRaises(TimedOut):
                await waits
            session._transport.was_read([], None)
            await other
            self.assertEqual(called, [[2]])


class ToolTimeouts(Timeouts):
    settings = {"framing": "lines", "protocol": "mcp"}
