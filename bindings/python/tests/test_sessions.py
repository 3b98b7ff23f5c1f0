"""Random sessions of a server and a client that call each other and cancel: each call ends, and nothing is kept of it."""
import asyncio
import random

from helping import SECONDS, Case, joined, logged

from bullmyrtle import LATER, Client, Closed, Error, Server

SESSIONS, CALLS = 30, 150
KINDS = ["plain", "async", "thread", "later", "raises", "nope", "back", "deep", "batch", "stubborn"]


def with_methods(side, chance):
    """Registers the methods that both sides have."""

    @side.method("plain")
    def plain(params):
        return params

    @side.method("async")
    async def later_on(params):
        await asyncio.sleep(params[0] / 1000)
        return params

    @side.method("thread", thread=True)
    def thread(params, request):
        return request.call("plain", params) if params[0] % 2 else params

    @side.method("later")
    def later(params, request):
        asyncio.get_running_loop().call_later(params[0] / 1000, answer, request, params)
        return LATER

    def answer(request, params):
        try:
            request.answer(params)
        except Closed:
            pass

    @side.method("raises")
    def raises(params):
        raise Error(params[0], "raised")

    @side.method("back")
    async def back(params, request):
        return await request.call("async", params)

    @side.method("deep")
    async def deep(params, request):
        return await request.call("deep" if params[0] > 3 else "plain", [params[0] - 3])

    @side.method("batch")
    async def batch(params, request):
        found = await request.call_batch(
            [("plain", params), ("raises", params), ("async", params)], return_exceptions=True
        )
        return [found[0], found[1].code, found[2]]

    @side.method("stubborn")
    async def stubborn(params, request):
        try:
            await asyncio.sleep(params[0] / 100)
        except asyncio.CancelledError:
            await asyncio.sleep(0)
        return params


def expected(kind, number):
    if kind == "deep":
        while number > 3:
            number -= 3
        return [number - 3]
    return [[number], number, [number]] if kind == "batch" else [number]


class Sessions(Case):
    framing = "frames"

    def test_random_sessions(self):
        for seed in range(SESSIONS):
            with self.subTest(seed=seed):
                self.wait(self.session(random.Random(seed)), SECONDS / 2)

    async def session(self, chance):
        # (as they came, two sides that call each other may wait for each other for ever)
        how = {"framing": self.framing, "grace": SECONDS / 6}
        server, client = Server(**how), Client(**how)
        with_methods(server, chance)
        with_methods(client, chance)
        async with joined(server, client):
            sides = [server.session, client.session]
            ends = [
                asyncio.ensure_future(self.one(chance, chance.choice([server, client]))) for _ in range(CALLS)
            ]
            kinds = await asyncio.gather(*ends)
            for side in (server, client):
                self.assertEqual(await side.call("plain", [1]), [1])
            # (a thread that got its reply may take a moment to say so)
            await self.until(lambda: all(it._incoming.is_idle and not it._outgoing.blocked for it in sides))
            for it in sides:
                outgoing = it._outgoing
                self.assertEqual((outgoing.replies, it._incoming._by_id, outgoing.blocked), ({}, {}, set()))
                counts = it._transport.connection.counts()
                self.assertEqual(
                    (counts.open, counts.waiting, counts.unreadable, counts.invalid), (0, 0, 0, 0)
                )
        self.assertIn("answered", kinds)

    async def one(self, chance, side):
        """Makes a call, and now and then cancels it in one way or the other; says how it ended."""
        kind, number, patience = chance.choice(KINDS), chance.randrange(1, 12), chance.random()
        await asyncio.sleep(chance.random() / 50)
        call = side.call(kind, [number])
        try:
            if patience < 0.25:
                await asyncio.sleep(chance.random() / 200)
                self.cancel(side, call.key)
            elif patience < 0.4:
                return await self.impatient(call, chance.random() / 200)
            self.assertEqual(await call, expected(kind, number))
            return "answered"
        except Error as error:
            codes = {"raises": (number, -32800), "nope": (-32601, -32800)}
            self.assertIn(error.code, codes.get(kind, (-32800,)), (kind, error))
            return "error"

    @staticmethod
    async def impatient(call, seconds):
        try:
            await asyncio.wait_for(call, seconds)
        except (asyncio.TimeoutError, Error):
            pass
        return "given up"

    def cancel(self, side, key):
        if self.framing == "frames":
            side.notify("$/cancelRequest", {"id": key})
        else:
            side.notify("notifications/cancelled", {"requestId": key})


class ToolSessions(Sessions):
    framing = "lines"


class Quietly(Case):
    def test_nothing_is_logged_that_nobody_meant(self):
        with logged() as log:
            case = Sessions("test_random_sessions")
            case.wait(case.session(random.Random(99)), SECONDS / 2)
        self.assertEqual(log.texts, [])
