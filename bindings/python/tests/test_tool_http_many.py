"""Many sessions over HTTP, half of whose calls are cut and taken up again: nothing is lost, nothing comes twice, and nothing is
kept.

BULLMYRTLE_HTTP_SESSIONS says how many sessions there are, in place of 20: the whole is 1,000, each of 20 calls. And
BULLMYRTLE_HTTP_SEED says where they are cut, in place of 1."""
import asyncio
import gc
import os
import random
import tracemalloc

from asgi_caller import Web
from helping import Case

from bullmyrtle.mcp import Context, ToolServer

SESSIONS = int(os.environ.get("BULLMYRTLE_HTTP_SESSIONS", "20"))
SEED = int(os.environ.get("BULLMYRTLE_HTTP_SEED", "1"))
CALLS, STEPS = 20, 4
INITIALIZE = {
    "protocolVersion": "2025-11-25",
    "capabilities": {},
    "clientInfo": {"name": "t", "version": "1"},
}
#: How many sessions there are at once.
AT_ONCE = 5


def stepping():
    """A server whose tool reports its steps, each in a turn of its own."""
    server = ToolServer("steps")

    @server.tool
    async def step(number: int, context: Context) -> int:
        for it in range(1, STEPS + 1):
            context.report_progress(it)
            await asyncio.sleep(0)
        return number

    return server


async def one_call(web, number, chance):
    """A call's messages, as they came over one connection or several."""
    response = web.call("step", {"number": number}, {"progressToken": number})
    came, last = [], None
    while True:
        stop = chance.randrange(5) if chance.random() < 0.5 else None
        if stop is None:
            await response.whole()
        else:
            await response.until(lambda it: it.is_over or len(it.events) > stop)
            response.cut()
            await response.task
        came += response.messages
        last = response.last_id or last
        if came and "result" in came[-1]:
            return came
        assert last is not None
        response = web.get(last)


async def one_session(case, app, seed):
    chance = random.Random(seed)
    web = Web(app)
    await web.begin()
    for number in range(CALLS):
        came = await one_call(web, number, chance)
        told = [it["params"] for it in came[:-1]]
        case.assertEqual(told, [{"progressToken": number, "progress": it} for it in range(1, STEPS + 1)])
        case.assertEqual(came[-1]["result"]["structuredContent"], {"result": number})
        case.assertEqual(came[-1]["id"], web._last)
    case.assertEqual(await web.delete(), 204)


class Many(Case):
    async def test_they_are_cut_and_go_on(self):
        with self.subTest(seed=SEED):
            app = stepping().asgi(answers="stream")
            peaks = []
            for at in range(0, SESSIONS, AT_ONCE):
                if len(peaks) == 1:
                    tracemalloc.start()
                await asyncio.gather(*(one_session(self, app, SEED + at + it) for it in range(AT_ONCE)))
                await self.until(lambda: app.sessions == 0)
                gc.collect()
                peaks.append(tracemalloc.get_traced_memory()[0])
            tracemalloc.stop()
            # (what is left after the last twenty sessions is what was left after the first ones that were measured)
            self.assertLess(peaks[-1], max(peaks[1], 100_000) + 200_000, peaks)


class Left(Case):
    async def test_memory_of_sessions_that_are_left(self):
        """They end after a time, and nothing is kept of them."""
        app = stepping().asgi(session_seconds=0.05)
        left = []
        for _ in range(4):
            for _ in range(50):
                self.assertIn("result", await Web(app).ask("initialize", INITIALIZE))
            await self.until(lambda: app.sessions == 0)
            gc.collect()
            if not left:
                tracemalloc.start()
            left.append(tracemalloc.get_traced_memory()[0])
        tracemalloc.stop()
        self.assertLess(left[-1], max(left[1], 100_000) + 100_000, left)
