"""Many sessions at once in which all goes wrong that can, and races of cancels with answers: nothing is left of them.

Variables: BULLMYRTLE_STORM says how many connections there are, and BULLMYRTLE_RACES how many races; 2,000 and 10,000 are whole.
"""
import asyncio
import contextlib
import json
import os
import random
import socket
import struct
import sys
import tempfile
import threading

import misbehaving
from helping import SECONDS, Case, joined, logged, notice, request

from bullmyrtle import LATER, Client, Error, Server

CONNECTIONS = int(os.environ.get("BULLMYRTLE_STORM", "240"))
RACES = int(os.environ.get("BULLMYRTLE_RACES", "1500"))
AT_ONCE = 60


def line(value):
    return json.dumps(value).encode() + b"\n"


class Storms(Case):
    def left(self):
        """How many descriptors and threads there are."""
        return len(os.listdir("/proc/self/fd")), threading.active_count()

    async def settled(self):
        """The same, once the transports are gone too: as soon as it stays for some turns of the loop."""
        seen = [self.left()]
        while seen.count(seen[-1]) < 20:
            await asyncio.sleep(0.01)
            now = self.left()
            seen = [*seen, now] if now == seen[-1] else [now]
        return seen[-1]

    async def served(self, listen, connect):
        with logged() as log:
            server = misbehaving.a_server(open=40)
            server._grace = 0.5

            @server.method("slow")
            async def slow(params):
                await asyncio.sleep(20)

            @server.method("stubborn")
            async def stubborn(params):
                try:
                    await asyncio.sleep(20)
                except asyncio.CancelledError:
                    await asyncio.sleep(0.05)

            @server.method("thread", thread=True)
            def thread(params, request):
                return request.call("nobody")

            server.method("never")(lambda params, request: LATER)
            server.method("much")(lambda params: "x" * 300_000)
            listening = await listen(server)
            address = listening.sockets[0].getsockname()
            tasks = len(asyncio.all_tasks())
            # (what a loop makes once stays, so one connection goes first)
            await self.connection(random.Random(-1), await connect(address), 0)
            await self.until(lambda: not server.sessions and len(asyncio.all_tasks()) == tasks)
            before, gate = await self.settled(), asyncio.Semaphore(AT_ONCE)

            async def one(seed):
                async with gate:
                    await self.connection(random.Random(seed), await connect(address), seed % 12)

            await asyncio.gather(*(one(it) for it in range(CONNECTIONS)))
            await self.until(lambda: not server.sessions and len(asyncio.all_tasks()) == tasks, SECONDS)
            with contextlib.suppress(AssertionError):
                await self.until(lambda: self.left() == before)  # (the last ones may take a moment)
            self.assertEqual(self.left(), before)
            said = (CONNECTIONS, *before, server._served)
            print("%d connections: %d descriptors and %d threads before and after; %d sessions" % said)
            listening.close()
        last_resorts = (
            "the session ends, since",
            "what was put off, or is done at the end, failed",
            "a thread's work failed",
        )
        self.assertEqual([it for it in log.texts if any(one in it for one in last_resorts)], [])

    def said(self, chance):
        """What a client says that is up to no good."""
        names = list(misbehaving.rows())
        said = []
        for at in range(chance.randrange(1, 30)):
            kind = chance.randrange(12)
            if kind < 4:
                said.append(line(request(at, chance.choice(names))))
            elif kind == 4:
                said.append(line(request(at, chance.choice(["slow", "stubborn", "thread", "never"]), [at])))
            elif kind == 5:
                member = chance.choice(['"x":%s', '"requestId":%s']) % ("1" * chance.choice([3, 5000]))
                params = '{"requestId":%d,%s}' % (chance.randrange(30), member)
                said.append(
                    b'{"jsonrpc":"2.0","method":"notifications/cancelled","params":%s}\n' % params.encode()
                )
            elif kind == 6:
                said.append(b'{"jsonrpc":"2.0","method":"ping","params":[%s],"id":%d}\n' % (b"7" * 5000, at))
            elif kind == 7:
                said.append(b"[" + b"1," * chance.randrange(100) + b"1]\n" + b"no json\n\n")
            elif kind == 8:
                said.append(line([request(at, "ping", [at]), notice(chance.choice(names)), 5]))
            elif kind == 9:
                said.append(line({"jsonrpc": "2.0", "id": chance.randrange(1, 5), "result": 10**30}))
            elif kind == 10:
                said.append(line(request(at, "ping", ["x" * chance.choice([10, 200_000])])))
            else:
                said.append(line(request(at, "much")))
        return b"".join(said)

    async def connection(self, chance, streams, how):
        """One connection, that ends in one of several ways."""
        reader, writer = streams
        writer.write(self.said(chance) + line(request("last", "ping", ["last"])))
        try:
            if how < 4:  # (it reads until the last ping's answer, or a refusal of it)
                while True:
                    answer = await asyncio.wait_for(reader.readline(), SECONDS)
                    if b'"id":"last"' in answer or not answer:
                        self.assertIn(b'"id":"last"', answer)
                        break
                if how < 2:
                    writer.write_eof()
                    await asyncio.wait_for(reader.read(), SECONDS)
            elif how < 6:
                await asyncio.sleep(chance.random() / 50)
            elif how < 8:  # (it is reset)
                it = writer.get_extra_info("socket")
                if it.family == socket.AF_INET:
                    it.setsockopt(socket.SOL_SOCKET, socket.SO_LINGER, struct.pack("ii", 1, 0))
            elif how < 10:
                writer.write(b'{"jsonrpc":"2.0","method":"pi')
                await asyncio.sleep(chance.random() / 50)
        except ConnectionError:
            pass
        if not how % 2:
            writer.close()
            # (which first writes what it still has; the server may not read it as long as nobody reads its answers)
            await asyncio.sleep(0.1)
        with contextlib.suppress(AttributeError):  # (asyncio's own, where it is closed already)
            writer.transport.abort()

    async def test_over_tcp(self):
        async def listen(server):
            return await asyncio.start_server(server.serve_async, "127.0.0.1", 0)

        async def connect(address):
            return await asyncio.open_connection(*address, limit=1 << 24)

        await self.served(listen, connect)

    async def test_over_unix_sockets(self):
        with tempfile.TemporaryDirectory() as folder:

            async def listen(server):
                return await asyncio.start_unix_server(server.serve_async, os.path.join(folder, "socket"))

            async def connect(address):
                return await asyncio.open_unix_connection(address, limit=1 << 24)

            await self.served(listen, connect)


class Races(Case):
    """Each kind of method, cancelled as it ends: the request has one answer, and nothing waits for ever."""

    framing = "frames"
    usual = 0.01  # (about how many seconds a call takes, so that cancels come about its end)

    def a_server(self):
        server, loop = Server(framing=self.framing, grace=20), asyncio.get_running_loop()
        server.method("plain")(lambda params: params)
        server.method("two")(lambda params, request: params)

        @server.method("async")
        async def at_once(params):
            return params

        @server.method("sleeps")
        async def sleeps(params):
            await asyncio.sleep(params[0] / 1e6)
            return params

        @server.method("stubborn")
        async def stubborn(params):
            try:
                await asyncio.sleep(params[0] / 1e6)
            except asyncio.CancelledError:
                await asyncio.sleep(0)
            return params

        @server.method("raises")
        async def raises(params):
            await asyncio.sleep(params[0] / 1e6)
            raise Error(1, "raised")

        @server.method("back")
        async def back(params, request):
            return await request.call("echo", params)

        @server.method("thread", thread=True)
        def thread(params, request):
            return params

        @server.method("thread back", thread=True)
        def thread_back(params, request):
            return request.call_and_wait("echo", params)

        @server.method("later")
        def later(params, request):
            loop.call_later(params[0] / 1e6, request.answer, params)
            return LATER

        @server.method("later thread", thread=True)
        def later_thread(params, request):
            request.answer(params)
            return LATER

        @server.method("in thread")
        async def in_thread(params, request):
            return await request.in_thread(lambda: params)

        return server

    KINDS = ["plain", "two", "async", "sleeps", "stubborn", "raises", "back", "thread", "thread back"]
    KINDS += ["later", "later thread", "in thread"]

    async def race(self, client, chance):
        kind, name, member = chance.choice(self.KINDS), "$/cancelRequest", "id"
        if self.framing == "lines":
            name, member = "notifications/cancelled", "requestId"
        params = [chance.randrange(1000), "x" * chance.choice([1, 1, 1, 70_000])]
        call = client.call(kind, params)
        loop = asyncio.get_running_loop()
        began, wait = loop.time(), chance.choice([0, 1, 2, 3])

        def answered(_):
            self.usual += (min(1, loop.time() - began) - self.usual) / 10

        call.add_done_callback(answered)
        if wait:
            await asyncio.sleep(wait * chance.random() * self.usual)
        if chance.random() < 0.2 and call.cancel():
            with self.assertRaises(asyncio.CancelledError):
                await call
            return "given up"
        client.notify(name, {member: call.key})
        try:
            self.assertEqual(await asyncio.wait_for(call, SECONDS), params)
            return "answered"
        except Error as error:
            self.assertIn(error.code, (-32800, 1) if kind == "raises" else (-32800,), kind)
            return "cancelled" if error.code == -32800 else "raised"

    async def test_they_end(self):
        with logged() as log:
            server, client, chance = self.a_server(), Client(framing=self.framing), random.Random(7)
            client.method("echo")(lambda params: params)
            ends = {}
            async with joined(server, client):
                for _ in range(0, RACES, 50):
                    for it in await asyncio.gather(*(self.race(client, chance) for _ in range(50))):
                        ends[it] = ends.get(it, 0) + 1
                self.assertEqual(await client.call("plain", [1]), [1])
                sides = [server.session, client.session]
                await self.until(lambda: all(it._incoming.is_idle for it in sides))
                for it in sides:
                    transport = it._transport
                    counts = transport.connection.counts()
                    self.assertEqual((counts.open, counts.waiting if it is sides[0] else 0), (0, 0))
                    self.assertEqual(
                        (transport.gone, it._incoming._by_id, transport.put_off), (set(), {}, [])
                    )
            self.assertEqual(set(ends), {"answered", "cancelled", "given up", "raised"})
        self.assertEqual(log.texts, [])
        if os.environ.get("BULLMYRTLE_RACES"):
            print(self.framing, ends, file=sys.stderr)


class ToolRaces(Races):
    framing = "lines"
