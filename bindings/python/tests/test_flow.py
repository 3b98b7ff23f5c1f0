"""How much is taken in and held: large contents that are read aside, and a reader that is slow."""
import asyncio
import contextlib
import json
import os
import socket
import threading
import time
from unittest import mock

from helping import Case, by_the_clock, joined, logged, notice, patience, request, rows

from bullmyrtle import LATER, Client, Closed, Error, NotJson, NotOpen, Server, Unanswered
from bullmyrtle._channels import Descriptors

MIB = 1 << 20


def line(value):
    return json.dumps(value).encode() + b"\n"


def large(id_, size=100_000):
    """A request that is read aside."""
    return line(request(id_, "size", ["x" * size]))


def is_closed(connection):
    try:
        connection.counts()
    except Closed:
        return True
    return False


class Aside(Case):
    """While a large content is read in another thread, the session waits and the others go on."""

    class Blocked:
        """Keeps a session's thread in the reading of a large content, until it is let go. (Who waited for the thread
        would wait for so many seconds.)"""

        SECONDS = patience(60)

        def __init__(self, session):
            self.session, self.connection = session, session._transport.connection
            self.is_in, self.may_go = threading.Event(), threading.Event()
            self.fed = self.connection.fed
            self.connection.fed = self.read

        def read(self, data, aside=False):
            if not aside:
                return self.fed(data)
            self.is_in.set()
            if not self.may_go.wait(self.SECONDS):
                raise RuntimeError("it wasn't let go")
            return self.fed(data, True)

        async def reached(self):
            is_in = await asyncio.get_running_loop().run_in_executor(None, self.is_in.wait, self.SECONDS)
            assert is_in, "no large content is read in another thread"

        def let_go(self):
            self.may_go.set()
            self.connection.fed = self.fed

    @contextlib.asynccontextmanager
    async def served(self, **settings):
        """A server, and what makes a client over TCP with the server's session."""
        with logged() as log:
            server, sides = Server(framing="lines", grace=2, **settings), []
            server.method("size")(lambda params: len(params[0]))
            server.method("echo")(lambda params: params)
            listening = await asyncio.start_server(server.serve_async, "127.0.0.1", 0)

            async def joint():
                client = Client(framing="lines")
                client.connect(*await asyncio.open_connection(*listening.sockets[0].getsockname()))
                sides.append(client)
                self.assertEqual(await client.call("echo", [0]), [0])
                return client, server.sessions[-1]

            yield server, joint
            for it in sides:
                await it.close()
            listening.close()
            await self.until(lambda: not server.sessions)
        self.texts = log.texts

    async def test_it_is_read_in_another_thread_and_what_follows_in_order(self):
        async with self.served() as (_, joint):
            client, session = await joint()
            threads, fed = [], session._transport.connection.fed

            def read(data, aside=False):
                threads.append((aside, threading.get_ident() == session._transport.thread))
                return fed(data, aside)

            session._transport.connection.fed = read
            sizes = [10, 100_000, 20, 3_000_000, 30]
            found = await asyncio.gather(*(client.call("size", ["x" * it]) for it in sizes))
            self.assertEqual(found, sizes)
            self.assertEqual(set(threads), {(False, True), (True, False)})
        self.assertEqual(self.texts, [])

    async def test_other_sessions_go_on_and_its_own_waits(self):
        async with self.served() as (_, joint):
            (client, session), (other, _) = await joint(), await joint()
            blocked = self.Blocked(session)
            calls = [client.call("size", ["x" * 100_000]), client.call("echo", [1])]
            await blocked.reached()
            for it in range(20):
                self.assertEqual(
                    await asyncio.wait_for(other.call("echo", [it]), self.Blocked.SECONDS / 2), [it]
                )
            self.assertFalse(calls[0].done() or calls[1].done())
            blocked.let_go()
            self.assertEqual(await asyncio.gather(*calls), [100_000, [1]])
        self.assertEqual(self.texts, [])

    async def test_what_the_session_says_meanwhile_goes_out_afterwards(self):
        async with self.served() as (server, joint):
            told, kept, free = [], [], threading.Event()
            finish = asyncio.Event()

            @server.method("async")
            async def later(params):
                await finish.wait()
                return "async"

            @server.method("thread", thread=True)
            def thread(params):
                free.wait(self.Blocked.SECONDS)
                return "thread"

            @server.method("hand")
            def hand(params, request):
                kept.append(request)
                return LATER

            @server.method("back", thread=True)
            def back(params, request):
                free.wait(self.Blocked.SECONDS)
                return request.call_and_wait("ask", params)

            client, session = await joint()
            client.method("note")(told.append)
            client.method("ask")(lambda params: params)

            @client.method("never")
            async def never(params):
                await asyncio.sleep(20)

            calls = {it: client.call(it, [1]) for it in ("async", "thread", "back", "hand")}
            failing = client.call("hand", [2])
            await self.until(lambda: len(kept) == 2)
            waiting = session.call("never")
            blocked = self.Blocked(session)
            large = client.call("size", ["x" * 100_000])
            await blocked.reached()

            finish.set()
            free.set()
            kept[0].answer("hand")
            kept[1].fail(Error(5, "five", [5]))
            with self.assertRaises(NotOpen):
                kept[0].answer("again")
            with self.assertRaises(NotJson):
                session.notify("note", 5)
            session.notify("note", [1])
            own, gone = session.call("ask", [2]), session.call("ask", [9])
            batch = session.call_batch([("ask", [3]), ("ask", [4])])
            self.assertTrue(gone.cancel())
            self.assertTrue(waiting.cancel())
            with self.assertRaises(ValueError):
                session.call_batch([])
            began = time.monotonic()
            await asyncio.sleep(0.1)
            self.assertLess(time.monotonic() - began, self.Blocked.SECONDS / 2)
            self.assertFalse(own.done() or batch.done() or calls["async"].done())

            blocked.let_go()
            self.assertEqual((await own, await batch, await large), ([2], [[3], [4]], 100_000))
            self.assertEqual(await calls["back"], [1])
            for it in ("async", "thread", "hand"):
                self.assertEqual(await calls[it], it)
            with self.assertRaises(Error) as caught:
                await failing
            self.assertEqual((caught.exception.code, caught.exception.data), (5, [5]))
            self.assertEqual(told, [[1]])
            self.assertEqual((session._outgoing.replies, session._incoming.open), ({}, {}))
            counts = session._transport.connection.counts()
            # (that which nobody waited for any more wasn't said)
            self.assertEqual((counts.own_calls, counts.open), (5, 0))
        self.assertEqual(self.texts, [])

    async def test_a_cancel_and_the_end_wait_too(self):
        async with self.served() as (server, joint):
            began = []

            @server.method("slow")
            async def slow(params):
                began.append(1)
                await asyncio.sleep(20)

            client, session = await joint()
            waiting = client.call("slow")
            await self.until(lambda: began)
            blocked = self.Blocked(session)
            large = client.call("size", ["x" * 100_000])
            await blocked.reached()
            client.notify("notifications/cancelled", {"requestId": waiting.key})
            client.session._transport.finish()
            await asyncio.sleep(0.05)
            self.assertFalse(waiting.done())
            blocked.let_go()
            with self.assertRaises(Error) as caught:
                await waiting
            self.assertEqual((caught.exception.code, await large), (-32800, 100_000))
        self.assertEqual(self.texts, [])

    async def test_a_session_that_is_closed_meanwhile(self):
        async with self.served() as (_, joint):
            client, session = await joint()
            blocked = self.Blocked(session)
            large = client.call("size", ["x" * 100_000])
            await blocked.reached()
            own = session.call("echo")
            began = time.monotonic()
            await session.close(0)
            self.assertLess(time.monotonic() - began, self.Blocked.SECONDS / 2)
            with self.assertRaises(Closed):
                await own
            with self.assertRaises((Unanswered, Closed)):
                await large
            blocked.let_go()
            await self.until(lambda: is_closed(session._transport.connection))
            with self.assertRaises(Closed):
                session.notify("x")
            session._transport.is_over_by("Read")  # (for `serve`, which still waits)

    async def test_stop_meanwhile(self):
        async with self.served() as (_, joint):
            client, session = await joint()
            blocked = self.Blocked(session)
            large = client.call("size", ["x" * 100_000])
            await blocked.reached()
            session.stop(3)
            blocked.let_go()
            with self.assertRaises((Error, Unanswered, Closed)):
                await large

    async def test_no_thread_can_be_started(self):
        async with self.served() as (_, joint):
            client, _ = await joint()
            start = threading.Thread.start

            def limited(thread):
                if thread.name == "bullmyrtle-reading":
                    raise RuntimeError("can't start new thread")
                start(thread)

            with mock.patch.object(threading.Thread, "start", limited):
                self.assertEqual(await client.call("size", ["x" * 1_000_000]), 1_000_000)
        self.assertEqual(self.texts, [])

    async def test_descriptors_write_all_though_they_are_kept_from_it(self):
        given, theirs = os.pipe()
        ours, taken = os.pipe()
        server = Server(framing="lines")
        server.method("size")(lambda params: len(params[0]))
        server.method("much")(lambda params: "x" * 700_000)
        serving = asyncio.ensure_future(server.serve_over(Descriptors(given, taken)))
        await asyncio.sleep(0)
        loop, got = asyncio.get_running_loop(), []

        def read():
            while data := os.read(ours, 1 << 16):
                got.append(data)

        os.write(theirs, line(request(1, "much")))
        await self.until(lambda: not server.session._transport.channel.is_idle)
        blocked = self.Blocked(server.session)
        writing = loop.run_in_executor(None, os.write, theirs, large(2, 300_000))
        await blocked.reached()
        reading = loop.run_in_executor(None, read)
        await asyncio.sleep(0.1)
        blocked.let_go()
        await writing
        os.close(theirs)
        self.assertEqual(await serving, 0)
        await reading
        os.close(ours)
        answers = [json.loads(it)["result"] for it in b"".join(got).splitlines()]
        self.assertEqual([len(answers[0]), answers[1]], [700_000, 300_000])

    @by_the_clock
    async def test_other_sessions_answer_in_time(self):
        """The longest that a session waits for an answer, while another one gets a content of 16 MB."""

        async def longest(server, address):
            loop = asyncio.get_running_loop()
            client = Client(framing="lines")
            client.connect(*await asyncio.open_connection(*address))
            stream = socket.create_connection(address)
            is_read = loop.create_future()

            def send():
                # (which can't be read, and that is known at its end)
                stream.sendall(b"[" + b"1," * (8 * 1000 * 1000 - 100) + b"\n" + line(request(1, "echo", [])))
                stream.recv(1 << 16)
                loop.call_soon_threadsafe(is_read.set_result, None)

            sending = loop.run_in_executor(None, send)
            took, began = [], time.perf_counter()
            while not is_read.done():
                await client.call("echo", [1])
                await asyncio.sleep(0.001)
                now = time.perf_counter()
                took.append(now - began)
                began = now
            await sending
            stream.close()
            await client.close()
            return max(took)

        with logged():
            server = Server(framing="lines")
            server.method("echo")(lambda params: params)
            listening = await asyncio.start_server(server.serve_async, "127.0.0.1", 0)
            times = []
            # (whatever else the machine does adds to it)
            while not times or (min(times) > 0.05 and len(times) < 6):
                times.append(await longest(server, listening.sockets[0].getsockname()))
            listening.close()
            self.assertLess(min(times), 0.05)


class SlowReader(Case):
    """Calls begin as long as what is said is read; all else is told on."""

    @contextlib.asynccontextmanager
    async def piped(self, count=60, size=1_000_000, **settings):
        """Serves what 6 KB ask for, of which nothing is read at first."""
        given, theirs = os.pipe()
        ours, taken = os.pipe()
        server, began = Server(**{"framing": "lines", "grace": 60, **settings}), []

        @server.method("much")
        def much(params):
            began.append(params[0])
            return "x" * size

        serving = asyncio.ensure_future(server.serve_over(Descriptors(given, taken)))
        await asyncio.sleep(0)
        asked = b"".join(line(request(it, "much", [it])) for it in range(count))
        self.assertLess(len(asked), 6_000)
        read = self.reader(ours)
        yield server, began, lambda data: os.write(theirs, data), asked, read
        os.close(theirs)
        self.answers = await read(None)
        self.status = await serving
        os.close(ours)

    def reader(self, descriptor):
        rest = [b""]

        def read_until(count):
            found = []
            while count is None or len(found) < count:
                data = os.read(descriptor, 1 << 20)
                if not data:
                    break
                *lines, rest[0] = (rest[0] + data).split(b"\n")
                found += map(json.loads, lines)
            return {it.get("id"): it for it in found}

        async def read(count):
            return await asyncio.get_running_loop().run_in_executor(None, read_until, count)

        return read

    async def test_no_call_begins_while_much_waits(self):
        async with self.piped() as (server, began, write, asked, read):
            write(asked)
            await self.until(lambda: len(began) >= 2)
            await asyncio.sleep(0.1)
            # (1 MiB may wait: that is one result, and the second one is over it)
            self.assertEqual(began, [0, 1])
            self.assertLess(server.session._transport.pending, 3 * MIB)
            self.assertEqual(set(await read(2)), {0, 1})
        self.assertEqual((self.status, began), (0, list(range(60))))
        self.assertEqual(len(self.answers), 58)

    @rows(
        [
            ("notifications/cancelled", "requestId", -32800, {}),
            ("$/cancelRequest", "id", -32800, {"cancel_by": "$/cancelRequest"}),
            ("notifications/cancelled", "requestId", None, {"protocol": "mcp"}),
        ]
    )
    async def test_replies_cancels_and_notifications_of_tasks_are_told_on(self, name, member, code, settings):
        async with self.piped(**settings) as (server, began, write, asked, _):
            told, key = [], []

            @server.method("ask")
            async def ask(params, request):
                call = request.call("name")
                key.append(call.key)
                told.append(await call)

            @server.method("slow")
            async def slow():
                try:
                    await asyncio.sleep(20)
                except asyncio.CancelledError:
                    told.append("cancelled")
                    raise

            write(line(notice("ask")) + line(request("slow", "slow")))
            await self.until(lambda: key and len(server.session._incoming.open) == 2)
            write(
                asked
                + line({"jsonrpc": "2.0", "id": key[0], "result": "Ys"})
                + line(notice(name, {member: "slow"}))
                + b"".join(line(notice(name, {member: it})) for it in range(40, 60))
            )
            await self.until(lambda: len(told) == 2)
            self.assertEqual((sorted(told), began), (["Ys", "cancelled"], [0, 1]))
        # (those that were cancelled meanwhile never begin)
        self.assertEqual((self.status, began), (0, list(range(40))))
        codes = {self.answers[it]["error"]["code"] if it in self.answers else None for it in range(40, 60)}
        self.assertEqual(codes, {code})

    async def test_the_end_is_told_on(self):
        async with self.piped() as (server, began, write, asked, _):
            found = []

            @server.method("ask")
            async def ask(params, request):
                try:
                    await request.call("nobody")
                except Unanswered as error:
                    found.append(error)

            write(line(notice("ask")))
            await self.until(lambda: len(server.session._outgoing.replies) == 1)
            write(asked[: asked.index(b"\n", 400) + 1])
            await self.until(lambda: len(began) == 2)
            server.session._transport.input_ended(False)
            await self.until(lambda: found)
            self.assertEqual(began, [0, 1])
        self.assertEqual(self.status, 0)
        self.assertEqual(len(began), len([it for it in self.answers.values() if "result" in it]))
        self.assertGreater(len(began), 3)

    async def test_nobody_ever_reads(self):
        with logged():
            given, theirs = os.pipe()
            ours, taken = os.pipe()
            server, began = Server(framing="lines", grace=0.2), []

            @server.method("much")
            def much(params):
                began.append(params)
                return "x" * 1_000_000

            serving = asyncio.ensure_future(server.serve_over(Descriptors(given, taken)))
            await asyncio.sleep(0)
            os.write(theirs, b"".join(line(request(it, "much")) for it in range(50)))
            await self.until(lambda: len(began) == 2)
            server.session._transport.input_ended(False)
            self.assertEqual((await serving, len(began)), (1, 2))
            os.close(theirs)
            os.close(ours)

    async def test_nobody_reads_any_more(self):
        # (what is said then isn't kept)
        with logged():
            given, theirs = os.pipe()
            ours, taken = os.pipe()
            server, began = Server(framing="lines", grace=2), []

            @server.method("much")
            def much(params):
                began.append(server.session._transport.pending)
                return "x" * 1_000_000

            serving = asyncio.ensure_future(server.serve_over(Descriptors(given, taken)))
            await asyncio.sleep(0)
            os.write(theirs, b"".join(line(request(it, "much")) for it in range(50)))
            await self.until(lambda: len(began) == 2)
            os.close(ours)
            self.assertEqual(await serving, 1)
            os.close(theirs)
            self.assertLess(max(began), 3 * MIB)

    async def test_over_tcp(self):
        server, began = Server(framing="lines"), []

        @server.method("much")
        def much(params):
            began.append(params[0])
            return "x" * 1_000_000

        async def serve(reader, writer):
            writer.get_extra_info("socket").setsockopt(socket.SOL_SOCKET, socket.SO_SNDBUF, 1 << 16)
            await server.serve_async(reader, writer)

        listening = await asyncio.start_server(serve, "127.0.0.1", 0)
        stream = socket.socket()
        stream.setsockopt(socket.SOL_SOCKET, socket.SO_RCVBUF, 1 << 16)
        stream.connect(listening.sockets[0].getsockname())
        stream.sendall(b"".join(line(request(it, "much", [it])) for it in range(60)))
        await self.until(lambda: len(began) >= 2)
        await asyncio.sleep(0.2)
        self.assertLess(len(began), 6)
        stream.shutdown(socket.SHUT_WR)
        read = self.reader(stream.fileno())
        self.assertEqual(set(await read(None)), set(range(60)))
        self.assertEqual(began, list(range(60)))
        stream.close()
        listening.close()

    async def test_what_methods_say_besides_their_results_counts_too(self):
        async with self.piped() as (server, _, write, _, _):
            count = []

            @server.method("tell")
            def tell(params, request):
                count.append(1)
                for _ in range(4):
                    request.notify("told", ["x" * 200_000])

            write(b"".join(line(notice("tell")) for _ in range(100)))
            await self.until(lambda: count)
            await asyncio.sleep(0.1)
            self.assertLess(len(count), 4)
        self.assertEqual((self.status, len(count)), (0, 100))

    async def test_a_client_goes_on_reading(self):
        # (or both sides might wait for each other to read)
        server, client = Server(), Client()
        client.method("much")(lambda params: "x" * 400_000)

        @server.method("ask")
        async def ask(params, request):
            return [len(it) for it in await asyncio.gather(*(request.call("much") for _ in range(20)))]

        async with joined(server, client):
            self.assertEqual(await client.call("ask"), [400_000] * 20)


class Many(Case):
    async def test_reading_stops_while_many_calls_wait_for_their_turn(self):
        given, theirs = os.pipe()
        ours, taken = os.pipe()
        server, most = Server(framing="lines"), [0, 0]
        session = []

        @server.method("count")
        async def count(params):
            session.append(server.session)
            most[0] += 1
            most[1] = max(most[1], len(session[0]._transport.events))

        data = line(notice("count")) * 30_000

        def write():
            at = 0
            while at < len(data):
                at += os.write(theirs, data[at : at + 65536])
            os.close(theirs)

        writing = threading.Thread(target=write)
        writing.start()
        status = await server.serve_over(Descriptors(given, taken))
        writing.join()
        os.close(ours)
        self.assertEqual((status, most[0]), (0, 30_000))
        # (two pieces of 64 KiB at most are told of, beyond those that may wait)
        self.assertLess(most[1], 4_000 + 2 * 65536 // 37)
