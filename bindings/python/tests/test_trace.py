"""The log of messages."""
import asyncio
import io
import json
import os
import tempfile
import time

from helping import Case, joined, logged

from bullmyrtle import Client, Connection, Error, Server
from bullmyrtle._trace import Traced


def told(lines):
    """The kinds and the messages of a log's lines, but for one that names the library."""
    found = [it for it in map(json.loads, lines) if it["type"] != "library"]
    for it in found:
        assert set(it) == {"isLSPMessage", "type", "message", "timestamp"}, it
        assert abs(it["timestamp"] / 1000 - time.time()) < 600
        assert it["isLSPMessage"] == (it["type"] != "counts")
    return [(it["type"], it["message"]) for it in found]


def message(**members):
    return {**{("id" if name == "id_" else name): it for name, it in members.items()}, "jsonrpc": "2.0"}


class Lines(Case):
    async def test_a_session(self):
        ours, theirs = [], []
        with logged():
            server = Server(trace=ours.append)
            client = Client(trace=theirs.append)
            client.method("ask")(lambda params: 2 * params[0])
            began = []

            @server.method("x")
            async def x(params, request):
                return await request.call("ask", params)

            @server.method("slow")
            async def slow(params, request):
                began.append(request.call("never"))
                await asyncio.sleep(20)

            @client.method("never")
            async def never(params):
                await asyncio.sleep(20)

            @server.method("fail")
            def fail(params):
                raise Error(5, "five", [1])

            async with joined(server, client):
                client.notify("hello", {"a": 1})
                self.assertEqual(await client.call("x", [4]), 8)
                with self.assertRaises(Error):
                    await client.call("fail")
                call = client.call("slow")
                await self.until(lambda: began)
                client.notify("$/cancelRequest", {"id": call.key})
                with self.assertRaises(Error):
                    await call
        self.assertEqual(
            told(ours)[:-1],
            [
                ("receive-notification", message(method="hello", params={"a": 1})),
                ("receive-request", message(id_=1, method="x", params=[4])),
                ("send-request", message(id_=1, method="ask", params=[4])),
                ("receive-response", message(id_=1, result=8)),
                ("send-response", message(id_=1, result=8)),
                ("receive-request", message(id_=2, method="fail")),
                ("send-response", message(id_=2, error={"code": 5, "message": "five", "data": [1]})),
                ("receive-request", message(id_=3, method="slow")),
                ("send-request", message(id_=2, method="never")),
                ("receive-notification", message(method="$/cancelRequest", params={"id": 3})),
                ("send-notification", message(method="$/cancelRequest", params={"id": 2})),
                ("send-response", message(id_=3, error={"code": -32800, "message": "Request cancelled"})),
            ],
        )
        kind, counts = told(ours)[-1]
        self.assertEqual((kind, counts["calls"], counts["own_calls"]), ("counts", 4, 2))
        # (what one side sends the other one receives, but for the reply that came too late)
        turned = [(kind.replace("send", "receive"), it) for kind, it in told(ours) if kind.startswith("send")]
        received = [it for it in told(theirs) if it[0].startswith("receive")]
        self.assertEqual(turned, received)

    def test_batches_and_what_brings_no_event(self):
        lines = []
        it = Traced(Connection("lines"), lines.append)
        it.call_batch(0, [("a", b"[1]"), ("b", None)])
        it.feed(
            b'nonsense\n[{"jsonrpc":"2.0","id":2,"error":{"code":1,"message":"n\xc3\xb6"}},'
            b'{"jsonrpc":"2.0","id":9,"result":1},5]\n'
        )
        it.events()
        it.withdraw(1)
        it.end()
        it.events()
        self.assertGreater(it.pending, 0)
        self.assertGreaterEqual(it.held, it.pending)
        it.take()
        self.assertTrue(it.is_done)
        it.close()
        self.assertEqual(
            told(lines)[:-1],
            [
                ("send-request", message(id_=1, method="a", params=[1])),
                ("send-request", message(id_=2, method="b")),
                ("receive-response", message(id_=2, error={"code": 1, "message": "n\u00f6"})),
                ("send-notification", message(method="$/cancelRequest", params={"id": 1})),
            ],
        )
        counts = told(lines)[-1][1]
        self.assertEqual((counts["unreadable"], counts["invalid"], counts["ignored"]), (1, 1, 1))

    def test_where_it_goes(self):
        async def main(trace):
            server = Server(trace=trace)
            server.method("x")(lambda params: params)
            async with joined(server) as client:
                await client.call("x", ["\u00e9"])

        with tempfile.TemporaryDirectory() as room:
            file = os.path.join(room, "log")
            for times in (1, 2):
                self.wait(main(file))
                with open(file, encoding="utf-8") as it:
                    self.assertEqual(len(told(it)), 3 * times)
        kept = io.StringIO()
        self.wait(main(kept))
        self.assertEqual(len(told(kept.getvalue().splitlines())), 3)

    async def test_a_log_that_cant_be_written(self):
        said = []

        def write(line):
            said.append(line)
            raise OSError("full")

        with logged() as log:
            server = Server(trace=write)
            server.method("x")(lambda params: params)
            async with joined(server, Client()) as client:
                self.assertEqual([await client.call("x", [it]) for it in range(3)], [[0], [1], [2]])
        self.assertEqual((len(said), log.texts), (1, ["the trace ends here: OSError: full"]))

    async def test_from_threads(self):
        lines = []
        server = Server(trace=lines.append)

        @server.method("x", thread=True)
        def x(params, request):
            request.notify("note", params)
            return [request.call("twice", params)]

        client = Client()
        client.method("twice")(lambda params: 2 * params[0])
        async with joined(server, client):
            found = await asyncio.gather(*(client.call("x", [it]) for it in range(40)))
            self.assertEqual(found, [[2 * it] for it in range(40)])
        self.assertEqual(len(told(lines)), 40 * 5 + 1)

    async def test_it_costs_nothing_when_off(self):
        server = Server()
        async with joined(server):
            self.assertIs(type(server.session._transport.connection), Connection)
