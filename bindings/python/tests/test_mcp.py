"""`protocol="mcp"`: what it sets, cancels without an answer, calls that wait no longer, and `initialize`."""
import asyncio
import contextlib
import json

from helping import Case, joined, logged, notice, request, rows

from bullmyrtle import BadSettings, Client, Server, Unanswered
from bullmyrtle.mcp import ToolClient, ToolServer
from bullmyrtle.testing import Memory

CANCEL = "notifications/cancelled"


class Wire(Memory):
    """A channel whose other half is the test, and which keeps what is written."""

    def __init__(self):
        super().__init__()
        self._other = Memory()
        self.written = []

    def feed(self, *messages):
        for it in messages:
            self._transport.received(json.dumps(it).encode() + b"\n")

    def write(self):
        self.written += map(json.loads, self._transport.take(1 << 20).splitlines())


class Case(Case):
    @contextlib.asynccontextmanager
    async def session(self, peer):
        """A session of a server or of a client, by its other end."""
        wire = Wire()
        with logged() as log:
            if isinstance(peer, Server):
                serving = asyncio.ensure_future(peer.serve_over(wire))
            else:
                peer.attach(wire)
                serving = peer._serving
            await asyncio.sleep(0)
            wire.session = peer.session
            yield wire
            wire.counts = wire.session._transport.connection.counts()
            wire.session._transport.input_ended(False)
            await serving
            wire.ended = wire.session.ended
        self.texts = log.texts


class Settings(Case):
    @rows([Server, Client, ToolServer, ToolClient])
    def test_what_contradicts_it(self, kind):
        name = ["name"] if kind is ToolServer else []
        for setting, words in (
            ({"framing": "frames"}, "framing='frames' contradicts: protocol='mcp' has framing='lines'"),
            (
                {"cancel_by": "$/cancelRequest"},
                "cancel_by='$/cancelRequest' contradicts: protocol='mcp' has cancel_by='notifications/cancelled'",
            ),
            ({"cancel_by": None}, "cancel_by=None contradicts"),
        ):
            with self.assertRaises(BadSettings) as caught:
                kind(*name, protocol="mcp", **setting)
            self.assertIn(words, str(caught.exception))
        kind(*name, protocol="mcp", framing="lines", cancel_by=CANCEL)

    def test_tools(self):
        for peer in (ToolServer("name"), ToolClient()):
            self.assertEqual((peer._protocol, peer._settings["framing"]), ("mcp", "lines"))
        # (who says otherwise has it so)
        self.assertEqual(ToolServer("name", framing="frames")._settings["framing"], "frames")
        self.assertEqual(ToolClient(cancel_by=None)._cancel_by, None)


class Cancelled(Case):
    """A request whose cancel came has no answer, whatever its method does."""

    def server(self):
        server = Server(protocol="mcp", grace=0.2)
        server.method("sleeps")(lambda params: asyncio.sleep(20))
        return server

    async def test_the_end_of_the_grace_is_no_cancel_of_theirs(self):
        """A request that only our side gives up is answered -32800."""
        async with self.session(self.server()) as wire:
            wire.feed(request(1, "sleeps"))
            await asyncio.sleep(0.01)
        self.assertEqual([it["error"]["code"] for it in wire.written], [-32800])
        self.assertEqual((wire.ended.how, wire.ended.unanswered), ("Late", 1))

    async def test_methods_of_that_name(self):
        """Whole cancels are the connection's own, as with LSP; what is none is a notification like others."""
        heard = []
        server = self.server()
        server.method(CANCEL)(heard.append)
        async with self.session(server) as wire:
            for params in ({"requestId": 1}, {"requestId": None}, {"other": 1}):
                wire.feed(notice(CANCEL, params))
        self.assertEqual(heard, [{"requestId": None}, {"other": 1}])

    async def test_the_trace_says_what_is_said(self):
        lines = []
        server = self.server()
        server._trace = lines.append

        @server.method("asks")
        async def asks(params, request):
            await request.call("name")

        async with self.session(server) as wire:
            wire.feed(request("a", "asks"))
            await self.until(lambda: wire.written)
            wire.feed(notice(CANCEL, {"requestId": "a"}))
            await asyncio.sleep(0.01)
            call = wire.session.call("other")
            await asyncio.sleep(0.01)
            call.cancel()
            wire.feed({"jsonrpc": "2.0", "id": 2, "result": "late"}, request("b", "asks"))
            await asyncio.sleep(0.01)
        told = [it for it in map(json.loads, lines) if it["isLSPMessage"]]
        self.assertEqual(
            [(it["type"], it["message"]["method"]) for it in told if "method" in it["message"]],
            [
                ("receive-request", "asks"),
                ("send-request", "name"),
                ("receive-notification", CANCEL),
                ("send-notification", CANCEL),
                ("send-request", "other"),
                ("send-notification", CANCEL),
                ("receive-request", "asks"),
                ("send-request", "name"),
            ],
        )
        params = [it["message"]["params"] for it in told if it["message"].get("method") == CANCEL]
        self.assertEqual(params, [{"requestId": "a"}, {"requestId": 1}, {"requestId": 2}])
        # (the one that nobody cancelled has its answer: the call that it waits for is over)
        answers = [it["message"] for it in told if it["type"] == "send-response"]
        self.assertEqual([it["id"] for it in answers], ["b"])


class Withdrawn(Case):
    """A call of ours that isn't wanted any more waits no longer."""

    async def test_it_isnt_told_at_the_end(self):
        client, kept = Client(protocol="mcp"), []
        async with self.session(client) as wire:
            kept.append(client.call("ask"))
            client.call("ask").cancel()
            await asyncio.sleep(0.01)
        self.assertEqual(wire.counts.waiting, 1)
        self.assertIsInstance(kept[0].exception(), Unanswered)
        self.assertIn("while 1 call waited for a reply", wire.ended.text)

    async def test_both_sides_let_go(self):
        with logged() as log:
            server = Server(protocol="mcp")

            @server.method("wait")
            async def wait(params):
                await asyncio.sleep(20)

            async with joined(server) as client:
                calls = [client.call("wait") for _ in range(100)]
                await asyncio.sleep(0.01)
                for it in calls:
                    it.cancel()
                await self.until(lambda: not server.session._incoming.open)
                ours, theirs = (it.session._transport.connection.counts() for it in (client, server))
                self.assertEqual((ours.waiting, theirs.open, theirs.answers_written), (0, 0, 0))
        self.assertEqual(log.texts, [])


class Initialize(Case):
    """MCP forbids a client to cancel `initialize`, and a server that is asked to takes no notice."""

    def server(self, began):
        server = Server(protocol="mcp", grace=0.2)

        @server.method("initialize")
        async def initialize(params):
            began.append("initialize")
            await asyncio.sleep(params["seconds"])
            return "begun"

        return server

    async def test_a_server_takes_no_notice(self):
        began = []
        async with self.session(self.server(began)) as wire:
            wire.feed(request(1, "initialize", {"seconds": 0.02}))
            await self.until(lambda: began)
            wire.feed(notice(CANCEL, {"requestId": 1}))
            await self.until(lambda: wire.written)
        self.assertEqual((wire.written[0]["result"], wire.ended.how), ("begun", "Clean"))

    async def test_nor_before_its_turn(self):
        async with self.session(self.server([])) as wire:
            said = request(1, "initialize", {"seconds": 0}), notice(CANCEL, {"requestId": 1})
            wire.session._transport.received(b"".join(json.dumps(it).encode() + b"\n" for it in said))
            await self.until(lambda: wire.written)
        self.assertEqual(wire.written[0]["result"], "begun")

    async def test_the_end_of_the_grace_answers_it(self):
        async with self.session(self.server([])) as wire:
            wire.feed(request(1, "initialize", {"seconds": 20}), notice(CANCEL, {"requestId": 1}))
            await asyncio.sleep(0.01)
        self.assertEqual(([it["error"]["code"] for it in wire.written], wire.ended.how), ([-32800], "Late"))

    async def test_a_client_says_no_cancel_of_it(self):
        client = Client(protocol="mcp")

        @client.method("asks")
        async def asks(params, request):
            await asyncio.gather(request.call("initialize"), request.call("other"))

        async with self.session(client) as wire:
            client.call("initialize").cancel()
            with self.assertRaises(asyncio.TimeoutError):
                await asyncio.wait_for(client.call("initialize"), 0.01)
            wire.feed(request(1, "asks"))
            await self.until(lambda: len(wire.written) == 4)
            wire.feed(notice(CANCEL, {"requestId": 1}))
            await self.until(lambda: len(wire.written) == 5)
            self.assertEqual(wire.session._transport.connection.counts().waiting, 3)
            wire.feed(*({"jsonrpc": "2.0", "id": it, "result": {}} for it in (1, 2, 3)))
            await asyncio.sleep(0.01)
        self.assertEqual([it["method"] for it in wire.written], [*["initialize"] * 3, "other", CANCEL])
        self.assertEqual((wire.written[-1]["params"], wire.counts.waiting), ({"requestId": 4}, 0))
