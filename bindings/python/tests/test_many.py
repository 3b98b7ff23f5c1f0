"""Several sessions on one server, and the ways to serve them in a loop that runs already."""
import asyncio
import contextlib
import importlib
import json
import sys

from helping import Case, InAFolder, command, frame, joined, logged, messages, ran, request, rows

from bullmyrtle import Client, Server


class Sessions(Case):
    async def test_each_has_its_own_state(self):
        server = Server()

        @server.method("open")
        def opened(params, request):
            request.session.state.setdefault("texts", []).append(params[0])

        @server.method("texts")
        def texts(params, request):
            return request.session.state["texts"]

        self.assertEqual(server.sessions, ())
        async with joined(server) as one, joined(server) as other:
            await one.call("open", ["a"])
            await other.call("open", ["b"])
            await one.call("open", ["c"])
            self.assertEqual(await one.call("texts"), ["a", "c"])
            self.assertEqual(await other.call("texts"), ["b"])
            self.assertEqual([it.state["texts"] for it in server.sessions], [["a", "c"], ["b"]])
        self.assertEqual(server.sessions, ())

    async def test_one_of_several_is_spoken_to(self):
        server, heard = Server(), {}

        @server.method("tell")
        def tell(params, request):
            request.session.notify("told", params)

        @server.method("ask")
        async def ask(params, request):
            return [await request.session.call("name"), *await request.session.call_batch([("name", None)])]

        @server.method("stop")
        def stop(params, request):
            request.session.stop()

        def a_client(name):
            client = Client()
            client.method("name")(lambda params: name)
            client.method("told")(lambda params: heard.setdefault(name, []).append(params))
            return client

        async with joined(server, a_client("one")) as one, joined(server, a_client("other")) as other:
            await one.call("tell", [1])
            await other.call("tell", [2])
            self.assertEqual(await one.call("ask"), ["one"] * 2)
            self.assertEqual(await other.call("ask"), ["other"] * 2)
            for it in server.sessions:
                it.notify("told", [3])
            await one.call("tell", [4])
            await other.call("tell", [5])
            self.assertEqual(heard, {"one": [[1], [3], [4]], "other": [[2], [3], [5]]})
            await one.call("stop")
            await self.until(lambda: len(server.sessions) == 1)
            server.notify("told", [6])
            await other.call("tell", [7])
            self.assertEqual(heard["other"][-2:], [[6], [7]])

    async def test_where_none_is_single_it_says_what_to_do(self):
        server = Server()
        async with joined(server), joined(server):
            for call, words in (
                (lambda: server.notify("x"), ("2 sessions", "request.notify(..)", "server.sessions")),
                (lambda: server.call("x"), ("2 sessions", "request.call(..)", "server.sessions")),
                (lambda: server.call_batch([]), ("request.call_batch(..)",)),
                (lambda: server.in_thread(len, ""), ("request.in_thread(..)",)),
                (server.stop, ("request.session.stop(..)",)),
                (lambda: server.session, ("request.session", "server.sessions")),
            ):
                with self.assertRaises(RuntimeError) as caught:
                    call()
                for it in words:
                    self.assertIn(it, str(caught.exception))


STDIO = """
import asyncio, sys
from bullmyrtle import Server
server = Server()
@server.method("tasks")
async def tasks(params):
    print("printed")
    return len(asyncio.all_tasks())
async def main():
    beside = asyncio.ensure_future(asyncio.sleep(60))
    status = await server.serve_stdio()
    beside.cancel()
    print("after", file=sys.stderr)
    return status
sys.exit(asyncio.run(main()))
"""


class Stdio(InAFolder):
    def run_server(self, text, given):
        return ran(command(self.file("server.py", text)), given)

    def test_in_a_loop_that_runs(self):
        got = self.run_server(STDIO, frame(request(1, "tasks")))
        ((answer,),) = (messages(got.stdout),)
        self.assertGreater(answer["result"], 2)
        self.assertEqual((got.returncode, got.stderr.split()), (0, [b"printed", b"after"]))
        got = self.run_server(STDIO, b"Content-Length: x\r\n\r\n")
        self.assertEqual((got.returncode, got.stdout), (1, b""))

    def test_once_at_a_time(self):
        text = STDIO.replace(
            "    beside.cancel()", "    beside.cancel()\n    status += await server.serve_stdio()"
        ).replace(
            "    return len(asyncio.all_tasks())",
            "    try:\n        await server.serve_stdio()\n    except RuntimeError as it:\n        return str(it)",
        )
        got = self.run_server(text, frame(request(1, "tasks")))
        self.assertEqual(
            messages(got.stdout)[0]["result"], "another server has the standard streams", got.stderr
        )
        self.assertEqual(got.returncode, 0)


class Socket:
    """Half of a web socket in memory, as the library websockets has it."""

    def __init__(self):
        self.inbox = asyncio.Queue()
        self.other = None
        self.sent = 0
        self.may_send = asyncio.Event()
        self.may_send.set()

    async def recv(self):
        it = await self.inbox.get()
        if isinstance(it, Exception):
            raise it
        return it

    async def send(self, text):
        assert type(text) is str, text
        await self.may_send.wait()
        self.sent += 1
        if isinstance(self.other, Exception):
            raise self.other
        await self.other.inbox.put(text)

    @staticmethod
    def pair():
        one, two = Socket(), Socket()
        one.other, two.other = two, one
        return one, two


class ConnectionClosedOK(Exception):
    code = 1000


class ConnectionClosedError(Exception):
    code = 1006


def a_server():
    server = Server(grace=0.5)
    server.method("echo")(lambda params: params)

    @server.method("ask")
    async def ask(params, request):
        return await request.call("name")

    @server.method("wait")
    async def wait(params):
        await asyncio.sleep(20)

    return server


class WebSockets(Case):
    async def ask(self, socket, given):
        await socket.send(given if isinstance(given, str) else json.dumps(given))
        return json.loads(await socket.recv())

    @contextlib.asynccontextmanager
    async def serve(self, status=0, server=None):
        """The other end of a server's session, which gives this status."""
        server = server or a_server()
        ours, its = Socket.pair()
        with logged():
            serving = asyncio.ensure_future(server.serve_websocket(its))
            yield ours, its, server
            self.assertEqual(await serving, status)

    async def test_messages(self):
        async with self.serve() as (socket, its, _):
            self.assertEqual(
                await self.ask(socket, request(1, "echo", [1, "\u00e9"])),
                {"id": 1, "jsonrpc": "2.0", "result": [1, "\u00e9"]},
            )
            await socket.other.inbox.put(json.dumps(request(2, "echo", ["bytes"])).encode())
            self.assertEqual(json.loads(await socket.recv())["result"], ["bytes"])
            await socket.send(json.dumps(request(3, "ask")))
            call = json.loads(await socket.recv())
            self.assertEqual(call["method"], "name")
            self.assertEqual(
                (await self.ask(socket, {"jsonrpc": "2.0", "id": call["id"], "result": "me"}))["result"], "me"
            )
            answers = await self.ask(socket, [request(4, "echo", [4]), request(5, "echo", [5])])
            self.assertEqual([it["result"] for it in answers], [[4], [5]])
            for broken in ("{", "", "\ud800", '{"jsonrpc":"2.0"}\n{"jsonrpc":"2.0"}'):
                self.assertEqual((await self.ask(socket, broken))["error"]["code"], -32700, broken)
            large = "x" * 1_000_000
            self.assertEqual((await self.ask(socket, request(6, "echo", [large])))["result"], [large])
            await socket.send(json.dumps(request(7, "wait")))
            await socket.send('{"jsonrpc":"2.0","method":"$/cancelRequest","params":{"id":7}}')
            self.assertEqual(json.loads(await socket.recv())["error"]["code"], -32800)
            await its.inbox.put(ConnectionClosedOK())

    @rows(
        [(ConnectionClosedOK(), 0), (EOFError(), 0), (None, 0), (ConnectionClosedError(), 1), (OSError(), 1)]
    )
    async def test_ends(self, end, status):
        async with self.serve(status) as (socket, its, _):
            await self.ask(socket, request(1, "echo", [1]))
            await its.inbox.put(end)

    async def test_nobody_reads(self):
        async with self.serve(1) as (socket, its, _):
            its.other = ConnectionClosedError()
            await socket.send(json.dumps(request(1, "echo", [1])))

    async def test_stop(self):
        async with self.serve(5) as (socket, _, server):
            await self.ask(socket, request(1, "echo", [1]))
            server.stop(5)

    async def test_reading_stops_while_much_is_to_be_written(self):
        async with self.serve() as (socket, its, _):
            its.may_send.clear()
            large = json.dumps(request(1, "echo", ["x" * 300_000]))
            for _ in range(40):
                await socket.send(large)
            await asyncio.sleep(0.2)
            self.assertGreater(its.inbox.qsize(), 30)
            its.may_send.set()
            for _ in range(40):
                await socket.recv()
            await its.inbox.put(ConnectionClosedOK())

    async def test_tool_servers_too(self):
        server = Server(framing="lines")

        @server.method("wait")
        async def wait(params):
            await asyncio.sleep(20)

        async with self.serve(server=server) as (socket, its, _):
            await socket.send(json.dumps(request(1, "wait")))
            await socket.send('{"jsonrpc":"2.0","method":"notifications/cancelled","params":{"requestId":1}}')
            self.assertEqual(json.loads(await socket.recv())["error"]["code"], -32800)
            await its.inbox.put(ConnectionClosedOK())

    async def test_over_the_network(self):
        sys.path.append("/usr/lib/python3/dist-packages")
        try:
            websockets = importlib.import_module("websockets")
        except ImportError:
            self.skipTest("python3-websockets isn't there: no web socket over the network")
        finally:
            sys.path.remove("/usr/lib/python3/dist-packages")
        with logged():
            server, statuses = a_server(), []

            async def serve(ws, *_):
                statuses.append(await server.serve_websocket(ws))

            async with websockets.serve(serve, "127.0.0.1", 0) as listening:
                port = listening.sockets[0].getsockname()[1]
                async with websockets.connect(f"ws://127.0.0.1:{port}") as ws:
                    self.assertEqual((await self.ask(ws, request(1, "echo", [1])))["result"], [1])
                    large = "x" * 500_000
                    self.assertEqual((await self.ask(ws, request(2, "echo", [large])))["result"], [large])
                await self.until(lambda: statuses)
                ws = await websockets.connect(f"ws://127.0.0.1:{port}")
                await self.ask(ws, request(1, "echo", [1]))
                ws.transport.abort()
                await self.until(lambda: len(statuses) == 2)
            self.assertEqual(statuses, [0, 1])
            async with websockets.serve(server.serve_websocket, "127.0.0.1", 0) as listening:
                port = listening.sockets[0].getsockname()[1]
                async with websockets.connect(f"ws://127.0.0.1:{port}") as ws:
                    self.assertEqual((await self.ask(ws, request(1, "echo", [1])))["result"], [1])
