"""Clients: processes that they start, and readers and writers."""
import asyncio
import contextlib
import os
import sys
import textwrap
import threading

from helping import SECONDS, Case, InAFolder, command, environment, joined, logged

from bullmyrtle import Client, Closed, Error, Server, Unanswered

SCRIPT = """
import asyncio, os, signal, sys, time
from bullmyrtle import Server
server = Server(grace=0.2)
@server.method("echo")
def echo(params):
    return params
@server.method("ask")
async def ask(params, request):
    return await request.call("name")
@server.method("die")
def die(params):
    os.kill(os.getpid(), signal.SIGKILL)
@server.method("exit")
def leave(params):
    server.stop(params[0])
@server.method("deaf")
def deaf(params):
    signal.signal(signal.SIGTERM, signal.SIG_IGN)
    return 1
"""


class Processes(InAFolder):
    def client(self, tail="sys.exit(server.run())", grace=SECONDS, **more):
        """(with so long a grace that a process which ends late on a busy machine isn't ended)"""
        file = self.file("server.py", SCRIPT + textwrap.dedent(tail))
        client = Client(command(file), env=environment(), grace=grace, **more)
        client.method("name")(lambda params: "client")
        return client

    async def test_a_session(self):
        before = len(os.listdir("/proc/self/fd"))
        async with self.client() as client:
            self.assertIsInstance(client.pid, int)
            self.assertEqual(await client.call("echo", [1]), [1])
            self.assertEqual(await client.call("ask"), "client")
            large = "x" * 1_000_000
            self.assertEqual(
                await asyncio.gather(*(client.call("echo", [large]) for _ in range(3))), [[large]] * 3
            )
            self.assertEqual(await client.close(), 0)
            with self.assertRaises(Closed):
                client.call("echo")
        # (a thread that waits for a stream closes it itself, a moment later)
        with contextlib.suppress(AssertionError):
            await self.until(lambda: len(os.listdir("/proc/self/fd")) == before)
        self.assertEqual(len(os.listdir("/proc/self/fd")), before)

    async def test_statuses(self):
        client = self.client()
        async with client:
            client.notify("exit", [5])
        self.assertEqual(await client.close(), 5)

    async def test_one_that_dies(self):
        with logged():
            client = self.client()
            async with client:
                with self.assertRaises(Unanswered):
                    await client.call("die")
            self.assertEqual(await client.close(), -9)

    def test_one_that_doesnt_end(self):
        async def main(tail, status):
            client = self.client(tail, grace=0.3)
            async with client:
                self.assertEqual(
                    await client.call("deaf" if "deaf" in tail else "echo", []), 1 if "deaf" in tail else []
                )
            self.assertEqual(await client.close(), status)

        with logged():
            self.wait(main("server.run()\ntime.sleep(20)", -15))
            self.wait(main("server.run() # deaf\ntime.sleep(20)", -9))

    async def test_one_that_isnt_there(self):
        with self.assertRaises(FileNotFoundError):
            async with Client(["/nowhere/server"]):
                pass
        with self.assertRaises(ValueError):
            Client().start()

    async def test_one_that_is_no_server(self):
        with logged():
            client = Client([sys.executable, "-c", "print('hello')"])
            async with client:
                with self.assertRaises((Unanswered, Closed)):
                    await client.call("x")


class Streams(Case):
    async def test_a_server_of_many(self):
        server = Server()
        server.method("echo")(lambda params: params)

        @server.method("back")
        async def back(params, request):
            return await request.call("name")

        @server.method("own")
        def own(params):
            server.notify("x")

        statuses = []

        async def serve(reader, writer):
            statuses.append(await server.serve_async(reader, writer))

        listening = await asyncio.start_server(serve, "127.0.0.1", 0)
        port = listening.sockets[0].getsockname()[1]
        clients = []
        for number in range(3):
            client = Client()
            client.method("name")(lambda params, number=number: number)
            client.connect(*await asyncio.open_connection("127.0.0.1", port))
            clients.append(client)
        large = "x" * 300_000
        for number, client in enumerate(clients):
            self.assertEqual(await client.call("back"), number)
            self.assertEqual(await client.call("echo", [large]), [large])
            with logged(), self.assertRaises(Error):
                await client.call("own")  # (it can't know to whom)
            with self.assertRaises(RuntimeError):
                client.connect(None, None)
        for client in clients:
            self.assertIsNone(await client.close())
        listening.close()
        await listening.wait_closed()
        await self.until(lambda: len(statuses) == 3)
        self.assertEqual(statuses, [0, 0, 0])

    async def test_one_that_resets(self):
        with logged():
            server, statuses = Server(grace=0.2), []

            @server.method("wait")
            async def wait(params):
                await asyncio.sleep(20)

            async def serve(reader, writer):
                statuses.append(await server.serve_async(reader, writer))

            listening = await asyncio.start_server(serve, "127.0.0.1", 0)
            client = Client(grace=0.2)
            reader, writer = await asyncio.open_connection(*listening.sockets[0].getsockname()[:2])
            client.connect(reader, writer)
            call = client.call("wait")
            await asyncio.sleep(0.05)
            writer.transport.abort()
            with self.assertRaises(Unanswered):
                await call
            await self.until(lambda: statuses)
            self.assertEqual(statuses, [1])
            await client.close()
            listening.close()

    async def test_cancelled_by_the_host(self):
        with logged(), self.assertRaises((KeyError, asyncio.CancelledError)):
            server = Server()

            @server.method("wait")
            async def wait(params):
                await asyncio.sleep(20)

            async with joined(server) as client:
                call = client.call("wait")
                await asyncio.sleep(0.01)
                tasks = [it for it in asyncio.all_tasks() if "serve_over" in repr(it)]
                self.assertEqual(len(tasks), 1)
                tasks[0].cancel()
                with self.assertRaises((Unanswered, Closed)):
                    await call
                with self.assertRaises(asyncio.CancelledError):
                    await tasks[0]
                raise KeyError("left")

    async def test_no_thread_is_left(self):
        before = threading.active_count()
        server = Server()
        server.method("x", thread=True)(lambda params: params)
        async with joined(server) as client:
            await asyncio.gather(*(client.call("x") for _ in range(50)))
        self.assertEqual(threading.active_count(), before)
