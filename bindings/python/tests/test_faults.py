"""Whatever goes wrong in a method or around it: its request is answered, the rest goes on, and nothing is left behind."""
import asyncio
import contextlib
import json
import os
import select
import socket
import subprocess
import threading
import time
from unittest import mock

import misbehaving
from helping import HERE, SECONDS, Case, command, environment, joined, logged, patience, request, rows
from test_calls import Kept

from bullmyrtle import Client, Error, NoMemory, Server
from bullmyrtle._channels import Descriptors

SCRIPT = os.path.join(HERE, "misbehaving.py")


class Answers:
    """What a server answers on lines, read with a limit of time."""

    def __init__(self, descriptor):
        self.descriptor = descriptor
        self.rest = b""

    def until(self, ids, seconds):
        """The answers by their ids, once these are there, or as many as come in time."""
        found, end = {}, time.monotonic() + seconds
        while not ids <= set(found) and time.monotonic() < end:
            if not select.select([self.descriptor], [], [], max(0, end - time.monotonic()))[0]:
                break
            data = os.read(self.descriptor, 1 << 20)
            if not data:
                break
            *lines, self.rest = (self.rest + data).split(b"\n")
            for it in map(json.loads, lines):
                found[it.get("id")] = it
        return found


def line(value):
    return json.dumps(value).encode() + b"\n"


class Table(Case):
    """Each kind of method, with each thing that it may raise or return."""

    def started(self, how):
        words = command(SCRIPT, how)
        pipe = subprocess.PIPE
        process = subprocess.Popen(words, stdin=pipe, stdout=pipe, stderr=pipe, bufsize=0, env=environment())
        for it in (process.stdin, process.stdout, process.stderr):
            self.addCleanup(it.close)
        self.addCleanup(process.wait)
        self.addCleanup(process.kill)
        return process

    def ask_all(self, send, answers):
        """Asks for each method, with a ping behind it; gives the answers, and a list of what wasn't answered."""
        rows, unanswered = misbehaving.rows(), []
        got = {}
        for name in rows:
            send(line(request(name, name)) + line(request("ping " + name, "ping", [name])))
            found = answers.until({name, "ping " + name}, SECONDS)
            got.update(found)
            unanswered += [it for it in (name, "ping " + name) if it not in found]
            self.assertLess(len(unanswered), 5, unanswered)
        self.assertEqual(unanswered, [])
        return got

    def judge(self, got):
        for name, (_, _, code, words, _) in misbehaving.rows().items():
            answer, ping = got[name], got["ping " + name]
            with self.subTest(name):
                self.assertEqual(ping.get("result"), [name])
                self.assertEqual(answer.get("error", {}).get("code"), code, str(answer)[:200])
                if code is not None:
                    self.assertEqual(answer["error"]["message"][: len(words)], words)

    def judge_log(self, log):
        """Each row that nobody meant is logged once."""
        logs = sum(it[4] for it in misbehaving.rows().values())
        self.assertEqual(log.count("LOG "), logs, log)

    def test_on_the_standard_streams(self):
        process = self.started("run")
        said = []
        reading = threading.Thread(target=lambda: said.append(process.stderr.read()))
        reading.start()
        got = self.ask_all(process.stdin.write, Answers(process.stdout.fileno()))
        process.stdin.close()
        self.assertEqual(process.wait(SECONDS), 0)
        reading.join()
        self.judge(got)
        self.judge_log(said[0].decode())

    def test_over_tcp(self):
        process = self.started("tcp")
        said = []
        reading = threading.Thread(target=lambda: said.append(process.stderr.read()))
        reading.start()
        port = int(process.stdout.readline())
        with socket.create_connection(("127.0.0.1", port)) as stream:
            got = self.ask_all(stream.sendall, Answers(stream.fileno()))
            stream.shutdown(socket.SHUT_WR)
            self.assertEqual(Answers(stream.fileno()).until({"none"}, 10), {})
        process.kill()
        reading.join()
        self.judge(got)
        self.judge_log(said[0].decode())

    @rows([("interrupts", 1), ("exits", 7)])
    def test_what_ends_the_process(self, name, status):
        for kind, (_, thread) in misbehaving.methods(None).items():
            if thread:
                continue
            with self.subTest(name=name, kind=kind):
                process = self.started("run")
                process.stdin.write(
                    line(request(1, "ping", [1]))
                    + line(request(2, f"{kind} {name}"))
                    + line(request(3, "ping"))
                )
                self.assertEqual(process.wait(SECONDS), status)
                self.assertIn(1, Answers(process.stdout.fileno()).until({1}, 5))


class LastResort(Case):
    """What gets past everything else."""

    async def served(self, talk, server=None):
        """Serves over a channel that is fed by hand, and gives the status and the answers by their ids."""
        with logged() as log:
            own = server or Server(framing="lines", grace=0.2)
            own.method("echo")(lambda params: params)

            @own.method("later")
            async def later(params):
                await asyncio.sleep(0)
                return params

            channel = Kept()
            serving = asyncio.ensure_future(own.serve_over(channel))
            await asyncio.sleep(0)
            await talk(channel.session)
            channel.session._transport.input_ended(False)
            status = await asyncio.wait_for(serving, patience(10))
            self.assertTrue(channel.session._transport.is_closed)
            return status, {it["id"]: it for it in map(json.loads, channel.written.splitlines())}, log

    class Odd(BaseException):
        pass

    @rows(["_returned_plainly", "_raised", "_begin_request"])
    async def test_an_event_whose_handling_fails_is_answered_and_the_rest_goes_on(self, name):
        async def talk(session, name=name):
            def fail(*_):
                raise self.Odd()

            lines = b"".join(line(request(it, "x" if it == 2 else "echo", [it])) for it in range(1, 4))
            session._incoming.methods["x"].is_quick = name != "_begin_request"
            with mock.patch.object(session._incoming, name, fail):
                session._transport.received(lines)

        server = Server(framing="lines", grace=0.2, errors="full")

        @server.method("x")
        def x(params, name=name):
            if name == "_raised":
                raise KeyError
            return (1,)  # (which isn't among what is answered without a look)

        status, answers, log = await self.served(talk, server)
        self.assertEqual((status, answers[1]["result"], answers[3]["result"]), (0, [1], [3]))
        self.assertEqual(answers[2]["error"], {"code": -32603, "message": "Internal error: Odd"})
        self.assertEqual(len(log.errors), 1)

    async def test_a_task_whose_answer_fails_is_answered(self):
        async def talk(session):
            def fail(*_):
                raise self.Odd()

            with mock.patch.object(session._incoming, "_answer", fail):
                session._transport.received(line(request(1, "later")))
                await asyncio.sleep(0.05)
            session._transport.received(line(request(2, "later")))
            await asyncio.sleep(0.05)

        status, answers, log = await self.served(talk)
        self.assertEqual((status, answers[1]["error"]["code"], answers[2]["result"]), (0, -32603, None))
        self.assertEqual(len(log.errors), 1)

    async def test_what_cant_be_answered_ends_the_session(self):
        async def talk(session):
            def fail(*_):
                raise self.Odd()

            connection = session._transport.connection
            session._incoming.answer_quickly = fail
            with mock.patch.object(connection, "answer", fail), mock.patch.object(connection, "fail", fail):
                session._transport.received(line(request(1, "echo")) + line(request(2, "echo")))
            self.assertTrue(session._transport.is_over)

        status, answers, log = await self.served(talk)
        self.assertEqual((status, answers), (1, {}))
        self.assertEqual(len([it for it in log.texts if "can't be answered" in it]), 1, log.texts)

    @rows(["fed", "take"])
    async def test_what_cant_be_read_or_written_ends_the_session(self, name):
        async def talk(session, name=name):
            def fail(*_):
                raise self.Odd()

            target = session._transport.connection if name == "fed" else session._transport
            setattr(target, name, fail)
            session._transport.received(line(request(1, "echo")))
            self.assertTrue(session._transport.is_over)
            if name == "take":
                session._transport.take = session._transport.connection.take

        status, _, log = await self.served(talk)
        self.assertEqual(status, 1)
        self.assertEqual(len([it for it in log.texts if "the session ends" in it]), 1, log.texts)

    async def test_what_fails_at_the_end_is_no_traceback(self):
        async def talk(session):
            session._transport.received(line(request(1, "never")))
            await asyncio.sleep(0.01)

            def fail(*_):
                raise NoMemory()

            session._transport.connection.cancel = fail

        server = Server(framing="lines", grace=0.05)

        @server.method("never")
        async def never(params):
            await asyncio.sleep(20)

        status, answers, _ = await self.served(talk, server)
        self.assertEqual((status, answers[1]["error"]["code"]), (1, -32603))

    async def test_a_log_that_fails_keeps_no_answer_back(self):
        async def talk(session):
            with mock.patch("bullmyrtle._incoming.log.error", side_effect=self.Odd):
                session._transport.received(line(request(1, "raises")) + line(request(2, "echo", [2])))

        server = Server(framing="lines", grace=0.2)
        server.method("raises")(lambda params: {}[1])
        status, answers, _ = await self.served(talk, server)
        self.assertEqual((status, answers[1]["error"]["code"], answers[2]["result"]), (0, -32603, [2]))

    async def test_a_reader_that_fails_ends_its_session_and_closes_its_stream(self):
        class Reader:
            async def read(self, count):
                raise ValueError("no reader")

        with logged() as log:
            server, statuses = Server(framing="lines", grace=0.2), []

            async def serve(reader, writer):
                statuses.append(await server.serve_async(Reader(), writer))

            listening = await asyncio.start_server(serve, "127.0.0.1", 0)
            reader, writer = await asyncio.open_connection(*listening.sockets[0].getsockname())
            self.assertEqual(await asyncio.wait_for(reader.read(), patience(5)), b"")
            writer.close()
            listening.close()
            self.assertEqual((statuses, server._sessions), ([1], {}))
        self.assertEqual(len([it for it in log.texts if "the reader failed" in it]), 1)


class NoThreads(Case):
    """Threads that can't be started."""

    @contextlib.contextmanager
    def only(self, count):
        start, started = threading.Thread.start, []

        def limited(thread):
            if thread.name.startswith("bullmyrtle"):
                if len(started) >= count:
                    raise RuntimeError("can't start new thread")
                started.append(thread)
            start(thread)

        with mock.patch.object(threading.Thread, "start", limited):
            yield

    async def asked(self, threads):
        with logged() as log:
            server = Server()

            @server.method("x", thread=True)
            def x(params):
                time.sleep(0.01)
                return params

            server.method("y")(lambda params: params)
            async with joined(server) as client:
                with self.only(threads):
                    calls = [client.call("x", [it]) for it in range(5)]
                    found = await asyncio.gather(*calls, return_exceptions=True)
                    self.assertEqual(await client.call("y", [1]), [1])
                return found, [await client.call("x", [9])], log

    @rows([1, 2])
    async def test_those_that_there_are_do_the_work(self, count):
        found, after, log = await self.asked(count)
        self.assertEqual((found, after), ([[it] for it in range(5)], [[9]]))
        self.assertEqual(len(log.texts), 1)

    async def test_with_none_it_is_answered(self):
        found, after, _ = await self.asked(0)
        self.assertEqual([it.code for it in found], [-32603] * 5)
        self.assertEqual(after, [[9]])


class Open(Case):
    """A limit to how many requests are open."""

    async def test_one_more_is_refused_and_all_else_goes_on(self):
        with logged() as log:
            server, seen = Server(open=2), []
            client = Client()
            client.method("ask")(lambda params: params)
            free = asyncio.Event()

            @server.method("hold")
            async def hold(params, request):
                await free.wait()
                return await request.call("ask", params)

            @server.method("told")
            async def told(params):
                seen.append(params)

            server.method("plain")(lambda params: params)
            async with joined(server, client):
                calls = [client.call("hold", [it]) for it in range(2)]
                for name in ("hold", "plain", "nope"):
                    with self.assertRaises(Error) as caught:
                        await client.call(name, [9])
                    self.assertEqual(
                        (caught.exception.code, caught.exception.message), (-32000, "Too many open requests")
                    )
                client.notify("told", [1])
                await self.until(lambda: seen)
                client.notify("$/cancelRequest", {"id": calls[0].key})
                with self.assertRaises(Error) as caught:
                    await calls[0]
                self.assertEqual(caught.exception.code, -32800)
                self.assertEqual(await client.call("plain", [3]), [3])
                free.set()
                self.assertEqual(await calls[1], [1])
                self.assertEqual(
                    await asyncio.gather(client.call("hold", [4]), client.call("hold", [5])), [[4], [5]]
                )
        self.assertEqual(log.texts, [])

    async def test_requests_of_threads_and_later_ones_count(self):
        server, kept, free = Server(open=2), [], threading.Event()
        server.method("later")(lambda params, request: kept.append(request) or misbehaving.LATER)
        server.method("thread", thread=True)(lambda params: free.wait(SECONDS))
        async with joined(server) as client:
            calls = [client.call("later"), client.call("thread")]
            with self.assertRaises(Error) as caught:
                await client.call("later")
            self.assertEqual(caught.exception.code, -32000)
            kept[0].answer("a")
            free.set()
            self.assertEqual(await asyncio.gather(*calls), ["a", True])


class LongCancels(Case):
    """A number in a cancel of which nobody knows anything."""

    async def test_on_the_standard_streams(self):
        pipes = [os.pipe(), os.pipe()]
        (given, theirs), (ours, taken) = pipes
        server = Server(framing="lines")
        server.method("echo")(lambda params: params)

        @server.method("slow")
        async def slow():
            await asyncio.sleep(20)

        serving = asyncio.ensure_future(server.serve_over(Descriptors(given, taken)))
        os.write(theirs, line(request(1, "slow")))
        await asyncio.sleep(0.01)
        digits = b"1" * 5000
        os.write(
            theirs,
            b'{"jsonrpc":"2.0","method":"notifications/cancelled","params":{"requestId":1,"x":%s}}\n' % digits
            + b'{"jsonrpc":"2.0","method":"notifications/cancelled","params":{"requestId":%s}}\n' % digits
            + line(request(2, "echo", [2])),
        )
        loop = asyncio.get_running_loop()
        found = await loop.run_in_executor(None, Answers(ours).until, {1, 2}, SECONDS)
        os.close(theirs)
        self.assertEqual(await serving, 0)
        os.close(ours)
        self.assertEqual((found[1]["error"]["code"], found[2]["result"]), (-32800, [2]))
