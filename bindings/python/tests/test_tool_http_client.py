"""A host over HTTP: ToolClient by the standard library, and by httpx where that is installed."""
import asyncio
import contextlib
import json
import threading
import time
import unittest

from asgi_server import served
from helping import SECONDS, Case, logged, patience, rows
from test_tool_http import words

from bullmyrtle import Error, Unanswered
from bullmyrtle.mcp import Bearer, Context, ToolClient

try:
    import httpx
except ImportError:
    httpx = None


class Hosts(Case):
    """By the standard library."""

    def client(self, url, **more):
        return ToolClient(url=url, **more)

    @contextlib.asynccontextmanager
    async def over(self, server=None, more=None, **settings):
        with logged() as log:
            app = (server or words()).asgi(**settings)
            async with served(app) as it:
                async with self.client(it.url, **(more or {})) as client:
                    yield client, it
                await self.until(lambda: app.sessions == 0)
        end = time.monotonic() + SECONDS
        while self.threads() and time.monotonic() < end:
            time.sleep(0.01)
        self.assertEqual(self.threads(), [])
        self.texts = log.texts

    @rows(["auto", "json", "stream"])
    async def test_calls(self, answers):
        """Each way of answering, and each version."""
        for version in ("2025-11-25", "2025-06-18", "2025-03-26", "2024-11-05"):
            async with self.over(answers=answers, more={"versions": [version]}) as (client, it):
                self.assertEqual(client.protocol_version, version)
                self.assertEqual([it["name"] for it in await client.list_tools()][0], "count")
                results = await asyncio.gather(
                    *(client.call_tool("count", {"text": "a " * it}) for it in range(5))
                )
                self.assertEqual([it.text for it in results], ["0", "1", "2", "3", "4"])
                with self.assertRaises(Error) as caught:
                    await client.call_tool("nothing")
                self.assertEqual(caught.exception.code, -32602)
                method, headers = it.requests[-1]
                self.assertEqual(headers[b"mcp-protocol-version"], version.encode())
                self.assertIn(b"mcp-session-id", headers)
            self.assertEqual(self.texts, [])

    async def test_what_is_asked_back(self):
        async with self.over(more={"sampling": lambda params: "Flowers"}) as (client, _):
            told = []
            self.assertEqual((await client.call_tool("title")).text, "Flowers")
            self.assertEqual(
                ((await client.call_tool("block", progress=lambda *given: told.append(given))).text, told),
                ("Flowers", [(1, None, None)]),
            )

    async def test_what_belongs_to_no_call(self):
        server = words()
        told = []
        async with self.over(server, more={"log": told.append}) as (_, it):
            await self.until(lambda: any(method == "GET" for method, _ in it.requests))
            server.log("info", 1)
            await self.until(lambda: told)
            self.assertEqual(told, [{"level": "info", "data": 1}])

    async def test_streams_that_break(self):
        """They are taken up where they broke, and nothing comes twice."""
        server = words()
        async with self.over(server, answers="stream", retry=0.01) as (client, it):
            for at in range(5):
                await self.until(lambda: not it.cut_after)
                told = []
                server.go[f"{at}"] = asyncio.Event()
                server.go[f"{at}"].set()
                it.cut_after[:] = [at, 1]
                arguments = {"name": f"{at}", "count": 4}
                result = await client.call_tool(
                    "steps", arguments, progress=lambda *given: told.append(given[0])
                )
                self.assertEqual((result.text, told), (f"done: {at}", [1, 2, 3, 4]))
            self.assertGreaterEqual(sum(b"last-event-id" in headers for _, headers in it.requests), 5)

    async def test_polling(self):
        server = words()
        async with self.over(server, poll=0.05, retry=0.02) as (client, it):
            call = asyncio.ensure_future(client.call_tool("steps", {"name": "a"}))
            await self.until(lambda: sum(b"last-event-id" in headers for _, headers in it.requests) >= 2)
            server.go["a"].set()
            self.assertEqual((await call).text, "done: a")

    async def test_a_cancel(self):
        server = words()
        begun, ended = [], []

        @server.tool
        async def work(context: Context) -> str:
            begun.append(True)
            try:
                await asyncio.sleep(SECONDS)
            finally:
                ended.append(context.is_cancelled)
            return "done"

        async with self.over(server) as (client, _):
            call = asyncio.ensure_future(client.call_tool("work"))
            await self.until(lambda: begun)
            call.cancel()
            with self.assertRaises(asyncio.CancelledError):
                await call
            await self.until(lambda: ended)
            self.assertEqual(ended, [True])
            self.assertEqual((await client.call_tool("count", {"text": "a"})).text, "1")

    async def test_without_state(self):
        async with self.over(stateless=True) as (client, it):
            self.assertEqual((await client.call_tool("count", {"text": "a b"})).text, "2")
            self.assertNotIn(b"mcp-session-id", it.requests[-1][1])
        self.assertEqual(self.texts, [])

    async def test_headers(self):
        server = words()

        @server.tool
        def who(context: Context) -> str:
            return context.user

        bearer = Bearer({"one": "ann"}.get, "http://localhost/mcp")
        for headers in ({"Authorization": "Bearer one"}, lambda: {"Authorization": "Bearer one"}):
            async with self.over(server, bearer=bearer, more={"headers": headers}) as (client, _):
                self.assertEqual((await client.call_tool("who")).text, "ann")
        with self.assertRaises(Error) as caught:
            async with self.over(server, bearer=bearer):
                pass
        self.assertIn("status 401", caught.exception.message)
        self.assertIn("resource_metadata=", caught.exception.message)

    async def test_a_session_that_is_over(self):
        async with self.over() as (client, it):
            await it.app.close()
            with self.assertRaises((Error, Unanswered)):
                await client.call_tool("count", {"text": "a"})
            await self.until(lambda: client.ended is not None)
            with self.assertRaises(Exception):
                await client.call_tool("count", {"text": "a"})

    async def test_no_server(self):
        with self.assertRaises(Error) as caught:
            async with self.client("http://127.0.0.1:9/mcp"):
                pass
        self.assertIn("HTTP", caught.exception.message)

    async def test_a_server_that_says_nothing(self):
        """Anyone who gives up isn't held, and no thread stays."""

        async def app(scope, receive, send):
            await asyncio.Event().wait()

        async def close():
            pass

        app.close = close
        with logged():
            async with served(app) as it:
                start = time.monotonic()
                with self.assertRaises(asyncio.TimeoutError):
                    await asyncio.wait_for(self.client(it.url, grace=0.1).__aenter__(), 0.3)
                self.assertLess(time.monotonic() - start, patience(10))
            await self.until(lambda: not self.threads())

    @staticmethod
    def threads():
        return [it for it in threading.enumerate() if it.name == "bullmyrtle-http"]

    async def test_a_server_that_answers_answers(self):
        """What it says to a message without an answer isn't read: it would be answered again, without end."""
        result = {
            "protocolVersion": "2025-11-25",
            "capabilities": {},
            "serverInfo": {"name": "s", "version": "1"},
        }

        async def app(scope, receive, send):
            body = (await receive())["body"]
            said = b"[]"
            if b'"initialize"' in body:
                said = json.dumps({"jsonrpc": "2.0", "id": json.loads(body)["id"], "result": result}).encode()
            headers = [(b"content-type", b"application/json")]
            await send({"type": "http.response.start", "status": 200, "headers": headers})
            await send({"type": "http.response.body", "body": said})

        async def close():
            pass

        app.close = close
        with logged():
            async with served(app) as it:
                async with self.client(it.url, grace=0.5):
                    await asyncio.sleep(1)
                    self.assertLess(sum(method == "POST" for method, _ in it.requests), 5)

    @rows(
        [
            ((200, b"text/html", b"<html>"), ""),
            ((200, b"application/json", b""), "without an answer"),
            ((200, b"application/json", b"[]"), ""),
            ((200, b"text/event-stream", b""), "without an answer"),
            ((200, b"text/event-stream", b"data: {}"), "without an answer"),
            ((202, b"", b""), "without an answer"),
            ((302, b"", b""), "status 302"),
            ((500, b"application/json", b'{"error":{"message":"words"}}'), "status 500: words"),
            ((503, b"application/json", b"[" * 100_000), "status 503"),
        ]
    )
    async def test_a_server_that_answers_otherwise(self, answer, said):
        """What isn't MCP's HTTP is an error of the call, and ends."""
        answers = []

        async def app(scope, receive, send):
            status, kind, body = answers[-1]
            await receive()
            await send(
                {"type": "http.response.start", "status": status, "headers": [(b"content-type", kind)]}
            )
            await send({"type": "http.response.body", "body": body})

        async def close():
            pass

        app.close = close
        answers.append(answer)
        async with served(app) as it:
            with self.assertRaises(Error) as caught:
                async with self.client(it.url):
                    pass
            self.assertIn(said, caught.exception.message)


@unittest.skipIf(httpx is None, "httpx isn't installed")
class HostsByHttpx(Hosts):
    @classmethod
    def setUpClass(cls):
        cls.httpx = httpx.Client()

    @classmethod
    def tearDownClass(cls):
        cls.httpx.close()

    def client(self, url, **more):
        return ToolClient(url=url, httpx=self.httpx, **more)


class Settings(Case):
    def test_what_is_no_url(self):
        for url in ("", "localhost:8000", "ftp://a/b", "http://"):
            with self.assertRaises(ValueError):
                ToolClient(url=url)
        with self.assertRaises(ValueError):
            ToolClient(["true"], url="http://localhost/")
