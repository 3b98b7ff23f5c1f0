"""A tool server over HTTP: each status, who may call, limits, and bad use."""
import asyncio
import gc
import json
import threading
import time
import tracemalloc
from unittest import mock

from asgi_caller import GET, POST, Web
from helping import SECONDS, by_the_clock, notice, patience, request, rows
from test_tool_http import Over, words

from bullmyrtle.mcp import Bearer, Context, MemoryEvents, NotEnough, ToolError

PING = request(1, "ping")
INITIALIZE = request(
    1,
    "initialize",
    {"protocolVersion": "2025-11-25", "capabilities": {}, "clientInfo": {"name": "t", "version": "1"}},
)


def without(name, headers=POST):
    return [it for it in headers if it[0] != name]


def other(name, *values, headers=POST):
    """The headers with other values of one."""
    return [*without(name, headers), *((name, it) for it in values)]


#: Of a server with a session: the method, the headers beside the session's, the status, and what the error's words have
#: in them. By the section on transports, and RFC 9110.
HEADERS = [
    ("no Content-Type", "POST", without("content-type"), 415, "application/json"),
    ("text", "POST", other("content-type", "text/plain"), 415, ""),
    ("a charset", "POST", other("content-type", "application/json; charset=UTF-8"), 200, ""),
    ("another charset", "POST", other("content-type", "application/json;charset=utf-16"), 415, "UTF-8"),
    ("compressed", "POST", other("content-encoding", "gzip"), 415, "Content-Encoding"),
    ("JSON alone", "POST", other("accept", "application/json"), 406, "text/event-stream"),
    ("events alone", "POST", other("accept", "text/event-stream"), 406, "application/json"),
    ("neither, by its quality", "POST", other("accept", "*/*;q=0"), 406, ""),
    ("everything", "POST", other("accept", "*/*"), 200, ""),
    ("two Accepts", "POST", other("accept", "application/*", "text/*;q=0.1"), 200, ""),
    ("no Accept", "POST", without("accept"), 200, ""),
    ("a GET of JSON", "GET", [("accept", "application/json")], 406, "text/event-stream"),
    ("PUT", "PUT", POST, 405, "PUT"),
    ("HEAD", "HEAD", POST, 405, ""),
    ("OPTIONS", "OPTIONS", POST, 405, ""),
    ("an unknown version", "POST", other("mcp-protocol-version", "2030-01-01"), 400, "2025-11-25"),
    ("an unknown version, GET", "GET", other("mcp-protocol-version", "x", headers=GET), 400, "2025-11-25"),
    ("no version", "POST", POST, 200, ""),
    ("an event that is none", "GET", other("last-event-id", "x", headers=GET), 400, "Last-Event-ID"),
    ("an event of no stream", "GET", other("last-event-id", "x-1", headers=GET), 400, "Last-Event-ID"),
    ("a wrong length", "POST", other("content-length", "+5"), 400, "Content-Length"),
    *(
        (f"{name} twice", "POST", other(name, one, two), 400, "twice")
        for name, one, two in [
            ("content-type", "application/json", "application/json"),
            ("content-length", "2", "3"),
            ("mcp-session-id", "a", "b"),
            ("mcp-protocol-version", "2025-11-25", "2025-06-18"),
            ("authorization", "Bearer a", "Bearer b"),
            ("host", "localhost", "example.com"),
            ("origin", "http://localhost", "http://example.com"),
            ("last-event-id", "a-1", "a-2"),
            ("content-encoding", "identity", "gzip"),
            ("transfer-encoding", "chunked", "identity"),
        ]
    ),
    # (a proxy may join what stood twice, or one of the two may read it as one name)
    *(
        (f"{name} joined", method, other(name, value), status, said)
        for name, method, value, status, said in [
            ("content-type", "POST", "application/json, text/plain", 415, "application/json"),
            ("content-type", "POST", "text/plain, application/json", 415, "application/json"),
            ("content-length", "POST", "2, 2", 400, "Content-Length"),
            ("content-length", "POST", "0x2", 400, "Content-Length"),
            ("content-encoding", "POST", "identity, gzip", 415, "Content-Encoding"),
            ("mcp-session-id", "POST", "a, b", 404, "session"),
            ("mcp-protocol-version", "POST", "2025-11-25, 2025-06-18", 400, "2025-11-25"),
            ("origin", "POST", "http://localhost, http://example.com", 403, "Origin"),
            ("last-event-id", "GET", "a-1, a-2", 400, "Last-Event-ID"),
        ]
    ),
    (
        "a length beside a Transfer-Encoding",
        "POST",
        [*POST, ("content-length", "2"), ("transfer-encoding", "chunked")],
        400,
        "Transfer-Encoding",
    ),
    ("a Transfer-Encoding alone", "POST", other("transfer-encoding", "chunked"), 200, ""),
    (
        "another name for a method",
        "GET",
        [*GET, ("x-http-method-override", "DELETE"), ("last-event-id", "x")],
        400,
        "Last-Event-ID",
    ),
]
#: Of one without a session, with the body too.
STRANGERS = [
    ("no session", "POST", POST, PING, 400, "Mcp-Session-Id"),
    ("no session, a notification", "POST", POST, notice("notifications/initialized"), 400, "Mcp-Session-Id"),
    ("no session, GET", "GET", GET, b"", 400, "Mcp-Session-Id"),
    ("no session, DELETE", "DELETE", [], b"", 400, "Mcp-Session-Id"),
    ("an unknown session", "POST", [*POST, ("mcp-session-id", "x")], PING, 404, "session"),
    ("an unknown session, GET", "GET", [*GET, ("mcp-session-id", "x")], b"", 404, "session"),
    ("an unknown session, DELETE", "DELETE", [("mcp-session-id", "x")], b"", 404, "session"),
    ("initialize for an unknown session", "POST", other("mcp-session-id", "x"), INITIALIZE, 404, "session"),
    # (names that look like the session's)
    *(
        (f"{name!r} for a session", "POST", [*POST, (name, "x")], PING, 400, "Mcp-Session-Id")
        for name in ("mcp_session_id", "mcp-session-id ", "x-mcp-session-id", "mcp-session-id\x00")
    ),
]
#: What a POST of a session's has for its body.
BODIES = [
    ("not JSON", b"{", 400, "Parse error"),
    ("nothing", b"", 400, "Parse error"),
    ("no UTF-8", b'"\xff"', 400, "Parse error"),
    ("a byte order mark", b"\xef\xbb\xbf" + json.dumps(PING).encode(), 400, "Parse error"),
    ("UTF-16", json.dumps(PING).encode("utf-16"), 400, "Parse error"),
    ("deep", b"[" * 100_000, 400, "Parse error"),
    ("two messages", json.dumps(PING).encode() * 2, 400, "Parse error"),
    ("a number", b"7", 400, "Invalid Request"),
    ("no message", {"id": 1, "method": "ping"}, 400, "Invalid Request"),
    ("an id that is an array", {**PING, "id": [1]}, 400, "Invalid Request"),
    ("an id that is null", {**PING, "id": None}, 400, "null"),
    ("a batch", [PING], 400, "no batches"),
    ("an empty batch", b"[]", 400, "no batches"),
    ("a notification", notice("notifications/x"), 202, ""),
    ("a response to nothing", {"jsonrpc": "2.0", "id": 9, "result": {}}, 202, ""),
    ("initialize again", INITIALIZE, 200, "initialize has come already"),
    ("an unknown method", request(1, "x"), 200, "Method not found"),
]
#: Origins, and whether a page of theirs may call by default.
ORIGINS = [
    ("http://localhost", True),
    ("http://localhost:3000", True),
    ("https://localhost", True),
    ("http://127.0.0.1:8000", True),
    ("http://[::1]:8000", True),
    ("http://LOCALHOST:1", True),
    ("null", False),
    ("", False),
    ("http://example.com", False),
    ("http://localhost.example.com", False),
    ("http://localhost:80@example.com", False),
    ("http://example.com/?http://localhost", False),
    ("http://127.0.0.1.example.com", False),
    ("http://127.0.0.2", False),
    ("http://localhost\n", False),
    ("file://localhost", False),
    ("http://localhost http://example.com", False),
]


class Statuses(Over):
    async def check(self, method, headers, body, status, said, is_mine=True):
        async with self.begun() as web:
            mine = [("mcp-session-id", web.session)] if is_mine else []
            mine = [it for it in mine if it[0] not in dict(headers)]
            response = web.request(method, body, [*headers, *mine])
            self.assertEqual(await response.whole(), status)
            if status >= 400:
                self.assertEqual((response.json["jsonrpc"], response.json["id"]), ("2.0", None))
            self.assertIn(said, response.json["error"]["message"] if said else "")
            if status == 405:
                self.assertEqual(response.headers["allow"], "GET, POST, DELETE")
            self.assertNotIn("mcp-session-id", response.headers)
            self.assertEqual((await web.ask("ping"))["result"], {})
        self.assertEqual(self.texts, [])

    @rows(HEADERS)
    async def test_headers(self, _, method, headers, status, said):
        await self.check(method, headers, PING if method in ("POST", "PUT") else b"", status, said)

    @rows(STRANGERS)
    async def test_strangers(self, _, method, headers, body, status, said):
        await self.check(method, headers, body, status, said, is_mine=False)

    @rows(BODIES)
    async def test_bodies(self, _, body, status, said):
        await self.check("POST", POST, body, status, said)

    @rows(
        [
            {**INITIALIZE, "params": {}},
            {**INITIALIZE, "params": None},
            {**INITIALIZE, "id": None},
            {**INITIALIZE, "jsonrpc": "1.0"},
            {"jsonrpc": "2.0", "method": "initialize", "params": INITIALIZE["params"]},
            [INITIALIZE],
        ]
    )
    async def test_what_doesnt_begin_a_session(self, wrong):
        async with self.over() as web:
            response = web.request("POST", wrong, POST)
            await response.whole()
            self.assertNotIn("mcp-session-id", response.headers)
            self.assertTrue("error" in response.json)
            await self.until(lambda: web.app.sessions == 0)

    @rows(ORIGINS)
    async def test_origins(self, origin, may):
        async with self.begun() as web:
            of_none = [*GET, ("last-event-id", "x")]
            for method, headers, status in (("POST", POST, 200), ("GET", of_none, 400)):
                response = web.request(method, PING, [*headers, *web.mine, ("origin", origin)])
                self.assertEqual(await response.whole(), status if may else 403)

    @rows([("https://a.example", 200), ("http://a.example", 403), ("http://localhost", 403)])
    async def test_own_origins(self, origin, status):
        async with self.over(origins=["https://a.example"]) as web:
            response = web.request("POST", INITIALIZE, [*POST, ("origin", origin)])
            self.assertEqual(await response.whole(), status)

    @rows(
        [
            ("localhost:8000", 200),
            ("127.0.0.1", 200),
            ("[::1]:8000", 200),
            ("evil.example:8000", 403),
            ("localhost.evil.example", 403),
            ("", 403),
            (None, 403),
        ]
    )
    async def test_hosts(self, host, status):
        """A name of another site may lead to this machine."""
        async with self.over(hosts=["localhost", "127.0.0.1", "[::1]"]) as web:
            given = [] if host is None else [("host", host)]
            response = web.request("POST", INITIALIZE, [*POST, *given])
            self.assertEqual(await response.whole(), status)


class Tokens(Over):
    def bearer(self, **more):
        def check(token):
            if token == "poor":
                raise NotEnough("tools:call")
            if token == "broken":
                raise RuntimeError("secret")
            return {"one": "ann", "two": "ben"}.get(token)

        return Bearer(check, "https://a.example/mcp", ["https://login.example"], scopes=["tools"], **more)

    async def test_who_may(self):
        server = words()

        @server.tool
        def who(context: Context) -> str:
            return context.user

        async with self.over(server, bearer=self.bearer()) as web:
            metadata = 'resource_metadata="https://a.example/.well-known/oauth-protected-resource/mcp"'
            for token, status, said in (
                (None, 401, f'Bearer {metadata}, scope="tools"'),
                ("Basic one", 401, f'Bearer {metadata}, scope="tools"'),
                ("Bearer", 401, f'Bearer {metadata}, scope="tools"'),
                ("Bearer one two", 401, f'Bearer {metadata}, scope="tools"'),
                ("Bearer x", 401, f'Bearer error="invalid_token", {metadata}, scope="tools"'),
                ("Bearer poor", 403, f'Bearer error="insufficient_scope", {metadata}, scope="tools:call"'),
                ("Bearer broken", 500, None),
                ("bearer one", 200, None),
            ):
                given = [] if token is None else [("authorization", token)]
                response = web.request("POST", INITIALIZE, [*POST, *given])
                self.assertEqual(await response.whole(), status, token)
                self.assertEqual(response.headers.get("www-authenticate"), said)
                self.assertNotIn(b"secret", response.data)
            web.headers = [("authorization", "Bearer one")]
            await web.begin()
            self.assertEqual(
                (await web.ask("tools/call", {"name": "who"}))["result"]["content"][0]["text"], "ann"
            )
            # (a session is its user's alone)
            web.headers = [("authorization", "Bearer two")]
            self.assertEqual(await web.send("ping").whole(), 404)
            self.assertEqual(await web.get().whole(), 404)
            self.assertEqual(await web.delete(), 404)
            web.headers = []
            self.assertEqual(await web.send("ping").whole(), 401)

    async def test_the_metadata(self):
        async with self.over(bearer=self.bearer(), path="/mcp") as web:
            for path in (
                "/.well-known/oauth-protected-resource",
                "/.well-known/oauth-protected-resource/mcp",
                "/mounted/.well-known/oauth-protected-resource",
            ):
                response = web.request("GET", path=path)
                self.assertEqual(await response.whole(), 200)
                self.assertEqual(
                    response.json,
                    {
                        "resource": "https://a.example/mcp",
                        "authorization_servers": ["https://login.example"],
                        "scopes_supported": ["tools"],
                        "bearer_methods_supported": ["header"],
                    },
                )
            self.assertEqual(await web.request("POST", path=path).whole(), 405)

    async def test_an_async_check_without_state(self):
        server = words()

        @server.tool
        async def who(context: Context) -> str:
            return context.user

        async def check(token):
            await asyncio.sleep(0)
            return token.upper()

        async with self.over(
            server, bearer=Bearer(check, "http://localhost:8000/mcp"), stateless=True
        ) as web:
            web.headers = [("authorization", "Bearer ann")]
            self.assertEqual(
                (await web.ask("tools/call", {"name": "who"}))["result"]["content"][0]["text"], "ANN"
            )

    @rows(["", "/mcp", "ftp://a/b", "https://a/b#c", 'https://a/"'])
    def test_what_no_bearer_is(self, resource):
        with self.assertRaises(ValueError):
            Bearer(str, resource)


class BadUse(Over):
    @by_the_clock
    async def test_sessions_that_are_left(self):
        async with self.over(sessions=3, session_seconds=1.6) as web:
            webs = [Web(web.app) for _ in range(3)]
            for it in webs:
                await it.begin()
            response = web.request("POST", INITIALIZE, POST)
            self.assertEqual((await response.whole(), response.headers["retry-after"]), (503, "30"))
            self.assertEqual(response.json["error"]["code"], -32000)
            # (one that is used stays, and one that has a stream)
            stream = webs[1].get()
            for _ in range(6):
                await asyncio.sleep(0.4)
                self.assertEqual((await webs[0].ask("ping"))["result"], {})
            self.assertEqual(await webs[2].send("ping").whole(), 404)
            self.assertFalse(stream.is_over)
            await web.begin()
            stream.cut()

    async def test_a_body(self):
        async with self.begun(body=1000, body_seconds=0.1) as web:
            mine = [*POST, *web.mine]
            start = time.monotonic()
            endless = web.request("POST", [b"{", None], mine)
            self.assertEqual(await endless.whole(), 408)
            self.assertLess(time.monotonic() - start, patience(5))
        # (with as much time for the others as there usually is)
        async with self.begun(body=1000) as web:
            mine = [*POST, *web.mine]
            much = web.request("POST", [b" " * 600] * 2, mine)
            self.assertEqual(await much.whole(), 413)
            told = web.request("POST", [None], [*mine, ("content-length", "1001")])
            self.assertEqual(await told.whole(), 413)
            left = web.request("POST", [b"{", None], mine)
            await asyncio.sleep(0)
            left.cut()
            await left.task
            self.assertIsNone(left.status)
            exactly = json.dumps(PING).encode()
            fits = web.request("POST", exactly + b" " * (1000 - len(exactly)), mine)
            self.assertEqual(await fits.whole(), 200)

    async def test_a_body_that_is_too_large_for_the_connection(self):
        async with self.begun(words(content=500)) as web:
            self.assertEqual(await web.post(b" " * 501).whole(), 413)
            self.assertEqual((await web.ask("ping"))["result"], {})

    async def test_many_streams(self):
        server = words()
        async with self.begun(server, session_streams=3) as web:
            streams = [web.get() for _ in range(3)]
            for it in streams:
                await it.until(lambda it: it.status)
            self.assertEqual(await web.get().whole(), 429)
            streams[0].cut()
            await streams[0].task
            again = web.get()
            await again.until(lambda it: it.status)
            response = web.call("count", {"text": ""})
            self.assertEqual((await response.whole(), response.json["error"]["code"]), (429, -32000))
            for it in [*streams, again]:
                it.cut()

    async def test_many_requests(self):
        async with self.begun(streams=4) as web:
            left = [web.get() for _ in range(4)]
            for it in left:
                await it.until(lambda it: it.status)
            self.assertEqual(await web.send("ping").whole(), 503)
            left[0].cut()
            await left[0].task
            self.assertEqual(await web.send("ping").whole(), 200)
            for it in left:
                it.cut()

    async def test_ten_thousand_streams(self):
        """As many as may be wait, and the others are told to come later; and when they have left, nothing is kept."""
        async with self.begun(session_streams=20_000) as web:
            gc.collect()
            tracemalloc.start()
            streams = [web.get() for _ in range(10_000)]
            for it in streams:
                await it.until(lambda it: it.status)
            statuses = [it.status for it in streams]
            self.assertEqual([statuses.count(it) for it in (200, 503, 429)], [1000, 9000, 0])
            refused = streams[-1].headers
            for it in streams:
                it.cut()
                await it.task
            streams.clear()
            gc.collect()
            self.assertLess(tracemalloc.get_traced_memory()[0], 2 << 20)
            tracemalloc.stop()
            self.assertEqual(refused["retry-after"], "5")
            self.assertEqual((await web.ask("ping"))["result"], {})

    async def test_a_client_that_reads_nothing(self):
        server = words()
        async with self.begun(server, unread_seconds=0.1) as web:
            response = web.call("steps", {"name": "a"}, {"progressToken": 1}, reads=False)
            start = time.monotonic()
            await response.task
            self.assertLess(time.monotonic() - start, patience(5))
            server.go["a"].set()
            self.assertEqual((await web.ask("ping"))["result"], {})
        self.assertEqual(self.texts, ["a stream ends: its client reads nothing"])

    async def test_a_client_that_reads_slowly(self):
        """What it leaves unread has a bound, and the stream ends with a word."""
        server = words(grace=0.1)

        @server.tool
        async def flood(context: Context) -> str:
            for it in range(1, 4_001):
                context.report_progress(it, message="x" * 2000)
                if it % 20 == 0:
                    await asyncio.sleep(0)
            return "done"

        async with self.begun(server, unread=1 << 16, unread_seconds=1) as web:
            gc.collect()
            tracemalloc.start()
            response = web.call("flood", meta={"progressToken": 1}, reads=False)
            await asyncio.wait({response.task}, timeout=patience(20))
            peak = tracemalloc.get_traced_memory()[1]
            tracemalloc.stop()
            # (of 8 MB that were said)
            self.assertLess(peak, 4 << 20)
            self.assertTrue(response.task.done())
        # (each is said once, and the second one alone where the machine is slow)
        texts = [it for it in self.texts if it.startswith("a stream ends: its client ")]
        said = [it.split(" ")[5] for it in texts]
        self.assertIn(said, (["has", "reads"], ["reads"]), self.texts)

    async def test_ids_that_collide(self):
        """Within a session they are refused, and two sessions may have the same."""
        server = words()
        async with self.over(server) as web:
            webs = [web, Web(web.app)]
            for it in webs:
                await it.begin()
            calls = [it.call("steps", {"name": f"{at}"}, {"progressToken": 1}) for at, it in enumerate(webs)]
            for it in calls:
                await it.until(lambda it: len(it.messages) == 3)
            same = request(webs[0]._last, "ping")
            self.assertEqual(await web.post(same).whole(), 400)
            text = request(str(webs[0]._last), "ping")
            self.assertEqual(await web.post(text).whole(), 200)
            for at in (1, 0):
                server.go[f"{at}"].set()
                await calls[at].whole()
            texts = [it.messages[-1]["result"]["content"][0]["text"] for it in calls]
            self.assertEqual(texts, ["done: 0", "done: 1"])
            self.assertEqual([it.messages[-1]["id"] for it in calls], [webs[0]._last] * 2)
            self.assertEqual(await web.post(same).whole(), 200)

    async def test_an_id_twice_at_once(self):
        """Also while the first one is still being read."""

        server = words()
        # (so that both are there before the connection has told of the first)
        with mock.patch("bullmyrtle.mcp._asgi._LONG", 1 << 30):
            async with self.begun(server) as web:
                name = "a" * 400_000
                twice = [
                    web.post(request(7, "tools/call", {"name": "steps", "arguments": {"name": name}}))
                    for _ in "ab"
                ]
                await self.until(lambda: any(it.task.done() for it in twice))
                server.go.setdefault(name, asyncio.Event()).set()
                self.assertEqual(sorted([await it.whole() for it in twice]), [200, 400])
                self.assertEqual(await web.post(request(7, "ping")).whole(), 200)

    async def test_what_a_session_keeps_of_its_client(self):
        server = words()
        server.resource("a://{name}")(lambda name: name)
        with mock.patch("bullmyrtle.mcp.server._MOST_SUBSCRIBED", 5):
            async with self.over(server) as web:
                large = {
                    **INITIALIZE,
                    "params": {**INITIALIZE["params"], "capabilities": {"x": "y" * 70_000}},
                }
                self.assertEqual(await web.request("POST", large, POST).whole(), 413)
                await web.begin()
                for at in range(5):
                    self.assertEqual(
                        (await web.ask("resources/subscribe", {"uri": f"a://{at}"}))["result"], {}
                    )
                self.assertEqual(
                    (await web.ask("resources/subscribe", {"uri": "a://x"}))["error"]["code"], -32000
                )
                await web.ask("resources/unsubscribe", {"uri": "a://0"})
                long = {"uri": f"a://{'x' * 10_000}"}
                self.assertEqual((await web.ask("resources/subscribe", long))["error"]["code"], -32000)
                self.assertEqual((await web.ask("resources/subscribe", {"uri": "a://x"}))["result"], {})

    async def test_a_flood_of_notifications(self):
        """They wait, and none is lost."""
        server = words()
        heard = []
        server.method("notifications/x")(lambda params: heard.append(params["it"]))
        async with self.begun(server) as web:
            posts = [web.post(notice("notifications/x", {"it": it})) for it in range(100)]
            for it in posts:
                self.assertEqual(await it.whole(), 202)
            await web.ask("ping")
            self.assertEqual(heard, list(range(100)))

    async def test_a_store_that_fails(self):
        class Failing(MemoryEvents):
            def add(self, stream, number, message):
                raise OSError("full")

        async with self.begun(words(grace=0.1), events=Failing) as web:
            response = web.call("steps", {"name": "a"}, {"progressToken": 1})
            await response.whole()
            self.assertEqual(await web.send("ping").whole(), 404)
        self.assertIn("the session ends, since what is said can't be written", self.texts)

    @rows([("brief", "the tool failed"), (None, "the tool failed"), ("full", "ValueError: secret")])
    async def test_an_exception_of_a_tool(self, errors, said):
        """Its text isn't sent, unless that is asked for, or meant."""
        server = words(errors=errors)

        @server.tool
        def fail(kind: str):
            raise (ToolError if kind == "tool" else ValueError)("secret")

        async with self.begun(server) as web:
            for kind, expected in (("tool", "secret"), ("value", said)):
                result = await web.ask("tools/call", {"name": "fail", "arguments": {"kind": kind}})
                self.assertEqual(result["result"]["content"][0]["text"], expected)

    async def test_an_id_twice_in_a_batch(self):
        async with self.over() as web:
            await web.begin("2025-03-26")
            response = web.post([PING, PING])
            self.assertEqual(await response.whole(), 400)
            # (each request of a batch has its response)
            self.assertEqual([(it["id"], it["error"]["code"]) for it in response.json], [(1, -32600)] * 2)
            self.assertEqual(await web.post([{**PING, "id": None}]).whole(), 400)
            self.assertEqual(await web.post([{**PING, "id": 1}, {**PING, "id": "1"}]).whole(), 200)

    async def test_an_event_of_another_session(self):
        server = words()
        async with self.over(server) as web:
            other = Web(web.app)
            await web.begin()
            await other.begin()
            response = web.call("steps", {"name": "a"}, {"progressToken": 1})
            same = other.call("steps", {"name": "a"}, {"progressToken": 1})
            for it in (response, same):
                await it.until(lambda it: len(it.messages) == 3)
            for id_, _ in response.events:
                self.assertEqual(await other.get(id_).whole(), 400)
            server.go["a"].set()
            await response.whole()
            await same.whole()
            for id_, _ in response.events:
                self.assertEqual(await other.get(id_).whole(), 400)
            name, _, number = response.last_id.rpartition("-")
            for wrong in (
                f"{name}-{int(number) + 1}",
                f"{name}-999999999999",
                f"{name}--1",
                f"{name}-",
                name,
                "-1",
                "",
            ):
                self.assertEqual(await web.get(wrong).whole(), 400, wrong)

    async def test_events_that_are_no_longer_kept(self):
        server = words()
        async with self.begun(server, events=lambda: MemoryEvents(most=3)) as web:
            response = web.call("steps", {"name": "a", "count": 5}, {"progressToken": 1})
            await response.until(lambda it: len(it.messages) == 5)
            response.cut()
            await response.task
            server.go["a"].set()
            statuses = []
            for id_, _ in response.events:
                again = web.get(id_)
                await again.whole()
                statuses.append(again.status)
            # (of five reports and the result, which come after an event without data, three are kept)
            self.assertEqual(statuses, [400, 400, 400, 200, 200, 200])

    async def test_a_tool_that_outlives_its_session(self):
        server = words(grace=0.1)
        go, ended = threading.Event(), []

        @server.tool(thread=True)
        def work(context: Context) -> str:
            context.report_progress(1)
            go.wait(SECONDS)
            try:
                context.report_progress(2)
                context.info("late")
                context.request.notify("x", {})
                ended.append("told")
                context.sample("late")
            except Exception as error:
                ended.append(type(error).__name__)
            return "late"

        async with self.over(server) as web:
            await web.begin(sampling={})
            response = web.call("work", meta={"progressToken": 1})
            await response.until(lambda it: it.messages)
            self.assertEqual(await web.delete(), 204)
            await response.whole()
            self.assertEqual(len(response.messages), 1)
            self.assertEqual(await web.send("ping").whole(), 404)
            other = Web(web.app)
            await other.begin()
            own = other.get()
            go.set()
            await self.until(lambda: len(ended) == 2)
            await asyncio.sleep(0.05)
            self.assertEqual((await other.ask("ping"))["result"], {})
            self.assertEqual(own.messages, [])
            own.cut()
        self.assertEqual(ended[0], "told")
        self.assertIn(ended[1:], (["Closed"], ["Unanswered"]))

    async def test_a_client_that_opens_no_stream(self):
        """What no call asks has nowhere to go: so much is kept, and who waits for more is told."""
        server = words()
        asked = []

        @server.tool
        async def later(context: Context) -> str:
            session = context.request.session
            asked.append(asyncio.ensure_future(session.call("roots/list")))
            for it in range(150):
                session.notify("notifications/x", {"it": it})
            return "later"

        async with self.begun(server) as web:
            await web.call("later").whole()
            await self.until(lambda: asked[0].done())
            self.assertIn("reads no stream", str(asked[0].exception()))
            own = web.get()
            await own.until(lambda it: len(it.messages) == 100)
            self.assertEqual([it["params"].get("it") for it in own.messages], list(range(50, 150)))
            own.cut()

    async def test_a_post_that_is_left_before_it_has_a_stream(self):
        """Its tool goes on; what that asks goes to the stream of a GET."""
        server = words()

        @server.tool
        async def slow(context: Context) -> str:
            await asyncio.sleep(0.02)
            return (await context.sample("?"))["content"]["text"]

        async with self.over(server) as web:
            await web.begin(sampling={})
            own = web.get()
            response = web.call("slow")
            await asyncio.sleep(0)
            response.cut()
            await response.task
            await own.until(lambda it: it.messages)
            self.assertEqual(own.messages[0]["method"], "sampling/createMessage")
            own.cut()

    async def test_a_server_that_says_so_when_nobody_reads(self):
        """ASGI 2.4 raises an OSError then, which is nobody's fault."""
        server = words()
        async with self.begun(server) as web:

            async def receive():
                return {"type": "http.request", "body": json.dumps(PING).encode(), "more_body": False}

            async def send(message):
                raise OSError("the client has left")

            headers = [(name.encode(), it.encode()) for name, it in [*POST, *web.mine]]
            await web.app({"type": "http", "method": "POST", "path": "/", "headers": headers}, receive, send)
        self.assertEqual(self.texts, [])

    @rows(
        [
            {"answers": "x"},
            {"path": "mcp"},
            {"sessions": 0},
            {"origins": "http://localhost"},
            {"hosts": "localhost"},
            {"nothing": 1},
        ]
    )
    def test_settings_that_are_none(self, wrong):
        server = words()
        with self.assertRaises((ValueError, TypeError)):
            server.asgi(**wrong)
