"""Pages in a browser that call a tool server: the headers of CORS, for Origins that may call and for no others."""
import asyncio
import json
import os
import shutil
import signal
import subprocess
import tempfile
import unittest
from urllib.parse import unquote

from asgi_caller import GET, POST, Web
from asgi_server import served
from helping import Case, request, rows
from test_tool_http import Over, words
from test_tool_http_refused import INITIALIZE, ORIGINS, PING

from bullmyrtle.mcp import Bearer

PAGE = "https://a.example"
OF_CORS = ("access-control-allow-origin", "access-control-expose-headers", "access-control-allow-methods")
#: What a page of MCP's has to send: by the section on transports, and the one on authorization.
NEEDED = {
    "accept",
    "authorization",
    "content-type",
    "last-event-id",
    "mcp-protocol-version",
    "mcp-session-id",
}


def listed(text):
    return {it.strip().lower() for it in text.split(",")}


def asking(origin=PAGE, method="POST"):
    return [
        ("origin", origin),
        ("access-control-request-method", method),
        ("access-control-request-headers", "content-type,mcp-protocol-version"),
    ]


class Headers(Over):
    def check_read(self, response, origin=PAGE):
        """The page may read it, and no cache gives it to another one."""
        self.assertEqual(response.headers["access-control-allow-origin"], origin)
        self.assertLessEqual({"mcp-session-id", "www-authenticate"}, listed(response.headers[OF_CORS[1]]))
        self.assertEqual(response.headers["vary"].lower(), "origin")
        self.assertNotIn("access-control-allow-credentials", response.headers)

    def check_none(self, response):
        self.assertEqual([it for it in OF_CORS if it in response.headers], [])

    @rows([({}, {"get", "post", "delete"}), ({"stateless": True}, {"post"})])
    async def test_what_may_be_sent(self, settings, methods):
        async with self.over(origins=[PAGE], **settings) as web:
            for method in ("POST", "GET", "DELETE"):
                response = web.request("OPTIONS", b"", asking(method=method))
                self.assertEqual((await response.whole(), response.data), (204, b""))
                self.check_read(response)
                self.assertEqual(listed(response.headers["access-control-allow-methods"]), methods)
                self.assertLessEqual(NEEDED, listed(response.headers["access-control-allow-headers"]))
                self.assertGreater(int(response.headers["access-control-max-age"]), 0)
                # (RFC 9110, 8.6)
                self.assertNotIn("content-length", response.headers)

    async def test_what_may_be_read(self):
        """Each answer, whatever its status, and a stream."""
        async with self.over(origins=[PAGE]) as web:
            page = [("origin", PAGE)]
            begun = web.request("POST", INITIALIZE, [*POST, *page])
            self.assertEqual(await begun.whole(), 200)
            self.check_read(begun)
            web.session = begun.headers["mcp-session-id"]
            for method, headers, body, status in (
                ("POST", POST, PING, 200),
                ("POST", POST, {"jsonrpc": "2.0", "method": "notifications/initialized"}, 202),
                ("POST", POST, b"{", 400),
                ("POST", [], PING, 415),
                ("GET", [*GET, ("last-event-id", "x")], b"", 400),
                ("PUT", POST, PING, 405),
                ("OPTIONS", [], b"", 405),
                ("DELETE", [], b"", 204),
                ("POST", POST, PING, 404),
            ):
                response = web.request(method, body, [*headers, *web.mine, *page])
                self.assertEqual(await response.whole(), status)
                self.check_read(response)
            again = Web(web.app, headers=page)
            await again.begin()
            stream = again.get()
            await stream.until(lambda it: it.status)
            self.check_read(stream)
            stream.cut()

    async def test_origins(self):
        """What may not call gets none of it, for any method."""
        async with self.over() as web:
            for origin, may in ORIGINS:
                for method, headers, body in (("OPTIONS", asking(origin), b""), ("POST", POST, INITIALIZE)):
                    with self.subTest(origin=origin, method=method):
                        given = [it for it in headers if it[0] != "origin"]
                        response = web.request(method, body, [*given, ("origin", origin)])
                        status = await response.whole()
                        if may:
                            self.assertEqual(status, 204 if method == "OPTIONS" else 200)
                            self.check_read(response, origin)
                        else:
                            self.assertEqual(status, 403)
                            self.check_none(response)

    async def test_who_is_no_page(self):
        async with self.over() as web:
            for method, headers, body in (
                ("POST", POST, INITIALIZE),
                ("OPTIONS", [], b""),
                ("OPTIONS", asking()[1:], b""),
            ):
                response = web.request(method, body, headers)
                self.assertEqual(await response.whole(), 200 if method == "POST" else 405)
                self.check_none(response)

    async def test_origins_that_stand_twice(self):
        async with self.over(origins=[PAGE]) as web:
            for origins in (
                [PAGE, "http://localhost"],
                [f"{PAGE}, http://localhost"],
                [f"http://localhost {PAGE}"],
            ):
                response = web.request("OPTIONS", b"", [*asking()[1:], *(("origin", it) for it in origins)])
                self.assertEqual(await response.whole(), 400 if len(origins) > 1 else 403)
                self.check_none(response)

    async def test_without(self):
        """Something before the server gives them."""
        async with self.over(origins=[PAGE], cors=False) as web:
            response = web.request("POST", INITIALIZE, [*POST, ("origin", PAGE)])
            self.assertEqual(await response.whole(), 200)
            self.check_none(response)
            self.assertEqual(await web.request("OPTIONS", b"", asking()).whole(), 405)

    async def test_a_bearer(self):
        """A browser asks without a token; what it is told then any page may know. The metadata any page may read."""
        async with self.over(
            origins=[PAGE], bearer=Bearer({"one": "ann"}.get, "https://s.example/mcp")
        ) as web:
            response = web.request("OPTIONS", b"", asking())
            self.assertEqual(await response.whole(), 204)
            refused = web.request("POST", INITIALIZE, [*POST, ("origin", PAGE)])
            self.assertEqual(await refused.whole(), 401)
            self.check_read(refused)
            place = "/.well-known/oauth-protected-resource/mcp"
            for method, headers, status in (
                ("GET", [("origin", "https://b.example")], 200),
                ("OPTIONS", asking("https://b.example", "GET"), 204),
                ("OPTIONS", [], 405),
            ):
                response = web.request(method, b"", headers, path=place)
                self.assertEqual(await response.whole(), status)
                self.assertEqual(response.headers["access-control-allow-origin"], "*")
            response = web.request("OPTIONS", b"", asking("https://b.example"), path=place)
            await response.whole()
            self.assertEqual(response.headers["access-control-allow-methods"], "GET")
            self.assertIn("mcp-protocol-version", listed(response.headers["access-control-allow-headers"]))


SCRIPT = """<!doctype html><body><script>
const headers = { 'Content-Type': 'application/json', Accept: 'application/json, text/event-stream' }
const post = (more, body) =>
  fetch(URL_, { method: 'POST', headers: { ...headers, ...more }, body: JSON.stringify(body) })
async function main() {
  const begun = await post({}, INITIALIZE)
  const session = { 'Mcp-Session-Id': begun.headers.get('mcp-session-id'), 'MCP-Protocol-Version': '2025-11-25' }
  const answer = await (await post(session, CALL)).json()
  const over = await fetch(URL_, { method: 'DELETE', headers: session })
  return `${answer.result.structuredContent.result} ${over.status}`
}
main().catch(error => error.name).then(told => fetch(`/told/${encodeURIComponent(told)}`))
</script></body>"""


class Page:
    """An application that is one page, and is told what the page found."""

    def __init__(self, data):
        self.data = data
        self.told = []

    async def __call__(self, scope, receive, send):
        _, is_told, said = scope["path"].partition("/told/")
        if is_told:
            self.told.append(unquote(said))
        start = {"type": "http.response.start", "status": 200, "headers": [(b"content-type", b"text/html")]}
        await send(start)
        await send({"type": "http.response.body", "body": self.data, "more_body": False})

    async def close(self):
        pass


@unittest.skipUnless(shutil.which("chromium"), "chromium isn't there: no page of a browser calls a server")
class InABrowser(Case):
    """A page of another origin than the server's calls a tool, in Chromium."""

    async def told_by_a_page(self, app):
        async with served(app) as server:
            text = SCRIPT.replace("URL_", json.dumps(server.url)).replace(
                "INITIALIZE", json.dumps(INITIALIZE)
            )
            call = request(2, "tools/call", {"name": "count", "arguments": {"text": "a b c"}})
            data = text.replace("CALL", json.dumps(call)).encode()

            page = Page(data)
            async with served(page) as its:
                browser = await self.opened(its.url)
                try:
                    await self.until(lambda: page.told)
                finally:
                    os.killpg(browser.pid, signal.SIGKILL)  # (it is several processes)
                    await browser.wait()
        return page.told

    async def opened(self, url):
        """A browser with this page, as long as nobody ends it."""
        room = tempfile.mkdtemp()
        self.addCleanup(shutil.rmtree, room, ignore_errors=True)  # (some of it may outlive the first process)
        quiet = {"stdout": subprocess.DEVNULL, "stderr": subprocess.DEVNULL}
        return await asyncio.create_subprocess_exec(
            "chromium",
            *["--headless", "--no-sandbox", "--disable-gpu", "--no-first-run", "--disable-dev-shm-usage"],
            f"--user-data-dir={room}/profile",
            url,
            env={**os.environ, "HOME": room},
            start_new_session=True,
            **quiet,
        )

    @rows([({}, "3 204"), ({"origins": [PAGE]}, "TypeError"), ({"cors": False}, "TypeError")])
    def test_a_page(self, settings, told):
        found = self.wait(self.told_by_a_page(words().asgi(**settings)))
        self.assertEqual(found, [told])
