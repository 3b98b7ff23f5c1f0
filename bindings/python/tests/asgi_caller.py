"""Calls an ASGI application in the same loop, as an HTTP server would, and cuts connections where a test wants that."""
import asyncio
import json

POST = [("content-type", "application/json"), ("accept", "application/json, text/event-stream")]
GET = [("accept", "text/event-stream")]
VERSION = "2025-11-25"


class Response:
    """One request and its response, as far as it has come."""

    def __init__(self, app, scope, parts, reads=True):
        self._parts, self._reads = list(parts), reads
        self.status, self.headers, self.data = None, {}, b""
        self.is_over = False
        self._left = asyncio.Event()
        self._came = asyncio.Event()
        self.task = asyncio.ensure_future(app(scope, self._receive, self._send))
        self.task.add_done_callback(lambda task: self._came.set())

    async def _receive(self):
        if self._parts:
            part = self._parts.pop(0)
            if part is None:  # (a body that never ends)
                await self._left.wait()
            else:
                return {"type": "http.request", "body": part, "more_body": bool(self._parts)}
        await self._left.wait()
        return {"type": "http.disconnect"}

    async def _send(self, message):
        if self._left.is_set():
            return  # (as uvicorn does)
        if not self._reads and self.status is not None:
            await asyncio.Event().wait()
        if message["type"] == "http.response.start":
            self.status = message["status"]
            self.headers = {name.decode(): it.decode() for name, it in message["headers"]}
        else:
            self.data += message["body"]
            self.is_over = not message.get("more_body", False)
        self._came.set()

    def cut(self):
        """The connection breaks."""
        self._left.set()

    async def whole(self):
        """Waits for all of it, and gives the status."""
        await self.task
        return self.status

    async def until(self, is_reached):
        """Waits until something has come."""
        while not is_reached(self):
            self._came.clear()
            assert not self.task.done(), (self.status, self.data)
            await self._came.wait()
        return self

    @property
    def json(self):
        return json.loads(self.data)

    @property
    def is_stream(self):
        return self.headers.get("content-type") == "text/event-stream"

    @property
    def events(self):
        """The id and the data of each event; comments and an end that is cut off are left out."""
        found = []
        for block in self.data.decode().split("\n\n")[:-1]:
            fields = dict(it.partition(": ")[::2] for it in block.split("\n") if not it.startswith(":"))
            if "data" in fields:
                found.append((fields.get("id"), fields["data"]))
        return found

    @property
    def messages(self):
        """What came, by JSON or by events."""
        if self.is_stream:
            return [json.loads(data) for _, data in self.events if data]
        return [self.json] if self.data else []

    @property
    def last_id(self):
        return self.events[-1][0] if self.events else None


class Web:
    """A client of an application."""

    def __init__(self, app, path="/mcp", headers=()):
        self.app, self.path, self.headers = app, path, list(headers)
        self.session, self.version, self._last = None, VERSION, 0

    def request(self, method, body=(), headers=(), path=None, reads=True):
        """Begins a request. A body is a message, bytes, or parts, of which None never ends."""
        if isinstance(body, (dict, str)) or (isinstance(body, list) and not any(map(_is_part, body))):
            body = json.dumps(body).encode()
        parts = [body] if isinstance(body, bytes) else list(body)
        given = [(name.encode(), it.encode("latin-1")) for name, it in [*headers, *self.headers]]
        scope = {
            "type": "http",
            "method": method,
            "path": path or self.path,
            "headers": given,
            "query_string": b"",
        }
        return Response(self.app, scope, parts, reads)

    @property
    def mine(self):
        """The headers of a session."""
        version = [] if self.version is None else [("mcp-protocol-version", self.version)]
        return version if self.session is None else [*version, ("mcp-session-id", self.session)]

    def post(self, body, **more):
        return self.request("POST", body, [*POST, *self.mine], **more)

    def get(self, last=None, **more):
        after = [] if last is None else [("last-event-id", last)]
        return self.request("GET", (), [*GET, *self.mine, *after], **more)

    async def delete(self):
        return await self.request("DELETE", (), self.mine).whole()

    def message(self, method, params=None):
        """A request's message, with an id of its own."""
        self._last += 1
        made = {"jsonrpc": "2.0", "id": self._last, "method": method}
        return made if params is None else {**made, "params": params}

    def send(self, method, params=None, **more):
        return self.post(self.message(method, params), **more)

    def call(self, tool, arguments=None, meta=None, **more):
        about = {} if meta is None else {"_meta": meta}
        return self.send("tools/call", {"name": tool, "arguments": arguments or {}, **about}, **more)

    async def ask(self, method, params=None):
        """The answer of a request, whole."""
        response = self.send(method, params)
        await response.whole()
        return response.messages[-1]

    async def tell(self, method, params=None):
        """Sends a notification, and gives the status."""
        made = {"jsonrpc": "2.0", "method": method}
        return await self.post(made if params is None else {**made, "params": params}).whole()

    async def begin(self, version=VERSION, **capabilities):
        """Begins a session, and gives what the server says."""
        self.session = self.version = None
        about = {
            "protocolVersion": version,
            "capabilities": capabilities,
            "clientInfo": {"name": "t", "version": "1"},
        }
        response = self.send("initialize", about)
        await response.whole()
        self.session = response.headers.get("mcp-session-id")
        result = response.json["result"]
        self.version = result["protocolVersion"]
        assert await self.tell("notifications/initialized") == 202
        return result


def _is_part(it):
    return it is None or isinstance(it, bytes)
