"""A small HTTP server for an ASGI application, in the test's own loop: one request a connection, which a test may cut."""
import asyncio
import contextlib

from helping import patience


class Served:
    """An application that is reached over TCP."""

    def __init__(self, app):
        self.app, self.port = app, 0
        self.requests = []  # the method, and the headers
        self.cut_after = []  # of the streams that come next, how many parts are sent; None is all
        self.tasks = set()

    @property
    def url(self):
        return f"http://127.0.0.1:{self.port}/mcp"

    async def _connected(self, reader, writer):
        self.tasks.add(asyncio.current_task())
        try:
            head = (await reader.readuntil(b"\r\n\r\n")).decode("latin-1").split("\r\n")
            method, path, _ = head[0].split(" ")
            pairs = [it.partition(":")[::2] for it in head[1:] if it]
            headers = [(name.lower().encode(), it.strip().encode("latin-1")) for name, it in pairs]
            self.requests.append((method, dict(headers)))
            body = await reader.readexactly(int(dict(headers).get(b"content-length", b"0")))
            await self._answer(method, path, headers, body, reader, writer)
        except (asyncio.IncompleteReadError, ConnectionError, asyncio.CancelledError):
            pass  # (the last is the test's end, which asyncio would log otherwise)
        finally:
            self.tasks.discard(asyncio.current_task())
            writer.close()

    async def _answer(self, method, path, headers, body, reader, writer):
        scope = {"type": "http", "method": method, "path": path, "headers": headers, "query_string": b""}
        asked, left, parts, most = [body], asyncio.Event(), [], [None]

        async def receive():
            if asked:
                return {"type": "http.request", "body": asked.pop(), "more_body": False}
            waiting = {asyncio.ensure_future(reader.read()), asyncio.ensure_future(left.wait())}
            try:
                await asyncio.wait(waiting, return_when=asyncio.FIRST_COMPLETED)
            finally:
                for it in waiting:
                    it.cancel()
            return {"type": "http.disconnect"}

        async def send(message):
            if left.is_set():
                return
            if message["type"] == "http.response.start":
                lines = [b"HTTP/1.1 %d x" % message["status"], b"connection: close"]
                lines += [name + b": " + it for name, it in message["headers"]]
                writer.write(b"\r\n".join(lines) + b"\r\n\r\n")
                if self.cut_after and (b"content-type", b"text/event-stream") in message["headers"]:
                    most[0] = self.cut_after.pop(0)
            else:
                parts.append(message["body"])
                writer.write(message["body"])
            await writer.drain()
            if most[0] is not None and len(parts) > most[0]:
                left.set()
                writer.transport.abort()

        await self.app(scope, receive, send)


@contextlib.asynccontextmanager
async def served(app):
    """Serves an application."""
    it = Served(app)
    server = await asyncio.start_server(it._connected, "127.0.0.1", 0)
    it.port = server.sockets[0].getsockname()[1]
    try:
        yield it
    finally:
        server.close()
        await app.close()
        for task in list(it.tasks):
            task.cancel()
        if it.tasks:
            await asyncio.wait(set(it.tasks), timeout=patience(5))
