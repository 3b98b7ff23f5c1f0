"""A tool server by its messages as they are on the wire, also such as no host of this package would write."""
import asyncio
import contextlib
import json
import os

from helping import TOP, request
from test_mcp import Wire


def table(name):
    """A table of checks/tool_rows, which the tests of bindings/node read too."""
    with open(os.path.join(TOP, "checks", "tool_rows", f"{name}.json"), encoding="utf-8") as it:
        return json.load(it)


class Talk:
    """One session: requests, and the answers that came."""

    def __init__(self, wire):
        self.wire, self._last = wire, 0
        self._read, self._answers = 0, {}

    def send(self, method, params=None):
        """Sends a request, and gives its id."""
        self._last += 1
        self.wire.feed(request(self._last, method, params))
        return self._last

    def answer(self, id_):
        """The answer to a request; None as long as there is none."""
        for it in self.wire.written[self._read :]:
            if isinstance(it, dict):  # (and no answer to a batch)
                self._answers[json.dumps(it.get("id"))] = it
        self._read = len(self.wire.written)
        return self._answers.pop(json.dumps(id_), None)

    def forget(self):
        """Drops what came and was looked at."""
        self.wire.written.clear()
        self._read = 0
        self._answers.clear()

    async def ask(self, method, params=None):
        """A request's answer, whole."""
        id_ = self.send(method, params)
        while True:
            found = self.answer(id_)
            if found is not None:
                return found
            await asyncio.sleep(0)


@contextlib.asynccontextmanager
async def talking(server, version="2025-06-18", begin=True):
    """A session with a server, which has begun."""
    wire = Wire()
    serving = asyncio.ensure_future(server.serve_over(wire))
    await asyncio.sleep(0)
    talk = Talk(wire)
    if begin:
        about = {"protocolVersion": version, "capabilities": {}, "clientInfo": {"name": "h", "version": "1"}}
        await talk.ask("initialize", about)
    yield talk
    server.session._transport.input_ended(False)
    await serving
