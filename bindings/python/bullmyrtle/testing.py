"""Test a server in memory, without a process and without pipes; and test that nobody breaks the protocol."""
from __future__ import annotations

from typing import AsyncContextManager, Optional

from ._streams import Memory
from .client import Client
from .connection import Connection
from .examine._tested import Wrong, examined
from .judge._tested import Broke, joined_by, judged
from .server import Server

__all__ = ["Broke", "Wrong", "carry", "examined", "joined", "judged"]


def joined(server: Server, client: Optional[Client] = None) -> AsyncContextManager[Client]:
    """A client that is joined to a server in the same event loop.

    >>> async def test():
    ...     async with joined(server) as client:
    ...         assert await client.call("add", [1, 2]) == 3

    Give your own client where it has methods that the server calls back. When the block is left, the server's input
    ends, and what it still works on has its grace.
    """
    return joined_by(server, client, Memory.pair())


def carry(one: Connection, other: Connection) -> int:
    """Carry bytes between two connections until neither has any, and give how many they were.

    Ask both for their events afterwards: these may make new bytes.
    """
    carried = 0
    while True:
        before = carried
        for source, sink in ((one, other), (other, one)):
            data = source.take()
            if data:
                sink.feed(data)
                carried += len(data)
        if carried == before:
            return carried
