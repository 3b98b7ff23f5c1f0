"""A server: methods that answer what comes over the standard streams, or over others."""
from __future__ import annotations

import contextlib
import os
import sys
from _thread import allocate_lock

from . import _channels, _stdio
from ._blocking import Blocking, driven, is_needed
from ._hints import TYPE_CHECKING
from ._peer import Peer

if TYPE_CHECKING:
    import asyncio
    from typing import Any, Iterator, Optional, Tuple

    from ._channels import Channel
    from ._session import Session
    from ._websocket import WebSocket

_running = allocate_lock()


@contextlib.contextmanager
def _standard_streams() -> Iterator[Tuple[Optional[int], Optional[int]]]:
    """The standard streams, for one server at a time."""
    if not _running.acquire(blocking=False):
        raise RuntimeError("another server has the standard streams")
    try:
        with _stdio.taken() as streams:
            yield streams
    finally:
        _running.release()


def _check_that_no_loop_runs() -> None:
    asyncio: Any = sys.modules.get("asyncio")
    if asyncio is None:
        return
    try:
        asyncio.get_running_loop()
    except RuntimeError:
        return
    raise RuntimeError(
        "an event loop runs here already, and run() makes one of its own. "
        "Write `await server.serve_stdio()` for the standard streams, `await server.serve_async(reader, writer)` "
        "for others, or `await server.serve_websocket(ws)`"
    )


def _close(loop: asyncio.AbstractEventLoop) -> None:
    import asyncio

    asyncio.set_event_loop(None)
    loop.close()


class Server(Peer):
    """A server, as for an editor or a tool host.

    >>> server = Server()
    >>> @server.method("add")
    ... def add(params: list) -> int:
    ...     return sum(params)

    `sys.exit(server.run())` then answers on the standard streams.
    """

    def run(self) -> int:
        """Answer on the standard streams until the input is over, and give the status: 0 at a clean end, else 1.

        An end is clean where the input was closed between two messages, each request was answered by its method in
        time, and all answers were written; after `stop` the status is what that said.

        Meanwhile nothing else in the process has the standard input and output: anyone who prints, writes to the standard
        error. Ctrl-C ends it with the status 1.

        An event loop runs as soon as something needs one, as an `async def`; where `loop=True` was set, or the program
        has imported asyncio, it does from the start.
        """
        _check_that_no_loop_runs()
        with _standard_streams() as (source, sink):
            return self._run(source, sink)

    def _run(self, source: Optional[int], sink: Optional[int]) -> int:
        turns = Blocking()
        try:
            if self._has_loop or is_needed():
                turns.event_loop()
            session = self._session_on(source, sink, turns.loop or turns)
            if turns.loop is None:
                session._transport.begin()
                turns.run(lambda: session._transport.is_over)
                if turns.loop is None and session.has_nothing_left():
                    status: int = driven(self._serve(session))
                    return status
                session._transport.go_over()
            return self._run_in_loop(turns.event_loop(), session)
        except KeyboardInterrupt:
            self._because("Interrupted")
            return 1
        except SystemExit:
            self._because("Exited")
            raise
        finally:
            with contextlib.suppress(KeyboardInterrupt):
                self._end(turns.loop)
            if turns.loop is not None:
                _close(turns.loop)
            turns.close()

    def _run_in_loop(self, loop: asyncio.AbstractEventLoop, session: Session) -> int:
        import asyncio

        asyncio.set_event_loop(loop)
        return loop.run_until_complete(self._serve(session))

    def _session_on(self, source: Optional[int], sink: Optional[int], turns: Any = None) -> Session:
        # (the channel closes its own)
        own_source, own_sink = (None if it is None else os.dup(it) for it in (source, sink))
        session = self._session_over(_channels.over(own_source, own_sink), turns)
        if source is None or sink is None:
            session.watch.because("NoStreams")
        return session

    def _because(self, how: str) -> None:
        for session in self._sessions:
            session.watch.because(how)

    def _end(self, loop: Optional[asyncio.AbstractEventLoop]) -> None:
        """Ends what an interrupt left behind."""
        for session in list(self._sessions):
            if loop is None:
                driven(session.abort())
            else:
                loop.run_until_complete(session.abort())
        if loop is None:
            return
        import asyncio

        tasks = asyncio.all_tasks(loop)
        for it in tasks:
            it.cancel()
        if tasks:
            loop.run_until_complete(asyncio.wait(tasks, timeout=1))
        loop.run_until_complete(loop.shutdown_asyncgens())

    async def serve_stdio(self) -> int:
        """Do in a loop that runs already what `run` does in its own: answer on the standard streams.

        It ends as `run` does; Ctrl-C is up to the program that runs the loop.
        """
        with _standard_streams() as (source, sink):
            return await self._serve(self._session_on(source, sink))

    async def serve_async(self, reader: asyncio.StreamReader, writer: asyncio.StreamWriter) -> int:
        """Answer over a reader and a writer until the input is over, close the writer, and give the status.

        It may run several times at once, as for `asyncio.start_server(server.serve_async, ..)`.
        """
        from ._streams import Streams

        return await self.serve_over(Streams(reader, writer))

    async def serve_websocket(self, socket: WebSocket) -> int:
        """Answer over a web socket until it is closed, and give the status. It may run several times at once.

        `await socket.recv()` gives one message as a str or bytes, and `await socket.send(text)` sends one, as in the
        library `websockets`. The socket isn't closed here.
        """
        from ._websocket import Messages

        return await self._serve(self._session_over(Messages(socket), framing="contents"))

    async def serve_over(self, channel: Channel) -> int:
        """Answer over a channel; `bullmyrtle.testing` has one in memory."""
        return await self._serve(self._session_over(channel))

    def stop(self, status: int = 0, grace: Optional[float] = None) -> None:
        """End the session, as the end of its input does, with this status. Any thread may do that.

        Nothing more is read, and methods that still run have their grace, or as many seconds as are given.
        """
        self._single("request.session.stop(..)").stop(status, grace)

    def _nothing_runs(self) -> str:
        if self._last is not None:
            return super()._nothing_runs()
        return "no session runs yet: it begins with server.run(), or with one of the serve_ functions"
