"""What the other side is told of an exception that isn't meant for it: all where it is this process's parent or child, and
over sockets nothing but that there was one, unless the server says otherwise."""
import asyncio
import contextlib
import dataclasses

from helping import Case, joined, logged, rows
from test_language_server import Editor
from test_many import Socket

from bullmyrtle import BadSettings, Client, Error, Server
from bullmyrtle.lsp import LanguageServer

SECRET = "/home/secret/key"


@dataclasses.dataclass
class Refusing:
    a: int

    def __post_init__(self):
        raise ValueError(SECRET)


class Outside:
    """A type that only a converter makes."""


class Converter:
    def structure(self, value, kind):
        raise KeyError(SECRET)

    def unstructure(self, value):
        return value


class Hidden(BaseException):
    def __str__(self):
        return SECRET


def fail(params):
    raise OSError(2, "No such file", SECRET)


async def fail_later(params):
    raise RuntimeError(SECRET)


def fail_below(params):
    raise Hidden


def unreadable(params):
    return {"a": Unreadable()}


class Unreadable:
    def __repr__(self):
        return SECRET

    def __reduce_ex__(self, _):
        raise TypeError(SECRET)


def refuse(params: Refusing):
    return None


def mean(params):
    raise Error(-32001, "meant", {"for": "all"})


#: Methods with the code and the message that is told in brief.
ROWS = {
    "fail": (fail, -32603, "Internal error"),
    "fail later": (fail_later, -32603, "Internal error"),
    "fail below": (fail_below, -32603, "Internal error"),
    "unreadable": (unreadable, -32603, "Internal error: the result isn't JSON"),
    "refuse": (refuse, -32602, "Invalid params"),
    "mean": (mean, -32001, "meant"),
}


def server_of(kind=Server, **settings):
    server = kind(**settings)
    for name, (function, _, _) in ROWS.items():
        server.method(name)(function)
    server.method("fail in a thread", thread=True)(fail)
    return server


@contextlib.asynccontextmanager
async def over_tcp(server, client):
    listening = await asyncio.start_server(server.serve_async, "127.0.0.1", 0)
    async with listening, client:
        client.connect(*await asyncio.open_connection(*listening.sockets[0].getsockname()[:2]))
        yield client


async def told_of(client, method):
    try:
        await client.call(method, {"a": 1})
    except Error as error:
        return error.code, error.message
    return 0, ""


class Told(Case):
    async def told(self, way, server, client=None):
        """What each method's caller is told."""
        with logged() as log:
            async with way(server, client or Client()) as calling:
                told = {it: await told_of(calling, it) for it in (*ROWS, "fail in a thread")}
        self.assertEqual(len(log.errors), 5)  # (each that nobody meant, by the program's own log)
        return told

    def assert_brief(self, told):
        wanted = {name: (code, message) for name, (_, code, message) in ROWS.items()}
        self.assertEqual(told, {**wanted, "fail in a thread": (-32603, "Internal error")})

    def assert_full(self, told):
        for name in ("fail", "fail later", "fail below", "refuse", "fail in a thread"):
            self.assertIn(SECRET, told[name][1], name)
        self.assertEqual(
            {name: told[name][0] for name in ROWS}, {name: code for name, (_, code, _) in ROWS.items()}
        )

    async def test_over_tcp(self):
        self.assert_brief(await self.told(over_tcp, server_of()))
        self.assert_full(await self.told(over_tcp, server_of(errors="full")))

    async def test_middleware(self):
        """(params are then fitted inside)"""
        server = server_of()

        @server.middleware
        def around(request, params):
            yield

        self.assert_brief(await self.told(over_tcp, server))

    async def test_in_memory(self):
        self.assert_full(await self.told(joined, server_of()))
        self.assert_brief(await self.told(joined, server_of(errors="brief")))

    def test_over_a_web_socket(self):
        async def main(server):
            ours, its = Socket.pair()
            serving = asyncio.ensure_future(server.serve_websocket(its))
            await ours.send('{"jsonrpc":"2.0","method":"fail","params":[],"id":1}')
            answer = await ours.recv()
            await ours.other.inbox.put(None)
            await serving
            return answer

        with logged():
            brief, full = (self.wait(main(server_of(errors=it))) for it in (None, "full"))
        self.assertIn('"message":"Internal error"', brief)
        self.assertIn(SECRET, full)

    @rows([(None, "Internal error"), ("brief", "Internal error")])
    async def test_clients_methods(self, errors, wanted):
        """A server that a client reaches over a socket isn't told more."""
        server = Server()

        @server.method("ask")
        async def ask(params, request):
            try:
                await request.call("fail")
            except Error as error:
                return error.message

        client = Client(errors=errors)
        client.method("fail")(fail)
        with logged():
            async with over_tcp(server, client):
                self.assertEqual(await client.call("ask", []), wanted)

    async def test_language_server(self):
        server = LanguageServer(converter=Converter(), errors="brief")

        @server.feature("a")
        def feature(params: Outside):
            return None

        async with joined(server, Editor()) as editor:
            await editor.begin()
            self.assertEqual(await told_of(editor, "a"), (-32602, "Invalid params"))

    @rows([Server, Client])
    def test_settings(self, it):
        with self.assertRaises(BadSettings):
            it(errors="none")


__all__ = ["Told"]
