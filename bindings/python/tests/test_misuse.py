"""What is wrong is refused with what to write, where it is written, and not somewhere later."""
import os
import shutil
import subprocess
import sys
import tempfile
import textwrap

from helping import PACKAGE, Case, InAFolder, command, environment, joined, logged, patience, ran, rows

import bullmyrtle
from bullmyrtle import BadSettings, Client, Closed, Connection, Error, Server

SERVER = """
import sys
from bullmyrtle import Server
server = Server()
server.method("echo")(lambda params: params)
sys.exit(server.run())
"""


class Refused(Case):
    def refused(self, kind, call, *words):
        with self.assertRaises(kind) as caught:
            call()
        for it in words:
            self.assertIn(it, str(caught.exception))
        return str(caught.exception)


class Commands(Refused):
    def test_a_string(self):
        self.refused(TypeError, lambda: Client("clangd"), "Client(['clangd'])")
        words = self.refused(TypeError, lambda: Client("clangd --log=error 'a b'"))
        self.assertIn("Client(['clangd', '--log=error', 'a b'])", words)
        self.refused(TypeError, lambda: Client("it's"), "list of words")
        self.refused(TypeError, lambda: Client(b"clangd"), "list of words")

        class Path(os.PathLike):
            def __fspath__(self):
                return "clangd"

        self.refused(TypeError, lambda: Client(Path()), "Client([")

    def test_words(self):
        self.refused(ValueError, lambda: Client([]), "the command has no words")
        self.refused(TypeError, lambda: Client(["server", 5]), "5", "str(5)")
        self.refused(TypeError, lambda: Client(5), "list of words")


class Settings(Refused):
    @rows([Server, Client])
    def test_they_list_what_there_is(self, kind):
        self.refused(
            BadSettings, lambda: kind(framing="line"), "framing='line'", "there are 'frames' and 'lines'"
        )
        self.refused(BadSettings, lambda: kind(order="soon"), "there are 'as-answered' and 'as-came'")
        self.refused(
            BadSettings,
            lambda: kind(cancel_by="$/stop"),
            "'$/cancelRequest', 'notifications/cancelled' and None",
        )
        for it in (0, -1, 1 << 31, "5", 1.5, True):
            self.refused(BadSettings, lambda: kind(content=it), f"content={it!r}", "from 1 to 2,147,483,647")
        for it in (0, -1, 1 << 64, "5"):
            self.refused(BadSettings, lambda: kind(calls=it), f"calls={it!r}", "from 1 to")
        for it in (0, -1, "4", 1.5):
            self.refused(BadSettings, lambda: kind(workers=it), f"workers={it!r}", "from 1 on")
        for it in (-1, "5", float("nan"), None, True):
            self.refused(BadSettings, lambda: kind(grace=it), "grace=", "number of seconds, from 0 on")
        self.refused(BadSettings, lambda: kind(trace=5), "trace=5", "a file's name, a file, a function")
        kind(content=16_777_216, calls=1, workers=1, grace=0, trace=print)

    @rows([Server, Client])
    def test_protocols(self, kind):
        self.refused(BadSettings, lambda: kind(protocol="dap"), "protocol='dap'", "'lsp', 'mcp' and None")
        self.refused(
            BadSettings, lambda: kind(protocol="lsp", framing="lines"), "protocol='lsp' has framing='frames'"
        )
        for it in ("notifications/cancelled", None):
            self.refused(
                BadSettings,
                lambda: kind(protocol="lsp", cancel_by=it),
                "protocol='lsp' has cancel_by='$/cancelRequest'",
            )
        kind(protocol="lsp", framing="frames", cancel_by="$/cancelRequest")
        self.assertEqual(kind(protocol="lsp")._settings["framing"], "frames")

    @rows([None, "lsp", "mcp"])
    async def test_a_protocol_without_batches(self, protocol):
        server = Server(protocol=protocol)

        @server.method("ask")
        async def ask(params, request):
            return await request.call_batch([("name", None)])

        @server.method("block", thread=True)
        def block(params, request):
            return request.call_batch_and_wait([("name", None)])

        client, found = Client(protocol=protocol), []
        client.method("name")(lambda: "me")
        with logged():
            async with joined(server, client):
                for name, call in (
                    ("ask", client.call),
                    ("block", client.call),
                    ("ask", self.batch_of(client)),
                ):
                    try:
                        found.append(await call(name))
                    except (RuntimeError, Error) as error:
                        found.append(getattr(error, "message", str(error)))
        if protocol is None:
            self.assertEqual(found, [["me"], ["me"], [["me"]]])
        else:
            for it in found:
                self.assertIn(f"protocol={protocol!r} has no batches: write call(..) for each", it)

    @staticmethod
    def batch_of(client):
        return lambda name: client.call_batch([(name, None)])

    async def test_batches_that_come_are_answered_all_the_same(self):
        server = Server(protocol="lsp")
        server.method("echo")(lambda params: params)
        async with joined(server, Client()) as client:
            self.assertEqual(await client.call_batch([("echo", [1]), ("echo", [2])]), [[1], [2]])

    @rows(
        [
            ({"framing": "line"}, "there are 'frames', 'lines' and 'contents'"),
            ({"order": "soon"}, "there are 'as-answered' and 'as-came'"),
            ({"cancels": "dap"}, "there are None, 'lsp' and 'mcp'"),
            ({"content": 0}, "from 1 to 2,147,483,647"),
            ({"calls": 0}, "from 1 to"),
        ]
    )
    def test_of_a_connection(self, settings, words):
        self.refused(BadSettings, lambda: Connection(**settings), words)

    @rows([Server, Client])
    def test_by_other_names(self, kind):
        words = self.refused(TypeError, lambda: kind(frameing="lines"), "there is no setting 'frameing'")
        self.assertIn("Is 'framing' meant?", words)
        for it in ("framing", "order", "cancel_by", "content", "calls", "grace", "workers", "trace"):
            self.assertIn(it, words)
        for it in ("env", "cwd"):
            self.refused(TypeError, lambda: Client(x=1), it)


class Clients(Refused, InAFolder):
    def client(self):
        return Client(command(self.file("server.py", SERVER)), env=environment())

    async def test_used_twice(self):
        before = len(os.listdir("/proc/self/fd"))
        client = self.client()
        async with client:
            self.assertEqual(await client.call("echo", [1]), [1])
            pid = client.pid
            self.refused(RuntimeError, client.start, "has a server already", "another Client")
            self.assertEqual(client.pid, pid)  # (and no second process was started)
            with self.assertRaises(RuntimeError) as caught:
                async with client:
                    pass
            self.assertIn("another Client", str(caught.exception))
            self.assertEqual(await client.call("echo", [2]), [2])
        with self.assertRaises(RuntimeError) as caught:
            async with client:
                pass
        self.assertIn("another Client", str(caught.exception))
        self.refused(RuntimeError, lambda: client.connect(None, None), "another Client")
        self.assertEqual(len(os.listdir("/proc/self/fd")), before)

    async def test_one_that_gets_no_session(self):
        """A process that was started for nothing is ended."""
        before = len(os.listdir("/proc/self/fd"))
        client = Client(command(self.file("server.py", SERVER)), env=environment(), trace="/nowhere/log")
        with self.assertRaises(FileNotFoundError):
            async with client:
                pass
        self.assertIsNotNone(client._process.status)
        self.assertEqual(len(os.listdir("/proc/self/fd")), before)

    async def test_started_by_hand(self):
        client = self.client()
        client.start()
        async with client:
            self.assertEqual(await client.call("echo", [1]), [1])
        self.assertEqual(await client.close(), 0)

    async def test_without_async_with(self):
        client = self.client()
        for call in (
            lambda: client.call("echo"),
            lambda: client.call_batch([]),
            lambda: client.notify("echo"),
        ):
            self.refused(Closed, call, "async with client:")
        self.refused(Closed, lambda: Client().call("echo"), "client.connect(reader, writer)")

        def plainly():
            with client:
                pass

        self.refused(TypeError, plainly, "async with")
        async with self.client() as it:
            await it.call("echo")
        self.refused(Closed, lambda: it.call("echo"), "is over")

    def test_started_outside_of_a_loop(self):
        self.refused(RuntimeError, self.client().start, "async def")

    async def test_a_server_that_doesnt_run(self):
        server = Server()
        self.refused(Closed, lambda: server.notify("x"), "server.run()")
        self.refused(Closed, server.stop, "server.run()")
        async with joined(server):
            pass
        self.refused(Closed, lambda: server.notify("x"), "is over")


class RunningLoops(Refused):
    async def test_run_says_what_to_await(self):
        words = ("stdio()", "async(reader, writer)", "websocket(ws)")
        self.refused(RuntimeError, Server().run, *(f"await server.serve_{it}" for it in words))

    def test_without_never_awaited(self):
        code = "import asyncio\nfrom bullmyrtle import Server\nasync def main():\n"
        code += "    Server().run()\nasyncio.run(main())\n"
        got = ran([sys.executable, "-X", "dev", "-c", code])
        self.assertIn(b"serve_stdio", got.stderr)
        self.assertNotIn(b"never awaited", got.stderr)
        self.assertNotIn(b"Warning", got.stderr)


class Waiting(Refused):
    async def test_call_and_wait(self):
        server = Server()

        @server.method("thread", thread=True)
        def thread(params, request):
            found = [request.call_and_wait("twice", [1]), request.call("twice", [2])]
            found += request.call_batch_and_wait([("twice", [3]), ("twice", [4])])
            found += [server.call_and_wait("twice", [5]), *server.call_batch_and_wait([("twice", [6])])]
            return [*found, request.session.call_and_wait("twice", [7])]

        @server.method("loop")
        async def loop(params, request):
            for call in (request.call_and_wait, server.call_and_wait):
                self.refused(RuntimeError, lambda: call("twice", [1]), "await", "thread=True")
            return "refused"

        client = Client()
        client.method("twice")(lambda params: 2 * params[0])
        async with joined(server, client):
            self.assertEqual(await client.call("thread"), [2, 4, 6, 8, 10, 12, 14])
            self.assertEqual(await client.call("loop"), "refused")


class Types(Case):
    """What mypy finds in the code of users of the package."""

    GOOD = """
        import asyncio
        from typing import Any, List
        import bullmyrtle
        from bullmyrtle import Client, Request, Server

        server = Server(framing="lines", cancel_by=None, trace=print)

        @server.method
        def add(a: int, b: int = 1) -> int:
            return a + b

        @server.method("ask")
        async def ask(params: List[Any], request: Request) -> Any:
            few = await request.call_batch([("a", None)])
            return [await request.call("name"), *few, await server.in_thread(add, 1)]

        @server.method(thread=True)
        def block(params: None, request: Request) -> int:
            found: int = request.call_and_wait("size")
            return found

        @server.fallback
        def other(params: Any, request: Request) -> str:
            return request.method

        class Words:
            @bullmyrtle.method("words")
            def words(self, text: str) -> int:
                return add(1)

        words: Words = server.register(Words())

        async def main() -> None:
            async with Client(["server"], grace=1) as client:
                call = client.call("add", [1, 2])
                call.cancel()
                print(call.key, await asyncio.gather(client.call("a"), client.call("b")))
    """
    BAD = {
        "await": """
            from bullmyrtle import Client
            async def main(client: Client) -> None:
                client.call("add", [1, 2])
        """,
        "batch": """
            from bullmyrtle import Request
            async def main(request: Request) -> None:
                request.call_batch([("add", [1, 2])])
        """,
        "session": """
            from bullmyrtle import Request
            async def main(request: Request) -> None:
                request.session.call("add", [1, 2])
        """,
        "thread": """
            from bullmyrtle import Request
            def main(request: Request) -> int:
                return request.call("add", [1, 2])
        """,
        "Server": """
            from bullmyrtle import Server
            server = Server(frameing="lines")
        """,
        "Client": """
            from bullmyrtle import Client
            client = Client(["server"], frameing="lines")
        """,
        "choice": """
            from bullmyrtle import Client
            client = Client(["server"], framing="line")
        """,
        "cancel": """
            from bullmyrtle import Server
            server = Server(cancel_by="$/stop")
        """,
    }

    def test_mypy(self):
        mypy = [sys.executable, "-m", "mypy"]
        if subprocess.run([*mypy, "--version"], capture_output=True, check=False).returncode:
            mypy = ["mypy"]
        if shutil.which(mypy[0]) is None:
            self.skipTest("mypy isn't there: no check of the types of what uses the package")
        with tempfile.TemporaryDirectory() as room:
            for name, text in {**self.BAD, "good": self.GOOD}.items():
                with open(os.path.join(room, f"{name}.py"), "w", encoding="utf-8") as it:
                    it.write(textwrap.dedent(text))
            words = ["--strict", "--enable-error-code=unused-awaitable", "--cache-dir", f"{room}/cache", room]
            env = {**os.environ, "MYPYPATH": PACKAGE}
            ended = ran([*mypy, *words], env=env, cwd=room, timeout=patience(300))
        lines = [it for it in ended.stdout.decode().splitlines() if ": error:" in it]
        faulty = {it.split(":")[0].split("/")[-1][: -len(".py")] for it in lines}
        self.assertEqual(faulty, set(self.BAD), ended.stdout.decode() + ended.stderr.decode())


class Libraries(Refused):
    def run_quietly(self, package, code, **more):
        # (from a folder of no package, since that is the first one that is looked into)
        kept = {name: it for name, it in os.environ.items() if not name.startswith(("PYTHON", "BULLMYRTLE"))}
        env = {**kept, "PYTHONPATH": package, "PYTHONDONTWRITEBYTECODE": "1", **more}
        got = ran([sys.executable, "-c", code], env=env, cwd="/")
        return (got.stdout + got.stderr).decode()

    def test_the_repositorys_only_from_a_checkout(self):
        """What lies three folders above an installed package is nobody's that it knows."""
        code = "try:\n    import bullmyrtle._library\nexcept ImportError as error:\n    print(error)"
        with tempfile.TemporaryDirectory() as room:
            for folders, is_found in (
                (["bindings", "python"], False),
                (["lib", "packages"], False),
                (["bindings", "python", "pyproject.toml"], True),
            ):
                top = os.path.join(room, str(len(os.listdir(room))))
                package = os.path.join(top, *folders[:2])
                shutil.copytree(os.path.join(PACKAGE, "bullmyrtle"), os.path.join(package, "bullmyrtle"))
                os.makedirs(os.path.join(top, "release"))
                file = os.path.join(top, "release", bullmyrtle._library.FILE)
                for it in (file, *(os.path.join(package, it) for it in folders[2:])):
                    with open(it, "w", encoding="utf-8"):
                        pass
                said = self.run_quietly(package, code).strip()
                if is_found:  # (an empty file, so there is no more to it)
                    self.assertEqual(said.partition(" can't be loaded: ")[0], file)
                else:
                    self.assertTrue(said.startswith(f"{bullmyrtle._library.FILE} isn't in {package}"), said)
                    self.assertNotIn("release", said)
