"""What systems other than Linux lack, by the switch BULLMYRTLE_IO: what is done in its place, and what says that it can't.

The files that AFRESH names in checks/python_package.py are run whole over each kind of it too.
"""
import os
import sys
import threading

from helping import Case, environment, frame, patience, ran, request, rows, write_all

from bullmyrtle import Server
from bullmyrtle._waiting import Threaded

KINDS = ("plain", "threads")
WHICH = """
import sys
from bullmyrtle import Server
server = Server(framing="lines")
@server.method("which")
async def which():
    import asyncio
    names = [it for it in sys.modules if it.startswith("bullmyrtle._")]
    return [type(asyncio.get_running_loop()).__module__.partition(".")[0], "bullmyrtle._waiting" in names]
sys.exit(server.run())
"""


class Elsewhere(Case):
    def run_with(self, kind, *words, data=b""):
        env = environment(BULLMYRTLE_IO=kind)
        return ran(words, data, env=env)

    @rows([("", "bullmyrtle", False), ("plain", "asyncio", False), ("threads", "asyncio", True)])
    def test_the_loop_and_the_streams(self, kind, loop, has_threads):
        data = b'{"jsonrpc":"2.0","method":"which","id":1}\n'
        ended = self.run_with(kind, sys.executable, "-c", WHICH, data=data)
        expected = '{"id":1,"jsonrpc":"2.0","result":["%s",%s]}\n' % (loop, str(has_threads).lower())
        self.assertEqual((ended.returncode, ended.stdout.decode(), ended.stderr), (0, expected, b""))

    @rows(KINDS)
    def test_what_is_for_linux_says_so(self, kind):
        said = {
            "bullmyrtle.judge": "the judge's driver is for Linux: this system lacks /proc",
            "bullmyrtle.examine": "the examiner is for Linux: this system lacks /proc",
        }
        for module, words in said.items():
            with self.subTest(kind=kind, module=module):
                ended = self.run_with(kind, sys.executable, "-m", module, "--", "true")
                self.assertEqual((ended.returncode, ended.stdout), (2, b""))
                self.assertIn(words, ended.stderr.decode())

    def test_what_is_missing_is_named(self):
        code = "import os, signal; del os.pipe2, signal.sigwaitinfo\n"
        code += "from bullmyrtle import _system; print(_system.cant_drive('it'))"
        ended = self.run_with("", sys.executable, "-c", code)
        words = "it is for Linux: this system lacks os.pipe2, signal.sigwaitinfo\n"
        self.assertEqual(ended.stdout.decode(), words)

    def test_modules_without_what_unix_has(self):
        """What a Windows program imports needs none of what it lacks."""
        code = (
            "import sys, os, select, signal, socket\n"
            "for name in ('fcntl', 'termios', 'resource', 'pwd', 'grp', 'pty'): sys.modules[name] = None\n"
            "for name in ('poll', 'epoll', 'POLLIN', 'POLLOUT', 'POLLERR', 'POLLHUP', 'POLLNVAL'): delattr(select, name)\n"
            "for name in ('pipe2', 'fork', 'killpg', 'set_blocking'): delattr(os, name)\n"
            "for name in ('SIGHUP', 'SIGQUIT', 'SIGUSR1', 'SIGUSR2', 'sigwaitinfo', 'pthread_sigmask'): delattr(signal, name)\n"
            "import bullmyrtle.server, bullmyrtle.judge, bullmyrtle.lsp, bullmyrtle._blocking, bullmyrtle._process\n"
            "import bullmyrtle.judge._command, bullmyrtle.examine._command\n"
            "print(bullmyrtle._system.WAITS, bullmyrtle._system.HAS_EPOLL)\n"
        )
        ended = self.run_with("", sys.executable, "-c", code)
        self.assertEqual((ended.stdout.decode(), ended.stderr.decode()[-500:]), ("False False\n", ""))


class OverThreads(Case):
    """The channel whose descriptors threads wait for."""

    async def served(self, talk, **settings):
        """Serves over two pipes, has another thread talk with their other ends, and gives the status."""
        (source, theirs), (ours, sink) = os.pipe(), os.pipe()
        server = Server(**settings)
        server.method("echo")(lambda params: params)
        said = []
        talking = threading.Thread(target=lambda: said.append(talk(theirs, ours)), daemon=True)
        talking.start()
        status = await server.serve_over(Threaded(source, sink))
        talking.join(patience(60))
        os.close(ours)
        return status, said[0]

    async def test_both_ways(self):
        def talk(theirs, ours):
            got = b""
            for at in range(3):
                write_all(theirs, frame(request(at, "echo", ["x" * 100_000])))
            os.close(theirs)
            while True:
                data = os.read(ours, 1 << 16)
                if not data:
                    return got
                got += data

        status, got = await self.served(talk)
        self.assertEqual((status, got.count(b'"result":["xxx')), (0, 3))

    async def test_a_reader_that_goes(self):
        (source, theirs), (ours, sink) = os.pipe(), os.pipe()
        server = Server(grace=0.1)
        server.method("echo")(lambda params: params)
        os.close(ours)
        os.write(theirs, frame(request(1, "echo", [1])))
        self.assertEqual(await server.serve_over(Threaded(source, sink)), 1)
        self.assertEqual(server.ended.how, "Broken")
        os.close(theirs)

    async def test_what_is_much_waits_in_the_pipe(self):
        """As long as nobody reads, no more is read: what waits stays within a few megabytes."""
        most = []

        def talk(theirs, ours):
            ends = threading.Thread(target=send, args=(theirs,), daemon=True)
            ends.start()
            ends.join(0.5)  # (long enough that it could send much, if all were read)
            most.append(max(sent))
            got = 0
            while True:
                data = os.read(ours, 1 << 20)
                if not data:
                    return got
                got += len(data)

        sent = [0]

        def send(theirs):
            piece = frame(request(1, "echo", ["x" * 50_000]))
            for _ in range(400):
                write_all(theirs, piece)
                sent.append(sent[-1] + len(piece))
            os.close(theirs)

        status, got = await self.served(talk)
        self.assertEqual(status, 0)
        self.assertGreater(got, 400 * 50_000)
        self.assertLess(most[0], 8 << 20)
