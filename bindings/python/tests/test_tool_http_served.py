"""A tool server over HTTP as people run it: under uvicorn, behind nginx, and called by curl; where these are installed."""
import asyncio
import json
import os
import re
import shutil
import signal
import socket
import subprocess
import sys
import tempfile
import unittest

from helping import SECONDS, Case, environment, patience

from bullmyrtle.mcp import ToolClient

try:
    import httpx
except ImportError:
    httpx = None

# (Debian's packages are for its own interpreter)
PYTHONS = [sys.executable, "/usr/bin/python3"]
HAS_UVICORN = [
    it
    for it in PYTHONS
    if os.path.exists(it)
    and not subprocess.run([it, "-c", "import uvicorn"], stderr=subprocess.DEVNULL).returncode
]
SCRIPT = """
import os, sys, asyncio
from bullmyrtle.mcp import Context, ToolServer

server = ToolServer("words", "1.0", grace=0.5)


@server.tool
def who() -> int:
    return os.getpid()


@server.tool
async def steps(context: Context) -> str:
    for it in range(3):
        context.report_progress(it)
        await asyncio.sleep(0.1)
    return "done"


@server.tool
async def flood(context: Context) -> str:
    for it in range(20_000):
        context.report_progress(it, message="x" * 2000)
        if it % 20 == 0:
            await asyncio.sleep(0)
    return "done"


server.run_http(int(sys.argv[1]), stateless=len(sys.argv) > 2)
"""
NGINX = """
daemon off;
pid {folder}/pid;
error_log {folder}/errors;
events {{}}
http {{
    access_log off;
    client_body_temp_path {folder}/body;
    proxy_temp_path {folder}/proxy;
    fastcgi_temp_path {folder}/fastcgi;
    uwsgi_temp_path {folder}/uwsgi;
    scgi_temp_path {folder}/scgi;
    upstream workers {{ server 127.0.0.1:{first}; server 127.0.0.1:{second}; }}
    server {{
        listen unix:{folder}/socket;
        location /mcp {{
            proxy_pass http://workers;
            proxy_set_header Host localhost;
            proxy_http_version 1.1;
        }}
    }}
}}
"""


@unittest.skipUnless(HAS_UVICORN, "uvicorn isn't installed")
class Served(Case):
    def worker(self, *words):
        """Starts a server, and gives it and its port."""
        made = subprocess.Popen(
            [HAS_UVICORN[0], "-c", SCRIPT, "0", *words], env=environment(), stderr=subprocess.PIPE, text=True
        )
        self.addCleanup(self.ended, made)
        for line in made.stderr:
            found = re.search(r"running on http://127\.0\.0\.1:(\d+)", line)
            if found:
                return made, int(found.group(1))
        self.fail("it didn't start")

    def ended(self, made):
        if made.poll() is None:
            made.send_signal(signal.SIGINT)
        status = made.wait(SECONDS)
        made.stderr.close()
        return status

    async def test_tool_client(self):
        await self.check_a_client(None)

    @unittest.skipIf(httpx is None, "httpx isn't installed")
    async def test_tool_client_by_httpx(self):
        with httpx.Client() as client:
            await self.check_a_client(client)

    def test_a_length_beside_a_transfer_encoding(self):
        """The first one is refused, and what could be a second one to somebody else isn't read."""
        _, port = self.worker()
        call = b'{"jsonrpc":"2.0","id":1,"method":"ping"}'
        head = b"POST /mcp HTTP/1.1\r\nHost: localhost\r\nContent-Type: application/json\r\n"
        hidden = head + b"Content-Length: %d\r\n\r\n%b" % (len(call), call)
        body = b"0\r\n\r\n" + hidden
        both = head + b"Content-Length: %d\r\nTransfer-Encoding: chunked\r\n\r\n%b" % (len(body), body)
        with socket.create_connection(("127.0.0.1", port), timeout=patience(20)) as it:
            it.sendall(both)
            data = b""
            while True:
                part = it.recv(1 << 16)
                if not part:
                    break
                data += part
        self.assertEqual(re.findall(rb"HTTP/1\.1 (\d+)", data), [b"400"])

    async def check_a_client(self, by):
        made, port = self.worker()
        told = []
        async with ToolClient(url=f"http://127.0.0.1:{port}/mcp", httpx=by) as client:
            self.assertEqual(int((await client.call_tool("who")).text), made.pid)
            self.assertEqual(
                ((await client.call_tool("steps", progress=lambda *given: told.append(given[0]))).text, told),
                ("done", [0, 1, 2]),
            )
            # (a client that has a stream of its own doesn't hold up the end)
            self.assertIn(
                await asyncio.get_running_loop().run_in_executor(None, self.ended, made), (0, 130, -2)
            )

    async def test_a_client_that_reads_nothing(self):
        """It gets so much and no more, others are answered, and it doesn't hold up the end."""
        made, port = self.worker("stateless")
        flood = {"name": "flood", "arguments": {}, "_meta": {"progressToken": 1}}
        body = json.dumps({"jsonrpc": "2.0", "id": 1, "method": "tools/call", "params": flood}).encode()
        head = b"POST /mcp HTTP/1.1\r\nHost: localhost\r\nContent-Type: application/json\r\nContent-Length: %d\r\n\r\n"
        with socket.create_connection(("127.0.0.1", port)) as link:
            link.sendall(head % len(body) + body)
            async with ToolClient(url=f"http://127.0.0.1:{port}/mcp") as client:
                self.assertEqual(int((await client.call_tool("who")).text), made.pid)
            self.assertIn(self.ended(made), (0, 130, -2))

    @unittest.skipUnless(shutil.which("curl"), "curl isn't installed")
    def test_curl(self):
        made, port = self.worker()
        url = f"http://127.0.0.1:{port}/mcp"
        json_type = ["-H", "Content-Type: application/json"]

        def curl(*words):
            done = subprocess.run(
                ["curl", "-sS", "-m", f"{SECONDS}", *words], stdout=subprocess.PIPE, check=True
            )
            return done.stdout.decode()

        about = {
            "protocolVersion": "2025-11-25",
            "capabilities": {},
            "clientInfo": {"name": "curl", "version": "1"},
        }
        begin = json.dumps({"jsonrpc": "2.0", "id": 1, "method": "initialize", "params": about})
        said = curl("-i", *json_type, "-d", begin, url)
        session = re.search(r"(?im)^mcp-session-id: (\S+)", said).group(1)
        mine = [*json_type, "-H", f"Mcp-Session-Id: {session}"]
        steps = {"name": "steps", "_meta": {"progressToken": 1}}
        said = curl(
            *mine, "-d", json.dumps({"jsonrpc": "2.0", "id": 2, "method": "tools/call", "params": steps}), url
        )
        datas = [json.loads(it[6:]) for it in said.split("\n") if it.startswith("data: {")]
        self.assertEqual([it.get("id") for it in datas], [None, None, None, 2])
        status = ["-o", "/dev/null", "-w", "%{http_code}"]
        self.assertEqual(curl(*status, *mine, "-X", "DELETE", url), "204")
        self.assertEqual(curl(*status, *mine, "-d", begin, url), "404")
        self.assertEqual(curl(*status, *json_type, "-H", "Origin: http://a.example", "-d", begin, url), "403")
        self.assertEqual(curl(*status, *json_type, "-H", "Host: a.example", "-d", begin, url), "403")
        self.assertEqual(curl(*status, *json_type, "-d", begin, url + "/x"), "404")

    @unittest.skipUnless(shutil.which("nginx") or os.path.exists("/usr/sbin/nginx"), "nginx isn't installed")
    async def test_two_workers_behind_nginx(self):
        """Without state, any of them answers any message."""
        workers = [self.worker("stateless") for _ in range(2)]
        folder = self.entered(tempfile.TemporaryDirectory())
        with open(f"{folder}/conf", "w") as file:
            file.write(NGINX.format(folder=folder, first=workers[0][1], second=workers[1][1]))
        program = shutil.which("nginx") or "/usr/sbin/nginx"
        nginx = subprocess.Popen([program, "-p", folder, "-c", f"{folder}/conf", "-e", f"{folder}/errors"])
        self.addCleanup(nginx.wait, SECONDS)
        self.addCleanup(nginx.terminate)
        await self.until(lambda: is_listened_to(f"{folder}/socket"))
        by_socket = Bridge(f"{folder}/socket")
        async with by_socket as port:
            async with ToolClient(url=f"http://127.0.0.1:{port}/mcp") as client:
                pids = {int((await client.call_tool("who")).text) for _ in range(10)}
                self.assertEqual(pids, {it.pid for it, _ in workers})
                told = []
                self.assertEqual(
                    (
                        (await client.call_tool("steps", progress=lambda *given: told.append(given[0]))).text,
                        told,
                    ),
                    ("done", [0, 1, 2]),
                )

    def entered(self, context):
        it = context.__enter__()
        self.addCleanup(context.__exit__, None, None, None)
        return it


def is_listened_to(path):
    """Whether somebody listens at a Unix socket. (Its name is there before that.)"""
    with socket.socket(socket.AF_UNIX) as it:
        return it.connect_ex(path) == 0


class Bridge:
    """A port that leads to a Unix socket."""

    def __init__(self, path):
        self._path = path

    async def __aenter__(self):
        self._server = await asyncio.start_server(self._connected, "127.0.0.1", 0)
        return self._server.sockets[0].getsockname()[1]

    async def __aexit__(self, *_):
        self._server.close()

    async def _connected(self, reader, writer):
        there = await asyncio.open_unix_connection(self._path)
        await asyncio.gather(self._pass_on(reader, there[1]), self._pass_on(there[0], writer))

    @staticmethod
    async def _pass_on(reader, writer):
        try:
            while True:
                data = await reader.read(1 << 16)
                if not data:
                    break
                writer.write(data)
                await writer.drain()
        except ConnectionError:
            pass
        finally:
            writer.close()
