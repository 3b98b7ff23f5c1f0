"""usage: compare.py [--requests N] [--rounds N] [--processor N]

How fast a server of this package is, beside python3-pylsp-jsonrpc where that is installed. Both have the same methods in
Python. They are measured in turn, and the best of the rounds is told, since what else the machine does only adds to it:

  at once    requests a second, where all are sent at once
  processor  microseconds of the server's processor time for each of these requests
  ping       microseconds from a request to its answer, one after the other (the median)
  call back  the same, for a method that calls the client first
  start      milliseconds from the start of the process to its first answer, beside a process that imports
             json and asyncio alone
  first      milliseconds of the process's processor time until then
  memory     MB that it holds then

Behind them stand the ratios: how many requests at once we answer for each of theirs, and how much of the others we take
for each of theirs; and what a LanguageServer's start takes for each of theirs. The machine's load stands before and behind the figures. With --processor N all runs on this one
processor, so that nothing else that runs there moves one of them alone.
"""
import json
import os
import statistics
import subprocess
import sys
import threading
import time

PACKAGE = os.path.dirname(os.path.dirname(os.path.abspath(__file__)))
OURS = """
import sys
from bullmyrtle import Server
server = Server()
@server.method("hover")
def hover(params):
    return {"contents": params["textDocument"]["uri"], "line": params["position"]["line"]}
@server.method("back")
async def back(params, request):
    return await request.call("twice", params)
sys.exit(server.run())
"""
OUR_LANGUAGE_SERVER = """
import sys
from bullmyrtle.lsp import LanguageServer
sys.exit(LanguageServer("a server", "1").run())
"""
THEIRS = """
import sys
from pylsp_jsonrpc.endpoint import Endpoint
from pylsp_jsonrpc.streams import JsonRpcStreamReader, JsonRpcStreamWriter
def hover(params):
    return {"contents": params["textDocument"]["uri"], "line": params["position"]["line"]}
def back(params):
    return lambda: endpoint.request("twice", params).result()
writer = JsonRpcStreamWriter(sys.stdout.buffer)
endpoint = Endpoint({"hover": hover, "back": back}, writer.write)
JsonRpcStreamReader(sys.stdin.buffer).listen(endpoint.consume)
"""
PARAMS = {
    "textDocument": {"uri": "file:///home/someone/project/src/main.py"},
    "position": {"line": 12, "character": 4},
}


def frame(value):
    data = json.dumps({"jsonrpc": "2.0", **value}, separators=(",", ":")).encode()
    return b"Content-Length: %d\r\n\r\n%s" % (len(data), data)


def received(file):
    length = 0
    while (line := file.readline().strip()) != b"":
        if line.lower().startswith(b"content-length:"):
            length = int(line[15:])
    return json.loads(file.read(length))


class Server:
    def __init__(self, code, method="hover", params=None):
        self.began = time.perf_counter()
        self.process = subprocess.Popen(
            [sys.executable, "-c", code], stdin=subprocess.PIPE, stdout=subprocess.PIPE, bufsize=-1
        )
        self.ask(method, params or PARAMS)
        self.start = time.perf_counter() - self.began
        self.first = self.processor()
        with open(f"/proc/{self.process.pid}/status", encoding="ascii") as file:
            self.memory = int(next(it for it in file if it.startswith("VmRSS")).split()[1]) / 1024

    def send(self, data):
        self.process.stdin.write(data)
        self.process.stdin.flush()

    def ask(self, method, params):
        self.send(frame({"id": 1, "method": method, "params": params}))
        while "method" in (got := received(self.process.stdout)):
            self.send(frame({"id": got["id"], "result": 2 * got["params"][0]}))
        return got["result"]

    def processor(self):
        """The seconds that the server's threads have taken so far."""
        took = 0
        for it in os.listdir(f"/proc/{self.process.pid}/task"):
            with open(f"/proc/{self.process.pid}/task/{it}/schedstat", encoding="ascii") as file:
                took += int(file.read().split()[0])
        return took / 1e9

    def at_once(self, count):
        data = b"".join(frame({"id": it, "method": "hover", "params": PARAMS}) for it in range(count))
        busy, began = self.processor(), time.perf_counter()
        writing = threading.Thread(target=self.send, args=(data,))
        writing.start()
        seen, tail = 0, b""
        while seen < count:
            got = tail + self.process.stdout.read1(1 << 16)
            seen += got.count(b'"result"')
            # (a name that is cut in two counts with what follows it)
            tail = got[-7:] if b'"result"' not in got[-14:] else b""
        took, busy = time.perf_counter() - began, self.processor() - busy
        writing.join()
        # (what is left of the last answer)
        os.set_blocking(self.process.stdout.fileno(), False)
        time.sleep(0.2)
        self.process.stdout.read()
        os.set_blocking(self.process.stdout.fileno(), True)
        return count / took, busy / count * 1e6

    def each(self, count, method, params):
        took = []
        for _ in range(count):
            began = time.perf_counter()
            self.ask(method, params)
            took.append(time.perf_counter() - began)
        return statistics.median(took) * 1e6

    def end(self):
        self.process.stdin.close()
        self.process.stdout.close()
        self.process.terminate()
        self.process.wait()


def measured(code, requests):
    server = Server(code)
    small = max(20, requests // 20)
    found = {
        "start": server.start * 1000,
        "first": server.first * 1000,
        "memory": server.memory,
        "ping": server.each(small, "hover", PARAMS),
        "call back": server.each(small, "back", [4]),
    }
    found["at once"], found["processor"] = server.at_once(requests)
    server.end()
    return found


def start_of_language_server():
    server = Server(
        OUR_LANGUAGE_SERVER, "initialize", {"processId": None, "rootUri": None, "capabilities": {}}
    )
    server.end()
    return {"first": server.first * 1000, "memory": server.memory}


def start_of(code):
    began = time.perf_counter()
    subprocess.run([sys.executable, "-c", code], check=True)
    return (time.perf_counter() - began) * 1000


def number(words, name, default):
    return int(words[words.index(name) + 1]) if name in words else default


def main(words):
    requests, rounds = number(words, "--requests", 20_000), number(words, "--rounds", 5)
    if "--processor" in words:
        os.sched_setaffinity(0, {number(words, "--processor", 0)})
    os.environ["PYTHONPATH"] = os.pathsep.join([PACKAGE, *filter(None, [os.environ.get("PYTHONPATH")])])
    servers = {"bullmyrtle": OURS}
    if (
        subprocess.run(
            [sys.executable, "-c", "import pylsp_jsonrpc"], stderr=subprocess.DEVNULL, check=False
        ).returncode
        == 0
    ):
        servers["pylsp-jsonrpc"] = THEIRS
    print(f"load {os.getloadavg()[0]:.1f}, {os.cpu_count()} processors, Python {sys.version.split()[0]}")
    found = {name: [] for name in servers}
    starts, language_servers = [], []
    for _ in range(rounds):
        for name, code in servers.items():
            found[name].append(measured(code, requests))
        starts.append(start_of("import json, asyncio"))
        language_servers.append(start_of_language_server())
    best = {}
    for name, all_ in found.items():
        best[name] = it = {
            what: (max if what == "at once" else min)(one[what] for one in all_) for what in all_[0]
        }
        print(
            f"{name:14} at once {it['at once']:9,.0f} requests/s   processor {it['processor']:5.1f} us   "
            f"ping {it['ping']:6.1f} us   call back {it['call back']:6.1f} us   start {it['start']:5.0f} ms   "
            f"first {it['first']:5.1f} ms   memory {it['memory']:5.1f} MB"
        )
    if len(best) == 2:
        ours, theirs = best.values()
        ratios = (
            f"{what} {ours[what] / theirs[what]:.2f}"
            for what in ("at once", "processor", "ping", "call back", "first", "memory")
        )
        print(f"{'ours by theirs':14} {', '.join(ratios)}")
        least = {what: min(it[what] for it in language_servers) for what in ("first", "memory")}
        print(f"LanguageServer {', '.join(f'{what} {it / theirs[what]:.2f}' for what, it in least.items())}")
    print(f"{'import':14} json, asyncio: {min(starts):.0f} ms")
    print(f"load {os.getloadavg()[0]:.1f}")


if __name__ == "__main__":
    main(sys.argv[1:])
