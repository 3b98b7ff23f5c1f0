"""Random messages at a language server, alone and behind the driver of the judge: each request is answered within a second,
nothing is answered -32603, and there is no traceback.

BULLMYRTLE_HOSTILE_SECONDS says for how long each of the two is tried, in place of 5, and BULLMYRTLE_HOSTILE_SEED with which
seed, in place of 1. (Another one each time would fail a change for what another one brought.)"""
import json
import os
import random
import select
import subprocess
import sys
import tempfile
import time

from helping import HERE, PACKAGE, Case, by_the_clock, environment, frame, patience
from judging import COMMAND
from test_language_server import URI, at, opened
from test_wrong_params import INITIALIZE, NOTIFICATIONS, REQUESTS, paths_in, put

SECONDS = float(os.environ.get("BULLMYRTLE_HOSTILE_SECONDS", "5"))
SEED = int(os.environ.get("BULLMYRTLE_HOSTILE_SEED", "1"))
#: How long an answer may take, and how many messages one session has.
LONGEST, MESSAGES = 1.0, 3_000
SERVER = [sys.executable, "-c", "from test_wrong_params import server_of; server_of().start_io()"]
RIGHT = {**REQUESTS, **NOTIFICATIONS, "initialize": INITIALIZE, "initialized": {}, "shutdown": None}
NAMES = [
    *RIGHT,
    "$/cancelRequest",
    "$/progress",
    "$/nothing",
    "nothing",
    "",
    "rpc.x",
    "textDocument/",
    "exit/",
]
ATOMS = (
    None,
    True,
    False,
    0,
    -1,
    7,
    1.0,
    1.5,
    1e300,
    10**30,
    "",
    "x",
    "\ud800",
    "a" * 300,
    URI,
    "file://[",
    "\x00",
)


class Talker:
    """What says anything."""

    def __init__(self, chance):
        self.chance = chance
        self.ids = 0
        self.owed = set()  # ids of requests that have to be answered

    def value(self, depth=0):
        it = self.chance.random()
        if it < 0.6 or depth > 4:
            return self.chance.choice(ATOMS)
        if it < 0.8:
            return [self.value(depth + 1) for _ in range(self.chance.randrange(4))]
        names = ("uri", "line", "character", "textDocument", "position", "start", "id", "token", "a")
        return {self.chance.choice(names): self.value(depth + 1) for _ in range(self.chance.randrange(4))}

    def params(self, method):
        """The method's params with something else in a place, or anything."""
        right = RIGHT.get(method)
        if right is None or self.chance.random() < 0.1:
            return self.value()
        bent = right
        for _ in range(self.chance.randrange(3)):
            path = self.chance.choice([*paths_in(bent)])
            bent = put(bent, path, self.value())
        return bent

    def large(self):
        """Params that are deep, long or many."""
        many = self.chance.randrange(1, 500)
        change = {"range": {"start": at(0, 0)["position"], "end": at(0, 0)["position"]}, "text": "b\r"}
        about = {"textDocument": {"uri": URI, "version": many}}
        nested = 7
        for _ in range(self.chance.randrange(100, 119)):
            nested = [nested] if self.chance.random() < 0.5 else {"a": nested}
        return self.chance.choice(
            (
                ("textDocument/didChange", {**about, "contentChanges": [change] * many}),
                ("textDocument/didChange", {**about, "contentChanges": [{"text": "a b\r\n" * many * 20}]}),
                ("textDocument/hover", {"textDocument": {"uri": URI}, "position": nested}),
                ("workspace/executeCommand", {"command": "sum", "arguments": [1] * many * 10}),
                ("nothing", nested),
            )
        )

    def message(self):
        """A request or a notification, or something else."""
        method = self.chance.choice(NAMES)
        method, params = (method, self.params(method)) if self.chance.random() < 0.97 else self.large()
        message = {"jsonrpc": "2.0", "method": method}
        if params is not None or self.chance.random() < 0.5:
            message["params"] = params
        it = self.chance.random()
        if it < 0.5:
            return self.request(message)
        if it < 0.6:
            message["id"] = self.chance.choice(ATOMS)
        if it > 0.95:
            message = put(message, self.chance.choice([*paths_in(message)]), self.value())
        return message

    def request(self, message):
        """A request with an id of its own, which is answered by that if it is one."""
        self.ids += 1
        message["id"] = self.ids
        if isinstance(message.get("params", []), (list, dict)):
            self.owed.add(self.ids)
        return message

    def content(self):
        it, before = self.chance.random(), self.ids
        message = self.message()
        if it < 0.05:
            message = [message, self.message(), self.value()]
        text = json.dumps(message).encode()
        is_cut = 0.05 <= it < 0.08
        if is_cut:
            text = text[: self.chance.randrange(len(text))] + self.chance.choice((b"", b"\xff", b"}"))
        if is_cut or b"\\ud800" in text:
            self.owed.difference_update(range(before + 1, self.ids + 1))
        return text


class Hostile(Case):
    def tried(self, command):
        end, number = time.monotonic() + SECONDS, 0
        while time.monotonic() < end:
            try:
                self.session(command, random.Random(SEED + number), end)
            except AssertionError as failed:
                raise AssertionError(f"BULLMYRTLE_HOSTILE_SEED={SEED + number}: {failed}") from None
            number += 1

    def session(self, command, chance, end):
        talker = Talker(chance)
        with tempfile.TemporaryFile() as said:
            env = {**environment(), "PYTHONPATH": os.pathsep.join((PACKAGE, HERE))}
            with subprocess.Popen(
                command, stdin=subprocess.PIPE, stdout=subprocess.PIPE, stderr=said, env=env, bufsize=0
            ) as server:
                try:
                    self.talk(server, talker, end)
                finally:
                    server.kill()
            said.seek(0)
            before, is_there, behind = said.read().partition(b"Traceback")
            self.assertFalse(is_there, before[-300:] + behind[:3_000])

    def talk(self, server, talker, end):
        answers = Answers(server.stdout)
        self.send(server, talker, answers, [], 60)  # (it starts)
        # (before it is initialized, what may come is refused)
        self.round(server, talker, answers, 5)
        begin = [talker.request({"jsonrpc": "2.0", "method": "initialize", "params": INITIALIZE})]
        begin.append({"jsonrpc": "2.0", "method": "textDocument/didOpen", "params": opened("a text")})
        self.send(server, talker, answers, [json.dumps(it).encode() for it in begin])
        while talker.ids < MESSAGES and time.monotonic() < end:
            self.round(server, talker, answers, talker.chance.randrange(1, 20))

    def round(self, server, talker, answers, many):
        self.send(server, talker, answers, [talker.content() for _ in range(many)])

    def send(self, server, talker, answers, contents, longest=LONGEST):
        """Sends messages, and waits for what is owed. (Where something else took the processor, the same are sent again:
        what takes the server long does so each time.)"""
        took = [self.exchanged(server, talker, answers, contents)]
        while took[-1] >= longest and len(took) < 3:
            took.append(self.exchanged(server, talker, answers, contents))
        self.assertLess(min(took), longest, contents)

    def exchanged(self, server, talker, answers, contents):
        """How many seconds it takes until all is answered."""
        last = talker.request({"jsonrpc": "2.0", "method": "nothing"})
        began = time.monotonic()
        server.stdin.write(b"".join(map(frame, [*contents, json.dumps(last).encode()])))
        while last["id"] in talker.owed:
            for it in answers.some():
                self.assertNotEqual(it.get("error", {}).get("code"), -32603, it)
                talker.owed.discard(it["id"] if type(it.get("id")) is int else None)
        self.assertEqual(talker.owed, set(), contents)
        return time.monotonic() - began

    @by_the_clock
    def test_language_server(self):
        self.tried(SERVER)

    @by_the_clock
    def test_driver(self):
        self.tried([*COMMAND, "--", *SERVER])


class Answers:
    """The answers that come from a server."""

    def __init__(self, stream):
        self.stream = stream
        self.held = b""

    def some(self, seconds=patience(60)):
        """Those that come next."""
        if not select.select([self.stream], [], [], seconds)[0]:
            raise AssertionError(f"no answer within {seconds} s")
        data = os.read(self.stream.fileno(), 1 << 20)
        if not data:
            raise AssertionError("the server has ended")
        self.held += data
        found = []
        while b"\r\n\r\n" in self.held:
            head, _, rest = self.held.partition(b"\r\n\r\n")
            length = int(head.partition(b": ")[2])
            if len(rest) < length:
                break
            value, self.held = json.loads(rest[:length]), rest[length:]
            found += value if isinstance(value, list) else [value]
        return [it for it in found if "method" not in it]
