"""What the tests have in common."""
import asyncio
import contextlib
import faulthandler
import functools
import json
import logging
import os
import re
import signal
import socket
import subprocess
import sys
import tempfile
import unittest

HERE = os.path.dirname(os.path.abspath(__file__))
PACKAGE = os.path.dirname(HERE)
TOP = os.path.dirname(os.path.dirname(PACKAGE))
if os.environ.get("BULLMYRTLE_TEST_INSTALLED") is None:
    sys.path.insert(0, PACKAGE)

from bullmyrtle import _library  # noqa: E402
from bullmyrtle.testing import joined  # noqa: E402


#: What holds a bound on time. Where BULLMYRTLE_TEST_CLOCK is "no" it is left out, since whatever else the machine does
#: adds to it: checks/test_python_clock.py runs it while nothing else runs.
by_the_clock = unittest.skipIf(
    os.environ.get("BULLMYRTLE_TEST_CLOCK") == "no", "it holds a bound on time, and runs apart"
)


def extension_of(folder, *sources):
    """The extension with these sources in C in the library's place, compiled by the system's compiler, and loaded: it is
    there beside the package's own."""
    file, code = os.path.join(folder, _library.FILE), os.path.join(PACKAGE, "extension", "extension.c")
    how = ["cc", "-std=gnu11", "-Wall", "-Wextra", "-Werror", "-shared", "-fPIC"]
    subprocess.run([*how, f"-I{os.path.join(TOP, 'include')}", "-o", file, code, *sources], check=True)
    return _library.load(file)


def made_over(kind, base):
    """A class of the package's over another extension's type than its own."""
    return type(
        kind.__name__, (base,), {key: it for key, it in vars(kind).items() if key not in OF_THE_CLASS}
    )


OF_THE_CLASS = ("__dict__", "__weakref__")
# How many of a thing to try.
MANY = 10_000
# So many times longer than usual all takes: on a processor that is worked out in software.
TIMES_SLOWER = int(os.environ.get("TIMES_SLOWER", "1"))


def patience(usual):
    """How many seconds something may take before it counts as wrong, of those that it may on the machine itself."""
    return usual * TIMES_SLOWER


SECONDS = patience(120)


#: How many seconds a test may take, where that is said: more than any takes, and less than its file may.
LONGEST = float(os.environ.get("BULLMYRTLE_TEST_SECONDS", "0"))


class NoEnd(BaseException):
    """A test waits for what doesn't come. (No test and nothing in the package catches it.)"""


@contextlib.contextmanager
def in_time(seconds=LONGEST):
    """Ends what has no end in time, and shows where it stands: a test that waits for ever says for what."""
    if not seconds or not hasattr(signal, "setitimer"):
        yield
        return

    def late(*_):
        with contextlib.suppress(RuntimeError):  # (where no loop runs)
            for it in asyncio.all_tasks():
                it.print_stack(file=sys.stderr)
        faulthandler.dump_traceback()
        raise NoEnd(f"no end after {seconds:g} seconds: what is waited for is where this was raised")

    before = signal.signal(signal.SIGALRM, late)
    signal.setitimer(signal.ITIMER_REAL, seconds, 30)  # (again where what is done at its end waits too)
    try:
        yield
    finally:
        signal.setitimer(signal.ITIMER_REAL, 0)
        signal.signal(signal.SIGALRM, before)


@contextlib.contextmanager
def a_port():
    """A port of 127.0.0.1 for a server that is told of it: nobody else is given it meanwhile, and who listens on it may
    take it all the same, as asyncio's servers and socket.create_server do."""
    with socket.socket() as kept:
        kept.setsockopt(socket.SOL_SOCKET, socket.SO_REUSEADDR, 1)
        kept.bind(("127.0.0.1", 0))
        yield kept.getsockname()[1]


def command(script, *words):
    """The command that runs a script in a process of its own."""
    return [sys.executable, script, *words]


def environment(**more):
    paths = [PACKAGE, *filter(None, [os.environ.get("PYTHONPATH")])]
    kept = {name: it for name, it in os.environ.items() if name != "PYTHONUNBUFFERED"}
    return {**kept, "PYTHONPATH": os.pathsep.join(paths), **more}


def ran(words, given=None, **more):
    """Runs a command with this input, and gives its status and what it wrote."""
    how = {"stdout": subprocess.PIPE, "stderr": subprocess.PIPE, "timeout": SECONDS, "check": False, **more}
    return subprocess.run(words, input=given, **{"env": environment(), **how})


def frame(value):
    data = value if isinstance(value, bytes) else json.dumps(value).encode()
    return b"Content-Length: %d\r\n\r\n%s" % (len(data), data)


def write_all(descriptor, data):
    """(a process that is stopped and goes on may have written a part)"""
    while data:
        data = data[os.write(descriptor, data) :]


def request(id_, method, params=None):
    value = {"jsonrpc": "2.0", "id": id_, "method": method}
    return value if params is None else {**value, "params": params}


def notice(method, params=None):
    value = {"jsonrpc": "2.0", "method": method}
    return value if params is None else {**value, "params": params}


def messages(data):
    """The messages of a stream of frames."""
    found = []
    while data:
        head, _, rest = data.partition(b"\r\n\r\n")
        name, _, length = head.partition(b": ")
        if name != b"Content-Length":
            raise ValueError(head)
        length = int(length)
        found.append(json.loads(rest[:length]))
        data = rest[length:]
    return found


class Logged(logging.Handler):
    """Keeps what the package logs."""

    def __init__(self):
        super().__init__(logging.DEBUG)
        self.records = []

    def emit(self, record):
        self.records.append(record)

    @property
    def errors(self):
        return [it for it in self.records if it.levelno >= logging.WARNING]

    @property
    def texts(self):
        return [it.getMessage() for it in self.errors]


@contextlib.contextmanager
def logged():
    log, handler = logging.getLogger("bullmyrtle"), Logged()
    before = log.propagate
    log.addHandler(handler)
    log.propagate = False
    try:
        yield handler
    finally:
        log.removeHandler(handler)
        log.propagate = before


def rows(table):
    """Makes a test of each row of a table: the row's columns are the method's arguments, and the first one names the test
    where it is a text, otherwise the row's index does."""

    def of(test):
        test.rows = list(table.items() if isinstance(table, dict) else table)
        return test

    return of


def row_name(row, index):
    first = row[0] if type(row) is tuple else row
    words = re.sub(r"[^a-zA-Z0-9]+", "_", first).strip("_") if isinstance(first, str) else ""
    return words[:60] or str(index)


def runnable(test, row=()):
    """A test method without arguments."""

    @functools.wraps(test)
    def run(self):
        done = test(self, *(row if type(row) is tuple else (row,)))
        if asyncio.iscoroutine(done):
            self.wait(done)

    return run


class Case(unittest.TestCase):
    """A test case whose methods may be coroutines, which have a limited time, and may have `rows`."""

    maxDiff = 4000

    def __init_subclass__(cls):
        super().__init_subclass__()
        for name, test in [it for it in vars(cls).items() if it[0].startswith("test")]:
            if not hasattr(test, "rows"):
                setattr(cls, name, runnable(test))
                continue
            delattr(cls, name)
            for index, row in enumerate(test.rows):
                one = f"{name}_{row_name(row, index)}"
                setattr(cls, f"{one}_{index}" if hasattr(cls, one) else one, runnable(test, row))

    def run(self, result=None):
        with in_time():
            return super().run(result)

    def wait(self, coroutine, seconds=3 * SECONDS):
        """(longer than anything in it is waited for)"""
        return asyncio.run(asyncio.wait_for(coroutine, seconds))

    async def until(self, is_reached, seconds=SECONDS):
        end = asyncio.get_running_loop().time() + seconds
        while not is_reached():
            self.assertLess(asyncio.get_running_loop().time(), end, "it isn't reached in time")
            await asyncio.sleep(0.001)


class InAFolder(Case):
    """A test case with a folder of its own."""

    def setUp(self):
        room = tempfile.TemporaryDirectory()
        self.addCleanup(room.cleanup)
        self.room = room.name

    def file(self, name, data=None):
        """The place of a file in it, which is written where there is data."""
        place = os.path.join(self.room, name)
        if data is not None:
            with open(place, "wb") as it:
                it.write(data.encode() if isinstance(data, str) else data)
        return place

    def data(self, name):
        with open(self.file(name), "rb") as it:
            return it.read()

    def text(self, name):
        return self.data(name).decode()


__all__ = [
    "HERE",
    "MANY",
    "PACKAGE",
    "TOP",
    "Case",
    "InAFolder",
    "a_port",
    "command",
    "environment",
    "extension_of",
    "frame",
    "joined",
    "logged",
    "made_over",
    "messages",
    "notice",
    "ran",
    "request",
    "rows",
    "write_all",
]
