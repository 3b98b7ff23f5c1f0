"""python-lsp-server (Debian's python3-pylsp) over the Python package, beside the same over its own library: the answers of a whole session
are the same. `support/pylsp_over_package.py` puts the package in the library's place."""
import json
import os
import queue
import subprocess
import sys
import tempfile
import threading

from support import ran
from support.client import contents_in

# The interpreter that Debian's package is for.
PYTHON = "/usr/bin/python3"
PACKAGE = os.path.join(ran.TOP, "bindings", "python")
OVER = os.path.join(ran.TOP, "checks", "support", "pylsp_over_package.py")
SECONDS = 240
TEXT = '''import os
import  sys


class Point:
    """A point on a plane."""

    def __init__(self, x, y):
        self.x = x
        self.y = y

    def norm(self):
        """The distance from the origin."""
        return (self.x ** 2 + self.y ** 2) ** 0.5


def main( ):
    point = Point(3,4)
    print(point.norm(), os.getcwd())
    undefined_name


main()
'''
CANCELLED = "the cancelled one"
URI = "file:///tmp/doc.py"
DOCUMENT = {"textDocument": {"uri": URI}}


def place(line, character):
    return {**DOCUMENT, "position": {"line": line, "character": character}}


def framed(members):
    data = json.dumps({"jsonrpc": "2.0", **members}).encode()
    return b"Content-Length: %d\r\n\r\n%s" % (len(data), data)


class Session:
    """A server that runs, and what came of it."""

    def __init__(self, words, room):
        env = {**os.environ, "PYTHONPATH": PACKAGE, "PYTHONDONTWRITEBYTECODE": "1", "HOME": room}
        self.errors = open(os.path.join(room, "errors"), "w+b")
        how = {"stdin": subprocess.PIPE, "stdout": subprocess.PIPE, "stderr": self.errors, "env": env, "bufsize": 0}
        self.process = subprocess.Popen(words, **how)
        self.came, self.notices, self.answers, self.id = queue.Queue(), [], {}, 0
        stream = os.fdopen(os.dup(self.process.stdout.fileno()), "rb")
        threading.Thread(target=self.read, args=(stream,), daemon=True).start()

    def read(self, stream):
        for content in contents_in(with_one_field(stream)):
            self.came.put(json.loads(content))
        self.came.put(None)

    def send(self, **members):
        self.process.stdin.write(framed(members))

    def ask(self, method, params):
        self.id += 1
        self.send(id=self.id, method=method, params=params)
        return self.id

    def heard(self):
        """The next answer; what else comes until then is kept, and calls are answered."""
        while True:
            message = self.came.get(timeout=SECONDS)
            if message is None:
                raise EOFError("the server has ended")
            if "method" not in message:
                return message
            self.notices.append(message)
            if "id" in message:
                self.send(id=message["id"], result=None)

    def answer(self, label, method, params):
        id_ = self.ask(method, params)
        message = self.heard()
        if message.pop("id") != id_:
            raise ValueError(f"{label}: an answer to another request")
        self.answers[label] = alike(message)

    def diagnostics(self):
        """The next that are published."""
        while True:
            for at, it in enumerate(self.notices):
                if it["method"] == "textDocument/publishDiagnostics":
                    return self.notices.pop(at)["params"]
            message = self.came.get(timeout=SECONDS)
            if message is None:
                raise EOFError("the server has ended")
            self.notices.append(message)


class with_one_field:
    """A stream without the field Content-Type, which python-lsp-server's own library writes."""

    def __init__(self, stream):
        self.stream, self.read = stream, stream.read

    def readline(self):
        line = self.stream.readline()
        return self.stream.readline() if line.startswith(b"Content-Type: ") else line


def alike(message):
    """An answer without what differs by what it runs over: the lines of a traceback."""
    if "error" in message:
        message["error"].get("data", {}).pop("traceback", None)
    return message


def play(words, room):
    """A whole session: the answers by their names, the kinds of notifications, and the status."""
    it = Session(words, room)
    try:
        about = {"processId": os.getpid(), "rootUri": "file:///tmp", "capabilities": {}}
        it.answer("initialize", "initialize", about)
        it.send(method="initialized", params={})
        opened = {"uri": URI, "languageId": "python", "version": 1, "text": TEXT}
        it.send(method="textDocument/didOpen", params={"textDocument": opened})
        # (it looks at a text half a second after the last change: at both of them only where this one was looked at before)
        it.answers["diagnostics"] = it.diagnostics()
        it.answer("completion", "textDocument/completion", place(18, 17))
        it.answer("hover", "textDocument/hover", place(18, 18))
        it.answer("definition", "textDocument/definition", place(18, 18))
        it.answer("documentSymbol", "textDocument/documentSymbol", DOCUMENT)
        it.answer(
            "formatting", "textDocument/formatting", {**DOCUMENT, "options": {"tabSize": 4, "insertSpaces": True}}
        )
        it.answer("foldingRange", "textDocument/foldingRange", DOCUMENT)
        it.answer("codeLens", "textDocument/codeLens", DOCUMENT)
        it.answer("a method that it doesn't have", "demo/none", {})
        it.answer("one that begins with $/", "$/none", {})
        it.answer("params that lack something", "textDocument/hover", {"nonsense": 1})
        it.answer("params of another kind", "textDocument/hover", [1])
        change = {"start": {"line": 17, "character": 4}, "end": {"line": 17, "character": 9}}
        changes = {"textDocument": {"uri": URI, "version": 2}, "contentChanges": [{"range": change, "text": "spot"}]}
        it.send(method="textDocument/didChange", params=changes)
        it.answer("symbols after a change", "textDocument/documentSymbol", DOCUMENT)
        it.answers["diagnostics after a change"] = it.diagnostics()
        cancelled(it)
        it.answer("shutdown", "shutdown", None)
        it.answer("hover after shutdown", "textDocument/hover", place(18, 18))
        it.send(method="exit")
        it.answers["status"] = it.process.wait(SECONDS)
        return it.answers
    finally:
        it.process.kill()
        it.process.wait()


def cancelled(it):
    """Of many completions at once the last one is cancelled, and one cancel reaches nothing; all arrives as one piece."""
    many = [it.id + at for at in range(1, 7)]
    it.id = many[-1]
    asked = [{"id": id_, "method": "textDocument/completion", "params": place(18, 17)} for id_ in many]
    cancels = [{"method": "$/cancelRequest", "params": {"id": id_}} for id_ in (many[-1], 99_999)]
    it.process.stdin.write(b"".join(map(framed, asked + cancels)))
    found = {}
    while len(found) < len(many):
        message = it.heard()
        found[message["id"]] = "a result" if "result" in message else message["error"]["code"]
    it.answers["all but the cancelled one"] = [found[id_] for id_ in many[:-1]]
    it.answers[CANCELLED] = found[many[-1]]


def has_pylsp():
    code = "import pylsp, pylsp_jsonrpc"
    return (
        os.path.isfile(PYTHON)
        and subprocess.run([PYTHON, "-c", code], capture_output=True, check=False).returncode == 0
    )


def check(count, over_its_own, over_the_package):
    # (its own library runs it all the same; over the package a request doesn't begin whose cancel was read in time)
    ways = over_its_own.pop(CANCELLED, None), over_the_package.pop(CANCELLED, None)
    count.same("the cancelled request", ways, ("a result", -32800))
    for label, wanted in over_its_own.items():
        count.same(f"python-lsp-server over the package: {label}", over_the_package.get(label), wanted)
    count.same("the labels", list(over_the_package), list(over_its_own))
    # (so that not everything is empty alike)
    symbols = json.dumps(over_its_own.get("documentSymbol"))
    count.check("the symbols of the text are found", all(it in symbols for it in ("Point", "norm", "main")), symbols)
    count.same("the status", over_the_package.get("status"), 0)


def main():
    count = ran.Count()
    if not has_pylsp():
        print("SKIPPED: python-lsp-server over the Python package, since python3-pylsp isn't there", flush=True)
        count.end()
    played = []
    for words in ([PYTHON, "-m", "pylsp"], [PYTHON, OVER]):
        with tempfile.TemporaryDirectory(prefix="pylsp-") as room:
            try:
                played.append(play(words, room))
            except (EOFError, ValueError, queue.Empty, subprocess.TimeoutExpired) as error:
                with open(os.path.join(room, "errors"), encoding="utf-8") as said:
                    count.check(" ".join(words), False, f"{type(error).__name__}: {error}\n{said.read()[-1200:]}")
    if len(played) == 2:
        check(count, *played)
    count.end()


if __name__ == "__main__":
    sys.exit(main())
