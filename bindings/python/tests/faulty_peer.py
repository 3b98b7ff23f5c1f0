"""A small server and a small client that are right, and wrong in one thing that is named. (It uses nothing of the package.)

    faulty_peer.py server RULES [FAULT]
    faulty_peer.py client RULES FAULT SERVER      (FAULT is - for none)
"""
import json
import os
import re
import signal
import subprocess
import sys
import time

PARSE, INVALID, UNKNOWN, PARAMS, EARLY = -32700, -32600, -32601, -32602, -32002
TOOL = {
    "name": "add",
    "inputSchema": {"type": "object", "required": ["a"], "properties": {"a": {"type": "number"}}},
}
CAPABILITIES = {"hoverProvider": True, "textDocumentSync": 2}
# (as helping.py has it)
TIMES_SLOWER = int(os.environ.get("TIMES_SLOWER", "1"))


class Wrong(Exception):
    """A request is answered by an error."""

    def __init__(self, code):
        super().__init__(code)
        self.code = code


def refuse_constant(word):
    raise ValueError(word)


class Peer:
    def __init__(self, role, rules, fault, source, sink):
        self.role, self.rules, self.fault, self.source, self.sink = role, rules, fault, source, sink
        self.lines = rules.startswith("mcp")
        self.data = b""
        self.is_initialized = rules == "jsonrpc" or role == "client"
        self.is_shut = self.has_tasks = False
        self.open = {}
        self.count = 0
        self.is_begun = False  # whether the client has said that it is initialized
        self.offered = {}  # what a client offers
        self.answers = {}  # how often each request of its own was answered, by its id

    # The stream

    def more(self):
        data = os.read(self.source, 1 << 16)
        self.data += data
        if not data:
            self.ended()
        return data

    def ended(self):
        if self.fault == "stays-at-the-end":
            time.sleep(60)
        sys.exit(0)

    def line(self):
        while b"\n" not in self.data:
            self.more()
        line, _, self.data = self.data.partition(b"\n")
        return line

    def content(self):
        if self.fault == "reads-once":
            self.data = b""
            self.more()
            if self.lines and not self.data.endswith(b"\n") or b'"2.0"' not in self.data:
                return b""
        return self.line_content() if self.lines else self.frame()

    def line_content(self):
        line = self.line()
        if self.fault == "keeps-cr" and line.endswith(b"\r"):
            return b"\r?"
        line = line.strip(b" \t\r")
        if not line and self.fault == "empty-line-ends":
            sys.exit(3)
        return line

    def header(self):
        fields = []
        while True:
            line = self.line()
            if not line.endswith(b"\r"):
                sys.exit(1)
            if line == b"\r":
                return fields
            if b":" not in line:
                self.broken()
            name, _, value = line[:-1].partition(b":")
            fields.append((name, value))

    def broken(self):
        while self.fault == "broken-header-hangs":
            self.more()
        sys.exit(1)

    def frame(self):
        fields = self.header()
        if self.fault == "header-by-case" and b"Content-Length" not in dict(fields):
            self.broken_silently()
        if self.fault == "header-needs-blank" and not dict(fields).get(b"Content-Length", b" ").startswith(
            b" "
        ):
            self.broken_silently()
        if self.fault == "length-is-first" and fields[:1] and fields[0][0].lower() != b"content-length":
            self.broken_silently()
        if self.fault == "unknown-field-ends" and any(name.startswith(b"X-") for name, _ in fields):
            sys.exit(3)
        lengths = [value.strip() for name, value in fields if name.strip().lower() == b"content-length"]
        if len(lengths) != 1 or not lengths[0].isdigit() or len(lengths[0]) > 10:
            self.broken()
        while len(self.data) < int(lengths[0]):
            self.more()
        content, self.data = self.data[: int(lengths[0])], self.data[int(lengths[0]) :]
        types = [value for name, value in fields if name.lower() == b"content-type"]
        charsets = [it.lower() for some in types for it in re.findall(rb'charset="?([\w-]+)', some)]
        return b"?" if set(charsets) - {b"utf-8", b"utf8"} else content or b"?"

    def broken_silently(self):
        while True:
            self.more()

    def send(self, value):
        data = json.dumps(value).encode()
        if self.fault == "bare-line-feeds" and not self.lines:
            data = b"Content-Length: %d\n\n%b" % (len(data), data)
        else:
            data = data + b"\n" if self.lines else b"Content-Length: %d\r\n\r\n%b" % (len(data), data)
        while data:
            data = data[os.write(self.sink, data) :]

    # Messages

    def run(self):
        if self.fault == "prints-a-banner":
            os.write(self.sink, b"ready\n")
        while True:
            content = self.content()
            if content or not self.lines:
                self.take(content)

    def error(self, id_, code):
        return {"jsonrpc": "2.0", "id": id_, "error": {"code": code, "message": "x"}}

    def read(self, content):
        if self.fault == "reads-latin-1":
            return json.loads(content.decode("latin-1"))
        if self.fault == "version-is-first" and not content.startswith((b'{"jsonrpc"', b"[")):
            raise ValueError
        return json.loads(content.decode(), parse_constant=refuse_constant)

    def take(self, content):
        try:
            if self.fault == "big-is-dropped" and len(content) > 1_000_000:
                return
            value = self.read(content)
        except RecursionError:
            if self.fault == "deep-ends":
                sys.exit(3)
            if self.fault != "deep-is-silent":
                self.send(self.error(None, PARSE))
            return
        except ValueError:
            if self.fault == "no-json-ends":
                sys.exit(3)
            code = INVALID if self.fault == "no-json-is-invalid" else PARSE
            if self.fault != "no-json-is-silent":
                self.send(self.error(None, code))
            return
        if isinstance(value, list):
            self.batch(value)
        else:
            answer = self.message(value)
            if answer is not None:
                self.send(answer)
                if self.fault == "answers-twice":
                    self.send(answer)

    def batch(self, value):
        if self.fault == "batch-ends":
            sys.exit(3)
        if not value:
            if self.fault != "empty-batch-is-silent":
                self.send(self.error(None, INVALID))
        elif self.rules == "lsp" or self.lines:
            self.send(self.error(None, INVALID))
        else:
            answers = [it for it in map(self.message, value) if it is not None]
            if self.fault == "batch-one-by-one":
                for it in answers:
                    self.send(it)
            elif answers or self.fault == "batch-of-nothing":
                self.send(answers)

    def message(self, value):
        """The response to a message, or None."""
        if not isinstance(value, dict):
            if self.fault == "scalar-ends":
                sys.exit(3)
            return self.error(None, INVALID)
        is_answer = "method" not in value and ("result" in value or "error" in value)
        if is_answer:
            return self.answered(value)
        id_ = value.get("id")
        is_number = isinstance(id_, (int, float)) and not isinstance(id_, bool)
        if "id" in value and not (isinstance(id_, str) or is_number or id_ is None):
            return self.error(id_ if self.fault == "echoes-any-id" else None, INVALID)
        if value.get("jsonrpc") != "2.0" or not isinstance(value.get("method"), str):
            return self.invalid(value, id_)
        params = value.get("params", {})
        if not isinstance(params, (dict, list)):
            if self.fault == "params-are-trusted":
                params["a"]
            return self.error(id_, INVALID)
        if self.fault == "needs-params" and "params" not in value:
            return None
        return self.called(value, id_)

    def invalid(self, value, id_):
        if self.fault == "version-ends" and value.get("jsonrpc") != "2.0":
            sys.exit(3)
        if self.fault == "method-is-silent" and "method" in value:
            return None
        return self.error(id_, INVALID)

    def answered(self, value):
        if self.fault == "answers-responses":
            return self.error(value.get("id"), INVALID)
        if self.fault == "no-id-ends" and "id" not in value:
            sys.exit(3)
        if self.fault == "error-null-ends" and value.get("id") is None and "error" in value:
            sys.exit(3)
        if self.fault == "broken-response-ends" and {"result", "error"} <= set(value):
            sys.exit(3)
        id_ = str(value.get("id"))
        self.answers[id_] = self.answers.get(id_, 0) + 1
        if self.answers[id_] > 1 and self.fault == f"{id_}-again-ends":
            sys.exit(3)
        if self.role == "client" and id_ == "initialize":
            self.begun(value)
        elif self.role == "server":
            self.told(id_, value)
        return None

    # What a server asks for

    def ask(self):
        """Where the client lets it."""
        if self.offered.get("roots"):
            self.request("roots", "roots/list", {})
        workspace = self.offered.get("workspace", {})
        if workspace.get("didChangeConfiguration", {}).get("dynamicRegistration"):
            registrations = [{"id": "1", "method": "workspace/didChangeConfiguration"}]
            self.request("register", "client/registerCapability", {"registrations": registrations})
            self.request("configuration", "workspace/configuration", {"items": [{"section": "faulty"}]})
            self.request("create", "window/workDoneProgress/create", {"token": "work"})

    def request(self, id_, method, params):
        self.send({"jsonrpc": "2.0", "id": id_, "method": method, "params": params})

    def told(self, id_, value):
        is_error = "error" in value and "result" not in value
        ends = {
            f"{id_}-error-ends": is_error,
            f"{id_}-both-ends": {"result", "error"} <= set(value),
            f"{id_}-null-ends": not is_error and value.get("result") is None,
            f"{id_}-late-ends": self.count > 1,
        }
        if ends.get(self.fault):
            sys.exit(3)
        if id_ == "create" and (not is_error or self.fault == "refused-progress"):
            for kind in ("begin", "end"):
                params = {"token": "work", "value": {"kind": kind, "title": "t"}}
                self.send({"jsonrpc": "2.0", "method": "$/progress", "params": params})

    def called(self, value, id_):
        method, params = value["method"], value.get("params", {})
        is_request = "id" in value and not (self.fault == "zero-is-no-id" and id_ == 0)
        try:
            if not is_request:
                self.notified(method, params)
                return self.error(None, UNKNOWN) if self.fault == "notifications-are-answered" else None
            result = self.asked(method, params, id_)
        except Wrong as wrong:
            return self.error(self.id_of(id_), wrong.code)
        if result is None and self.fault in ("unknown-is-ignored", "request-is-ignored"):
            return None
        return {"jsonrpc": "2.0", "id": self.id_of(id_), "result": result}

    def id_of(self, id_):
        """The id as it is given back."""
        number = isinstance(id_, int) and not isinstance(id_, bool)
        if self.fault == "id-as-string":
            return str(id_)
        if self.fault == "id-as-number" and isinstance(id_, str) and id_.isdigit():
            return int(id_)
        if self.fault == "id-empty-is-null" and id_ == "":
            return None
        if self.fault == "id-is-float" and number and id_ > 2**53:
            return float(id_)
        if self.fault == "id-of-32-bits" and number:
            return (id_ + 2**31) % 2**32 - 2**31
        if self.fault == "id-ends-at-nul" and isinstance(id_, str):
            return id_.partition("\0")[0]
        if self.fault == "id-is-cut" and isinstance(id_, str):
            return id_[:1000]
        if self.fault == "id-loses-pairs" and isinstance(id_, str):
            return (
                id_.encode("utf-16", "surrogatepass").decode("ascii", "ignore") if id_.isascii() else id_[:1]
            )
        if self.fault == "id-negative-ends" and number and id_ < 0:
            sys.exit(3)
        return id_

    # Methods

    def unknown(self, method):
        if self.fault == "unknown-is-ignored" or self.fault == "unknown-is-null":
            return None
        if self.fault == "empty-method-ends" and not method:
            sys.exit(3)
        raise Wrong(-32603 if self.fault == "unknown-is-internal" else UNKNOWN)

    def asked(self, method, params, id_):
        self.count += 1
        if self.fault == "sleeps":
            time.sleep(6 * TIMES_SLOWER)
        if self.fault == "loses-some" and self.count % 100 == 0:
            time.sleep(0.0)
            self.fault = "unknown-is-ignored"
            return None
        if self.role == "client":
            return self.asked_of_client(method, params)
        if self.rules == "jsonrpc":
            return self.unknown(method)
        if method == "initialize":
            return self.initialize(params)
        if self.fault == "wants-initialized" and self.is_initialized and not self.is_begun:
            sys.exit(3)
        if method == "ping" and self.lines:
            return None if self.fault == "ping-is-null" else {}
        if not self.is_initialized and self.fault != "begins-without-initialize":
            raise Wrong(EARLY if not self.lines else INVALID)
        if self.is_shut and self.fault != "shut-and-open":
            raise Wrong(INVALID)
        if method == "shutdown" and not self.lines:
            self.is_shut = True
            return None
        return self.tools(method, params) if self.lines else self.language(method, params)

    def initialize(self, params):
        if self.is_initialized and self.fault != "initialize-again":
            raise Wrong(INVALID)
        if not isinstance(params, dict) or not isinstance(params.get("capabilities"), dict):
            if self.fault == "initialize-params-ends":
                sys.exit(3)
            raise Wrong(PARAMS)
        self.offered = params["capabilities"]
        if not self.lines:
            self.is_initialized = True
            offered = params["capabilities"].get("general", {}).get("positionEncodings", ["utf-16"])
            return {"capabilities": {**CAPABILITIES, "positionEncoding": offered[0]}}
        version = params.get("protocolVersion")
        if not isinstance(version, str) or not isinstance(params.get("clientInfo"), dict):
            raise Wrong(PARAMS)
        self.is_initialized = True
        known = self.fault == "any-version" or self.fault != "older" and version == "2025-11-25"
        about = {"name": "faulty", "version": "1"}
        if self.fault == "no-server-info":
            return {"protocolVersion": "2025-06-18", "capabilities": {"tools": {}}}
        self.has_tasks = known and version == "2025-11-25"
        tasks = {"tasks": {"list": {}, "cancel": {}}} if self.has_tasks else {}
        return {
            "protocolVersion": version if known else "2025-06-18",
            "capabilities": {"tools": {}, **tasks},
            "serverInfo": about,
        }

    def language(self, method, params):
        if method != "textDocument/hover":
            return self.unknown(method)
        position = params.get("position", {}) if isinstance(params, dict) else {}
        document = params.get("textDocument", {}) if isinstance(params, dict) else {}
        numbers = [position.get(it) if isinstance(position, dict) else None for it in ("line", "character")]
        is_place = all(type(it) is int and 0 <= it < 2**31 for it in numbers)
        if not is_place or not isinstance(document, dict) or not isinstance(document.get("uri"), str):
            raise Wrong(-32603 if self.fault == "params-are-internal" else PARAMS)
        if self.fault == "needs-open" and document["uri"] not in self.open:
            sys.exit(3)
        if self.fault == "position-ends" and numbers[1] > 100:
            os.kill(os.getpid(), signal.SIGSEGV)
        return None

    def tools(self, method, params):
        if method == "tools/list":
            if not isinstance(params, dict) or "cursor" in params and self.fault != "any-cursor":
                raise Wrong(PARAMS)
            return {"tools": [TOOL]}
        if method == "tools/call":
            return self.call_tool(params)
        if method.startswith("tasks/") and self.fault == "later-methods":
            return {}
        if method.startswith("tasks/") and self.has_tasks and self.fault != "any-task":
            raise Wrong(PARAMS)
        if method.startswith("tasks/") and self.has_tasks:
            return (
                {"tasks": []} if method == "tasks/list" else {"taskId": "x", "status": "working", "ttl": None}
            )
        return self.unknown(method)

    def call_tool(self, params):
        name = params.get("name") if isinstance(params, dict) else None
        if name != "add" and self.fault != "any-tool":
            raise Wrong(PARAMS)
        arguments = params.get("arguments")
        is_right = isinstance(arguments, dict) and isinstance(arguments.get("a"), (int, float))
        if not is_right and self.fault == "arguments-end":
            sys.exit(3)
        if not is_right and self.fault == "arguments-are-refused":
            raise Wrong(PARAMS)
        if not is_right and self.fault != "any-arguments":
            return {"content": [{"type": "text", "text": "a must be a number"}], "isError": True}
        return {"content": [{"type": "text", "text": "1"}]}

    def notified(self, method, params):
        if method == self.fault.partition(" ")[2] and self.fault.startswith("ends-at "):
            sys.exit(3)
        if method in ("initialized", "notifications/initialized"):
            self.is_begun = True
            self.ask()
        if method == "exit" and not self.lines:
            right = 0 if self.is_shut else 1
            sys.exit({"exit-is-1": 1, "exit-is-0": 0}.get(self.fault, right))
        if method == "textDocument/didOpen" and isinstance(params, dict):
            document = params.get("textDocument")
            if not self.is_initialized and self.fault == "early-ends":
                sys.exit(3)
            if isinstance(document, dict):
                self.open[str(document.get("uri"))] = document.get("text")
        if method == "textDocument/didChange":
            self.changed(params)
        if method == "$/cancelRequest" and self.fault == "cancel-is-answered":
            self.send(self.error(params.get("id") if isinstance(params, dict) else None, -32800))

    def changed(self, params):
        document = params.get("textDocument", {}) if isinstance(params, dict) else {}
        if self.fault == "change-needs-open" and document.get("uri") not in self.open:
            os.kill(os.getpid(), signal.SIGSEGV)
        if (
            self.fault == "version-must-rise"
            and isinstance(document.get("version"), int)
            and document["version"] < 0
        ):
            sys.exit(3)
        changes = params.get("contentChanges") if isinstance(params, dict) else None
        if (
            self.fault == "range-is-trusted"
            and changes
            and changes[0].get("range", {}).get("start", {}).get("line") == 99
        ):
            sys.exit(3)

    # A client

    def begin(self):
        about = {"clientInfo": {"name": "faulty", "version": "1"}, "capabilities": {}}
        self.version = "2025-06-18" if self.fault == "older" else "2025-11-25"
        more = {"protocolVersion": self.version} if self.lines else {"processId": None, "rootUri": None}
        if self.fault == "client-without-capabilities":
            del about["capabilities"]
        if self.rules != "jsonrpc":
            params = {**about, **more}
            self.send({"jsonrpc": "2.0", "id": "initialize", "method": "initialize", "params": params})

    def begun(self, value):
        result = value.get("result")
        if self.is_shut:
            if self.fault == "initialize-twice-ends":
                sys.exit(3)
            return
        self.is_shut = True
        is_right = isinstance(result, dict) and isinstance(result.get("capabilities"), dict)
        if not is_right or "error" in value:
            while self.fault == "bad-initialize-hangs":
                self.more()
            sys.exit(1)
        if self.lines and result.get("protocolVersion") != self.version and self.fault != "any-version":
            sys.exit(1)
        if self.fault == "client-never-initialized":
            return
        name = "notifications/initialized" if self.lines else "initialized"
        self.send({"jsonrpc": "2.0", "method": name, **({} if self.lines else {"params": {}})})
        if self.fault == "asks-too-much":
            self.send({"jsonrpc": "2.0", "id": "initialize", "method": "initialize", "params": {}})
        if "tools" in result["capabilities"]:
            self.send({"jsonrpc": "2.0", "id": "tools", "method": "tools/list"})

    def asked_of_client(self, method, params):
        if self.fault == "early-is-ignored" and not self.is_shut:
            self.fault = "request-is-ignored"
            return None
        if method == self.fault.partition(" ")[2]:
            if self.fault.startswith("ends-at "):
                sys.exit(3)
            if self.fault.startswith("ignores "):
                self.fault = "request-is-ignored"
                return None
        if method == "ping" and self.lines:
            return None if self.fault == "ping-is-null" else {}
        if method == "workspace/configuration" and self.rules == "lsp":
            items = params.get("items") if isinstance(params, dict) else None
            if not isinstance(items, list):
                raise Wrong(PARAMS)
            return [None] * len(items)
        return self.unknown(method)


def main(role, rules, fault="-", server=""):
    if role == "server":
        Peer(role, rules, fault, 0, 1).run()
    started = subprocess.Popen([server], stdin=subprocess.PIPE, stdout=subprocess.PIPE)
    peer = Peer(role, rules, fault, started.stdout.fileno(), started.stdin.fileno())
    peer.begin()
    peer.run()


if __name__ == "__main__":
    main(*sys.argv[1:])
