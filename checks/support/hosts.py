"""What the examples over the library are given, and what they have to write: the host, the client, and the language
servers."""
import sys
from typing import NamedTuple

# What the smallest host reads and writes. It answers a request with its params.
HOST = (
    b'{"jsonrpc":"2.0","method":"echo","params":["a", 1.50],"id":7}\n'
    b'{"jsonrpc":"2.0","method":"note","params":[1]}\n'
    b'[{"jsonrpc":"2.0","method":"echo","params":{"b":null},"id":8}, 5, {"jsonrpc":"2.0","method":"size","id":"x"}]\n',
    b'{"id":7,"jsonrpc":"2.0","result":["a",1.50]}\n'
    b'[{"id":8,"jsonrpc":"2.0","result":{"b":null}},{"error":{"code":-32600,"message":"Invalid Request"},"id":null,"jsonrpc":"2.0"},'
    b'{"error":{"code":-32601,"message":"Method not found"},"id":"x","jsonrpc":"2.0"}]\n',
)
# The same for the host that says what is broken, with what it says. The second content begins behind 56 bytes, and the
# third behind 24 more.
EXPLAINING = (
    b'{"jsonrpc":"2.0","method":"echo","params":["a"],"id":7}\n{"jsonrpc":"2.0","id":8\n[1,{"foo":"\xff"}]\n[1,{"foo":2}]\n'
    + b" " * 100_001,
    b'{"id":7,"jsonrpc":"2.0","result":["a"]}\n'
    + b'{"error":{"code":-32700,"message":"Parse error"},"id":null,"jsonrpc":"2.0"}\n' * 2
    + b'[{"error":{"code":-32600,"message":"Invalid Request"},"id":null,"jsonrpc":"2.0"},'
    b'{"error":{"code":-32600,"message":"Invalid Request"},"id":null,"jsonrpc":"2.0"}]\n',
    b'byte 56: unreadable: {"jsonrpc":"2.0","id":8\nbyte 80: unreadable: [1,{"foo":"?"}]\n'
    b'byte 96: 2 invalid, the first is entry 0: [1,{"foo":2}]\nbyte 110: a content is longer than the setting allows\n',
)
# What the client is given before its server, and its status and what it prints, where that is the host.
CLIENT = (
    (["echo", '["a", 1.50]'], (0, b'["a",1.50]\n')),
    (["echo", '{"long":"' + "x" * 90_000 + '"}'], (0, b'{"long":"' + b"x" * 90_000 + b'"}\n')),
    (["size", ""], (1, b"error -32601 Method not found\n")),
    (["-s", "60", "echo", "[1]"], (0, b"[1]\n")),
)
# A server of frames: it answers one request with its params.
FRAMES = [
    sys.executable,
    "-c",
    """import json, sys
length = int(sys.stdin.buffer.readline().removeprefix(b"Content-Length:"))
asked = json.loads(sys.stdin.buffer.read(length + 2))
answer = json.dumps({"jsonrpc": "2.0", "id": asked["id"], "result": asked["params"]})
sys.stdout.write(f"Content-Length: {len(answer)}\\r\\n\\r\\n{answer}")
""",
]
# What the client is given with another server, and its status and what it writes.
ANSWERED = """read line; echo '{"jsonrpc":"2.0","id":1,"result":true}'; """
CLIENT_OF_OTHERS: tuple[tuple[list[str], tuple[int, bytes, bytes]], ...] = (
    (["-f", "echo", '["a", 1.50]', *FRAMES], (0, b'["a",1.5]\n', b"")),
    (["echo", "[]", "true"], (2, b"", b"client: the server ended without a reply\n")),
    (["echo", "[]", "/nowhere/server"], (2, b"", b"client: the server doesn't start\n")),
    (
        ["-f", "echo", "[]", "sh", "-c", "echo banner; echo"],
        (2, b"", b"client: byte 0 of the server's output: a header line isn't a field\n"),
    ),
    (["-s", "1", "echo", "[]", "sleep", "60"], (2, b"", b"client: no reply within 1 s\n")),
    (["-s", "1", "echo", "[]", "yes"], (2, b"", b"client: no reply within 1 s\n")),
    (
        ["-s", "1", "echo", "[]", "sh", "-c", f"{ANSWERED} exec sleep 60"],
        (0, b"true\n", b"client: the server didn't end within 1 s\n"),
    ),
    (
        ["-s", "1", "echo", "[]", "sh", "-c", "exec >&-; exec sleep 60"],
        (2, b"", b"client: the server ended without a reply\nclient: the server didn't end within 1 s\n"),
    ),
)
# Words that the client refuses.
CLIENT_REFUSES: list[list[str]] = [
    [],
    ["echo", "[]"],
    ["-x", "echo", "[]", "true"],
    ["-s", "echo"],
    *(["-s", seconds, "echo", "[]", "true"] for seconds in ("0", "-1", "1x", "", "86401")),
]
CLIENT_USAGE = (2, b"", b"client: usage: client [-f] [-s SECONDS] METHOD PARAMS SERVER [WORD]..\n")


# Texts


def framed(*texts: str) -> bytes:
    return b"".join(b"Content-Length: %d\r\n\r\n%s" % (len(it.encode()), it.encode()) for it in texts)


def in_lines(*texts: str) -> bytes:
    return b"".join(b"%s\n" % it.encode() for it in texts)


def note(method: str, params: str) -> str:
    return f'{{"jsonrpc":"2.0","method":"{method}","params":{params}}}'


def asks(number: int, method: str, params: str = "null") -> str:
    return f'{{"method":"{method}","id":{number},"params":{params},"jsonrpc":"2.0"}}'


def result(number: int, value: str) -> str:
    return f'{{"id":{number},"jsonrpc":"2.0","result":{value}}}'


def error(number: int, code: int, message: str) -> str:
    return f'{{"error":{{"code":{code},"message":"{message}"}},"id":{number},"jsonrpc":"2.0"}}'


class Session(NamedTuple):
    """What a client says, what the server answers, and the status that it ends with."""

    says: list[str]
    answers: list[str]
    status: int


EXIT = note("exit", "null")
NO_OBJECT = "params: expected an object"
CANCELLED = "Request cancelled"

# The language server in C

READY = '{"capabilities":{"hoverProvider":true,"textDocumentSync":1}}'
PLACE = '{"position":{"line":0,"character":0},"textDocument":{"uri":"file:///a"}}'
NO_PLACE, NO_LINES = "params.position: expected a line and a character", ('"x"', "-1", "1.5", "2147483648", "null")
ITEMS = '{"items":[{"section":"example.greeting"}]}'
LONG = "y" * 81
OPENED = (
    '{"uri":"file:///a","diagnostics":[{"range":{"start":{"line":1,"character":0},"end":{"line":2,"character":0}},"severity":2,'
    '"message":"this line has more than 80 bytes"}]}'
)
NOTHING = '{"uri":"file:///a","diagnostics":[]}'


def hovered(words: str) -> str:
    return f'{{"contents":{{"kind":"plaintext","value":"{words}"}}}}'


def configuration(key: int) -> str:
    return f'{{"id":{key},"jsonrpc":"2.0","method":"workspace/configuration","params":{ITEMS}}}'


def published(params: str) -> str:
    return note("textDocument/publishDiagnostics", params)


GREETER = {
    "a hover by a setting": Session(
        [
            asks(1, "initialize", '{"capabilities":{}}'),
            note("initialized", "{}"),
            note("textDocument/didOpen", f'{{"textDocument":{{"uri":"file:///a","text":"x\\n{LONG}\\n"}}}}'),
            asks(2, "textDocument/hover", PLACE),
            '{"jsonrpc":"2.0","id":1,"result":["hello"]}',
            asks(3, "shutdown"),
            EXIT,
        ],
        [result(1, READY), published(OPENED), configuration(1), result(2, hovered("hello")), result(3, "null")],
        0,
    ),
    "names inside strings, and members in another order": Session(
        [
            '{"params":{"processId":null,"rootUri":"\\"method\\":\\"exit\\""},"id":1,"method":"initialize","jsonrpc":"2.0"}',
            '{"params":{"textDocument":{"text":"\\"uri\\":\\"file:///b\\"","uri":"file:///a","languageId":"\\"text\\":\\"'
            + LONG
            + '\\""}},'
            '"method":"textDocument/didOpen","jsonrpc":"2.0"}',
            asks(2, "shutdown"),
            EXIT,
        ],
        [result(1, READY), published(NOTHING), result(2, "null")],
        0,
    ),
    "a text that changes": Session(
        [
            asks(1, "initialize", "{}"),
            note(
                "textDocument/didChange",
                f'{{"contentChanges":[{{"text":"x"}},{{"text":"x\\n{LONG}"}}],"textDocument":{{"uri":"file:///a"}}}}',
            ),
            note(
                "textDocument/didChange", '{"textDocument":{"uri":"file:///a"},"contentChanges":[{"text":"\\u00fc"}]}'
            ),
            note("textDocument/didChange", '{"textDocument":{"uri":"file:///a"},"contentChanges":[]}'),
            note("nothing", "[]"),
            asks(2, "shutdown"),
            EXIT,
        ],
        [result(1, READY), published(OPENED), published(NOTHING), result(2, "null")],
        0,
    ),
    "a cancel": Session(
        [
            asks(1, "initialize", "{}"),
            asks(2, "textDocument/hover", PLACE),
            note("$/cancelRequest", '{"id":2}'),
            '{"jsonrpc":"2.0","id":1,"result":["too late"]}',
            asks(3, "shutdown"),
            EXIT,
        ],
        [
            result(1, READY),
            configuration(1),
            note("$/cancelRequest", '{"id":1}'),
            error(2, -32800, CANCELLED),
            result(3, "null"),
        ],
        0,
    ),
    "refusals": Session(
        [
            asks(1, "shutdown"),
            asks(6, "initialize"),
            asks(7, "initialize", "[{}]"),
            asks(2, "initialize", "{}"),
            asks(3, "initialize", "{}"),
            asks(4, "nonsense"),
            asks(5, "textDocument/hover", '["uri"]'),
            asks(8, "textDocument/hover", '{"textDocument":{"uri":"file:///a"}}'),
            *(asks(9, "textDocument/hover", PLACE.replace('"line":0', f'"line":{it}')) for it in NO_LINES),
            EXIT,
        ],
        [
            error(1, -32002, "not initialized"),
            error(6, -32602, NO_OBJECT),
            error(7, -32602, NO_OBJECT),
            result(2, READY),
            error(3, -32600, "not at this time"),
            error(4, -32601, "no such method"),
            error(5, -32602, "params.textDocument.uri: expected a string"),
            error(8, -32602, NO_PLACE),
            *(error(9, -32602, NO_PLACE) for it in NO_LINES),
        ],
        1,
    ),
    "an editor that is gone": Session(
        [
            asks(1, "initialize", "{}"),
            note("initialized", "{}"),
            note("nothing", "[]"),
            asks(2, "textDocument/hover", PLACE),
        ],
        [result(1, READY), configuration(1), result(2, hovered("no greeting is set"))],
        1,
    ),
    "an end while a hover waits": Session(
        [
            asks(1, "initialize", "{}"),
            asks(2, "textDocument/hover", PLACE),
            asks(3, "textDocument/hover", PLACE),
            asks(4, "shutdown"),
            EXIT,
        ],
        [result(1, READY), configuration(1), configuration(2), result(4, "null")],
        0,
    ),
    "an error in place of the setting": Session(
        [
            asks(1, "initialize", "{}"),
            asks(2, "textDocument/hover", PLACE),
            '{"jsonrpc":"2.0","id":1,"error":{"code":-32601,"message":"no such method"}}',
            asks(3, "shutdown"),
            EXIT,
        ],
        [result(1, READY), configuration(1), result(2, hovered("no greeting is set")), result(3, "null")],
        0,
    ),
}

# The language server in Rust

DEFINES = '{"capabilities":{"definitionProvider":true}}'


def defined(uri: str, place: str) -> str:
    return f'{{"uri":{uri},"range":{{"start":{place},"end":{place}}}}}'


DEFINER = {
    "a definition": Session(
        [
            asks(1, "initialize", '{"capabilities":{}}'),
            note("initialized", "{}"),
            asks(
                2, "textDocument/definition", '{"textDocument":{"uri":"file:///a"},"position":{"line":3,"character":0}}'
            ),
            asks(3, "shutdown"),
            EXIT,
        ],
        [result(1, DEFINES), result(2, defined('"file:///a"', '{"line":3,"character":0}')), result(3, "null")],
        0,
    ),
    "names inside strings, and members in another order": Session(
        [
            asks(1, "initialize", '{"rootUri":"\\"method\\":\\"exit\\""}'),
            asks(
                2,
                "textDocument/definition",
                '{ "a": "\\"position\\":{}", "position" : {"x":"}\\\\","line":[{}]} , '
                '"textDocument": { "not": {"uri":1}, "ur\\u0069": "\\"uri\\":\\u00fc" } }',
            ),
            asks(3, "shutdown"),
            EXIT,
        ],
        [result(1, DEFINES), result(2, defined('"\\"uri\\":ü"', '{"x":"}\\\\","line":[{}]}')), result(3, "null")],
        0,
    ),
    "refusals": Session(
        [
            asks(1, "shutdown"),
            asks(8, "initialize"),
            asks(9, "initialize", "[{}]"),
            asks(2, "initialize", "{}"),
            asks(3, "initialize", "{}"),
            asks(4, "nonsense"),
            asks(5, "textDocument/definition", '["uri"]'),
            asks(6, "textDocument/definition", '{"textDocument":[],"position":{}}'),
            asks(7, "textDocument/definition"),
            EXIT,
        ],
        [
            error(1, -32002, "not initialized"),
            error(8, -32602, NO_OBJECT),
            error(9, -32602, NO_OBJECT),
            result(2, DEFINES),
            error(3, -32600, "not at this time"),
            error(4, -32601, "no such method"),
            error(5, -32602, "no place in a document"),
            error(6, -32602, "no place in a document"),
            error(7, -32602, "no place in a document"),
        ],
        1,
    ),
    "nothing after the shutdown": Session(
        [
            asks(1, "initialize", "{}"),
            note("initialized", "{}"),
            note("nothing", "[]"),
            asks(2, "shutdown"),
            asks(3, "shutdown"),
            asks(4, "textDocument/definition", "{}"),
        ],
        [
            result(1, DEFINES),
            result(2, "null"),
            error(3, -32600, "not at this time"),
            error(4, -32600, "not at this time"),
        ],
        0,
    ),
}

# The hovers in Rust, on threads and on tokio

COUNTS = '{"capabilities":{"textDocumentSync":1,"hoverProvider":true}}'
OPENS = '{"textDocument":{"uri":"file:///a","languageId":"text","version":1,"text":"one two"}}'
CHANGES = '{"textDocument":{"uri":"file:///a","version":2},"contentChanges":[{"text":"one two three"}]}'
WORDS = {
    "a hover between changes": Session(
        [
            asks(1, "textDocument/hover", PLACE),
            asks(10, "initialize"),
            asks(2, "initialize", '{"capabilities":{}}'),
            note("initialized", "{}"),
            asks(3, "textDocument/hover", PLACE),
            note("textDocument/didOpen", OPENS),
            asks(4, "textDocument/hover", PLACE),
            note("textDocument/didChange", CHANGES),
            asks(5, "textDocument/hover", PLACE),
            asks(6, "textDocument/hover", '{"textDocument":{"uri":"file:///a"},"position":{"line":"x"}}'),
            asks(7, "nonsense"),
            asks(8, "shutdown"),
            asks(9, "textDocument/hover", PLACE),
            EXIT,
        ],
        [
            error(1, -32002, "initialize comes first"),
            error(10, -32602, NO_OBJECT),
            result(2, COUNTS),
            result(3, "null"),
            result(4, '{"contents":"2 words"}'),
            result(5, '{"contents":"3 words"}'),
            error(6, -32602, 'params.position.line: invalid type: string \\"x\\", expected u32'),
            error(7, -32601, "Method not found: nonsense"),
            result(8, "null"),
            error(9, -32600, "the server is shut down"),
        ],
        0,
    ),
    "an exit without a shutdown": Session([asks(1, "initialize", "{}"), EXIT], [result(1, COUNTS)], 1),
    "an editor that is gone": Session([asks(1, "initialize", "{}")], [result(1, COUNTS)], 1),
}

# The tool server in Rust

HOST_IS = '"capabilities":{},"clientInfo":{"name":"h","version":"1"}'
AGREED = '{"capabilities":{"tools":{}},"protocolVersion":"2025-06-18","serverInfo":{"name":"words","version":"1.0"}}'
COUNTED = '{"content":[{"text":"2 words","type":"text"}]}'
WRONG_PARAMS = Session(
    [
        asks(1, "tools/list"),
        asks(2, "initialize"),
        asks(3, "initialize", f'{{"protocolVersion":5,{HOST_IS}}}'),
        asks(4, "initialize", '{"protocolVersion":"2025-06-18","capabilities":{},"clientInfo":{"name":"h"}}'),
        asks(5, "initialize", f'{{"protocolVersion":"2025-06-18",{HOST_IS}}}'),
        asks(6, "initialize", f'{{"protocolVersion":"2025-06-18",{HOST_IS}}}'),
        asks(7, "tools/list", "[]"),
        asks(8, "tools/list", '{"cursor":"x"}'),
        asks(9, "tools/call"),
        asks(10, "tools/call", '{"name":"count"}'),
        asks(11, "tools/call", '{"name":"paint","arguments":{"text":"a"}}'),
        asks(12, "tools/call", '{"name":"count","arguments":{"text":5}}'),
        asks(13, "tools/call", '{"name":"count","arguments":{}}'),
        asks(14, "tools/call", '{"name":"count","arguments":{"text":"one two"}}'),
    ],
    [
        error(1, -32600, "initialize comes first"),
        error(2, -32602, "params: invalid type: null, expected struct Initialize"),
        error(3, -32602, "params.protocolVersion: invalid type: integer `5`, expected a string"),
        error(4, -32602, "params.clientInfo: missing field `version`"),
        result(5, AGREED),
        error(6, -32600, "initialize came before"),
        error(7, -32602, "params: invalid type: sequence, expected a map"),
        error(8, -32602, "params.cursor: nobody gave it, since there is one page"),
        error(9, -32602, "params: invalid type: null, expected struct ToolCall"),
        error(10, -32602, "params: missing field `arguments`"),
        error(11, -32602, "params.name: unknown variant `paint`, expected `count` or `title`"),
        error(12, -32602, "params.arguments.text: invalid type: integer `5`, expected a string"),
        error(13, -32602, "params.arguments: missing field `text`"),
        result(14, COUNTED),
    ],
    0,
)

# The folder of the spelling servers' sessions with editors

SPELT = {
    "notes.txt": "Roses are red.\nVoilets are are blue.\nThey are.\n",
    "words.txt": "and are blue not red roses they violets",
}
