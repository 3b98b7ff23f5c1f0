"""The rows of checks/played_rows as other scripts go over them, and what inputs and outputs are made of."""
from functools import cache

from support import ran
from support.row_files import frame, rows_of

REQUEST = '{"jsonrpc":"2.0","method":"nope","id":1}'
NOT_FOUND = '{"error":{"code":-32601,"message":"Method not found"},"id":1,"jsonrpc":"2.0"}'
NOT_FOUND_X = '{"error":{"code":-32601,"message":"Method not found"},"id":"x","jsonrpc":"2.0"}'
INVALID = '{"error":{"code":-32600,"message":"Invalid Request"},"id":null,"jsonrpc":"2.0"}'
UNREADABLE = '{"error":{"code":-32700,"message":"Parse error"},"id":null,"jsonrpc":"2.0"}'
NOTICE = '{"jsonrpc":"2.0","method":"nope"}'
MIXED = (
    '[{"jsonrpc":"2.0","method":"add","params":[2,3],"id":1},{"jsonrpc":"2.0","method":"add","params":[4,5]},'
    '{"foo":"boo"},{"jsonrpc":"2.0","method":"nope","id":"x"}]'
)
NOTICES = '[{"jsonrpc":"2.0","method":"add","params":[1,2]},{"jsonrpc":"2.0","method":"nope"}]'


def frames(*contents: str | bytes) -> bytes:
    return b"".join(frame(it) for it in contents)


def lines(*contents: str) -> bytes:
    return "".join(f"{it}\n" for it in contents).encode()


# Methods that add, call the other side, and tell it something: those that the baseline has built in.
METHODS = ran.text_of("bench", "baseline", "methods.toml")

# What a peer calls by itself as it starts, and what it then tells.
OPENING = """version = 2

[[opening]]
kind = "call"
to = "r"
method = "hello"
[[opening]]
kind = "notify"
method = "ready"
params = ["$r"]
"""

# A method that calls the other side for each of its params.
EACH = """version = 2

[[method]]
name = "all"
[[method.step]]
kind = "each"
to = "r"
over = "$params"
method = "f"
[[method.step]]
kind = "answer"
value = "$r"
"""

# Methods with every kind of step.
EVERY = ran.text_of("checks", "played_rows", "every.toml")


@cache
def file_of(table: str) -> str:
    """A file with this table."""
    return ran.file_of(f"table{hash(table)}.toml", table)


def ended(end: str) -> tuple[int, bytes]:
    """The status of a run whose input ended so, "" where it ended clean, and what it says."""
    return (1, f"input ended: {end}\n".encode()) if end else (0, b"")


def ask(number: int = 7) -> str:
    """A request that makes one call."""
    return '{"jsonrpc":"2.0","method":"ask","params":["x"],"id":%d}' % number


def called(key: str) -> str:
    """Its call."""
    return '{"id":"%s","jsonrpc":"2.0","method":"confirm","params":["x"]}' % key


def replied(key: str, result: str = "true") -> str:
    return '{"jsonrpc":"2.0","id":"%s","result":%s}' % (key, result)


def cancel(number: int = 7) -> str:
    return '{"jsonrpc":"2.0","method":"$/cancelRequest","params":{"id":%d}}' % number


def withdrawn(key: str) -> str:
    return '{"jsonrpc":"2.0","method":"$/cancelRequest","params":{"id":"%s"}}' % key


def answered(result: str, number: int = 7) -> str:
    return '{"id":%d,"jsonrpc":"2.0","result":%s}' % (number, result)


def failed(code: int, message: str, number: int = 7) -> str:
    return '{"error":{"code":%d,"message":"%s"},"id":%d,"jsonrpc":"2.0"}' % (code, message, number)


def batch(*entries: str) -> str:
    return "[" + ",".join(entries) + "]"


NO_REPLY = failed(-32000, "No reply")
CANCELLED = failed(-32800, "Request cancelled")
TWO_CALLS = batch('{"id":"1.1","jsonrpc":"2.0","method":"a"}', '{"id":"1.2","jsonrpc":"2.0","method":"b"}')
HELLO = '{"id":"0.1","jsonrpc":"2.0","method":"hello"}'

# The tables by which rows are played.
TABLES = {"none": None, "methods": METHODS, "opening": OPENING, "each": EACH, "every": EVERY}
OPTIONS: dict[str, list[str]] = {"eager": [], "lazy": ["--lazy"], "last": ["--last"]}
# Of a peer without methods: name, input, output, how the input ends ("" where it ends clean). (Long streams are for
# test_played_rows.py alone.)
ROWS = [
    (it.name, it.stream, it.outputs[0], it.end.replace("Clean", ""))
    for file in ("messages", "heads", "depths")
    for it in rows_of(file)[1]
    if len(it.stream) < 10_000
]


# Name, table, options under which it holds, contents in, contents out.
Play = tuple[str, str, list[list[str]], list[str], list[str]]


def plays_of(file: str) -> list[Play]:
    """Of a file's rows those of contents alone: name, table, the options under which it holds, contents in, contents
    out."""
    (table,), found = rows_of(file)
    ways = [(it, [OPTIONS[way] for way in it.ways if way in OPTIONS]) for it in found if it.is_of_contents]
    return [(it.name, TABLES[table] or "", options, it.given, it.contents) for it, options in ways if options]


# Of a peer with the methods of a table.
PLAYS = [it for file in ("plain", "calls", "cancels", "opening", "each") for it in plays_of(file)]
