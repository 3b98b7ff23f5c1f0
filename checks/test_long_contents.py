"""Long contents. Of a call that comes alone in one, the params are made only where the table has its method: else they are
checked and passed by. So each row is played once more with contents that are long by their blanks, which change
nothing; and params of every kind, long ones, come with methods that there are and that there aren't."""

import re

import pytest

from support import ran, rows
from support.expecting import same
from support.long_contents import LONG
from support.naming import named

HEAD = re.compile(rb"Content-Length: (\d+)\r\n\r\n")
# A text that makes a content long, and blanks of three kinds that do.
TEXT = "x" * LONG
BLANKS = " \t\r" * (LONG // 3 + 1)
PARSE_ERROR = '{"error":{"code":-32700,"message":"Parse error"},"id":null,"jsonrpc":"2.0"}'
INVALID_REQUEST = '{"error":{"code":-32600,"message":"Invalid Request"},"id":null,"jsonrpc":"2.0"}'
NOT_FOUND = rows.failed(-32601, "Method not found", 1)
INVALID_PARAMS = rows.failed(-32602, "Invalid params", 1)

# What no reader of RFC 8259 takes, in a string or between values: each stands at the end of long params.
NO_JSON = {
    "a lone half of a pair": r'"\ud800"',
    "a second half alone": r'"\udc00"',
    "two first halves": r'"\ud800\ud800"',
    "an escape that isn't one": r'"\x41"',
    "three digits": r'"\u123"',
    "a line feed in a string": '"\n"',
    "a string without its end": '"',
    "a form feed between values": "1,\f2",
    "a blank beyond ASCII": "1,\u00a02",
    "a blank in a number": "1 2",
    "a zero before a digit": "01",
    "a plus": "+1",
    "a point without digits": "1.",
    "an exponent without digits": "1e",
    "a minus alone": "-",
    "a word that isn't one": "nul",
    "a comma before the bracket": "1,",
    "two commas": "1,,2",
    "a name without a colon": '{"a" 1}',
    "a name that is no string": "{a:1}",
    "a brace for a bracket": "[1}",
    "an array without its end": "[",
    "a number beyond any float": "1e400",
    "128 levels": "[" * 126 + "]" * 126,
}
# What each reader takes.
JSON = {
    "a pair": r'"\ud83d\ude00"',
    "each escape": r'"\"\\\/\b\f\n\r\t\u00e9"',
    "an escaped name": r'{"\u0061":1,"a":2}',
    "blanks of each kind": " [ 1 ,\t2 ,\n3 ,\r4 ] ",
    "numbers": "0,-0,1.5,1e3,1E-3,-12.5e+2,18446744073709551615,18446744073709551616",
    "words": "true,false,null",
    "empty ones": '{},[],""',
    "127 levels": "[" * 125 + "]" * 125,
}


def request(params: str, method: str = "nope", first: str = "") -> str:
    return '{%s"jsonrpc":"2.0","id":1,"method":"%s","params":%s}' % (first, method, params)


def played(contents: list[str], output: list[str], *words: str) -> None:
    table, given = rows.file_of(rows.METHODS), rows.frames(*contents)
    same(ran.run(["play", "--table", table, *words], given), (0, rows.frames(*output), b""), f"played {words}")


def expect(contents: list[str], output: list[str]) -> None:
    """What is played, with all in one piece and cut, and served."""
    for words in ((), ("--lazy",), ("--piece", "1000")):
        played(contents, output, *words)
    served = ["serve", "--workers", "2", "--table", rows.file_of(rows.METHODS)]
    same(ran.run(served, rows.frames(*contents)), (0, rows.frames(*output), b""), "served")


# Each row once more


@pytest.mark.parametrize("row", named(it for it in rows.PLAYS))
def test_played_with_blanks(row: rows.Play) -> None:
    """The contents of a row, each with blanks before it."""
    _, table, ways, given, output = row
    long = [BLANKS.replace("\r", " ") + it for it in given]
    for way in ways:
        words = ["play", "--lines", "--table", rows.file_of(table), *way]
        same(ran.run(words, rows.lines(*long)), (0, rows.lines(*output), b""), f"{way}")


def split(given: bytes) -> list[bytes]:
    """The contents of frames whose heads are usual ones; none where one isn't."""
    contents, at = [], 0
    while head := HEAD.match(given, at):
        at = head.end() + int(head[1])
        contents.append(given[head.end() : at])
    return contents if at == len(given) else []


@pytest.mark.parametrize("row", named(it for it in rows.ROWS if it[3] == "" and split(it[1])))
def test_read_with_blanks(row: tuple[str, bytes, bytes, str]) -> None:
    """The contents of a row without methods, each with blanks about it."""
    _, given, output, _ = row
    blanks = BLANKS.encode()
    long = rows.frames(*(blanks + it + blanks for it in split(given)))
    same(ran.run(["play"], long), (0, output, b""), "played")


# Params


@pytest.mark.parametrize("name", NO_JSON)
@pytest.mark.parametrize("method", ("nope", "add", "$/progress", "$/cancelRequest"))
def test_what_is_no_json(name: str, method: str) -> None:
    params = '["%s",%s]' % (TEXT, NO_JSON[name])
    expect([request(params, method)], [PARSE_ERROR])


@pytest.mark.parametrize("name", NO_JSON)
def test_what_is_no_json_among_members(name: str) -> None:
    """As a member of an object, before the method."""
    params = '{"a":"%s","b":%s}' % (TEXT, NO_JSON[name])
    expect(['{"params":%s,"jsonrpc":"2.0","id":1,"method":"nope"}' % params], [PARSE_ERROR])


@pytest.mark.parametrize("name", JSON)
def test_methods_that_there_are_not(name: str) -> None:
    for params in ('["%s",%s]', '[%s,"%s"]'):
        text = params % ((TEXT, JSON[name]) if params.startswith('["') else (JSON[name], TEXT))
        expect([request(text), request(text, "$/progress")], [NOT_FOUND, NOT_FOUND])


def test_methods_that_there_are() -> None:
    """The values are made where a method reads them."""
    expect([request(f"[2,3{BLANKS}]", "add")], [rows.answered("5", 1)])
    expect([request(f'["{TEXT}",1.5]', "add")], [INVALID_PARAMS])
    asked = request(f'["{TEXT}"]', "ask")
    call = '{"id":"1.1","jsonrpc":"2.0","method":"confirm","params":["%s"]}' % TEXT
    expect([asked, rows.replied("1.1")], [call, rows.answered("true", 1)])


def test_params_that_are_neither() -> None:
    """Null counts as omitted, and what is no array and no object makes the request invalid."""
    expect([request("null" + BLANKS)], [NOT_FOUND])
    for params in ("1", "true", f'"{TEXT}"'):
        expect([request(params + BLANKS)], [INVALID_REQUEST])


def test_members_that_come_twice() -> None:
    """The last member of a name counts, whatever was made of the others."""
    expect([request(f'["{TEXT}"],"params":[2,3],"method":"add"')], [rows.answered("5", 1)])
    expect([request(f'[2,3],"params":["{TEXT}"],"method":"nope"', "add")], [NOT_FOUND])
    expect([request(f'["{TEXT}"],"params":1')], [INVALID_REQUEST])


def test_methods_that_seem_others() -> None:
    """What stands in the first bytes and looks like the method, and where these end within a character."""
    head = '{"jsonrpc":"2.0","id":1,'
    for inner, method, params, output in (
        ("add", "nope", '"%s"' % TEXT, NOT_FOUND),
        ("nope", "add", '"%s"' % TEXT, INVALID_PARAMS),
        ('add","more":"', "nope", '"%s"' % TEXT, NOT_FOUND),
    ):
        expect([head + '"params":{"method":"%s","b":%s},"method":"%s"}' % (inner, params, method)], [output])
    for count in range(240, 260):
        late = '"more":"%s中","method":"%s","params":["%s"]}'
        for method, output in (("add", INVALID_PARAMS), ("nope", NOT_FOUND)):
            expect([head + late % ("m" * (count - len(head) - 8), method, TEXT)], [output])
    expect([head + '"method":"ad\\u0064","params":[2,3],"more":"%s"}' % TEXT], [rows.answered("5", 1)])


def test_cancels() -> None:
    """A long cancel names its request, wherever its method stands."""
    for text in (
        '{"jsonrpc":"2.0","method":"$/cancelRequest","params":{"id":7,"why":"%s"}}' % TEXT,
        '{"params":{"why":"%s","id":7},"method":"$/cancelRequest","jsonrpc":"2.0"}' % TEXT,
        '{"jsonrpc":"2.0","method":"nope","params":{"id":7,"why":"%s"},"method":"$/cancelRequest"}' % TEXT,
        '{"jsonrpc":"2.0","method":"$\\/cancelRequest","params":{"id":7,"why":"%s"}}' % TEXT,
    ):
        played([rows.ask(), text], [rows.called("1.1"), rows.withdrawn("1.1"), rows.CANCELLED])
        played([rows.ask(), text], [rows.CANCELLED], "--lazy")


@pytest.mark.parametrize("length", (LONG - 1, LONG, LONG + 1))
def test_at_the_border(length: int) -> None:
    """Just below the length from which on a content is long, at it and above."""
    for method, last, output in (
        ("nope", "1", NOT_FOUND),
        ("nope", "1e400", PARSE_ERROR),
        ("add", "1", INVALID_PARAMS),
    ):
        bare = request('["",%s]' % last, method)
        content = request('["%s",%s]' % ("x" * (length - len(bare)), last), method)
        same(len(content), length, "the content's length")
        expect([content], [output])


def test_batches() -> None:
    """Of a batch each call has its params, however long it is."""
    sums = ['{"jsonrpc":"2.0","method":"add","params":[%d,1],"id":%d}' % (it, it) for it in range(1, 2 + LONG // 50)]
    note = '{"jsonrpc":"2.0","id":0,"method":"nope","params":["%s"]}' % TEXT
    answers = [rows.answered(str(it + 1), it) for it in range(1, 2 + LONG // 50)]
    expect([rows.batch(*sums, note)], [rows.batch(*answers, rows.failed(-32601, "Method not found", 0))])
