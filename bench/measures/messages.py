"""Long messages, as editors and language servers write them: what stands in their params, and how they are spelled."""
import json
import random
from typing import Any, Callable, Iterable, Iterator, NamedTuple

Params = Callable[[int], Any]
Spelling = Callable[[Any], bytes]
# So many bytes a message has, or some more.
LENGTH = 1_000_000
# Stands for a message's id until it is spelled.
ID = 1_234_567_890
LINES = (
    "def method_{0}(self, value: int) -> str:\n"
    '    """Returns the "{0}"-th value."""\n'
    '\tprint("C:\\\\values\\\\{0}\\n")\n'
    "    return value + {0}\n\n"
)
PROSE = "Ünïcödé 中文字符 данные — 'quoted'\n\t\"x\" "


# How a message is spelled


def compact(value: Any) -> bytes:
    return json.dumps(value, separators=(",", ":"), ensure_ascii=False).encode()


def escaped(value: Any) -> bytes:
    """Compact, with all that is beyond ASCII as `\\u`."""
    return json.dumps(value, separators=(",", ":")).encode()


def spaced(value: Any) -> bytes:
    """With a blank behind each comma and colon, as Python's json writes it."""
    return json.dumps(value, ensure_ascii=False).encode()


def indented(value: Any) -> bytes:
    return json.dumps(value, indent=2, ensure_ascii=False).encode()


# What stands in it: so many bytes, about, where it is compact


def repeated(text: str, length: int) -> str:
    """So many bytes of a text, over and over, and no character in part."""
    encoded = text.encode()
    return (encoded * (1 + length // len(encoded)))[:length].decode(errors="ignore")


def completions(length: int) -> Any:
    """A completion list (LSP 3.17, "Completion Request")."""
    return {"isIncomplete": False, "items": [completion(it) for it in range(max(1, length // 450))]}


def completion(number: int) -> Any:
    place = {"line": 10, "character": 4}, {"line": 10, "character": 8}
    return {
        "label": f"method_{number}",
        "kind": 2,
        "detail": f"def method_{number}(self, value: int) -> Optional[str]",
        "documentation": {
            "kind": "markdown",
            "value": f"Returns the *value*.\n\n```python\nx = method_{number}(1)\n```\n",
        },
        "sortText": f"{number:05}",
        "filterText": f"method_{number}",
        "insertText": f"method_{number}($1)",
        "insertTextFormat": 2,
        "textEdit": {"range": {"start": place[0], "end": place[1]}, "newText": f"method_{number}"},
        "deprecated": False,
        "data": {"id": number, "score": number},
    }


def document(text: str) -> Any:
    return {"textDocument": {"uri": "file:///a.py", "languageId": "python", "version": 1, "text": text}}


def opened(length: int) -> Any:
    """A document that is opened, whose text has quotes, backslashes, tabs and line ends."""
    return document(repeated("".join(map(LINES.format, range(100))), length))


def opened_beyond_ascii(length: int) -> Any:
    return document(repeated(PROSE, length))


def tokens(length: int) -> Any:
    """Semantic tokens (LSP 3.17, "Semantic Tokens"): five numbers each."""
    chance = random.Random(7)
    each = ((0, 0, 0, 1, 2), range(40), range(1, 20), range(20), range(8))
    return {"data": [chance.choice(each[it % 5]) for it in range(length * 10 // 27)]}


class Message(NamedTuple):
    """A row's name, and how its messages are made."""

    name: str
    params: Params
    spelling: Spelling

    def entries(self, length: int, numbers: Iterable[int], method: str = "nope") -> Iterator[bytes]:
        """Requests with these ids, to a method that there isn't where none is named."""
        text = self.spelling({"jsonrpc": "2.0", "method": method, "params": self.params(length), "id": ID})
        return (text.replace(b"%d" % ID, b"%d" % it) for it in numbers)


MESSAGES = (
    Message("completion list", completions, compact),
    Message("list with blanks", completions, spaced),
    Message("list, indented", completions, indented),
    Message("didOpen", opened, compact),
    Message("didOpen with blanks", opened, spaced),
    Message("semantic tokens", tokens, compact),
    Message("tokens with blanks", tokens, spaced),
    Message("beyond ASCII", opened_beyond_ascii, compact),
    Message("beyond ASCII as \\u", opened_beyond_ascii, escaped),
)


def parts_of(size: int) -> "tuple[int, int]":
    """How many messages so many bytes are, and how long each is."""
    return max(1, size // LENGTH), min(size, LENGTH)
