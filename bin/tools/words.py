"""The words that pages and texts of programs must not have, each with what stands in its place: the words of JSON-RPC, LSP and
MCP, and plain English. Names of code and what is quoted as code aren't looked at."""
from __future__ import annotations

import ast
import re
from typing import Iterator, TypeGuard, Union

from tools.repository import TOP, read_text

# A pattern, and what to write.
INSTEAD = {
    r"how-manieth": "index",
    r"whole numbers?": "integer",
    r"head lines?": "header",
    r"foreign": "not UTF-8",
    r"(?<!which )(?:is|are|was|were|isn't|aren't) told(?! (?:of|about|how|why|whether|that|which|what|so|apart|from|to|the|both|where|when)\b)": "is reported",
    r"one of more": "a longer one",
    r"but for": "except for, without",
    r"whoever": "anyone who",
    r"for want of memory": "out of memory",
    r"be it": "whether",
    r"broken (?:contents?|input)": "invalid message",
    r"calls? of (?:ours|theirs)": "outgoing request, incoming request",
    r"what came": "what was received",
    r"comes? in(?= |,|\.|;|:)(?! (?:a|an|the|one|this|that|its|pieces?|turn|order|between|lines?|frames?|which|both)\b)": "is received",
    r"if you (?:say nothing|don't say)": "by default",
    r"(?<!there )(?:is|are) (?-i:none)(?! of\b)": "isn't, aren't",
    r"wings?|floors?": "part, layer",
}
FORM = re.compile(rf"\b(?:{'|'.join(f'({it})' for it in INSTEAD)})\b", re.I)
QUOTED = re.compile(r"^```.*?^```$|^    [^\n]*$|`[^`]*`|\]\([^)]*\)|<!--.*?-->", re.M | re.S)
SHOWN = 40
Documented = Union[ast.Module, ast.ClassDef, ast.FunctionDef, ast.AsyncFunctionDef]


def found_in(text: str) -> Iterator[tuple[int, str, str]]:
    """Where a word stands that must not: its line, the word, and what to write."""
    blank = QUOTED.sub(lambda it: re.sub(r"[^\n]", " ", it[0]), text)
    for it in FORM.finditer(blank):
        number = next(at for at, group in enumerate(it.groups()) if group)
        yield blank.count("\n", 0, it.start()) + 1, it[0], [*INSTEAD.values()][number]


def texts_of(file: str) -> Iterator[tuple[int, str]]:
    """The texts in a file of Python that people read, each with the line on which it begins: messages and help, and the
    docstrings of what is public."""
    tree = ast.parse(read_text(f"{TOP}/{file}"))
    inside = {
        id(it.body[0].value) for it in ast.walk(tree) if is_private(it, file) and isinstance(it.body[0], ast.Expr)
    }
    for it in ast.walk(tree):
        if isinstance(it, ast.Constant) and isinstance(it.value, str) and id(it) not in inside:
            yield it.lineno, it.value


def is_private(node: ast.AST, file: str) -> TypeGuard[Documented]:
    """Whether something has a docstring for those alone who change the code."""
    if not isinstance(node, (ast.Module, ast.ClassDef, ast.FunctionDef, ast.AsyncFunctionDef)):
        return False
    name = getattr(node, "name", "")
    return ast.get_docstring(node) is not None and ("/_" in file or "." not in file or name.startswith("_"))


def faults(files: list[str]) -> str:
    """What stands in some files that must not, or nothing."""
    told = []
    for file in files:
        for first, text in [(1, read_text(f"{TOP}/{file}"))] if file.endswith(".md") else texts_of(file):
            told += [f"{file}:{first + line - 1}: {word!r}: {it}" for line, word, it in found_in(text)]
    more = [f".. and {len(told) - SHOWN} more"] if len(told) > SHOWN else []
    return "\n".join([*told[:SHOWN], *more])
