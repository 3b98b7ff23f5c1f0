"""The references of the languages, which are made of what their sources say: docstrings of the Python package, the comments
of the C header, those of the declarations for TypeScript, and the first lines of each crate."""
from __future__ import annotations

import ast
import os
import re
from typing import Callable, Iterator, NamedTuple, Optional, Union

from tools.repository import TOP, read_text

FOLDER = "docs/reference"
PYTHON, HEADER, TYPES = "bindings/python/bullmyrtle", "include/bullmyrtle.h", "bindings/node/types"
MADE = "Made by `bin/reference` from {}: change it there.\n"
Function = Union[ast.FunctionDef, ast.AsyncFunctionDef]


class Row(NamedTuple):
    """What a reference says of one thing: how it is written, and what it is."""

    code: str
    about: str


def table(rows: list[Row]) -> str:
    """Rows as Markdown has them; nothing where there are none."""
    lines = [f"| `{cell(it.code)}` | {plain(cell(it.about))} |" for it in rows]
    return "\n".join(["| | |", "|---|---|", *lines, ""]) if rows else ""


def cell(text: str) -> str:
    """A text in one line, in which no bar ends the cell."""
    return re.sub(r"\s+", " ", text).strip().replace("|", "\\|")


def plain(text: str) -> str:
    """A text in which no star begins what is emphasized."""
    return re.sub(r"(?<![\w`])\*(?=\w)", r"\\*", text)


def first_paragraph(text: Optional[str]) -> str:
    return (text or "").partition("\n\n")[0]


# Python


class Module(NamedTuple):
    """A file of the package."""

    file: str
    tree: ast.Module

    def definition(self, name: str) -> Optional[Union[ast.ClassDef, Function]]:
        """The class or function of this name, if the file defines one."""
        kinds = (ast.ClassDef, ast.FunctionDef, ast.AsyncFunctionDef)
        found = (it for it in self.tree.body if isinstance(it, kinds) and it.name == name)
        return next((it for it in found if not is_overload(it)), None)

    def places(self) -> dict[str, str]:
        """Of each name that the file imports from beside it, the file that has it."""
        folder = os.path.dirname(self.file)
        found = [it for it in ast.walk(self.tree) if isinstance(it, ast.ImportFrom) and it.level == 1 and it.module]
        return {name.name: f"{folder}/{(it.module or '').replace('.', '/')}.py" for it in found for name in it.names}

    def exported(self) -> list[str]:
        """The names of `__all__`, in the order of the alphabet."""
        lists = [it.value for it in self.tree.body if isinstance(it, ast.Assign) and is_named(it.targets[0], "__all__")]
        return sorted(it.value for it in ast.walk(lists[0]) if isinstance(it, ast.Constant)) if lists else []


def is_named(node: ast.expr, name: str) -> bool:
    return isinstance(node, ast.Name) and node.id == name


def is_overload(of: ast.AST) -> bool:
    """Whether this is a signature for type checkers alone, in front of the function itself."""
    return isinstance(of, (ast.FunctionDef, ast.AsyncFunctionDef)) and any(
        is_named(it, "overload") for it in of.decorator_list
    )


def module(file: str) -> Module:
    return Module(file, ast.parse(read_text(f"{TOP}/{file}")))


def of_python() -> str:
    parts = [
        ("bullmyrtle", "__init__"),
        ("bullmyrtle.lsp", "lsp/__init__"),
        ("bullmyrtle.mcp", "mcp/__init__"),
        ("bullmyrtle.judge", "judge/__init__"),
        ("bullmyrtle.examine", "examine/__init__"),
        ("bullmyrtle.testing", "testing"),
    ]
    texts = ["# Reference: Python\n", MADE.format("the docstrings of `bindings/python/bullmyrtle`")]
    for name, file in parts:
        texts += [f"## {name}\n", *of_module(module(f"{PYTHON}/{file}.py"))]
    return "\n".join(texts)


def of_module(of: Module) -> Iterator[str]:
    """The functions of a module in one table, and then each of its classes."""
    places, rows, classes = of.places(), list[Row](), list[str]()
    for name in of.exported():
        place = module(places[name]) if name in places and os.path.isfile(f"{TOP}/{places[name]}") else of
        found = place.definition(name)
        if isinstance(found, ast.ClassDef):
            classes += [f"### {of_class_name(found)}\n", f"{prose(found)}\n", table(members(found, place))]
        elif found:
            rows.append(Row(signature(found), first_paragraph(ast.get_docstring(found))))
    yield table(rows)
    yield from [it for it in classes if it.strip()]


def of_class_name(of: ast.ClassDef) -> str:
    bases = [ast.unparse(it) for it in of.bases if ast.unparse(it) not in ("object", "Base")]
    return f"{of.name}({', '.join(bases)})" if bases else of.name


def prose(of: ast.ClassDef) -> str:
    return re.sub(r"[ \n]+", " ", first_paragraph(ast.get_docstring(of)))


def members(of: ast.ClassDef, place: Module) -> list[Row]:
    """The public methods and attributes of a class, those of its bases in the package too where it has them by name."""
    own = [it for it in of.body if isinstance(it, (ast.FunctionDef, ast.AsyncFunctionDef))]
    shown = [it for it in own if (it.name == "__init__" or not it.name.startswith("_")) and not is_overload(it)]
    rows = [Row(signature(it, of.name), first_paragraph(ast.get_docstring(it))) for it in shown]
    names = {it.name for it in own}
    for base in [it.id for it in of.bases if isinstance(it, ast.Name)]:
        file = place.places().get(base, place.file)
        above = module(file).definition(base) if os.path.isfile(f"{TOP}/{file}") else None
        if isinstance(above, ast.ClassDef) and above is not of and above.name != of.name:
            rows += [it for it in members(above, module(file)) if it.code.split("(")[0] not in names | {above.name}]
    return rows


def signature(of: Function, name: str = "") -> str:
    """How a function is called: its parameters with their defaults, without `self`. A property has none."""
    if any(is_named(it, "property") for it in of.decorator_list):
        return of.name
    arguments = ast.parse(f"def f({ast.unparse(of.args)}): ...").body[0]
    assert isinstance(arguments, ast.FunctionDef)
    for it in [*arguments.args.posonlyargs, *arguments.args.args, *arguments.args.kwonlyargs]:
        it.annotation = None
    if name and arguments.args.args and arguments.args.args[0].arg in ("self", "cls"):
        del arguments.args.args[0]
    called = name if of.name == "__init__" else of.name
    given = ast.unparse(arguments.args)
    return f"{'await ' if isinstance(of, ast.AsyncFunctionDef) else ''}{called}({given})"


# C

CALL = re.compile(r"^/\* ((?:(?!\*/).)*?) \*/\n((?:\w+ )+\**\w+\([^;{]*\));", re.M | re.S)


def of_c() -> str:
    """The calls of the header, each with what its comment says first. (the comments are the header's, word for word)"""
    rows = [Row(it[2], first_sentences(it[1])) for it in CALL.finditer(read_text(f"{TOP}/{HEADER}"))]
    about = "The rules for all calls, the structs and the numbers are in [the header](../../include/bullmyrtle.h).\n"
    return "\n".join(["# Reference: C\n", MADE.format("`include/bullmyrtle.h`"), about, table(rows)])


def first_sentences(comment: str) -> str:
    """What a comment says up to its first codes or example, in one line."""
    text = re.sub(r"\n \*(?: |$)", " ", comment, flags=re.M)
    told, example, _ = text.partition(", as in     ")
    return f"{told}." if example else re.split(r"(?<=\.) BM_\w+[:,.]", text)[0].strip()


# TypeScript

DECLARED = re.compile(
    r"^/\*\* ((?:(?!\*/).)*?) \*/\nexport (?:declare )?((?:class|function|interface|const|type) [^\n{=]*)", re.M | re.S
)
MEMBER = re.compile(r"^  /\*\* ((?:(?!\*/).)*?) \*/\n  ([^\n]+)", re.M | re.S)
WAYS_IN = (
    ("bullmyrtle", "index"),
    ("bullmyrtle/lsp", "language_server"),
    ("bullmyrtle/mcp", "mcp"),
    ("bullmyrtle/testing", "testing"),
)


def of_node() -> str:
    texts = ["# Reference: Node.js\n", MADE.format("the comments of `bindings/node/types`")]
    about = "Listed is what has a comment there; the rest has the names of vscode-jsonrpc, vscode-languageserver and MCP's SDK.\n"
    texts.append(about)
    for name, file in WAYS_IN:
        texts += [f"## {name}\n", table(declared(read_text(f"{TOP}/{TYPES}/{file}.d.ts")))]
    return "\n".join(texts)


def declared(text: str) -> list[Row]:
    """What a file declares with a comment, and the members that have one behind the name of what they belong to."""
    rows = []
    for block in re.split(r"\n(?=/\*\*|export )", text):
        it = DECLARED.match(block)
        if it:
            rows.append(Row(it[2], uncommented(it[1])))
        named = re.search(r"^export (?:declare )?(?:class|interface|namespace) (\w+)", block, re.M)
        owner = f"{named[1]}." if named else ""
        rows += [Row(f"{owner}{shortened(found[2])}", uncommented(found[1])) for found in MEMBER.finditer(block)]
    return rows


def uncommented(text: str) -> str:
    return re.sub(r"\n *\* ?", " ", text)


def shortened(member: str) -> str:
    """A member without its type's end in the next lines."""
    return re.sub(r"^(?:readonly|get|static) ", "", member).rstrip(" {(;")


# The crates


def of_crates() -> str:
    """The crates by the groups of crates.txt, each with the first sentence of its sources."""
    texts = ["# The crates\n", MADE.format("`crates.txt` and the first lines of each crate")]
    for group, names in groups(read_text(f"{TOP}/crates.txt")).items():
        rows = "\n".join(f"| [{it}](../../crates/{it}) | {cell(first_sentence(it))} |" for it in names)
        texts += [f"## {group[0].upper()}{group[1:]}\n", f"| | |\n|---|---|\n{rows}\n"]
    return "\n".join(texts)


def groups(listing: str) -> dict[str, list[str]]:
    """The crates of each group, in the order of their list."""
    found: dict[str, list[str]] = {}
    for heading, crate in re.findall(r"^# == ([^:\n]*)|^(\w+):", listing, re.M):
        if heading:
            found[heading] = []
        else:
            found[[*found][-1]].append(crate)
    return found


def first_sentence(crate: str) -> str:
    file = next(it for it in (f"{TOP}/crates/{crate}/src/{name}.rt" for name in ("lib", "main")) if os.path.isfile(it))
    text = " ".join(re.findall(r"^//! ?(.*)$", read_text(file).partition("\n\n")[0], re.M))
    return re.split(r"(?<=\.) |  ", text)[0].rstrip(".")


PAGES: dict[str, Callable[[], str]] = {"python": of_python, "c": of_c, "node": of_node, "crates": of_crates}


def stale() -> list[str]:
    """The pages that aren't what the sources make."""
    return [it for it in PAGES if not os.path.isfile(place(it)) or read_text(place(it)) != PAGES[it]()]


def write() -> list[str]:
    """Writes the pages that are stale, and gives their names."""
    os.makedirs(f"{TOP}/{FOLDER}", exist_ok=True)
    names = stale()
    for it in names:
        with open(place(it), "w", encoding="utf-8") as file:
            file.write(PAGES[it]())
    return names


def place(name: str) -> str:
    return f"{TOP}/{FOLDER}/{name}.md"
