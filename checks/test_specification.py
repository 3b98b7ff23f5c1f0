"""What `spec/` has of LSP and MCP keeps its own rules, what is generated of it is fresh, and tables that are written by
hand elsewhere agree with it. The sources that it is made of aren't needed."""
from __future__ import annotations

import importlib
import json
import sys
from typing import Any, Iterator

import pytest

from support import ran
from support.expecting import check, same

sys.path[:0] = [f"{ran.TOP}/spec", f"{ran.TOP}/bindings/python"]
import generate  # noqa: E402  (it stands in spec/)
from generating import model  # noqa: E402
from making import notation  # noqa: E402

Json = dict[str, Any]

LSP: Json = json.loads(ran.text_of("spec", "lsp.json"))
MCP: Json = json.loads(ran.text_of("spec", "mcp.json"))
# (of the package in bindings/python)
CAPABILITIES = importlib.import_module("bullmyrtle.lsp._capabilities")
SOURCES = {"gopls", "qt", "lsp-mode", "eglot", "hand"}


def types_of(specification: Json) -> Iterator[tuple[str, str]]:
    """Each type of a specification, with its place."""
    for name, it in specification["structures"].items():
        yield from ((f"{name}.{member}", about["type"]) for member, about in it["members"].items())
    yield from specification["unions"].items()
    for name, it in specification["methods"].items():
        yield from ((f"{name} {key}", it[key]) for key in ("params", "result", "partial", "options") if key in it)


def unknown_names(specification: Json) -> list[str]:
    """The names that no structure, union or enumeration defines, with their places."""
    known = {*specification["structures"], *specification["unions"], *specification["enumerations"], *model.PLAIN}
    return [
        f"{place}: {it}"
        for place, text in types_of(specification)
        for it in notation.names(notation.read(text))
        if it not in known
    ]


def test_references_are_closed() -> None:
    same(unknown_names(LSP), [])


@pytest.mark.parametrize("version", MCP["versions"])
def test_versions_of_mcp(version: str) -> None:
    """Each is closed, and a method's params and result are structures of its own or of an older version."""
    specification = model.version_of(MCP, version)
    same(unknown_names(specification), [])
    for place, text in types_of(specification):
        same(notation.written(notation.read(text)), text, place)
    for name, it in specification["methods"].items():
        check(it["to"] in ("server", "client", "both"), f"{name} is sent to {it['to']}")
        same("result" in it, it["kind"] == "request", f"{name}: a request has a result")
        same(it["kind"] == "notification", name.startswith("notifications/"), name)
    for name, it in specification["structures"].items():
        check({*it.get("extends", ())} <= {*specification["structures"]}, f"{name} extends {it.get('extends')}")


# What came with a version: a method or a member of a structure, and what it is there.
CAME = [
    ("2024-11-05", "elicitation/create", None),
    ("2025-06-18", "elicitation/create", "ElicitResult"),
    ("2025-11-25", "elicitation/create", "ElicitResult | CreateTaskResult"),
    ("2025-06-18", "tasks/get", None),
    ("2025-11-25", "tasks/get", "TaskResult"),
    ("2024-11-05", "Tool.annotations?", None),
    ("2025-03-26", "Tool.annotations?", "ToolAnnotations"),
    ("2025-03-26", "CallToolResult.structuredContent?", None),
    ("2025-06-18", "CallToolResult.structuredContent?", "object"),
    ("2025-03-26", "ProgressNotificationParams.message?", "string"),
]


@pytest.mark.parametrize("version, what, expected", CAME)
def test_what_came_with_a_version_of_mcp(version: str, what: str, expected: str | None) -> None:
    specification = model.version_of(MCP, version)
    if "/" in what:
        same(specification["methods"].get(what, {}).get("result"), expected)
    else:
        name, member = what.split(".")
        same(specification["structures"][name]["members"].get(member, {}).get("type"), expected)


def test_a_reference_that_is_not_closed_is_found() -> None:
    hurt = json.loads(json.dumps(LSP))
    hurt["structures"]["Hover"]["members"]["contents"]["type"] = "MarkupContent | MarkdString[]"
    same(unknown_names(hurt), ["Hover.contents: MarkdString"])


@pytest.mark.parametrize("text", ["", "A |", "A[", "{A: B}", "(A", "A B", "[A,]", "A & B", "'open"])
def test_what_is_no_type(text: str) -> None:
    with pytest.raises(ValueError):
        notation.read(text)


def test_types_are_written_as_they_are_read() -> None:
    for place, text in types_of(LSP):
        same(notation.written(notation.read(text)), text, place)


def test_methods() -> None:
    for name, it in LSP["methods"].items():
        check(it["to"] in ("server", "client", "both"), f"{name} is sent to {it['to']}")
        check(it["kind"] in ("request", "notification"), f"{name} is a {it['kind']}")
        same("result" in it, it["kind"] == "request", f"{name}: a request has a result")
        check(it["to"] == "server" or not {"options", "capability"} & {*it}, f"{name} is no server's, and has options")
        check({*it["by"]} <= SOURCES and it["by"], f"{name} is by {it['by']}")


def test_structures() -> None:
    for name, it in LSP["structures"].items():
        check(name.isidentifier(), f"{name} is no name")
        check({*it.get("extends", ())} <= {*LSP["structures"]}, f"{name} extends {it.get('extends')}")
        members = [member for member, _, _ in model.members_of(LSP, name)]
        same(len(members), len({*members}), f"{name} has a member twice")
        for member, about in it["members"].items():
            check({*about["by"]} <= SOURCES and about["by"], f"{name}.{member} is by {about['by']}")


def test_enumerations() -> None:
    for name, it in LSP["enumerations"].items():
        of = str if it["of"] == "string" else int
        check(all(type(value) is of for value in it["values"].values()), f"{name} has values that are no {it['of']}")
        same(len({*it["values"].values()}), len(it["values"]), f"{name} has a value twice")
        check(not {*it["values"]} & {""} and it["values"], f"{name} has no values")


def test_differences_say_which_source_is_believed() -> None:
    for it in LSP["differences"]:
        check({*it} - {"at", "believed"} <= SOURCES and it["believed"] in SOURCES, f"{it}")


# What the text of LSP 3.17 says, in its own sections.
FACTS = [
    ("textDocument/hover", {"to": "server", "kind": "request", "params": "HoverParams", "result": "Hover | null"}),
    ("textDocument/publishDiagnostics", {"to": "client", "kind": "notification", "params": "PublishDiagnosticsParams"}),
    ("window/showMessageRequest", {"to": "client", "kind": "request", "result": "MessageActionItem | null"}),
    ("workspace/diagnostic/refresh", {"to": "client", "kind": "request", "result": "null"}),
    ("$/progress", {"to": "both", "kind": "notification", "params": "ProgressParams"}),
    ("textDocument/documentColor", {"result": "ColorInformation[]", "capability": "colorProvider"}),
    ("textDocument/inlayHint", {"result": "InlayHint[] | null", "options": "InlayHintRegistrationOptions"}),
    ("exit", {"to": "server", "kind": "notification"}),
]
MEMBERS = [
    ("Hover", "contents", "MarkupContent | MarkedString | MarkedString[]"),
    ("Position", "line", "uinteger"),
    ("Diagnostic", "code?", "integer | string"),
    ("InitializeParams", "processId", "integer | null"),
    ("CompletionItem", "documentation?", "string | MarkupContent"),
    ("ParameterInformation", "label", "string | [uinteger, uinteger]"),
    ("TextDocumentEdit", "edits", "(TextEdit | AnnotatedTextEdit)[]"),
    ("SelectionRange", "parent?", "SelectionRange"),
    ("WorkspaceSymbol", "location", "Location | LocationUriOnly"),
]


@pytest.mark.parametrize("method, expected", FACTS, ids=[name for name, _ in FACTS])
def test_method_as_the_text_has_it(method: str, expected: Json) -> None:
    same({key: LSP["methods"][method].get(key) for key in expected}, expected)


@pytest.mark.parametrize("structure, member, expected", MEMBERS)
def test_member_as_the_text_has_it(structure: str, member: str, expected: str) -> None:
    found = notation.read(LSP["structures"][structure]["members"][member]["type"])
    same({*notation.parts(found)}, {*notation.parts(notation.read(expected))})


def test_all_that_is_generated_is_fresh() -> None:
    same(generate.stale(True), [], "to be written by: python3 spec/generate.py")


def test_capabilities_of_the_language_server() -> None:
    """The table by which a server tells its capabilities names those of the specification."""
    for method, (provider, member) in CAPABILITIES._PROVIDERS.items():
        same(provider if member is None else f"{provider}.{member}", LSP["methods"][method].get("capability"), method)
