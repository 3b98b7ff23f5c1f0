"""Whole sessions with language servers, through the driver of the judge: all that a server says that it can is asked, at
the beginning of each word of a file, by a client that can do nothing more and by one that can do much."""
from __future__ import annotations

import asyncio
import functools
import json
import os
import re
import shutil
import sys
import tempfile
from typing import Any, Iterator, NamedTuple

from bullmyrtle import Client, Closed, Error, Unanswered  # type: ignore[import]
from bullmyrtle._specified import Specified  # type: ignore[import]
from bullmyrtle.judge import Recording, Talk  # type: ignore[import]
from bullmyrtle.judge._rules import LEVELS  # type: ignore[import]
from bullmyrtle.lsp._model import MODEL  # type: ignore[import]

from .repository import TOP

# How many words of a file are asked about, how many results of a request are resolved, how long a request may take, and
# how long a server may be silent before it is asked.
MOST_WORDS, MOST_RESOLVED, SECONDS, PAUSE = 12, 3, 60, 3.0
SOURCES = f"{TOP}/examples/judge/sources"
TYPES = Specified(MODEL)
WORD = re.compile(r"\w+")
FORMATS = ["markdown", "plaintext"]
TOKENS = ["namespace", "type", "class", "enum", "struct", "parameter", "variable", "property", "function", "method"]
RESOLVED = {"properties": ["documentation", "detail", "additionalTextEdits", "edit", "command"]}
#: What an editor can do that can do much.
CAPABILITIES: dict[str, Any] = {
    "general": {"positionEncodings": ["utf-16"]},
    "window": {"workDoneProgress": True, "showDocument": {"support": True}},
    "workspace": {
        "configuration": True,
        "workspaceFolders": True,
        "applyEdit": True,
        "workspaceEdit": {"documentChanges": True, "resourceOperations": ["create", "rename", "delete"]},
        "symbol": {"symbolKind": {"valueSet": [*range(1, 27)]}},
    },
    "textDocument": {
        "synchronization": {"willSave": True, "willSaveWaitUntil": True, "didSave": True},
        "hover": {"contentFormat": FORMATS},
        "completion": {
            "completionItem": {
                "snippetSupport": True,
                "documentationFormat": FORMATS,
                "deprecatedSupport": True,
                "labelDetailsSupport": True,
                "insertReplaceSupport": True,
                "resolveSupport": RESOLVED,
                "tagSupport": {"valueSet": [1]},
            },
            "completionItemKind": {"valueSet": [*range(1, 26)]},
            "contextSupport": True,
        },
        "signatureHelp": {
            "signatureInformation": {
                "documentationFormat": FORMATS,
                "parameterInformation": {"labelOffsetSupport": True},
                "activeParameterSupport": True,
            }
        },
        **{it: {"linkSupport": True} for it in ("declaration", "definition", "typeDefinition", "implementation")},
        "documentSymbol": {"hierarchicalDocumentSymbolSupport": True, "tagSupport": {"valueSet": [1]}},
        "codeAction": {
            "codeActionLiteralSupport": {"codeActionKind": {"valueSet": ["", "quickfix", "refactor", "source"]}},
            "isPreferredSupport": True,
            "dataSupport": True,
            "resolveSupport": RESOLVED,
        },
        "rename": {"prepareSupport": True},
        "foldingRange": {"lineFoldingOnly": False},
        "publishDiagnostics": {"relatedInformation": True, "codeDescriptionSupport": True, "dataSupport": True},
        "callHierarchy": {},
        "typeHierarchy": {},
        "semanticTokens": {
            "requests": {"range": True, "full": {"delta": True}},
            "tokenTypes": TOKENS,
            "tokenModifiers": ["declaration", "static"],
            "formats": ["relative"],
        },
        "inlayHint": {},
        "diagnostic": {"relatedDocumentSupport": True},
        "linkedEditingRange": {},
        "documentLink": {"tooltipSupport": True},
        "colorProvider": {},
    },
}
#: The methods by which a result's items are asked for more.
BEHIND = {
    "textDocument/completion": ["completionItem/resolve"],
    "textDocument/codeAction": ["codeAction/resolve"],
    "textDocument/codeLens": ["codeLens/resolve"],
    "textDocument/documentLink": ["documentLink/resolve"],
    "textDocument/inlayHint": ["inlayHint/resolve"],
    "workspace/symbol": ["workspaceSymbol/resolve"],
    "textDocument/prepareCallHierarchy": ["callHierarchy/incomingCalls", "callHierarchy/outgoingCalls"],
    "textDocument/prepareTypeHierarchy": ["typeHierarchy/supertypes", "typeHierarchy/subtypes"],
}
# What isn't asked: what a server does by them isn't known beforehand, or they are asked elsewhere.
LEFT_OUT = {"initialize", "shutdown", "workspace/executeCommand"}
LEFT_OUT |= {f"workspace/will{it}Files" for it in ("Create", "Rename", "Delete")}
LEFT_OUT |= {it for some in BEHIND.values() for it in some}


class Source(NamedTuple):
    """A file that a server is asked about."""

    path: str
    language: str

    @property
    def text(self) -> str:
        with open(self.path, encoding="utf-8") as file:
            return file.read()

    def words(self) -> Iterator[dict[str, int]]:
        """The places of some words, from all parts of the text."""
        found = [
            {"line": line, "character": it.start() + 1 if len(it[0]) > 1 else it.start()}
            for line, text in enumerate(self.text.splitlines())
            for it in WORD.finditer(text)
        ]
        yield from found[:: len(found) // MOST_WORDS + 1]

    @property
    def whole(self) -> dict[str, Any]:
        lines = self.text.splitlines()
        return {"start": {"line": 0, "character": 0}, "end": {"line": len(lines) - 1, "character": len(lines[-1])}}


def params_of(method: str, source: Source, at: dict[str, int]) -> dict[str, Any]:
    """The params of a method, of all that may be in them."""
    options = {"tabSize": 4, "insertSpaces": True}
    contexts: dict[str, dict[str, Any]] = {
        "textDocument/completion": {"triggerKind": 1},
        "textDocument/references": {"includeDeclaration": True},
        "textDocument/codeAction": {"diagnostics": []},
        "textDocument/signatureHelp": {"triggerKind": 1, "isRetrigger": False},
        "textDocument/inlineValue": {"frameId": 1, "stoppedLocation": source.whole},
    }
    known = {
        "textDocument": {"uri": f"file://{source.path}"},
        "position": at,
        "positions": [at],
        "range": source.whole,
        "context": contexts.get(method),
        "newName": "renamed",
        "options": options,
        "ch": ";",
        "query": "w",
        "reason": 1,
        "previousResultId": "0",
        "previousResultIds": [],
        "color": {"red": 1, "green": 0.5, "blue": 0, "alpha": 1},
    }
    type_ = MODEL.methods[method][1]
    members = {it[0] for it in TYPES.members(type_)} if isinstance(type_, str) else set[str]()
    # (a result's id is the server's, and nobody has it in the first request)
    return {name: it for name, it in known.items() if name in members and it is not None}


class Session:
    """A session with one server."""

    def __init__(self, client: Any, source: Source) -> None:
        self._client, self._source = client, source
        self._version = 1

    async def run(self, root: str, capabilities: dict[str, Any]) -> None:
        uri, text = f"file://{self._source.path}", self._source.text
        folder = {"uri": f"file://{root}", "name": "words"}
        about: dict[str, Any] = {"processId": os.getpid(), "rootUri": folder["uri"], "rootPath": root}
        answer = await self._client.call(
            "initialize", {**about, "workspaceFolders": [folder], "capabilities": capabilities}
        )
        self._client.notify("initialized", {})
        document = {"uri": uri, "languageId": self._source.language, "version": 1, "text": text}
        self._client.notify("textDocument/didOpen", {"textDocument": document})
        await asyncio.sleep(PAUSE)
        await self._ask_all(answer.get("capabilities") or {})
        for changed in (f"{text}\n)(\n", text):
            self._version += 1
            about_it = {"uri": uri, "version": self._version}
            self._client.notify(
                "textDocument/didChange", {"textDocument": about_it, "contentChanges": [{"text": changed}]}
            )
            self._client.notify("textDocument/didSave", {"textDocument": {"uri": uri}})
            await asyncio.sleep(PAUSE)
        self._client.notify("textDocument/didClose", {"textDocument": {"uri": uri}})

    async def _ask_all(self, capabilities: dict[str, Any]) -> None:
        for method in self._methods(capabilities):
            places = list(self._source.words())
            has_place = "position" in params_of(method, self._source, places[0])
            for at in places if has_place or method == "textDocument/selectionRange" else places[:1]:
                result = await self._ask(method, params_of(method, self._source, at))
                for behind in BEHIND.get(method, ()):
                    if is_told(behind, capabilities):
                        await self._ask_behind(behind, result)

    @staticmethod
    def _methods(capabilities: dict[str, Any]) -> Iterator[str]:
        """What the server says that it can."""
        for method, (to, _, _) in MODEL.methods.items():
            if to in ("server", "both") and method not in LEFT_OUT and is_told(method, capabilities):
                yield method

    async def _ask_behind(self, method: str, result: Any) -> None:
        items = result.get("items") if isinstance(result, dict) else result
        for it in items[:MOST_RESOLVED] if isinstance(items, list) else ():
            await self._ask(method, it if method.endswith("resolve") else {"item": it})

    async def _ask(self, method: str, params: Any) -> Any:
        try:
            return await asyncio.wait_for(self._client.call(method, params), SECONDS)
        except (Error, asyncio.TimeoutError):  # (an error has no shape)
            return None


def is_told(method: str, capabilities: dict[str, Any]) -> bool:
    """Whether a server's capabilities tell of a method."""
    place: Any = capabilities
    for name in capabilities_of().get(method, "").split("."):
        place = place.get(name) if name and isinstance(place, dict) else None
    return bool(place) or place == {}


@functools.lru_cache(maxsize=None)
def capabilities_of() -> dict[str, str]:
    """The capability that tells of each request."""
    with open(f"{TOP}/spec/lsp.json", encoding="utf-8") as file:
        methods = json.load(file)["methods"]
    return {name: it.get("capability", "") for name, it in methods.items() if it["kind"] == "request"}


# A session from its start to its end


def client_of(command: list[str], record: str) -> Any:
    """A client whose server runs behind the driver, which says on standard error what it finds, and is read here."""
    words = [sys.executable, "-m", "bullmyrtle.judge", "--record", record, "--", *command]
    client = Client(words, protocol="lsp", grace=SECONDS, stderr=lambda data: None)
    client.method("workspace/configuration")(lambda params: [None for _ in params["items"]])
    client.method("workspace/workspaceFolders")(lambda params: None)
    client.method("workspace/applyEdit")(lambda params: {"applied": False})
    for it in ("client/registerCapability", "client/unregisterCapability", "window/workDoneProgress/create"):
        client.method(it)(lambda params: None)
    for it in ("codeLens", "semanticTokens", "inlayHint", "inlineValue", "diagnostic"):
        client.method(f"workspace/{it}/refresh")(lambda params: None)
    client.method("window/showMessageRequest")(lambda params: None)
    for it in ("textDocument/publishDiagnostics", "window/logMessage", "window/showMessage", "$/progress"):
        client.method(it)(lambda params: None)
    return client


async def session(command: list[str], source: Source, root: str, record: str, capabilities: dict[str, Any]) -> None:
    async with client_of(command, record) as client:
        await Session(client, source).run(root, capabilities)
        await asyncio.wait_for(client.call("shutdown"), SECONDS)
        client.notify("exit")


class Shape(NamedTuple):
    """What is wrong with the shape of something, and how often."""

    level: str
    side: str
    rule: str
    words: str
    times: int


def shapes_in(record: str) -> tuple[list[Shape], int]:
    """What a recording has of wrong shapes, and how many messages of the server's."""
    with open(record, "rb") as file:
        recording = Recording(file)
        talk, found = Talk(recording.rules, recording.framing, shapes=True), list[Any]()
        for it in recording:
            found += talk.ended(it.side, it.ended, it.at) if it.ended else talk.saw(it.side, it.data, it.at)
        talk.close()
    counts = {line.rpartition(": ")[0]: line.rpartition(": ")[2].split()[0] for line in talk.alike()}
    shapes = [shape_of(it, counts) for it in found if it.rule.startswith("shape")]
    return shapes, talk.sides["server"].messages


def shape_of(it: Any, counts: dict[str, str]) -> Shape:
    words = it.words.partition(': {"')[0]
    method, _, rest = words.partition(": ")
    place = re.sub(r"\[(?:[^\]\"]|\"[^\"]*\")*\]", "[..]", rest.split(" ", 1)[0])
    times = counts.get(f"{it.rule}: {it.side}, {method}: {place}", "1").replace(",", "")
    return Shape(it.level, it.side, it.rule, words, int(times))


def shapes_of(command: list[str], name: str, language: str) -> tuple[list[Shape], int, str]:
    """What is wrong with the shapes of what a server says of a file, to a plain editor and to one that can do much; how
    many messages it sent; and why a session broke off, or ""."""
    found, messages, why = dict[tuple[str, ...], Shape](), 0, ""
    plain = dict[str, Any]()
    for capabilities in (plain, CAPABILITIES):
        with tempfile.TemporaryDirectory() as room:
            root = os.path.join(os.path.realpath(room), "words")
            shutil.copytree(SOURCES, root)
            record = os.path.join(room, "record")
            try:
                asyncio.run(session(command, Source(os.path.join(root, name), language), root, record, capabilities))
            except (Closed, Unanswered, Error, asyncio.TimeoutError) as fault:
                why = (str(fault) or type(fault).__name__).partition("; the last of its standard error")[0]
            shapes, count = shapes_in(record)
            messages += count
        for it in shapes:
            before = found.get(it[:4])
            found[it[:4]] = it._replace(times=it.times + (before.times if before else 0))
    levels: tuple[str, ...] = LEVELS
    return sorted(found.values(), key=lambda it: levels.index(it.level)), messages, why
