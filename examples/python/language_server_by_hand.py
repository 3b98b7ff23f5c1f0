"""A language server for plain text: it finds words that stand twice in a row, and counts words."""
import asyncio
import re
import sys

from bullmyrtle import Error, InvalidParams, Server

server = Server(protocol="lsp")
texts = {}  # of the open documents, by their URIs
life = {"is_begun": False, "is_shut": False}
editor = {"has_progress": False}
WORD, REPEATED = r"\w+", r"\b(\w+)\s+\1\b"


@server.middleware
def live(request, params):
    """Refuses what comes before `initialize` or behind `shutdown`, and params that lack something."""
    if request.method != "exit":
        if not life["is_begun"] and request.method != "initialize":
            raise Error(-32002, "initialize comes first")
        if life["is_shut"] or life["is_begun"] and request.method == "initialize":
            raise Error(-32600, "this comes too late")
    try:
        yield
    except (KeyError, TypeError) as fault:
        raise InvalidParams(f"{type(fault).__name__}: {fault}") from fault


def find(pattern, document):
    """What matches in a document's lines, with its range. Editors count in UTF-16."""
    if document["uri"] not in texts:
        raise InvalidParams(f"this document isn't open: {document['uri']}")
    for number, line in enumerate(texts[document["uri"]].split("\n")):
        for found in re.finditer(pattern, line, re.IGNORECASE):
            columns = [len(line[:it].encode("utf-16-le")) // 2 for it in found.span()]
            start, end = ({"line": number, "character": it} for it in columns)
            yield found, {"start": start, "end": end}


@server.method("initialize")
def initialize(params: dict):
    life["is_begun"] = True
    window = params.get("capabilities", {}).get("window", {})
    editor["has_progress"] = window.get("workDoneProgress") is True
    capabilities = {"textDocumentSync": 1, "hoverProvider": True, "codeActionProvider": True}
    return {"capabilities": {**capabilities, "executeCommandProvider": {"commands": ["count"]}}}


@server.method("textDocument/didOpen")
@server.method("textDocument/didChange")
def changed(params: dict):
    document = params["textDocument"]
    texts[document["uri"]] = params.get("contentChanges", [document])[-1]["text"]
    words = find(REPEATED, document)
    found = [{"range": at, "severity": 2, "message": f"{it[1]!r} stands twice"} for it, at in words]
    server.notify("textDocument/publishDiagnostics", {"uri": document["uri"], "diagnostics": found})


@server.method("textDocument/hover")
async def hover(params: dict, request):
    place, words = params["position"], list(find(WORD, params["textDocument"]))
    for word, at in words:
        is_line = at["start"]["line"] == place["line"]
        if is_line and at["start"]["character"] <= place["character"] <= at["end"]["character"]:
            (label,) = await request.call("workspace/configuration", {"items": [{"section": "words.label"}]})
            return {"contents": f"{label or 'count'}: {sum(it[0] == word[0] for it, _ in words)}"}
    return None


@server.method("textDocument/codeAction")
def actions(params: dict):
    found = []
    for it, at in find(REPEATED, params["textDocument"]):
        if at["start"]["line"] == params["range"]["start"]["line"]:
            edit = {"changes": {params["textDocument"]["uri"]: [{"range": at, "newText": it[1]}]}}
            found.append({"title": f"Remove the second {it[1]!r}", "kind": "quickfix", "edit": edit})
    return found


@server.method("workspace/executeCommand")
async def count(params: dict, request):
    if params["command"] != "count":
        raise InvalidParams(f"unknown command: {params['command']}")
    token = f"count {request.id}"
    if editor["has_progress"]:
        await request.call("window/workDoneProgress/create", {"token": token})

    def tell(kind, **more):
        if editor["has_progress"]:
            request.notify("$/progress", {"token": token, "value": {"kind": kind, **more}})

    tell("begin", title="Counting", cancellable=True)
    try:
        for uri in list(texts):
            tell("report", message=uri)
            await asyncio.sleep(params.get("arguments", [0])[0])  # (a cancel arrives here)
        return sum(len(re.findall(WORD, it)) for it in texts.values())
    finally:
        tell("end")


server.method("shutdown")(lambda: life.update(is_shut=True))


@server.method("exit")
def end(params, request):
    if not request.is_notification:
        raise Error(-32601, "exit is a notification")
    server.stop(0 if life["is_shut"] else 1, grace=0)


sys.exit(server.run())
