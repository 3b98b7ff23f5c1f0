"""The language server of the sessions in language_rows/, in Python; language_server.mjs is the same in JavaScript."""
import asyncio

from bullmyrtle import Error
from bullmyrtle.lsp import LanguageServer

server = LanguageServer("rows", "1")
LEGEND = {"tokenTypes": ["word"], "tokenModifiers": []}


@server.feature("initialize")
def initialize(ls, params):
    if (params.get("initializationOptions") or {}).get("fails"):
        raise Error(-32001, "not yet")


@server.feature("textDocument/hover")
def hover(ls, params):
    document = ls.document(params)
    return {"contents": document.text, "range": document.range(document.offset(params["position"]), len(document.text))}


@server.feature("textDocument/definition")
async def definition(ls, params):
    await asyncio.sleep(3600)


@server.feature("textDocument/references")
async def references(ls, params):
    async with ls.partial(params) as partial:
        for line in range(2):
            place = {"line": line, "character": 0}
            partial.send([{"uri": params["textDocument"]["uri"], "range": {"start": place, "end": place}}])
    return partial.result


@server.feature("textDocument/completion", {"triggerCharacters": ["."]})
def completion(ls, params):
    return [{"label": "one", "data": 1}]


@server.feature("completionItem/resolve")
def resolve(ls, item):
    return {**item, "detail": f"item {item['data']}"}


@server.feature("textDocument/semanticTokens/full", {"legend": LEGEND})
def tokens(ls, params):
    return {"data": [0, 0, len(ls.document(params).text), 0, 0]}


@server.feature("textDocument/diagnostic", {"interFileDependencies": False, "workspaceDiagnostics": False})
def diagnostic(ls, params):
    return {"kind": "full", "items": []}


@server.feature("textDocument/didOpen")
@server.feature("textDocument/didChange")
def look(ls, params):
    document = ls.document(params)
    at = document.text.find("bad")
    found = [] if at < 0 else [{"range": document.range(at, at + 3), "message": "bad"}]
    ls.publish_diagnostics(document, found)


@server.feature("textDocument/didClose")
def close(ls, params):
    ls.publish_diagnostics(params["textDocument"]["uri"], [])


@server.command("raise")
def raises():
    raise Error(-32050, "no", {"why": 1})


@server.command("setting")
async def setting(ls, name):
    return await ls.configuration(name)


@server.command("edit")
async def edit(ls):
    return (await ls.apply_edit({"changes": {}}, "an edit"))["applied"]


@server.command("choose")
async def choose(ls):
    return await ls.show_message_request("Which?", ["a", "b"], "info")


@server.command("show")
async def show(ls):
    return (await ls.show_document("file:///b.txt"))["success"]


@server.command("folders")
async def folders(ls):
    return await ls.workspace_folders()


@server.command("say")
def say(ls):
    ls.show_message("shown", "warning")
    ls.log_message("logged", "info")
    ls.send_telemetry({"n": 1})


@server.command("trace")
def trace(ls):
    ls.log_trace("traced", "more")


@server.command("refresh")
async def refresh(ls):
    await ls.refresh("semanticTokens")


@server.feature("workspace/didChangeConfiguration")
async def register(ls, params):
    made = await ls.register_capability("workspace/didChangeWatchedFiles", {"watchers": [{"globPattern": "*.txt"}]})
    await ls.unregister_capability(made)


@server.command("work")
async def work(ls):
    async with ls.progress("Working", percentage=0, cancellable=True) as progress:
        progress.report("half", 50)
    return "worked"


@server.command("wait")
async def wait(ls):
    async with ls.progress("Waiting", cancellable=True) as progress:
        await asyncio.sleep(3600)
    return "cancelled" if progress.is_cancelled else "waited"


server.start_io()
