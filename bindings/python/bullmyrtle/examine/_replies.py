"""What the examiner answers where it is the client, and where it is the server."""
from __future__ import annotations

from typing import Any, Dict

from ..judge._life import member
from ..judge._streams import Entry

#: What each request is answered where no case says otherwise. What isn't here is answered by -32601.
_TO_SERVERS: Dict[str, Any] = {
    "workspace/workspaceFolders": None,
    "client/registerCapability": None,
    "client/unregisterCapability": None,
    "window/workDoneProgress/create": None,
    "window/showMessageRequest": None,
    "ping": {},
    "roots/list": {"roots": []},
}
_TOOL = {
    "name": "echo",
    "description": "Gives its text back.",
    "inputSchema": {"type": "object", "properties": {"text": {"type": "string"}}, "required": ["text"]},
}
_TO_CLIENTS: Dict[str, Any] = {
    "shutdown": None,
    "ping": {},
    "tools/list": {"tools": [_TOOL]},
    "tools/call": {"content": [{"type": "text", "text": "examined"}]},
    "prompts/list": {"prompts": []},
    "resources/list": {"resources": []},
    "resources/templates/list": {"resourceTemplates": []},
}
# What a server may register by itself, where a client lets it.
_DYNAMIC: Dict[str, Any] = {"dynamicRegistration": True}
_OF_WORKSPACES = ("didChangeConfiguration", "didChangeWatchedFiles", "symbol", "executeCommand")
_OF_DOCUMENTS = (
    "synchronization",
    "hover",
    "completion",
    "definition",
    "references",
    "documentSymbol",
    "formatting",
)


def reply(request: Entry, examined: str, rules: str, version: str) -> Dict[str, Any]:
    """The response to a request of the side that is examined."""
    known = _TO_SERVERS if examined == "server" else _TO_CLIENTS
    found: Dict[str, Any] = {"jsonrpc": "2.0", "id": request.id}
    if request.method == "initialize" and examined == "client":
        return {**found, "result": _welcome(rules, version)}
    if request.method == "workspace/configuration":
        items = member(request.params, "items")
        return {**found, "result": [None] * (len(items) if isinstance(items, list) else 0)}
    if request.method in known:
        return {**found, "result": known[request.method]}
    return {**found, "error": {"code": -32601, "message": f"the examiner has no {request.method[:100]}"}}


def _welcome(rules: str, version: str) -> Dict[str, Any]:
    about = {"name": "bullmyrtle examine", "version": "1"}
    if rules == "lsp":
        return {"capabilities": {}, "serverInfo": about}
    return {"protocolVersion": version, "capabilities": {"tools": {}}, "serverInfo": about}


def greeting(rules: str, version: str, root: str, start: str) -> Dict[str, Any]:
    """The params of initialize, for a case that begins so."""
    about: Dict[str, Any] = {"clientInfo": {"name": "bullmyrtle examine", "version": "1"}}
    if rules != "lsp":
        offered = {"roots": {"listChanged": True}} if start == "dynamic" else {}
        return {**about, "protocolVersion": version, "capabilities": offered}
    general: Dict[str, Any] = {"general": {"positionEncodings": [start]}} if start.startswith("utf-") else {}
    window = {"workDoneProgress": True}
    workspace: Dict[str, Any] = {"configuration": True, "workspaceFolders": True}
    if start == "dynamic":
        workspace.update({it: _DYNAMIC for it in _OF_WORKSPACES})
        general["textDocument"] = {it: _DYNAMIC for it in _OF_DOCUMENTS}
    return {
        **about,
        "processId": None,
        "rootUri": root,
        "workspaceFolders": [{"uri": root, "name": "examine"}],
        "capabilities": {**general, "window": window, "workspace": workspace},
    }
