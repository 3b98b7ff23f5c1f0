"""A tool server, as MCP has it over lines: one tool counts words, the other asks the host's model for a title."""
import asyncio
import sys
from typing import Optional

from bullmyrtle import Error, InvalidParams, Server

server = Server(framing="lines")
TOOLS = {"count": "Counts the words of a text", "title": "Finds a title for a text"}
SCHEMA = {"type": "object", "properties": {"text": {"type": "string"}}, "required": ["text"]}
VERSIONS = ["2025-06-18", "2025-03-26", "2024-11-05"]  # of MCP that it speaks, the newest first
LISTED = [{"name": name, "description": it, "inputSchema": SCHEMA} for name, it in TOOLS.items()]
SERVER = {"capabilities": {"tools": {}}, "serverInfo": {"name": "words", "version": "1.0"}}
life = {"is_begun": False}
server.method("ping")(lambda: {})


@server.middleware
def live(request, params):
    """Refuses what comes before `initialize`, and a second one."""
    if not life["is_begun"] and request.method not in ("initialize", "ping"):
        raise Error(-32600, "initialize comes first")
    if life["is_begun"] and request.method == "initialize":
        raise Error(-32600, "initialize came before")
    yield


@server.method("initialize")
def initialize(protocolVersion: str, capabilities: dict, clientInfo: dict, **more):
    life["is_begun"] = True
    # (with a version that it doesn't speak the client may end)
    return {"protocolVersion": protocolVersion if protocolVersion in VERSIONS else VERSIONS[0], **SERVER}


@server.method("tools/list")
def listed(params: Optional[dict]):
    if params and "cursor" in params:
        raise InvalidParams("nobody gave a cursor: there is one page")
    return {"tools": LISTED}


@server.method("tools/call")
async def call(params: dict, request):
    name, arguments = params.get("name"), params.get("arguments")
    text = arguments.get("text") if isinstance(arguments, dict) else None
    if name not in TOOLS or not isinstance(text, str):
        raise InvalidParams(f"no such tool: {name}" if name not in TOOLS else "the text is missing")
    token = (params.get("_meta") or {}).get("progressToken")
    result = await (count(text, request, token) if name == "count" else title(text, request))
    return {"content": [{"type": "text", "text": result}]}


async def count(text, request, token):
    words = text.split()
    for at in range(0, len(words), 100):
        if token is not None:
            about = {"progressToken": token, "progress": at, "total": len(words)}
            request.notify("notifications/progress", about)
        await asyncio.sleep(0)  # (a cancel arrives here)
    return f"{len(words)} words"


async def title(text, request):
    message = {"role": "user", "content": {"type": "text", "text": f"A title for: {text}"}}
    reply = await request.call("sampling/createMessage", {"messages": [message], "maxTokens": 20})
    return reply["content"]["text"]


sys.exit(server.run())
