"""The command `python3 -m bullmyrtle.mcp`: what a tool server has, by hand."""
from __future__ import annotations

import argparse
import asyncio
import json
import os
import sys
from typing import Any, Dict, List, Optional, Sequence

from ..errors import Closed, Error, LibraryError, Unanswered
from ._bridge import bridge
from ._http_client import http_of
from ._results import InvalidResult
from .client import ToolClient, UnknownVersion

Json = Dict[str, Any]

_SCRIPT = "bullmyrtle-mcp"
# (as it was called)
_NAME = _SCRIPT if os.path.basename(sys.argv[0]) == _SCRIPT else "python3 -m bullmyrtle.mcp"
_ABOUT = """\
Starts a tool server, or reaches one by its URL, and says what it has; or calls a tool, or prints the entry by which a
host of language models starts it."""
_MORE = """\
what to do:
  list                       its tools, resources and prompts; that is done where nothing is said
  call NAME [MEMBER=VALUE ..]  calls a tool, and prints its texts; a VALUE is JSON, or a text
  settings [HOST]            the entry for the settings of claude, vscode or cursor (claude)
  judge                      runs the server on the standard streams under the judge, as a host would start it
  bridge                     is a server on the standard streams, in place of the one at the URL

examples:
  %(prog)s tools.py
  %(prog)s tools.py call count text="a rose is a rose" words='["rose"]'
  %(prog)s --judged tools.py call count text=a words='[]'
  %(prog)s tools.py settings vscode
  %(prog)s --header "Authorization: Bearer $TOKEN" https://example.com/mcp

status:
  0  it was done     1  the server, or the tool, said that something is wrong     2  the command line is wrong"""
_WHERE = {
    "claude": ("mcpServers", "claude_desktop_config.json, or .mcp.json for Claude Code"),
    "cursor": ("mcpServers", ".cursor/mcp.json"),
    "vscode": ("servers", ".vscode/mcp.json"),
}


def _parser() -> argparse.ArgumentParser:
    parser = argparse.ArgumentParser(
        prog=_NAME,
        usage="%(prog)s [OPTION ..] FILE|URL [list | call NAME [MEMBER=VALUE ..] | settings [HOST] | judge | bridge]",
        description=_ABOUT,
        epilog=_MORE,
        formatter_class=argparse.RawDescriptionHelpFormatter,
        allow_abbrev=False,
    )
    add = parser.add_argument
    add("--judged", action="store_true", help="start the server under the judge")
    add(
        "--header",
        action="append",
        default=[],
        metavar="NAME: VALUE",
        help="with a URL: a header of requests",
    )
    add("server", metavar="FILE|URL", help="a file in Python, another program, or a URL")
    add("action", nargs="?", default="list", choices=["list", "call", "settings", "judge", "bridge"])
    add("words", nargs="*", help=argparse.SUPPRESS)
    return parser


class _Server:
    """The server that is meant."""

    def __init__(self, it: argparse.Namespace, parser: argparse.ArgumentParser) -> None:
        self.is_remote = it.server.startswith(("http://", "https://"))
        self.url, self.is_judged = it.server, it.judged
        if self.is_remote and it.judged or it.header and not self.is_remote:
            parser.error("--judged is for a server that is started, and --header for one at a URL")
        if not self.is_remote and not os.path.exists(it.server):
            parser.error(f"there is no file {it.server}")
        self.headers: Dict[str, str] = {}
        for header in it.header:
            name, colon, value = header.partition(":")
            if not colon or not name.strip():
                parser.error(f"a header is NAME: VALUE, not {header!r}")
            self.headers[name.strip()] = value.strip()

    def command(self, is_judged: Optional[bool] = None) -> List[str]:
        """What starts it."""
        path = os.path.abspath(self.url)
        plain = [sys.executable, path] if path.endswith(".py") else [path]
        if not (self.is_judged if is_judged is None else is_judged):
            return plain
        return [sys.executable, "-m", "bullmyrtle.judge", "--rules", "mcp", "--", *plain]

    def client(self, is_judged: Optional[bool] = None) -> ToolClient:
        """A host of it."""
        if self.is_remote:
            return ToolClient(url=self.url, headers=self.headers)
        return ToolClient(self.command(is_judged))

    def entry(self, host: str) -> Json:
        """Its entry in a host's settings."""
        if self.is_remote:
            about: Json = {} if host == "cursor" else {"type": "http"}
            about["url"] = self.url
            return {**about, "headers": self.headers} if self.headers else about
        command, *words = self.command()
        about = {"type": "stdio"} if host == "vscode" else {}
        about.update(command=command, args=words)
        paths = [os.path.abspath(it) for it in os.environ.get("PYTHONPATH", "").split(os.pathsep) if it]
        return {**about, "env": {"PYTHONPATH": os.pathsep.join(paths)}} if paths else about


def _type_of(schema: Any) -> str:
    if not isinstance(schema, dict):
        return "any"
    kind = schema.get("type")
    if isinstance(kind, str):
        return kind
    return (
        "one of " + ", ".join(map(json.dumps, schema["enum"]))
        if isinstance(schema.get("enum"), list)
        else "any"
    )


def _told(item: Json, name: str) -> str:
    about = str(item.get("description") or item.get("title") or "").strip().split("\n")[0]
    return f"  {item.get(name)}" + (f" - {about}" if about else "")


def _told_tool(tool: Json) -> List[str]:
    schema = tool.get("inputSchema")
    members = schema.get("properties") if isinstance(schema, dict) else None
    needed = schema.get("required") if isinstance(schema, dict) else None
    lines = [_told(tool, "name")]
    for name, it in (members if isinstance(members, dict) else {}).items():
        about = it.get("description") if isinstance(it, dict) else None
        may = "" if name in (needed or ()) else ", may be left out"
        lines.append(f"    {name}: {_type_of(it)}{may}" + (f" - {about}" if about else ""))
    return lines


async def _list(client: ToolClient) -> int:
    about, has = client.server["serverInfo"], client.server.get("capabilities", {})
    lines = [f"{about.get('name')} {about.get('version', '')}, MCP {client.protocol_version}", "tools"]
    for tool in await client.list_tools():
        lines += _told_tool(tool)
    if "resources" in has:
        lines += ["resources", *(_told(it, "uri") for it in await client.list_resources())]
        lines += [_told(it, "uriTemplate") for it in await client.list_resource_templates()]
    if "prompts" in has:
        lines += ["prompts", *(_told(it, "name") for it in await client.list_prompts())]
    print("\n".join(lines))
    return 0


def _arguments(words: Sequence[str], tool: Json) -> Json:
    """The arguments that words say. Raises ValueError."""
    members = tool.get("inputSchema", {}).get("properties", {})
    arguments: Json = {}
    for it in words:
        name, equals, value = it.partition("=")
        if not equals:
            raise ValueError(f"an argument is MEMBER=VALUE, not {it!r}")
        arguments[name] = value
        if _type_of(members.get(name)) != "string":
            try:
                arguments[name] = json.loads(value)
            except ValueError:
                pass  # (a text)
    return arguments


async def _call(client: ToolClient, name: str, words: Sequence[str]) -> int:
    tool: Json = next((it for it in await client.list_tools() if it.get("name") == name), {})
    result = await client.call_tool(name, _arguments(words, tool))
    for it in result.content:
        print(it["text"] if it.get("type") == "text" else json.dumps(it))
    return int(result.is_error)


async def _settings(server: _Server, client: ToolClient, host: str) -> int:
    member, where = _WHERE[host]
    name = str(client.server["serverInfo"].get("name"))
    print(f"for {where}:", file=sys.stderr)
    print(json.dumps({member: {name: server.entry(host)}}, indent=2))
    return 0


async def _done(server: _Server, action: str, words: Sequence[str]) -> int:
    async with server.client(is_judged=False if action == "settings" else None) as client:
        if action == "call":
            return await _call(client, words[0], words[1:])
        if action == "settings":
            return await _settings(server, client, words[0] if words else "claude")
        return await _list(client)


def run(words: Optional[Sequence[str]] = None) -> int:
    """Does what the words of a command line say, and gives the status."""
    parser = _parser()
    it = parser.parse_intermixed_args(words)
    server = _Server(it, parser)
    if it.action == "call" and not it.words:
        parser.error("which tool is to be called?")
    if it.action == "settings" and (len(it.words) > 1 or not set(it.words) <= set(_WHERE)):
        parser.error(f"a host is {', '.join(_WHERE)}")
    if it.action in ("list", "judge", "bridge") and it.words:
        parser.error(f"{it.action} has no more words")
    if server.is_remote == (it.action == "judge") and it.action in ("judge", "bridge"):
        parser.error("judge is for a server that is started, and bridge for one at a URL")
    try:
        if it.action == "judge":
            sys.stdout.flush()
            command = server.command(is_judged=True)
            os.execv(command[0], command)
        if it.action == "bridge":
            return bridge(http_of(server.url, None), server.headers, sys.stdin.buffer, sys.stdout.fileno())
        return asyncio.run(_done(server, it.action, it.words))
    except (
        Error,
        Closed,
        Unanswered,
        InvalidResult,
        UnknownVersion,
        LibraryError,
        OSError,
        ValueError,
    ) as error:
        print(f"{_NAME}: {error}", file=sys.stderr)
        return 1
    except KeyboardInterrupt:
        return 130
