"""What docs/editors.md and docs/language_servers.md say to do in Neovim and Emacs: the page's own lines, as they stand
there, start the server, and a hover shows what the page says. The extension of docs/editors.md for VS Code runs over
stand-ins, what is written for other editors is read, and the entries of docs/hosts.md are those that the package prints.
And the picture of docs/editors.md, message by message."""
import json
import os
import re
import subprocess
import sys
import tomllib
from pathlib import Path
from typing import Any, NamedTuple

import pytest

from support import needing, pages, ran
from support.c_programs import has_cjson
from support.expecting import check, same

NOTES = "a rose is\na rose\n"
SHOWN = "rose: 2 times"
# Where the hover stands among the blocks of README.
README_HOVER = next(at for at, it in enumerate(pages.read_blocks("README.md")) if it[1].startswith("# hover.py"))
PYTHON = f"{ran.TOP}/bindings/python"
NEOVIM = f"{PYTHON}/tests/editors/neovim_page.lua"
NEOVIM_INIT = f"{ran.TOP}/checks/editors/neovim_init.lua"
EMACS = f"{ran.TOP}/checks/editors/page.el"


def blocks(page: str, mark: str) -> list[str]:
    """The blocks of a page with this mark, with the repository's own place in them."""
    return [text.replace("REPOSITORY", ran.TOP) for it, text in pages.read_blocks("docs", page) if it == mark]


def block(page: str, mark: str) -> str:
    return blocks(page, mark)[0]


def at_hand(room: Path, lines: str) -> str:
    """The same lines, for the hover of README, which is written to this folder."""
    (room / "hover.py").write_text(pages.read_blocks("README.md")[README_HOVER][1])
    return lines.replace("/path/to", str(room))


def said(room: Path, words: list[str]) -> str:
    """What an editor says that runs in this folder, with settings of nobody."""
    (room / "notes.txt").write_text(NOTES)
    env = {**os.environ, "HOME": str(room), "PYTHONPATH": PYTHON}
    how: dict[str, Any] = {"cwd": room, "env": env, "stdin": subprocess.DEVNULL, "timeout": 60, "check": False}
    ended = subprocess.run(words, stdout=subprocess.PIPE, stderr=subprocess.STDOUT, **how)
    return f"status {ended.returncode}: {ended.stdout.decode(errors='replace')}"


def said_by_emacs(room: Path, lines: str) -> str:
    needing.tool("emacs", "the lines of a page for Eglot")
    (room / "start.el").write_text(lines)
    lacks = said(room, ["emacs", "--batch", "--eval", "(require 'eglot)"])
    if not lacks.startswith("status 0"):
        pytest.skip("the lines of a page for Eglot, which emacs lacks (elpa-eglot)")
    return said(room, ["emacs", "--batch", "-l", EMACS])


def test_lines_for_neovim(tmp_path: Path) -> None:
    needing.tool("nvim", "the lines of docs/editors.md for Neovim")
    ran.built()  # (which bin/rpc_tool would do too)
    (tmp_path / "start.lua").write_text(blocks("editors.md", "lua")[-1])
    text = said(tmp_path, ["nvim", "--headless", "--clean", "-S", NEOVIM, "notes.txt"])
    check("hello" in text and text.startswith("status 0"), text)


@pytest.mark.parametrize("number, version", ((1, "0.8 to 0.10"), (2, "0.7")))
def test_lines_for_a_version_of_neovim(tmp_path: Path, number: int, version: str) -> None:
    """They stand in init.lua, so a buffer of text is opened behind them."""
    needing.tool("nvim", f"the lines of docs/editors.md for Neovim {version}")
    (tmp_path / "start.lua").write_text(at_hand(tmp_path, blocks("editors.md", "lua")[number]))
    text = said(tmp_path, ["nvim", "--headless", "--clean", "-S", NEOVIM_INIT])
    check(SHOWN in text and text.startswith("status 0"), text)


def test_lines_for_emacs(tmp_path: Path) -> None:
    ran.built()
    text = said_by_emacs(tmp_path, blocks("editors.md", "elisp")[-1])
    check("shown: hello" in text and text.startswith("status 0"), text)


def test_lines_for_emacs_with_the_hover(tmp_path: Path) -> None:
    text = said_by_emacs(tmp_path, at_hand(tmp_path, block("editors.md", "elisp")))
    check(f"shown: {SHOWN}" in text and text.startswith("status 0"), text)


def test_lines_for_emacs_with_a_server_in_python(tmp_path: Path) -> None:
    (tmp_path / "hover.py").write_text(block("language_servers.md", "python"))
    lines = block("language_servers.md", "elisp").replace("/path/to", str(tmp_path))
    text = said_by_emacs(tmp_path, lines)
    check("shown: rose: 2 times" in text and text.startswith("status 0"), text)


def test_command_for_the_server_in_c(tmp_path: Path) -> None:
    """The command of the page, in a folder that has what it names."""
    needing.tool("cc", "the command of docs/editors.md for the server in C")
    if not has_cjson():
        pytest.skip("the command of docs/editors.md for the server in C, since cJSON (libcjson-dev) isn't here")
    for it in ("examples", "release"):
        (tmp_path / it).symlink_to(f"{ran.TOP}/{it}")
    (command,) = re.findall(r"^    (cc .*)$", ran.text_of("docs", "editors.md"), re.M)
    same(ran.told_by(["sh", "-c", command], 60, cwd=tmp_path), (0, b""))
    check((tmp_path / command.split()[-1]).is_file())


# VS Code

# What the extension finds in place of VS Code's client: it starts the server, asks for a hover and prints it.
STAND_IN = """
const { spawn } = require('node:child_process')
exports.LanguageClient = class {
  constructor(id, name, server, options) { Object.assign(this, { id, server, options }) }
  start() {
    const { language } = this.options.documentSelector[0]
    this.child = spawn(this.server.command, this.server.args, { stdio: ['pipe', 'pipe', 'inherit'] })
    const send = it => { const text = JSON.stringify({ jsonrpc: '2.0', ...it })
      this.child.stdin.write(`Content-Length: ${Buffer.byteLength(text)}\\r\\n\\r\\n${text}`) }
    send({ id: 1, method: 'initialize', params: { processId: null, rootUri: null, capabilities: {} } })
    send({ method: 'initialized', params: {} })
    const textDocument = { uri: 'file:///a', languageId: language, version: 1, text: 'a rose is\\na rose' }
    send({ method: 'textDocument/didOpen', params: { textDocument } })
    send({ id: 2, method: 'textDocument/hover', params: { textDocument, position: { line: 1, character: 3 } } })
    send({ id: 3, method: 'shutdown' })
    send({ method: 'exit' })
    this.child.stdout.pipe(process.stdout)
  }
  stop() { console.log('stopped') }
}
"""


def test_extension_of_vs_code(tmp_path: Path) -> None:
    needing.tool("node", "the extension of docs/editors.md for VS Code")
    about, code = json.loads(block("editors.md", "json")), block("editors.md", "js")
    same([about["main"], *about["dependencies"]], ["./extension.js", "vscode-languageclient"])
    check(about["engines"]["vscode"] and about["activationEvents"] == ["onLanguage:plaintext"], about)
    check(len(code.splitlines()) + len(block("editors.md", "json").splitlines()) <= 30, "30 lines at most")
    client = tmp_path / "node_modules" / "vscode-languageclient"
    client.mkdir(parents=True)
    (client / "node.js").write_text(STAND_IN)
    (tmp_path / "extension.js").write_text(at_hand(tmp_path, code))
    run = "const it = require('./extension.js'); it.activate(); process.on('exit', () => it.deactivate())"
    text = said(tmp_path, ["node", "-e", run])
    check(text.startswith("status 0") and SHOWN in text and text.endswith("stopped\n"), text)


# What is written for editors and hosts that can't be run here: it is read, and names the command


def test_what_is_written_for_other_editors() -> None:
    helix, zed = map(tomllib.loads, blocks("editors.md", "toml"))
    words = helix["language-server"]["words"]
    same([words["command"], *words["args"]], ["python3", "/path/to/hover.py"])
    same([it["language-servers"] for it in helix["language"]], [["words"]])
    same([*zed["language_servers"]], ["words"])
    sublime = json.loads(blocks("editors.md", "json")[1])["clients"]["words"]
    same(sublime["command"], ["python3", "/path/to/hover.py"])
    kakoune = tomllib.loads(re.findall(r"%\{\n(\s+\[words\].*?)\n    \}", block("editors.md", "kak"), re.S)[0])
    same([kakoune["words"]["command"], *kakoune["words"]["args"]], ["python3", "/path/to/hover.py"])


def test_code_for_zed() -> None:
    needing.tool("rustfmt", "the code of docs/editors.md for Zed")
    same(
        ran.told_by(
            ["rustfmt", "--check", "--config", "max_width=100"],
            60,
            input=block("editors.md", "rust").encode(),
            stdin=None,
        )[1],
        b"",
    )


def entry(words: list[str], room: Path) -> dict[str, Any]:
    """What the package prints for a host, with the places of the page."""
    (room / "tools.py").write_text(next(it for _, it in pages.read_blocks("README.md") if it.startswith("# tools.py")))
    command = [sys.executable, "-m", "bullmyrtle.mcp", *words]
    ended = subprocess.run(command, cwd=room, env={**os.environ, "PYTHONPATH": PYTHON}, capture_output=True, check=True)
    text = ended.stdout.decode().replace(str(room), "/path/to").replace(sys.executable, "/usr/bin/python3")
    found: dict[str, Any] = json.loads(text)
    for servers in found.values():
        servers["words"].pop("env")  # (it isn't installed here)
    return found


def test_entries_for_hosts(tmp_path: Path) -> None:
    shown = [json.loads(it) for it in blocks("hosts.md", "json")]
    asked = [[*judged, "tools.py", "settings", host] for judged, host in WORDS]
    same(shown, [entry(it, tmp_path) for it in asked])


WORDS: list[tuple[list[str], str]] = [([], "claude"), ([], "cursor"), ([], "vscode"), (["--judged"], "claude")]


# The picture


class Arrow(NamedTuple):
    text: str
    is_to_server: bool


ARROW = re.compile(r"^   \|  (\S.*\S) +\|\n   \|(-+>|<-+)\|", re.M)
# What each message of the picture is.
MESSAGES: dict[str, dict[str, Any]] = {
    "initialize": {"id": 1, "method": "initialize", "params": {}},
    "textDocument/hover, id 2": {"id": 2, "method": "textDocument/hover", "params": {}},
    'the setting, id "3.1"': {"id": "3.1", "result": ["hello"]},
}
ANSWERS: dict[str, tuple[object, str]] = {
    "capabilities: hover": (1, "result"),
    'workspace/configuration, id "3.1"': ("3.1", "workspace/configuration"),
    "the hover's text, id 2": (2, "result"),
}


def test_picture_of_a_hover() -> None:
    """What the editor sends gives what the server is drawn to send, in this order. (What isn't drawn is the notification
    that follows on `initialize`, whose number is 2, and what it has the server log.)"""
    arrows = [Arrow(it[0], it[1].endswith(">")) for it in ARROW.findall(block("editors.md", "text"))]
    sent = [{"jsonrpc": "2.0", **MESSAGES[it.text]} for it in arrows if it.is_to_server]
    sent.insert(1, {"jsonrpc": "2.0", "method": "initialized"})
    given = "".join(f"{json.dumps(it)}\n" for it in sent).encode()
    table = f"{ran.TOP}/examples/language_server/methods.toml"
    status, output, _ = ran.run(["play", "--lines", "--table", table], given)
    wrote = [it for it in map(json.loads, output.splitlines()) if it.get("method") != "window/logMessage"]
    found = [(it["id"], it.get("method", "result")) for it in wrote]
    same((status, found), (0, [ANSWERS[it.text] for it in arrows if not it.is_to_server]))
    check(wrote[0]["result"]["capabilities"]["hoverProvider"] and wrote[-1]["result"] == {"contents": "hello"}, wrote)
