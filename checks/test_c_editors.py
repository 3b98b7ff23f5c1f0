"""Whole sessions of editors with the language server in C (examples/c/language_server.c, over the static library):
Neovim's own client, and Eglot in Emacs. Each shows a diagnostic and takes it away again, hovers through a setting that
the server asks it for, cancels a hover, makes 500 calls at once, asks for what the server doesn't know, and shuts it
down; the server then ends with the status 0. What it wrote is looked at too: a cancelled hover is answered once, and
each other once."""
import os
import re
import subprocess
import time
from pathlib import Path

import pytest
from typing import Any

from support import needing, ran
from support.c_programs import EXAMPLES, build, default_library, has_cjson, is_whole
from support.expecting import COUNT, check, same

SESSIONS = os.path.join(ran.TOP, "checks", "editors")
EDITORS = {
    "nvim": ["--headless", "--clean", "-S", f"{SESSIONS}/whole_session.lua"],
    "emacs": ["--batch", "-l", f"{SESSIONS}/whole_session.el"],
}
HOVERS = 501
# The server, which leaves its status and what it wrote behind as it ends.
TELLING = """#!/bin/sh
('{server}'; echo $? >'{room}/status') | tee '{room}/wrote'
"""


@pytest.fixture(scope="session")
def server(tmp_path_factory: pytest.TempPathFactory) -> str:
    needing.tool("cc", "it builds the server")
    if not has_cjson():
        pytest.skip("the language server in C, since cJSON (libcjson-dev) isn't here")
    if not is_whole(default_library()):
        pytest.skip(f"there is no library in {default_library()}: bin/build-library builds it")
    room = tmp_path_factory.mktemp("c-editors")
    return build(COUNT, default_library(), str(room), f"{EXAMPLES}/language_server.c", "static", ["-lcjson"])


def written(file: Path) -> str:
    """What is in a file, once there is something; it has a minute."""
    end = time.monotonic() + 60
    while not (file.is_file() and file.stat().st_size) and time.monotonic() < end:
        time.sleep(0.02)
    return file.read_text(encoding="utf-8") if file.is_file() else "nothing"


def needs_eglot(room: Path) -> None:
    how: dict[str, Any] = {
        "env": {**os.environ, "HOME": str(room)},
        "stdin": subprocess.DEVNULL,
        "capture_output": True,
        "check": False,
    }
    if subprocess.run(["emacs", "--batch", "--eval", "(require 'eglot)"], **how).returncode:
        pytest.skip("a session of Eglot, which emacs lacks (elpa-eglot)")


@pytest.mark.parametrize("editor", EDITORS)
def test_editor(server: str, editor: str, tmp_path: Path) -> None:
    needing.tool(editor, "no session of its client")
    if editor == "emacs":
        needs_eglot(tmp_path)
    telling = tmp_path / "telling"
    telling.write_text(TELLING.format(server=server, room=tmp_path), encoding="ascii")
    telling.chmod(0o755)
    env = {**os.environ, **{name: str(tmp_path) for name in ("ROOM", "HOME", "XDG_STATE_HOME")}, "SERVER": str(telling)}
    status, told = ran.told_by([editor, *EDITORS[editor]], 120, cwd=tmp_path, env=env)
    said = told.decode(errors="replace").strip()
    print(*re.findall(r"^.*a whole session$", said, re.M), sep="\n")
    check(status == 0 and "a whole session" in said and "FAILED" not in said, f"{status} {said[-1500:]}")
    same(written(tmp_path / "status").strip(), "0", f"the server that {editor} started")
    wrote = written(tmp_path / "wrote")
    cancels, hovers = len(re.findall(r'"code":-32800', wrote)), len(re.findall(r'"result":\{"contents"', wrote))
    same(cancels, 1, "requests that it cancels")
    check(hovers >= HOVERS, f"{hovers} hovers are answered")
    asked = len(re.findall(r'"method":"workspace/configuration"', wrote))
    same(asked, hovers + cancels, "it is asked for a setting by each hover")
