"""Runs the clients that editors have of their own on the language server of examples/language_server: each starts it,
asks for a hover, for which the server calls the editor back, cancels a request, asks for what the server doesn't know,
and ends it."""
import os
import time
from pathlib import Path

import pytest

from support import needing, ran
from support.expecting import check, same

HERE = os.path.dirname(os.path.abspath(__file__))
EDITORS = {
    "nvim": ["--headless", "--clean", "-S", f"{HERE}/editors/neovim.lua"],
    "emacs": ["--batch", "-Q", "-l", f"{HERE}/editors/emacs.el"],
}
# The program, which leaves its status behind as it ends.
TELLING = """#!/bin/sh
'{program}' "$@"
echo $? >'{status}'
"""


def status_in(file: Path) -> str:
    """What the program ended with, once it has; it has a minute."""
    end = time.monotonic() + 60
    while not (file.is_file() and file.stat().st_size) and time.monotonic() < end:
        time.sleep(0.02)
    return file.read_text().strip() if file.is_file() else "it runs on"


@pytest.mark.parametrize("editor", EDITORS)
def test_editor(editor: str, tmp_path: Path) -> None:
    needing.tool(editor, "no run of its client")
    status, telling = tmp_path / "status", tmp_path / "tool"
    telling.write_text(TELLING.format(program=ran.BUILT, status=status))
    telling.chmod(0o755)
    env = {**os.environ, "RPC_TOOL": str(telling), "METHODS": f"{ran.TOP}/examples/language_server/methods.toml"}
    ended, told = ran.told_by([editor, *EDITORS[editor]], 60, env=env)
    said = told.decode(errors="replace").strip()
    print(said)
    check(ended == 0 and "FAILED" not in said and "and shutdown" in said, f"{ended} {said}")
    same(status_in(status), "0", f"the program that {editor} started")
