"""The page of examples/node/web in Chromium drives a language server in a worker, and one behind a WebSocket."""
import os
import re
import signal
import subprocess
from pathlib import Path
from typing import Any, Iterator
from urllib.parse import quote

import pytest

from support import needing, ran
from support.expecting import same
from support.in_browser import WORDS

from tools import browser  # (ran has put bin/ on the path)
from tools.repository import Fault

SERVE = f"{ran.TOP}/examples/node/web/serve.mjs"
TYPED = "Violets are are blue.\nWe are."
SECONDS = 120
# The text that the page has, then what is typed, and the word at its end.
WANTED = [
    "diagnostics: version 1: line 1: 'are' stands twice",
    "diagnostics: version 2: line 1: 'are' stands twice",
    "hover: Violets: 1 times",
]


@pytest.fixture(name="address")
def serving(tmp_path: Path) -> Iterator[str]:
    """The address of the page, which is served with the package for browsers."""
    needing.tool("chromium", "no page with a language server")
    needing.tool("node", "no page with a language server")
    try:
        files = browser.files()
    except Fault as fault:
        pytest.skip(f"what needs the package for browsers: {fault}")
    for name, data in files.items():
        (tmp_path / name).write_bytes(data)
    with subprocess.Popen(
        ["node", SERVE, "0"], env={**os.environ, "BUILT": str(tmp_path)}, stdout=subprocess.PIPE, text=True
    ) as server:
        assert server.stdout
        yield server.stdout.readline().strip()
        server.kill()


def told_by(address: str, profile: Path) -> dict[str, list[str]]:
    """What the page says of each server, until both have said all that is wanted, or it is too late."""
    found: dict[str, list[str]] = {"worker": [], "socket": []}
    words = [
        "chromium",
        *WORDS,
        "--enable-logging=stderr",
        "--remote-debugging-port=0",
        f"--user-data-dir={profile}",
        address,
    ]
    how: dict[str, Any] = {"stdout": subprocess.DEVNULL, "stderr": subprocess.PIPE, "text": True}
    with subprocess.Popen(words, env={**os.environ, "HOME": str(profile)}, start_new_session=True, **how) as page:
        assert page.stderr
        signal.signal(signal.SIGALRM, lambda *_: os.killpg(page.pid, signal.SIGKILL))
        signal.alarm(SECONDS)
        for line in page.stderr:
            said = re.search(r'CONSOLE.*?] "(worker|socket) (.*?)", source: ', line)
            if said:
                found[said[1]].append(said[2])
            if min(map(len, found.values())) == len(WANTED):
                break
        signal.alarm(0)
        os.killpg(page.pid, signal.SIGKILL)  # (it is several processes, some of which outlive the first)
    return found


def test_both_servers(address: str, tmp_path: Path) -> None:
    told = told_by(f"{address}?{quote(TYPED)}", tmp_path / "profile")
    for name, said in told.items():
        same(sorted(said), WANTED, name)
