"""What the judge of the Python package costs: a ping through its driver takes at most 60 microseconds more than without,
or, where the machine is slow, at most three times its time; and the report of 10,000 messages is open in Chromium within
two seconds. While nothing else runs."""
import json
import os
import random
import re
import statistics
import subprocess
import sys
import time
from pathlib import Path

import pytest

from support import judged, needing
from support.expecting import check

PINGS, RUNS, MORE, TIMES = 1_000, 10, 60, 3
SERVER = """
import sys
from bullmyrtle import Server
server = Server(framing="lines")
server.method("ping")(lambda: {})
sys.exit(server.run())
"""
MESSAGES, SECONDS = 10_000, 2
# What the page says of itself, as soon as it is drawn.
TOLD = """<script>addEventListener("load", () => { document.body.offsetHeight; requestAnimationFrame(() => setTimeout(
() => console.log("drawn after " + performance.now()), 0)) })</script></body>"""


@pytest.fixture(autouse=True)
def needs_judge() -> None:
    if judged.lacks_judge():
        pytest.skip(f"what the judge costs, which needs {judged.EXTENSION}")


def ping(words: list[str]) -> float:
    """The time of a ping, in microseconds."""
    with subprocess.Popen(
        words,
        env=judged.environment(),
        stdin=subprocess.PIPE,
        stdout=subprocess.PIPE,
        stderr=subprocess.DEVNULL,
        bufsize=0,
    ) as server:
        assert server.stdin is not None and server.stdout is not None
        times = list[float]()
        with open(server.stdout.fileno(), "rb", closefd=False) as answers:
            for id_ in range(PINGS):
                began = time.perf_counter()
                server.stdin.write(b'{"jsonrpc":"2.0","method":"ping","id":%d}\n' % id_)
                answers.readline()
                times.append(time.perf_counter() - began)
        server.stdin.close()
        check(server.wait(60) == 0)
    return statistics.median(times[PINGS // 10 :]) * 1e6


@pytest.mark.alone
def test_ping() -> None:
    server = [sys.executable, "-c", SERVER]
    driven = [*judged.JUDGE, "--rules", "jsonrpc", "--lines", "--", *server]
    # (A ping without the driver takes 7 to 20 microseconds, by the machine, and what the driver adds doesn't shrink with it:
    # a factor alone would refuse the fastest machine.
    # By turns. What else the machine does slows some, so through the driver the best counts; where both processes happen to
    # share a processor, a ping without it takes half its time, so there the median does)
    without, through = zip(*((ping(server), ping(driven)) for _ in range(RUNS)))
    usual, best = statistics.median(without), min(through)
    print(f"a ping takes {usual:.0f} microseconds, and {best:.0f} through the driver")
    check(best <= max(usual + MORE, TIMES * usual), f"{usual:.0f} and {best:.0f} microseconds")


def recording(file: Path) -> None:
    """A long session of an editor, with some faults."""
    chance, lines, at, number = random.Random(7), ["judge 1 lsp frames"], 0, 0

    def say(mark: str, **members: object) -> None:
        nonlocal at
        at += chance.randint(0, 20)
        data = json.dumps({"jsonrpc": "2.0", **members}).encode()
        lines.append(f"{mark} {(b'Content-Length: %d' % len(data)).hex()}0d0a0d0a{data.hex()} # {at}")

    say(">", id=0, method="initialize", params={"capabilities": {}})
    say("<", id=0, result={"capabilities": {}})
    say(">", method="initialized", params={})
    place = {"textDocument": {"uri": "file:///home/me/src/main.c"}, "position": {"line": 5, "character": 3}}
    while len(lines) <= MESSAGES:
        number += 1
        say(">", id=number, method=f"textDocument/{chance.choice(('hover', 'definition', 'completion'))}", params=place)
        if number % 97 == 0:
            say("<", method="$/progress", params={"token": number, "value": {"kind": "begin", "title": "x"}})
        say("<", id=number if number % 211 else number + 1, result={"contents": "words " * chance.randint(1, 60)})
    file.write_text("\n".join(lines) + "\n", encoding="ascii")


@pytest.mark.alone
def test_report_opens(tmp_path: Path) -> None:
    needing.tool("chromium", "how long the report of 10,000 messages takes to open")
    recording(tmp_path / "talk.record")
    report, words = tmp_path / "talk.html", [*judged.JUDGE, "--replay", "talk.record", "--report", "talk.html"]
    subprocess.run(words, cwd=tmp_path, env=judged.environment(), stderr=subprocess.DEVNULL, check=True)
    report.write_text(report.read_text(encoding="utf-8").replace("</body>", TOLD), encoding="utf-8")
    found = min(opened(report, tmp_path / f"profile-{it}") for it in range(RUNS))
    print(f"the report of {MESSAGES:,} messages is drawn after {found:.0f} milliseconds")
    check(found <= SECONDS * 1000, f"{found:.0f} milliseconds")


def opened(report: Path, profile: Path) -> float:
    """After how many milliseconds a page is drawn."""
    words = ["chromium", "--headless", "--no-sandbox", "--disable-gpu", "--enable-logging=stderr"]
    words += [f"--user-data-dir={profile}", "--remote-debugging-port=0", f"file://{report}"]
    env = {**os.environ, "HOME": str(report.parent)}
    with subprocess.Popen(words, env=env, stdout=subprocess.DEVNULL, stderr=subprocess.PIPE, text=True) as browser:
        assert browser.stderr is not None
        found = None
        for line in browser.stderr:
            found = re.search(r"drawn after ([\d.]+)", line)
            if found is not None:
                break
        browser.kill()
    check(found is not None, "the browser said nothing")
    assert found is not None
    return float(found[1])
