"""The sessions by which bin/servers looks at the shapes of what language servers say: they ask for all that a server tells
of, find what is planted, and nothing in our examples."""
import json
import os
import sys

import pytest

from support import ran
from support.expecting import check, same

sys.path.insert(0, f"{ran.TOP}/bindings/python")
from tools import sessions  # noqa: E402
from bullmyrtle import _process  # type: ignore[import]  # noqa: E402

EXAMPLES = f"{ran.TOP}/examples/python"
PATIENCE = 120.0
#: A server whose results are wrong in places that are named, and whose symbols are asked for again.
WRONG = """
from bullmyrtle.lsp import LanguageServer
server = LanguageServer("wrong", "1", checks=None)
PLACE = {"start": {"line": 1, "character": 1}, "end": {"line": 0, "character": 0}}
server.feature("textDocument/hover")(lambda params: [])
server.feature("textDocument/documentSymbol")(lambda params: [{"name": "a", "kind": 99, "range": PLACE}])
server.feature("textDocument/codeLens", {"resolveProvider": True})(lambda params: [{"range": PLACE}] * 5)
server.feature("codeLens/resolve")(lambda params: {"range": None})
server.feature("textDocument/foldingRange")(lambda params: None)
server.start_io()
"""
#: Each with how often a session has it; 0 is once for each word.
FOUND = {
    "textDocument/hover: result must be a Hover or null, got array": 0,
    "textDocument/codeLens: result[0].range ends before its start: (0, 0) is before (1, 1)": 5,
    "codeLens/resolve: result.range must be an object, got null": sessions.MOST_RESOLVED,
    "textDocument/documentSymbol: result[0] lacks selectionRange": 1,
}


@pytest.fixture(autouse=True)
def hurried(monkeypatch: pytest.MonkeyPatch) -> None:
    monkeypatch.setattr(sessions, "PAUSE", 0.2)
    monkeypatch.setenv("PYTHONPATH", f"{ran.TOP}/bindings/python")


@pytest.mark.parametrize("name", ["language_server.py", "spelling_server.py", "language_server_by_hand.py"])
def test_our_examples(name: str) -> None:
    found, messages, why = sessions.shapes_of([sys.executable, f"{EXAMPLES}/{name}"], "words.py", "python")
    same([], found, name)
    check(messages > 20 and not why, f"{messages} messages; {why}")


def test_a_wrong_server() -> None:
    found, _, why = sessions.shapes_of([sys.executable, "-c", WRONG], "words.py", "python")
    same("", why)
    words = len(list(sessions.Source(f"{sessions.SOURCES}/words.py", "python").words()))
    times = {it.words: it.times for it in found if it.side == "server"}
    for what, count in FOUND.items():
        same(2 * (count or words), times.get(what), what)
    own = [it for it in found if it.side == "client" and not it.words.startswith("codeLens/resolve")]
    same([], own, "nothing is wrong that isn't an item of the server's")


def test_a_server_that_ends(monkeypatch: pytest.MonkeyPatch) -> None:
    # (so long its status is waited for where the process ends late behind its output, as on a busy machine)
    monkeypatch.setattr(_process, "_SECONDS", PATIENCE)
    _, messages, why = sessions.shapes_of([sys.executable, "-c", "import sys; sys.exit(3)"], "words.py", "python")
    check("status 3" in why, why)
    same(0, messages)


def test_each_source_is_there() -> None:
    """(and each has words to ask about)"""
    for name in os.listdir(sessions.SOURCES):
        if name.startswith("words."):
            source = sessions.Source(os.path.join(sessions.SOURCES, name), "")
            check(4 < len(list(source.words())) <= sessions.MOST_WORDS, name)
    with open(f"{ran.TOP}/spec/lsp.json", encoding="utf-8") as file:
        methods = json.load(file)["methods"]
    unknown = (set(sessions.BEHIND) | sessions.LEFT_OUT) - set(methods)
    same(set(), unknown)
