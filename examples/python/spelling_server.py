"""A language server for a folder of texts: it counts words, and finds those that stand twice or are misspelt.

A word is written as the folder's file `words.txt` has it; or, where there is no such file, as the texts have it most
often. The folder's texts are its files `*.txt`, as they are on the disk or in the editor.
"""
import asyncio
import collections
import difflib
import pathlib
import re

from bullmyrtle.lsp import LanguageServer, uri_of

server = LanguageServer("spelling", "1.0")
WORD, REPEATED = re.compile(r"[^\W\d_]+"), re.compile(r"\b(\w+)\s+(\1)\b", re.IGNORECASE)
counts = {}  # of the words of each text, by its URI
listed = set()  # the words of words.txt
checks = {}  # the tasks that look at open documents, by their URIs


def words_in(text):
    return collections.Counter(it.lower() for it in WORD.findall(text))


def total():
    return sum(counts.values(), collections.Counter())


def correction(word, known):
    """How a word is written, or None where it is right, or nothing is like it."""
    times = known[word]
    if word in listed or times > 1 or len(word) < 4:
        return None
    others = listed or [it for it in known if known[it] > 2 * times and abs(len(it) - len(word)) < 2]
    return next(iter(difflib.get_close_matches(word, others, 1, 0.8)), None)


def faults_in(document):
    """The words that are wrong, with their ranges and what is to stand there."""
    known, text = total(), document.text
    for found in REPEATED.finditer(text):
        yield found.span(), f"{found[2]!r} stands twice", found[1]
    for found in WORD.finditer(text):
        right = correction(found[0].lower(), known)
        if right is not None:
            yield found.span(), f"{found[0]!r} looks like {right!r}", right


@server.feature("initialized")
async def index(ls):
    """Reads the folder's texts."""
    folder = pathlib.Path(ls.workspace.root_path or ".")
    files = sorted(folder.glob("*.txt"))
    async with ls.progress("Reading texts", percentage=0, cancellable=True) as progress:
        for at, file in enumerate(files):
            progress.report(file.name, 100 * at // len(files))
            words = words_in(file.read_text(encoding="utf-8", errors="replace"))
            if file.name == "words.txt":
                listed.update(words)
            else:
                counts.setdefault(uri_of(file), words)
            await asyncio.sleep(0)  # (a cancel arrives here, and so do other requests)
    for document in ls.workspace.documents.values():
        look_at(ls, document)


def look_at(ls, document):
    """Looks at a document, as soon as nobody has typed for a moment."""
    if document.uri in checks:
        checks[document.uri].cancel()
    checks[document.uri] = asyncio.ensure_future(check(ls, document))


@server.feature("textDocument/didOpen")
@server.feature("textDocument/didChange")
def changed(ls, params):
    look_at(ls, ls.document(params))


async def check(ls, document):
    await asyncio.sleep(0.05)
    counts[document.uri] = words_in(document.text)
    found = [
        {"range": document.range(*span), "severity": 2, "message": message, "data": right}
        for span, message, right in faults_in(document)
    ]
    ls.publish_diagnostics(document, found)


@server.feature("textDocument/didClose")
def closed(ls, params):
    checks.pop(params["textDocument"]["uri"]).cancel()


@server.feature("textDocument/hover")
async def hover(ls, params):
    word = ls.document(params).word_at(params["position"], WORD)
    if word:
        label = await ls.configuration("words.label") or "times"
        return {"contents": f"{word}: {total()[word.lower()]} {label}"}


@server.feature("textDocument/completion", {"triggerCharacters": ["-"]})
def complete(ls, params):
    document, place = ls.document(params), params["position"]
    before = document.text_in({"start": {"line": place["line"], "character": 0}, "end": place})
    typed = re.search(r"[^\W\d_]*$", before)[0].lower()
    return [{"label": it, "detail": str(times)} for it, times in total().items() if it.startswith(typed)]


@server.feature("textDocument/codeAction", {"codeActionKinds": ["quickfix"]})
def actions(ls, params):
    document, at = ls.document(params), params["range"]["start"]["line"]
    found = []
    for span, message, right in faults_in(document):
        place = document.range(*span)
        if place["start"]["line"] == at:
            edit = {"changes": {document.uri: [{"range": place, "newText": right}]}}
            found.append({"title": f"Write {right!r}", "kind": "quickfix", "edit": edit})
    return found


@server.command("count")
async def count(ls, seconds=0):
    """Counts the words of all texts; it may take its time for each, so that there is something to cancel."""
    words = 0
    async with ls.progress("Counting", cancellable=True) as progress:
        for uri, there in list(counts.items()):
            progress.report(uri)
            await asyncio.sleep(seconds)
            words += sum(there.values())
    return None if progress.is_cancelled else words


if __name__ == "__main__":
    server.start_io()
