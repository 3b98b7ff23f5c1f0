"""A language server: it shows how often a word stands in the text."""
import re

from bullmyrtle.lsp import LanguageServer

server = LanguageServer("words", "1.0")


@server.feature("textDocument/hover")
def hover(ls, params):
    document = ls.document(params)
    word = document.word_at(params["position"])
    times = len(re.findall(rf"\b{word}\b", document.text))
    return {"contents": f"{word}: {times}"} if word else None


server.start_io()
