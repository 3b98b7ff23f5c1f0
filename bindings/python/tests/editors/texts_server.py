"""A language server that tells what it has of each document, so that an editor can compare it with its buffer."""
from bullmyrtle.lsp import LanguageServer

server = LanguageServer("texts", "1.0")


@server.feature("test/text")
def text(ls, params):
    document = ls.document(params)
    return {"text": document.text, "version": document.version, "lines": document.line_count}


@server.feature("test/position")
def position(ls, params):
    """An offset of a position, and the position of that."""
    document = ls.document(params)
    offset = document.offset(params["position"])
    return {"offset": offset, "position": document.position(offset)}


server.start_io()
