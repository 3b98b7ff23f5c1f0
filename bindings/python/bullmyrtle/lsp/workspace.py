"""The documents that an editor has open, and the folders that it works in."""
from __future__ import annotations

from _thread import get_ident

from .._hints import TYPE_CHECKING
from .._log import log
from ..errors import InvalidParams
from .documents import Document, member, path_of

if TYPE_CHECKING:
    from typing import Any, Dict, Optional

    Json = Dict[str, Any]


class Workspace:
    """The open documents of one session, by their URIs, and its folders."""

    def __init__(self) -> None:
        self.documents: Dict[str, Document] = {}
        self.folders: Dict[str, Json] = {}
        self.root_uri: Optional[str] = None
        self.encoding = "utf-16"
        self._thread = get_ident()

    @property
    def root_path(self) -> Optional[str]:
        return None if self.root_uri is None else path_of(self.root_uri)

    # (as pygls names it)
    @property
    def text_documents(self) -> Dict[str, Document]:
        return self.documents

    def document(self, about: Any) -> Document:
        """An open document, by its URI or by params that have a `textDocument`. In a thread it is a snapshot.

        Raises InvalidParams where it isn't open.
        """
        uri = about if isinstance(about, str) else member(member(about, "textDocument"), "uri")
        if not isinstance(uri, str) or uri not in self.documents:
            raise InvalidParams(f"Invalid params: this document isn't open: {str(uri)[:200]}")
        document = self.documents[uri]
        return document if get_ident() == self._thread else document.snapshot()

    def get_text_document(self, uri: str) -> Document:
        """An open document, or else what is in the file that the URI names. Raises OSError where that can't be read."""
        if uri in self.documents:
            return self.document(uri)
        path = path_of(uri)
        if path is None:
            raise InvalidParams(f"Invalid params: this document isn't open, and is no file: {uri[:200]}")
        try:
            with open(path, encoding="utf-8", errors="replace", newline="") as it:
                return Document(uri, it.read(), encoding=self.encoding)
        except ValueError as fault:  # (a name that no file has: with a NUL, or with half a surrogate pair)
            raise InvalidParams(f"Invalid params: no file has this name: {uri[:200]!r}") from fault

    get_document = get_text_document

    # What the editor tells

    def begin(self, params: Json, encoding: str) -> None:
        """What `initialize` says of them."""
        self._thread = get_ident()
        self.encoding = encoding
        self.root_uri, path = params.get("rootUri"), params.get("rootPath")
        if self.root_uri is None and path is not None:
            self.root_uri = "file://" + path
        for it in params.get("workspaceFolders") or ():
            self.folders[it["uri"]] = it

    def folders_changed(self, params: Json) -> None:
        """What `workspace/didChangeWorkspaceFolders` says."""
        for it in params["event"]["removed"]:
            self.folders.pop(it["uri"], None)
        for it in params["event"]["added"]:
            self.folders[it["uri"]] = it

    def opened(self, params: Json) -> None:
        """What `textDocument/didOpen` says."""
        about = params["textDocument"]
        uri = about["uri"]
        if uri in self.documents:
            log.warning("%s: it was opened, and is open already; the new text stands", uri)
        self.documents[uri] = Document(
            uri, about["text"], about.get("version"), about.get("languageId", ""), self.encoding
        )

    def changed(self, params: Json) -> None:
        """What `textDocument/didChange` says."""
        about = params["textDocument"]
        self.document(about["uri"]).change(params["contentChanges"], about.get("version"))

    def closed(self, params: Json) -> None:
        """What `textDocument/didClose` says."""
        del self.documents[self.document(params).uri]
