"""A language server: the life of the protocol, open documents, and what the editor can be asked, over `Server`."""
from .documents import Document, path_of, uri_of
from .progress import Partial, Progress
from .server import LanguageServer
from .workspace import Workspace

__all__ = ["Document", "LanguageServer", "Partial", "Progress", "Workspace", "path_of", "uri_of"]
