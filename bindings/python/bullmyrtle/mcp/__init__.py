"""The Model Context Protocol: a tool server, and a host's side, over `Server` and `Client`."""
from ._about import Icon
from .._signatures.schemas import Titles
from ._bearer import Bearer, NotEnough
from ._eliciting import Elicited, PageElicitation, UrlElicitationRequired
from ._events import EventStore, MemoryEvents
from ._http_settings import HttpSettings
from ._life import VERSIONS
from ._results import InvalidResult
from ._sampling import tool_result, tool_uses
from .client import CallResult, ToolClient, ToolTask, UnknownVersion
from .content import Audio, EmbeddedResource, Image, ResourceLink, ToolError, ToolResult
from .context import Context
from .server import ToolServer

__all__ = [
    "VERSIONS",
    "Audio",
    "Bearer",
    "CallResult",
    "Context",
    "Elicited",
    "EmbeddedResource",
    "EventStore",
    "HttpSettings",
    "Icon",
    "Image",
    "InvalidResult",
    "MemoryEvents",
    "NotEnough",
    "PageElicitation",
    "ResourceLink",
    "Titles",
    "ToolClient",
    "ToolError",
    "ToolResult",
    "ToolServer",
    "ToolTask",
    "UnknownVersion",
    "UrlElicitationRequired",
    "tool_result",
    "tool_uses",
]
