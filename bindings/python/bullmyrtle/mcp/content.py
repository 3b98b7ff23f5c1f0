"""What tools, prompts and resources give: texts, images, sounds, links, and values with a structure."""
from __future__ import annotations

import base64
import dataclasses
import mimetypes
import os
from typing import Any, Dict, List, Optional, Sequence, Union

from .._json import dumps
from .._signatures.values import plain
from ._about import Icon, icons_of, known, present

Json = Dict[str, Any]
Path = Union[str, "os.PathLike[str]"]


class ToolError(Exception):
    """What a tool raises that failed: its text is sent as the tool's result, as an error of the tool's own."""


class Content:
    """A part of what a tool gives."""

    def as_json(self, version: str) -> Json:
        """The part as the agreed version of the protocol has it."""
        raise NotImplementedError


def _base64(data: bytes) -> str:
    return base64.b64encode(data).decode("ascii")


class _Media(Content):
    kind = ""

    def __init__(
        self, data: Optional[bytes] = None, *, path: Optional[Path] = None, mime_type: str = ""
    ) -> None:
        """Make one of bytes, with their type, or of a file, whose name tells the type where none is given."""
        if (data is None) == (path is None):
            raise TypeError(f"{type(self).__name__} is made of data or of a path")
        if data is None:
            assert path is not None
            with open(path, "rb") as it:
                data = it.read()
            mime_type = mime_type or mimetypes.guess_type(os.fspath(path))[0] or ""
        if not mime_type:
            raise TypeError(f"the type of this {self.kind} isn't known: give mime_type, as '{self.kind}/..'")
        self.data, self.mime_type = data, mime_type

    def as_json(self, version: str) -> Json:
        return {"type": self.kind, "data": _base64(self.data), "mimeType": self.mime_type}


class Image(_Media):
    """An image: `Image(data, mime_type="image/png")`, or `Image(path="a.png")`."""

    kind = "image"


class Audio(_Media):
    """A sound, since version 2025-03-26; before, a text tells of it."""

    kind = "audio"

    def as_json(self, version: str) -> Json:
        """The part as the agreed version of the protocol has it."""
        if version < "2025-03-26":
            return text(f"(audio of type {self.mime_type}, {len(self.data)} bytes)")
        return super().as_json(version)


@dataclasses.dataclass
class ResourceLink(Content):
    """A link to a resource, since version 2025-06-18; before, a text with its URI."""

    uri: str
    name: str
    description: Optional[str] = None
    mime_type: Optional[str] = None
    title: Optional[str] = None
    icons: Optional[Sequence[Icon]] = None

    def as_json(self, version: str) -> Json:
        """The part as the agreed version of the protocol has it."""
        if version < "2025-06-18":
            return text(f"{self.name}: {self.uri}")
        more = {"title": self.title, "description": self.description, "mimeType": self.mime_type}
        link = present({**more, "icons": icons_of(self.icons)})
        return {"type": "resource_link", "uri": self.uri, "name": self.name, **known(link, version)}


@dataclasses.dataclass
class EmbeddedResource(Content):
    """A resource that stands in the result itself: a text, or bytes."""

    uri: str
    contents: Union[str, bytes]
    mime_type: Optional[str] = None

    def as_json(self, version: str) -> Json:
        """The part as the agreed version of the protocol has it."""
        return {"type": "resource", "resource": contents_of(self.uri, self.contents, self.mime_type)}


@dataclasses.dataclass
class ToolResult:
    """A tool's result by hand: its parts, a structured value beside them, and whether it tells of an error."""

    content: List[Any]
    structured: Optional[Json] = None
    is_error: bool = False
    meta: Optional[Json] = None


def text(words: str) -> Json:
    """A text, as a part of a result or of a message."""
    return {"type": "text", "text": words}


def json_of(value: Any) -> bytes:
    """The text of a value's JSON."""
    try:
        return dumps(value)
    except TypeError:  # (it may have times, sets and the like, and mostly has none)
        return dumps(plain(value))


def parts_of(value: Any, version: str) -> List[Json]:
    """The parts of what a tool gave."""
    if value is None:
        return []
    if isinstance(value, Content):
        return [value.as_json(version)]
    if isinstance(value, str):
        return [text(value)]
    if isinstance(value, (list, tuple)) and any(isinstance(it, Content) for it in value):
        return [part for it in value for part in parts_of(it, version)]
    return [text(json_of(value).decode())]


def contents_of(uri: str, value: Any, mime_type: Optional[str]) -> Json:
    """A resource's contents: a text, bytes, or a value as the text of its JSON."""
    if isinstance(value, (bytes, bytearray)):
        return {
            "uri": uri,
            "mimeType": mime_type or "application/octet-stream",
            "blob": _base64(bytes(value)),
        }
    if isinstance(value, str):
        return {"uri": uri, "mimeType": mime_type or "text/plain", "text": value}
    return {"uri": uri, "mimeType": mime_type or "application/json", "text": json_of(value).decode()}
