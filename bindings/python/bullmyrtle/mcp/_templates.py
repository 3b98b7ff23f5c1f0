"""Templates of resources' URIs, as `notes://{folder}/{name}` and `files:///{+path}`."""
from __future__ import annotations

import re
import urllib.parse
from typing import Dict, List, Optional

_PART = re.compile(r"\{(\+?)(\w+)\}")


class Template:
    """A URI with parts: `{name}` is what has no slash, and `{+name}` a path.

    A match takes time in proportion to the URI, which the other side chooses: a regular expression would try all cuts
    of `{year}-{month}-{day}`.
    """

    def __init__(self, uri: str) -> None:
        """Of this text. Raises ValueError if that has braces that aren't parts, or parts that can't be told apart."""
        self.names = [it[2] for it in _PART.finditer(uri)]
        odd = re.search(r"[{}]", _PART.sub("", uri))
        if odd is not None:
            raise ValueError(f"the URI {uri!r}: parts are {{name}}, or {{+name}} for a path")
        if len(set(self.names)) < len(self.names):
            raise ValueError(f"the URI {uri!r} has two parts of one name")
        paths = [it for it in _PART.finditer(uri) if it[1]]
        if len(paths) > 1:
            raise ValueError(f"the URI {uri!r} has two paths, which can't be told apart")
        self._path = paths[0][2] if paths else None
        self._segments = [_Segment(it) for it in uri.split("/")]
        #: The segment that has the path; without one, that behind the last.
        self._at = next((at for at, it in enumerate(self._segments) if it.has_path), len(self._segments))
        if paths and len(self._segments[self._at].names) > 1:
            raise ValueError(f"the URI {uri!r} has a path and another part without a slash between")

    def parts_of(self, uri: str) -> Optional[Dict[str, str]]:
        """The parts of a URI, decoded; None if it isn't one of this template's.

        A part is decoded once, after the match, so what is encoded in it may be a slash: such a part is refused, as is
        all else that would lead out of a folder if a program takes the part for the name of a file.
        """
        given = uri.split("/")
        behind = len(self._segments) - self._at - 1
        if self._path is None:
            segments = given
        else:
            end = len(given) - behind
            segments = [*given[: self._at], "/".join(given[self._at : end]), *given[end:]]
        if len(segments) != len(self._segments) or (self._path is not None and len(given) < len(segments)):
            return None
        found: Dict[str, str] = {}
        for template, it in zip(self._segments, segments):
            parts = template.parts_of(it)
            if parts is None:
                return None
            for name, part in parts.items():
                text = _decoded(part)
                if text is None or not (_is_path(text) if name == self._path else _is_name(text)):
                    return None
                found[name] = text
        return found


class _Segment:
    """What stands between two slashes of a template: texts, with parts between them."""

    def __init__(self, text: str) -> None:
        found = _PART.split(text)
        self._texts, self.names, self.has_path = found[::3], found[2::3], "+" in found[1::3]

    def parts_of(self, segment: str) -> Optional[Dict[str, str]]:
        """The parts of a segment; the first ones are as long as possible."""
        texts = self._texts
        if not self.names:
            return {} if segment == texts[0] else None
        start, end = len(texts[0]), len(segment) - len(texts[-1])
        if end <= start or not (segment.startswith(texts[0]) and segment.endswith(texts[-1])):
            return None
        found: Dict[str, str] = {}
        # (from the end, where the last place of a text is the only one that need be tried)
        for name, text in zip(self.names[:0:-1], texts[-2:0:-1]):
            at = segment.rfind(text, start + 1, end - 1)
            if at < 0:
                return None
            found[name], end = segment[at + len(text) : end], at
        found[self.names[0]] = segment[start:end]
        return found


def _decoded(part: str) -> Optional[str]:
    """A part without its percent signs; None if it isn't UTF-8 then."""
    try:
        return urllib.parse.unquote_to_bytes(part).decode()
    except UnicodeError:
        return None


def _is_name(text: str) -> bool:
    """Whether a text names one thing, in the folder that one looks in."""
    return text not in (".", "..") and not any(it in text for it in "/\\\0")


def _is_path(text: str) -> bool:
    """Whether a text is a path that begins in a folder and stays there. (An empty name at its start would be a root.)"""
    segments: List[str] = text.split("/")
    return segments[0] != "" and all(map(_is_name, segments))
