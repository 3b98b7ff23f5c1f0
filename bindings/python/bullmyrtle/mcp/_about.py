"""What servers, hosts, tools, resources and prompts say of themselves, and since which version."""
from __future__ import annotations

import dataclasses
import re
import warnings
from typing import Any, Dict, Optional, Sequence

Json = Dict[str, Any]

# The version that has a member first. Members that aren't here are in all versions.
_SINCE = {
    "annotations": "2025-03-26",
    "title": "2025-06-18",
    "outputSchema": "2025-06-18",
    "icons": "2025-11-25",
    "description of a program": "2025-11-25",
    "websiteUrl": "2025-11-25",
    "execution": "2025-11-25",
}
_NAME = re.compile(r"[A-Za-z0-9_.-]{1,128}")


@dataclasses.dataclass
class Icon:
    """An icon, since version 2025-11-25: its URI (`https:` or `data:`), and its type, sizes (as "48x48") and theme."""

    src: str
    mime_type: Optional[str] = None
    sizes: Optional[Sequence[str]] = None
    theme: Optional[str] = None

    def __post_init__(self) -> None:
        # (hosts refuse others, since these would run code or read files)
        if not self.src.startswith(("https://", "http://", "data:")):
            raise ValueError(f"an icon's URI is one of https: or data:, got {self.src[:60]!r}")
        if self.theme not in (None, "light", "dark"):
            raise ValueError(f'an icon\'s theme is "light" or "dark", got {self.theme!r}')

    def as_json(self) -> Json:
        """The icon as the protocol has it."""
        sizes = None if self.sizes is None else list(self.sizes)
        return present({"src": self.src, "mimeType": self.mime_type, "sizes": sizes, "theme": self.theme})


def icons_of(icons: Optional[Sequence[Icon]]) -> Any:
    """Icons as the protocol has them."""
    return None if icons is None else [it.as_json() for it in icons]


def present(members: Json) -> Json:
    """The members that aren't None."""
    return {name: it for name, it in members.items() if it is not None}


def known(members: Json, version: str) -> Json:
    """The members that a version has."""
    return {name: it for name, it in members.items() if _SINCE.get(name, "") <= version}


def program(members: Json, version: str) -> Json:
    """The members of a server or a host that a version has."""
    made = known(members, version)
    if version < _SINCE["description of a program"]:
        made.pop("description", None)
    return made


def check_tool_name(name: str) -> None:
    """Warns of a name that some hosts refuse."""
    if _NAME.fullmatch(name) is None:
        words = "1 to 128 letters, digits, and _ - . are what hosts take"
        warnings.warn(f"the tool's name {name[:140]!r}: {words}", UserWarning, stacklevel=3)
