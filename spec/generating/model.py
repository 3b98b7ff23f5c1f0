"""A specification, as the generators ask it."""
from __future__ import annotations

from typing import Any, Iterator

Json = dict[str, Any]

#: What a version of MCP has of its own, and else of the version that it extends.
_PARTS = ("methods", "structures", "unions", "enumerations")
#: Types that no structure, union or enumeration defines.
PLAIN = {
    "string",
    "integer",
    "uinteger",
    "decimal",
    "boolean",
    "null",
    "LSPAny",
    "LSPObject",
    "any",
    "object",
    "DocumentUri",
    "URI",
}


def version_of(specification: Json, version: str) -> Json:
    """A version of MCP in the form that LSP's specification has."""
    own = specification["versions"][version]
    older = version_of(specification, own["extends"]) if "extends" in own else {part: {} for part in _PARTS}
    by = ["hand"]
    made: Json = {part: dict(older[part]) for part in _PARTS}
    made["methods"].update({name: {**it, "by": by} for name, it in own["methods"].items()})
    made["unions"].update(own["unions"])
    for name, values in own["enumerations"].items():
        made["enumerations"][name] = {"of": "string", "open": False, "values": {it: it for it in values}, "by": by}
    for name, it in own["structures"].items():
        members = {member: {"type": type_, "by": by} for member, type_ in it["members"].items()}
        made["structures"][name] = {**it, "members": members}
    return made


def members_of(specification: Json, name: str) -> Iterator[tuple[str, bool, Json]]:
    """The members of a structure, those of what it extends first: name, whether it may be absent, and the rest."""
    structure = specification["structures"][name]
    own = {it.rstrip("?") for it in structure["members"]}
    for base in structure.get("extends", ()):
        for member, is_optional, about in members_of(specification, base):
            if member not in own:
                yield member, is_optional, about
    for member, about in structure["members"].items():
        yield member.rstrip("?"), member.endswith("?"), about
