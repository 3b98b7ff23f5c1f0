"""What a source says, in one form for all of them.

Types are written as in the specification: `string`, `Range[]`, `(Command | CodeAction)[]`, `[uinteger, uinteger]`,
`{[DocumentUri]: TextEdit[]}`, `'create'`.
"""
from __future__ import annotations

from dataclasses import dataclass, field
from typing import Optional, Union

Value = Union[int, str]


@dataclass
class Member:
    """A member of a structure."""

    type: str
    is_optional: bool
    by: list[str] = field(default_factory=list)


@dataclass
class Structure:
    """A structure, with the structures whose members it has too."""

    members: dict[str, Member] = field(default_factory=dict)
    extends: list[str] = field(default_factory=list)


@dataclass
class Enumeration:
    """An enumeration of strings or integers: its values by their names."""

    of: str
    values: dict[str, Value] = field(default_factory=dict)


@dataclass
class Method:
    """A method: to which side it is sent, what it has and what it gives."""

    to: str
    params: Optional[str] = None
    result: Optional[str] = None
    partial: Optional[str] = None
    is_request: bool = False


@dataclass
class Facts:
    """All that one source says."""

    source: str
    methods: dict[str, Method] = field(default_factory=dict)
    structures: dict[str, Structure] = field(default_factory=dict)
    aliases: dict[str, str] = field(default_factory=dict)
    enumerations: dict[str, Enumeration] = field(default_factory=dict)
