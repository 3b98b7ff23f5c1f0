"""Reads the tables of interfaces that lsp-mode and Eglot have: which members they require, and which they know."""
from __future__ import annotations

import re
from dataclasses import dataclass, field
from pathlib import Path
from typing import Any, Iterator

_TOKENS = re.compile(r";[^\n]*|([()])|([^\s()]+)")


@dataclass
class Interface:
    """The members of one interface."""

    required: set[str]
    optional: set[str]


@dataclass
class Interfaces:
    """The interfaces of one editor."""

    source: str
    interfaces: dict[str, Interface] = field(default_factory=dict)


def _lists(text: str) -> list[Any]:
    """The list that begins at the text's first parenthesis."""
    open_: list[list[Any]] = [[]]
    for found in _TOKENS.finditer(text):
        if found[1] == "(":
            open_.append([])
        elif found[1] == ")":
            done = open_.pop()
            open_[-1].append(done)
            if len(open_) == 1:
                return done
        elif found[2]:
            open_[-1].append(found[2])
    raise ValueError("a list that doesn't end")


def _members(listed: Any) -> set[str]:
    """The members of `(:a :b)`, of `((:a . string))` and of nil."""
    words = [it[0] if isinstance(it, list) else it for it in listed] if isinstance(listed, list) else []
    return {it[1:] for it in words if it.startswith(":")}


def _interfaces(entries: list[Any]) -> Iterator[tuple[str, Interface]]:
    for it in entries:
        if isinstance(it, list) and it and isinstance(it[0], str) and ":" not in it[0]:
            required, optional = ([*it[1:], [], []])[:2]
            yield it[0], Interface(_members(required), _members(optional))


def read_lsp_mode(file: Path) -> Interfaces:
    """The interfaces of lsp-mode's `lsp-protocol.el`."""
    text = file.read_text()
    made = Interfaces("lsp-mode")
    # (the table that is made of the specification stands behind those of single servers)
    for found in re.finditer(r"^\(lsp-interface", text, re.M):
        made.interfaces.update(_interfaces(_lists(text[found.start() :])[1:]))
    return made


def read_eglot(file: Path) -> Interfaces:
    """The interfaces of Eglot's `eglot.el`."""
    text = file.read_text()
    table = text[text.index("eglot--lsp-interface-alist") :]
    return Interfaces("eglot", dict(_interfaces(_lists(table))))
