"""Reads gopls's `tsprotocol.go`, `tsserver.go` and `tsclient.go`, which are made of the specification's own model.

They have each structure and member, and which members may be absent. They lose unions: a member has one of its types,
or `interface{}`, or a type `Or_..` without its parts; and literal structures lose which members may be absent.
"""
from __future__ import annotations

import re
from pathlib import Path

from .facts import Enumeration, Facts, Member, Method, Structure

_PLAIN = {
    "string": "string",
    "bool": "boolean",
    "uint32": "uinteger",
    "int32": "integer",
    "float64": "decimal",
    "interface{}": "LSPAny",
    "json.RawMessage": "LSPAny",
    "DocumentURI": "DocumentUri",
    "PreviousResultID": "PreviousResultId",
    "ParamInitialize": "InitializeParams",
    "ParamConfiguration": "ConfigurationParams",
    "UIntCommaUInt": "[uinteger, uinteger]",
    "PrepareRename2Gn": "PrepareRenameResult",
    "DocumentChanges": "LSPAny",
}
_CONSTANT = re.compile(r'^\t(\w+)\s+(\w+)\s*= (-?\d+|"[^"]*")', re.M)


def type_of(go: str) -> str:
    """A type of Go in our notation."""
    go = go.lstrip("*")
    if go.startswith("[]"):
        return f"{type_of(go[2:])}[]"
    if go.startswith("map["):
        key, value = go[4:].split("]", 1)
        return f"{{[{type_of(key)}]: {type_of(value)}}}"
    return _PLAIN.get(go, go)


def _without_comments(text: str) -> str:
    text = re.sub(r"/\*.*?\*/", "", text, flags=re.S)
    return re.sub(r"//[^\n]*", "", text)


def _structure(body: str) -> Structure:
    made = Structure()
    for line in body.splitlines():
        words = line.split()
        if len(words) == 1:
            made.extends.append(type_of(words[0]))
        elif words:
            name, *flags = words[-1].strip("`")[len('json:"') : -1].split(",")
            made.members[name] = Member(type_of(words[1]), "omitempty" in flags)
    return made


def _methods(text: str, to: str) -> dict[str, Method]:
    """The methods of an interface, whose lines end with their names."""
    found = {}
    lines = re.findall(r"^\t\w+\(context\.Context(?:, \*([\w{}]+))?\) (.+?)\s*// (\S+)$", text, re.M)
    for params, gives, name in lines:
        result = re.fullmatch(r"\((.+), error\)", gives)
        found[name] = Method(to, type_of(params) if params else None, type_of(result[1]) if result else None)
    return found


def _requests(text: str) -> set[str]:
    return set(re.findall(r'sender\.Call\(ctx, "([^"]+)"', text))


def read(folder: Path) -> Facts:
    """What gopls's files say."""
    facts = Facts("gopls")
    text = _without_comments((folder / "tsprotocol.go").read_text())
    for name, body in re.findall(r"^type (\w+) struct \{ *\n(.*?)^\}", text, re.M | re.S):
        facts.structures[type_of(name)] = _structure(body)
    facts.aliases = {name: type_of(it) for name, it in re.findall(r"^type (\w+) = (\S+)", text, re.M)}
    bases = dict(re.findall(r"^type (\w+)\s+(string|uint32|int32)\s*$", text, re.M))
    for name, kind, value in _CONSTANT.findall(text):
        # (the only one that is another name for a type is of integers)
        of = bases.get(kind, "uint32")
        values = facts.enumerations.setdefault(kind, Enumeration(type_of(of))).values
        values[name] = value.strip('"') if value.startswith('"') else int(value)
    for side, to in (("server", "server"), ("client", "client")):
        source = (folder / f"ts{side}.go").read_text()
        requests = _requests(source)
        for name, method in _methods(source, to).items():
            method.is_request = name in requests
            known = facts.methods.get(name)
            facts.methods[name] = method
            if known is not None:
                method.to = "both"
    return facts
