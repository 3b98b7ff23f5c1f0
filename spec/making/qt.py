"""Reads the header of Qt's language server, which is made of LSP 3.16.

It has unions. It has no names for literal structures (`QJsonObject`), nor for enumerations of strings, and one type for
all integers.
"""
from __future__ import annotations

import re
from pathlib import Path

from .facts import Enumeration, Facts, Member, Method, Structure

_PLAIN = {
    "QByteArray": "string",
    "QString": "string",
    "bool": "boolean",
    "int": "integer",
    "double": "decimal",
    "QJsonObject": "LSPObject",
    "QJsonValue": "LSPAny",
    "std::nullptr_t": "null",
    "ApplyWorkspaceEditResponse": "ApplyWorkspaceEditResult",
    "TraceValue": "TraceValues",
    "RangePlaceHolder": "PrepareRenamePlaceholder",
    "DefaultBehaviorStruct": "PrepareRenameDefaultBehavior",
    "StringAndLanguage": "MarkedStringWithLanguage",
}


def _parts(text: str) -> list[str]:
    depth, at, found = 0, 0, []
    for i, it in enumerate(text):
        depth += (it == "<") - (it == ">")
        if it == "," and not depth:
            found.append(text[at:i].strip())
            at = i + 1
    return [*found, text[at:].strip()]


def type_of(cpp: str) -> str:
    """A type of C++ in our notation."""
    cpp = re.sub(r"\s+", " ", cpp).strip().replace("public: ", "")
    outer = re.fullmatch(r"(?:std::|Q)?(variant|optional|List|Vector|pair|unique_ptr)< ?(.*)>", cpp)
    if outer is None:
        return _PLAIN.get(cpp, cpp)
    inner = [type_of(it) for it in _parts(outer[2])]
    if outer[1] == "variant":
        return " | ".join(inner)
    if outer[1] in ("List", "Vector"):
        return f"({inner[0]})[]" if "|" in inner[0] else f"{inner[0]}[]"
    return f"[{', '.join(inner)}]" if outer[1] == "pair" else inner[0]


def _structure(bases: str, body: str) -> Structure:
    found = re.findall(r"\n    ((?:const |public: )?[A-Za-z][\w:<>,\s]*?) (\w+) = [^;]*;", body)
    names = {member: name for name, member in re.findall(r'field\(w, "([^"]+)", (\w+)\)', body)}
    made = Structure(extends=[it.replace("public", "").strip() for it in bases.split(",") if it.strip()])
    for cpp, member in found:
        cpp = cpp.strip()
        made.members[names.get(member, member)] = Member(type_of(cpp), "std::optional<" in cpp)
    return made


def _methods(text: str, facts: Facts) -> None:
    using = dict(re.findall(r"using (\w+) =\s*([^;]+);", text))
    for space in ("Requests", "Notifications"):
        body = text.split(f"namespace {space} {{")[1].split("\n}")[0]
        local = {**using, **dict(re.findall(r"using (\w+) =\s*([^;]+);", body))}
        results = text.split("namespace Responses {")[1].split("\n}")[0] if space == "Requests" else ""
        given = {**using, **dict(re.findall(r"using (\w+) =\s*([^;]+);", results))}
        for name, method in re.findall(r'constexpr auto (\w+)Method =\s+"([^"]+)"', body):
            # (the header doesn't say to which side a method is sent)
            made = facts.methods[method] = Method("?", is_request=space == "Requests")
            params = local.get(f"{name}ParamsType")
            made.params = None if params in (None, "std::nullptr_t") else type_of(str(params))
            if space == "Requests":
                made.result = type_of(given[f"{name}ResultType"])
                partial = given.get(f"{name}PartialResultType")
                made.partial = None if partial is None else type_of(partial)


def read(folder: Path) -> Facts:
    """What Qt's header says."""
    facts = Facts("qt")
    text = "".join((folder / f"qlanguageserver{it}_p.h").read_text() for it in ("prespectypes", "spectypes"))
    text = re.sub(r"//[^\n]*", "", text)
    pattern = r"class Q_LANGUAGESERVER_EXPORT (\w+)\s*(?::\s*([^{]*?))?\s*\{(.*?)\n\};"
    for name, bases, body in re.findall(pattern, text, re.S):
        facts.structures[type_of(name)] = _structure(bases, body)
    facts.aliases = {name: type_of(it) for name, it in re.findall(r"using (\w+) =\s*([^;]+);", text)}
    for name, body in re.findall(r"enum class (\w+)[^{]*\{([^}]*)\}", text):
        values = {it: int(value) for it, value in re.findall(r"(\w+)\s*=\s*(-?\d+)", body)}
        # (of an enumeration of strings it has the names, and not the strings)
        words = {it: it for it in re.findall(r"\w+", re.sub(r"/\*.*?\*/", "", body, flags=re.S))}
        made = Enumeration("integer", {**values}) if values else Enumeration("string", {**words})
        facts.enumerations[type_of(name)] = made
    _methods((folder / "qlanguageserverspec_p.h").read_text(), facts)
    return facts
