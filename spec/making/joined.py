"""Joins what the sources say to one specification, and lists where they differ."""
from __future__ import annotations

from typing import Any

from . import by_hand, notation
from .emacs import Interfaces
from .facts import Enumeration, Facts, Member, Method, Structure
from .notation import Array, Map, Name, Type, Union_

Json = dict[str, Any]

_STRINGS = {"DocumentUri", "URI", "Pattern", "ChangeAnnotationIdentifier"}
_GIVEN_BY_LITERAL = {gopls: name for name, (gopls, _) in by_hand.LITERALS.items()}
_GIVEN_BY_LITERAL.update(by_hand.SAME)
_GIVEN_BY_LITERAL.update(by_hand.EMPTY)


class Joining:
    """The specification, while it is made."""

    def __init__(self, gopls: Facts, qt: Facts, tables: list[Interfaces]) -> None:
        self._gopls, self._qt, self._tables = gopls, qt, tables
        self.differences: list[Json] = []
        self.structures: dict[str, Structure] = {}
        self.methods: Json = {}

    # Types

    def _is_lost(self, name: str) -> bool:
        """Whether gopls's files have a union by a name of their own, without its parts."""
        return name.startswith("Or") or name == "LSPAny" or name.startswith("Msg_")

    def _renamed(self, it: Type) -> Type:
        """gopls's type with the names of literal structures that we have."""
        if isinstance(it, Name):
            return Name(_GIVEN_BY_LITERAL.get(it.name, it.name))
        if isinstance(it, Array):
            return Array(self._renamed(it.of))
        if isinstance(it, Map):
            return Map(self._renamed(it.key), self._renamed(it.of))
        return it

    def _plain(self, it: Type) -> Type:
        """A type as both sources can say it: Qt's has no strings and integers of a special kind."""
        if isinstance(it, Name):
            known = self._gopls.enumerations.get(it.name)
            if it.name in _STRINGS or (known is not None and known.of == "string"):
                return Name("string")
            return Name("integer") if it.name == "uinteger" or known is not None else it
        if isinstance(it, Array):
            return Array(self._plain(it.of))
        if isinstance(it, Union_):
            return Union_(tuple(self._plain(part) for part in it.of))
        return notation.Tuple(tuple(map(self._plain, it.of))) if isinstance(it, notation.Tuple) else it

    def _of_both(self, theirs: Type, qts: Type) -> Type | None:
        """A type that both sources agree on, as far as each one can say it; None if they don't."""
        plain, other = self._plain(theirs), self._plain(qts)
        if plain == other:
            return theirs
        if isinstance(theirs, Name) and isinstance(qts, Name):
            # (literal structures have no names in Qt's header, and are objects)
            return theirs if qts.name == "LSPObject" and theirs.name in by_hand.LITERALS else None
        if isinstance(theirs, Map) and qts == Name("LSPObject"):
            return theirs
        if isinstance(qts, Union_):
            if isinstance(theirs, Name) and self._is_lost(theirs.name):
                return qts
            if plain in notation.parts(other):
                return Union_(tuple(theirs if self._plain(part) == plain else part for part in qts.of))
        if isinstance(theirs, Array) and isinstance(qts, Array):
            inner = self._of_both(theirs.of, qts.of)
            return None if inner is None else Array(inner)
        return None

    def _type(self, place: str, theirs: str, qts: str | None) -> tuple[str, list[str]]:
        """The type at a place, and the sources that it is by."""
        given = self._renamed(notation.read(theirs))
        hand = by_hand.MEMBERS.get(place)
        if hand is not None:
            is_qts = qts is not None and self._plain(notation.read(hand)) == self._plain(notation.read(qts))
            return hand, ["gopls", "qt"] if is_qts else ["gopls", "hand"]
        if qts is None:
            return notation.written(given), ["gopls"]
        both = self._of_both(given, notation.read(qts))
        if both is not None:
            return notation.written(both), ["gopls", "qt"]
        self._differ(place, notation.written(given), qts, "gopls")
        return notation.written(given), ["gopls"]

    def _differ(self, place: str, theirs: object, qts: object, believed: str) -> None:
        self.differences.append({"at": place, "gopls": theirs, "qt": qts, "believed": believed})

    # Structures

    def _flat(self, facts: Facts, name: str) -> dict[str, Member]:
        found: dict[str, Member] = {}
        structure = facts.structures.get(name, Structure())
        for it in structure.extends:
            found.update(self._flat(facts, it))
        return {**found, **structure.members}

    def _joined_structure(self, name: str, structure: Structure) -> Structure:
        others = self._flat(self._qt, name)
        mine = self._flat(self._gopls, name)
        made = Structure(extends=list(structure.extends))
        for member, it in structure.members.items():
            other = others.get(member)
            type_, by = self._type(f"{name}.{member}", it.type, None if other is None else other.type)
            if other is not None and other.is_optional != it.is_optional:
                self._differ(f"{name}.{member} may be absent", it.is_optional, other.is_optional, "gopls")
            made.members[member] = Member(type_, it.is_optional, by)
        for member, other in others.items():
            if member not in mine:
                self._differ(f"{name}.{member}", "no such member", other.type, "gopls")
        self._look_at_tables(name, mine)
        return made

    def _look_at_tables(self, name: str, members: dict[str, Member]) -> None:
        """A third look: which members lsp-mode and Eglot require and know."""
        for table in self._tables:
            known = table.interfaces.get(name)
            if known is None:
                continue
            required = {it for it, member in members.items() if not member.is_optional}
            extra = sorted((known.required | known.optional) - set(members))
            stricter = sorted((known.required & set(members)) - required)
            laxer = sorted(known.optional & required)
            for words, found in (("unknown", extra), ("required", stricter), ("may be absent", laxer)):
                for member in found:
                    place = f"{name}.{member}"
                    self.differences.append({"at": place, table.source: words, "believed": "gopls"})

    def _initialize(self) -> Structure:
        """gopls's file has the params of `initialize` in two halves, and without the token for progress."""
        made = Structure(extends=["WorkDoneProgressParams"])
        halves = ("XInitializeParams", "WorkspaceFoldersInitializeParams")
        qts = self._qt.structures["InitializeParams"].members
        for half in halves:
            for member, it in self._gopls.structures[half].members.items():
                type_, by = self._type(f"InitializeParams.{member}", it.type, qts[member].type)
                made.members[member] = Member(type_, it.is_optional, by)
        return made

    def _literal(self, name: str) -> Structure:
        gopls, members = by_hand.LITERALS[name]
        known = self._gopls.structures[gopls].members
        made = Structure()
        for member, type_ in members.items():
            by = ["gopls", "hand"] if member.rstrip("?") in known else ["hand"]
            made.members[member.rstrip("?")] = Member(type_, member.endswith("?"), by)
        return made

    def join_structures(self) -> None:
        """Joins all structures."""
        skipped = {*_GIVEN_BY_LITERAL, *by_hand.NOT_OF_LSP, "InitializeParams"}
        skipped |= {"XInitializeParams", "WorkspaceFoldersInitializeParams", "_InitializeParams"}
        for name, structure in self._gopls.structures.items():
            if name not in skipped and name.isidentifier() and not name.startswith("Or"):
                self.structures[name] = self._joined_structure(name, structure)
        self.structures["InitializeParams"] = self._initialize()
        for name in by_hand.LITERALS:
            self.structures[name] = self._literal(name)
        # (an error isn't in gopls's files, since its library has it)
        response = self._qt.structures["ResponseError"]
        for it in response.members.values():
            it.by = ["qt"]
        self.structures["ResponseError"] = response

    # Methods

    def _result(self, name: str, theirs: Method, qts: Method | None) -> tuple[Json, list[str]]:
        if name in by_hand.METHODS:
            params, result, partial = by_hand.METHODS[name]
            return {"params": params, "result": result, "partial": partial}, ["gopls", "hand"]
        if qts is None:
            result = theirs.result or ("null" if theirs.is_request else None)
            return {"params": theirs.params, "result": result, "partial": None}, ["gopls"]
        # (of progress Qt's header has the params as a template, and of telemetry any object)
        if theirs.params != qts.params and name not in ("$/progress", "telemetry/event"):
            self._differ(f"{name} params", theirs.params, qts.params, "gopls")
        return {"params": theirs.params, "result": qts.result, "partial": qts.partial}, ["gopls", "qt"]

    def join_methods(self) -> None:
        """Joins all methods."""
        theirs = dict(self._gopls.methods)
        theirs["$/cancelRequest"] = Method("both", "CancelParams")
        for name in sorted(theirs):
            method = theirs[name]
            known, by = self._result(name, method, self._qt.methods.get(name))
            to = method.to
            if name in by_hand.TO_CLIENT:
                source = by_hand.TO_CLIENT[name]
                place = f"{name} is sent to"
                self.differences.append({"at": place, "gopls": "server", source: "client", "believed": source})
                to = "client"
            made: Json = {"to": "both" if name in by_hand.TO_BOTH else to}
            made["kind"] = "request" if method.is_request else "notification"
            made.update({key: it for key, it in known.items() if it is not None})
            options = by_hand.registration_of(name)
            if options in self.structures and made["to"] == "server":
                made["options"] = options
            capability = by_hand.capability_of(name)
            if capability is not None and made["to"] == "server":
                made["capability"] = capability
            made["by"] = by
            self.methods[name] = made

    # Enumerations

    def enumerations(self) -> Json:
        """The enumerations, with the names of their values from Qt's header if it has them."""
        made: Json = {}
        for name, it in self._gopls.enumerations.items():
            qts = self._qt.enumerations.get(name)
            made[name] = {
                "of": it.of,
                "open": name in by_hand.OPEN,
                "values": dict(zip(self._value_names(name, it, qts), it.values.values())),
                "by": ["gopls"] if qts is None else ["gopls", "qt"],
            }
        for name, (of, values) in by_hand.ENUMERATIONS.items():
            made[name] = {"of": of, "open": False, "values": values, "by": ["qt"]}
        return dict(sorted(made.items()))

    def _value_names(self, name: str, it: Enumeration, qts: Enumeration | None) -> list[str]:
        names = [] if qts is None else list(qts.values)
        if qts is not None and it.of != "string" and list(qts.values.values()) != list(it.values.values()):
            self._differ(f"{name} values", list(it.values.values()), list(qts.values.values()), "gopls")
            names = []
        rest = by_hand.VALUE_NAMES.get(name) or list(it.values)[len(names) :]
        return [*names, *rest][: len(it.values)]
