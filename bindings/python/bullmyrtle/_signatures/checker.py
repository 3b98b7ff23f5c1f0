"""JSON Schemas that are given by hand: what is wrong with one is found when it is registered."""
from __future__ import annotations

import urllib.parse
from typing import Any, Dict, List, Tuple

from .._json import plain_dumps, plain_loads
from ..errors import InvalidParams
from .readers import ANYTHING, RULES, TYPES, Constants, Every, FirstOf, Items, Members, Not, Nothing, OneOf
from .readers import Reader, Rule, Typed, read, shown

Json = Dict[str, Any]

#: The words of JSON Schema (2020-12) that are checked. Others are left to the host, which gets them all.
CHECKED = ["type", "enum", "const", "properties", "required", "additionalProperties", "items", "prefixItems"]
CHECKED += ["anyOf", "oneOf", "allOf", "not", "$ref", *RULES]
_CHECKED = set(CHECKED)
_CIRCLE = " by references, with no member or item between"


class Checker:
    """Says whether values are as a schema allows."""

    def __init__(self, schema: Any, name: str = "schema") -> None:
        """For a schema of this name. Raises ValueError, with the place, if it isn't one that can be checked."""
        self.reader = _Reading(schema, name).reader

    def __call__(self, value: Any, place: str) -> None:
        """Raises InvalidParams, with the place, if the schema doesn't allow the value."""
        read(self.reader, value, place, lambda text: InvalidParams(f"Invalid params: {text}"))


class _Reading:
    """Makes the readers of one schema. Places are JSON pointers, as those of `$ref`."""

    def __init__(self, schema: Any, name: str) -> None:
        self._name = name
        try:
            # (as JSON has it: what the program changes in its own later is no part of it)
            self._root = plain_loads(plain_dumps(schema))
        except (TypeError, ValueError) as error:
            raise ValueError(f"{name} isn't JSON: {error}") from None
        self._made: Dict[str, Every] = {}
        # Of each schema, those that are about the same value.
        self._about: Dict[str, List[str]] = {}
        self.reader = self._of(self._root, "#")
        if isinstance(self._root, dict) and isinstance(self._root.get("$defs"), dict):
            self._all(self._root["$defs"], "#/$defs")
        self._check_circles()

    def _fault(self, place: str, words: str) -> ValueError:
        return ValueError(f"{self._name}, at {place}: {words}")

    def _of(self, schema: Any, place: str) -> Reader:
        followed = {place}
        while isinstance(schema, dict) and schema.keys() & _CHECKED == {"$ref"}:
            # (what is a reference and nothing else is what it refers to, so that it adds nothing to a message's depth)
            schema, place = self._referred(schema["$ref"], place)
            if place in followed:
                raise self._fault(place, f"leads back to {place}{_CIRCLE}")
            followed.add(place)
        if schema is True or schema == {}:
            return ANYTHING
        if schema is False:
            return Nothing()
        if not isinstance(schema, dict):
            raise self._fault(
                place, f"must be a schema, which is an object or a boolean, got {shown(schema)}"
            )
        made = self._made.get(place)
        if made is None:
            made = self._made[place] = Every()
            made.parts += self._parts(schema, place)
        return made

    def _parts(self, schema: Json, place: str) -> List[Reader]:
        parts: List[Reader] = []
        if "type" in schema:
            parts.append(self._typed(schema["type"], f"{place}/type"))
        if "enum" in schema:
            parts.append(Constants((it, it) for it in self._is(list, schema, "enum", place)))
        if "const" in schema:
            parts.append(Constants([(schema["const"], schema["const"])]))
        for word in RULES:
            if word in schema:
                try:
                    parts.append(Rule(word, schema[word]))
                except ValueError as error:
                    raise self._fault(f"{place}/{word}", str(error)) from None
        if "$ref" in schema:
            parts.append(self._of(*self._referred(schema["$ref"], place)))
        if schema.keys() & {"properties", "required", "additionalProperties"}:
            parts.append(self._members(schema, place))
        if schema.keys() & {"items", "prefixItems"}:
            first = self._each(schema, "prefixItems", place) if "prefixItems" in schema else []
            parts.append(Items(self._of(schema.get("items", True), f"{place}/items"), first))
        return parts + self._choices(schema, place)

    def _is(self, kind: type, schema: Json, word: str, place: str) -> Any:
        value = schema[word]
        if not isinstance(value, kind):
            name = "an array" if kind is list else "an object"
            raise self._fault(f"{place}/{word}", f"must be {name}, got {shown(value)}")
        return value

    def _typed(self, names: Any, place: str) -> Typed:
        given = names if isinstance(names, list) else [names]
        for it in given:
            if not isinstance(it, str) or it not in TYPES:
                raise self._fault(place, f"{shown(it)} isn't a type: there are {', '.join(TYPES)}")
        return Typed(*given)

    def _members(self, schema: Json, place: str) -> Members:
        required = self._is(list, schema, "required", place) if "required" in schema else []
        for at, it in enumerate(required):
            if not isinstance(it, str):
                raise self._fault(f"{place}/required/{at}", f"must be a string, got {shown(it)}")
        given = self._is(dict, schema, "properties", place) if "properties" in schema else {}
        more = schema.get("additionalProperties", True)
        others = None if more is False else self._of(more, f"{place}/additionalProperties")
        return Members(self._all(given, f"{place}/properties"), required, others)

    def _all(self, schemas: Json, place: str) -> Dict[str, Reader]:
        return {name: self._of(it, f"{place}/{_written(name)}") for name, it in schemas.items()}

    def _each(self, schema: Json, word: str, place: str) -> List[Reader]:
        schemas = self._is(list, schema, word, place)
        return [self._of(it, f"{place}/{word}/{at}") for at, it in enumerate(schemas)]

    def _choices(self, schema: Json, place: str) -> List[Reader]:
        parts: List[Reader] = []
        same = self._about.setdefault(place, [])
        for word in ("allOf", "anyOf", "oneOf"):
            if word in schema:
                found = self._each(schema, word, place)
                same += [f"{place}/{word}/{at}" for at in range(len(found))]
                if not found:
                    raise self._fault(f"{place}/{word}", "must have at least one schema")
                parts += found if word == "allOf" else [(FirstOf if word == "anyOf" else OneOf)(found)]
        if "not" in schema:
            same.append(f"{place}/not")
            parts.append(Not(self._of(schema["not"], f"{place}/not")))
        return parts

    # References

    def _referred(self, name: Any, schema_place: str) -> Tuple[Any, str]:
        """What a schema refers to, and the place of that."""
        place = f"{schema_place}/$ref"
        if not isinstance(name, str):
            raise self._fault(place, f"must be a string, got {shown(name)}")
        pointer = urllib.parse.unquote(name[1:])
        if not name.startswith("#") or (pointer and not pointer.startswith("/")):
            raise self._fault(place, f"{shown(name)} isn't a place in this schema: write #/$defs/.. for one")
        found, target = self._root, "#"
        for it in pointer.split("/")[1:]:
            part = it.replace("~1", "/").replace("~0", "~")
            try:
                found = found[int(part)] if isinstance(found, list) else found[part]
            except (KeyError, IndexError, TypeError, ValueError):
                raise self._fault(place, f"{shown(name)} refers to nothing in this schema") from None
            target += f"/{_written(part)}"
        self._about.setdefault(schema_place, []).append(target)
        return found, target

    def _check_circles(self) -> None:
        """Raises ValueError if a schema leads back to itself with no member or item between: no value ends that."""
        done: Dict[str, bool] = {}  # (False while those that it leads to are looked at)
        for start in self._about:
            way = [start]
            while way:
                place = way[-1]
                done.setdefault(place, False)
                following = [it for it in self._about.get(place, ()) if not done.get(it)]
                if not following:
                    done[way.pop()] = True
                elif following[0] in done:
                    raise self._fault(place, f"leads back to {following[0]}{_CIRCLE}")
                else:
                    way.append(following[0])


def _written(part: str) -> str:
    """A part as a JSON pointer has it."""
    return part.replace("~", "~0").replace("/", "~1")
