"""Functions of the program's that arguments fill by their names: tools, prompts and resources."""
from __future__ import annotations

import typing
from typing import Any, Callable, Dict, List, Optional, Tuple, Type, Union

from ..errors import InvalidParams
from .checker import Checker
from .docstrings import described
from .parameters import EMPTY, KEYWORD_ONLY, POSITIONAL_OR_KEYWORD, VAR_KEYWORD, VAR_POSITIONAL, Parameter
from .parameters import annotation_of, is_async, names_class, parameters_of
from .readers import ANYTHING, Every, Members, Reader, Typed, read
from .schemas import Kinds, with_default

Json = Dict[str, Any]
Classes = Union[type, Tuple[type, ...]]


class Function:
    """A function with the schema of its arguments."""

    def __init__(
        self, function: Callable[..., Any], schema: Optional[Json] = None, context: Optional[Type[Any]] = None
    ) -> None:
        """For a function; its schema is made of its annotations and its docstring, unless one is given.

        A parameter that is annotated with `context`, or named `context` or `ctx` where it isn't annotated, isn't filled
        by an argument.
        """
        self.function = function
        self.name = getattr(function, "__name__", "")
        self.is_async = is_async(function)
        self.description, self._about = described(function)
        self._context: Optional[str] = None
        self.parameters: List[Parameter] = []
        self._takes_more = False
        for it in parameters_of(function):
            if it.kind == VAR_KEYWORD:
                self._takes_more = True
            elif it.kind not in (POSITIONAL_OR_KEYWORD, KEYWORD_ONLY):
                star = "*" * (it.kind == VAR_POSITIONAL)
                raise TypeError(f"{self.name}: arguments have names, so nothing fills '{star}{it.name}'")
            elif context is not None and _is_context(function, it, context):
                self._context = it.name
            else:
                self.parameters.append(it)
        self._takes_whole = schema is not None and [it.name for it in self.parameters] == ["arguments"]
        if schema is None:
            self.schema, self._reader = self._made()
        else:
            self.schema, self._reader = schema, Checker(schema, f"{self.name}: input_schema").reader

    def _made(self) -> Tuple[Json, Reader]:
        """The schema of the arguments, and what reads them."""
        kinds = Kinds()
        properties: Json = {}
        readers: Dict[str, Reader] = {}
        for it in self.parameters:
            try:
                found = with_default(kinds.of(annotation_of(self.function, it.name)), it.default)
            except TypeError as error:
                raise TypeError(f"{self.name}: of {it.name!r}, {error}") from None
            about = {"description": self._about[it.name]} if it.name in self._about else {}
            properties[it.name], readers[it.name] = {**found.schema, **about}, found.reader
        required = [it.name for it in self.parameters if it.is_needed]
        schema: Json = {"type": "object", "properties": properties}
        if required:
            schema["required"] = required
        if not self._takes_more:
            schema["additionalProperties"] = False
        members = Members(readers, required, ANYTHING if self._takes_more else None)
        return kinds.whole(schema), Every(Typed("object"), members)

    def about(self, parameter: str) -> Optional[str]:
        """What the docstring says of a parameter."""
        return self._about.get(parameter)

    def filled(self, given: Any, context: Any) -> Json:
        """The arguments of the call. Raises InvalidParams, with the place, where the schema doesn't allow them."""
        found = read(self._reader, given, "arguments", lambda text: InvalidParams(f"Invalid params: {text}"))
        known = {it.name for it in self.parameters}
        if self._takes_whole:
            arguments = {"arguments": found}
        else:
            arguments = {name: it for name, it in found.items() if name in known or self._takes_more}
        for it in () if self._takes_whole else self.parameters:
            if it.name not in arguments and it.is_needed:
                raise InvalidParams(f"Invalid params: arguments lacks {it.name}")
        if self._context is not None:
            arguments[self._context] = context
        return arguments


def _is_context(function: Any, parameter: Parameter, context: Type[Any]) -> bool:
    if parameter.annotation is EMPTY:
        return parameter.name in ("context", "ctx")
    return names_class(function, parameter, context)


def result_schema(function: Any, parts: Classes = ()) -> Tuple[Optional[Json], bool]:
    """The schema of a function's result, and whether the result is the member `result` of what it describes.

    It is None where the result is a text, one of these classes, or not annotated: nothing then says that it has a
    structure.
    """
    try:
        kind = annotation_of(function, "return")
    except TypeError:
        return None, False
    origin, given = typing.get_origin(kind), typing.get_args(kind)
    if kind in (Any, None, str, type(None)):
        return None, False
    if any(isinstance(it, type) and issubclass(it, parts) for it in (kind, *given)):
        return None, False
    try:
        kinds = Kinds()
        schema = kinds.of(kind).schema
    except TypeError:
        return None, False
    if kinds.found(schema).get("type") == "object":
        return kinds.whole(schema), False
    if origin is None and schema == {}:
        return None, False
    return kinds.whole({"type": "object", "properties": {"result": schema}, "required": ["result"]}), True
