"""What a function takes, and what that is annotated with.

Of a plain function it is read without the module `inspect`, which takes long to import.
"""
from __future__ import annotations

import functools
import types

from .._hints import TYPE_CHECKING

if TYPE_CHECKING:
    from typing import Any, Dict, List, Optional

# (as the module `inspect` numbers them)
POSITIONAL_ONLY, POSITIONAL_OR_KEYWORD, VAR_POSITIONAL, KEYWORD_ONLY, VAR_KEYWORD = range(5)
POSITIONAL, VARIABLE = (POSITIONAL_ONLY, POSITIONAL_OR_KEYWORD), (VAR_POSITIONAL, VAR_KEYWORD)

_VARARGS, _VARKEYWORDS, _COROUTINE, _ITERABLE_COROUTINE = 4, 8, 128, 256  # flags of code
# Attributes by which a function says something else of itself than its code does.
_OTHERWISE = ("__wrapped__", "__signature__", "_partialmethod", "__partialmethod__")
_MARKS = ("_is_coroutine_mark", "_is_coroutine", "_is_coroutine_marker")


class _Empty:
    """Stands for a default or an annotation that there is none of."""


EMPTY: Any = _Empty


class Parameter:
    """A parameter of a function."""

    __slots__ = ("name", "kind", "default", "annotation")

    def __init__(self, name: str, kind: int, default: Any, annotation: Any) -> None:
        self.name, self.kind, self.default, self.annotation = name, kind, default, annotation

    @property
    def is_needed(self) -> bool:
        """Whether something has to fill it, unless it stands for any number of them."""
        return self.default is EMPTY


def _plain(function: Any) -> Optional[types.FunctionType]:
    """The plain function that a function is, or is the method of."""
    inner = function.__func__ if type(function) is types.MethodType else function
    if type(inner) is types.FunctionType and not any(it in inner.__dict__ for it in _OTHERWISE):
        return inner
    return None


def parameters_of(function: Any) -> List[Parameter]:
    """The parameters of a function. Raises ValueError where Python doesn't say what it takes."""
    inner = _plain(function)
    if inner is not None:
        found = _of_plain(inner)
        if inner is function:
            return found
        if found and found[0].kind in POSITIONAL:
            return found[1:]
    if type(function) is functools.partial and not function.keywords:
        found, count = parameters_of(function.func), len(function.args)
        if len(found) >= count and all(it.kind in POSITIONAL for it in found[:count]):
            return found[count:]
    import inspect

    return [
        Parameter(
            it.name,
            int(it.kind),
            *(EMPTY if given is it.empty else given for given in (it.default, it.annotation)),
        )
        for it in inspect.signature(function).parameters.values()
    ]


def _of_plain(function: types.FunctionType) -> List[Parameter]:
    code, annotations = function.__code__, function.__annotations__
    names, count, named = code.co_varnames, code.co_argcount, code.co_kwonlyargcount
    defaults, by_name = function.__defaults__ or (), function.__kwdefaults__ or {}
    found: List[Parameter] = []

    def add(name: str, kind: int, default: Any = EMPTY) -> None:
        found.append(Parameter(name, kind, default, annotations.get(name, EMPTY)))

    for at, name in enumerate(names[:count]):
        kind = POSITIONAL_ONLY if at < code.co_posonlyargcount else POSITIONAL_OR_KEYWORD
        behind = at - count + len(defaults)
        add(name, kind, defaults[behind] if behind >= 0 else EMPTY)
    rest = count + named
    if code.co_flags & _VARARGS:
        add(names[rest], VAR_POSITIONAL)
        rest += 1
    for name in names[count : count + named]:
        add(name, KEYWORD_ONLY, by_name.get(name, EMPTY))
    if code.co_flags & _VARKEYWORDS:
        add(names[rest], VAR_KEYWORD)
    return found


def annotation_of(function: Any, name: str) -> Any:
    """What one parameter is annotated with, and Any where it isn't. Raises TypeError as `annotation_in` does."""
    found = annotation_in(function, name)
    if found is EMPTY:
        import typing

        return typing.Any
    return found


def annotation_in(function: Any, name: str) -> Any:
    """What one parameter is annotated with. Raises TypeError where that has names that can't be resolved."""
    target = function
    while not hasattr(target, "__annotations__") and hasattr(target, "func"):
        target = target.func
    if not hasattr(target, "__annotations__"):
        target = getattr(type(target), "__call__", target)
    given = getattr(target, "__annotations__", {}).get(name, EMPTY)
    if not isinstance(given, str):
        return given
    target = getattr(target, "__func__", target)
    if hasattr(target, "__wrapped__"):
        import inspect

        target = inspect.unwrap(target)
    names: Dict[str, Any] = {}
    names.update(zip(target.__code__.co_freevars, (it.cell_contents for it in target.__closure__ or ())))
    try:
        return eval(given, target.__globals__, names)
    except Exception as error:
        raise TypeError(f"the annotation {given!r} of {name!r} can't be resolved: {error}") from None


def names_class(function: Any, parameter: Parameter, kind: type) -> bool:
    """Whether a parameter is annotated with a class of this kind, or with one that may be None."""
    if parameter.annotation is EMPTY:
        return False
    try:
        found = annotation_in(function, parameter.name)
    except TypeError:
        # (a name that is imported for type checkers only can't be resolved)
        return str(parameter.annotation).split(".")[-1] == kind.__name__
    if isinstance(found, type):
        return issubclass(found, kind)
    import typing

    return any(isinstance(it, type) and issubclass(it, kind) for it in typing.get_args(found))


def is_async(function: Any) -> bool:
    """Whether a function is an `async def`, or an object is called by one."""
    while type(function) is functools.partial:
        function = function.func
    inner = _plain(function)
    if inner is not None and not any(it in inner.__dict__ for it in _MARKS):
        return bool(inner.__code__.co_flags & _COROUTINE)
    import inspect

    return any(map(inspect.iscoroutinefunction, (function, getattr(function, "__call__", None))))


def is_awaitable(value: Any) -> bool:
    """Whether `await` takes a value."""
    if type(value) is types.GeneratorType:
        return bool(value.gi_code.co_flags & _ITERABLE_COROUTINE)
    return hasattr(type(value), "__await__")
