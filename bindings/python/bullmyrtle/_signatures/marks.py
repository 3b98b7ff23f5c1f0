"""Methods in classes: they are marked where they are defined, and registered with an instance."""
from __future__ import annotations

from .._hints import TYPE_CHECKING, NamedTuple

if not TYPE_CHECKING:
    from .._hints import overload
else:
    from typing import Any, Callable, Dict, Iterator, List, Optional, Tuple, TypeVar, Union, overload

    F = TypeVar("F", bound=Callable[..., Any])

_ATTRIBUTE = "__bullmyrtle_methods__"


class Mark(NamedTuple):
    """What a function is to be registered as."""

    name: str
    thread: bool
    timeout: Optional[float]


def name_of(function: Any) -> str:
    """The name of a function that is registered without one."""
    name = getattr(function, "__name__", None)
    if not isinstance(name, str) or not name.isidentifier():
        raise TypeError(f'{function!r} has no name of its own. Write `server.method("name")(..)`')
    return name


def _inner(function: Any) -> Any:
    """The function in a static method or a class method."""
    return getattr(function, "__func__", function)


@overload
def method(name: F) -> F:
    ...


@overload
def method(
    name: Optional[str] = None, *, thread: bool = False, timeout: Optional[float] = None
) -> Callable[[F], F]:
    ...


def method(
    name: Union[Callable[..., Any], str, None] = None,
    *,
    thread: bool = False,
    timeout: Optional[float] = None,
) -> Any:
    """Mark a function of a class as the method of this name, or of its own, for `server.register(instance)`.

    What the function takes, and where it runs, is as with `server.method`.
    """
    if callable(name) or isinstance(name, (staticmethod, classmethod)):
        return method()(name)
    if name is not None and not (isinstance(name, str) and name):
        raise TypeError(f"a method's name is a string: {name!r}")
    given: Optional[str] = name

    def mark(function: F) -> F:
        inner = _inner(function)
        if not callable(inner):
            raise TypeError(f"{function!r} can't be called")
        marks = [*getattr(inner, _ATTRIBUTE, ()), Mark(given or name_of(inner), thread, timeout)]
        setattr(inner, _ATTRIBUTE, marks)
        return function

    return mark


def _marks_of(kind: type) -> Dict[str, List[Mark]]:
    """The marks of a class by the names of its attributes. One that a subclass replaces keeps its marks."""
    found: Dict[str, List[Mark]] = {}
    for it in reversed(kind.__mro__):
        for attribute, value in vars(it).items():
            marks = getattr(_inner(value), _ATTRIBUTE, None)
            if marks:
                found[attribute] = marks
    return found


def marked(instance: Any) -> Iterator[Tuple[Mark, Callable[..., Any]]]:
    """What is marked of an instance, with its bound functions."""
    if isinstance(instance, type):
        raise TypeError(f"{instance.__name__} is a class. Write `server.register({instance.__name__}())`")
    found = _marks_of(type(instance))
    if not found:
        raise TypeError(
            f"nothing of {type(instance).__name__} is marked. "
            'Write `@bullmyrtle.method("name")` above each of its functions that is a method'
        )
    for attribute, marks in found.items():
        for it in marks:
            yield it, getattr(instance, attribute)
