"""How a function of the user's is called: what its parameters get, and which of them is the request."""
from __future__ import annotations

import functools
import types

from .._hints import TYPE_CHECKING
from .._request import Request
from ..errors import InvalidParams
from .fits import anything, fit_for, named
from .parameters import (
    EMPTY,
    KEYWORD_ONLY,
    POSITIONAL,
    POSITIONAL_ONLY,
    VAR_KEYWORD,
    VAR_POSITIONAL,
    VARIABLE,
)
from .parameters import Parameter, annotation_in, names_class, parameters_of

if TYPE_CHECKING:
    from typing import AbstractSet, Any, Callable, Dict, List, NoReturn, Optional, Set, Tuple

    from .fits import Fit

    # What is called, with how many arguments, and what makes the first one of the params that came.
    Shape = Tuple[Callable[..., Any], int, Optional[Fit]]
    # What fills places, and what fills names.
    Arguments = Tuple[List[Any], Dict[str, Any]]

# How much of a name from outside goes into an answer.
_SHOWN = 60


def shape_of(function: Callable[..., Any]) -> Shape:
    """How a function is called. Raises TypeError, with what to write, where no params could call it."""
    try:
        all_of_them = parameters_of(function)
    except ValueError:
        raise TypeError(
            f"Python doesn't say what {function!r} takes. Write `lambda params: ..` that calls it"
        ) from None
    bound = _bound_names(function)
    parameters = [it for it in all_of_them if it.name not in bound]
    request = _request_of(function, parameters)
    filled = [it for it in parameters if it is not request]
    key = request.name if request is not None and request.kind not in POSITIONAL else None
    takes = 1 if request is None else 2
    if not filled:
        return (function, 0, None) if key is None else (_called_by(function, False, key), 2, None)
    if _gets_them_whole(parameters, request is not None and key is None):
        _check_whole(filled, request)
        fit = fit_for(annotation_in(function, filled[0].name))
        whole = function if key is None else _called_by(function, True, key)
        return whole, takes, None if fit is anything else fit
    _check_filled(filled)
    taken = bound if key is None else bound | {key}
    return _spread(function, key), takes, Filling(function, filled, taken)


def _bound_names(function: Any) -> Set[str]:
    """The names of arguments that the function has already, so that nobody outside may give them."""
    names: Set[str] = set()
    while isinstance(function, functools.partial):
        names.update(function.keywords)
        function = function.func
    if not isinstance(function, (types.FunctionType, types.MethodType, type)):
        import inspect

        if not inspect.isroutine(function):
            function = function.__call__
    if isinstance(function, types.MethodType):
        names.update(it.name for it in parameters_of(function.__func__)[:1])
    return names


def _request_of(function: Any, parameters: List[Parameter]) -> Optional[Parameter]:
    """The parameter that gets the request: the second one, or one that has to be named."""
    positional = [it for it in parameters if it.kind in POSITIONAL]
    found: Optional[Parameter] = None
    for it in parameters:
        is_annotated = names_class(function, it, Request)
        if it.kind in VARIABLE or not (it.name == "request" or is_annotated):
            continue
        if len(parameters) == 1 and it in positional and not is_annotated:
            continue  # (a method with one parameter gets the params, however it calls them)
        at = positional.index(it) if it in positional else None
        if at not in (None, 1) or found is not None:
            raise TypeError(
                f"{it.name!r} can't be the request here. Write `def m(params, request)`, "
                "or `def m(a, b, *, request)` where params are to fill a and b"
            )
        found = it
    return found


def _gets_them_whole(parameters: List[Parameter], has_request_second: bool) -> bool:
    first = parameters[0]
    return first.kind in POSITIONAL and (len(parameters) == 1 or first.name == "params" or has_request_second)


def _check_whole(filled: List[Parameter], request: Optional[Parameter]) -> None:
    """Beside one that gets the params whole, nothing fills a parameter."""
    for it in filled[1:]:
        if it.default is EMPTY and it.kind not in VARIABLE:
            raise TypeError(
                f"nothing fills {it.name!r}. Write `def m(params, request)`"
                + ("" if request is not None else f", or `{it.name}: bullmyrtle.Request`, for the request")
                + ("; or, where params are to fill the parameters, name none of them `params`")
            )


def _check_filled(filled: List[Parameter]) -> None:
    if any(it.name == "params" and it.kind not in VARIABLE for it in filled):
        raise TypeError(
            "the params come first. Write `def m(params, request)`, or name none of them `params`"
        )
    kinds = {it.kind for it in filled if it.default is EMPTY}
    if POSITIONAL_ONLY in kinds and KEYWORD_ONLY in kinds:
        names = ", ".join(it.name for it in filled)
        raise TypeError(f"an array can't fill them all, and neither can an object. Write `def m({names})`")


def _called_by(function: Callable[..., Any], gets_params: bool, key: str) -> Callable[..., Any]:
    """The function with the request under its name."""

    def whole(given: Any, request: Request) -> Any:
        return function(given, **{key: request})

    def alone(_: Any, request: Request) -> Any:
        return function(**{key: request})

    return whole if gets_params else alone


def _spread(function: Callable[..., Any], key: Optional[str]) -> Callable[..., Any]:
    """The function with what fills its parameters."""

    def filled(given: Tuple[List[Any], Dict[str, Any]]) -> Any:
        return function(*given[0], **given[1])

    def filled_by(given: Tuple[List[Any], Dict[str, Any]], request: Request) -> Any:
        return function(*given[0], **given[1], **{str(key): request})

    if key is None:
        return filled
    return filled_by


def _refuse(words: str) -> NoReturn:
    raise InvalidParams(f"Invalid params: {words}")


def _shown(name: str) -> str:
    return repr(name if len(name) <= _SHOWN else name[:_SHOWN] + "..")


class Filling:
    """Makes arguments of params: an array fills places, and an object names. Raises InvalidParams."""

    def __init__(
        self, function: Callable[..., Any], parameters: List[Parameter], taken: AbstractSet[str]
    ) -> None:
        """For these parameters of a function; `taken` are names that nobody outside may give."""
        self._taken = taken
        self._places: List[Fit] = []
        self._named: Dict[str, Fit] = {}
        self._rest: Fit = _nowhere
        self._more: Fit = _nowhere
        self._needed: List[str] = []  # all that have no default
        self._needs_names = self._needs_places = False
        for it in parameters:
            self._add(it, _fit_of(function, it))

    def _add(self, it: Parameter, fit: Fit) -> None:
        is_needed = it.is_needed
        if it.kind is VAR_POSITIONAL:
            self._rest = fit
        elif it.kind is VAR_KEYWORD:
            self._more = fit
        else:
            if it.kind is not KEYWORD_ONLY:
                self._places.append(fit)
            if it.kind is not POSITIONAL_ONLY:
                self._named[it.name] = fit
            if is_needed:
                self._needed.append(it.name)
                self._needs_names |= it.kind is KEYWORD_ONLY
                self._needs_places |= it.kind is POSITIONAL_ONLY

    def __call__(self, value: Any, place: str) -> Arguments:
        if isinstance(value, dict):
            return self._from_object(value, place)
        if value is None:
            return ([], {}) if not self._needed else _refuse(f"{place} lacks {self._needed[0]}")
        return self._from_array(value, place)

    def _from_array(self, values: List[Any], place: str) -> Arguments:
        if self._needs_names:
            _refuse(f"{place} has to be an object, and is {named(values)}")
        count, most = len(values), len(self._places)
        if count < len(self._needed):
            _refuse(f"{place} lacks {self._needed[count]}")
        if count > most and self._rest is _nowhere:
            _refuse(f"{place} has to have at most {most} item{'s'[:most != 1]}, and has {count}")
        fits = self._places + [self._rest] * (count - most)
        return [fit(it, f"{place}[{at}]") for at, (fit, it) in enumerate(zip(fits, values))], {}

    def _from_object(self, members: Dict[str, Any], place: str) -> Arguments:
        if self._needs_places:
            _refuse(f"{place} has to be an array, and is {named(members)}")
        for name in self._needed:
            if name not in members:
                _refuse(f"{place} lacks {name}")
        return [], {name: self._fit_named(name, place)(it, f"{place}.{name}") for name, it in members.items()}

    def _fit_named(self, name: str, place: str) -> Fit:
        fit = self._named.get(name, _nowhere if name in self._taken else self._more)
        if fit is _nowhere:
            _refuse(f"{place} has a member {_shown(name)}, which no parameter takes")
        return fit


def _nowhere(value: Any, place: str) -> Any:
    """In the place of a fit: there is no parameter for it."""
    raise AssertionError(place)


def _fit_of(function: Callable[..., Any], parameter: Parameter) -> Fit:
    try:
        return fit_for(annotation_in(function, parameter.name))
    except TypeError as error:
        raise TypeError(f"of {parameter.name!r}, {error}") from None
