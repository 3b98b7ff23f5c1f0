"""What a function may be that is registered as a feature of LSP, for type checkers. No program imports this module."""
from __future__ import annotations

from typing import (
    Any,
    Awaitable,
    Callable,
    ClassVar,
    Dict,
    List,
    Protocol,
    Sequence,
    TypeVar,
    Union,
    overload,
)

from .._request import Request, _Later

P = TypeVar("P")
R = TypeVar("R")
#: What the method has, and what it gives.
Params = TypeVar("Params", covariant=True)
Result = TypeVar("Result", contravariant=True)


class DataclassInstance(Protocol):
    """An instance of any dataclass: params may be made to one, and a result may be one."""

    __dataclass_fields__: ClassVar[Dict[str, Any]]


D = TypeVar("D", bound=DataclassInstance)
Json = Dict[str, Any]
#: What a function returns: a result in the types of `bullmyrtle.lsp.types`, as any JSON, or in dataclasses.
Given = Union[R, Json, List[Json], DataclassInstance, Sequence[DataclassInstance], _Later]
Returned = Union[Given[R], Awaitable[Given[R]]]
#: A function that takes the params, with the server before them and the request behind them or without.
Function = Union[
    Callable[[P], Returned[R]],
    Callable[[Any, P], Returned[R]],
    Callable[[P, Request], Returned[R]],
    Callable[[Any, P, Request], Returned[R]],
]


class Registering(Protocol[Params, Result]):
    """Takes a function whose params are the method's: as one of its types, as any JSON, or as a dataclass.

    (Functions whose parameters are filled by the params' members aren't known here. What is given back is no more than a
    function, since an overload that gave back each kind as it is would overlap with others.)
    """

    @overload
    def __call__(self, function: Callable[[], Returned[Result]]) -> Callable[..., Any]:
        ...

    @overload
    def __call__(self, function: Function[Params, Result]) -> Callable[..., Any]:
        ...

    @overload
    def __call__(self, function: Function[Json, Result]) -> Callable[..., Any]:
        ...

    @overload
    def __call__(self, function: Function[D, Result]) -> Callable[..., Any]:
        ...
