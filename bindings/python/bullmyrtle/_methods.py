"""What a method of the user's is, and the table of them that a server or a client has."""
from __future__ import annotations

from ._hints import TYPE_CHECKING
from ._signatures.calls import shape_of
from ._signatures.parameters import is_async

if TYPE_CHECKING:
    from typing import Any, Callable, Dict, Optional

    _Table = Dict[str, "Method"]
else:
    _Table = dict

PLAIN, ASYNC, THREAD = "plain", "async", "thread"


class Method:
    """A method of the user's: how it is called, and what its params have to be."""

    __slots__ = ("name", "function", "kind", "takes", "fit", "is_quick")

    def __init__(self, name: str, function: Callable[..., Any], thread: bool) -> None:
        if not isinstance(name, str) or not name:
            raise TypeError(f"a method's name is a string: {name!r}")
        if not callable(function):
            raise TypeError(f"{name}: {function!r} can't be called")
        is_coroutine = is_async(function)
        if thread and is_coroutine:
            raise TypeError(f"{name}: an async function runs on the loop, and not in a thread")
        try:
            shape = shape_of(function)
        except TypeError as error:
            raise TypeError(f"{name}: {error}") from None
        self.name = name
        self.kind = THREAD if thread else ASYNC if is_coroutine else PLAIN
        #: What is called with nothing, with what `fit` gave, or with that and the request.
        self.function, self.takes, self.fit = shape
        # (nothing has to be kept of a call that it answers, since it is answered at once)
        self.is_quick = self.kind == PLAIN and self.takes < 2

    def params(self, value: Any) -> Any:
        """What the method gets for the params that came. Raises InvalidParams."""
        return value if self.fit is None else self.fit(value, "params")


class Methods(_Table):
    """The methods by their names, and the one that answers other names."""

    fallback: Optional[Method] = None
    takes_dollar = False

    def add(self, *methods: Method) -> None:
        """Adds them all, or none where one has a name that is taken."""
        for it in methods:
            if it.name in self or sum(it.name == other.name for other in methods) > 1:
                raise ValueError(f"there is a method {it.name!r} already")
        self.update((it.name, it) for it in methods)

    def otherwise(self, name: str) -> Optional[Method]:
        """What answers a name that nobody registered."""
        return None if name.startswith("$/") and not self.takes_dollar else self.fallback
