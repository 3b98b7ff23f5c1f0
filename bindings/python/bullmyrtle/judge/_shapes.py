"""The shapes of params and results, by the types of LSP 3.17 and of MCP. Like findings are told once, and counted."""
from __future__ import annotations

import itertools
import re
from typing import Any, Callable, Dict, FrozenSet, Iterator, Optional, Tuple

from .._specified import SOFT, Fault, Specified
from .._specified import Model
from ._life import OTHER, Asked, Life
from ._rules import MUST, NOTE, SHOULD
from ._streams import ABSENT, Entry
from ._versions import VERSIONS

# How many faults of a message are looked at, and how many kinds of them are told of a conversation.
_MOST_FAULTS, _MOST_GROUPS = 1_000, 500
_PLACE = re.compile(r"\[(?:[^\]\"]|\"[^\"]*\")*\]")
_VALUES = frozenset(("value", "large", "order"))

#: What is alike: who, which rule, of which method, where, and what is wrong there.
Group = Tuple[str, str, str, str, str]


class Shaped(Life):
    """A session's life, in which params and results are held to the protocol's types too."""

    def __init__(self, life: Life, model: Callable[[str], Model], alone: Optional[FrozenSet[str]]) -> None:
        """`model` gives the types of an edition; `alone` are the methods and members that one source alone has, None if
        all are."""
        super().__init__(life.rules)
        self._life, self.breaches = life, life.breaches
        self._model, self._alone = model, alone
        self._counts: Dict[Group, int] = {}
        self._use(life.edition())

    def _use(self, edition: str) -> None:
        model = self._model(edition)
        self._edition, self._methods, self._types = edition, model.methods, Specified(model)

    def edition(self) -> str:
        return self._life.edition()

    def request(self, asked: Asked, params: Any, is_in_array: bool) -> None:
        self._life.request(asked, params, is_in_array)
        self._params(asked.side, asked.method, params)

    def notification(self, side: str, method: str, params: Any) -> None:
        self._life.notification(side, method, params)
        self._params(side, method, params)

    def answer(self, asked: Asked, entry: Entry) -> None:
        self._life.answer(asked, entry)
        by = OTHER[asked.side]
        if self._edition != self.edition():  # (they have agreed on it)
            self._use(self.edition())
        if entry.error is ABSENT and self._is_sent_to(by, asked.method):
            self._hold(by, asked.method, self._methods[asked.method][2], entry.result, "result")

    def cancelled(self, asked: Asked) -> None:
        self._life.cancelled(asked)

    def summary(self) -> Iterator[str]:
        for (side, rule, method, place, _), count in self._counts.items():
            if count > 1:
                yield f"{rule}: {side}, {method}: {place}: {count:,} times"

    def _is_sent_to(self, side: str, method: str) -> bool:
        return method in self._methods and self._methods[method][0] in (side, "both")

    def _params(self, side: str, method: str, params: Any) -> None:
        if not self._is_sent_to(OTHER[side], method):
            return
        type_ = self._methods[method][1]
        is_absent = params is ABSENT
        # (params without members may be left out)
        if type_ is None or (is_absent and self._types.fits(type_)({})):
            return
        self._hold(side, method, type_, None if is_absent else params, "params")

    def _hold(self, side: str, method: str, type_: Optional[Any], value: Any, what: str) -> None:
        """Finds what is wrong with params or a result, each kind of fault once."""
        if type_ is None:
            return
        faults = self._types.faults(type_, value, what)
        try:
            for it in itertools.islice(faults, _MOST_FAULTS):
                self._tell(side, method, what, it)
        except RecursionError:
            pass  # (what nests deeper than Python goes isn't judged)

    def _tell(self, side: str, method: str, what: str, fault: Fault) -> None:
        rule = "shape-value" if fault.kind in _VALUES else f"shape-{what}"
        group = side, rule, method, _PLACE.sub("[..]", fault.place), f"{fault.of} {fault.kind}"
        count = self._counts.get(group, 0)
        if count or len(self._counts) < _MOST_GROUPS:
            self._counts[group] = count + 1
        if self._counts.get(group) == 1:
            self._find(side, rule, f"{method}: {fault.place} {fault.words}", self._level(method, fault))

    def _level(self, method: str, fault: Fault) -> str:
        """How bad a fault is: by whether the member has to be there, and whether two sources say what it has to be.

        (Many count places beyond any line's end by larger integers than LSP has.)
        """
        is_alone = self._alone is None or method in self._alone or fault.of in self._alone
        if is_alone or fault.kind in ("null", "left out", "large"):
            return NOTE
        return MUST if fault.is_required and fault.kind not in SOFT else SHOULD


def with_shapes(life: Life) -> Life:
    """The life in which shapes are judged too, if the types of the protocol are known."""
    if life.rules == "lsp":
        from ..lsp._model import ALONE, MODEL

        return Shaped(life, lambda _: MODEL, frozenset(ALONE.split()))
    if life.rules in VERSIONS:
        from ..mcp._model import MODELS

        return Shaped(life, MODELS.__getitem__, None)
    return life
