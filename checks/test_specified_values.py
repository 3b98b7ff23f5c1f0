"""The package holds values to LSP's types by the rules of `support/worked_values.py`: each structure has a worked value
that fits and ones that don't, and random values are made to fit or to break in one place. BULLMYRTLE_VALUES says how many
of each kind there are; 2,000 by default."""
from __future__ import annotations

import importlib
import json
import os
import sys
from typing import Any

import pytest

from support import ran
from support.expecting import check, same

sys.path[:0] = [f"{ran.TOP}/spec", f"{ran.TOP}/bindings/python"]
from generating import python_model  # noqa: E402  (it stands in spec/)
from making import notation  # noqa: E402
from support.worked_values import Values, shown  # noqa: E402

Json = dict[str, Any]
COUNT = int(os.environ.get("BULLMYRTLE_VALUES", "2000"))
LSP: Json = json.loads(ran.text_of("spec", "lsp.json"))
# (of the package in bindings/python)
_specified = importlib.import_module("bullmyrtle._specified")
TYPES = _specified.Specified(importlib.import_module("bullmyrtle.lsp._model").MODEL)


#: What may stand where something else should.
OTHERS: list[Any] = [None, True, -3, 1.5, "nosuch", [], [[]], {}]


def hard_faults(type_: Any, value: Any) -> list[Any]:
    return [it for it in TYPES.faults(type_, value, "value") if it.kind not in _specified.SOFT]


def is_right(values: Values, it: notation.Type, value: Any, what: str) -> None:
    """The package says of a value what the rules do, and where it doesn't fit it names a place."""
    type_, expected = python_model.packed(it), values.fits(it, value)
    same(TYPES.fits(type_)(value), expected, f"{what}: {value!r}")
    same(not hard_faults(type_, value), expected, f"{what}: faults of {value!r}")


@pytest.mark.parametrize("name", LSP["structures"])
def test_worked_values(name: str) -> None:
    values, it = Values(LSP, 1), notation.Name(name)
    for is_full in (False, True):
        worked = values.fitting(it, is_full=is_full)
        check(values.fits(it, worked), f"{worked} doesn't fit {name}")
        same(hard_faults(name, worked), [], name)
    for other in OTHERS:
        is_right(values, it, other, name)
    for member in [*worked]:
        is_right(values, it, {key: part for key, part in worked.items() if key != member}, f"{name} without {member}")
        for other in OTHERS:
            is_right(values, it, {**worked, member: other}, f"{name}.{member}")


def all_types() -> list[tuple[str, notation.Type]]:
    """Params and results of all methods, and all structures."""
    methods = [(name, it[key]) for name, it in LSP["methods"].items() for key in ("params", "result") if key in it]
    return [(name, notation.read(text)) for name, text in [*methods, *((it, it) for it in LSP["structures"])]]


def test_random_values_that_fit() -> None:
    values, types = Values(LSP, 2), all_types()
    for at in range(COUNT):
        name, it = types[at % len(types)]
        value = values.fitting(it)
        check(values.fits(it, value), f"{value} doesn't fit {name}")
        is_right(values, it, value, name)


def test_random_values_that_break_in_one_place() -> None:
    values, types = Values(LSP, 3), all_types()
    broken = placed = at = 0
    while broken < COUNT:
        name, it = types[at % len(types)]
        at += 1
        made = values.broken(it, values.fitting(it))
        if made is None:
            continue  # (as a value of any type, or of a structure without members in it)
        broken += 1
        value, place = made
        is_right(values, it, value, name)
        found = {fault.place for fault in hard_faults(python_model.packed(it), value)}
        # (where a union's alternatives differ in more, the nearest one may be another)
        placed += any(shown(place).startswith(one) or one.startswith(shown(place)) for one in found)
        check(at < 20 * COUNT, f"{broken} of {at} values were broken")
    check(placed > 0.95 * broken, f"{placed} of {broken} faults are at the place that is broken")
