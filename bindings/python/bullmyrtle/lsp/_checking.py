"""Holds params, results and what is sent to LSP's types. The model of these is loaded with the first value."""
from __future__ import annotations


from .._hints import TYPE_CHECKING
from .._methods import Method
from .._signatures.fits import Fit
from .._specified import SOFT, Fits, Model, Specified, Type, floats_met
from ..errors import InvalidParams
from ._names import TO_CLIENT, TO_SERVER

if TYPE_CHECKING:
    from typing import Any, Dict, Optional, Tuple


#: How much is checked: params that come in, or results and what is sent too.
PARAMS, RESULTS = "params", "results"

# Of these structures no other member has to be there. Clients of LSP 3.15 leave versions out or send null, and those of
# tests leave out more: a session doesn't fail for what a server can do without. (A client that is newer than LSP 3.17
# tells capabilities and traces that 3.17 hasn't, so these aren't looked at.)
_NEEDED: Dict[str, Tuple[str, ...]] = {
    "InitializeParams": ("",),
    "TextDocumentItem": ("uri", "text"),
    "VersionedTextDocumentIdentifier": ("",),
    "WorkspaceFolder": ("uri",),
}
_specified: Optional[Specified] = None
# What says whether params fit a method, for each that was asked for.
_ready: Dict[str, Fits] = {}


def _types() -> Specified:
    global _specified
    if _specified is None:
        from ._model import MODEL

        structures = dict(MODEL.structures)
        for name, needed in _NEEDED.items():
            structures[name] = {
                it if it.rstrip("?") in needed else f"{it.rstrip('?')}?": type_
                for it, type_ in structures[name].items()
            }
        structures["ClientCapabilities"] = {}
        enumerations = dict(MODEL.enumerations)
        enumerations["TraceValues"] = ("string", None)
        _specified = Specified(Model(MODEL.methods, structures, MODEL.unions, enumerations))
    return _specified


def _type_of(method: str, at: int) -> Optional[Type]:
    from ._model import MODEL

    found: Optional[Type] = MODEL.methods[method][at] if method in MODEL.methods else None
    return found


def _params_fit(method: str) -> Fits:
    from ._model import MODEL

    type_ = _type_of(method, 1)
    if type_ is None:
        return lambda params: True  # (as of `shutdown`: what comes with it means nothing)
    fits = _types().fits(type_)
    # (params without members may be left out)
    has_none = isinstance(type_, str) and type_ in MODEL.structures and not _types().members(type_)
    return (lambda params: params is None or fits(params)) if has_none else fits


def _first_fault(type_: Type, value: Any, place: str) -> str:
    faults = (it for it in _types().faults(type_, value, place) if it.kind not in SOFT)
    first = next(faults, None)
    return f"{place} aren't {type_}" if first is None else f"{first.place} {first.words}"


def fault_of_params(method: str, params: Any) -> Optional[str]:
    """What is wrong with params of a method, with its place."""
    if _fits(method)(params):
        return None
    type_ = _type_of(method, 1)
    assert type_ is not None
    return _first_fault(type_, params, "params")


def _fits(method: str) -> Fits:
    fits = _ready.get(method)
    if fits is None:
        fits = _ready[method] = _params_fit(method)
    return fits


def check_params(method: str, params: Any) -> None:
    """Raises InvalidParams for params that aren't the method's. In those that are, each integer is an int."""
    before = floats_met[0]
    if not (_ready.get(method) or _fits(method))(params):
        raise InvalidParams(f"Invalid params: {fault_of_params(method, params)}")
    if floats_met[0] != before:
        type_ = _type_of(method, 1)
        if type_ is not None and params is not None:
            _types().with_integers(type_, params)


def check_sent(method: str, params: Any) -> None:
    """Raises TypeError for params of a method of clients that aren't its own."""
    fault = fault_of_params(method, params) if method in TO_CLIENT else None
    if fault is not None:
        raise TypeError(f"{method}: {fault}")


def check_result(method: str, result: Any) -> None:
    """Raises TypeError for a result that isn't the method's."""
    type_ = _type_of(method, 2)
    if type_ is not None and not _types().fits(type_)(result):
        raise TypeError(f"{method}: {_first_fault(type_, result, 'result')}")


def checked(method: Method) -> Method:
    """The method, whose params are held to LSP's types before anything else looks at them."""
    if method.name not in TO_SERVER:
        return method
    name, inner = method.name, method.fit

    def fit(value: Any, place: str) -> Any:
        before = floats_met[0]
        if not (_ready.get(name) or _fits(name))(value) or floats_met[0] != before:
            check_params(name, value)
        return value if inner is None else inner(value, place)

    made: Fit = fit
    method.fit = made
    return method
