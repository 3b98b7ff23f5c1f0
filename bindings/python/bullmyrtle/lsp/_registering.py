"""What may be registered with a language server: it is refused where it is written, with what to write."""
from __future__ import annotations


from ._names import TO_CLIENT, TO_SERVER
from .._hints import TYPE_CHECKING

if TYPE_CHECKING:
    from typing import Any, Dict, Iterable, NoReturn


#: How names of LSP begin. (A method of LSP without a `/` in its name, as `initialize`, has no prefix.)
_PREFIXES = frozenset(it.partition("/")[0].lower() for it in (*TO_SERVER, *TO_CLIENT) if "/" in it)


def _nearest(name: str, known: Dict[str, str]) -> str:
    """`: did you mean ..?` with what is known under a name near to this one, which is in small letters, if one is."""
    import difflib  # (here, since a server starts sooner without it)

    found = difflib.get_close_matches(name.lower(), list(known), 1, 0.8)
    return f": did you mean {known[found[0]]}?" if found else ""


def _no_feature(name: str) -> NoReturn:
    prefix, _, rest = name.partition("/")
    # (all that begins alike is near, so only what stands behind it counts)
    parts = ((it.lower().partition("/"), it) for it in TO_SERVER)
    nearest = _nearest(rest, {end: it for (start, _, end), it in parts if start == prefix.lower()})
    raise ValueError(
        f"LSP 3.17 has no method {name!r}{nearest or '.'} One that isn't LSP's is registered by "
        f"@server.method({name!r}), and the capability that tells of it given by LanguageServer(capabilities=..)"
    )


def check_feature(name: Any) -> None:
    """Refuses a feature whose name looks like one of LSP's and isn't, or is a method of clients."""
    if not isinstance(name, str):
        raise TypeError('a feature has a name: write @server.feature("textDocument/hover")')
    if name in TO_SERVER:
        return
    if name in TO_CLIENT:
        raise ValueError(
            f"{name} is a method of clients: a server sends it, by ls.call or ls.notify, and can't have it as a feature"
        )
    prefix, slash, _ = name.partition("/")
    if slash and prefix.lower() in _PREFIXES:
        _no_feature(name)


def check_options(name: str, options: Any) -> None:
    """Refuses options that the registration of a method of LSP doesn't have."""
    if options is None or name not in TO_SERVER:
        return
    if not isinstance(options, dict):
        raise TypeError(f"{name}: its options are an object, got {type(options).__name__}")
    known = TO_SERVER[name].split()
    for it in options:
        if it not in known:
            _no_option(name, str(it), known)


def _no_option(name: str, option: str, known: Iterable[str]) -> NoReturn:
    written = next((it for it in known if it.lower() == option.replace("_", "").lower()), None)
    if written is not None:
        raise TypeError(f"{name}: the option is {written}, not {option}")
    nearest = _nearest(option, {it.lower(): it for it in known})
    there = f"it has {', '.join(known)}" if known else "it has none"
    raise TypeError(f"{name} has no option {option!r}{nearest or f': {there}'}")


def check_method(name: str) -> None:
    """Refuses a method of LSP that is registered as one that LSP doesn't know, so that no capability would tell of it."""
    if name in TO_SERVER or name in TO_CLIENT:
        raise ValueError(
            f"{name} is a method of LSP: write @server.feature({name!r}), which tells the editor that there is one"
        )
