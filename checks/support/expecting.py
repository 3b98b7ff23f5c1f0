"""What tests compare by: each comparison is counted, and one that fails shows the lines in which the two differ.

Outputs may have megabytes. Of those that differ only a part about the first difference is shown, a frame's head or a
line in each line. Why not by assert: docs/decisions/tests_and_releases.md#rows."""
import difflib
import threading
from typing import Any, Iterable, Iterator

# So many bytes or characters are shown before the first difference of two texts, and behind it; and so many lines in
# all.
BEFORE, BEHIND, LINES = 300, 1_500, 60


class Made:
    """How many comparisons were made, in this process."""

    number = 0
    lock = threading.Lock()

    @classmethod
    def one(cls) -> None:
        with cls.lock:
            cls.number += 1


def check(is_well: object, why: object = "") -> None:
    """That something is as it should be, else why not."""
    __tracebackhide__ = True
    Made.one()
    if not is_well:
        raise AssertionError(f"{why}"[:4_000])


def same(found: object, wanted: object, of: str = "") -> None:
    """That what was found is what is wanted; `of` says which run of a row it is."""
    __tracebackhide__ = True
    Made.one()
    if found != wanted:
        lines = [*differing(found, wanted)]
        more = [f"  .. and {len(lines) - LINES} lines more"] if len(lines) > LINES else []
        raise AssertionError("\n".join([of[:300] or "it differs", "  (- wanted, + found)", *lines[:LINES], *more]))


def differing(found: Any, wanted: Any) -> Iterator[str]:
    """The lines of both, those that differ behind a - and a +."""
    if are_like((tuple, list), found, wanted) and len(found) == len(wanted):
        for one, other in zip(found, wanted):
            yield from differing(one, other) if one != other else [f"  {short(one)!r}"]
    elif are_like((tuple, list), found, wanted):
        yield from difference([f"{short(it)!r}" for it in found], [f"{short(it)!r}" for it in wanted])
    elif are_like(bytes, found, wanted) or are_like(str, found, wanted):
        at = first_difference(found, wanted)
        start = max(0, at - BEFORE) if at > BEHIND else 0
        if start or max(len(found), len(wanted)) > at + BEHIND:
            yield f"  ({len(wanted):,} long wanted, {len(found):,} found, shown from {start:,}; they differ at {at:,})"
        yield from difference(*(lines_of(it[start : at + BEHIND]) for it in (found, wanted)))
    else:
        yield from difference([f"{short(found)!r}"], [f"{short(wanted)!r}"])


def are_like(kind: Any, *both: object) -> bool:
    return all(isinstance(it, kind) for it in both)


def difference(found: list[str], wanted: list[str]) -> Iterable[str]:
    return difflib.ndiff(wanted, found)


def short(it: Any) -> Any:
    """What is long, cut."""
    if isinstance(it, (bytes, str)) and len(it) > BEHIND:
        return it[:BEFORE], f"{len(it):,} long", it[-BEFORE:]
    if isinstance(it, (list, tuple)):
        return type(it)(short(each) for each in it[:50])
    return it


def first_difference(one: Any, other: Any) -> int:
    """Where two texts first differ, by halves, as `==` on parts is quick."""
    low, high = 0, min(len(one), len(other))
    while low < high:
        middle = (low + high + 1) // 2
        if one[low:middle] == other[low:middle]:
            low = middle
        else:
            high = middle - 1
    return low


def lines_of(part: Any) -> list[str]:
    """A text in lines, of which a frame's head begins one; what can't be seen stands escaped."""
    text = part.decode("utf-8", "backslashreplace") if isinstance(part, bytes) else part
    lines = text.replace("Content-Length: ", "\nContent-Length: ").removeprefix("\n").split("\n")
    return [repr(it)[1:-1] if not it.isprintable() else it for it in lines]


class Counting:
    """The same for what scripts use too, and hand a count of theirs: see ran.Count."""

    def check(self, name: str, is_well: object, why: object = "") -> None:
        __tracebackhide__ = True
        check(is_well, f"{name}: {why}")

    def same(self, name: str, found: object, wanted: object) -> None:
        __tracebackhide__ = True
        same(found, wanted, name)


COUNT = Counting()
