"""Makes a failing stream smaller as long as it fails."""
import json
import time
from dataclasses import replace
from typing import Any, Callable, Iterator

from support import reading
from support.cases import Trial

# So many seconds smaller streams are tried at most.
PATIENCE = 60


def without_spans(items: tuple[Any, ...]) -> Iterator[tuple[Any, ...]]:
    """The items without some that stand together, many first."""
    size = len(items) // 2
    while size:
        for at in range(0, len(items), size):
            yield items[:at] + items[at + size :]
        size //= 2


def smaller_batches(part: bytes) -> Iterator[bytes]:
    """A frame with a batch, with fewer entries."""
    frames, end = reading.frames_of(part)
    if end != "Clean" or len(frames) != 1:
        return
    try:
        value = reading.value_of(frames[0].content)
    except ValueError:
        return
    for fewer in without_spans(tuple(value)) if isinstance(value, list) else ():
        content = json.dumps(fewer).encode()
        yield b"Content-Length: %d\r\n\r\n%s" % (len(content), content)


def smaller(trial: Trial) -> Iterator[Trial]:
    """The trial with less of everything, one thing at a time."""
    for parts in without_spans(trial.parts):
        yield replace(trial, parts=parts)
    for at, part in enumerate(trial.parts):
        for fewer in smaller_batches(part):
            yield replace(trial, parts=(*trial.parts[:at], fewer, *trial.parts[at + 1 :]))
    for cuts in without_spans(trial.cuts):
        yield replace(trial, cuts=cuts)
    if len(trial.places) > 1:
        yield replace(trial, places=(0,))


def shrunk(trial: Trial, fails: Callable[[Trial], bool]) -> Trial:
    """The smallest trial that was found to fail."""
    end = time.monotonic() + PATIENCE
    while True:
        for less in smaller(trial):
            if time.monotonic() > end:
                return trial
            if fails(less):
                trial = less
                break
        else:
            return trial
