"""What a request takes in `play` is what docs/performance.md has, or less: its instructions, by callgrind, and how often the
program asks for memory for it. A sum is sent by itself and in batches of 100; and a request whose method asks the client
is followed by the response to that. Both are the difference of 3,000 requests and 1,000, so what the program's own start
takes is left out, and no load of the machine moves them."""
import os
import sys
from typing import Callable

from support import callgrind, ran
from support import refusals

sys.path.insert(0, os.path.join(ran.TOP, "bench"))

from measures import inputs  # noqa: E402 (it stands in bench/)

FEW, MANY = 1_000, 3_000
PLAY = ("play", "--table", os.path.join(ran.TOP, "bench", "baseline", "methods.toml"))
# What was reached (docs/performance.md has it among what is held), by the request: instructions, and requests for memory.
REACHED = {
    "a sum": (inputs.adds, 6_233, 4.1),
    "a sum in a batch of 100": (inputs.batches_of_adds, 5_813, 3.2),
    "a request that asks": (inputs.calls_back, 14_136, 13.1),
}
# So much more is taken for a change of the C library or of the compiler, and not for one of ours.
SPARE = 1.05


def instructions(given: bytes) -> int | None:
    return callgrind.instructions([ran.BUILT, *PLAY], given)


def requests(given: bytes) -> int | None:
    """How often a run asks for memory; None where it fails."""
    status, *_, number = refusals.counted([ran.BUILT, *PLAY], given)
    return number if status == 0 else None


def check_each(
    count: ran.Count,
    name: str,
    what: str,
    counted: Callable[[bytes], int | None],
    make: Callable[[int], bytes],
    reached: float,
) -> None:
    few, many = counted(make(FEW)), counted(make(MANY))
    if few is None or many is None:
        count.check(f"{name}: {what} are counted", False)
        return
    each = (many - few) / (MANY - FEW)
    print(f"{name}: {each:,.1f} {what}, {reached:,} on the page", flush=True)
    count.check(f"{name}: {what}", 0 < each <= reached * SPARE, f"{each:,.1f}, at most {reached * SPARE:,.1f}")


def check_all(count: ran.Count) -> None:
    for name, (make, most_instructions, most_requests) in REACHED.items():
        if not ran.lacks("valgrind", "it counts the instructions"):
            check_each(count, name, "instructions", instructions, make, most_instructions)
        if not ran.lacks("cc", refusals.WHY):
            check_each(count, name, "requests for memory", requests, make, most_requests)


ran.script(check_all)
