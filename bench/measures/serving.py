"""The tables of `serve`: loads in bulk, round trips, and a server that has nothing to do."""
import os
import tempfile
from functools import partial
from typing import Callable, Dict, List, NamedTuple, Sequence

from measures import loads, rounds
from measures.contenders import Contender, Programs
from measures.inputs import COPIED, PASSED
from measures.messages import LENGTH, MESSAGES
from measures.rounds import Played
from measures.running import Run

WORKERS = (1, 4)


class Row(NamedTuple):
    """A row of a table, how its load is made, its size, and what ours does that the baseline doesn't, where it takes
    longer."""

    name: str
    make: Callable[[int], loads.Load]
    size: int
    why: str
    has_calls: bool = False  # the other side is called, by ids that are other ones in a host


STEPS = "a job goes to a worker and comes home, while the clerk reads, opens, finishes and writes; the baseline calls a function"
HAND_OVERS = "a request goes through three threads, and through the clerk's twice"
BULKS = (
    Row(
        "unknown methods",
        loads.unknown,
        200_000,
        "each piece goes from the reader's thread to the clerk's, and each request to the desk and the session",
    ),
    Row("adds", loads.adds, 200_000, STEPS),
    Row("adds with blanks", loads.adds_with_blanks, 200_000, STEPS),
    Row("adds in batches", loads.batches, 200_000, STEPS),
    Row("open calls", loads.open_calls, 20_000, STEPS, has_calls=True),
)
TRIPS = (
    Row("a request", loads.pings, 5_000, HAND_OVERS),
    Row(
        "one after 5 ms",
        loads.late_pings,
        200,
        "three threads are woken one after the other, and the baseline's one thread once",
    ),
    Row("a call back", loads.calls_back, 5_000, HAND_OVERS, has_calls=True),
    Row("a cancel", loads.cancels, 5_000, HAND_OVERS, has_calls=True),
)
COPIES = f"{COPIED}; and a method's call takes copies of the param"
# Each is sent once the one before is answered.
LONG_MESSAGES = tuple(Row(it.name, partial(loads.messages, it), 8 * LENGTH, PASSED) for it in MESSAGES)
LONG = (
    Row("8 MB, unknown method", loads.long_unknown, 8_000_000, COPIED),
    Row("a reply of 8 MB", loads.long_reply, 8_000_000, COPIED, has_calls=True),
    Row("a param of 8 MB", loads.long_param, 8_000_000, COPIES, has_calls=True),
    *LONG_MESSAGES,
)
Servers = Callable[[Row], List[Contender]]


def played(row: Row, size: int, servers: List[Contender], runs: int) -> Dict[str, List[Played]]:
    """What several runs of each took; they run in turn."""
    load = row.make(size)
    seen: Dict[str, List[Played]] = {it.label: [] for it in servers}
    with tempfile.TemporaryDirectory() as room:
        file = os.path.join(room, "rounds")
        rounds.write(load, file)
        for _ in range(runs):
            for server in servers:
                seen[server.label].append(rounds.play(f"{row.name} ({size})", load, server, file))
    return seen


def note(title: str, row: Row, seen: Dict[str, List[Played]], used: Dict[str, float], run: Run) -> None:
    """Notes the figures of a row, given the processor time of each request or trip in us."""
    run.figures.note(title, "us", row.name, used)
    ratios = {label: used["baseline"] / it for label, it in used.items() if it and label != "baseline"}
    run.figures.note(title, "ratio", row.name, ratios)
    run.figures.note(title, "peak", row.name, {label: max(it.peak for it in many) for label, many in seen.items()})


def used_by(many: List[Played], size: int) -> float:
    """The least processor time of a request, in us."""
    return min(it.used for it in many) / size * 1e6


def show_bulk(row: Row, size: int, seen: Dict[str, List[Played]], half: Dict[str, List[Played]]) -> None:
    """Prints the lines of one size; `half` has what half the size took, and nothing for the first one."""
    least = {label: min(it.trips[0] for it in many) for label, many in seen.items()}
    for label, many in seen.items():
        used = used_by(many, size)
        growth = f"{least[label] / min(it.trips[0] for it in half[label]):7.2f}" if half else " " * 7
        rate, ratio = size / least[label], least["baseline"] / least[label]
        figures = f"{rate:>10,.0f} {ratio:>6.2f} {used:>10.1f} {growth} {max(it.peak for it in many):>9,}"
        print(f"{row.name:20} {size:>9} {label:17} {figures}", flush=True)


def show_bulks(rows: Sequence[Row], title: str, servers: Servers, run: Run) -> None:
    """Measures and prints half of each row's size, and all of it."""
    head = f"{'req/s':>10} {'ratio':>6} {'cpu us':>10} {'growth':>7} {'peak KiB':>9}"
    print(f"{title:20} {'size':>9} {'program':17} {head}")
    for row in rows:
        half: Dict[str, List[Played]] = {}
        for size in (row.size // run.small // 2, row.size // run.small):
            seen = played(row, size, servers(row), run.runs)
            show_bulk(row, size, seen, half)
            half = seen
        run.behind.note(row.name, row.why, {label: min(it.trips[0] for it in many) for label, many in half.items()})
        used = {label: used_by(many, row.size // run.small) for label, many in half.items()}
        note(title, row, half, used, run)
    run.figures.keep()


def at_share(sorted_times: List[float], hundredths: int) -> float:
    return sorted_times[(len(sorted_times) - 1) * hundredths // 100]


def times_of(seen: Dict[str, List[Played]]) -> Dict[str, List[float]]:
    """The times of all trips, the shortest first."""
    return {label: sorted(trip for it in many for trip in it.trips) for label, many in seen.items()}


def used_of_trips(many: List[Played]) -> float:
    """The processor time of a trip, in us."""
    return sum(it.used for it in many) / sum(len(it.trips) for it in many) * 1e6


def show_trips(row: Row, seen: Dict[str, List[Played]]) -> None:
    times = times_of(seen)
    for label, many in seen.items():
        median, late = (at_share(times[label], it) for it in (50, 99))
        ratio, peak = at_share(times["baseline"], 50) / median, max(it.peak for it in many)
        used = used_of_trips(many)
        figures = f"{median * 1e6:>10,.1f} {ratio:>6.2f} {late * 1e6:>10,.1f} {used:>10,.1f} {peak:>9,}"
        print(f"{row.name:20} {len(times[label]):>9} {label:17} {figures}", flush=True)


def show_trips_of(rows: Sequence[Row], title: str, servers: Servers, run: Run) -> None:
    head = f"{'median us':>10} {'ratio':>6} {'99th us':>10} {'cpu us':>10} {'peak KiB':>9}"
    print(f"{title:20} {'trips':>9} {'program':17} {head}")
    for row in rows:
        seen = played(row, max(2, row.size // run.small), servers(row), run.runs)
        show_trips(row, seen)
        run.behind.note(row.name, row.why, {label: at_share(times, 50) for label, times in times_of(seen).items()})
        note(title, row, seen, {label: used_of_trips(many) for label, many in seen.items()}, run)
    run.figures.keep()


def table(programs: Programs, run: Run) -> None:
    def servers(row: Row) -> List[Contender]:
        return programs.servers(WORKERS, row.has_calls)

    show_bulks(BULKS, "sent at once", servers, run)
    print()
    show_trips_of((*TRIPS, *LONG), "there and back", servers, run)
