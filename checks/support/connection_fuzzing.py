"""The fuzzer of connections: has a player run sessions that are made at random, and compares what it says with the
model, line for line."""
import os
import random
import re
import subprocess
import time
from collections import Counter
from concurrent.futures import ProcessPoolExecutor
from dataclasses import dataclass
from functools import partial
from itertools import groupby
from typing import Any, Callable, Iterator, Optional, Sequence

from support import connection_model as model
from support import connection_script as script
from support import connection_sessions as sessions
from support import ran
from support.connection_script import Action
from support.shrinking import smaller_batches, without_spans

# Runs a script, and gives its lines; fewer than there are actions where it stops early.
Player = Callable[[Sequence[Action]], list[str]]

# So many sessions are one script.
BATCH = 100
# So many seconds a script has.
PATIENCE = 120
# So many seconds a failing session is made smaller at most.
SHRINKING = 60
MOST_FAILURES = 5
FOLDER = os.path.join(ran.TOP, "out", "connection_fuzz")
# What at least has to come about in a thousand sessions, so that sessions that say nothing fail. Fewer than so many
# aren't judged by it.
ENOUGH = 500
FLOORS = {
    "calls that came": 4_000,
    "cancels that hit": 250,
    "replies that were told": 1_000,
    "calls without a reply": 500,
    "answers": 1_500,
    "withdrawals": 250,
    "refused over": 100,
    "refused not_open": 300,
    "refused not_waiting": 300,
    "refused not_json": 100,
    "refused not_text": 100,
    "refused empty": 50,
    "faults": 60,
    "places of faults": 60,
    "unreadable contents that were told": 100,
    "invalid entries that were told": 300,
    "requests that were left": 60,
    "Full": 20,
    "done": 300,
}


@dataclass(frozen=True)
class Trial:
    """A session and the same cut otherwise, and what they give by the model."""

    name: str
    parts: tuple[tuple[Action, ...], ...]
    wanted: tuple[str, ...]

    @property
    def actions(self) -> tuple[Action, ...]:
        return tuple(action for part in self.parts for action in part)


@dataclass(frozen=True)
class Found:
    """A session that a player doesn't run as the model does, and after how many it was found."""

    after: int
    trial: Trial
    why: str


# Players


def play_by_program(program: str, actions: Sequence[Action], how: str = "script") -> list[str]:
    given = script.written(actions).encode("ascii")
    try:
        ended = subprocess.run([program, how], input=given, capture_output=True, timeout=PATIENCE, check=False)
    except subprocess.TimeoutExpired:
        return ["it doesn't end"]
    lines = ended.stdout.decode("ascii", errors="replace").split("\n")[:-1]
    is_well = ended.returncode == 0 and ended.stderr == b""
    return (
        lines if is_well else [*lines, f"it ended with the status {ended.returncode} and said {ended.stderr[:200]!r}"]
    )


def play_by_model(kind: type[model.Model], actions: Sequence[Action]) -> list[str]:
    lines = list[str]()
    try:
        for line in script.ran(actions, kind):
            lines.append(line)
    except Exception as fault:  # noqa: BLE001 (a wrong model may fail in any way)
        lines.append(f"it failed: {fault!r}")
    return lines


# Comparing


def difference(actions: Sequence[Action], wanted: Sequence[str], got: Sequence[str]) -> Optional[str]:
    """How what a script gives differs from what it should, if it does."""
    for action, right, line in zip(actions, wanted, [*got, *[""] * len(actions)]):
        if line != right:
            return f"{action.line[:300]!r} gives {line[:300]!r}, and not {right[:300]!r}"
    return f"{got[len(actions)][:300]!r} comes after the last line" if len(got) > len(actions) else None


def breaks(player: Player, actions: Sequence[Action]) -> Optional[str]:
    """How a player differs from the model."""
    return difference(actions, list(script.ran(actions)), player(actions))


def fails(player: Player, trials: Sequence[Trial]) -> Optional[str]:
    """How a player differs from what trials should give, one after another."""
    actions = [action for trial in trials for action in trial.actions]
    return difference(actions, [line for trial in trials for line in trial.wanted], player(actions))


def made(seed: int, number: int) -> tuple[Trial, Counter[str]]:
    """The trial of this number, and what comes about in it. The model gives the same where it is cut otherwise."""
    name = f"seed-{seed}-session-{number}"
    session = sessions.made(name)
    cut = sessions.cut_otherwise(random.Random(f"{name} cut"), session.actions)
    gives = list(script.ran(cut))
    is_same = sessions.without_feeds(cut, gives) == sessions.without_feeds(list(session.actions), list(session.gives))
    trial = Trial(name, (session.actions, tuple(cut)), (*session.gives, *gives))
    return trial, seen_in(session) + Counter({"sessions": 1, "cut otherwise, not the same": not is_same})


def seen_in(session: sessions.Session) -> Counter[str]:
    seen = Counter[str]()
    beginnings = {
        "call ": "calls that came",
        "cancelled": "cancels that hit",
        "replied": "replies that were told",
        "unanswered": "calls without a reply",
        "broken": "broken contents that were told",
    }
    for action, line in zip(session.actions, session.gives):
        for beginning, what in beginnings.items():
            seen[what] += action.name == "next" and line.startswith(beginning)
        seen["withdrawals"] += action.name == "withdraw" and line == "ok"
        seen["faults"] += line.startswith("over ") and line not in ("over Clean", "over Read", "over Full")
        seen["Full"] += line == "over Full"
        seen["places of faults"] += line.startswith("place ")
        seen["unreadable contents that were told"] += " unreadable " in line
        seen["invalid entries that were told"] += " invalid " in line
        seen[line] += line.startswith("refused")
    seen["answers"] += int(session.gives[-1].split(" ")[6])
    seen["done"] += session.gives[-2] == "true"
    seen["requests that were left"] += session.left
    return seen


# Making a session smaller


def by_contents(actions: tuple[Action, ...]) -> tuple[Action, ...]:
    """The same bytes, with a feed for each line, or for what begins as a frame does."""
    end = re.compile(rb"(?<=\n)" if actions[0].given[0] == "lines" else rb"(?=Content-Length)")
    made = list[Action]()
    for name, run in groupby(actions, lambda it: it.name):
        if name == "feed" and actions[0].given[0] != "contents":
            data = b"".join(it.given[0] for it in run)  # type: ignore[misc]
            made += [Action("feed", (it,)) for it in end.split(data) if it]
        else:
            made += run
    return tuple(made)


def smaller_feeds(data: bytes) -> Iterator[bytes]:
    """A feed with fewer entries in the batch that it is, or fewer bytes."""
    yield from smaller_batches(data)
    for fewer in without_spans(tuple(data)):
        yield bytes(fewer)


def smaller(actions: tuple[Action, ...]) -> Iterator[tuple[Action, ...]]:
    """The session with less of everything, one thing at a time."""
    for fewer in without_spans(actions[1:]):
        yield (actions[0], *fewer)
    for at, action in enumerate(actions):
        if action.name == "feed":
            for data in smaller_feeds(action.given[0]):  # type: ignore[arg-type]
                yield (*actions[:at], Action("feed", (data,)), *actions[at + 1 :])


def shrunk(player: Player, actions: tuple[Action, ...]) -> tuple[Action, ...]:
    """The smallest session that was found to fail."""
    if breaks(player, by_contents(actions)):
        actions = by_contents(actions)
    end = time.monotonic() + SHRINKING
    while True:
        for less in smaller(actions):
            if time.monotonic() > end:
                return actions
            if breaks(player, less):
                actions = less
                break
        else:
            return actions


# Many sessions


def tried(player: Player, seed: int, numbers: range) -> tuple[list[Found], Counter[str]]:
    """Which sessions of these numbers fail, and what came about."""
    pairs = [made(seed, number) for number in numbers]
    seen: Counter[str] = sum((it for _, it in pairs), Counter())
    trials = [trial for trial, _ in pairs]
    why_all = fails(player, trials)
    if why_all is None:
        return [], seen
    found = [Found(number + 1, trial, why) for number, trial in zip(numbers, trials) if (why := fails(player, [trial]))]
    parts, wanted = tuple(it for trial in trials for it in trial.parts), tuple(
        it for trial in trials for it in trial.wanted
    )
    return (
        found or [Found(numbers.stop, Trial(f"seed-{seed}-sessions-from-{numbers.start}", parts, wanted), why_all)],
        seen,
    )


def first_found(player: Player, seed: int, most: int, batch: int = 10) -> Optional[Found]:
    """The first of so many sessions that fails."""
    for begin in range(0, most, batch):
        found, _ = tried(player, seed, range(begin, min(begin + batch, most)))
        if found:
            return found[0]
    return None


class Fuzzer:
    def __init__(self, player: Player, count: Any, again: str) -> None:
        self.player, self.count, self.again = player, count, again
        self.failures = 0
        self.seen = Counter[str]()

    def try_all(self, seed: int, number: int) -> None:
        """Tries so many sessions, as many scripts at once as there are processors."""
        batches = [range(first, min(first + BATCH, number)) for first in range(0, number, BATCH)]
        with ProcessPoolExecutor(len(os.sched_getaffinity(0))) as pool:
            for numbers, (found, seen) in zip(batches, pool.map(partial(tried, self.player, seed), batches)):
                self.seen.update(seen)
                self.count.passed += len(numbers) - len(found)
                for it in found:
                    self.tell(it)
                if self.failures >= MOST_FAILURES:
                    print(f"{numbers.stop:,} sessions, and no more after {self.failures} failures", flush=True)
                    pool.shutdown(cancel_futures=True)
                    return
        self.check_floors()

    def tell(self, found: Found) -> None:
        """Writes a session that failed, as small as it goes."""
        self.failures += 1
        if self.failures > MOST_FAILURES:
            return
        part = next((it for it in found.trial.parts if breaks(self.player, it)), found.trial.actions)
        small = shrunk(self.player, part)
        os.makedirs(FOLDER, exist_ok=True)
        file = os.path.join(FOLDER, f"{found.trial.name}.script")
        with open(file, "w", encoding="ascii") as it:
            it.write(script.written(small))
        self.count.check(
            f"{found.trial.name} ({self.again} --replay {os.path.relpath(file, ran.TOP)})",
            False,
            breaks(self.player, small) or found.why,
        )

    def check_floors(self) -> None:
        """Sessions that say nothing show nothing."""
        total = self.seen["sessions"]
        print(", ".join(f"{self.seen[what]:,} {what}" for what in ("sessions", *FLOORS)), flush=True)
        self.count.check("cut otherwise, the model gives the same", self.seen["cut otherwise, not the same"] == 0)
        for what, least in FLOORS.items() if total >= ENOUGH else ():
            wanted = least * total // 1_000
            self.count.check(f"{what}: at least {wanted:,}", self.seen[what] >= wanted, f"{self.seen[what]:,}")
