"""The fuzzer: makes streams at random, has a player run them, and judges what it writes by the laws."""
import json
import os
import random
import tomllib
from collections import Counter
from concurrent.futures import ProcessPoolExecutor
from dataclasses import dataclass
from functools import partial
from typing import Any, Callable, Iterator, Optional, Sequence

from support import grammar
from support import laws
from support import ran
from support import reading
from support import rows
from support import shrinking
from support.cases import Case, Ran, Trial

# Runs cases with the methods of the table in a file, and has so many seconds for them.
Player = Callable[[str, Sequence[Case], float], list[Ran]]

# So many streams are run at once.
BATCH = 200
# So many seconds a stream has, and so many more each further one of a batch.
ALONE, MORE = 20, 1.5
# Every so many streams the built program serves one.
SHARE = 10
FOLDER = os.path.join(ran.TOP, "out", "fuzz")
MOST_FAILURES = 5
TELLERS = {"ask": 1, "two": 2, "chain": 4, "keep": 2, "each": None}
# What at least has to come about in a thousand streams, so that streams that say nothing fail.
FLOORS = {"streams with three answers": 500, "cancels that hit": 100, "replies that were used": 500}


def calls_in(step: dict[str, Any]) -> int:
    """How many calls a step makes; three where its params say how many."""
    return {"call": 1, "calls": len(step.get("list", [])), "each": 3}.get(step["kind"], 0)


def methods_of(table: str) -> dict[str, int]:
    """The methods of a table, with how many calls each may make."""
    return {it["name"]: sum(map(calls_in, it.get("step", []))) for it in tomllib.loads(table).get("method", [])}


class Tables:
    """The tables that streams are run with: their files, and what the laws know of them."""

    def __init__(self) -> None:
        traced, toolbox = ran.text_of("checks", "support", "traced.toml"), ran.text_of("examples", "toolbox.toml")
        opened = traced + rows.OPENING.partition("\n")[2]
        texts = {"traced": traced, "opened": opened, "methods": rows.METHODS, "toolbox": toolbox}
        self.files = {name: ran.file_of(f"{name}.toml", text) for name, text in texts.items()}
        self.known: dict[str, laws.Table] = {}
        self.methods: dict[str, dict[str, int]] = {}  # with how many calls each may make
        for name, text in texts.items():
            table = tomllib.loads(text)
            self.methods[name] = methods_of(text)
            tellers = TELLERS if name in ("traced", "opened") else {}
            self.known[name] = laws.Table(frozenset(self.methods[name]), bool(table.get("opening")), tellers)


class Judge:
    """Says of a trial which law it breaks, and counts what came about."""

    def __init__(self, tables: Tables):
        self.tables, self.seen = tables, Counter[str]()

    def coming(self, trial: Trial) -> laws.Coming:
        return laws.Coming(reading.read(trial.stream), self.tables.known[trial.table])

    def judge(self, trial: Trial, found: list[Ran]) -> None:
        """Raises Broken where a law doesn't hold."""
        coming = self.coming(trial)
        plain = laws.told_by(laws.Coming(reading.read(trial.plain), coming.table), found[-1])
        told = {}
        for way, (whole, cut) in zip(trial.ways, zip(found[0:8:2], found[1:8:2])):
            told[way] = self.judge_one(coming, plain, whole, f"play {way}")
            laws.check_cut(whole, cut, way)
        for served, how in zip(found[8:11], ("serve 1", "serve 4", "serve 4, cut")):
            self.judge_one(coming, plain, served, how)
        laws.check_lazy(coming, told["lazy"])
        laws.check_cancelled_eagerly(coming, told["eager"], plain)
        for way in ("eager", "last", "picked"):
            laws.check_timely(coming, told[way])
        for way in ("last", "picked"):
            laws.check_eager(coming, told[way], told["eager"])
        self.count(coming, told["eager"], found[0])

    def judge_one(
        self, coming: laws.Coming, plain: laws.Told, got: Ran, how: str, has_report: bool = True
    ) -> laws.Told:
        try:
            told = laws.told_by(coming, got, has_report)
            laws.check_beside(coming, told, plain)
        except laws.Broken as fault:
            raise laws.Broken(f"{how}: {fault}") from fault
        return told

    def judge_program(self, trial: Trial, workers: int) -> None:
        """Has the built program serve the stream."""
        coming = self.coming(trial)
        words = ["serve", "--workers", str(workers), "--table", self.tables.files[trial.table]]
        status, output, errors = ran.run(words, trial.stream)
        end = coming.stream.end
        wanted = rows.ended(end if end != "Clean" else "")
        laws.require((status, errors) == wanted, f"the program's status is {status}, and it says {errors!r}")
        plainly = laws.Coming(reading.read(trial.plain), coming.table)
        plain = laws.told_by(plainly, Ran(end, 0, 0, 0, 0, 0, ran.run(words, trial.plain)[1]), has_report=False)
        self.judge_one(
            coming, plain, Ran(end, 0, 0, 0, 0, 0, output), f"the program with {workers} workers", has_report=False
        )

    def count(self, coming: laws.Coming, told: laws.Told, got: Ran) -> None:
        self.seen["streams"] += 1
        self.seen["answers"] += got.answers
        self.seen["streams with three answers"] += got.answers >= 3
        self.seen["cancels that hit"] += len(told.cancelled)
        self.seen["replies that were used"] += laws.check_replies(coming, told)


@dataclass(frozen=True)
class Found:
    """A stream that breaks a law, and after how many streams it was found."""

    after: int
    trial: Trial
    law: str


class Fuzzer:
    """Tries streams with a player, and some of them with the built program too, unless it is to be left out."""

    def __init__(self, player: Player, has_program: bool = True):
        self.player, self.tables, self.has_program = player, Tables(), has_program
        self.judge = Judge(self.tables)
        self.count = ran.Count()
        self.failures = 0

    def made(self, seed: int, number: int) -> Trial:
        """The trial of this number."""
        chance = random.Random(f"{seed} {number}")
        table = chance.choice(("traced", "traced", "traced", "opened", "methods", "toolbox"))
        parts = grammar.stream(chance, self.tables.methods[table])
        length = sum(map(len, parts))
        cuts = range(1, length) if chance.random() < 0.1 else chance.choices(range(length + 1), k=chance.randint(1, 30))
        return Trial(table, tuple(parts), tuple(cuts), tuple(chance.choices(range(6), k=20)))

    def outcomes(self, trials: list[Trial]) -> Iterator[tuple[Trial, Optional[str]]]:
        """Each trial with the law that it breaks, if it breaks one."""
        for table in self.tables.files:
            group = [it for it in trials if it.table == table]
            for trial, found in zip(group, self.run(table, group)):
                yield trial, found if isinstance(found, str) else laws.broken(partial(self.judge.judge, trial, found))

    def run(self, table: str, group: list[Trial]) -> list[list[Ran] | str]:
        """What each trial gives, or why it gave nothing."""
        to_run = [it.to_run() for it in group]
        try:
            cases = [it for them in to_run for it in them]
            found = iter(self.player(self.tables.files[table], cases, ALONE + MORE * (len(group) - 1)))
            return [[next(found) for _ in them] for them in to_run]
        except ValueError as fault:
            if len(group) == 1:
                return [f"the player: {fault}"]
            return [it for trial in group for it in self.run(table, [trial])]

    def served(self, trial: Trial, number: int) -> Optional[str]:
        """What the program breaks as it serves a stream."""
        return laws.broken(lambda: self.judge.judge_program(trial, 1 if number % 2 else 4))

    def breaks(self, trial: Trial) -> Optional[str]:
        """What a trial breaks that is run by itself, thrice, since servers may be lucky, and served by the program
        too."""
        seen = Counter(self.judge.seen)
        why = next((why for _ in range(3) for _, why in self.outcomes([trial]) if why), None)
        if why is None and self.has_program:
            why = self.served(trial, 0) or self.served(trial, 1)
        self.judge.seen = seen
        return why

    def shrunk(self, trial: Trial) -> Trial:
        """A trial that fails, as small as it goes."""
        return shrinking.shrunk(trial, lambda it: self.breaks(it) is not None)

    def first_broken(self, seed: int, most: int, batch: int = BATCH) -> Optional[Found]:
        """The first of so many streams that breaks a law."""
        for begin in range(0, most, batch):
            trials = [self.made(seed, number) for number in range(begin, min(begin + batch, most))]
            after = {id(trial): begin + at + 1 for at, trial in enumerate(trials)}
            found = [Found(after[id(trial)], trial, why) for trial, why in self.outcomes(trials) if why]
            if found:
                return min(found, key=lambda it: it.after)
        return None

    def tell(self, trial: Trial, name: str, why: str) -> None:
        """Writes a trial that failed, as small as it goes."""
        small = self.shrunk(trial)
        os.makedirs(FOLDER, exist_ok=True)
        file = os.path.join(FOLDER, f"{name}.json")
        with open(file, "w", encoding="utf-8") as it:
            it.write(text_of(small))
        again = f"python3 checks/fuzz.py --replay {os.path.relpath(file, ran.TOP)}"
        self.count.check(
            f"{name} (with {small.table}, {again})",
            False,
            f"{self.breaks(small) or why}; the stream is {list(small.parts)}",
        )

    def tried(self, seed: int, numbers: range) -> tuple[list[tuple[Trial, str, Optional[str]]], Counter[str]]:
        """The trials of these numbers, each with its name and with the law that it breaks, if it breaks one; and what
        came about."""
        self.judge.seen = Counter()
        trials = {number: self.made(seed, number) for number in numbers}
        names = {id(trial): f"seed-{seed}-case-{number}" for number, trial in trials.items()}
        found = [(trial, names[id(trial)], why) for trial, why in self.outcomes([*trials.values()])]
        for number, trial in trials.items():
            if number % SHARE == 0:
                found.append((trial, names[id(trial)], self.served(trial, number // SHARE)))
        return found, self.judge.seen

    def try_all(self, seed: int, number_of_cases: int) -> None:
        """Tries so many streams, as many batches at once as there are processors."""
        batches = [range(first, min(first + BATCH, number_of_cases)) for first in range(0, number_of_cases, BATCH)]
        with ProcessPoolExecutor(len(os.sched_getaffinity(0))) as pool:
            for numbers, (found, seen) in zip(batches, pool.map(partial(self.tried, seed), batches)):
                self.judge.seen.update(seen)
                for trial, name, why in found:
                    self.take(trial, name, why)
                if self.failures >= MOST_FAILURES:
                    print(f"{numbers.stop:,} streams, and no more after {self.failures} failures", flush=True)
                    pool.shutdown(cancel_futures=True)
                    return

    def take(self, trial: Trial, name: str, why: Optional[str]) -> None:
        self.failures += why is not None
        if why is None:
            self.count.check(name, True)
        elif self.failures <= MOST_FAILURES:
            self.tell(trial, name, why)

    def check_floors(self) -> None:
        """Streams that say nothing show nothing."""
        seen = self.judge.seen
        print(", ".join(f"{number:,} {what}" for what, number in seen.items()), flush=True)
        for what, least in FLOORS.items():
            wanted = least * seen["streams"] // 1_000
            self.count.check(f"{what}: at least {wanted:,}", seen[what] >= wanted, f"{seen[what]:,}")


def text_of(trial: Trial) -> str:
    """A trial as a file has it: the bytes of each part as letters."""
    parts = [it.decode("latin-1") for it in trial.parts]
    return (
        json.dumps({"table": trial.table, "cuts": trial.cuts, "places": trial.places, "parts": parts}, indent=1) + "\n"
    )


def trial_in(file: str) -> Trial:
    with open(file, encoding="utf-8") as it:
        held = json.load(it)
    return Trial(
        held["table"], tuple(it.encode("latin-1") for it in held["parts"]), tuple(held["cuts"]), tuple(held["places"])
    )
