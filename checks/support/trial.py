"""One run over crates: the proof of each with its right bodies, and the rounds of its wrong bodies over it, several
checks side by side."""
import os
from collections import Counter
from concurrent.futures import FIRST_COMPLETED, Future, ThreadPoolExecutor, wait
from dataclasses import dataclass, field
from functools import partial
from typing import Callable, Optional

from support.bodies import Body, Sources
from support.functions import Function
from support.rounds import (
    Judged,
    commented,
    hurt_beside,
    judge_right,
    judge_wrong,
    lines_of,
    names_of,
    no_verdict,
    rounds_of,
)
from support.trees import Ran, Trees, stop_all
from support.verdicts import Output, read_output


# How many processors one check can use.
MOST_JOBS = 4


def say(text: str) -> None:
    print(text, flush=True)


def no_line(crate: "Crate", output: Output) -> Optional[str]:
    """Which functions that have bodies the check says nothing of, if so."""
    lost = [it.name for it in crate.functions if not lines_of(output, it)]
    return f"the check has no line on {', '.join(lost[:3])}" if lost else None


@dataclass
class Crate:
    """A crate, the bodies of it that are tried, and what was found."""

    name: str
    sources: Sources
    bodies: list[Body]
    every: list[Body] = field(default_factory=list)  # all that it has
    known: set[str] = field(default_factory=set)  # the functions that the unchanged crate has
    names: dict[Function, list[str]] = field(default_factory=dict)  # what the check calls those that bodies change
    judged: list[Judged] = field(default_factory=list)
    failures: list[str] = field(default_factory=list)
    comments: str = "NOT proved"  # what became of the comments: that, or proved
    recorded: int = 0  # how many bodies aren't tried, since the record has them
    checks: int = 0
    seconds: float = 0.0

    @property
    def wrong(self) -> list[Body]:
        return [it for it in self.bodies if not it.is_right]

    @property
    def is_well(self) -> bool:
        """Whether all of its bodies were tried, and became what they should."""
        is_whole = len(self.judged) == len(self.bodies) and all(it.is_well for it in self.judged)
        return is_whole and not self.failures and self.comments != "NOT proved"

    @property
    def functions(self) -> list[Function]:
        """Those that a body of the crate changes."""
        return [*dict.fromkeys(fn for it in self.bodies for fn in it.functions)]

    @property
    def right(self) -> list[Body]:
        return [it for it in self.bodies if it.is_right]

    def with_bodies(self, bodies: list[Body]) -> dict[str, str]:
        """The texts with these bodies, of the files that they change."""
        return self.sources.with_changes([change for it in bodies for change in it.changes])

    @property
    def endings(self) -> list[str]:
        """The names of these functions, as far as a check has to be told them; none where one isn't known."""
        found = [it.ending for it in self.functions]
        return found if all(found) else []

    @property
    def control(self) -> dict[str, str]:
        """The texts with the right bodies, and a comment more in each other function that has bodies."""
        rewritten = {fn for it in self.right for fn in it.functions}
        comments = commented(it for it in self.functions if it not in rewritten)
        return self.sources.with_changes([*(change for it in self.right for change in it.changes), *comments])


@dataclass(frozen=True)
class Turn:
    """One check of a crate over what its proof kept: a round of wrong bodies."""

    crate: Crate
    bodies: list[Body]
    label: str
    is_whole: bool = (
        False  # whether it looks at the whole crate, and not only at what its bodies change and what that calls
    )

    @property
    def only(self) -> list[str]:
        """The functions that it looks at; none where that is the whole crate."""
        if self.is_whole:
            return []
        return [name for it in self.bodies for fn in it.functions for name in self.crate.names[fn]]


class Trial:
    """One run over the crates: the proof of each, which is its control too, and then its rounds, up to `jobs` side by
    side.

    Threads only run checks; what these say is judged as they end, in one place. A crate of which bodies have been judged
    is told to `done`, once its comments are proved."""

    def __init__(
        self,
        crates: list[Crate],
        trees: Trees,
        jobs: int,
        logs: str,
        done: Callable[[Crate], None] = lambda crate: None,
    ) -> None:
        self.crates = {it.name: it for it in crates}
        self.trees, self.jobs, self.logs, self.done = trees, jobs, logs, done
        self.unproved = list(trees.needed)
        self.waiting: list[Turn] = []
        self.running: dict["Future[Ran]", tuple[int, Callable[[Ran], None]]] = {}
        self.seconds = 0.0

    def run(self) -> None:
        with ThreadPoolExecutor(self.jobs) as pool:
            try:
                while self.start(pool):
                    for it in wait(self.running, return_when=FIRST_COMPLETED).done:
                        ran = it.result()
                        self.seconds += ran.seconds
                        self.running.pop(it)[1](ran)
            finally:
                stop_all()

    def idle(self) -> int:
        return self.jobs - sum(jobs for jobs, _ in self.running.values())

    def start(self, pool: ThreadPoolExecutor) -> bool:
        """Starts what can be started, proofs first, those first for which most crates wait; says whether anything
        runs."""
        for name in [it for it in self.unproved if self.trees.is_lost(it)]:
            self.unproved.remove(name)
            self.lose(name, "a crate below it is not proved")
        ready = [it for it in self.unproved if self.trees.is_ready(it)]
        ready.sort(key=lambda it: len(self.trees.above(it)), reverse=True)
        for at, name in enumerate(ready):
            if self.idle() > 0:
                jobs = max(1, self.idle() // (len(ready) - at))
                self.unproved.remove(name)
                crate = self.crates.get(name)
                future = pool.submit(self.trees.prove, name, jobs, crate.endings if crate else [])
                self.running[future] = jobs, partial(self.after_proof, name)
        # (one crate is ended after another, so that a run that is interrupted has recorded as many as can be)
        left = Counter(it.crate.name for it in self.waiting)
        self.waiting.sort(key=lambda it: (left[it.crate.name], it.crate.name, -len(it.bodies)))
        # (as long as proofs are to come that others wait for, they find a processor free)
        kept_free = 1 if self.unproved and self.jobs > 1 and not self.trees.is_over_gate else 0
        while self.waiting and self.idle() > kept_free:
            # (at the end the long ones share the processors that nothing else waits for)
            jobs = 1 if self.unproved else min(MOST_JOBS, max(1, self.idle() // len(self.waiting)))
            turn = self.waiting.pop(0)
            future = pool.submit(
                self.trees.check, turn.crate.name, turn.crate.with_bodies(turn.bodies), jobs, turn.only
            )
            self.running[future] = jobs, partial(self.after_turn, turn)
        return bool(self.running)

    def lose(self, name: str, why: str) -> None:
        if name in self.crates:
            self.crates[name].failures.append(f"{name}: nothing was tried: {why}")

    def log(self, label: str, ran: Ran, what: str) -> None:
        say(f"== {label.replace('-', ' ', 1)}: {what}, {ran.seconds:.0f} processor seconds, {ran.wall:.0f} s")
        if self.logs:
            os.makedirs(self.logs, exist_ok=True)
            with open(f"{self.logs}/{label}.log", "w", encoding="utf-8") as it:
                it.write(ran.output)

    def after_proof(self, name: str, ran: Ran) -> None:
        """Once a crate is proved, with its right bodies and comments, its rounds come."""
        crate = self.crates.get(name)
        what = f", with {len(crate.right)} right bodies and comments" if crate else ""
        self.log(f"{name}-proof", ran, f"{'NOT proved' if ran.status else 'proved'}{what}")
        if crate:
            crate.checks, crate.seconds = crate.checks + 1, crate.seconds + ran.seconds
            self.judge_proof(crate, ran)
            self.tell(crate)
        if ran.status:
            errors = [it for it in ran.output.split("\n") if it.startswith(("error", "rt:")) or "not proved" in it]
            self.lose(name, f"the crate itself{what} is not proved: {' | '.join(errors[:3])[:400]}")

    def judge_proof(self, crate: Crate, ran: Ran) -> None:
        output = read_output(ran.output)
        why = no_verdict(ran, output) or no_line(crate, output)
        crate.judged += [Judged(it, False, "unfit", why) if why else judge_right(it, output) for it in crate.right]
        if why or not output.is_proved:
            fallen = ", ".join(it.name for it in output.fallen())
            crate.failures.append(
                f"{crate.name}: right bodies and comments in its functions are refused: {why or fallen}"
            )
            return
        crate.known = {it.name for it in output.verdicts.values() if not it.is_by_compiler}
        crate.names = names_of(output, crate.functions)
        crate.comments = "proved"
        self.waiting += [Turn(crate, it, f"round-{at}") for at, it in enumerate(rounds_of(crate.wrong), 1)]

    def after_turn(self, turn: Turn, ran: Ran) -> None:
        turn.crate.checks, turn.crate.seconds = turn.crate.checks + 1, turn.crate.seconds + ran.seconds
        self.log(f"{turn.crate.name}-{turn.label}", ran, f"{len(turn.bodies)} wrong bodies")
        output = read_output(ran.output)
        self.judge_round(turn, output, no_verdict(ran, output), ran.is_late)
        self.tell(turn.crate)

    def tell(self, crate: Crate) -> None:
        if crate.judged and crate.comments == "proved":
            self.done(crate)

    def judge_round(self, turn: Turn, output: Output, why: Optional[str], is_late: bool) -> None:
        crate, bodies = turn.crate, turn.bodies
        beside = [] if why else hurt_beside(output, bodies, set() if turn.only else crate.known)
        if why and (is_late or len(bodies) == 1):
            self.settle(turn, [Judged(it, False, "unfit", why) for it in bodies])
        elif len(bodies) == 1:
            self.settle(turn, [it for it in [judge_wrong(bodies[0], output, True)] if it])
        elif why or beside:
            say(
                f"== {crate.name} {turn.label} hurts more than it should, so each is tried alone: {(why or ', '.join(beside))[:300]}"
            )
            self.waiting += [Turn(crate, [it], f"alone-{it.name}") for it in bodies]
        else:
            for body in bodies:
                if judged := judge_wrong(body, output, False):
                    self.settle(turn, [judged])
                else:
                    self.waiting.append(Turn(crate, [body], f"alone-{body.name}"))

    def settle(self, turn: Turn, judged: list[Judged]) -> None:
        """Takes what became of bodies; one that isn't as it should be is tried on the whole crate, where that wasn't
        looked at."""
        for it in judged:
            if it.is_well or not turn.only:
                turn.crate.judged.append(it)
            else:
                self.waiting.append(Turn(turn.crate, [it.body], f"whole-{it.body.name}", is_whole=True))
