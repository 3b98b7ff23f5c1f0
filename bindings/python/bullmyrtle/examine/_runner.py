"""Tries cases, side by side: many in one session as long as nothing is found, and each that finds something alone."""
from __future__ import annotations

import queue
import threading
import time
from typing import Callable, Dict, Iterator, List, Optional, Sequence, Set, Tuple

from ..errors import NoMemory
from ..judge._lines import line_of
from ..judge._versions import MCP
from ._cases import Case
from ._outcomes import State
from ._session import NotExamined, Plan, Session
from ._targets import CanNotStart, Target
from ._verdicts import NOT_TRIED, Verdict, never_asked, not_begun, verdict_of, worst_of

# How long a session of many cases waits for a response: a case in which the other side ends, is silent or breaks a rule
# of the judge's is tried again alone.
_SHARED_SECONDS = 1.5

Tell = Callable[[Optional[Verdict]], None]


class Runner:
    """Tries cases."""

    def __init__(self, target: Target, plan: Plan, jobs: int = 1) -> None:
        self._target, self._jobs = target, max(1, jobs)
        self._is_stopped = threading.Event()
        self._plain = ""
        # What the other side was seen not to ask for, from which start. (It isn't waited for again.)
        self._never_asked: Set[Tuple[str, Tuple[str, ...]]] = set()
        self._fault: Optional[BaseException] = None
        self._plan = plan._replace(is_stopped=self._is_stopped.is_set)
        self._hasty = self._plan._replace(seconds=min(_SHARED_SECONDS, plan.seconds), is_patient=False)

    @property
    def rules(self) -> str:
        """Whose rules count: of "mcp", once a session was begun, those of the version that it agreed on."""
        return self._plan.rules

    def check(self) -> None:
        """Begins a session and ends it. Raises CanNotStart, or NotExamined with what the judge finds, where that can't
        be done."""
        session = self._session(self._plan)
        try:
            session.begin()
            self._plain = session.plain
            self._agree(session.edition)
        except NotExamined as fault:
            raise NotExamined(
                str(fault), [line_of(it, self._plan.rules) for it in worst_of(session)]
            ) from None
        finally:
            session.end()

    def _agree(self, edition: str) -> None:
        """From here on sessions ask for the version of MCP that was agreed on. Why the first one settles it:
        docs/decisions/library_and_bindings.md#python-the-examiner."""
        if self._plan.rules == "mcp" and edition in MCP[:-1]:
            self._plan = self._plan._replace(rules=f"mcp:{edition}")
            self._hasty = self._hasty._replace(rules=self._plan.rules)

    def stop(self) -> None:
        """Ends all that runs, as soon as can be."""
        self._is_stopped.set()

    def verdicts(self, cases: Sequence[Case]) -> Iterator[Verdict]:
        """What each case shows, in their order."""
        work: "queue.Queue[List[Case]]" = queue.Queue()
        for it in self._portions(cases):
            work.put(it)
        done: "queue.Queue[Optional[Verdict]]" = queue.Queue()
        threads = [
            threading.Thread(target=self._work, args=(work, done.put), daemon=True) for _ in range(self._jobs)
        ]
        for thread in threads:
            thread.start()
        try:
            yield from self._in_order(cases, done)
        except BaseException:
            self.stop()
            raise
        finally:
            for thread in threads:
                thread.join()

    def _in_order(self, cases: Sequence[Case], done: "queue.Queue[Optional[Verdict]]") -> Iterator[Verdict]:
        known: Dict[str, Verdict] = {}
        for case in cases:
            while case.name not in known:
                # (a wait with a limit, so that Ctrl-C reaches this thread)
                try:
                    verdict = done.get(timeout=0.2)
                except queue.Empty:
                    continue
                if verdict is None:
                    assert self._fault is not None
                    raise self._fault
                known[verdict.case.name] = verdict
            yield known.pop(case.name)

    def _portions(self, cases: Sequence[Case]) -> Iterator[List[Case]]:
        """What is tried in one session: the cases that need their own each, and equal shares of the others."""
        shared = [it for it in cases if not it.is_alone]
        for at in range(self._jobs):
            if shared[at :: self._jobs]:
                yield shared[at :: self._jobs]
        for it in cases:
            if it.is_alone:
                yield [it]

    def _work(self, work: "queue.Queue[List[Case]]", tell: Tell) -> None:
        try:
            while True:
                try:
                    cases = work.get_nowait()
                except queue.Empty:
                    return
                if len(cases) == 1:
                    tell(self.alone(cases[0]))
                    continue
                left, again = self._try_together(cases, tell)
                for some in (left, *([it] for it in again)):
                    if some:
                        work.put(some)
        except BaseException as fault:  # (it is raised where the verdicts are waited for)
            self._fault = fault
            tell(None)

    # Together

    def _try_together(self, cases: List[Case], tell: Tell) -> Tuple[List[Case], List[Case]]:
        """Tries cases in one session until one finds something. Gives those that are left, and those to try alone."""
        left = list(cases)
        again: List[Case] = []
        before: Optional[Verdict] = None  # (it is told once the next case has shown nothing of it)
        try:
            session = self._session(self._hasty)
        except CanNotStart as fault:
            tell(Verdict(left.pop(0), NOT_TRIED, str(fault)))
            return left, again
        try:
            session.begin()
            while left and session.is_usable:
                session.prepare(left[0])
                verdict = self._tried(session, left[0], self._hasty)
                is_clean = verdict.is_sure and not session.found and not session.has_late
                if before is not None and not is_clean:
                    again.append(before.case)
                elif before is not None:
                    tell(before)
                before = verdict if is_clean else None
                case = left.pop(0)
                if not is_clean:
                    again.append(case)
                    break
        except (NotExamined, NoMemory) as fault:
            tell(Verdict(left.pop(0), NOT_TRIED, str(fault)))
        finally:
            session.end()
            if before is not None:
                tell(before)
        return left, again

    # Alone

    def alone(self, case: Case) -> Verdict:
        """Tries a case in a session of its own."""
        if (case.start, case.replied) in self._never_asked:
            return Verdict(case, NOT_TRIED, never_asked(case))
        try:
            session = self._session(self._plan)
        except CanNotStart as fault:
            return Verdict(case, NOT_TRIED, str(fault))
        try:
            session.prepare(case)
            if case.start != "none":
                session.begin(case)
            verdict = self._tried(session, case, self._plan)
            if not session.has_replied and not session.lacks(case):
                self._never_asked.add((case.start, case.replied))
            return verdict
        except NotExamined as fault:
            return not_begun(case, session, str(fault), self._plan.rules)
        except NoMemory as fault:
            return Verdict(case, NOT_TRIED, str(fault))
        finally:
            session.end()

    def _tried(self, session: Session, case: Case, plan: Plan) -> Verdict:
        begun = time.monotonic()
        lacking = session.lacks(case)
        if lacking:
            return Verdict(case, NOT_TRIED, lacking)
        session.start_case(case)
        state: State = session.try_case(case, min(plan.settle, plan.seconds))
        verdict = verdict_of(case, session, state, plan.rules)
        return verdict._replace(seconds=time.monotonic() - begun)

    def _session(self, plan: Plan) -> Session:
        return Session(self._target.open(self._plan.start_seconds), plan, self._plain)
