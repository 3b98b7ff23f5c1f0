"""One test a case."""
from __future__ import annotations

import atexit
import os
from typing import Any, Callable, Dict, Iterator, List, Optional, Sequence, Union

from .._system import cant_drive
from ..judge._rules import LEVELS
from ._cases import Case
from ._lines import details_of, line_of
from ._reading import asked, possible, read_all
from ._runner import Runner
from ._session import Plan
from ._targets import Client, Command, Target, placed
from ._verdicts import NOT_TRIED, Verdict

Word = Union[str, "os.PathLike[str]"]


class Wrong(AssertionError):
    """The side that is examined is wrong in a case. `verdict` has what was found."""

    def __init__(self, verdict: Verdict) -> None:
        lines = [line_of(verdict), *details_of(verdict, lambda name: f"the test {name!r}")]
        super().__init__("\n".join(lines))
        self.verdict = verdict


class Examination:
    """The verdicts on a command, tried together when the first one is asked for."""

    def __init__(self, runner: Runner, cases: Sequence[Case]) -> None:
        self._names = {it.name for it in cases}
        self._left: Iterator[Verdict] = runner.verdicts(cases)
        self._known: Dict[str, Verdict] = {}
        atexit.register(runner.stop)

    def of(self, name: str) -> Optional[Verdict]:
        """The verdict on the case of this name, or None where there is none of the version that was agreed on."""
        if name not in self._names:
            return None
        while name not in self._known:
            verdict = next(self._left)
            self._known[verdict.case.name] = verdict
        return self._known[name]


def examined(
    command: Sequence[Word],
    rules: str = "lsp",
    *,
    framing: Optional[str] = None,
    client: bool = False,
    level: str = "must",
    only: str = "",
    seconds: float = 3.0,
    jobs: int = 1,
) -> Callable[..., None]:
    """A test function for pytest, which has one test for each case.

    >>> test_my_server = examined([sys.executable, "my_server.py"], rules="mcp")

    command -- a server's command; with `client` that of a client, in which {} stands for its server's
    rules -- "jsonrpc", "lsp", "mcp", or "mcp:" and a version
    framing -- "frames" or "lines", where it isn't that of the rules
    level -- how bad a finding must be to fail: "must"; "should", which has those of must too; or "note"
    only -- a part of the names of the cases
    seconds -- how long a response may take
    jobs -- how many run side by side
    """
    why = cant_drive("the examiner")
    if why:
        raise OSError(why)
    import pytest

    framed = framing or ("lines" if rules.startswith("mcp") else "frames")
    side = "client" if client else "server"
    words = placed([os.fspath(it) for it in command])
    every = read_all()
    names = [it.name for it in possible(every, rules, side, framed) if only in it.name]
    target: Target = Client(words) if client else Command(words)
    runner = Runner(target, Plan(rules, framed, side, seconds), jobs)
    examination: List[Examination] = []

    def test(name: str) -> None:
        if not examination:
            runner.check()
            cases = asked(every, rules, runner.rules, side, framed)
            examination.append(Examination(runner, [it for it in cases if it.name in names]))
        verdict = examination[0].of(name)
        if verdict is None:
            pytest.skip(f"it agreed on {runner.rules}")
        if verdict.level == NOT_TRIED:
            pytest.skip(verdict.words)
        if verdict.is_finding and LEVELS.index(verdict.level) <= LEVELS.index(level):
            raise Wrong(verdict)

    marked: Any = pytest.mark.parametrize("name", names)(test)
    return marked  # type: ignore[no-any-return]
