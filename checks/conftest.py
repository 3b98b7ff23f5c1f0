"""How the tests of this folder run: what one does without the program, and the last line, which is 'N passed, M
failed'.

Where a tool is missing a test is skipped, and told in a line 'SKIPPED: ..', as the scripts of this folder do. Tests
that measure time or memory have the mark `alone`: bin/test runs them while nothing else runs."""
from collections import Counter
from typing import Any, NoReturn

import pytest

from support import expecting, ran


class Tally:
    """What is told at the end by the process that runs the tests, or has others run them."""

    def __init__(self) -> None:
        self.comparisons, self.status = 0, 0


TALLY = Tally()


def is_worker(config: pytest.Config) -> bool:
    return hasattr(config, "workerinput")


def pytest_addoption(parser: pytest.Parser) -> None:
    parser.addoption(
        "--player",
        metavar="FILE",
        help="the program that plays the rows of played_rows/, in place of the peer_bench that the gate built",
    )
    parser.addoption(
        "--program", metavar="FILE", help="the program that is tested, in place of that of the sources that lie here"
    )
    parser.addoption(
        "--rows", metavar="FILE", action="append", help="a file of rows to play in place of those of played_rows/"
    )


def without_program(why: str) -> NoReturn:
    """A test that needs the program fails where there is none, or is skipped in a run without the gate."""
    if ran.is_without_gate():
        pytest.skip(why)
    pytest.fail(why, pytrace=False)


ran.unbuilt = without_program


def pytest_configure(config: pytest.Config) -> None:
    ran.NAMED = config.getoption("--program")


@pytest.hookimpl(optionalhook=True)  # type: ignore[misc]
def pytest_testnodedown(node: Any, error: object) -> None:
    TALLY.comparisons += getattr(node, "workeroutput", {}).get("comparisons", 0)


def pytest_sessionfinish(session: pytest.Session, exitstatus: int) -> None:
    TALLY.status = exitstatus
    if is_worker(session.config):
        output: dict[str, int] = getattr(session.config, "workeroutput")
        output["comparisons"] = expecting.Made.number


def pytest_unconfigure(config: pytest.Config) -> None:
    """The last lines: what was skipped, and the tally."""
    reporter = config.pluginmanager.get_plugin("terminalreporter")
    if is_worker(config) or reporter is None or config.option.collectonly or config.option.help:
        return
    found = {kind: len(reporter.stats.get(kind, [])) for kind in ("passed", "failed", "error")}
    # (a run that was interrupted, or found no test, failed too)
    failed = found["failed"] + found["error"] or int(TALLY.status != 0)
    for why, times in Counter(
        it.longrepr[2].removeprefix("Skipped: ") for it in reporter.stats.get("skipped", [])
    ).items():
        print(f"SKIPPED: {why}{f' ({times} tests)' if times > 1 else ''}")
    print(f"{TALLY.comparisons + expecting.Made.number:,} comparisons in {found['passed'] + found['failed']:,} tests")
    print(f"{found['passed']} passed, {failed} failed", flush=True)
