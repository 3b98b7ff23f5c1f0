"""What is written to files: JUnit's XML, a page of HTML, and what is known."""
from __future__ import annotations

import os
from html import escape
from typing import Dict, Iterator, List, Sequence, Union
from xml.sax.saxutils import quoteattr

from .._log import shown
from ..errors import Refused
from ..judge._page import HEAD
from ..judge._rules import LEVELS
from ._lines import Again, counts_of, details_of, groups_of
from ._verdicts import NOT_TRIED, OK, Verdict

Name = Union[str, "os.PathLike[str]"]
_WORDS = 2_000


# JUnit


def junit_of(verdicts: Sequence[Verdict], title: str, failed: Sequence[bool], again: Again) -> Iterator[str]:
    """The report that CI systems read. `failed` says for each verdict whether it counts."""
    skipped = sum(it.level == NOT_TRIED for it in verdicts)
    yield '<?xml version="1.0" encoding="UTF-8"?>\n'
    seconds = sum(it.seconds for it in verdicts)
    yield (
        f'<testsuite name={_attribute(title)} tests="{len(verdicts)}" failures="{sum(failed)}" errors="0" '
        f'skipped="{skipped}" time="{seconds:.3f}">\n'
    )
    for it, is_failed in zip(verdicts, failed):
        yield (
            f"<testcase classname={_attribute(it.section)} name={_attribute(it.case.name)} "
            f'time="{it.seconds:.3f}">{"".join(_inside(it, is_failed, again))}</testcase>\n'
        )
    yield "</testsuite>\n"


def _inside(it: Verdict, is_failed: bool, again: Again) -> Iterator[str]:
    if it.level == NOT_TRIED:
        yield f"<skipped message={_attribute(it.words)}/>"
    elif is_failed:
        text = escape("\n".join(details_of(it, again)))
        yield f"<failure type={_attribute(it.level)} message={_attribute(it.words)}>{text}</failure>"
    elif it.level != OK:
        yield f"<system-out>{escape(shown(f'{it.level}: {it.words}', _WORDS))}</system-out>"


def _attribute(text: str) -> str:
    return quoteattr(shown(text, _WORDS))


# HTML


def page_of(verdicts: Sequence[Verdict], title: str, again: Again) -> Iterator[str]:
    """A page that needs no network."""
    yield HEAD.replace("TITLE", escape(title))
    yield f"<header><h1>{escape(title)}</h1></header>\n<main>\n"
    yield f'<section aria-labelledby="summary"><h2 id="summary">Summary</h2><p>{escape(counts_of(verdicts))}</p>\n'
    yield '<table class="findings"><thead><tr>'
    for heading in ("level", "cases", "rule", "section", "first"):
        yield f"<th scope=col>{heading}</th>"
    yield "</tr></thead><tbody>\n"
    numbers = {it.case.name: at for at, it in enumerate(verdicts)}
    for (level, rule, section), some in groups_of(verdicts).items():
        first = some[0].case.name
        yield (
            f'<tr><td><b class="{level}">{level}</b></td><td>{len(some)}</td><td>{escape(rule)}</td>'
            f'<td>{escape(section)}</td><td><a href="#case{numbers[first]}">{escape(first)}</a></td></tr>\n'
        )
    yield "</tbody></table></section>\n"
    yield '<section aria-labelledby="cases"><h2 id="cases">Cases</h2>\n'
    for at, it in enumerate(verdicts):
        yield from _case(it, at, again)
    yield "</section>\n</main>\n</body>\n</html>\n"


def _case(it: Verdict, number: int, again: Again) -> Iterator[str]:
    level = f'<b class="{it.level}">{it.level}</b>' if it.is_finding else it.level
    head = f"{level} {escape(it.case.name)} <small>{escape(it.section)}</small>"
    if it.level == OK:
        yield f'<p id="case{number}">{head}</p>\n'
        return
    yield f'<details id="case{number}"><summary>{head}</summary><p>{escape(it.rule)}</p>'
    yield f"<p>{escape(shown(it.words, _WORDS))}</p>"
    if it.is_finding:
        yield f"<pre>{escape(chr(10).join(details_of(it, again)))}</pre>"
    yield "</details>\n"


# What is known


class NotKnown(Refused, ValueError):
    """A file that isn't what --write-known writes: which line, and why."""

    def __init__(self, file: Name, line: int, why: str) -> None:
        super().__init__(f"{os.fspath(file)}, line {line}: {why}")


_FIRST = "examine 1"


def read_known(file: Name) -> Dict[str, str]:
    """The level of each case that was found before. Raises NotKnown and OSError."""
    known: Dict[str, str] = {}
    with open(file, "rb") as lines:
        for at, line in enumerate(lines, 1):
            text = line.decode("utf-8", "replace").rstrip("\r\n")
            if at == 1:
                if text != _FIRST:
                    raise NotKnown(file, at, f"expected {_FIRST!r}, got {text[:60]!r}")
            elif text and not text.startswith("#"):
                level, _, name = text.partition(" ")
                if level not in LEVELS or not name:
                    raise NotKnown(file, at, f"expected a level and the name of a case, got {text[:60]!r}")
                known[name] = level
    if not known and not os.path.getsize(file):
        raise NotKnown(file, 1, f"expected {_FIRST!r}, and the file is empty")
    return known


def known_of(verdicts: Sequence[Verdict]) -> Iterator[str]:
    """The text that read_known reads."""
    yield f"{_FIRST}\n"
    for it in verdicts:
        if it.is_finding:
            yield f"{it.level} {it.case.name}\n"


def is_known(it: Verdict, known: Dict[str, str]) -> bool:
    """Whether a finding was there before, and no less bad."""
    before = known.get(it.case.name)
    return before is not None and it.is_finding and LEVELS.index(before) <= LEVELS.index(it.level)


def gone_of(verdicts: Sequence[Verdict], known: Dict[str, str]) -> List[str]:
    """The cases that were found before and aren't now."""
    return [it.case.name for it in verdicts if it.level == OK and it.case.name in known]


def write(file: Name, parts: Iterator[str]) -> None:
    with open(file, "w", encoding="utf-8", errors="backslashreplace") as it:
        for part in parts:
            it.write(part)
