"""The report of a conversation: one page of HTML that needs no network."""
from __future__ import annotations

import collections
from html import escape
from typing import Dict, Iterator, List, Optional, Tuple

from .._log import shown
from ._files import Name, made_file
from ._judge import SIDES, Finding
from ._life import Asked
from ._lines import groups_of, place_of
from ._page import HEAD, SCRIPT
from ._recording import Event
from ._rules import LEVELS, RULES, section_of
from ._streams import ABSENT, Entry
from ._talk import OTHERS, Seen, Talk

# How much of a message is shown, how many entries of an array are named, how much of a name, and how many messages and
# findings there may be in a report.
_SHOWN, _ENTRIES, _NAME, _MESSAGES, _FINDINGS = 2_000, 3, 100, 100_000, 1_000
# How many messages are a part of the page, and by how many methods they can be filtered.
_PART, _METHODS = 100, 500
_LETTERS = {"client": "c", "server": "s"}
# What has no method of its own.
_NO_METHOD = "(no method)"

# The place of an entry: whose, which message, which entry.
Place = Tuple[str, int, int]


class Row:
    """A message in the report."""

    __slots__ = (
        "side",
        "number",
        "offset",
        "at",
        "size",
        "text",
        "entries",
        "answers",
        "findings",
        "answered",
    )

    def __init__(self, seen: Seen) -> None:
        message = seen.message
        self.side, self.number, self.offset = message.side, message.number, message.offset
        self.at, self.size = seen.at, len(message.content)
        self.text = message.content[:_SHOWN].decode("utf-8", "replace")
        self.entries = [_label(it, by) for it, by in zip(message.entries, seen.answers)]
        self.answers = seen.answers
        self.findings: List[Finding] = []
        self.answered: List[Optional[Row]] = []  # for each of its requests the row of the answer

    @property
    def anchor(self) -> str:
        return f"{_LETTERS[self.side]}{self.number}"

    @property
    def method(self) -> str:
        return self.entries[0][1] if self.entries else _NO_METHOD


def _label(entry: Entry, by: Optional[Asked]) -> Tuple[str, str, str]:
    """What an entry is, its method or that of the request that it answers, and what is said of it beside."""
    if entry.kind in ("request", "notification"):
        more = f"id {shown(repr(entry.id), _NAME)}" if entry.kind == "request" else ""
        return entry.kind, shown(entry.method, _NAME), more
    if entry.kind == "answer":
        method = _NO_METHOD if by is None else shown(by.method, _NAME)
        return (
            ("error" if entry.error is not ABSENT else "result"),
            method,
            f"id {shown(repr(entry.id), _NAME)}",
        )
    return "no message", _NO_METHOD, ""


class Report:
    """Keeps what is shown of a conversation, and writes it."""

    def __init__(self, file: Name, title: str) -> None:
        """Raises OSError where the file can't be written."""
        self._file = open(made_file(file), "w", encoding="utf-8", errors="backslashreplace")
        self._title = title
        self._rows: List[Row] = []
        self._by_place: Dict[Place, Row] = {}
        self._findings: List[Finding] = []
        self._left_out = 0
        self._ends: List[Tuple[str, str, Optional[float]]] = []

    def take(self, seen: List[Seen], found: List[Finding], event: Event) -> None:
        """Something was seen."""
        for it in seen:
            if len(self._rows) < _MESSAGES:
                self._put(Row(it))
            else:
                self._left_out += 1
        for finding in found:
            if len(self._findings) < _FINDINGS:
                self._findings.append(finding)
            row = self._by_place.get((finding.of, finding.number, 0))
            if row is not None:
                row.findings.append(finding)
        if event.ended:
            self._ends.append((event.side, event.ended, event.at))

    def _put(self, row: Row) -> None:
        self._rows.append(row)
        self._by_place[(row.side, row.number, 0)] = row
        for it in row.answers:
            asked = None if it is None else self._by_place.get((it.side, it.number, 0))
            if asked is not None:
                asked.answered.append(row)

    def write(self, talk: Talk, missed: str = "") -> None:
        """Writes the page: what there was, and what wasn't judged, if there is something."""
        with self._file as file:
            for part in self._parts(talk, missed):
                file.write(part)

    # The page

    def _parts(self, talk: Talk, missed: str) -> Iterator[str]:
        title, self._rules = escape(self._title), talk.rules
        yield HEAD.replace("TITLE", title)
        yield f"<header><h1>{title}</h1>"
        yield '<p><a class="skip" href="#talk">To the messages</a></p></header>\n<main>\n'
        yield from self._summary(talk, missed)
        yield from self._found(talk)
        yield from self._filters()
        yield from self._ladder()
        yield f"</main>\n<script>{SCRIPT}</script>\n</body>\n</html>\n"

    def _summary(self, talk: Talk, missed: str) -> Iterator[str]:
        found = ", ".join(f"{talk.counts.get(it, 0):,} {it}" for it in LEVELS)
        yield '<section aria-labelledby="summary"><h2 id="summary">Summary</h2>\n<dl>'
        yield f"<dt>Rules</dt><dd>{talk.rules}, {talk.framing}</dd>"
        for side, its in talk.sides.items():
            yield f"<dt>Messages of the {side}</dt><dd>{its.messages:,} ({its.bytes:,} bytes)</dd>"
        for side, how, at in self._ends:
            word = "closed" if how == "closed" else "couldn't be read any more"
            yield f"<dt>The {side}’s stream</dt><dd>{word}{_after(at)}</dd>"
        if missed:
            yield f"<dt>Not judged</dt><dd>{missed}</dd>"
        yield f"<dt>Findings</dt><dd>{found}</dd></dl>\n"
        yield from self._methods(talk)
        yield "</section>\n"

    @staticmethod
    def _methods(talk: Talk) -> Iterator[str]:
        rows = [
            f"<tr><td>{side}</td><th scope=row>{escape(name)}</th><td>{it.asked:,}</td><td>{it.answered:,}</td>"
            + (
                f"<td>{it.total / it.timed:,.1f}</td><td>{it.longest:,.0f}</td></tr>"
                if it.timed
                else "<td></td><td></td></tr>"
            )
            for side in SIDES
            for name, it in sorted(talk.sides[side].times.items(), key=lambda it: -it[1].asked)
        ]
        if rows:
            yield "<table><caption>Requests, and milliseconds until their answers</caption><thead><tr>"
            for it in ("asked by", "method", "asked", "answered", "mean", "longest"):
                yield f"<th scope=col>{it}</th>"
            yield f"</tr></thead><tbody>{''.join(rows)}</tbody></table>\n"

    def _found(self, talk: Talk) -> Iterator[str]:
        yield '<section aria-labelledby="findings"><h2 id="findings">Findings</h2>\n'
        if not self._findings:
            yield "<p>Nothing is found.</p></section>\n"
            return
        yield from self._groups(talk)
        yield '<table class="findings"><thead><tr>'
        for heading in ("level", "who", "message", "rule", "where it stands", "what"):
            yield f"<th scope=col>{heading}</th>"
        yield "</tr></thead><tbody>\n"
        for it in self._findings:
            rule, section = RULES[it.rule], section_of(it.rule, talk.rules)
            place = escape(place_of(it))
            row = self._by_place.get((it.of, it.number, 0))
            link = place if row is None else f'<a href="#{row.anchor}">{place}</a>'
            yield f'<tr><td><b class="{it.level}">{it.level}</b></td><td>{it.side}</td><td>{link}</td>'
            yield f"<td><code>{it.rule}</code></td><td>{escape(section)}</td>"
            yield f"<td>{escape(rule.what)}<br><small>{escape(it.words)}</small></td></tr>\n"
        yield "</tbody></table>\n"
        more = sum(talk.counts.values()) - len(self._findings)
        if more > 0:
            yield f"<p>{more:,} more findings stand at their messages alone.</p>\n"
        yield "</section>\n"

    @staticmethod
    def _groups(talk: Talk) -> Iterator[str]:
        """A row for each rule, where one was broken more than once."""
        rows = [
            f'<tr><td><b class="{it.first.level}">{it.first.level}</b></td><td>{it.first.side}</td>'
            f"<td>{it.times:,}</td><td><code>{it.first.rule}</code></td><td>{escape(place_of(it.first))}</td></tr>"
            for it in groups_of(talk)
        ]
        if rows:
            headings = "".join(
                f"<th scope=col>{it}</th>" for it in ("level", "who", "count", "rule", "first")
            )
            yield f"<table><caption>By rule</caption><thead><tr>{headings}</tr></thead><tbody>{''.join(rows)}</tbody></table>\n"

    def _filters(self) -> Iterator[str]:
        counts = collections.Counter(it.method for it in self._rows)
        methods = sorted(it for it, _ in counts.most_common(_METHODS))
        if len(counts) > _METHODS:
            methods.append(OTHERS)
        self._method_numbers = {it: at for at, it in enumerate(methods)}
        yield '<section aria-labelledby="talk"><h2 id="talk">Messages</h2>\n<form id="filters" hidden>'
        yield '<label>Method <select name="method"><option value="">all</option>'
        for name, at in self._method_numbers.items():
            yield f'<option value="{at}">{escape(name)}</option>'
        yield "</select></label>\n<fieldset><legend>Of</legend>"
        for value, text in (("", "both"), ("c", "the client"), ("s", "the server")):
            checked = "" if value else " checked"
            yield f'<label><input type="radio" name="side" value="{value}"{checked}> {text}</label>'
        yield '</fieldset>\n<label><input type="checkbox" name="found"> only with findings</label>\n'
        yield '<output name="count" aria-live="polite"></output></form>\n'

    def _ladder(self) -> Iterator[str]:
        if self._left_out:
            yield f"<p>{self._left_out:,} more messages are left out.</p>\n"
        yield '<div class="sides" aria-hidden="true"><b>client</b><i></i><b>server</b></div>\n'
        # (parts that aren't on the screen aren't laid out)
        for start in range(0, len(self._rows), _PART):
            part = self._rows[start : start + _PART]
            yield f'<ol class="part" aria-label="messages {start + 1} to {start + len(part)}">\n'
            for it in part:
                yield from self._row(it)
            yield "</ol>\n"
        yield "</section>\n"

    def _row(self, row: Row) -> Iterator[str]:
        letter, has = _LETTERS[row.side], f" data-f={row.findings[0].level}" if row.findings else ""
        yield f"<li id={row.anchor} tabindex=-1 class={letter} data-m={self._method_number(row)}{has}>"
        yield f"<i>{'' if row.at is None else f'{row.at:,.0f} ms'}</i><div><details><summary>"
        yield f"<span class=who>{row.side} {row.number}: </span>{self._name(row)}</summary>"
        yield f"<small>{row.size:,} bytes at byte {row.offset:,}</small><pre>{escape(row.text)}"
        yield f"{'' if row.size <= _SHOWN else ' …'}</pre></details>{self._links(row)}"
        for it in row.findings:
            yield (
                f'<p class=found><b class="{it.level}">{it.level}</b> {it.side}: <code>{it.rule}</code> '
                f"{escape(RULES[it.rule].what)} <small>({escape(section_of(it.rule, self._rules))})</small></p>"
            )
        yield "</div></li>\n"

    def _method_number(self, row: Row) -> int:
        number = self._method_numbers.get(row.method)
        return self._method_numbers[OTHERS] if number is None else number

    @staticmethod
    def _name(row: Row) -> str:
        parts = [
            f"<b>{escape(method)}</b> <span>{kind}{f', {escape(more)}' if more else ''}</span>"
            for kind, method, more in row.entries[:_ENTRIES]
        ]
        if not parts:
            return "<b>no message that can be read</b>"
        many = len(row.entries)
        more = f" and {many - _ENTRIES:,} more" if many > _ENTRIES else ""
        return f"{'array: ' if many > 1 else ''}{'; '.join(parts)}{more}"

    @staticmethod
    def _links(row: Row) -> str:
        links: List[str] = []
        for asked in [it for it in row.answers if it is not None][:_ENTRIES]:
            took = "" if asked.at is None or row.at is None else f", after {row.at - asked.at:,.0f} ms"
            links.append(
                f"answers <a href=#{_LETTERS[asked.side]}{asked.number}>{asked.side} {asked.number}</a>{took}"
            )
        for it in [it for it in row.answered if it is not None][:_ENTRIES]:
            took = "" if it.at is None or row.at is None else f", after {it.at - row.at:,.0f} ms"
            links.append(f"answered by <a href=#{it.anchor}>{it.side} {it.number}</a>{took}")
        if not row.answered and any(kind == "request" for kind, _, _ in row.entries):
            links.append("not answered")
        return f"<p class=links>{'; '.join(links)}</p>" if links else ""


def _after(at: Optional[float]) -> str:
    return "" if at is None else f" after {at:,.0f} ms"
