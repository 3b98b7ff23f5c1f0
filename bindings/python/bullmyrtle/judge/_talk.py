"""A conversation: what was seen of two sides, in the order in which it was seen, and all that is found in it."""
from __future__ import annotations

import collections
import itertools
from typing import Collection, Deque, Dict, Iterable, List, NamedTuple, Optional, Set, Tuple

from .._log import shown
from ..errors import NoMemory
from ._amended import added, amended
from ._judge import MOST_CONTENT, SIDES, Finding, Judge
from ._life import OTHER, Asked, Breach, Key, Life, key_of, member
from ._life_lsp import Lsp
from ._life_mcp import Mcp
from ._recording import Event
from ._rules import LIFE, NOTE, UNREADABLE
from ._slow import Slow
from ._streams import ABSENT, Entry, Message, Stream, read, twice_in
from ._versions import VERSIONS, of_library

#: How much of a message is quoted.
QUOTED = 160
# How many characters of why are told beside, how many methods are counted by their names, and how long these are.
_WHY, _METHODS, _NAME = 200, 500, 100
#: The name by which all further methods are counted.
OTHERS = "(others)"
_LEVELS = {it.name: it.levels for it in LIFE}
# The notification that cancels, and the member that names the request.
_CANCELS = {"lsp": ("$/cancelRequest", "id")}
_CANCELS.update({it: ("notifications/cancelled", "requestId") for it in VERSIONS})


class Times:
    """How often a method was asked for, and how long its answers took, in milliseconds."""

    __slots__ = ("asked", "answered", "timed", "total", "longest")

    def __init__(self) -> None:
        self.asked = self.answered = self.timed = 0
        self.total = self.longest = 0.0

    def took(self, milliseconds: float) -> None:
        self.timed += 1
        self.total += milliseconds
        self.longest = max(self.longest, milliseconds)


class Seen(NamedTuple):
    """A message, and what it is an answer to."""

    message: Message
    at: Optional[float]  #: milliseconds since the beginning, where they are known
    answers: List[Optional[Asked]]  #: for each entry the request that it answers


class Side:
    """What was seen of a side."""

    def __init__(self, framing: str) -> None:
        self.stream = Stream(framing)
        self.messages = self.bytes = 0
        self.ended = ""
        self.open: Dict[Key, Deque[Asked]] = {}  # its requests that aren't answered, the oldest first
        self.times: Dict[str, Times] = {}  # of its requests, by their methods
        self.refusals = 0  # its errors that don't say what they are for, and how many messages there were
        self.refused = 0  # of the other side before the last of them
        self.is_unsure = False  # something of it couldn't be read

    def times_of(self, asked: Asked) -> Times:
        name = shown(asked.method, _NAME)
        if name not in self.times and len(self.times) >= _METHODS:
            name = OTHERS
        return self.times.setdefault(name, Times())

    def open_requests(self) -> List[Asked]:
        found = [it for some in self.open.values() for it in some]
        return sorted(found, key=lambda it: (it.number, it.entry))


class Group(NamedTuple):
    """The findings of a level, a side and a rule."""

    times: int
    first: Finding


class Talk:
    """A conversation. Tell it what was seen of both sides, and it gives what is found.

    >>> talk = Talk("jsonrpc", "lines")
    >>> talk.saw("server", b'{"jsonrpc":"2.0","id":1,"result":1}' + bytes([10]))[0].rule
    'not-owed'
    """

    def __init__(
        self,
        rules: str = "lsp",
        framing: str = "frames",
        content: Optional[int] = None,
        shapes: bool = False,
    ) -> None:
        self.rules, self.framing = rules, framing
        self._judge: Optional[Judge] = Judge(of_library(rules), framing, content)
        self._most = content or MOST_CONTENT
        self._life = Lsp(rules) if rules == "lsp" else Mcp(rules) if rules in VERSIONS else Life(rules)
        if shapes:
            from ._shapes import with_shapes  # (here, since their types take memory)

            self._life = with_shapes(self._life)
        self.sides = {it: Side(framing) for it in SIDES}
        self.counts: Dict[str, int] = {}  #: how many findings there are, by their levels
        self.groups: Dict[Tuple[str, str, str], Group] = {}  #: and by level, side and rule
        self.new: List[Seen] = []  #: the messages that the last call saw
        self.at: Optional[float] = None  #: when something was seen last
        self.slow: Optional[Slow] = None  # (what the driver asks which requests are open)
        self._is_left_told = False  # what the server owed at the end

    def saw(self, side: str, data: bytes, at: Optional[float] = None) -> List[Finding]:
        """A side wrote these bytes, so many milliseconds after the beginning. Gives what is found in them.

        Raises NoMemory where there is none for the judge: from there on nothing is judged.
        """
        return self._saw(Event(side, data, "", at))

    def ended(self, side: str, how: str = "closed", at: Optional[float] = None) -> List[Finding]:
        """A side's stream was "closed", or reading it "failed"."""
        return self._saw(Event(side, b"", how, at))

    def _saw(self, event: Event) -> List[Finding]:
        return self.taken(event, self.proved(event))

    def proved(self, event: Event) -> List[Finding]:
        """What the library finds in what was seen, which may take it long. The rest of that, without which nothing of
        the conversation is changed yet, is `taken`."""
        if self._judge is None or self.sides[event.side].ended:
            return []
        try:
            if event.ended:
                self._judge.ended(event.side, event.ended)
            else:
                self._judge.saw(event.side, event.data)
        except NoMemory:
            self.close()
            raise
        return self._judge.findings()

    def taken(self, event: Event, proved: List[Finding]) -> List[Finding]:
        """All that is found in what was seen, with what the library finds in it."""
        its = self.sides[event.side]
        self.new, self.at = [], event.at
        if its.ended:
            return []
        its.bytes += len(event.data)
        its.ended = event.ended
        if not event.ended:
            its.stream.saw(event.data)
        elif self.slow is not None:  # (no answer can come any more)
            for it in self.sides[OTHER[event.side]].open_requests():
                self.slow.closed(it)
        return self._taken(event, proved)

    @property
    def edition(self) -> str:
        """By what it is judged: the rules, and of MCP the version."""
        return self._life.edition()

    def alike(self) -> Iterable[str]:
        """Lines about findings that are reported once and counted."""
        return self._life.summary()

    def close(self) -> None:
        """Let go of what it holds."""
        if self._judge is not None:
            self._judge.close()
            self._judge = None

    # Messages

    def _taken(self, event: Event, found: List[Finding]) -> List[Finding]:
        """Takes what is whole now, and gives all that is found, in the order of the messages."""
        its = self.sides[event.side]
        was_over = its.stream.is_over
        by_number: Dict[int, List[Finding]] = {}
        others: List[Finding] = []
        for it in found:
            (by_number.setdefault(it.number, []) if it.of == event.side else others).append(it)
        told: List[Finding] = []
        while True:
            start = its.stream.start
            whole = its.stream.closed() if event.ended == "closed" else its.stream.next()
            of_it = by_number.get(its.messages + 1, []) if whole is not None else []
            if whole is None or self._is_last(of_it, whole):
                break
            its.messages += 1
            told += self._message(
                read(event.side, its.messages, *whole), by_number.pop(its.messages, []), event.at
            )
        for rest in by_number.values():
            # (what isn't whole. The library judges no more of this side, and wherever the piece ended in which it saw
            # that, neither is more cut off here.)
            told += [it._replace(words=quoted(start)) for it in rest]
            its.is_unsure = True
            its.stream.stop()
        told += self._unanswered(others)
        if (
            event.ended and event.side == "server" and not was_over
        ):  # (else answers may have come that weren't read)
            told += self._left({(it.number, it.entry) for it in others})
        for it in told:
            self.counts[it.level] = self.counts.get(it.level, 0) + 1
            count, first = self.groups.get((it.level, it.side, it.rule), (0, it))
            self.groups[it.level, it.side, it.rule] = Group(count + 1, first)
        return told

    def _is_last(self, found: List[Finding], whole: Tuple[int, bytes]) -> bool:
        """Whether the library saw the stream's last fault where here a content is cut off, since less is asked of a head
        here. Where the content itself is at fault, the finding has its offset, and judging goes on."""
        offset, content = whole
        return any(
            it.rule == "head"
            or (it.rule == "not-judged" and (it.offset != offset or len(content) > self._most))
            for it in found
        )

    def _message(self, message: Message, found: List[Finding], at: Optional[float]) -> List[Finding]:
        """All that is found in a message, with what the library finds in it."""
        all_found = [*(added(message, self.edition) if self.rules == "mcp" else ()), *found]
        told = [it for it in (self._told(it, message) for it in all_found) if it is not None]
        # (what stands twice may have been read otherwise, and then a session's life went on otherwise)
        self.sides[message.side].is_unsure |= any(it.rule == "twice" for it in found)
        if UNREADABLE.isdisjoint(it.rule for it in found):
            return told + self._lived(message, at)
        self.sides[message.side].is_unsure = True
        self.new.append(Seen(message, at, []))
        return told

    def _told(self, found: Finding, message: Message) -> Optional[Finding]:
        """A finding of the library's, with its words, if the version of MCP has the rule."""
        it = amended(found, self.edition)
        if it is None or it.words:
            return it and it._replace(words=f"{it.words}: {quoted(message.content)}")
        return it._replace(words=f"{self._hint(it, message)}{quoted(message.content)}")

    def _hint(self, it: Finding, message: Message) -> str:
        """Which members stand twice; which method has a result that is no object; or what may have been meant by an answer
        that nobody waits for: it is or follows a refusal, or its id has another type."""
        if it.rule == "twice":
            return f"{', '.join(twice_in(message.content, it.entry))}: "
        if it.rule not in ("result-object", "not-owed") or len(message.entries) < it.entry:
            return ""
        entry = message.entries[max(it.entry, 1) - 1]
        if it.rule == "result-object":
            return self._method_of(OTHER[message.side], entry)
        if it.level == NOTE and entry.id is None and not message.is_array:
            return "a content may have been refused whole: "
        id_ = entry.id
        twin = key_of(str(id_)) if not isinstance(id_, str) else _number(id_)
        if twin is None or twin not in self.sides[OTHER[message.side]].open:
            return ""
        return (
            f"the id {twin[1]!r}, a {twin[0]}, was asked with, and {id_!r} is a {(key_of(id_) or ('',))[0]}: "
        )

    def _method_of(self, asker: str, entry: Entry) -> str:
        """What an entry is an answer to, if such a request is open."""
        key = key_of(entry.id)
        some = self.sides[asker].open.get(key) if key is not None else None
        return f"{shown(some[0].method, _WHY)}: " if some else ""

    def _unanswered(self, found: List[Finding]) -> Iterable[Finding]:
        """Findings about requests that were seen before, with their words."""
        requests = {(it.side, it.number, it.entry): it for it in self._open_of({it.of for it in found})}
        for it in found:
            asked = requests.get((it.of, it.number, it.entry))
            yield it if asked is None else it._replace(words=_named(asked))

    def _open_of(self, sides: Iterable[str]) -> Iterable[Asked]:
        for side in sides:
            for some in self.sides[side].open.values():
                yield from some

    def _lived(self, message: Message, at: Optional[float]) -> List[Finding]:
        """What a message breaks of the session's life."""
        answers: List[Optional[Asked]] = []
        told: List[Finding] = []
        is_unsure = any(it.is_unsure for it in self.sides.values())
        for place, entry in enumerate(message.entries, 1):
            entry_place = place if message.is_array else 0
            answers.append(self._entry(message, entry, entry_place, at))
            found = (self._found(message, entry_place, it, is_unsure) for it in self._life.breaches)
            told += [it for it in found if it is not None]
            self._life.breaches.clear()
        self.new.append(Seen(message, at, answers))
        return told + self._left() if self._life.is_over else told

    def _left(self, told: Collection[Tuple[int, int]] = ()) -> List[Finding]:
        """What the server owes when its session ends, said once, without what is told as unanswered."""
        level = _LEVELS["open-at-end"].get(self.edition)
        if self._is_left_told or level is None:
            return []
        self._is_left_told = True
        is_mcp = self.rules in VERSIONS  # (where what is cancelled needs no answer)
        left = [it for it in self.sides["client"].open_requests() if not (is_mcp and it.is_cancelled)]
        refused = self._may_be_refused(left)
        return [
            Finding("server", "open-at-end", level, "client", it.number, it.offset, it.entry, _named(it))
            for it in left
            if it.number not in refused and (it.number, it.entry) not in told
        ]

    def _may_be_refused(self, left: List[Asked]) -> Set[int]:
        """The messages that the server may have refused by errors with the id null, which don't say what they are for: as
        many as there were, the oldest of those that came before."""
        server = self.sides["server"]
        messages = sorted({it.number for it in left if it.number <= server.refused})
        return set(messages[: server.refusals])

    def _found(self, message: Message, entry: int, breach: Breach, is_unsure: bool) -> Optional[Finding]:
        """A finding, if this edition of the rules has the rule."""
        level = breach.level or _LEVELS[breach.rule].get(self.edition)
        if level is None:
            return None
        level = NOTE if is_unsure else level
        words = shown(breach.words, _WHY)
        words = f"{words}: {quoted(message.content)}" if words else quoted(message.content)
        return Finding(
            breach.side, breach.rule, level, message.side, message.number, message.offset, entry, words
        )

    # Entries

    def _entry(self, message: Message, entry: Entry, place: int, at: Optional[float]) -> Optional[Asked]:
        """Takes an entry, and gives the request that it answers."""
        its = self.sides[message.side]
        if entry.kind == "request":
            asked = Asked(message.side, entry, message.number, place, message.offset, at)
            its.times_of(asked).asked += 1
            key = key_of(entry.id)
            if key is not None:
                its.open.setdefault(key, collections.deque()).append(asked)
                if self.slow is not None:
                    self.slow.asked(asked)
            self._life.request(asked, entry.params, message.is_array)
        elif entry.kind == "notification":
            self._cancel(its, entry)
            self._life.notification(message.side, entry.method, entry.params)
        elif entry.kind == "answer":
            other = OTHER[message.side]
            if entry.id is None and entry.error is not ABSENT:
                its.refusals, its.refused = its.refusals + 1, self.sides[other].messages
            return self._answer(other, entry, at)
        return None

    def _answer(self, asker: str, entry: Entry, at: Optional[float]) -> Optional[Asked]:
        asked = self._closed(self.sides[asker], key_of(entry.id))
        if asked is None:
            return None
        if self.slow is not None:
            self.slow.closed(asked)
        times = self.sides[asker].times_of(asked)
        times.answered += 1
        if asked.at is not None and at is not None:
            times.took(at - asked.at)
        self._life.answer(asked, entry)
        return asked

    @staticmethod
    def _closed(its: Side, key: Optional[Key]) -> Optional[Asked]:
        """Takes the oldest request with an id from those that are open."""
        some = its.open.get(key) if key is not None else None
        if not some or key is None:
            return None
        found = some.popleft()
        if not some:
            del its.open[key]
        return found

    def _cancel(self, its: Side, entry: Entry) -> None:
        """A cancel reaches its side's own requests. (What is before one that is cancelled was reached before.)"""
        method, name = _CANCELS.get(self.rules, ("", ""))
        if entry.method != method:
            return
        key = key_of(member(entry.params, name))
        some = its.open.get(key) if key is not None else None
        reached = itertools.takewhile(lambda asked: not asked.is_cancelled, reversed(some or ()))
        for asked in reversed(list(reached)):
            asked.is_cancelled = True
            if self.slow is not None and self.rules in VERSIONS:  # (in LSP it must be answered all the same)
                self.slow.closed(asked)
            self._life.cancelled(asked)


def _named(asked: Asked) -> str:
    return shown(f"{asked.method}, id {asked.id!r}", QUOTED)


def _number(text: str) -> Optional[Key]:
    """The number that a text is, as an id."""
    return ("number", int(text)) if text.isascii() and text.isdigit() and len(text) < 20 else None


def quoted(content: bytes) -> str:
    """The beginning of a message, in one line."""
    text = content[: 4 * QUOTED].decode("utf-8", "replace").replace("\n", " ").replace("\r", " ")
    return shown(text, QUOTED)
