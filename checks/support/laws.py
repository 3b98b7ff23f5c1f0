"""The laws that what a peer writes keeps, whatever comes in and whatever its schedule. They are about what came in
(reading.py) and what was written (written.py), and about two runs of one stream; none says what a method does."""
import re
from collections import Counter, defaultdict
from dataclasses import dataclass, field, replace
from typing import Callable, Iterator, Optional

from support import model
from support.cases import Ran
from support.reading import ABSENT, Entry, Stream, Unit, is_same_id, is_whole
from support.written import Item, Unwritten, items_of

PARAM = re.compile(r'"(param-[0-9]+)"')
REPLY = re.compile(r'"(reply-[0-9]+)"')
CANCELLED = model.text_of(model.CANCELLED)


class Broken(Exception):
    """A law that doesn't hold, in words."""


def require(holds: bool, text: str) -> None:
    if not holds:
        raise Broken(text)


def broken(check: Callable[[], object]) -> Optional[str]:
    """The law that a check finds broken, if any."""
    try:
        check()
    except Broken as fault:
        return str(fault)
    return None


@dataclass
class Table:
    """What the laws have to know of a table of methods."""

    methods: frozenset[str]
    has_opening: bool
    # How many calls each method makes that answers with all its replies, each once; none where methods tell replies
    # otherwise.
    tellers: dict[str, Optional[int]] = field(default_factory=dict)


@dataclass
class Coming:
    """A stream that comes in, and what the laws ask of it."""

    stream: Stream
    table: Table
    running: dict[int, Optional[Entry]] = field(
        default_factory=dict
    )  # by number, those that a method runs; 0 is the opening
    named: dict[int, Entry] = field(
        default_factory=dict
    )  # of the requests among them, the first cancel that names each
    firsts: dict[tuple[int, int], Entry] = field(
        default_factory=dict
    )  # the first reply to each call, behind the call's own call
    senders: dict[str, int] = field(default_factory=dict)  # by the token of its params, where one call alone has it
    contents: list[int] = field(default_factory=list)  # by the place of an entry: which content it stands in

    def __post_init__(self) -> None:
        self.contents = [at for at, unit in enumerate(self.stream.units) for _ in unit.entries]
        calls = self.stream.calls
        self.running = {it.number: it for it in calls if self.is_run(it)}
        if self.table.has_opening:
            self.running[0] = None
        requests = [it for it in self.running.values() if it and it.is_request]
        for cancel in (it for it in calls if it.target is not ABSENT):
            for it in requests:
                if it.place < cancel.place and is_same_id(it.id, cancel.target):
                    self.named.setdefault(it.number, cancel)
        places = {it.number: it.place for it in calls}
        for it in self.stream.entries:
            if (
                it.kind == "reply"
                and places.get(it.key[0], -1 if self.table.has_opening and not it.key[0] else it.place) < it.place
            ):
                self.firsts.setdefault(it.key, it)
        tokens = Counter(token for it in calls for token in {*PARAM.findall(model.text_of(it.params))})
        self.senders = {
            token: it.number for it in calls for token in PARAM.findall(model.text_of(it.params)) if tokens[token] == 1
        }

    def is_run(self, call: Entry) -> bool:
        return call.method in self.table.methods and is_whole(call.params)

    def fixed(self, entry: Entry) -> Optional[str]:
        """The answer of an entry that no method runs."""
        if entry.kind == "unreadable":
            return model.text_of(model.answer(None, error=model.PARSE_ERROR))
        if entry.kind == "invalid":
            return model.text_of(model.answer(None, error=model.INVALID_REQUEST))
        if not entry.is_request or entry.number in self.running:
            return None
        error = model.INVALID_PARAMS if entry.method in self.table.methods else model.NOT_FOUND
        return model.text_of(model.answer(entry.id, error=error))

    def answered(self, unit: Unit) -> list[Entry]:
        """The entries of a unit that have an answer."""
        return [it for it in unit.entries if it.kind in ("unreadable", "invalid") or it.is_request]

    def content_of(self, entry: Optional[Entry]) -> int:
        """Which content an entry stands in. The opening comes with the first, and what never comes behind all of
        them."""
        return self.contents[entry.place] if entry else len(self.stream.units)

    def ready(self, number: int, turns: int) -> int:
        """The content with which all is there that a handler waits for that has made so many calls."""
        entry = self.running[number]
        replies = [self.content_of(self.firsts.get((number, turn))) for turn in range(1, turns + 1)]
        return max([self.content_of(entry) if entry else 0, *replies])


@dataclass
class Told:
    """What a peer wrote, by handlers."""

    items: list[Item]
    endings: dict[int, str] = field(default_factory=dict)  # of each request that a method runs: its answer
    answered_at: dict[int, int] = field(default_factory=dict)  # and where that stands
    said: dict[int, list[Item]] = field(default_factory=lambda: defaultdict(list))  # calls and notices, by number
    turns: dict[int, int] = field(default_factory=lambda: defaultdict(int))
    awaited: dict[int, list[int]] = field(
        default_factory=lambda: defaultdict(list)
    )  # the turns of the last message with calls
    withdrawn: dict[int, list[int]] = field(default_factory=lambda: defaultdict(list))
    loose: Counter[str] = field(default_factory=Counter)  # notices of whom nobody knows who sent them

    def is_cancelled(self, number: int) -> bool:
        return self.endings.get(number, "").startswith(f'{{"error":{CANCELLED},')

    @property
    def cancelled(self) -> set[int]:
        return {it for it in self.endings if self.is_cancelled(it)}


# One run


def check_answers(coming: Coming, told: Told) -> None:
    """Each request is answered once, in its place: units in the order of arrival, and the entries of a batch in
    theirs."""
    places = [at for at, it in enumerate(told.items) if it.kind == "answers"]
    units = [it for it in coming.stream.units if coming.answered(it)]
    for unit, at in zip(units, places):
        entries, item = coming.answered(unit), told.items[at]
        require(
            item.is_batch == unit.is_batch and len(item.entries) == len(entries),
            f"{item.text} isn't the answer of its unit: {unit}",
        )
        for entry, value in zip(entries, item.entries):
            text, fixed = model.text_of(value), coming.fixed(entry)
            if fixed is None:
                require(is_same_id(value["id"], entry.id), f"{text} hasn't the id {entry.id!r}")
                told.endings[entry.number], told.answered_at[entry.number] = text, at
            else:
                require(text == fixed, f"{text} in place of {fixed}")
    require(len(places) == len(units), f"{len(places)} answers of {len(units)} units")


def sender_of(coming: Coming, item: Item) -> Optional[int]:
    """The number of the handler that sent a message, where that can be known."""
    if item.keys:
        numbers = {number for number, _ in item.keys}
        require(len(numbers) == 1, f"{item.text} has calls of several handlers")
        return numbers.pop()
    tokens = PARAM.findall(item.text)
    return coming.senders.get(tokens[0]) if tokens else None


def take_message(coming: Coming, told: Told, at: int, item: Item) -> None:
    number = sender_of(coming, item)
    if number is None:
        told.loose[item.text] += 1
        return
    require(number in coming.running, f"{item.text} is of no call that a method runs")
    require(at < told.answered_at.get(number, at + 1), f"{item.text} stands behind the answer of its request")
    if item.kind == "withdrawal":
        told.withdrawn[number].append(item.keys[0][1])
        return
    require(number not in told.withdrawn, f"{item.text} stands behind a withdrawal")
    told.said[number].append(item)
    if item.kind == "calls":
        awaited = [turn for _, turn in item.keys]
        first = told.turns[number] + 1
        require(awaited == [*range(first, first + len(awaited))], f"{item.text} hasn't the turns from {first} on")
        told.turns[number], told.awaited[number] = awaited[-1], awaited


def check_withdrawals(coming: Coming, told: Told) -> None:
    """Calls are withdrawn for cancelled requests alone: calls that were awaited, each once, and none whose reply stood
    before the cancel."""
    for number, turns in told.withdrawn.items():
        require(told.is_cancelled(number), f"calls of {number} are withdrawn, and it isn't cancelled")
        require(turns == unanswered(coming, told, number, turns), f"the turns {turns} of {number} are withdrawn")


def unanswered(coming: Coming, told: Told, number: int, among: list[int]) -> list[int]:
    """Which of the turns are awaited, and have no reply before the cancel."""
    if number not in coming.named:
        return []
    place = coming.named[number].place
    return [it for it in told.awaited[number] if it in among and not is_before(coming.firsts.get((number, it)), place)]


def is_before(entry: Optional[Entry], place: int) -> bool:
    return entry is not None and entry.place < place


def texts_by_sender(told: Told) -> Iterator[tuple[int, int, str]]:
    """What each handler tells: its number, how many calls it has made by then, and the text."""
    for number, items in told.said.items():
        turns = 0
        for item in items:
            yield number, turns, item.text
            turns += len(item.keys)
    for number, text in told.endings.items():
        yield number, told.turns[number], text


def tokens_of(reply: Entry) -> list[str]:
    return REPLY.findall(model.text_of([reply.result, reply.error]))


def check_replies(coming: Coming, told: Told) -> int:
    """Each reply is used once, by the handler whose call it replies to; and gives how many were used. Others have no
    effect."""
    owners = defaultdict(set)
    for key, reply in coming.firsts.items():
        for token in tokens_of(reply):
            owners[token].add(key)
    uses = Counter[str]()
    for number, turns, text in texts_by_sender(told):
        for token in REPLY.findall(text):
            uses[token] += 1
            well = any(it[0] == number and it[1] <= turns for it in owners[token])
            require(well, f"{text} of {number} has {token}, which is a reply to {sorted(owners[token]) or 'none'}")
    if coming.table.tellers:
        for token, count in uses.items():
            require(count <= len(owners[token]), f"{token} is used {count} times")
        check_tellers(coming, told)
    return len(uses)


def check_tellers(coming: Coming, told: Told) -> None:
    """A method that answers with its replies does so with all of them, in the order of its calls, where each came and
    is a result."""
    for number, text in told.endings.items():
        entry = coming.running[number]
        if entry is None or entry.method not in coming.table.tellers or told.is_cancelled(number):
            continue
        if told.turns[number] != calls_of(entry, coming.table.tellers[entry.method]):
            continue
        replies = [coming.firsts.get((number, turn)) for turn in range(1, told.turns[number] + 1)]
        came = [it for it in replies if it is not None and it.error is None]
        if len(came) == len(replies):
            tokens = [token for it in came for token in tokens_of(it)]
            require('"result":' in text and REPLY.findall(text) == tokens, f"{text} hasn't the replies {tokens}")


def calls_of(entry: Entry, count: Optional[int]) -> Optional[int]:
    """How many calls a method makes that makes so many, or one for each of its params; None where these are none of its
    kind."""
    return count if count is not None else len(entry.params) if isinstance(entry.params, list) else None


def check_report(coming: Coming, told: Told, ran: Ran) -> None:
    """The report counts what was taken and written, and a handler is polled at most once before its first call and once
    for each."""
    messages = [it for it in told.items if it.kind != "answers"]
    calls = [it for it in messages if it.kind == "calls"]
    counts = (len(coming.stream.calls), len(messages), len(calls), len(told.items) - len(messages))
    told_of = (ran.numbers, ran.messages, ran.calls, ran.answers)
    require(told_of == counts, f"the report has {told_of}, and what came and was written {counts}")
    most = ran.numbers + ran.calls + coming.table.has_opening
    require(ran.polls <= most, f"{ran.polls} polls, and there are to be {most} at most")


def told_by(coming: Coming, ran: Ran, has_report: bool = True) -> Told:
    """What was written, once it keeps the laws of one run."""
    require(ran.end == coming.stream.end, f"the input ended {ran.end}, and not {coming.stream.end}")
    try:
        told = Told(items_of(ran.output))
    except (Unwritten, ValueError, KeyError, TypeError) as fault:
        raise Broken(f"what was written: {fault}") from fault
    check_answers(coming, told)
    for at, item in enumerate(told.items):
        if item.kind != "answers":
            take_message(coming, told, at, item)
    check_withdrawals(coming, told)
    check_replies(coming, told)
    if has_report:
        check_report(coming, told, ran)
    return told


# Two runs


def texts(items: list[Item]) -> list[str]:
    return [it.text for it in items]


def check_beside(coming: Coming, told: Told, plain: Told) -> None:
    """Beside a run in which nothing is cancelled: each handler that isn't cancelled sends the same messages in the same
    order and has the same answer, and one that is a front of them; and only those are cancelled that a cancel names."""
    for number in coming.running:
        said, whole = texts(told.said.get(number, [])), texts(plain.said.get(number, []))
        ending, usual = told.endings.get(number), plain.endings.get(number)
        if told.is_cancelled(number) and ending != usual:
            require(number in coming.named, f"{number} is cancelled, and no cancel names it")
            require(said == whole[: len(said)], f"{number} sends {said}, which aren't the first of {whole}")
        else:
            require(ending == usual, f"{number} is answered {ending}, and without cancels {usual}")
            require(said == whole, f"{number} sends {said}, and without cancels {whole}")
    lacking, more = plain.loose - told.loose, told.loose - plain.loose
    require(not more and (not lacking or bool(told.cancelled)), f"notices {dict(more)} come, and {dict(lacking)} don't")


def check_lazy(coming: Coming, told: Told) -> None:
    """Where all of the input comes before the first turn, each request that a cancel names is cancelled, and has sent
    nothing."""
    require(
        told.cancelled == {*coming.named},
        f"{sorted(told.cancelled)} are cancelled, and {sorted(coming.named)} are named",
    )
    spoken = {it for it in told.cancelled if told.said.get(it)}
    require(not spoken and not told.withdrawn, f"{sorted(spoken)} sent something before they were cancelled")


def check_eager(coming: Coming, told: Told, other: Told) -> None:
    """Where each content is worked on before the next comes, the picks change no more than the order; and each awaited
    call of a cancelled request is withdrawn whose reply hasn't come."""
    require(
        told.endings == other.endings and told.withdrawn == other.withdrawn,
        "another pick changes what is cancelled or withdrawn",
    )
    require(Counter(texts(told.items)) == Counter(texts(other.items)), "another pick changes what is written")
    for number in told.cancelled & {*coming.named}:
        wanted = unanswered(coming, told, number, told.awaited[number])
        require(
            told.withdrawn.get(number, []) == wanted,
            f"{told.withdrawn.get(number)} of {number} are withdrawn, and not {wanted}",
        )


def check_cancelled_eagerly(coming: Coming, told: Told, plain: Told) -> None:
    """Where each content is worked on before the next comes, a cancel reaches each request that it names, but those
    that were finished with an earlier content."""
    for number, cancel in coming.named.items():
        is_late = coming.ready(number, plain.turns[number]) < coming.content_of(cancel)
        require(
            told.is_cancelled(number) != is_late,
            f"{number} is{' finished, and' if is_late else ' not finished, and not'} cancelled",
        )


def due_items(coming: Coming, told: Told) -> Iterator[tuple[int, Item]]:
    """Each item that was written and whose sender is known, with the content that brings it about."""
    units = iter([it for it in coming.stream.units if coming.answered(it)])
    turns, answered = Counter[int](), 0
    for item in told.items:
        if item.kind == "answers":
            answered = max(answered, *(answer_due(coming, told, it) for it in coming.answered(next(units))))
            yield answered, item
            continue
        number = sender_of(coming, item)
        if item.kind == "withdrawal":
            yield coming.content_of(coming.named[number]), item  # type: ignore[index]
        elif number is not None:
            yield coming.ready(number, turns[number]), item
            turns[number] += len(item.keys)


def answer_due(coming: Coming, told: Told, entry: Entry) -> int:
    """The content with which an entry's answer can be made."""
    if coming.fixed(entry) is not None:
        return coming.content_of(entry)
    if told.is_cancelled(entry.number) and entry.number in coming.named:
        return coming.content_of(coming.named[entry.number])
    return coming.ready(entry.number, told.turns[entry.number])


def check_timely(coming: Coming, told: Told) -> None:
    """Where each content is worked on before the next comes, all that it brings about is written before what a later
    one does."""
    reached = 0
    for due, item in due_items(coming, told):
        require(
            due >= reached,
            f"{item.text} could be written with content {due + 1}, and stands behind what came of content {reached + 1}",
        )
        reached = due


def check_cut(whole: Ran, cut: Ran, how: str) -> None:
    """The same input, cut otherwise, gives the same bytes and the same report."""
    require(cut.output == whole.output, f"{how}: cut otherwise, it writes {cut.output!r} in place of {whole.output!r}")
    require(
        cut == whole,
        f"{how}: cut otherwise, the report has {replace(cut, output=b'')} in place of {replace(whole, output=b'')}",
    )
