"""A plain model of the judge, by the rules of docs/judge.md: what is found in what was seen of two sides."""
from collections import Counter
from dataclasses import dataclass, field, replace
from typing import Any, Callable, Iterator, NamedTuple, Optional

from support import judge_reading as reading
from support.connection_reading import Members
from support.framings import Content
from support.judge_reading import Decimal, Entry, Id, Stream, Unit, Unreadable
from support.judge_rules import MUST, NOT_JUDGED, NOTE, RULES, SHOULD, Rules
from support.reading import ABSENT, WHOLE

SIDES = ("client", "server")
OTHER = {"client": "server", "server": "client"}
MOST_CONTENT = 16_777_216
MOST_IDS = 1_000_000
MOST_ODD = 1_000  # of numbers that aren't whole, or whose size is larger
SIZES = range(-(2**64) + 1, 2**64)
MOST_WORDS = 200
PARSE_ERROR, INVALID_REQUEST, CANCELLED = -32700, -32600, -32800


class Place(NamedTuple):
    """A message: its index in a side's stream, from 1, and the offset of its first byte; and the entry's place in
    an array, from 1, or 0."""

    side: str
    number: int
    offset: int
    entry: int = 0


class Finding(NamedTuple):
    side: str  # who
    rule: str
    level: str
    place: Place
    words: str = ""


# What is owed


@dataclass(eq=False)
class Owed:
    """What an entry may be answered by: a request has to be, all else may be left."""

    place: Place
    must: bool
    expected: Any  # the id that its answer is expected to have, or ABSENT where none is expected
    may: tuple[Id, ...]  # the ids that it may have
    is_request: bool = False
    is_cancelled: bool = False
    words: str = ""


@dataclass(eq=False)
class Due:
    """What is owed on a content."""

    entries: list[Owed] = field(default_factory=list)
    is_batch: bool = False
    is_unreadable: bool = False
    has_huge: bool = False
    may_be_answered: bool = False  # by a content that couldn't be read


def owed_by(entry: Entry, place: Place, rules: Rules, words: str) -> Optional[Owed]:
    """What an entry is owed, if it may be answered at all."""
    own = () if entry.id is ABSENT else (entry.id,)
    if entry.first is not None:
        return owed_by_either(entry, place, own, words)
    if entry.kind == "request":
        if entry.is_odd:
            return Owed(place, False, None, (None, *own), words=words)
        must = entry.id is not None or not rules.may_leave_null
        return Owed(place, must, entry.id, own, is_request=True, words=words)
    if entry.kind == "invalid" and entry.faults == ("params",) and entry.params is None:
        return Owed(place, False, None if entry.is_odd else entry.id, (None, *own), words=words)
    if entry.kind == "invalid":
        return Owed(place, False, None, (None, *own), words=words)
    if entry.kind == "broken answer":
        return Owed(place, False, ABSENT, (None, *own), words=words)
    return None


def owed_by_either(entry: Entry, place: Place, own: tuple[Id, ...], words: str) -> Owed:
    """A member stands twice in it: it may be left, refused, or answered by the last id or the first."""
    assert entry.first is not None
    if entry.kind == "notification":
        return Owed(place, False, ABSENT, (None,), words=words)
    may = (None, *own, *(() if entry.first.id is ABSENT else (entry.first.id,)))
    is_null = entry.kind == "invalid" and not (entry.faults == ("params",) and entry.params is None)
    expected = None if is_null or entry.is_odd else entry.id
    return Owed(place, False, ABSENT if entry.is_answer else expected, may, words=words)


# Ids that were used


class Used:
    """The ids that a side's requests had: whole numbers as runs, and each other one."""

    def __init__(self, most: int) -> None:
        self.most, self.ids, self.wholes, self.runs, self.odd = most, set[Id](), set[int](), 0, 0
        self.is_full = False

    def __contains__(self, id_: Id) -> bool:
        return id_ in self.ids

    def add(self, id_: Id) -> bool:
        """Keeps an id, and says whether this is the first for which there is no room."""
        if id_ in self.ids or id_ is None or self.is_full:
            return False
        whole = id_.within(SIZES) if isinstance(id_, Decimal) else None
        is_odd = whole is None and isinstance(id_, Decimal)
        more = 1 if whole is None else 1 - (whole - 1 in self.wholes) - (whole + 1 in self.wholes)
        if self.runs + more > self.most or (is_odd and self.odd == MOST_ODD):
            self.is_full = True
            return True
        self.runs += more
        self.odd += is_odd
        self.ids.add(id_)
        if whole is not None:
            self.wholes.add(whole)
        return False


def twin_of(id_: Id) -> Any:
    """The id that is equal but for its type."""
    if isinstance(id_, str):
        return reading.decimal_of(id_) if reading.NUMBER.fullmatch(id_) else ABSENT
    whole = id_.within(WHOLE) if id_ is not None else None
    return ABSENT if whole is None else str(whole)


@dataclass
class Side:
    """What was seen of a side, and what it owes."""

    stream: Stream
    used: Used
    count: int = 0  # of its contents
    dues: list[Due] = field(default_factory=list)  # what it owes, the oldest first
    refusals: int = 0  # its answers with the id null that fitted nothing, and may have refused what it still owes
    unowed: int = 0  # the other side's arrays on which nothing is owed, and which it may still refuse
    initialize: set[Id] = field(default_factory=set)
    has_cancelled: bool = False  # it sent a cancel by which a request may be left without an answer
    is_guessed: bool = False  # for which batch an array of it was had to be guessed: what it owes isn't known since
    has_exited: bool = False
    has_unreadable: bool = False  # a content of it couldn't be read
    ended: str = ""  # "closed" or "failed"


class Answer(NamedTuple):
    entry: Entry
    place: Place
    words: str
    is_uncalled: bool  # it says that its request was cancelled, where no cancel of it was seen before this content


class Judge:
    def __init__(
        self, rules: str = "jsonrpc", framing: str = "lines", limit: int = MOST_CONTENT, ids: int = MOST_IDS
    ) -> None:
        self.rules = RULES[rules]
        self.findings: list[Finding] = []
        self.sides = {it: Side(Stream(framing, limit), Used(ids)) for it in SIDES}

    # What is seen

    def saw(self, side: str, data: bytes) -> None:
        """A side wrote these bytes."""
        its = self.sides[side]
        if its.ended:
            raise ValueError("bytes of a side that has ended")
        was_over = its.stream.is_over
        for content in its.stream.saw(data):
            self.take(side, content)
        if its.stream.is_over and not was_over:
            place = Place(side, its.count + 1, its.stream.place)
            self.find(side, its.stream.fault, NOTE if its.stream.fault == NOT_JUDGED else MUST, place)

    def end(self, side: str, how: str) -> None:
        """A side's stream was closed, or reading it failed."""
        its = self.sides[side]
        if its.ended:
            raise ValueError("a second end of a side")
        if how == "closed" and (content := its.stream.closed()) is not None:
            self.take_unfinished(side, content)
        its.ended = how
        self.take_end(side, how)

    def find(self, side: str, rule: str, level: str, place: Place, words: str = "") -> None:
        self.findings.append(Finding(side, rule, level, place, words[:MOST_WORDS]))

    # Contents

    def take(self, side: str, content: Content) -> None:
        place = self.next_place(side, content)
        try:
            unit = reading.unit_of(content)
        except Unreadable as fault:
            level = NOTE if fault.rule == NOT_JUDGED else MUST
            self.find(side, fault.rule, level, place, f"{fault.why}: {content.data[:MOST_WORDS]!r}")
            self.take_unreadable(side)
            return
        self.take_unit(side, unit, place)

    def take_unfinished(self, side: str, content: Content) -> None:
        """A close inside a frame, or behind a line that has no LF."""
        its = self.sides[side]
        place = self.next_place(side, content)
        if its.stream.cutter.framing == "frames":
            self.find(side, "cut-off", MUST, place)
            return
        try:
            unit = reading.unit_of(content)
        except Unreadable as fault:
            rule, level = (NOT_JUDGED, NOTE) if fault.rule == NOT_JUDGED else ("cut-off", MUST)
            self.find(side, rule, level, place, f"{fault.why}: {content.data[:MOST_WORDS]!r}")
            self.take_unreadable(side)
            return
        self.find(side, "line-end", NOTE, place)
        self.take_unit(side, unit, place)

    def take_unreadable(self, side: str) -> None:
        """A content that can't be read may have been an answer, a request or a cancel."""
        self.owe(OTHER[side], Due(is_unreadable=True))
        self.sides[side].has_unreadable = True
        for due in self.sides[side].dues:
            due.may_be_answered = True

    def next_place(self, side: str, content: Content) -> Place:
        self.sides[side].count += 1
        owing = self.sides[OTHER[side]]
        owing.refusals = min(owing.refusals, len(owing.dues))
        return Place(side, self.sides[side].count, content.place)

    def take_unit(self, side: str, unit: Unit, place: Place) -> None:
        if unit.is_array and not unit.entries:
            self.find(side, "empty-array", MUST, place, "[]")
            self.owe(OTHER[side], Due([Owed(place, False, None, (None,), words="[]")]))
            return
        are_answers = all(it.is_answer for it in unit.entries)
        if unit.is_array and not are_answers and self.rules.batch is not None:
            self.find(side, "batch", self.rules.batch, place)
        due = Due(is_batch=unit.is_array, has_huge=unit.has_huge)
        answers = list[Answer]()
        self.owe(OTHER[side], due)
        for at, (entry, words) in enumerate(zip(unit.entries, unit.texts), 1):
            where = place._replace(entry=at if unit.is_array else 0)
            self.take_entry(side, entry, where, words, due)
            if entry.is_answer:
                answers.append(Answer(entry, where, words, self.is_uncalled(side, entry)))
        if not due.entries and not due.has_huge:
            self.settle_whole(OTHER[side], due)
            self.sides[OTHER[side]].unowed += unit.is_array
        if unit.is_array:
            self.take_array(side, answers, place, are_answers)
        elif answers:
            self.take_single(side, self.sought(answers[0]))

    def owe(self, side: str, due: Due) -> None:
        self.sides[side].dues.append(due)

    # Entries

    def take_entry(self, side: str, entry: Entry, place: Place, words: str, due: Due) -> None:
        """What an entry breaks by itself, and what it is owed."""
        its = self.sides[side]
        for fault in entry.faults:
            if fault != "id" or not (self.rules.leaves_ids_out and entry.lacks_id):
                self.find(side, fault, MUST, place, words)
        if entry.is_both:
            self.find(side, "both-kinds", MUST, place, words)
        if entry.first is not None:
            self.find(side, "twice", SHOULD, place, words)
        self.take_code(side, entry, place, words)
        if entry.kind in ("request", "notification") and entry.method.startswith("rpc."):
            self.find(side, "rpc-name", NOTE, place, words)
        if self.rules.has_objects:
            self.take_objects(side, entry, place, words)
        if entry.kind == "notification":
            self.take_notification(side, entry, place, words)
        if entry.first is not None:
            self.take_first(side, entry.first)
        if entry.kind == "request":
            self.take_id(side, entry, place, words, due.is_batch)
        if not entry.is_answer and entry.id is not ABSENT and entry.id is not None:
            if its.used.add(entry.id):
                self.find(side, NOT_JUDGED, NOTE, place, "too many ids were used: never used is told no longer")
            if entry.method == "initialize":
                its.initialize.add(entry.id)
        if (owed := owed_by(entry, place, self.rules, words)) is not None:
            due.entries.append(owed)

    def take_code(self, side: str, entry: Entry, place: Place, words: str) -> None:
        code = entry.code.within(WHOLE) if entry.code is not None else None
        is_reserved = code is not None and any(code in it for it in self.rules.reserved)
        if entry.kind == "answer" and is_reserved and code not in self.rules.defined:
            self.find(side, "code", MUST, place, words)

    def take_objects(self, side: str, entry: Entry, place: Place, words: str) -> None:
        """Params and results are objects. The params of a cancel have a rule of their own."""
        if entry.kind in ("request", "notification") and reading.is_array(entry.params) and not self.is_cancel(entry):
            self.find(side, "params-object", MUST, place, words)
        if entry.kind == "answer" and entry.result is not ABSENT and not isinstance(entry.result, Members):
            self.find(side, "result-object", MUST, place, words)

    def take_id(self, side: str, entry: Entry, place: Place, words: str, is_in_batch: bool) -> None:
        """What the id of a request breaks."""
        if entry.id is None:
            self.find(side, "id-null", self.rules.id_level, place, words)
            return
        if isinstance(entry.id, Decimal) and not entry.id.is_whole:
            self.find(side, "id-fraction", self.rules.id_level, place, words)
        elif entry.is_odd:
            self.find(side, "id-form", NOTE, place, words)
        if self.rules.ids_once:
            if entry.id in self.sides[side].used:
                self.find(side, "id-again", MUST, place, words)
        elif not is_in_batch and any(it.is_request for it in self.owed_with(OTHER[side], entry.id)):
            self.find(side, "id-again", NOTE, place, words)

    def owed_with(self, side: str, id_: Id) -> Iterator[Owed]:
        """What a side owes on requests with an id."""
        for due in self.sides[side].dues:
            yield from (it for it in due.entries if it.expected == id_ and it.is_request)

    def take_notification(self, side: str, entry: Entry, place: Place, words: str) -> None:
        if self.rules.name == "lsp" and entry.method == "exit":
            self.sides[side].has_exited = True
        if self.is_cancel(entry):
            self.sides[side].has_cancelled |= self.rules.cancel_settles
            self.take_cancel(side, entry, place, words)

    def is_cancel(self, entry: Entry) -> bool:
        return entry.kind == "notification" and self.rules.cancel != "" and entry.method == self.rules.cancel

    def take_first(self, side: str, first: reading.First) -> None:
        """By the members that stand first, it may be `exit` or a cancel."""
        if self.rules.name == "lsp" and first.method == "exit":
            self.sides[side].has_exited = True
        if self.rules.cancel and first.method == self.rules.cancel:
            self.sides[side].has_cancelled |= self.rules.cancel_settles
            self.cancel_all(side, self.target_of(first.params))

    def take_cancel(self, side: str, entry: Entry, place: Place, words: str) -> None:
        its, target = self.sides[side], self.target_of(entry.params)
        if target is ABSENT:
            level = NOTE if self.rules.leaves_ids_out and self.names_none(entry.params) else MUST
            self.find(side, "cancel-params", level, place, words)
            return
        if target not in its.used and not its.used.is_full:
            is_must = self.rules.ids_once and not its.has_unreadable
            self.find(side, "cancel-unknown", MUST if is_must else NOTE, place, words)
        if self.rules.ids_once and target in its.initialize:
            self.find(side, "cancel-initialize", MUST, place, words)
        self.cancel_all(side, target)

    def cancel_all(self, side: str, target: Any) -> None:
        for owed in self.owed_with(OTHER[side], target):
            owed.is_cancelled = True
            owed.must = owed.must and not self.rules.cancel_settles

    @staticmethod
    def names_none(params: Any) -> bool:
        """Whether the params of MCP's cancel name no request, and have nothing wrong."""
        members = dict(params) if isinstance(params, Members) else None
        is_well = members is not None and isinstance(members.get("reason", ""), str) and "requestId" not in members
        return params is ABSENT or is_well

    def target_of(self, params: Any) -> Any:
        """The id that a cancel names, or ABSENT where its params aren't a cancel's."""
        if not isinstance(params, Members):
            return ABSENT
        members = dict(params)
        id_ = reading.id_of(members.get(self.rules.target, ABSENT))
        is_id = isinstance(id_, str) or (isinstance(id_, Decimal) and id_.is_whole)
        has_reason = self.rules.ids_once and "reason" in members
        return id_ if is_id and not (has_reason and not isinstance(members.get("reason"), str)) else ABSENT

    # Answers

    def sought(self, answer: Answer) -> Answer:
        """An error that may be without an id is looked for by null."""
        is_without = self.rules.leaves_ids_out and answer.entry.lacks_id
        return answer._replace(entry=replace(answer.entry, id=None)) if is_without else answer

    def take_single(self, side: str, answer: Answer) -> None:
        """An answer that stands alone."""
        found = self.owed_to(side, answer.entry)
        if found is None and self.refuses(side, answer.entry):
            self.refuse(side)
            if answer.entry.kind == "answer":
                words = f"a content may have been refused whole: {answer.words}"
                self.find(side, "not-owed", NOTE, answer.place, words)
            return
        if found is None:
            self.fits_nothing(side, [answer])
            return
        due, owed = found
        if owed is not None and due.is_batch and answer.entry.kind == "answer":
            self.find(side, "not-as-array", self.or_note(side, SHOULD), answer.place, answer.words)
        self.settle(side, answer, due, owed)

    def take_array(self, side: str, answers: list[Answer], place: Place, are_alone: bool) -> None:
        """The answers of an array; they are alone where nothing but answers stands in it."""
        if not answers:
            return
        is_well = any(it.entry.kind == "answer" for it in answers)
        self.sides[side].is_guessed |= self.is_guess(side, answers)
        due = self.batch_of(side, answers)
        if due is not None:
            if not are_alone and is_well:
                self.find(side, "not-as-array", self.or_note(side, SHOULD), place)
            for answer, owed in zip(answers, fitting(due, answers)):
                self.take_cancelled(side, answer, owed)
            self.settle_whole(side, due)
            return
        self.take_each(side, answers, place)

    def take_each(self, side: str, answers: list[Answer], place: Place) -> None:
        """The answers of an array that is no batch's."""
        others, is_told = list[Answer](), False
        for answer in answers:
            found = self.owed_to(side, answer.entry, in_array=True)
            if found is None:
                others.append(answer)
                continue
            if answer.entry.kind == "answer" and not is_told:
                self.find(side, "not-as-array", self.or_note(side, SHOULD), place)
                is_told = True
            self.settle(side, answer, *found)
        if len(others) == len(answers):
            self.fits_nothing(side, others)
            return
        for answer in others:
            self.fits_nothing(side, [answer])

    def or_note(self, side: str, level: str) -> str:
        """A note where what a side owes can't be known: the judge reads no further in the stream of either side, or had to
        guess."""
        is_broken = any(it.stream.is_over for it in self.sides.values())
        return NOTE if is_broken or self.sides[side].is_guessed else level

    def is_guess(self, side: str, answers: list[Answer]) -> bool:
        """Behind a cancel an array may have less than its batch expects, and ids may be used again: so it is a guess for which
        batch it is, where a batch is open and none expects just its ids."""
        has_batch = any(it.is_batch for it in self.sides[side].dues)
        has_id = any(it.entry.id is not ABSENT for it in answers)
        return self.sides[OTHER[side]].has_cancelled and has_batch and has_id and self.just(side, answers) is None

    def fits_nothing(self, side: str, answers: list[Answer]) -> None:
        """An answer, or an array, that fits nothing that is owed. Where an unreadable content is left, the peer may have
        read it."""
        told = [it for it in answers if it.entry.kind == "answer"]
        if not told:
            return
        unreadable = next((it for it in self.sides[side].dues if it.is_unreadable), None)
        if unreadable is not None:
            self.settle_whole(side, unreadable)
        level = NOTE if unreadable is not None else self.or_note(side, MUST)
        for it in told:
            self.find(side, "not-owed", level, it.place, f"{self.why_not(side, it.entry.id)}: {it.words}")

    def refuses(self, side: str, entry: Entry) -> bool:
        """Whether an answer that fits nothing may refuse a content whole for a limit of its side. A result may as well,
        since an error may have taken what it is for."""
        return self.may_refuse(entry) and (self.refuses_open(side) or self.sides[side].unowed > 0)

    def may_refuse(self, entry: Entry) -> bool:
        """An answer with the id null, or an error that may be without an id."""
        is_without = self.rules.leaves_ids_out and entry.lacks_id
        return is_without or (entry.kind == "answer" and entry.id is None)

    def refuses_open(self, side: str) -> bool:
        """Whether what is open may be refused: a batch is, or what its reader may limit. Each answer counts for one."""
        its = self.sides[side]
        return any(it.is_batch or it.has_huge for it in its.dues) and its.refusals < len(its.dues)

    def refuse(self, side: str) -> None:
        """An answer counts for one of those that are open, else for an array on which nothing is owed."""
        if self.refuses_open(side):
            self.sides[side].refusals += 1
        else:
            self.sides[side].unowed -= 1

    def is_unsure(self, side: str, entry: Entry) -> bool:
        """Whether an answer with the id null may be for a content that is refused whole, or that couldn't be read."""
        has_unreadable = any(it.is_unreadable for it in self.sides[side].dues)
        return self.refuses(side, entry) or (self.may_refuse(entry) and has_unreadable)

    def why_not(self, side: str, id_: Id) -> str:
        used = self.sides[OTHER[side]].used
        if id_ is None:
            return "nothing is owed with the id null"
        if id_ in used:
            return "it is answered already"
        if twin_of(id_) in used:
            return "the id that was used has another type"
        return "no request had this id" if not used.is_full else "no such request is open"

    # Which of what is owed an answer is for

    def owed_to(self, side: str, entry: Entry, in_array: bool = False) -> Optional[tuple[Due, Optional[Owed]]]:
        """What a single answer is for: an entry of what is owed on a content, or the whole content."""
        if entry.id is ABSENT:
            return None
        if entry.id is None:
            return self.owed_to_null(side, entry, in_array)
        ways: tuple[Callable[[Owed], bool], ...] = (
            lambda it: is_expected(it, entry.id) and it.must,
            lambda it: is_expected(it, entry.id) and it.is_request,
            lambda it: is_expected(it, entry.id),
            lambda it: entry.id in it.may,
        )
        return self.first(side, *((in_batch, it) for in_batch in (False, True) for it in ways))

    def owed_to_null(self, side: str, entry: Entry, in_array: bool) -> Optional[tuple[Due, Optional[Owed]]]:
        """What expects null, and what may have it; but where it may be for a whole content, only what stands alone and
        expects it."""
        code = entry.code.within(WHOLE) if entry.code is not None else None
        is_unsure = not in_array and self.is_unsure(side, entry)
        if code == PARSE_ERROR and not in_array:
            return self.owed_to_parse_error(side, is_unsure)
        order = (is_null_invalid, is_null_request) if code == INVALID_REQUEST else (is_null_request, is_null_invalid)
        if is_unsure:
            return self.first(side, *((False, it) for it in order))
        return self.first(side, *((in_batch, it) for in_batch in (False, True) for it in (*order, may_be_null)))

    def owed_to_parse_error(self, side: str, is_unsure: bool) -> Optional[tuple[Due, Optional[Owed]]]:
        """What a single -32700 under null is for: what stands in no batch, first what has to be answered, and last what
        may be left, and was read where it has an id. Before what may be left comes what a reader may limit."""
        dues = self.sides[side].dues
        unreadable = next((it for it in dues if it.is_unreadable), None)
        if unreadable is not None:
            return unreadable, None
        asked = self.first(side, (False, is_null_request))
        if asked is not None or (is_unsure and any(it.has_huge for it in dues)):
            return asked
        unnamed = self.first(side, (False, is_unnamed))
        return unnamed if unnamed is not None or is_unsure else self.first(side, (False, is_null_invalid))

    def first(self, side: str, *ways: tuple[bool, Callable[[Owed], bool]]) -> Optional[tuple[Due, Optional[Owed]]]:
        """The oldest that fits by the first way, else by the next: of single contents or of members of batches."""
        for in_batch, fits in ways:
            for due in self.sides[side].dues:
                for owed in due.entries:
                    if due.is_batch == in_batch and fits(owed):
                        return due, owed
        return None

    def batch_of(self, side: str, answers: list[Answer]) -> Optional[Due]:
        """The batch that an array answers: the oldest from which just these ids are expected, first where an answer must
        come, else the oldest whose answer it can be."""
        just = self.just(side, answers, must=True) or self.just(side, answers)
        if just is not None:
            return just
        return next((it for it in self.sides[side].dues if it.is_batch and can_be_answered(it, answers)), None)

    def just(self, side: str, answers: list[Answer], must: bool = False) -> Optional[Due]:
        """The oldest batch from which just the ids of these answers are expected, each as often; or that must be answered."""
        ids = Counter(it.entry.id for it in answers if it.entry.id is not ABSENT)
        for due in self.sides[side].dues:
            if must and not any(it.must for it in due.entries):
                continue
            if due.is_batch and ids and Counter(it.expected for it in due.entries if it.expected is not ABSENT) == ids:
                return due
        return None

    # Settling

    def settle(self, side: str, answer: Answer, due: Due, owed: Optional[Owed]) -> None:
        """What is owed is answered: an entry, or a whole content."""
        self.take_cancelled(side, answer, owed)
        if owed is not None:
            due.entries.remove(owed)
        if owed is None or not due.entries:
            self.settle_whole(side, due)

    def settle_whole(self, side: str, due: Due) -> None:
        if due in self.sides[side].dues:
            self.sides[side].dues.remove(due)

    def is_uncalled(self, side: str, entry: Entry) -> bool:
        code = entry.code.within(WHOLE) if entry.code is not None else None
        is_cancelled = any(it.is_cancelled for it in self.owed_with(side, entry.id))
        return self.rules.name == "lsp" and code == CANCELLED and not is_cancelled

    def take_cancelled(self, side: str, answer: Answer, owed: Optional[Owed]) -> None:
        """What an answer breaks by a cancel, or by there being none."""
        if owed is None or not owed.is_request or answer.entry.kind != "answer":
            return
        if answer.is_uncalled:
            level = NOTE if self.sides[OTHER[side]].has_unreadable else self.or_note(side, SHOULD)
            self.find(side, "cancelled-code", level, answer.place, answer.words)
        if self.rules.cancel_settles and owed.is_cancelled:
            self.find(side, "after-cancel", NOTE, answer.place, answer.words)

    # Ends

    def take_end(self, side: str, how: str) -> None:
        """What a side still owes when it ends."""
        its, asker = self.sides[side], self.sides[OTHER[side]]
        is_excused = asker.ended != "" or asker.has_exited or self.ends_session(side)
        for due in its.dues:
            left = [it for it in due.entries if it.must]
            may_be_refused = bool(left) and its.refusals > 0 and (due.is_batch or due.has_huge)
            its.refusals -= may_be_refused
            is_note = how == "failed" or due.may_be_answered or may_be_refused
            for owed in [] if is_excused else left:
                self.find(side, "unanswered", NOTE if is_note else self.or_note(side, MUST), owed.place, owed.words)
        its.dues.clear()
        its.refusals = its.unowed = 0

    def ends_session(self, side: str) -> bool:
        """The client does, in LSP by `exit`, and in MCP by its end."""
        return side == "client" and (self.sides[side].has_exited or self.rules.ends_by_close)


# Ways in which something owed fits an answer


def is_expected(owed: Owed, id_: Id) -> bool:
    return bool(owed.expected == id_)


def is_null_request(owed: Owed) -> bool:
    return owed.is_request and owed.expected is None


def is_null_invalid(owed: Owed) -> bool:
    return not owed.is_request and owed.expected is None


def is_unnamed(owed: Owed) -> bool:
    """It is invalid, and has no id that could be given back, but null."""
    return is_null_invalid(owed) and all(it is None for it in owed.may)


def may_be_null(owed: Owed) -> bool:
    return None in owed.may


# Arrays


def fitting(due: Due, answers: list[Answer]) -> list[Optional[Owed]]:
    """For each answer of an array its own entry of a batch, or None where there is none: requests first, and null
    answers last, so that they take no entry that another needs."""
    left, found = list(due.entries), dict[int, Owed]()
    for at, answer in sorted(enumerate(answers), key=lambda it: it[1].entry.id is None):
        id_ = answer.entry.id
        ways: tuple[Callable[[Owed], bool], ...] = (
            lambda it: it.must and is_expected(it, id_),
            lambda it: is_expected(it, id_),
            lambda it: id_ in it.may,
        )
        owed = next((it for way in ways for it in left if way(it)), None) if id_ is not ABSENT else None
        if owed is not None:
            left.remove(owed)
            found[at] = owed
    return [found.get(at) for at in range(len(answers))]


def can_be_answered(due: Due, answers: list[Answer]) -> bool:
    """Whether an array can be the answer of a batch: all its requests, and nothing beside. An answer that is broken in
    its id may be any request's."""
    owed = fitting(due, answers)
    without_id = sum(it.entry.id is ABSENT for it in answers)
    is_beside = owed.count(None) > without_id
    missing = [it for it in due.entries if it.must and it not in owed]
    return not is_beside and len(missing) <= without_id and len(owed) > without_id
