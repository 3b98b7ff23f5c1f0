"""Traffic of all kinds for a server, at random, of which each answer is checked as it comes.

A plan of what a call is answered with is made as it is sent: replies to its calls back come at once, late, twice,
behind the call before it was made, as errors, or never; in the last case its request is cancelled in the end."""
import collections
import heapq
import json
import random
from dataclasses import dataclass, field

from support import rows
from support.client import Client, call, cancel, compact, error, notification, request, result

CANCELLED = (-32800, "Request cancelled")
INVALID_REPLY = (-32603, "Invalid reply")
INVALID, UNREADABLE = rows.INVALID, rows.UNREADABLE
STRAYS = (
    '{"jsonrpc":"2.0","id":"x","result":1}',
    '{"jsonrpc":"2.0","id":5,"result":1}',
    '{"jsonrpc":"2.0","id":"0.1","result":1}',
)
BROKEN = ("{", "[1,", '{"jsonrpc":"2.0","method":"add","params":[1,2],"id":1')
FAULTY = ("1", '"x"', "null", "{}", '{"jsonrpc":"1.0","method":"add","id":1}', '{"jsonrpc":"2.0","method":1,"id":1}')


@dataclass
class Said:
    """What the reply to a call says: a result, or the error that the method gets."""

    value: object = None
    error: tuple[int, str] | None = None
    is_faulty: bool = False

    def text(self, key: str) -> str:
        if self.is_faulty:
            return '{"id":"%s","result":1}' % key
        return error(key, *self.error) if self.error else result(key, self.value)

    def kept(self) -> dict:
        if self.error:
            return {"ok": False, "error": {"code": self.error[0], "message": self.error[1]}}
        return {"ok": True, "result": self.value}


@dataclass
class Entry:
    """A call entry that was sent, and that isn't done with."""

    number: int
    id: int | None
    answer: str | None
    messages: collections.deque[str]
    said: list[Said]
    is_hopeless: bool = False
    is_cancelled: bool = False
    is_held: bool = False  # whether its second reply isn't to come yet
    replied: set[int] = field(default_factory=set)
    replied_before_cancel: frozenset[int] = frozenset()

    def answers(self) -> tuple[str, ...]:
        """The texts that it may be answered with now."""
        stopped = (error(self.id, *CANCELLED),) if self.is_cancelled else ()
        return stopped if self.is_hopeless else (self.answer, *stopped)


class Traffic:
    """What goes to one server and comes from it."""

    def __init__(self, client: Client, seed: int):
        self.client, self.chance = client, random.Random(seed)
        self.number, self.serial, self.now = 0, 0, 0.0
        self.open: dict[int, Entry] = {}
        self.notices: dict[str, Entry] = {}
        self.units: collections.deque[tuple[bool, list[Entry | str]]] = collections.deque()
        self.later: list[tuple[float, int, str, Entry, int]] = []
        self.counts: collections.Counter[str] = collections.Counter()
        self.faults: list[str] = []

    # ---- what goes out

    def send_some(self, now: float, calls: int, most: int) -> None:
        """Sends contents of about so many calls, as long as no more than so many calls are open."""
        self.now = now
        least = self.number + calls
        while self.number < least and len(self.open) < most:
            self.send_one()

    def send_most(self, now: float, calls: int) -> None:
        """Sends so many requests that wait for two replies each: the first comes soon, and the second once all wait, to
        the last of them first, so that all are open at once, and all their answers wait."""
        self.now = now
        for _ in range(calls):
            self.number += 1
            self.serial += 1
            params, said = [2**40, self.serial], [Said(value=[1, {"a": []}]) for _ in range(2)]
            answer, messages = planned(self.number, self.serial, "two", params, said)
            entry = Entry(self.number, self.serial, answer, collections.deque(messages), said, is_held=True)
            self.open[entry.number] = entry
            self.send_unit(request(entry.id, "two", params), [entry], is_batch=False)
        self.counts["single"] += calls

    def is_loaded(self) -> bool:
        """Whether all that is open waits for its second reply."""
        return all(not it.messages for it in self.open.values())

    def release_all(self) -> None:
        """Has the second replies come."""
        for entry in reversed([*self.open.values()]):
            entry.is_held = False
            self.reply(entry, 2)

    def send_one(self) -> None:
        kind = self.chance.choices(("single", "batch", "broken", "faulty", "stray", "lone"), (70, 12, 2, 4, 4, 1))[0]
        if kind == "single":
            self.send([self.new_entry()], is_batch=False)
        elif kind == "batch":
            self.send([self.new_entry() for _ in range(self.chance.randrange(1, 8))], is_batch=True)
        elif kind == "lone":
            self.send_unit("[]", [INVALID], is_batch=False)
        else:
            texts = {"broken": BROKEN, "faulty": FAULTY, "stray": STRAYS}[kind]
            answers = {"broken": [UNREADABLE], "faulty": [INVALID], "stray": []}[kind]
            self.send_unit(self.chance.choice(texts), answers, is_batch=False)
        self.counts[kind] += 1

    def send(self, entries: list[tuple[str, Entry]], is_batch: bool) -> None:
        """Sends call entries, in a batch with other things between them, and replies to some of their calls in the same
        batch or behind."""
        texts, answers, early = [], [], []
        for text, entry in entries:
            texts.append(text)
            answers += [entry] if entry.id is not None else []
            if is_batch and self.chance.random() < 0.1:
                texts.append(self.chance.choice(FAULTY))
                answers.append(INVALID)
            if entry.said and not entry.is_hopeless and self.chance.random() < 0.1:
                early += self.early_replies(entry)
        if is_batch:
            self.send_unit("[" + ",".join([*texts, *early]) + "]", answers, is_batch=True)
        else:
            self.send_unit(texts[0], answers, is_batch=False)
            self.client.send(*early)

    def early_replies(self, entry: Entry) -> list[str]:
        """Replies that are sent before the peer can have made its calls."""
        self.counts["early replies"] += 1
        turns = range(1, len(entry.said) + 1)
        entry.replied.update(turns)
        return [entry.said[turn - 1].text(f"{entry.number}.{turn}") for turn in turns]

    def send_unit(self, text: str, answers: list, is_batch: bool) -> None:
        if answers:
            self.units.append((is_batch, answers))
        self.client.send(text)

    def new_entry(self) -> tuple[str, Entry]:
        """The text of a call entry, and what is known of it."""
        self.number += 1
        self.serial += 1
        id_ = self.serial if self.chance.random() < 0.9 else None
        method = self.chance.choice(("add", "add", "note", "ask", "two", "gate", "keep", "nope"))
        params = [self.chance.randrange(-(2**40), 2**40), self.serial]
        said = [self.new_reply(method) for _ in range({"ask": 1, "gate": 1, "keep": 1, "two": 2}.get(method, 0))]
        answer, messages = planned(self.number, id_, method, params, said)
        entry = Entry(self.number, id_, answer, collections.deque(messages), said)
        self.keep(entry)
        text = notification(method, params) if id_ is None else request(id_, method, params)
        return text, entry

    def new_reply(self, method: str) -> Said:
        kind = self.chance.random()
        if kind < 0.1:
            return Said(error=(self.serial, "sorry"))
        if kind < 0.15:
            return Said(error=INVALID_REPLY, is_faulty=True)
        return Said(
            value=True
            if method == "gate" and kind < 0.6
            else self.chance.choice((None, False, self.serial, "yes", [1, {"a": []}]))
        )

    def keep(self, entry: Entry) -> None:
        """Remembers an entry until it is done with. Some requests that call back never get their last reply, and are
        cancelled."""
        if entry.id is not None:
            entry.is_hopeless = bool(entry.said) and self.chance.random() < 0.03
            if entry.is_hopeless:
                self.plan(0.3 + self.chance.random(), "cancel", entry)
            elif self.chance.random() < 0.04:
                self.plan(self.chance.choice((0, 0, self.chance.random())), "cancel", entry)
        if entry.messages or entry.id is not None:
            self.open[entry.number] = entry
        if entry.messages and not entry.said:
            self.notices[entry.messages[0]] = entry

    def plan(self, delay: float, what: str, entry: Entry, turn: int = 0) -> None:
        self.serial += 1
        heapq.heappush(self.later, (self.now + delay, self.serial, what, entry, turn))

    def do_what_is_due(self, now: float) -> None:
        self.now = now
        while self.later and self.later[0][0] <= now:
            _, _, what, entry, turn = heapq.heappop(self.later)
            if what == "cancel":
                self.cancel(entry)
            else:
                self.reply(entry, turn)

    def cancel(self, entry: Entry) -> None:
        """Cancels a request, whether it was answered by now or not."""
        self.number += 1
        if not entry.is_cancelled:
            entry.is_cancelled, entry.replied_before_cancel = True, frozenset(entry.replied)
        self.counts["cancels"] += 1
        self.client.send(cancel(entry.id))

    def reply(self, entry: Entry, turn: int) -> None:
        """Replies to a call, now and then twice: the second reply says something else, and doesn't count."""
        key = f"{entry.number}.{turn}"
        contents = [] if turn in entry.replied else [entry.said[turn - 1].text(key)]
        entry.replied.add(turn)
        if self.chance.random() < 0.1:
            self.counts["doubled replies"] += 1
            contents.append(result(key, "too late"))
        self.client.send(*contents)
        self.counts["replies"] += 1

    # ---- what comes in

    def look_at(self, content: str) -> None:
        """Checks a content that came."""
        value = json.loads(content)
        first = value[0] if isinstance(value, list) else value
        if "method" not in first:
            self.look_at_answer(content, value)
        elif first["method"] == "$/cancelRequest":
            self.look_at_withdrawal(content, first["params"]["id"])
        elif "id" in first:
            self.look_at_calls(content, first["id"])
        else:
            self.look_at_notice(content)

    def look_at_answer(self, content: str, value: object) -> None:
        if not self.units:
            self.fault(f"an answer to nothing: {content}")
            return
        is_batch, wanted = self.units.popleft()
        found = [compact(it) for it in value] if is_batch and isinstance(value, list) else [content]
        is_well = len(found) == len(wanted) and (not is_batch or content == "[" + ",".join(found) + "]")
        is_well = is_well and all(
            text in (it.answers() if isinstance(it, Entry) else (it,)) for text, it in zip(found, wanted)
        )
        if not is_well:
            self.fault(f"{content} in place of {[it.answers() if isinstance(it, Entry) else it for it in wanted]}")
        for text, entry in zip(found, wanted):
            if isinstance(entry, Entry):
                self.close(entry, text)
        self.counts["answers"] += 1

    def close(self, entry: Entry, text: str) -> None:
        """A request was answered: all that it sends has come, unless it was cancelled."""
        was_stopped = entry.is_cancelled and text == error(entry.id, *CANCELLED)
        self.counts["cancelled requests"] += was_stopped
        if entry.messages and not was_stopped:
            self.fault(f"{text} came before {list(entry.messages)}")
        for message in entry.messages:
            self.notices.pop(message, None)
        self.open.pop(entry.number, None)

    def look_at_calls(self, content: str, key: str) -> None:
        entry = self.open.get(int(key.split(".")[0]))
        if entry is None or not entry.messages or entry.messages.popleft() != content:
            self.fault(f"a call that nobody makes: {content}")
            return
        if entry.id is None:
            del self.open[entry.number]
        self.counts["calls back"] += 1
        for turn in range(1, len(entry.said) + 1):
            is_last = turn == len(entry.said)
            if turn not in entry.replied and not (is_last and (entry.is_hopeless or entry.is_held)):
                self.plan(self.delay(), "reply", entry, turn)

    def delay(self) -> float:
        """How late a reply comes, in seconds."""
        kind = self.chance.random()
        self.counts["late replies"] += kind >= 0.7
        return 0 if kind < 0.7 else self.chance.random() if kind < 0.98 else 2 * self.chance.random()

    def look_at_withdrawal(self, content: str, key: str) -> None:
        number, turn = map(int, key.split("."))
        entry = self.open.get(number)
        is_well = (
            entry is not None and entry.is_cancelled and not entry.messages and turn not in entry.replied_before_cancel
        )
        if not is_well or turn > len(entry.said) or content != notification("$/cancelRequest", {"id": key}):
            self.fault(f"a withdrawal of nothing: {content}")
        self.counts["withdrawals"] += 1

    def look_at_notice(self, content: str) -> None:
        entry = self.notices.pop(content, None)
        if entry is None:
            self.fault(f"a notice of nobody: {content}")
            return
        entry.messages.popleft()
        if entry.id is None:
            del self.open[entry.number]
        self.counts["notices"] += 1

    def fault(self, text: str) -> None:
        self.faults.append(text[:500])

    # ---- the end

    def is_settled(self) -> bool:
        """Whether all that was sent is answered, and nothing is still to be sent."""
        return not self.units and not self.later and not self.open

    def fill(self, numbers: int) -> None:
        """Sends notifications until so many calls have come, all that a server takes, and then one more request."""
        notice = notification("nope")
        while self.number < numbers:
            count = min(1_000, numbers - self.number)
            self.client.send(rows.batch(*[notice] * count))
            self.number += count
        self.client.send(request(0, "nope"))


def planned(number: int, id_: int | None, method: str, params: list, said: list[Said]) -> tuple[str | None, list[str]]:
    """The answer of a call, and the contents that it sends on the way."""
    sends = {
        "note": [notification("log", params[:1])],
        "ask": [call(f"{number}.1", "confirm", params[:1])],
        "gate": [call(f"{number}.1", "confirm")],
        "keep": [call(f"{number}.1", "confirm")],
        "two": ["[%s,%s]" % (call(f"{number}.1", "a"), call(f"{number}.2", "b"))],
    }.get(method, [])
    return (None if id_ is None else answered(id_, method, params, said)), sends


def answered(id_: int, method: str, params: list, said: list[Said]) -> str:
    if method == "nope":
        return error(id_, -32601, "Method not found")
    if method == "add":
        return result(id_, params[0] + params[1])
    if method == "note":
        return result(id_, None)
    if method == "keep":
        return result(id_, said[0].kept())
    failed = next((it.error for it in said if it.error), None)
    if failed:
        return error(id_, *failed)
    if method == "gate":
        return result(id_, "yes") if said[0].value is True else error(id_, 7, "no")
    return result(id_, [it.value for it in said] if method == "two" else said[0].value)
