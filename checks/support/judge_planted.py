"""Conversations that break no rule, made at random, and the same with one break of a rule planted at random."""
import json
import random
from dataclasses import dataclass, field
from typing import Any, Callable, NamedTuple

from support.judge_conversations import Conversation, Seen
from support.judge_model import OTHER, SIDES
from support.judge_rules import MUST, NOTE, RULES, SHOULD
from support.row_files import frame

FIRST = 9_000  # ids of what is planted begin here
# Rules by which a request of a batch may be left out of its array; and what is told of what a side owes.
LEAVES_OUT = tuple(it for it, its in RULES.items() if its.cancel_settles and its.batch is None)
OF_WHAT_IS_OWED = ("not-owed", "not-as-array", "unanswered")
# Params and results that are no objects, and some that are.
OTHER_PARAMS: tuple[Any, ...] = ([], [{"k": 1}])
OTHER_RESULTS: tuple[Any, ...] = (None, False, 0, "", [], [{}])
OBJECTS: tuple[Any, ...] = ({}, {"k": [1, {}]})


class Step(NamedTuple):
    """What a side writes: a content, or bytes that are none; or how it ends."""

    side: str
    content: bytes = b""
    is_raw: bool = False
    ended: str = ""
    breaks: tuple[tuple[str, str], ...] = ()  # rules and levels that the writer breaks by it
    leaves: str = ""  # the level at which the other side never answers it
    is_guess: bool = False  # an array: for which batch it is has to be guessed


@dataclass
class Plan:
    """A conversation as it is made: what both sides write, one thing after the other."""

    chance: random.Random
    rules: str
    framing: str
    steps: list[Step] = field(default_factory=list)
    last_id: int = 0

    def say(self, side: str, value: Any, is_guess: bool = False) -> None:
        self.steps.append(Step(side, text_of(value), is_guess=is_guess))

    def call(self, id_: Any) -> dict[str, Any]:
        """A request with params that its rules allow, or without."""
        others = () if RULES[self.rules].has_objects else OTHER_PARAMS
        params = self.chance.choice((None, *OBJECTS, *others))
        return request(id_) if params is None else request(id_, params=params)

    def answer(self, id_: Any) -> dict[str, Any]:
        others = () if RULES[self.rules].has_objects else OTHER_RESULTS
        return result(id_, self.chance.choice((*OBJECTS, *others)))

    def batch(self, side: str) -> list[tuple[str, Any, bool]]:
        """Says a batch, and cancels some of it, and gives the array that answers it, if any does."""
        chance, ids = self.chance, [self.id_of() for _ in range(self.chance.randint(1, 3))]
        gone = chance.sample(ids, chance.randint(0, len(ids))) if self.rules in LEAVES_OUT else []
        cancels, inside = [cancel(self.rules, it) for it in gone], chance.randint(0, len(gone))
        for it in ([*map(self.call, ids), notification("note"), *cancels[:inside]], *cancels[inside:]):
            self.say(side, it)
        answers = [self.answer(it) for it in ids if it not in gone]
        chance.shuffle(answers)
        return [(OTHER[side], answers, gone != [])] if answers else []

    def id_of(self) -> Any:
        self.last_id += 1
        return self.chance.choice((self.last_id, -self.last_id, f"id {self.last_id}"))


def text_of(value: Any) -> bytes:
    return json.dumps(value).encode()


def request(id_: Any, method: str = "a", **more: Any) -> dict[str, Any]:
    return {"jsonrpc": "2.0", "method": method, "id": id_, **more}


def notification(method: str, **more: Any) -> dict[str, Any]:
    return {"jsonrpc": "2.0", "method": method, **more}


def result(id_: Any, value: Any = OBJECTS[0]) -> dict[str, Any]:
    return {"jsonrpc": "2.0", "id": id_, "result": value}


def error(id_: Any, code: int = 5) -> dict[str, Any]:
    return {"jsonrpc": "2.0", "id": id_, "error": {"code": code, "message": "m"}}


def cancel(rules: str, id_: Any) -> dict[str, Any]:
    its = RULES[rules]
    return notification(its.cancel or "cancel", params={its.target or "id": id_})


# Conversations that break nothing


def clean(chance: random.Random, rules: str, framing: str) -> Plan:
    """Requests, notifications, batches and cancels of both sides, each answered as it should be, in any order. What is
    cancelled by MCP's rules has no answer, and is left out of its batch's array."""
    plan = Plan(chance, rules, framing)
    due: list[tuple[str, Any, bool]] = []  # answers that are to come, and whether each is a guess
    for _ in range(chance.randint(4, 25)):
        side = chance.choice(SIDES)
        kind = chance.choice(("request", "request", "notification", "batch", "cancel", "answer", "answer", "answer"))
        if kind == "answer" and due:
            plan.say(*due.pop(chance.randrange(len(due))))
        elif kind == "notification":
            plan.say(side, notification("note", params=chance.choice(OBJECTS)))
        elif kind == "batch" and RULES[rules].batch is None:
            due += plan.batch(side)
        elif kind == "cancel" and RULES[rules].cancel:
            id_ = plan.id_of()
            plan.say(side, plan.call(id_))
            plan.say(side, cancel(rules, id_))
            if rules == "lsp":
                due.append((OTHER[side], error(id_, -32800), False))
        elif kind == "request":
            id_ = plan.id_of()
            plan.say(side, plan.call(id_))
            due.append((OTHER[side], plan.answer(id_) if chance.random() < 0.5 else error(id_), False))
    for answer in due:
        plan.say(*answer)
    return plan


# What breaks a rule: steps that are put in at random places, in their order


def alone(side: str, content: bytes, rule: str, level: str = MUST) -> list[Step]:
    return [Step(side, content, breaks=((rule, level),))]


def value(rule: str, it: Any, level: str = MUST) -> Callable[[str, str], list[Step]]:
    """A value that breaks a rule wherever it stands."""
    return lambda side, rules: alone(side, text_of(it), rule, level)


def asked(rule: str, ask: Any, answer: Any, level: str = MUST) -> Callable[[str, str], list[Step]]:
    """A request, whose answer breaks a rule."""
    return lambda side, rules: [Step(OTHER[side], text_of(ask)), *alone(side, text_of(answer), rule, level)]


def odd_id(rule: str, id_: str, level: str = "") -> Callable[[str, str], list[Step]]:
    """A request with an id as it is written, and its answer."""

    def steps(side: str, rules: str) -> list[Step]:
        ask = b'{"jsonrpc":"2.0","method":"a","id":%s}' % id_.encode()
        answer = b'{"jsonrpc":"2.0","id":%s,"result":{}}' % id_.encode()
        return [*alone(side, ask, rule, level or RULES[rules].id_level), Step(OTHER[side], answer)]

    return steps


def both_kinds(side: str, rules: str) -> list[Step]:
    """A request with a result, and its answer."""
    return [
        *alone(side, text_of({**request(FIRST), "result": {}}), "both-kinds"),
        Step(OTHER[side], text_of(result(FIRST))),
    ]


def members_twice(side: str, rules: str) -> list[Step]:
    """A request with two ids, which is answered by the first one."""
    ask = b'{"jsonrpc":"2.0","id":%d,"method":"a","id":%d}' % (FIRST, FIRST + 1)
    return [*alone(side, ask, "twice", SHOULD), Step(OTHER[side], text_of(result(FIRST)))]


def method_twice(side: str, rules: str) -> list[Step]:
    """A notification with two methods, which is refused."""
    note = b'{"jsonrpc":"2.0","method":"a","method":"b"}'
    refusal = alone(OTHER[side], text_of(error(None, -32700)), "not-owed", NOTE)
    return [*alone(side, note, "twice", SHOULD), *refusal]


def answer_twice(side: str, rules: str) -> list[Step]:
    """An answer with two results, which is one all the same."""
    answer = b'{"jsonrpc":"2.0","id":%d,"result":1,"result":2}' % FIRST
    return [Step(OTHER[side], text_of(request(FIRST))), *alone(side, answer, "twice", SHOULD)]


def array_of_params(side: str, rules: str) -> list[Step]:
    """A request, and its answer."""
    ask = request(FIRST, params=OTHER_PARAMS[0])
    return [*alone(side, text_of(ask), "params-object"), Step(OTHER[side], text_of(result(FIRST)))]


def again(side: str, rules: str) -> list[Step]:
    ask, answer = Step(side, text_of(request(FIRST))), Step(OTHER[side], text_of(result(FIRST)))
    level = MUST if RULES[rules].ids_once else NOTE
    return [ask, ask._replace(breaks=(("id-again", level),)), answer, answer]


def batch(side: str, rules: str) -> list[Step]:
    return alone(side, text_of([notification("note")]), "batch", RULES[rules].batch or NOTE)


def answers_of_a_batch(side: str, rules: str) -> list[Step]:
    """They come singly."""
    told = (("batch", RULES[rules].batch or NOTE),) if RULES[rules].batch else ()
    return [
        Step(OTHER[side], text_of([request(FIRST), request(FIRST + 1)]), breaks=told),
        *alone(side, text_of(result(FIRST + 1)), "not-as-array", SHOULD),
        *alone(side, text_of(result(FIRST)), "not-as-array", SHOULD),
    ]


def another_type(side: str, rules: str) -> list[Step]:
    return [
        Step(OTHER[side], text_of(request(FIRST))),
        *alone(side, text_of(result(str(FIRST))), "not-owed"),
        Step(side, text_of(result(FIRST))),
    ]


def twice(side: str, rules: str) -> list[Step]:
    return [
        *asked("not-owed", request(FIRST), result(FIRST))(side, rules)[:1],
        Step(side, text_of(result(FIRST))),
    ] + alone(side, text_of(result(FIRST)), "not-owed")


def never(side: str, rules: str) -> list[Step]:
    """Not told of a client that ends the session by it."""
    is_excused = side == "client" and RULES[rules].ends_by_close
    return [Step(OTHER[side], text_of(request(FIRST)), leaves="" if is_excused else MUST)]


def unknown_cancel(side: str, rules: str) -> list[Step]:
    level = MUST if RULES[rules].ids_once else NOTE
    return alone(side, text_of(cancel(rules, FIRST)), "cancel-unknown", level)


def wrong_cancel(side: str, rules: str) -> list[Step]:
    level = NOTE if RULES[rules].leaves_ids_out else MUST
    return alone(side, text_of(notification(RULES[rules].cancel, params={"ids": [1]})), "cancel-params", level)


def cancel_of_null(side: str, rules: str) -> list[Step]:
    return alone(side, text_of(cancel(rules, None)), "cancel-params")


def cancelled_initialize(side: str, rules: str) -> list[Step]:
    return [
        Step(side, text_of(request(FIRST, "initialize"))),
        *alone(side, text_of(cancel(rules, FIRST)), "cancel-initialize"),
    ]


def late_answer(side: str, rules: str) -> list[Step]:
    return [
        Step(OTHER[side], text_of(request(FIRST))),
        Step(OTHER[side], text_of(cancel(rules, FIRST))),
        *alone(side, text_of(result(FIRST)), "after-cancel", NOTE),
    ]


def batch_with_a_cancel(side: str, rules: str, leaves: str = "") -> list[Step]:
    """Two requests of the other side, of which the first one is cancelled."""
    asks = Step(OTHER[side], text_of([request(FIRST), request(FIRST + 1)]), leaves=leaves)
    return [asks, Step(OTHER[side], text_of(cancel(rules, FIRST)))]


def late_array(side: str, rules: str) -> list[Step]:
    """All is answered, and one of it twice."""
    answers = text_of([result(FIRST + 1), result(FIRST)])
    asked = batch_with_a_cancel(side, rules)
    return [*asked, *alone(side, answers, "after-cancel", NOTE), *alone(side, text_of(result(FIRST)), "not-owed")]


def short_array(side: str, rules: str) -> list[Step]:
    """What is cancelled is left out, and the other one is answered twice."""
    answers = Step(side, text_of([result(FIRST + 1)]), is_guess=True)
    return [*batch_with_a_cancel(side, rules), answers, *alone(side, text_of(result(FIRST + 1)), "not-owed")]


def lacking_array(side: str, rules: str) -> list[Step]:
    """What is cancelled is answered, and the other one never. (A client may end the session by it.)"""
    told = (("not-as-array", SHOULD), ("after-cancel", NOTE))
    answers = Step(side, text_of([result(FIRST)]), breaks=told, is_guess=True)
    return [*batch_with_a_cancel(side, rules, leaves="" if side == "client" else MUST), answers]


def foreign(side: str, rules: str) -> list[Step]:
    content = text_of(notification("note"))
    head = b"Content-Type: x; charset=latin1\r\nContent-Length: %d\r\n\r\n" % len(content)
    return [Step(side, head + content, is_raw=True, breaks=(("charset", MUST),))]


def no_head(side: str, rules: str) -> list[Step]:
    return [Step(side, b"Loading ..\n", is_raw=True, breaks=(("head", MUST),))]


class Plant(NamedTuple):
    rule: str
    steps: Callable[[str, str], list[Step]]
    rules: tuple[str, ...] = tuple(RULES)
    framings: tuple[str, ...] = ("frames", "lines", "contents")


LSP, MCP = ("lsp",), tuple(it for it in RULES if it.startswith("mcp"))
CANCELS, HAVE_IDS = (*LSP, *MCP), tuple(it for it in RULES if it != "mcp")
KEEP_ALL = tuple(it for it in RULES if it not in LEAVES_OUT)
ASK, BOTH = request(FIRST), {**result(FIRST), "error": None}
PLANTS = (
    Plant("head", no_head, framings=("frames",)),
    Plant("charset", foreign, framings=("frames",)),
    Plant("not-json", lambda side, rules: alone(side, b'{"jsonrpc":"2.0",', "not-json")),
    Plant("object", value("object", 5)),
    Plant("version", value("version", {"method": "a"})),
    Plant("version", asked("version", ASK, {"id": FIRST, "result": 1})),
    Plant("method", value("method", notification(5))),  # type: ignore[arg-type]
    Plant("params", value("params", notification("a", params=None))),
    Plant("id", value("id", request([FIRST]))),
    Plant("id", value("id", {"jsonrpc": "2.0", "result": {}})),
    Plant("id", value("id", {"jsonrpc": "2.0", "error": {"code": 5, "message": "m"}}), rules=HAVE_IDS),
    Plant("outcome", asked("outcome", ASK, BOTH)),
    Plant("error", asked("error", ASK, {"jsonrpc": "2.0", "id": FIRST, "error": "no"})),
    Plant("both-kinds", both_kinds),
    Plant("twice", members_twice),
    Plant("twice", method_twice),
    Plant("twice", answer_twice),
    Plant("empty-array", value("empty-array", [])),
    Plant("batch", batch, rules=tuple(it for it in RULES if RULES[it].batch)),
    Plant("not-owed", value("not-owed", result(FIRST))),
    Plant("not-owed", another_type),
    Plant("not-owed", twice),
    Plant("not-as-array", answers_of_a_batch),
    # (where a batch may be open behind a cancel, it may be a guess)
    Plant("not-as-array", asked("not-as-array", ASK, [result(FIRST)], SHOULD), rules=KEEP_ALL),
    Plant("not-as-array", lacking_array, rules=LEAVES_OUT),
    Plant("not-owed", short_array, rules=LEAVES_OUT),
    Plant("id-fraction", odd_id("id-fraction", "9000.5")),
    Plant("id-null", odd_id("id-null", "null")),
    Plant("id-form", odd_id("id-form", "9000.0", NOTE)),
    Plant("id-again", again),
    Plant("rpc-name", value("rpc-name", notification("rpc.a"), NOTE)),
    Plant("code", asked("code", ASK, error(FIRST, -32500))),
    Plant("cancelled-code", asked("cancelled-code", ASK, error(FIRST, -32800), SHOULD), rules=LSP),
    Plant("cancel-params", wrong_cancel, rules=CANCELS),
    Plant("cancel-params", cancel_of_null, rules=CANCELS),
    Plant("cancel-unknown", unknown_cancel, rules=CANCELS),
    Plant("cancel-initialize", cancelled_initialize, rules=MCP),
    Plant("after-cancel", late_answer, rules=MCP),
    Plant("after-cancel", late_array, rules=LEAVES_OUT),
    Plant("params-object", value("params-object", notification("a", params=OTHER_PARAMS[1])), rules=MCP),
    Plant("params-object", array_of_params, rules=MCP),
    *(Plant("result-object", asked("result-object", ASK, result(FIRST, it)), rules=MCP) for it in OTHER_RESULTS),
    Plant("unanswered", never),
)
# These are planted at the end of a side's stream.
CUT = (
    Plant("cut-off", lambda side, rules: [Step(side, b"{", is_raw=True)], framings=("lines",)),
    Plant("cut-off", lambda side, rules: [Step(side, b"Content-", is_raw=True)], framings=("frames",)),
    Plant(
        "line-end",
        lambda side, rules: [Step(side, text_of(notification("note")), is_raw=True)],
        framings=("lines",),
    ),
)


class Planted(NamedTuple):
    conversation: Conversation
    rules: str
    wanted: list[tuple[str, str, str, str, int]]  # who, the rule, its level, whose message, and its number


def planted(seed: str, plant: Plant) -> Planted:
    """A conversation with one break of a rule in it."""
    chance = random.Random(seed)
    rules, framing, side = chance.choice(plant.rules), chance.choice(plant.framings), chance.choice(SIDES)
    plan = clean(chance, rules, framing)
    steps = plan.steps
    added = plant.steps(side, rules)
    if plant in CUT:
        level = MUST if plant.rule == "cut-off" else NOTE
        steps += added + [Step(side, ended="closed", breaks=((plant.rule, level),)), Step(OTHER[side], ended="closed")]
    else:
        at = 0
        for it in added:
            at = chance.randint(at, len(steps))
            steps.insert(at, it)
            at += 1
        # (the side that owes ends first, so that nothing excuses it)
        steps += [Step(side, ended="closed"), Step(OTHER[side], ended="closed")]
    seen = [Seen(it.side, written(it, framing), it.ended) for it in steps]
    return Planted(Conversation(seed, framing, (), seen), rules, wanted_of(steps, side))


def written(step: Step, framing: str) -> bytes:
    if step.is_raw or step.ended:
        return step.content
    if framing == "frames":
        return frame(step.content)
    return step.content + (b"\n" if framing == "lines" else b"")


def wanted_of(steps: list[Step], side: str) -> list[tuple[str, str, str, str, int]]:
    """What is to be found, in its order. Behind a guess, what is told of what a side owes is a note."""
    counts, found, left, guessed = dict.fromkeys(SIDES, 0), [], [], set()
    for it in steps:
        counts[it.side] += not it.is_raw and not it.ended or it.breaks != ()
        if it.is_guess:
            guessed.add(it.side)
        for rule, level in it.breaks:
            is_softened = it.side in guessed and rule in OF_WHAT_IS_OWED
            found.append((it.side, rule, NOTE if is_softened else level, it.side, counts[it.side]))
        if it.leaves:
            left.append((OTHER[it.side], "unanswered", it.leaves, it.side, counts[it.side]))
        if it.ended and it.side == side:
            found += [(who, rule, NOTE if who in guessed else level, of, at) for who, rule, level, of, at in left]
    return found
