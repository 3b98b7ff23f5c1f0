"""A plain model of `play`: the lines that go out for lines that come in, by the rules of docs/methods.md and
docs/protocol.md.

It is for comparing. It takes a table that `check` accepts."""
import json
import tomllib
from dataclasses import dataclass, field
from functools import cache

from support import reading
from support.reading import ABSENT, SIGNED, is_integer, is_whole

PARSE_ERROR = {"code": -32700, "message": "Parse error"}
INVALID_REQUEST = {"code": -32600, "message": "Invalid Request"}
NOT_FOUND = {"code": -32601, "message": "Method not found"}
INVALID_PARAMS = {"code": -32602, "message": "Invalid params"}
INTERNAL = {"code": -32603, "message": "Internal error"}
NO_REPLY = {"code": -32000, "message": "No reply"}
CANCELLED = {"code": -32800, "message": "Request cancelled"}


class Ends(Exception):
    """A method ends with this error."""

    def __init__(self, error):
        super().__init__(error)
        self.error = error


def text_of(value: object) -> str:
    return json.dumps(value, sort_keys=True, separators=(",", ":"), ensure_ascii=False)


def answer(request: object, result: object = None, error: object = None) -> dict[str, object]:
    return {"id": request, "jsonrpc": "2.0", **({"error": error} if error else {"result": result})}


# Methods


def place(value, pointer):
    """The place in a value that a pointer leads to, in a list, or nothing."""
    for name in pointer.split("/")[1:]:
        name = name.replace("~1", "/").replace("~0", "~")
        if isinstance(value, dict) and name in value:
            value = value[name]
        elif isinstance(value, list) and name in map(str, range(len(value))):
            value = value[int(name)]
        else:
            return None
    return [value]


def fill(template, registers):
    if isinstance(template, list):
        return [fill(it, registers) for it in template]
    if isinstance(template, dict):
        return {key: fill(template[key], registers) for key in sorted(template)}
    if not isinstance(template, str) or not template.startswith("$"):
        return template
    if template.startswith("$$"):
        return template[1:]
    if template == "$null":
        return None
    name, slash, pointer = template[1:].partition("/")
    found = place(registers[name], slash + pointer) if name in registers else None
    if found is None:
        raise Ends(INVALID_PARAMS if name == "params" else INTERNAL)
    return found[0]


def add(step, registers):
    operands = [fill(step[it], registers) for it in ("left", "right")]
    if not all(is_integer(it, SIGNED) for it in operands):
        raise Ends(INVALID_PARAMS)
    if sum(operands) not in SIGNED:
        raise Ends(INTERNAL)
    return sum(operands)


def message(step, registers):
    """What a `notify`, a `call` or an element of a list sends."""
    if "params" not in step:
        return {"jsonrpc": "2.0", "method": step["method"]}
    params = fill(step["params"], registers)
    if not isinstance(params, (list, dict)):
        raise Ends(INTERNAL)
    return {"jsonrpc": "2.0", "method": step["method"], "params": params}


def calls_of(step, registers):
    if step["kind"] != "each":
        return [message(it, registers) for it in step.get("list", [step])]
    elements = fill(step["over"], registers)
    if not isinstance(elements, list) or len(elements) > 16:
        raise Ends(INVALID_PARAMS)
    return [{"jsonrpc": "2.0", "method": step["method"], "params": [it]} for it in elements]


def heard(step, reply):
    """What the register holds of a reply, which is a result or an error."""
    result, error = reply
    if step.get("on_error") == "keep":
        return {"error": error, "ok": False} if error else {"ok": True, "result": result}
    if error:
        raise Ends(error)
    return result


def run(steps, number, params):
    """Runs steps: gives each message with the turns that are waited for, is sent their replies, and returns the
    result."""
    registers, turn, at = {"params": params}, 0, 0
    while at < len(steps):
        step, at = steps[at], at + 1
        if step["kind"] == "answer":
            return fill(step["value"], registers)
        if step["kind"] == "fail":
            raise Ends({"code": step["code"], "message": step["message"]})
        if step["kind"] == "set":
            registers[step["to"]] = fill(step["value"], registers)
        elif step["kind"] == "add":
            registers[step["to"]] = add(step, registers)
        elif step["kind"] == "skip":
            at += (
                step["count"]
                if text_of(fill(step["left"], registers)) == text_of(fill(step["right"], registers))
                else 0
            )
        elif step["kind"] == "notify":
            yield message(step, registers), []
        else:
            calls = calls_of(step, registers)
            turns = range(turn + 1, turn + len(calls) + 1)
            turn += len(calls)
            sent = [{"id": f"{number}.{it}", **call} for it, call in zip(turns, calls)]
            replies = (yield (sent[0] if step["kind"] == "call" else sent), turns) if sent else []
            values = [heard(step, it) for it in replies]
            registers[step["to"]] = values[0] if step["kind"] == "call" else values
    return None


# The peer


@cache
def table_of(text):
    """A table, read once for all that ask for it, who change nothing of it."""
    return tomllib.loads(text)


@dataclass
class Unit:
    is_batch: bool
    answers: list = field(default_factory=list)  # (None for a request that isn't finished)


@dataclass
class Handler:
    steps: object
    request: object = None
    unit: Unit = None
    place: int = 0
    waits: list = None  # (None before the first turn)


class Peer:
    def __init__(self, table, is_last):
        self.table, self.is_last = table_of(table), is_last
        self.methods = {it["name"]: it.get("step", []) for it in self.table.get("method", [])}
        self.handlers, self.replies, self.numbers, self.is_over = {}, {}, 0, False
        self.units, self.unsent, self.written = [], [], []
        if self.table.get("opening"):
            self.handlers[0] = Handler(run(self.table["opening"], 0, None))

    def play(self, frames, is_lazy):
        """Frames come in, and then the input is over."""
        for frame in frames:
            if not is_lazy:
                self.go_on()
            self.take_unit(reading.unit_of(frame))
        if not is_lazy:
            self.go_on()
        self.is_over = True
        self.go_on()

    def take_unit(self, came):
        unit = Unit(came.is_batch)
        self.units.append(unit)
        for entry in came.entries:
            if entry.kind == "call":
                self.take_call(entry, unit)
            elif entry.kind == "reply":
                self.take_reply(entry)
            elif entry.kind != "stray":
                unit.answers.append(answer(None, error=INVALID_REQUEST if entry.kind == "invalid" else PARSE_ERROR))

    def take_call(self, entry, unit):
        self.numbers += 1
        error = NOT_FOUND if entry.method not in self.methods else None if is_whole(entry.params) else INVALID_PARAMS
        if entry.target is not ABSENT:
            self.cancel(entry.target)
        elif error is None:
            handler = Handler(run(self.methods[entry.method], self.numbers, entry.params), entry.id)
            self.handlers[self.numbers] = handler
            if entry.is_request:
                handler.unit, handler.place = unit, len(unit.answers)
        if entry.is_request:
            unit.answers.append(answer(entry.id, error=error) if error else None)

    def take_reply(self, entry):
        if entry.key[0] in self.handlers:
            self.replies.setdefault(entry.key, (entry.result, entry.error))

    def is_reached(self, number, named):
        """Whether a cancel of this id reaches a handler that isn't finished."""
        return self.handlers[number].unit and reading.is_same_id(self.handlers[number].request, named)

    def cancel(self, named):
        for number, handler in sorted(self.handlers.items()):
            if self.is_reached(number, named):
                for turn in handler.waits or []:
                    if (number, turn) not in self.replies:
                        self.unsent.append(
                            (
                                number,
                                {"jsonrpc": "2.0", "method": "$/cancelRequest", "params": {"id": f"{number}.{turn}"}},
                            )
                        )
                self.finish(number, error=CANCELLED)

    def finish(self, number, **ending):
        handler = self.handlers.pop(number)
        if handler.unit:
            handler.unit.answers[handler.place] = answer(handler.request, **ending)

    def reply_to(self, number, turn):
        return self.replies.get((number, turn)) or ((None, NO_REPLY) if self.is_over else None)

    def is_ready(self, number):
        waits = self.handlers[number].waits
        return waits is None or all(self.reply_to(number, it) for it in waits)

    def pick(self, ready):
        return ready[-1 if self.is_last else 0]

    def turn(self, number):
        """A handler runs until it waits for replies, or ends."""
        handler = self.handlers[number]
        replies = None if handler.waits is None else [self.reply_to(number, it) for it in handler.waits]
        try:
            handler.waits = []
            while not handler.waits:
                sent, handler.waits = handler.steps.send(replies)
                self.unsent.append((number, sent))
                replies = None
        except StopIteration as end:
            self.finish(number, result=end.value)
        except Ends as end:
            self.finish(number, error=end.error)

    def write(self):
        """What is due goes out: the messages by the numbers of their handlers, and the answers in the order of
        arrival."""
        self.written += [it for _, it in sorted(self.unsent, key=lambda it: it[0])]
        self.unsent = []
        while self.units and None not in self.units[0].answers:
            unit = self.units.pop(0)
            self.written += [unit.answers] if unit.is_batch and unit.answers else unit.answers

    def go_on(self):
        """Turns all handlers that can go on, one by one, and writes what is due after each."""
        self.write()
        while ready := [it for it in sorted(self.handlers) if self.is_ready(it)]:
            self.turn(self.pick(ready))
            self.write()


def play(table: str, lines: list[str], is_lazy: bool = False, is_last: bool = False) -> list[str]:
    """The lines that go out."""
    peer = Peer(table, is_last)
    peer.play([reading.Frame(it.encode(), False, 0, 0) for it in lines], is_lazy)
    return [text_of(it) for it in peer.written]
