"""A host over the package's Connection that keeps the rules, and draws what it does from a seed: it calls, notifies, makes
batches, answers in any order, fails, cancels and withdraws. What is to be written it gives in the pieces that it took."""
import random
from typing import NamedTuple, Optional

# (of bindings/python, which stands on the path where this runs)
from bullmyrtle import events  # type: ignore[import]
from bullmyrtle.connection import Connection  # type: ignore[import]

METHODS = ("a", "add", "$/progress", "", '\u00e9\\n\n"', "notifications/x")
PARAMS = (None, None, b"[]", b"{}", b'[ "x", 1.50 ]', b'{ "k" : "\\u001f\\/" }', b"[[[1e-7,-0]]]")
RESULTS = (b"null", b"true", b"5", b' [ 1.50 , {"a":"\\/"} ] ', b'"\\u00e9\\n"', b"{}", b"1e400")
# Those that are objects.
OBJECTS = (b"{}", b'{ "k" : "\\u001f\\/" }', b' { "a" : [ 1.50 , null ] , "b":{} } ', b'{"":1e400}')
CODES = (-32601, -32000, -32803, 0, 5, -(1 << 63), (1 << 63) - 1)
# Isn't defined (JSON-RPC 5.1).
WRONG_CODE = -32500
# What is counted.
COUNTED = ("calls", "batches", "notifications", "answers", "failures", "cancelled", "withdrawn", "heard", "replied")
DID = (*COUNTED, "unanswered", "wrong")


class Failed(Exception):
    """A host did what no host does, or a connection what none does."""


class Ways(NamedTuple):
    """How a host goes about it."""

    framing: str
    order: str
    cancels: Optional[str]
    has_batches: bool
    cancels_freely: bool  # it answers requests as cancelled that nobody cancelled
    has_objects: bool  # its params and results are objects
    is_wrong: bool  # it breaks a rule once, by an error with a code that isn't defined
    seed: int


class Came:
    """A call that came and isn't answered."""

    def __init__(self, number: int, is_request: bool) -> None:
        self.number, self.is_request, self.is_cancelled = number, is_request, False


class Ours:
    """A call of ours that waits."""

    def __init__(self, key: int, number: int) -> None:
        self.key, self.number, self.is_withdrawn = key, number, False


class Host:
    def __init__(self, ways: Ways) -> None:
        self.connection = Connection(ways.framing, ways.order, ways.cancels)
        self.ways, self.chance, self.is_over = ways, random.Random(ways.seed), False
        self.open, self.waiting = list[Came](), list[Ours]()
        self.did = dict.fromkeys(DID, 0)

    def draw(self, bound: int) -> int:
        return self.chance.randrange(bound)

    # What it hears

    def feed(self, pieces: list[bytes]) -> None:
        for it in pieces:
            self.hear(self.connection.fed(it))

    def hear(self, told: list[events.Event]) -> None:
        for event in told:
            if isinstance(event, events.Call):
                self.open.append(Came(event.number, event.is_request))
            elif isinstance(event, events.Cancelled):
                self.did["heard"] += 1
                for it in self.open:
                    it.is_cancelled |= it.number == event.number
            elif isinstance(event, (events.Replied, events.Failed)):
                self.did["replied"] += 1
                self.answered(event.key)
            elif isinstance(event, events.Unanswered):
                self.did["unanswered"] += 1
                self.answered(event.key)
            elif isinstance(event, events.Over) and event.how in ("Clean", "Read"):
                self.is_over = True
            else:
                raise Failed(f"an event that it doesn't know: {event}")

    def answered(self, key: int) -> None:
        if not any(it.key == key for it in self.waiting):
            raise Failed("a reply to what doesn't wait")
        self.waiting = [it for it in self.waiting if it.key != key]

    # What it says

    def speaker(self) -> int:
        """An open call on whose behalf a call is made, or nobody."""
        return self.open[self.draw(len(self.open))].number if self.open and self.draw(3) == 0 else 0

    def said(self) -> tuple[str, Optional[bytes]]:
        params = (None, *OBJECTS) if self.ways.has_objects else PARAMS
        return METHODS[self.draw(len(METHODS))], params[self.draw(len(params))]

    def call(self) -> None:
        number = self.speaker()
        self.waiting.append(Ours(self.connection.call(number, *self.said()), number))
        self.did["calls"] += 1

    def batch(self) -> None:
        number, calls = self.speaker(), [self.said() for _ in range(1 + self.draw(3))]
        first = self.connection.call_batch(number, calls)
        self.waiting += [Ours(first + at, number) for at in range(len(calls))]
        self.did["batches"] += 1

    def notify(self) -> None:
        self.connection.notify(*self.said())
        self.did["notifications"] += 1

    def withdraw(self) -> None:
        it = self.waiting[self.draw(len(self.waiting))]
        if it.is_withdrawn:
            return
        self.connection.withdraw(it.key)
        it.is_withdrawn = True
        if self.ways.cancels == "mcp":
            self.waiting.remove(it)
        self.did["withdrawn"] += 1

    def fail(self, it: Came, code: int) -> None:
        data = None if self.draw(2) else RESULTS[self.draw(len(RESULTS))]
        self.connection.fail(it.number, code, 'no "\n', data)

    def answer(self, it: Came) -> None:
        """Answers a request: one that was cancelled may be answered as such, and in MCP has no answer."""
        is_left = it.is_cancelled and (self.ways.cancels == "mcp" or self.draw(2))
        if is_left or (self.ways.cancels_freely and self.draw(8) == 0):
            self.connection.cancel(it.number)
            self.did["cancelled"] += 1
        elif self.ways.is_wrong and not self.did["wrong"]:
            self.fail(it, WRONG_CODE)
            self.did["wrong"] += 1
        elif self.draw(5) == 0:
            self.fail(it, CODES[self.draw(len(CODES))])
            self.did["failures"] += 1
        else:
            results = OBJECTS if self.ways.has_objects else RESULTS
            self.connection.answer(it.number, results[self.draw(len(results))])
            self.did["answers"] += 1

    def close_one(self) -> None:
        """Ends an open call; then the calls on its behalf wait no longer."""
        place = self.draw(len(self.open))
        it, self.open[place] = self.open[place], self.open[-1]
        self.open.pop()
        if it.is_request:
            self.answer(it)
        else:
            self.connection.answer(it.number)
        self.waiting = [ours for ours in self.waiting if ours.number != it.number]

    def act(self) -> None:
        what = self.draw(20)
        if what < 8 and self.open:
            self.close_one()
        elif what < 11 and self.waiting and self.ways.cancels:
            self.withdraw()
        elif what < 14:
            self.notify()
        elif not self.is_over:
            self.batch() if what < 16 and self.ways.has_batches else self.call()

    # What it is told to do

    def take(self, is_all: bool) -> list[bytes]:
        """All that is to be written, or some of it, in pieces."""
        pieces = list[bytes]()
        while (pending := self.connection.pending) and (is_all or self.draw(3)):
            size = pending if self.ways.framing == "contents" or self.draw(2) else 1 + self.draw(pending)
            pieces.append(self.connection.take(size))
        return pieces

    def talk(self, pieces: list[bytes], is_all: bool = False) -> list[bytes]:
        """It hears all, does up to three things, and writes some of what there is."""
        self.feed(pieces)
        for _ in range(self.draw(4)):
            self.act()
        return self.take(is_all)

    def step(self, pieces: list[bytes]) -> list[bytes]:
        """The same, and it writes all."""
        return self.talk(pieces, is_all=True)

    def wind(self, pieces: list[bytes]) -> list[bytes]:
        """It hears all, calls nobody, answers all that is open, and writes all."""
        self.feed(pieces)
        while self.open:
            self.close_one()
        return self.take(True)

    def wait(self, pieces: list[bytes]) -> list[bytes]:
        """It hears all and writes all, but says nothing."""
        self.feed(pieces)
        return self.take(True)

    def end(self, how: str) -> list[bytes]:
        """The other side's stream is over, closed or failed."""
        self.connection.end(how == "failed")
        self.hear(self.connection.events())
        return self.take(True)

    def done(self) -> bool:
        """Frees the connection, and says whether it was done."""
        is_done = bool(self.connection.is_done)
        self.connection.close()
        return is_done
