"""A session with the side that is examined: it is begun, cases are tried in it, and the judge sees all of it."""
from __future__ import annotations

import json
import signal
import time
from typing import Any, Callable, Dict, List, NamedTuple, Optional, Sequence, Tuple

from ..judge._judge import Finding
from ..judge._life import OTHER, member
from ..judge._streams import ABSENT, Entry, Message
from ..judge._talk import Talk
from ..judge._versions import MCP, VERSIONS
from ._cases import STREAM, Case, Step
from ._inserts import bytes_of, content_of, named
from ._outcomes import Came, State, fits, same_id
from ._peer import Peer
from ._replies import greeting, reply

# What is asked behind each case, the first one that is answered when a session begins.
_PLAIN = {
    ("lsp", "server"): ("examine/plain", "textDocument/hover"),
    ("lsp", "client"): ("examine/plain", "workspace/configuration"),
    ("jsonrpc", "server"): ("examine/plain",),
    ("jsonrpc", "client"): ("examine/plain",),
}
_INITIALIZED = {"lsp": "initialized"}
#: Ids of a case begin with a number that no other case of the session has, and those of plain requests are greater.
_FIRST_ID, _IDS, _FIRST_PLAIN = 7, 1_000, 1_000_001
# The most that a case may make the other side write, and how much of it is kept to be shown.
_MOST, _KEPT = 1 << 26, 1 << 16
_TURN = 0.1
# How long it waits between two looks at what was read.
_READ = 0.001
# How many bytes a second anybody reads and answers.
_SPEED = 4_000_000
# How long the other side has nothing to do before a response isn't waited for any more, before one isn't that may come
# behind that of the plain request, and how many times as long as it took for its first response.
_IDLE, _IDLE_BEHIND, _SLOWER = 1.0, 0.1, 5


class NotExamined(Exception):
    """A session couldn't begin, why, and what the judge finds."""

    def __init__(self, why: str, found: Sequence[str] = ()) -> None:
        super().__init__(why)
        self.found = found


class Stopped(Exception):
    """The examiner was told to stop."""


class Plan(NamedTuple):
    """How sessions are made."""

    rules: str
    framing: str
    side: str  #: who is examined
    seconds: float  #: how long a response may take
    is_patient: bool = True  #: whether a response that is late is waited for as long again
    settle: float = 0.5  #: how long one may take behind that of the plain request, which was sent behind it
    is_stopped: Callable[[], bool] = lambda: False

    @property
    def start_seconds(self) -> float:
        """How long a session may take to begin."""
        return 10 * self.seconds

    @property
    def version(self) -> str:
        return VERSIONS.get(self.rules, "")


class Session:
    """A session, from its start to its end."""

    def __init__(self, peer: Peer, plan: Plan, plain: str = "") -> None:
        """plain -- the request that is asked behind each case, where an earlier session found it"""
        self._peer, self._plan = peer, plan
        self._side, self._ours = plan.side, OTHER[plan.side]
        self._talk = Talk(plan.rules, plan.framing)
        self.plain, self._plain_id, self._is_answered = plain, _FIRST_PLAIN, False
        self._held: List[Entry] = []  # requests of a client, which wait until the cases are over
        self._replies: Dict[str, List[str]] = {}  # what a case answers instead
        self._replied: Dict[str, Any] = {}  # the ids of requests that were answered so
        self._before: Optional[
            Tuple[int, int, int]
        ] = None  # what was found, seen and written before the first of them
        self._notified: List[str] = []
        self._number = 0  # of cases
        self._piece = 0
        self.came: List[Came] = []
        self.found: List[Finding] = []
        self.seen: List[Tuple[str, bytes]] = []  #: what both sides wrote since the case began
        self._bytes = 0
        self.values: Dict[str, str] = self._values()
        self.capabilities: Any = {}
        self.has_late = False  #: whether a response to an earlier case came
        self._took = 0.0  # how long the plain request took

    def _values(self) -> Dict[str, str]:
        root = f"file://{self._peer.folder.work}"
        return {"root": root, "uri": f"{root}/examined.txt", "version": self._plan.version, "id": "7"}

    @property
    def edition(self) -> str:
        """The version of MCP that was agreed on; else whose rules count."""
        return self._talk.edition

    @property
    def is_usable(self) -> bool:
        """Whether another case can be tried in it."""
        return (
            not self._peer.is_over
            and not self._peer.is_broken
            and not self._talk.sides[self._ours].stream._is_over
        )

    # What is written and read

    def _send(self, data: bytes) -> None:
        step = self._piece or len(data)
        late = time.monotonic() + self._plan.seconds
        for at in range(0, len(data), step or 1):
            piece = data[at : at + step]
            self._note(self._ours, piece)
            self._talk.saw(self._ours, piece)
            self._peer.write(piece)
            while self._piece and not self._peer.is_over and self._waits_for_reader(late):
                self._turn(_TURN if not self._peer.is_written else _READ)

    def _waits_for_reader(self, late: float) -> bool:
        """Whether a piece isn't read yet: written at once, the next would come by the same read on a busy machine. (One
        that doesn't read holds a message up for only so long.)"""
        return not self._peer.is_written or (time.monotonic() < late and not self._peer.is_read())

    def _message(self, content: bytes) -> None:
        if self._plan.framing == "frames":
            self._send(b"Content-Length: %d\r\n\r\n%b" % (len(content), content))
        else:
            self._send(content + b"\n")

    def _value(self, value: Dict[str, Any]) -> None:
        self._message(json.dumps({"jsonrpc": "2.0", **value}).encode())

    def _note(self, side: str, data: bytes) -> None:
        if self._bytes < _KEPT:
            self.seen.append((side, data[: _KEPT - self._bytes]))
        self._bytes += len(data)

    def _turn(self, seconds: float) -> None:
        """Lets a little time go on, and takes what comes."""
        if self._plan.is_stopped():
            raise Stopped
        was_over = self._peer.is_over
        data = self._peer.turn(seconds)
        if data:
            self._note(self._side, data)
            self._find(self._talk.saw(self._side, data))
            for seen in self._talk.new:
                self._take(seen.message)
        if self._peer.is_over and not was_over:
            self._find(self._talk.ended(self._side))

    def _find(self, found: List[Finding]) -> None:
        self.found += [it for it in found if it.side == self._side]

    def until(self, done: Callable[[], bool], seconds: float, idle: float = 0) -> bool:
        """Lets time go on until something is so, and gives whether it is; not longer than the other side has something
        to do, and than the idle seconds behind that, where they are given."""
        end = time.monotonic() + seconds
        watch = self._peer.idle() if idle else None
        while not done():
            left = end - time.monotonic()
            if left <= 0 or self._peer.is_over or self._bytes > _MOST:
                return False
            self._turn(min(left, _TURN, idle or _TURN))
            if watch is not None and watch.seconds >= idle:
                return done()
        return True

    def _idle(self, least: float) -> float:
        """How long it has to have nothing to do until nothing is waited for: longer the slower it answers."""
        return max(least, _SLOWER * self._took)

    def _take(self, message: Message) -> None:
        answers = []
        for entry in message.entries:
            if entry.kind == "request":
                self._asked(entry)
            elif entry.kind == "notification":
                self._notified.append(entry.method)
            elif entry.kind == "answer":
                answers.append(entry)
        if answers and not self._is_expected(answers, message.is_array):
            self.came.append(Came(tuple(answers), message.is_array))

    def _is_expected(self, answers: List[Entry], is_array: bool) -> bool:
        """Whether it answers no request of the case's: a plain one, or one of an earlier case."""
        id_ = answers[0].id
        if is_array or isinstance(id_, (str, bool)) or not isinstance(id_, int):
            return False
        if id_ == self._plain_id and not self._is_answered:
            self._is_answered = True
            return True
        first = int(self.values["id"])
        is_late = _FIRST_ID + _IDS <= id_ < first and id_ % _IDS == _FIRST_ID
        self.has_late = self.has_late or is_late
        return is_late

    def _asked(self, request: Entry) -> None:
        if self._plan.rules == "mcp" and request.method == "initialize":
            wanted = member(request.params, "protocolVersion")  # (of a client that has an older one)
            self.values["version"] = wanted if wanted in MCP else self._plan.version
        if request.method in self._replies:
            self._reply(request)
        elif self._side == "client" and request.method not in ("ping", "shutdown"):
            self._held.append(request)
        else:
            self._answer(request)

    def _answer(self, request: Entry) -> None:
        answer = reply(request, self._side, self._plan.rules, self.values["version"])
        self._message(json.dumps(answer).encode())

    def _reply(self, request: Entry) -> None:
        """Answers as the case says."""
        if self._before is None:
            self._before = len(self.found), len(self.seen), self._bytes
        self._replied[request.method] = request.id
        for text in self._replies.pop(request.method):
            self._answer_with(text, request.id)

    def _answer_with(self, text: str, id_: Any) -> None:
        self._message(content_of(text, {**self.values, "asked": json.dumps(id_)}))

    # Its beginning

    def begin(self, case: Optional[Case] = None) -> None:
        """Agrees on the session, as the case wants it. Raises NotExamined where that isn't answered."""
        limit = self._plan.start_seconds
        if self._plan.rules != "jsonrpc":
            if self._side == "server":
                self._begin_with_server(limit, case.start if case is not None else "agreed")
            else:
                self._begin_with_client(limit)
        if case is None or not case.replied:  # (what it does with the case's replies is for the case to say)
            self.choose_plain()

    def _begin_with_server(self, limit: float, start: str) -> None:
        rules, version = self._plan.rules, self._plan.version
        params = greeting(rules, version, self.values["root"], start)
        answer = self._ask("initialize", params, limit)
        if answer is None:
            raise NotExamined(self._why_not("initialize", limit))
        if answer.error is not ABSENT and answer.error is not None:
            raise NotExamined(f"initialize is answered by an error: {json.dumps(answer.error)[:200]}")
        self.capabilities = member(answer.result, "capabilities")
        if self._plan.rules == "lsp":
            self._value({"method": "initialized", "params": {}})
            return
        self._value({"method": "notifications/initialized"})
        if member(self.capabilities, "tools") is not ABSENT:
            self._learn_tools(self._ask("tools/list", {}, self._plan.seconds))

    def _learn_tools(self, answer: Optional[Entry]) -> None:
        """Looks for a tool that requires something."""
        tools = member(answer.result, "tools") if answer is not None else None
        for it in tools if isinstance(tools, list) else ():
            required = member(it, "inputSchema", "required")
            if isinstance(required, list) and required and isinstance(required[0], str):
                self.values["tool"] = json.dumps(member(it, "name"))[1:-1]
                self.values["required"] = json.dumps(required[0])[1:-1]
                return

    def _begin_with_client(self, limit: float) -> None:
        if not self.until(lambda: any(it.method == "initialize" for it in self._held), limit):
            raise NotExamined(self._why_not("being connected to, with initialize", limit))
        self._answer(self._held.pop(0))
        if not self.until(self._is_initialized, limit):
            raise NotExamined(self._why_not("the response of initialize", limit))

    def _is_initialized(self) -> bool:
        return _INITIALIZED.get(self._plan.rules, "notifications/initialized") in self._notified

    def _ask(self, method: str, params: Any, limit: float) -> Optional[Entry]:
        """The response to a request of the examiner's own, or None."""
        self._ask_plainly(method, params)
        wanted = self._plain_id
        found: List[Entry] = []

        def is_there() -> bool:
            found.extend(it.entries[0] for it in self.came if same_id(it.entries[0].id, wanted))
            return bool(found)

        self._is_answered = True  # (so that it is kept among what came)
        self.until(is_there, limit)
        self.came.clear()
        return found[0] if found else None

    def _why_not(self, what: str, limit: float) -> str:
        said = ""
        process = self._peer.process
        if process is not None and process.last.strip():
            said = f"; it said: {process.last.decode(errors='replace').strip()[-300:]}"
        if process is not None and process.status is not None and not self._peer.is_over:
            return f"it ended {self.ended_words()} after {what}, and what it started has its output{said}"
        if self._peer.is_over:
            return f"it ended {self.ended_words()} after {what}{said}"
        return f"no answer after {what} in {limit:g} s: it may need a workspace, or other options{said}"

    def _ask_plainly(self, method: str, params: Any) -> None:
        self._plain_id += 1
        self._is_answered = False
        self._value({"id": self._plain_id, "method": method, "params": params})

    def _params_of(self, method: str) -> Any:
        if method == "workspace/configuration":
            return {"items": []}
        if method == "textDocument/hover":
            return {"textDocument": {"uri": self.values["uri"]}, "position": {"line": 0, "character": 0}}
        return {}

    def choose_plain(self) -> None:
        """Finds a request that is answered, which is asked again behind each case."""
        known = (self.plain,) if self.plain else _plain_of(self._plan)
        limit = self._plan.start_seconds / (1 if self.plain else 2)
        for method in known:
            begun = time.monotonic()
            self._ask_plainly(method, self._params_of(method))
            if self.until(lambda: self._is_answered, limit):
                self.plain, self._took = method, time.monotonic() - begun
                break
        else:
            raise NotExamined(self._why_not(" and ".join(known), limit))
        self._is_answered = True

    # A case

    def prepare(self, case: Case) -> None:
        """Takes up what a case answers to requests, which may come before it starts."""
        self._number += 1
        self._replies, self._replied, self._before = {}, {}, None
        first = _FIRST_ID + _IDS * self._number
        self.values["id"] = str(first)
        self.values["last"] = str(first + max([it.times for it in case.steps], default=1) - 1)
        for it in case.steps:
            if it.method:
                texts = self._replies.setdefault(it.method, [])
                texts += [it.text] if it.kind == "reply" else []

    def start_case(self, case: Case) -> None:
        """Forgets the case before, and the session's beginning up to the first request that the case answers."""
        self.came, self.has_late, self._piece = [], False, 0
        if case.steps:  # (without any, it is the beginning that is judged)
            found, seen, count = self._before or (len(self.found), len(self.seen), self._bytes)
            self.found, self.seen, self._bytes = self.found[found:], self.seen[seen:], self._bytes - count

    def lacks(self, case: Case) -> str:
        """What the case needs and the side hasn't, or ""."""
        version = self._plan.version if case.start == "none" else self.edition
        if version in MCP and f"mcp:{version}" not in case.rules:
            return f"it agreed on {version}"
        if case.needs == STREAM:
            return "" if self._peer.works_here else "over HTTP nothing comes before its session"
        if case.needs and member(self.capabilities, case.needs) is ABSENT:
            return f"it declares no {case.needs}"
        wanted = [it for step in case.steps for it in ("tool", "required") if f"${it}" in step.text]
        missing = [it for it in wanted if it not in self.values]
        return "none of its tools requires an argument" if missing else ""

    def try_case(self, case: Case, settle: float) -> State:
        """Sends what the case has, asks plainly behind it, and gives how it stands then."""
        waits_for_end = False
        for method in case.replied:
            # (the other side asks when it wants to)
            self._let_ask(method)
        if any(it.kind == "reply" and it.method == "initialize" for it in case.steps):
            self._let_go_on()
        for step in case.steps:
            self._do(step)
            waits_for_end = waits_for_end or step.kind == "close" or step == Step("wait", "end")
        self._piece = 0
        if waits_for_end:
            limit = self._first_limit(case)
            self.until(lambda: self._peer.is_over, limit, self._plan.seconds)
            if case.steps[-1].kind == "close":
                return self._ended() if self._peer.is_over else State("alive")
        state = self._plainly_asked(case)
        if state.how == "alive" and not self._is_right(case, state):
            self.until(lambda: self._is_right(case, state), settle, self._idle(_IDLE_BEHIND))
        elif state.how == "alive":
            self.until(lambda: False, settle / 10)
        return self._ended() if self._peer.is_over and state.how == "alive" else state

    def _is_right(self, case: Case, state: State) -> bool:
        return any(fits(it, self.came, state, self.values) for it in case.outcomes if not it.level)

    @property
    def has_replied(self) -> bool:
        """Whether each request was made that the case has a reply to."""
        return not self._replies

    def _let_go_on(self) -> None:
        """A client that goes on behind initialize says so, and has time for it."""
        self.until(self._is_initialized, self._plan.seconds / 2)

    def _let_ask(self, method: str) -> None:
        held = [it for it in self._held if it.method == method]
        for it in held[:1]:
            self._held.remove(it)
            self._reply(it)
        if not held:
            self.until(lambda: method in self._replied, self._plan.seconds, self._idle(_IDLE))

    def _do(self, step: Step) -> None:
        if step.kind == "message":
            first = int(self.values["id"])
            for at in range(step.times):
                self._message(content_of(step.text, {**self.values, "n": str(first + at)}))
        elif step.kind == "bytes":
            self._send(bytes_of(step.text, self.values))
        elif step.kind == "cut":
            self._piece = int(step.text)
        elif step.kind == "late" and step.method in self._replied:
            self._answer_with(step.text, self._replied[step.method])
            if step.method == "initialize" and not self._is_initialized():
                self._let_go_on()
        elif step.kind == "close":
            self.until(lambda: self._peer.is_written, self._plan.seconds)
            self._talk.ended(self._ours)
            self._peer.close_input()
        elif step.kind == "wait" and step.text != "end":
            wanted = json.loads(named(step.text, self.values))
            is_there = lambda: any(same_id(it.entries[0].id, wanted) for it in self.came)  # noqa: E731
            self.until(is_there, self._plan.seconds, self._idle(_IDLE))

    def _first_limit(self, case: Case) -> float:
        """How long something may take: where nothing was answered yet, the process begins meanwhile."""
        is_beginning = case.start == "none" and not self.came
        return self._plan.start_seconds if is_beginning else self._plan.seconds

    def _plainly_asked(self, case: Case) -> State:
        method = self.plain or _plain_of(self._plan)[0]
        self._ask_plainly(method, self._params_of(method))
        may_be_silent = any(it.kind == "silence" for some in case.outcomes for it in some.parts)
        is_patient = self._plan.is_patient and not may_be_silent
        limit = self._first_limit(case)
        # (and a process that hasn't answered yet may wait for something else when it begins)
        idle = self._idle(_IDLE) if limit == self._plan.seconds else 0
        for how in ("alive", "slow") if is_patient else ("alive",):
            if self.until(lambda: self._is_answered, limit + self._bytes / _SPEED, idle):
                return State(how)
            if self._bytes > _MOST:
                return State("flooding")
            if self._peer.is_over:
                return self._ended()
        return State("silent")

    # Its end

    def _ended(self) -> State:
        return State("ended", self._peer.status(), self.ended_words())

    def ended_words(self) -> str:
        """How it ended, in words."""
        status = self._peer.status()
        if status is None:
            return "its output"
        return f"by {signal_name(-status)}" if status < 0 else f"with the status {status}"

    def last_words(self) -> str:
        """What it wrote last to its standard error."""
        process = self._peer.process
        return process.last.decode(errors="replace") if process is not None else ""

    def end(self) -> None:
        """Answers what waits, and ends the other side."""
        if self._held and not self._peer.is_over and not self._plan.is_stopped():
            for it in self._held:
                self._answer(it)
            self.until(lambda: self._peer.is_over, 0.3)
        self._talk.close()
        self._peer.end()


def _plain_of(plan: Plan) -> Tuple[str, ...]:
    return _PLAIN.get((plan.rules, plan.side), ("ping", "examine/plain"))


def signal_name(number: int) -> str:
    try:
        return signal.Signals(number).name
    except ValueError:
        return f"the signal {number}"
