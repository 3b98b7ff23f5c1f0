"""Scripts for a connection: what its host does, an action a line, and what each action gives, a line each.

A line is words with one space between them and an LF after them; the last line has its LF too. Numbers are decimal
digits without leading zeros (CODE may have a `-` before it). HEX is bytes as lowercase hexadecimal digits, two a byte,
and `.` where there are none. Where `HEX|-` stands, `-` says that there is nothing (no params, no data, no id), which
isn't the same as an empty text.

    action                                                      gives
    settings FRAMING ORDER CANCELS CONTENT CALLS                ok | refused settings
    settings FRAMING ORDER CANCELS CONTENT CALLS [broken] [nulls] [entries=MOST]
        FRAMING: frames, lines, contents; ORDER: as-answered, as-came; CANCELS: cancels (LSP's), mcp, no-cancels.
        CONTENT (1 to 2147483647) and CALLS (1 to 18446744073709551615) are the limits.
        With `broken` broken contents are told, with `nulls` params that are null, and a batch may have MOST entries, 1 or more.
        Begins a connection, and drops the one before.
    feed HEX                                                    ok | refused over
    end closed    end failed                                    ok | refused over
    next                                                        none | EVENT
    call NUMBER METHOD PARAMS|-                                 key KEY | refused WHY
    batch NUMBER METHOD PARAMS|- METHOD PARAMS|- ..             key KEY (the first) | refused WHY      (any number of calls, also none)
    notify METHOD PARAMS|-                                      ok | refused WHY
    withdraw KEY                                                ok | refused not_waiting
    answer NUMBER RESULT|-                                      ok | refused WHY      (`-` is for a notification)
    fail NUMBER CODE MESSAGE DATA|-                             ok | refused WHY
    cancel NUMBER                                               ok | refused not_open
    take ROOM                                                   bytes HEX
    pending                                                     pending COUNT
    is_done                                                     true | false
    fault_place                                                 none | place OFFSET
    report                                                      report CALLS REQUESTS OPEN WAITING OWN_CALLS ANSWERS UNREADABLE INVALID IGNORED

METHOD, PARAMS, RESULT, MESSAGE and DATA are HEX. WHY is not_open, not_text, not_json, over, empty or full; where
several apply it is the first of these, over all calls of a batch. not_text: a method or message that isn't UTF-8.
not_json: a text that isn't one JSON value of at most 120 levels, params that are no array or object, and `-` as the
result of a request.

    EVENT
    broken OFFSET unreadable START                              (START is HEX too)
    broken OFFSET invalid FIRST COUNT START
    call NUMBER METHOD PARAMS|- ID|-                            (a notification has no id)
    cancelled NUMBER
    replied KEY result RESULT
    replied KEY error CODE MESSAGE DATA|-
    unanswered KEY
    over HOW                                                    (Clean, Read, Full or the name of a fault)

A call that is refused memory gives `refused memory`. Where there is no connection, since its settings were refused,
each action but `settings` gives `refused settings`. A program that is given a line that can't be read, or an action
before the first settings, says nothing of it and ends with the status 2."""
import re
from dataclasses import dataclass
from typing import Callable, Collection, Iterable, Iterator, Optional

from support import connection_model as model
from support.connection_model import Model, Refused, Settings

NUMBER = re.compile(r"0|[1-9][0-9]*")
CODE = re.compile(r"0|-?[1-9][0-9]*")
HEX = re.compile(r"\.|(?:[0-9a-f]{2})+")
FRAMINGS, ORDERS = ("frames", "lines", "contents"), ("as-answered", "as-came")
# Whose cancels a conversation has.
CANCELS = {"cancels": "lsp", "mcp": "mcp", "no-cancels": None}
# What may stand behind the limits, each once and in this order: what is told, and how many entries a batch may have.
TELLING = ("broken", "nulls")
ENTRIES = re.compile(r"entries=([1-9][0-9]*)")


# Words


def hex_of(data: bytes) -> str:
    return data.hex() or "."


def hex_or_none(data: Optional[bytes]) -> str:
    return "-" if data is None else hex_of(data)


def matched(form: "re.Pattern[str]", word: str) -> str:
    if not form.fullmatch(word):
        raise ValueError(f"{word!r} can't be read")
    return word


def bytes_of(word: str) -> bytes:
    return b"" if word == "." else bytes.fromhex(matched(HEX, word))


def bytes_or_none(word: str) -> Optional[bytes]:
    return None if word == "-" else bytes_of(word)


def number_of(word: str) -> int:
    value = int(matched(NUMBER, word))
    if value > 2**64 - 1:
        raise ValueError(f"{word} is too large")
    return value


def code_of(word: str) -> int:
    value = int(matched(CODE, word))
    if value not in range(-(2**63), 2**63):
        raise ValueError(f"{word} is no code")
    return value


def one_of(words: Collection[str], word: str) -> str:
    if word not in words:
        raise ValueError(f"{word!r} is none of {[*words]}")
    return word


def entries_of(word: str) -> int:
    found = ENTRIES.fullmatch(word)
    if found is None:
        raise ValueError(f"{word!r} is no limit of entries")
    return number_of(found[1])


def check_more(words: list[str]) -> None:
    """Whether these words may stand behind the limits of settings."""
    told = [it for it in TELLING if it in words]
    rest = words[len(told) :]
    if words[: len(told)] != told or len(rest) > 1:
        raise ValueError(f"{words} can't be read")
    for word in rest:
        entries_of(word)


def text(words: Optional[str]) -> str:
    """A text of an event, as a word."""
    return "-" if words is None else hex_of(words.encode("utf-8"))


# Actions


@dataclass(frozen=True)
class Action:
    """What a line says: the action's name and the words after it, read."""

    name: str
    given: tuple[object, ...] = ()

    @property
    def line(self) -> str:
        return " ".join([self.name, *map(word_of, self.given)])


Word = Callable[[str], object]


def one_word_of(words: Collection[str]) -> Word:
    return lambda word: one_of(words, word)


FORMS: dict[str, tuple[Word, ...]] = {
    "settings": (one_word_of(FRAMINGS), one_word_of(ORDERS), one_word_of(CANCELS), number_of, number_of),
    "feed": (bytes_of,),
    "end": (one_word_of(("closed", "failed")),),
    "next": (),
    "call": (number_of, bytes_of, bytes_or_none),
    "notify": (bytes_of, bytes_or_none),
    "withdraw": (number_of,),
    "answer": (number_of, bytes_or_none),
    "fail": (number_of, code_of, bytes_of, bytes_or_none),
    "cancel": (number_of,),
    "take": (number_of,),
    "pending": (),
    "is_done": (),
    "fault_place": (),
    "report": (),
}


def word_of(value: object) -> str:
    return hex_or_none(value) if value is None or isinstance(value, bytes) else str(value)


def action_of(line: str) -> Action:
    """Reads a line. Raises ValueError where it can't be read."""
    name, *words = line.split(" ")
    if name == "batch" and len(words) % 2 == 1:
        forms: tuple[Word, ...] = (number_of, *(bytes_of, bytes_or_none) * (len(words) // 2))
    elif name == "settings" and len(words) > len(FORMS[name]):
        more = words[len(FORMS[name]) :]
        check_more(more)
        forms = (*FORMS[name], *[str] * len(more))
    elif name in FORMS and len(FORMS[name]) == len(words):
        forms = FORMS[name]
    else:
        raise ValueError(f"{line!r} is no action")
    return Action(name, tuple(form(word) for form, word in zip(forms, words)))


def read(script: str) -> list[Action]:
    return [action_of(line) for line in script.removesuffix("\n").split("\n")] if script else []


def written(actions: Iterable[Action]) -> str:
    return "".join(f"{it.line}\n" for it in actions)


# Running a script over the model


def event_line(event: model.Event) -> str:
    match event:
        case model.Broken(place, start, _, 0):
            return f"broken {place} unreadable {hex_of(start)}"
        case model.Broken(place, start, first, count):
            return f"broken {place} invalid {first} {count} {hex_of(start)}"
        case model.Call(number, method, params, id_):
            return f"call {number} {text(method)} {text(params)} {text(id_)}"
        case model.Cancelled(number):
            return f"cancelled {number}"
        case model.Replied(key, result):
            return f"replied {key} result {text(result)}"
        case model.Failed(key, code, message, data):
            return f"replied {key} error {code} {text(message)} {text(data)}"
        case model.Unanswered(key):
            return f"unanswered {key}"
        case model.Over(how):
            return f"over {how}"


class Runner:
    """Does the actions of a script, and says the line that each gives."""

    def __init__(self, kind: type[Model] = Model) -> None:
        self.kind = kind
        self.model: Optional[Model] = None
        self.is_begun = False

    def settings(self, framing: str, order: str, cancels: str, content: int, calls: int, *more: str) -> str:
        self.model, self.is_begun = None, True
        entries = entries_of(more[-1]) if more and more[-1] not in TELLING else None
        tells_broken, null_params = [it in more for it in TELLING]
        self.model = self.kind(
            Settings(framing, order, CANCELS[cancels], content, calls, tells_broken, entries, null_params)
        )
        return "ok"

    def do(self, action: Action) -> str:
        if action.name != "settings" and not self.is_begun:
            raise ValueError("an action before the settings")
        try:
            return self.settings(*action.given) if action.name == "settings" else self.said(action)  # type: ignore[arg-type]
        except Refused as why:
            return f"refused {why}"

    def said(self, action: Action) -> str:
        """What an action on the connection gives."""
        if self.model is None:
            raise Refused("settings")
        if action.name == "batch":
            number, *words = action.given
            return f"key {self.model.batch(number, list(zip(words[::2], words[1::2])))}"  # type: ignore[arg-type]
        given = getattr(self.model, action.name)(*action.given)
        match action.name:
            case "next":
                return "none" if given is None else event_line(given)
            case "call":
                return f"key {given}"
            case "take":
                return f"bytes {hex_of(given)}"
            case "pending":
                return f"pending {given}"
            case "is_done":
                return "true" if given else "false"
            case "fault_place":
                return "none" if given is None else f"place {given}"
            case "report":
                return f"report {' '.join(map(str, given))}"
            case _:
                return "ok"


def ran(actions: Iterable[Action], kind: type[Model] = Model) -> Iterator[str]:
    """The lines that the actions give, by the model."""
    runner = Runner(kind)
    for it in actions:
        yield runner.do(it)
