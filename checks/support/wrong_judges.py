"""Judges that are wrong in one thing, at least one for each rule of which rows show a border: the text of the plain
model with one change each, and what it does then.

Each is a file of checks/support, the words that stand there, and what stands in their place."""
import importlib.util
import sys
from types import ModuleType
from typing import NamedTuple

from support import ran

MODULES = ("framings", "judge_rules", "judge_reading", "judge_model")


class Wrong(NamedTuple):
    what: str
    module: str
    old: str
    new: str


def module_of(name: str, text: str) -> ModuleType:
    spec = importlib.util.spec_from_loader(f"support.{name}", loader=None)
    assert spec is not None
    module = importlib.util.module_from_spec(spec)
    sys.modules[spec.name] = module
    exec(compile(text, f"{name}.py", "exec"), module.__dict__)  # noqa: S102 (it is the text of our own model)
    return module


def judge_of(wrong: Wrong) -> type:
    """The class of the model with this change. The modules of the right one are in place again afterwards."""
    kept = {it: sys.modules.get(f"support.{it}") for it in MODULES}
    parent = sys.modules["support"]
    try:
        for name in MODULES:
            text = ran.text_of("checks", "support", f"{name}.py")
            if name == wrong.module:
                if text.count(wrong.old) != 1:
                    raise ValueError(f"{wrong.what}: its words stand {text.count(wrong.old)} times")
                text = text.replace(wrong.old, wrong.new)
            setattr(parent, name, module_of(name, text))
        return sys.modules["support.judge_model"].Judge  # type: ignore[no-any-return]
    finally:
        for name, module in kept.items():
            if module is not None:
                sys.modules[f"support.{name}"] = module
                setattr(parent, name, module)


WRONGS = (
    Wrong(
        "an id is matched without its type",
        "judge_model",
        "    return bool(owed.expected == id_)",
        '    return str(getattr(owed.expected, "digits", owed.expected)) == str(getattr(id_, "digits", id_))',
    ),
    Wrong("a failed read is a close", "judge_model", 'how == "failed" or due.may_be_answered', "due.may_be_answered"),
    Wrong("a notification with a result is both kinds", "judge_reading", 'is_both="id" in members and (', "is_both=("),
    Wrong(
        "a method beside an error isn't told",
        "judge_reading",
        '("result" in members or "error" in members),',
        '"result" in members,',
    ),
    Wrong(
        "an answer beside a method is one",
        "judge_reading",
        'if "method" in members:',
        'if "method" in members and "result" not in members:',
    ),
    Wrong(
        "only an id that stands twice is told",
        "judge_reading",
        "all(names.count(it) < 2 for it in MEMBERS)",
        'names.count("id") < 2',
    ),
    Wrong(
        "a member of what is inside stands twice",
        "judge_reading",
        "    names = [name for name, _ in value]\n",
        "    names = [name for name, _ in value]\n"
        "    names += [name for _, it in value if isinstance(it, Members) for name, _ in it]\n",
    ),
    Wrong(
        "a call with two ids is owed by the last",
        "judge_model",
        "    may = (None, *own, *(() if entry.first.id is ABSENT else (entry.first.id,)))\n",
        "    may = (None, *own)\n",
    ),
    Wrong(
        "a call with two ids is owed by the first",
        "judge_model",
        "expected = None if is_null or entry.is_odd else entry.id\n",
        "expected = None if is_null or entry.is_odd else entry.first.id\n    may = (None, entry.first.id)\n",
    ),
    Wrong(
        "a call in which a member stands twice isn't refused",
        "judge_reading",
        "has_huge(value) or is_twice or is_deep",
        "has_huge(value) or is_deep",
    ),
    Wrong(
        "a call in which a member stands twice must be answered",
        "judge_model",
        "    if entry.first is not None:\n        return owed_by_either(entry, place, own, words)\n",
        "",
    ),
    Wrong(
        "an answer in which a member stands twice is well",
        "judge_reading",
        "bool(faults) or first is not None",
        "bool(faults)",
    ),
    Wrong(
        "an exit that stands first isn't one",
        "judge_model",
        'self.rules.name == "lsp" and first.method == "exit"',
        "False",
    ),
    Wrong(
        "a cancel that stands first isn't one",
        "judge_model",
        "self.rules.cancel and first.method == self.rules.cancel",
        "False",
    ),
    Wrong("a client that ends the session owes answers", "judge_model", " or self.ends_session(side)", ""),
    Wrong("a server may end the session", "judge_model", 'return side == "client" and (', "return ("),
    Wrong(
        "a client ends the session by its exit alone",
        "judge_model",
        "self.sides[side].has_exited or self.rules.ends_by_close",
        "self.sides[side].has_exited",
    ),
    Wrong(
        "by any rules a client ends the session by closing",
        "judge_rules",
        "ends_by_close: bool = False",
        "ends_by_close: bool = True",
    ),
    Wrong("an id may be null in LSP", "judge_rules", "            NOTE,\n            MUST,\n", "            NOTE,\n"),
    Wrong(
        "-32700 is for nothing that is invalid",
        "judge_model",
        "return unnamed if unnamed is not None or is_unsure else self.first(side, (False, is_null_invalid))",
        "return None",
    ),
    Wrong(
        "-32700 is for what is invalid and has an id as well",
        "judge_model",
        " and all(it is None for it in owed.may)",
        "",
    ),
    Wrong(
        "-32700 is never for what is invalid and has an id",
        "judge_model",
        "unnamed if unnamed is not None or is_unsure else",
        "unnamed if True else",
    ),
    Wrong(
        "-32700 is for what is invalid and has an id, though a batch may be refused",
        "judge_model",
        "unnamed if unnamed is not None or is_unsure else",
        "unnamed if unnamed is not None else",
    ),
    Wrong(
        "-32700 is for what is invalid before a request",
        "judge_model",
        "asked = self.first(side, (False, is_null_request))",
        "asked = self.first(side, (False, is_unnamed), (False, is_null_request))",
    ),
    Wrong(
        "-32700 settles what a reader may limit",
        "judge_model",
        "            return asked\n",
        "            huge = next((it for it in dues if it.has_huge), None)\n"
        "            return (huge, None) if asked is None and huge is not None else asked\n",
    ),
    Wrong(
        "-32700 is for what may be left before what a reader may limit",
        "judge_model",
        "if asked is not None or (is_unsure and any(it.has_huge for it in dues)):",
        "if asked is not None:",
    ),
    Wrong(
        "-32700 is for a member of a batch",
        "judge_model",
        "self.first(side, (False, is_null_invalid))",
        "self.first(side, (False, is_null_invalid), (True, is_null_request))",
    ),
    Wrong(
        "-32700 is for what is invalid in a batch",
        "judge_model",
        "unnamed = self.first(side, (False, is_unnamed))",
        "unnamed = self.first(side, (False, is_unnamed), (True, is_unnamed))",
    ),
    Wrong(
        "an array has to be just what is expected",
        "judge_model",
        "return next((it for it in self.sides[side].dues if it.is_batch and can_be_answered(it, answers)), None)",
        "return None",
    ),
    Wrong("an array may leave out requests", "judge_model", "len(missing) <= without_id", "True"),
    Wrong(
        "no batch may be refused whole",
        "judge_model",
        "any(it.is_batch or it.has_huge for it in its.dues)",
        "any(it.has_huge for it in its.dues)",
    ),
    Wrong(
        "what a reader may limit isn't refused whole",
        "judge_model",
        "any(it.is_batch or it.has_huge for it in its.dues)",
        "any(it.is_batch for it in its.dues)",
    ),
    Wrong(
        "what stands alone may be refused",
        "judge_model",
        "any(it.is_batch or it.has_huge for it in its.dues)",
        "bool(its.dues)",
    ),
    Wrong(
        "a batch is refused twice",
        "judge_model",
        " for it in its.dues) and its.refusals < len(its.dues)",
        " for it in its.dues)",
    ),
    Wrong("an error refuses all batches", "judge_model", "its.refusals -= may_be_refused", "its.refusals -= 0"),
    Wrong(
        "at the end what stands alone may have been refused",
        "judge_model",
        "its.refusals > 0 and (due.is_batch or due.has_huge)",
        "its.refusals > 0",
    ),
    Wrong(
        "at the end what a reader may limit wasn't refused",
        "judge_model",
        "its.refusals > 0 and (due.is_batch or due.has_huge)",
        "its.refusals > 0 and due.is_batch",
    ),
    Wrong(
        "at the end no batch was refused",
        "judge_model",
        "its.refusals > 0 and (due.is_batch or due.has_huge)",
        "its.refusals > 0 and due.has_huge",
    ),
    Wrong(
        "an error refuses what comes behind it", "judge_model", "min(owing.refusals, len(owing.dues))", "owing.refusals"
    ),
    Wrong(
        "an error settles the oldest batch",
        "judge_model",
        "            self.sides[side].refusals += 1\n",
        "            self.settle_whole(side, self.sides[side].dues[0])\n",
    ),
    Wrong(
        "an error settles a batch where there are no batches",
        "judge_model",
        "            self.sides[side].refusals += 1\n",
        "            self.sides[side].refusals += 1\n"
        "            if self.rules.batch is not None:\n"
        "                self.settle_whole(side, self.sides[side].dues[0])\n",
    ),
    Wrong(
        "a result refuses nothing",
        "judge_model",
        'is_without or (entry.kind == "answer" and',
        'is_without or (entry.kind == "answer" and entry.error is not ABSENT and',
    ),
    Wrong(
        "a broken error refuses a batch",
        "judge_model",
        'is_without or (entry.kind == "answer" and entry.id is None)',
        "entry.id is None",
    ),
    Wrong(
        "an error without an id refuses nothing",
        "judge_model",
        "return is_without or (entry.kind",
        "return (entry.kind",
    ),
    Wrong(
        "an error without an id refuses by any version",
        "judge_model",
        "return is_without or (entry.kind",
        "return entry.lacks_id or (entry.kind",
    ),
    Wrong(
        "an error without an id that refuses is told",
        "judge_model",
        '            self.refuse(side)\n            if answer.entry.kind == "answer":\n',
        "            self.refuse(side)\n            if True:\n",
    ),
    Wrong(
        "no batch is refused while a content couldn't be read",
        "judge_model",
        "return self.may_refuse(entry) and (self.refuses_open(side)",
        "is_read = not any(it.is_unreadable for it in self.sides[side].dues)\n"
        "        return is_read and self.may_refuse(entry) and (self.refuses_open(side)",
    ),
    Wrong(
        "an array on which nothing is owed isn't refused",
        "judge_model",
        "self.sides[OTHER[side]].unowed += unit.is_array",
        "pass",
    ),
    Wrong(
        "what stands alone and is owed nothing is refused",
        "judge_model",
        "self.sides[OTHER[side]].unowed += unit.is_array",
        "self.sides[OTHER[side]].unowed += 1",
    ),
    Wrong(
        "an array of one's own is refused",
        "judge_model",
        "self.sides[OTHER[side]].unowed += unit.is_array",
        "self.sides[side].unowed += unit.is_array",
    ),
    Wrong(
        "each array is refused once more than it is open",
        "judge_model",
        "            self.sides[OTHER[side]].unowed += unit.is_array\n",
        "        self.sides[OTHER[side]].unowed += unit.is_array\n",
    ),
    Wrong(
        "an array of notifications that a reader may limit isn't open",
        "judge_model",
        "            self.sides[OTHER[side]].unowed += unit.is_array\n",
        "        if not due.entries:\n            self.sides[OTHER[side]].unowed += unit.is_array\n",
    ),
    Wrong(
        "an array without entries is refused once more than it is open",
        "judge_model",
        'self.find(side, "empty-array", MUST, place, "[]")\n',
        'self.find(side, "empty-array", MUST, place, "[]")\n            self.sides[OTHER[side]].unowed += 1\n',
    ),
    Wrong(
        "an answer is for the oldest request of its id",
        "judge_model",
        "            lambda it: is_expected(it, entry.id) and it.must,\n",
        "",
    ),
    Wrong(
        "an array is for the oldest batch of its ids",
        "judge_model",
        "self.just(side, answers, must=True) or ",
        "",
    ),
    Wrong(
        "what must be answered comes first in batches too",
        "judge_model",
        "*((in_batch, it) for in_batch in (False, True) for it in ways)",
        "(False, ways[0]), (True, ways[0]), *((in_batch, it) for in_batch in (False, True) for it in ways[1:])",
    ),
    Wrong("an array is refused twice", "judge_model", "self.sides[side].unowed -= 1", "pass"),
    Wrong(
        "such an array is refused before what is open",
        "judge_model",
        "        if self.refuses_open(side):\n",
        "        if self.sides[side].unowed == 0:\n",
    ),
    Wrong(
        "such an array is refused only where nothing is open",
        "judge_model",
        "or self.sides[side].unowed > 0)",
        "or (self.sides[side].unowed > 0 and not self.sides[side].dues))",
    ),
    Wrong(
        "such an array is refused only before the next content",
        "judge_model",
        "        owing.refusals = min(",
        "        owing.unowed = 0\n        owing.refusals = min(",
    ),
    Wrong(
        "null is for what may have it, though a batch may be refused",
        "judge_model",
        "self.first(side, *((False, it) for it in order))",
        "self.first(side, *((False, it) for it in (*order, may_be_null)))",
    ),
    Wrong(
        "null is for what expects it in a batch that may be refused",
        "judge_model",
        "self.first(side, *((False, it) for it in order))",
        "self.first(side, *((in_batch, it) for in_batch in (False, True) for it in order))",
    ),
    Wrong(
        "null is for nothing that expects it where a batch may be refused",
        "judge_model",
        "self.first(side, *((False, it) for it in order))",
        "None",
    ),
    Wrong(
        "null is for what may have it, though a content couldn't be read",
        "judge_model",
        "return self.refuses(side, entry) or (self.may_refuse(entry) and has_unreadable)",
        "return self.refuses(side, entry)",
    ),
    Wrong(
        "a broken answer may be for a content that couldn't be read",
        "judge_model",
        "(self.may_refuse(entry) and has_unreadable)",
        "has_unreadable",
    ),
    Wrong(
        "an answer in an array may be for a content that is refused whole",
        "judge_model",
        "is_unsure = not in_array and self.is_unsure(side, entry)",
        "is_unsure = self.is_unsure(side, entry)",
    ),
    Wrong("all readers take one depth more", "judge_reading", "SAFE_DEPTH = 31", "SAFE_DEPTH = 32"),
    Wrong("some reader takes one depth less", "judge_reading", "SAFE_DEPTH = 31", "SAFE_DEPTH = 30"),
    Wrong(
        "a notification that nests deep may be refused",
        "judge_reading",
        'it.kind == "request" and depth_of(part)',
        "depth_of(part)",
    ),
    Wrong("a length that is no number may be too long", "judge_reading", "and is_long(self.cutter.rest)", "and True"),
    Wrong("a length that is too long is none", "judge_reading", "and is_long(self.cutter.rest)", "and False"),
    Wrong("a long length has anything in it", "judge_reading", 'rb"[0-9]{11,}"', 'rb"[0-9].{10,}"'),
    Wrong("an id that is open in a batch may not be used", "judge_model", "elif not is_in_batch and any(", "elif any("),
    Wrong("-32604 is defined", "judge_rules", "range(-32603, -32599)", "range(-32604, -32599)"),
    Wrong(
        "an answer after its cancel isn't told",
        "judge_model",
        "if self.rules.cancel_settles and owed.is_cancelled",
        "if False",
    ),
    Wrong("each request counts as cancelled", "judge_model", "is_cancelled = any(", "is_cancelled = True or any("),
    Wrong(
        "a cancel may name a fraction",
        "judge_model",
        "(isinstance(id_, Decimal) and id_.is_whole)",
        "isinstance(id_, Decimal)",
    ),
    Wrong("a request that couldn't be read was never used", "judge_model", "and not its.has_unreadable", ""),
    Wrong(
        "a result may be without an id",
        "judge_reading",
        '"error" in members and not {"id", "result"} & {*members}',
        '"id" not in members',
    ),
    Wrong("an error beside a result may be without an id", "judge_reading", '{"id", "result"} &', '{"id"} &'),
    Wrong(
        "an error without an id settles nothing",
        "judge_model",
        "is_without = self.rules.leaves_ids_out and answer.entry.lacks_id",
        "is_without = False",
    ),
    Wrong(
        "a cancel without an id may have any reason",
        "judge_model",
        'isinstance(members.get("reason", ""), str)',
        "True",
    ),
    Wrong("a cancel of null names none", "judge_model", 'and "requestId" not in members', ""),
    Wrong(
        "each version of MCP has batches or none",
        "judge_rules",
        'name="mcp:2024-11-05", batch=NOTE',
        'name="mcp:2024-11-05"',
    ),
    Wrong(
        "an older version may leave ids out", "judge_rules", "ids_once=True,\n", "ids_once=True, leaves_ids_out=True,\n"
    ),
    Wrong(
        "params may be an array by any rules",
        "judge_model",
        'self.find(side, "params-object", MUST, place, words)',
        "pass",
    ),
    Wrong("no params may be an array", "judge_rules", "has_objects: bool = False", "has_objects: bool = True"),
    Wrong(
        "by the first version params and results may be any",
        "judge_rules",
        'name="mcp:2024-11-05", batch=NOTE',
        'name="mcp:2024-11-05", batch=NOTE, has_objects=False',
    ),
    Wrong(
        "by the version with batches params and results may be any",
        "judge_rules",
        'name="mcp:2025-03-26", batch=None',
        'name="mcp:2025-03-26", batch=None, has_objects=False',
    ),
    Wrong(
        "by the newest version params and results may be any",
        "judge_rules",
        'name="mcp", leaves_ids_out=True',
        'name="mcp", leaves_ids_out=True, has_objects=False',
    ),
    Wrong(
        "a notification may have an array",
        "judge_model",
        'entry.kind in ("request", "notification") and reading.is_array',
        'entry.kind == "request" and reading.is_array',
    ),
    Wrong(
        "a request may have an array",
        "judge_model",
        'entry.kind in ("request", "notification") and reading.is_array',
        'entry.kind == "notification" and reading.is_array',
    ),
    Wrong(
        "an invalid entry may have no array",
        "judge_model",
        'entry.kind in ("request", "notification") and reading.is_array',
        "reading.is_array",
    ),
    Wrong("an object is an array", "judge_model", "reading.is_array(entry.params)", "isinstance(entry.params, list)"),
    Wrong(
        "an empty array is none",
        "judge_model",
        "reading.is_array(entry.params)",
        "reading.is_array(entry.params) and entry.params",
    ),
    Wrong(
        "a cancel with an array is told twice",
        "judge_model",
        "reading.is_array(entry.params) and not self.is_cancel(entry)",
        "reading.is_array(entry.params)",
    ),
    Wrong(
        "a request that has a cancel's name is one",
        "judge_model",
        'return entry.kind == "notification" and self.rules.cancel',
        "return self.rules.cancel",
    ),
    Wrong(
        "what is named like any protocol's cancel may have an array",
        "judge_model",
        "and not self.is_cancel(entry)",
        'and not self.is_cancel(entry) and entry.method != "$/cancelRequest"',
    ),
    Wrong(
        "the methods of the protocol may have an array",
        "judge_model",
        "and not self.is_cancel(entry)",
        'and not self.is_cancel(entry) and entry.method not in ("initialize", "ping", "notifications/progress")',
    ),
    Wrong(
        "a result may be any by any rules",
        "judge_model",
        'self.find(side, "result-object", MUST, place, words)',
        "pass",
    ),
    Wrong(
        "a result may be null",
        "judge_model",
        "entry.result is not ABSENT and",
        "entry.result is not ABSENT and entry.result is not None and",
    ),
    Wrong(
        "a result may be an array",
        "judge_model",
        "not isinstance(entry.result, Members)",
        "not isinstance(entry.result, list)",
    ),
    Wrong(
        "an answer without a result has none that is an object",
        "judge_model",
        "entry.result is not ABSENT and not isinstance",
        "not isinstance",
    ),
    Wrong(
        "the result of a broken answer is looked at",
        "judge_model",
        'if entry.kind == "answer" and entry.result is not ABSENT',
        "if entry.result is not ABSENT",
    ),
    Wrong(
        "a cancel makes no array a guess",
        "judge_model",
        "        self.sides[side].is_guessed |= self.is_guess(side, answers)\n",
        "",
    ),
    Wrong(
        "an array is a guess though nothing was cancelled",
        "judge_model",
        "return self.sides[OTHER[side]].has_cancelled and has_batch",
        "return has_batch",
    ),
    Wrong(
        "the cancel of either side makes an array a guess",
        "judge_model",
        "return self.sides[OTHER[side]].has_cancelled and has_batch",
        "return any(it.has_cancelled for it in self.sides.values()) and has_batch",
    ),
    Wrong("an array is a guess though no batch is open", "judge_model", "and has_batch and has_id", "and has_id"),
    Wrong(
        "what stands alone is a batch",
        "judge_model",
        "has_batch = any(it.is_batch for it in self.sides[side].dues)",
        "has_batch = bool(self.sides[side].dues)",
    ),
    Wrong(
        "only a batch with entries is one",
        "judge_model",
        "has_batch = any(it.is_batch for it in self.sides[side].dues)",
        "has_batch = any(it.is_batch and it.entries for it in self.sides[side].dues)",
    ),
    Wrong(
        "only behind the cancel of what stands in a batch an array is a guess",
        "judge_model",
        "has_batch = any(it.is_batch for it in self.sides[side].dues)",
        "has_batch = any(it.is_batch and any(one.is_cancelled for one in it.entries) for it in self.sides[side].dues)",
    ),
    Wrong(
        "an array without an id that can be read is a guess", "judge_model", "and has_batch and has_id", "and has_batch"
    ),
    Wrong(
        "an id that can't be read keeps an array from being a guess",
        "judge_model",
        "has_id = any(it.entry.id is not ABSENT",
        "has_id = all(it.entry.id is not ABSENT",
    ),
    Wrong(
        "an array of nulls is no guess",
        "judge_model",
        "has_id = any(it.entry.id is not ABSENT",
        "has_id = any(it.entry.id is not ABSENT and it.entry.id is not None",
    ),
    Wrong(
        "behind a cancel each array is a guess",
        "judge_model",
        "and has_id and self.just(side, answers) is None",
        "and has_id",
    ),
    Wrong(
        "an array that fits a batch is no guess",
        "judge_model",
        "and has_id and self.just(side, answers) is None",
        "and has_id and self.batch_of(side, answers) is None",
    ),
    Wrong(
        "only an array that fits a batch is a guess",
        "judge_model",
        "and has_id and self.just(side, answers) is None",
        "and has_id and self.just(side, answers) is None and self.batch_of(side, answers) is not None",
    ),
    Wrong(
        "just these ids are expected, however often",
        "judge_model",
        "ids and Counter(it.expected for it in due.entries if it.expected is not ABSENT) == ids",
        "ids and {it.expected for it in due.entries if it.expected is not ABSENT} == {*ids}",
    ),
    Wrong(
        "the oldest batch alone is looked at",
        "judge_model",
        "                return due\n        return None\n\n    # Settling",
        "                return due\n            if due.is_batch:\n                return None\n        return None\n\n    # Settling",
    ),
    Wrong(
        "by any rules a cancel makes an array a guess",
        "judge_model",
        "            self.sides[side].has_cancelled |= self.rules.cancel_settles\n            self.take_cancel(",
        "            self.sides[side].has_cancelled = True\n            self.take_cancel(",
    ),
    Wrong(
        "a cancel makes no array a guess but by the members that stand first",
        "judge_model",
        "            self.sides[side].has_cancelled |= self.rules.cancel_settles\n            self.take_cancel(",
        "            self.take_cancel(",
    ),
    Wrong(
        "a cancel makes no array a guess by the members that stand first",
        "judge_model",
        "            self.sides[side].has_cancelled |= self.rules.cancel_settles\n            self.cancel_all(",
        "            self.cancel_all(",
    ),
    Wrong(
        "a cancel that names nothing makes no array a guess",
        "judge_model",
        "self.sides[side].has_cancelled |= self.rules.cancel_settles\n            self.take_cancel(",
        "self.sides[side].has_cancelled |= self.rules.cancel_settles and self.target_of(entry.params) is not ABSENT\n"
        "            self.take_cancel(",
    ),
    Wrong(
        "what an array itself breaks that is a guess is accused",
        "judge_model",
        "        self.sides[side].is_guessed |= self.is_guess(side, answers)\n",
        "        self.sides[side].is_guessed |= bool(vars(self).pop(side, False))\n"
        "        vars(self)[side] = self.is_guess(side, answers)\n",
    ),
    Wrong(
        "a guess is about its array alone",
        "judge_model",
        "self.sides[side].is_guessed |= self.is_guess(side, answers)",
        "self.sides[side].is_guessed = self.is_guess(side, answers)",
    ),
    Wrong(
        "a guess is about both sides",
        "judge_model",
        "is_broken or self.sides[side].is_guessed else",
        "is_broken or any(it.is_guessed for it in self.sides.values()) else",
    ),
    Wrong(
        "an answer that fits nothing is accused behind a guess",
        "judge_model",
        "level = NOTE if unreadable is not None else self.or_note(side, MUST)",
        "level = NOTE if unreadable is not None or any(it.stream.is_over for it in self.sides.values()) else MUST",
    ),
    Wrong(
        "what isn't answered is accused behind a guess",
        "judge_model",
        "NOTE if is_note else self.or_note(side, MUST), owed.place",
        "NOTE if is_note or any(it.stream.is_over for it in self.sides.values()) else MUST, owed.place",
    ),
    Wrong(
        "an answer that comes singly is accused behind a guess",
        "judge_model",
        'self.find(side, "not-as-array", self.or_note(side, SHOULD), answer.place, answer.words)',
        'self.find(side, "not-as-array", SHOULD, answer.place, answer.words)',
    ),
    Wrong(
        "what stands among the answers of an array is accused behind a guess",
        "judge_model",
        'if not are_alone and is_well:\n                self.find(side, "not-as-array", self.or_note(side, SHOULD), place)',
        'if not are_alone and is_well:\n                self.find(side, "not-as-array", SHOULD, place)',
    ),
    Wrong(
        "an array that is no batch's is accused behind a guess",
        "judge_model",
        'self.find(side, "not-as-array", self.or_note(side, SHOULD), place)\n                is_told = True',
        'self.find(side, "not-as-array", SHOULD, place)\n                is_told = True',
    ),
    Wrong("a content may nest one more", "judge_reading", "if len(closers) == DEPTH:", "if len(closers) == DEPTH + 1:"),
    Wrong("what is wrong before the depth isn't seen", "judge_reading", "        loaded(front)\n", ""),
    Wrong(
        "an error beside a result is looked into",
        "judge_reading",
        "if has_error and not has_result and",
        "if has_error and",
    ),
    Wrong(
        "null params are none",
        "judge_reading",
        'if "params" in value and not',
        'if value.get("params") is not None and not',
    ),
    Wrong(
        "a code with a point is no code",
        "judge_reading",
        "isinstance(code, Number) and decimal_of(code.text).is_whole",
        'isinstance(code, Number) and "." not in code.text',
    ),
    Wrong("a blank last line is a content", "framings", "return None if is_blank else", "return"),
    Wrong("an answer needs no id", "judge_reading", '("id" in value or has_result or has_error)', '"id" in value'),
    Wrong(
        "1.0 is written plainly",
        "judge_reading",
        "connection_reading.whole_of(value, WHOLE) is not None",
        "decimal_of(value.text).within(WHOLE) is not None",
    ),
    Wrong(
        "a content in another charset is looked into",
        "judge_reading",
        "    if content.is_foreign:\n",
        "    if False:\n",
    ),
)
