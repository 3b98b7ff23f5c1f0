"""The laws that checks/fuzz.py judges by accept right outputs, and refuse outputs that are wrong in one place each; all
are written by hand. And what a stream holds is read as docs/protocol.md says."""
import tomllib

from support import laws
from support import ran
from support import reading
from support import rows
from support.cases import Ran
from support.laws import broken
from support.rows import batch, cancel

TABLE = laws.Table(frozenset({"ask", "two", "note"}), False, {"ask": 1, "two": 2})


def ask(number, id_):
    return '{"jsonrpc":"2.0","method":"ask","params":["param-%d"],"id":%s}' % (number, id_)


def called(number):
    return '{"id":"%d.1","jsonrpc":"2.0","method":"confirm","params":["param-%d"]}' % (number, number)


def reply(key, number):
    return '{"jsonrpc":"2.0","id":"%s","result":"reply-%d"}' % (key, number)


def answer(id_, text):
    return '{"id":%s,"jsonrpc":"2.0","result":["%s"]}' % (id_, text)


def error(id_, code, text):
    return '{"error":{"code":%d,"message":"%s"},"id":%s,"jsonrpc":"2.0"}' % (code, text, id_)


def note(name, number):
    return '{"jsonrpc":"2.0","method":"%s","params":["param-%d"]}' % (name, number)


def ran_of(came, wrote, end="Clean", polls=0):
    """A run's record, with the counts that are right for what came and what was written."""
    messages = [it for it in wrote if '"method"' in it]
    calls = [it for it in messages if '"id"' in it.partition('"method"')[0]]
    numbers = sum(it.count('"method"') for it in came)
    return Ran(end, numbers, len(messages), len(calls), len(wrote) - len(messages), polls, rows.frames(*wrote))


def told(came, wrote):
    coming = laws.Coming(reading.read(rows.frames(*came)), TABLE)
    return coming, laws.told_by(coming, ran_of(came, wrote))


def judged(name, is_well, check):
    """What keeps the laws is accepted, and what doesn't is refused."""
    why = broken(check)
    count.check(f"{'accepted' if is_well else 'refused'}: {name}", (why is None) == is_well, why or "")


def refuses(name, came, wrote):
    judged(name, False, lambda: told(came, wrote))


def accepts(name, came, wrote):
    judged(name, True, lambda: told(came, wrote))


def check_one_run():
    first, second = answer(1, "reply-1"), answer('"1"', "reply-2")
    came = [ask(1, 1), ask(2, '"1"'), reply("2.1", 2), reply("1.1", 1), reply("1.1", 3), reply("3.1", 4), ask(3, 3)]
    calls, last = [called(1), called(2)], error(3, -32000, "No reply")
    accepts("answers in their order", came, [*calls, first, second, called(3), last])
    refuses("answers in the order of their ends", came, [*calls, second, first, called(3), last])
    refuses("an answer is lacking", came, [*calls, first, called(3), last])
    refuses("an answer comes twice", came, [*calls, first, second, second, called(3), last])
    refuses("a number in place of its text", came, [*calls, first, answer(1, "reply-2"), called(3), last])
    refuses("a text in place of its number", came, [*calls, answer('"1"', "reply-1"), second, called(3), last])
    refuses("a reply to another call", came, [*calls, answer(1, "reply-2"), second, called(3), last])
    refuses("a second reply", came, [*calls, answer(1, "reply-3"), second, called(3), last])
    refuses("a reply that came before its request", came, [*calls, first, second, called(3), answer(3, "reply-4")])
    refuses(
        "a reply in a call that is made before",
        came,
        [called(1).replace("param-1", "reply-1"), called(2), first, second, called(3), last],
    )
    refuses("a reply is there, and isn't told", came, [*calls, error(1, -32000, "No reply"), second, called(3), last])
    refuses("another turn", came, [called(1).replace("1.1", "1.2"), called(2), first, second, called(3), last])
    refuses("a call of nobody", came, [*calls, called(9), first, second, called(3), last])
    refuses("a call behind its answer", came, [*calls, first, second, last, called(3)])
    refuses("a withdrawal without a cancel", came, [*calls, rows.withdrawn("1.1"), first, second, called(3), last])
    refuses("more spaces", came, [*calls, first.replace(":", ": ", 1), second, called(3), last])
    refuses("neither a message nor an answer", came, [*calls, '{"jsonrpc":"2.0"}', first, second, called(3), last])


def check_units():
    came = [batch(ask(1, 1), "1", note("nope", 2)), "{", '{"jsonrpc":"2.0","method":"nope","id":2}', note("note", 3)]
    unknown = error(2, -32601, "Method not found")
    right = [called(1), rows.UNREADABLE, unknown]
    whole = batch(error(1, -32000, "No reply"), rows.INVALID)
    accepts("units", came, [right[0], whole, *right[1:], note("log", 3)])
    refuses("a batch in another order", came, [right[0], batch(rows.INVALID, error(1, -32000, "No reply")), *right[1:]])
    refuses("a batch in pieces", came, [right[0], error(1, -32000, "No reply"), rows.INVALID, *right[1:]])
    refuses(
        "a notification is answered", came, [right[0], whole, *right[1:], error("null", -32601, "Method not found")]
    )
    refuses("another error", came, [right[0], whole, rows.INVALID, unknown])
    refuses("a message of a call that no method runs", came, [right[0], note("log", 2), whole, *right[1:]])
    refuses(
        "a reply is used twice",
        [ask(1, 1), reply("1.1", 1)],
        [called(1), note("log", 1).replace('"]', '","reply-1"]'), answer(1, "reply-1")],
    )


def check_reports():
    came, wrote = [ask(1, 1)], [called(1), error(1, -32000, "No reply")]
    coming, right = laws.Coming(reading.read(rows.frames(*came)), TABLE), ran_of(came, wrote, polls=2)
    judged("a report", True, lambda: laws.told_by(coming, right))
    for wrong in ({"end": "Truncated"}, {"numbers": 2}, {"messages": 2}, {"calls": 0}, {"answers": 2}, {"polls": 3}):
        changed = Ran(**{**vars(right), **wrong})
        judged(f"a report with {wrong}", False, lambda: laws.told_by(coming, changed))
        judged(f"cut otherwise, {wrong}", False, lambda: laws.check_cut(right, changed, "eager"))


def check_cancels():
    came = [ask(1, 7), ask(2, '"7"'), cancel(7), reply("1.1", 1), reply("2.1", 2)]
    gone, second = error(7, -32800, "Request cancelled"), answer('"7"', "reply-2")
    coming, plain = told([*came[:2], note("none", 0), *came[3:]], [called(1), called(2), answer(7, "reply-1"), second])
    hit = [called(1), called(2), rows.withdrawn("1.1"), gone, second]
    missed = [called(1), called(2), answer(7, "reply-1"), second]

    def beside(wrote):
        return lambda: laws.check_beside(*told(came, wrote), plain)

    for name, wrote in (
        ("a cancel that hits", hit),
        ("one that comes too late", missed),
        ("one before the first turn", [called(2), gone, second]),
    ):
        judged(name, True, beside(wrote))
    by_text = [called(1), called(2), answer(7, "reply-1"), error('"7"', -32800, "Request cancelled")]
    judged("a cancel of a number takes its text", False, beside(by_text))
    other = [called(1), called(2).replace("confirm", "refuse"), gone, second]
    judged("another message", False, beside(other))
    judged("a message is lacking", False, beside([called(1), gone, second]))
    judged("withdrawn twice", False, beside([*hit[:3], *hit[2:]]))
    judged("a call behind a withdrawal", False, beside([called(2), rows.withdrawn("1.1"), called(1), gone, second]))
    late = [*came[:2], came[3], came[2], came[4]]
    judged("withdrawn, and its reply was there", False, lambda: told(late, hit))

    (coming, told_hit), (_, told_missed) = told(came, hit), told(came, missed)
    judged("a lazy run that cancels nobody", False, lambda: laws.check_lazy(coming, told_missed))
    judged("a lazy run that calls before it cancels", False, lambda: laws.check_lazy(coming, told_hit))
    silent = told(came, [called(2), gone, second])[1]
    judged("a lazy run", True, lambda: laws.check_lazy(coming, silent))
    kept = told(came, [called(1), called(2), gone, second])[1]
    judged("an eager run", True, lambda: laws.check_eager(coming, told_hit, told_hit))
    judged("an eager run that doesn't withdraw", False, lambda: laws.check_eager(coming, kept, kept))
    judged("another pick cancels another", False, lambda: laws.check_eager(coming, told_hit, told_missed))


def check_eager_runs():
    gone = error(2, -32800, "Request cancelled")
    came = [ask(1, 1), ask(2, 2), reply("2.1", 2), cancel(2), reply("1.1", 1)]
    before = [ask(1, 1), ask(2, 2), cancel(2), reply("2.1", 2), reply("1.1", 1)]
    calls, first, second = [called(1), called(2)], answer(1, "reply-1"), answer(2, "reply-2")
    plain = told([*came[:3], note("none", 0), came[4]], [*calls, first, second])[1]
    for name, contents, wrote, is_well in (
        ("a cancel of what is finished and waits", came, [*calls, first, second], True),
        ("what is finished is cancelled", came, [*calls, first, gone], False),
        ("a cancel of what isn't finished", before, [*calls, rows.withdrawn("2.1"), first, gone], True),
        ("what isn't finished isn't cancelled", before, [*calls, first, second], False),
    ):
        judged(name, is_well, lambda: laws.check_cancelled_eagerly(*told(contents, wrote), plain))

    came = [ask(1, 1), batch(reply("1.1", 1), ask(2, 2)), reply("2.1", 2), ask(3, 3), cancel(3)]
    gone, withdrawn = error(3, -32800, "Request cancelled"), rows.withdrawn("3.1")
    second, last = batch(second), [called(3), withdrawn, gone]
    for name, wrote, is_well in (
        ("what a content brings about comes with it", [called(1), first, called(2), second, *last], True),
        ("in any order", [called(1), called(2), first, second, *last], True),
        ("an answer behind a later call", [called(1), called(2), first, called(3), second, withdrawn, gone], False),
        ("a call before an earlier answer", [called(1), called(2), called(3), first, second, withdrawn, gone], False),
    ):
        judged(name, is_well, lambda: laws.check_timely(*told(came, wrote)))


def check_notices():
    came = [note("note", 1).replace("}", ',"id":1}'), note("note", 2)]
    done = '{"id":1,"jsonrpc":"2.0","result":null}'
    begun, ended = note("begun", 1), note("ended", 1)
    plain = told(came, [begun, ended, done, note("begun", 2)])[1]
    for name, wrote, is_well in (
        ("notices of two in another order", [note("begun", 2), begun, ended, done], True),
        ("notices of one in another order", [ended, begun, done, note("begun", 2)], False),
        ("a notice is lacking", [begun, ended, done], False),
        ("a notice comes twice", [begun, ended, done, note("begun", 2), note("begun", 2)], False),
        ("a notice of nobody", [begun, ended, done, note("begun", 2), '{"jsonrpc":"2.0","method":"begun"}'], False),
    ):
        judged(name, is_well, lambda: laws.check_beside(*told(came, wrote), plain))


def check_readings():
    """What the rows of the peer without methods come to, read."""
    for name, given, output, end in rows.ROWS:
        coming = laws.Coming(reading.read(given), laws.Table(frozenset(), False))
        messages = Ran(end or "Clean", 0, 0, 0, 0, 0, output)
        why = broken(lambda: laws.told_by(coming, messages, has_report=False))
        count.check(f"read: {name}", why is None, why or "")


def check_plays():
    """The rows of the peer with methods keep the laws."""
    for name, table, ways, given, output in rows.PLAYS:
        held = tomllib.loads(table)
        known = laws.Table(frozenset(it["name"] for it in held.get("method", [])), bool(held.get("opening")))
        coming = laws.Coming(reading.read(rows.frames(*given)), known)
        why = broken(lambda: laws.told_by(coming, Ran("Clean", 0, 0, 0, 0, 0, rows.frames(*output)), has_report=False))
        count.check(f"a row: {name}, {ways}", why is None, why or "")


count = ran.Count()
for it in (
    check_one_run,
    check_units,
    check_reports,
    check_cancels,
    check_eager_runs,
    check_notices,
    check_readings,
    check_plays,
):
    it()
count.end()
