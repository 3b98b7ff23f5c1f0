"""The rules of a session's life: each has rows that keep it, break it, and break it at its border."""
import itertools
import re
from unittest import mock

from helping import frame, request, rows
from judging import FOUND, Case, found_of, rows_of

from bullmyrtle.judge import LIFE, RULES, Talk, _later_mcp, _life_mcp
from bullmyrtle.judge._versions import MCP

SIDES = {">": "client", "<": "server"}
NAMED = re.compile(r".*: (mcp:[0-9-]+)")


def protocols():
    """Each row, with the rules that it is judged by."""
    for file, protocol in (("lsp.txt", "lsp"), ("mcp.txt", "mcp")):
        for name, lines in rows_of(file):
            named = NAMED.fullmatch(name)
            yield (named[1] if named else protocol), name, lines


class Rows(Case):
    def found(self, rules, lines, cut):
        """A row with what is found in it, each line cut into pieces of so many bytes."""
        return [it for it, _ in self.judged(rules, lines, cut)]

    def judged(self, rules, lines, cut=1 << 20):
        """The same, each line with the edition by which it was judged."""
        talk, told = Talk(rules, "lines"), []
        for line in lines:
            if line.startswith("!"):
                continue
            side, text, found = SIDES[line[0]], line[2:], []
            ended = text in ("closed", "failed")
            if ended:
                found = talk.ended(side, text)
            data = b"" if ended else text.encode() + b"\n"
            for at in range(0, len(data), cut):
                found += talk.saw(side, data[at : at + cut])
            told += [(it, talk.edition) for it in (line, *map(found_of, found))]
        talk.close()
        return told

    @rows(protocols())
    def test_rows(self, rules, name, lines):
        self.assertTrue(all(FOUND.fullmatch(it) for it in lines if it.startswith("!")), lines)
        self.assertEqual(self.found(rules, lines, 1 << 20), lines)
        self.assertEqual(self.found(rules, lines, 7), lines)

    @rows(protocols())
    def test_rows_by_no_protocol(self, _, name, lines):
        """By the rules of JSON-RPC alone no rule of a session's life is told."""
        names = {it.name for it in LIFE}
        told = [it.split()[2] for it in self.found("jsonrpc", lines, 1 << 20) if it.startswith("!")]
        self.assertEqual(names.intersection(told), set())

    def test_a_wrong_judge_is_found(self):
        """One for which each method is in all versions."""
        its = [(rules, lines) for rules, name, lines in protocols() if name.split()[0] == "later-version"]
        with mock.patch.object(_life_mcp, "_SINCE", {}):
            self.assertTrue(any(self.found(rules, lines, 1 << 20) != lines for rules, lines in its))

    def test_each_rule_has_rows(self):
        """Of each protocol that has the rule, and by each of its levels; and one of a version that hasn't the rule."""
        shown, levels, without = {}, {}, set()
        for rules, name, lines in protocols():
            rule, shows = name.split()[0], name.split()[1].rstrip(":")
            told = self.judged(rules, lines)
            protocol, edition = rules.partition(":")[0], told[-1][1]
            shown.setdefault((protocol, rule), set()).add(shows)
            if edition not in RULES[rule].levels:
                without.add(rule)
            for line, _ in told:
                found = FOUND.fullmatch(line)
                if found is not None:
                    levels.setdefault((protocol, found[2]), set()).add(found[3])
        for it in LIFE:
            of_mcp = {it.levels[version] for version in MCP if version in it.levels}
            for protocol, wanted in (("lsp", {it.levels.get("lsp")} - {None}), ("mcp", of_mcp)):
                if wanted:
                    self.assertLessEqual(
                        {"kept", "broken", "border"}, shown.get((protocol, it.name), set()), it.name
                    )
                    self.assertLessEqual(wanted, levels[protocol, it.name], it.name)
            if of_mcp and not set(MCP) <= it.levels.keys():
                self.assertIn(it.name, without)

    @rows(protocols())
    def test_broken_rows_break_their_rule(self, _, name, lines):
        rule, shows = name.split()[0], name.split()[1].rstrip(":")
        told = [it.split()[2] for it in lines if it.startswith("!")]
        self.assertIn(rule, RULES, name)
        if shows == "broken":
            self.assertIn(rule, told, name)
        elif shows == "kept":
            self.assertNotIn(rule, told, name)

    @rows(protocols())
    def test_levels_are_the_tables(self, rules, name, lines):
        """(what a row says beside is said where the code has it)"""
        others = {("progress-late", "should"), ("capability", "should"), ("later-version", "note")}
        for line, edition in self.judged(rules, lines):
            it = FOUND.fullmatch(line)
            if it is not None and RULES[it[2]].levels and (it[2], it[3]) not in others:
                self.assertEqual(it[3], RULES[it[2]].levels[edition], name)


class Ends(Case):
    """What a server owes when its session ends."""

    def rules_at_the_end(self, answer):
        talk = Talk("lsp", "frames")
        talk.saw(
            "client", frame(request(1, "initialize", {"capabilities": {}})) + frame(request(2, "shutdown"))
        )
        talk.saw("server", answer)
        talk.ended("client")
        found = [it.rule for it in talk.ended("server")]
        talk.close()
        return found

    def test_what_could_be_read(self):
        told = self.rules_at_the_end(frame({"jsonrpc": "2.0", "id": 1, "result": {"capabilities": {}}}))
        self.assertEqual(told, ["open-at-end"])
        self.assertEqual(self.rules_at_the_end(b""), ["open-at-end"] * 2)

    def test_what_could_not_be_read(self):
        """Behind a broken header there may be answers, which the judge doesn't see."""
        self.assertEqual(self.rules_at_the_end(b"Content-Length 5\r\n\r\n"), [])


class Memory(Case):
    """What is over isn't kept for ever."""

    def talk(self, rules, *lines):
        talk = Talk(rules, "lines")
        for it in lines:
            talk.saw(SIDES[it[0]], it[2:].encode() + b"\n")
        return talk

    def test_tokens(self):
        begun = next(lines for name, lines in rows_of("lsp.txt") if name.startswith("progress-create kept"))[
            :3
        ]
        talk = self.talk("lsp", *begun)
        progress = '{"jsonrpc":"2.0","method":"$/progress","params":{"token":%s,"value":{"kind":"%s"}}}\n'
        create = '{"jsonrpc":"2.0","id":%d,"method":"window/workDoneProgress/create","params":{"token":%d}}\n'
        ask = '{"jsonrpc":"2.0","id":%d,"method":"a","params":{"workDoneToken":"t%d"}}\n'
        for it in range(1, 3_000):
            found = talk.saw("server", (create % (it, it) + progress % (it, "begin")).encode())
            found += talk.saw("client", b'{"jsonrpc":"2.0","id":%d,"result":null}\n' % it)
            found += talk.saw("server", (progress % (it, "end")).encode())
            found += talk.saw("client", (ask % (it, it)).encode())
            found += talk.saw("server", b'{"jsonrpc":"2.0","id":%d,"result":null}\n' % it)
            self.assertEqual(found, [])
        tokens = talk._life._tokens["server"]
        self.assertLessEqual(len(tokens._known), 1_001)
        found = talk.saw("server", (progress % (2_999, "end") + progress % (1, "end")).encode())
        self.assertEqual([it.rule for it in found], ["progress-order", "progress-token"])

    def test_what_a_tool_server_has(self):
        """Tools, tasks and pages: of what comes beyond the bound nothing is told, and nothing kept."""
        begun = next(lines for name, lines in rows_of("mcp.txt") if name.startswith("task-begins kept"))[:3]
        talk, many = self.talk("mcp", *begun), 60
        say = '{"jsonrpc":"2.0","id":%d,%s}\n'
        call = '"method":"tools/call","params":{"name":"n","task":{},"_meta":{"progressToken":%d}}'
        page = (
            '"error":{"code":-32042,"message":"m","data":{"elicitations":[{"url":"u","elicitationId":"%d"}]}}'
        )
        tools = '"result":{"tools":[{"name":"n%d","outputSchema":{}}]}'
        found = []
        with mock.patch.object(_later_mcp, "_MOST", 50):
            for it in range(1, many):
                talk.saw("client", (say % (4 * it, call % it)).encode())
                made = '"result":{"task":{"taskId":"%d","status":"working"}}' % it
                found += talk.saw("server", (say % (4 * it, made)).encode())
                talk.saw(
                    "client", (say % (4 * it + 1, '"method":"tools/call","params":{"name":"n"}')).encode()
                )
                found += talk.saw("server", (say % (4 * it + 1, page % it)).encode())
                listing = '"method":"tools/list","params":{"cursor":"x"}'
                talk.saw("client", (say % (4 * it + 2, listing)).encode())
                found += talk.saw("server", (say % (4 * it + 2, tools % it)).encode())
            done = '{"jsonrpc":"2.0","method":"notifications/elicitation/complete","params":{"elicitationId":"x"}}\n'
            found += talk.saw("server", done.encode())
        life = talk._life
        self.assertEqual(found, [])
        self.assertEqual(
            [len(it) for it in (life._tools._listed, life._tasks["server"]._tasks, life._pages._known)],
            [50] * 3,
        )
        self.assertEqual(sum(it.open for it in life._tokens["server"]._known.values()), 50)

    @rows([(1_000, 1), (1_001, 0)])
    def test_long_names(self, size, count):
        """What they name isn't kept, and nothing is told of it."""
        begun = next(lines for name, lines in rows_of("mcp.txt") if name.startswith("task-begins kept"))[:3]
        name, found = "x" * size, []
        talk = self.talk("mcp", *begun)
        talk.saw("client", b'{"jsonrpc":"2.0","id":1,"method":"tools/list"}\n')
        listed = '{"jsonrpc":"2.0","id":1,"result":{"tools":[{"name":"%s","outputSchema":{}}]}}\n' % name
        talk.saw("server", listed.encode())
        for it, params, result in (
            (2, f'"name":"{name}"', '"content":[]'),
            (3, '"name":"a","task":{}', f'"task":{{"taskId":"{name}","status":"working"}}'),
        ):
            call = '{"jsonrpc":"2.0","id":%d,"method":"tools/call","params":{%s}}\n' % (it, params)
            talk.saw("client", call.encode())
            found += talk.saw("server", ('{"jsonrpc":"2.0","id":%d,"result":{%s}}\n' % (it, result)).encode())
        self.assertEqual([it.rule for it in found], ["tool-output"] * count)
        life = talk._life
        self.assertEqual([len(life._tools._listed), len(life._tasks["server"]._tasks)], [count] * 2)
        talk.close()

    @rows(["null", "7", "[]", "{}", "[[]]", '[{"id":[],"name":{},"type":[],"role":[]}]', '"x"', "true"])
    def test_odd_values(self, it):
        """Members of any type, where MCP has texts and objects, hold nothing up."""
        begun = next(lines for name, lines in rows_of("mcp.txt") if name.startswith("task-begins kept"))[:3]
        talk, count = self.talk("mcp", *begun), itertools.count(1)
        names = "task status taskId mode name tools content messages includeContext arguments _meta".split()
        names += ["elicitationId", "elicitations"]
        member = "{%s}" % ",".join(f'"{name}":{it}' for name in names)
        given = (it, member, f'{{"name":"a","task":{{}},"taskId":"T","messages":[{member}]}}')
        outcomes = [f'"result":{one}' for one in (it, member, f'{{"task":{member}}}')]
        outcomes.append(f'"error":{{"code":-32042,"message":"m","data":{member}}}')
        for side, other, methods in (
            ("client", "server", "tools/list tools/call tasks/get tasks/result tasks/cancel"),
            ("server", "client", "sampling/createMessage elicitation/create tasks/get"),
        ):
            for method, params, outcome in itertools.product(methods.split(), given, outcomes):
                start = f'{{"jsonrpc":"2.0","id":{next(count)},'
                talk.saw(side, f'{start}"method":"{method}","params":{params}}}\n'.encode())
                talk.saw(other, f"{start}{outcome}}}\n".encode())
            for method in ("tasks/status", "elicitation/complete", "cancelled", "progress"):
                notice = f'{{"jsonrpc":"2.0","method":"notifications/{method}","params":{member}}}\n'
                talk.saw(side, notice.encode())
        talk.close()

    def test_methods(self):
        talk = Talk("jsonrpc", "lines")
        for it in range(2_000):
            talk.saw("client", b'{"jsonrpc":"2.0","id":%d,"method":"m%d"}\n' % (it, it))
            talk.saw("server", b'{"jsonrpc":"2.0","id":%d,"result":null}\n' % it)
        its = talk.sides["client"]
        self.assertEqual((len(its.times), its.times["(others)"].answered, its.open), (501, 1_500, {}))

    def test_many_open_requests(self):
        """Their findings at the end take no longer than they are many."""
        talk, many = Talk("jsonrpc", "contents"), 1_000
        for it in range(many):
            talk.saw("client", b'{"jsonrpc":"2.0","id":%d,"method":"m"}' % it)
        found = talk.ended("server")
        self.assertEqual([it.words for it in found], [f"m, id {it}" for it in range(many)])


class Cancels(Case):
    def test_each_request_is_reached_once(self):
        """However many have one id, and however often that is cancelled."""
        talk, many = Talk("mcp", "contents"), 500
        reached = []
        talk._life.cancelled = reached.append
        cancel = b'{"jsonrpc":"2.0","method":"notifications/cancelled","params":{"requestId":7}}'
        for at in range(many):
            talk.saw("client", b'{"jsonrpc":"2.0","id":7,"method":"m%d"}' % at)
            talk.saw("client", b'{"jsonrpc":"2.0","id":7,"method":"n%d"}' % at)
            talk.saw("client", cancel)
            talk.saw("client", cancel)
        talk.close()
        self.assertEqual(
            [it.method for it in reached], [f"{name}{at}" for at in range(many) for name in "mn"]
        )


class Words(Case):
    def test_a_result_is_told_with_its_method(self):
        """(which an answer doesn't have itself)"""
        ask, answer = b'{"jsonrpc":"2.0","id":1,"method":"ping"}', b'{"jsonrpc":"2.0","id":1,"result":7}'
        talk = Talk("mcp", "contents")
        talk.saw("client", ask)
        found = talk.saw("server", answer) + talk.saw("server", answer)
        talk.close()
        told = [it.words for it in found if it.rule == "result-object"]
        self.assertEqual(told, [f"ping: {answer.decode()}", answer.decode()])


class Unsure(Case):
    """Where something couldn't be read, nobody is accused of what may have stood there."""

    def test_behind_what_is_unreadable(self):
        talk = Talk("lsp", "lines")
        first = talk.saw("client", b"{not json}\n")
        self.assertEqual([(it.rule, it.level) for it in first], [("not-json", "must")])
        second = talk.saw("client", b'{"jsonrpc":"2.0","method":"textDocument/didSave"}\n')
        self.assertEqual([(it.rule, it.level) for it in second], [("initialize-first", "note")])


class Cuts(Case):
    """What is found doesn't depend on the pieces in which bytes come, also behind the fault after which the library
    judges no more of a side (docs/judge.md, What isn't judged)."""

    HOVER = b'{"jsonrpc":"2.0","id":2,"method":"textDocument/hover","params":{}}'
    # What comes behind a first message and before a last one, with the rule that it breaks.
    FRAMES = (
        (b"X: 1\r\n\r\n", "head"),
        (b"hello\r\n", "head"),
        (b"Content-Length: 2\n\n{}", "head"),
        (b"Content-Length: 2\r\nfoo\r\n\r\n{}", "head"),
        (b"Content-Length: 2\r\nContent-Length: 2\r\n\r\n{}", "head"),
        (b"Content-Length : 2\r\n\r\n{}", "head"),
        (b": x\r\nContent-Length: 2\r\n\r\n{}", "head"),
        (b"X: \xff\r\nContent-Length: 2\r\n\r\n{}", "head"),
        (b"Content-Length: 2\x0b\r\n\r\n{}", "head"),
        (b"Content-Length: 99\r\n\r\n" + b" " * 97 + b"{}", "not-judged"),
        (b"Content-Length: 00000000002\r\n\r\n{}", "not-judged"),
        (b"X: %s\r\nContent-Length: 2\r\n\r\n{}" % (b"a" * 4_096), "not-judged"),
    )
    LINES = ((b'{"jsonrpc":"2.0","method":"a","params":["%s"]}\n' % (b"a" * 60), "not-judged"),)
    # What is unreadable, while judging goes on.
    ON = (
        (b'Content-Length: 8\r\n\r\n"\\ud800"', "not-judged"),
        (b"Content-Length: 2\r\n\r\n{x", "not-json"),
        (b"Content-Length: 2\r\nContent-Type: a; charset=latin1\r\n\r\n{}", "charset"),
    )

    def found(self, rules, framing, side, pieces):
        """What is found, without how much of a message is quoted, and without what was seen of the side."""
        talk, found = Talk(rules, framing, 80), []
        for it in pieces:
            found += talk.saw(side, it)
        found += talk.ended("client") + talk.ended("server")
        its = talk.sides[side]
        talk.close()
        return [it._replace(words="") for it in found], its.messages, its.is_unsure

    def check(self, rules, framing, message, fault, rule, messages):
        data = message + fault + message
        for side in ("client", "server"):
            whole = self.found(rules, framing, side, [data])
            with self.subTest(fault=fault[:60], side=side):
                self.assertIn(rule, [it.rule for it in whole[0]])
                self.assertEqual(whole[1:], (messages, True))
                for at in range(len(message), len(message) + len(fault) + 2):
                    if at < 200 or at > len(data) - 100:
                        self.assertEqual(self.found(rules, framing, side, [data[:at], data[at:]]), whole, at)
                bytes_ = [data[at : at + 1] for at in range(len(data))]
                self.assertEqual(self.found(rules, framing, side, bytes_), whole)

    def test_frames(self):
        message = b"Content-Length: %d\r\n\r\n%s" % (len(self.HOVER), self.HOVER)
        for fault, rule in self.FRAMES:
            self.check("lsp", "frames", message, fault, rule, 1)
        for fault, rule in self.ON:
            self.check("lsp", "frames", message, fault, rule, 3)

    @rows(LINES)
    def test_lines(self, fault, rule):
        self.check("mcp", "lines", self.HOVER + b"\n", fault, rule, 1)
