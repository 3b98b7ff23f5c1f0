"""The examiner: how cases are read, filled and compared, and the command with its outputs, statuses and bad use."""
import os
import re
import shlex
import signal
import subprocess
import sys
import time
import xml.etree.ElementTree

from helping import HERE, SECONDS, InAFolder, a_port, environment, patience, ran, rows

from bullmyrtle.examine import BadCase, _files
from bullmyrtle.examine._inserts import bytes_of, content_of
from bullmyrtle.examine._outcomes import Came, State, fits, outcome_of
from bullmyrtle.examine._process import MARK
from bullmyrtle.examine._reading import read, read_all
from bullmyrtle.judge._streams import read as read_message

PEER = [sys.executable, "-S", "-E", os.path.join(HERE, "faulty_peer.py")]
COMMAND = [sys.executable, "-m", "bullmyrtle.examine", "--seconds", f"{patience(5)}"]
ONE = ["--only", "a session begins"]
KEYS = "rules: lsp\nsides: server\nsection: S\nrule: r\n\n"


class Language(InAFolder):
    def refused(self, text, why):
        with self.assertRaises(BadCase) as told:
            read(self.file("some.txt", text))
        self.assertIn(why, str(told.exception))

    @rows(
        [
            (KEYS + "a\n> {}\n", "some.txt:6: 'a' has no line with <"),
            (KEYS + "a\n> {}\n< nothng\n", "some.txt:8: 'nothng' isn't"),
            (KEYS + "a\n> {}\n< error -32601\n", "some.txt:8: 'error -32601': error needs an id"),
            (KEYS + "a\n> {}\n< nothing id 7\n", "some.txt:8: 'nothing id 7': nothing has no id"),
            (KEYS + "a\n> {}\n< response -5 id 7\n", "some.txt:8: 'response -5 id 7': numbers are codes"),
            (KEYS + "a\n> $name\n< nothing\n", "some.txt:7: $name stands for nothing"),
            (KEYS + "a $x\n| x | y |\n| 1 |\n> {}\n< nothing\n", "some.txt:8: 1 cells, and the table has 2"),
            (KEYS + "a\nsend {}\n< nothing\n", "some.txt:7: expected >, >>"),
            (KEYS + "a\ncut 0\n< nothing\n", "some.txt:7: expected >, >>"),
            (KEYS + "a\nstart: late\n< nothing\n", "some.txt:6: start must be of agreed"),
            (KEYS + "a\nelse: bad\n< nothing\n", "some.txt:6: else must be of must"),
            ("rules: lsp\nand so on\n", "some.txt:2: expected one of rules, sides"),
            ("rules: lsp\n\na\n< nothing\n", "some.txt:3: 'a' has no sides"),
            (KEYS.replace("lsp", "ftp") + "a\n< nothing\n", "some.txt:6: rules must be of jsonrpc"),
        ]
    )
    def test_what_is_wrong_is_named_with_its_line(self, text, why):
        self.refused(text, why)

    def test_a_name_stands_once(self):
        self.file("one.txt", KEYS + "a\n< nothing\n")
        self.file("two.txt", KEYS + "a\n< nothing\n")
        with self.assertRaisesRegex(BadCase, "two.txt:6: 'a' is the name of a case at one.txt:6 too"):
            read_all(self.room)

    def test_a_table_makes_a_case_of_each_row(self):
        text = KEYS + 'the id $name\n| name | id |\n| 0 | 0 |\n| a | "a" |\n> {"id":$id}\n< response id $id\n'
        first, second = read(self.file("some.txt", text))
        self.assertEqual((first.name, second.name), ("the id 0", "the id a"))
        self.assertEqual(second.steps[0].text, '{"id":"a"}')
        self.assertEqual(
            (second.outcomes[0].parts[0].id, second.level, second.place), ('"a"', "must", "some.txt:6")
        )

    def test_replies(self):
        text = KEYS + "a\nreply x/y: 1\n> {}\nlate x/y: 2\n< nothing\n"
        (case,) = read(self.file("some.txt", text))
        found = [(it.kind, it.text, it.method) for it in case.steps]
        self.assertEqual(found, [("reply", "1", "x/y"), ("message", "{}", ""), ("late", "2", "x/y")])
        self.assertEqual((case.replied, case.is_alone), (("x/y",), True))

    def test_inserts(self):
        for text, data in (
            ('{"a":"$(x * 3)"}', b'{"a":"xxx"}'),
            ("$([ * 2)$(] * 2)", b"[[]]"),
            ("a$(hex ff 00)b", b"a\xff\x00b"),
            ('{"id":$id}', b'{"id":7}'),
            ('"é"', b'"\xc3\xa9"'),
        ):
            self.assertEqual(content_of(text, {"id": "7"}), data)
        head = bytes_of(r"Content-Length: $length\r\n\r\n{}", {})
        self.assertEqual(head, b"Content-Length: 2\r\n\r\n{}")
        self.assertEqual(bytes_of(r"A: $length\n\n{} \xff\\", {}), b"A: 5\n\n{} \xff\\")

    def test_outcomes(self):
        error = b'{"jsonrpc":"2.0","id":7,"error":{"code":-32601,"message":"x"}}'
        result = b'{"jsonrpc":"2.0","id":"a","result":{"b":{"c":1,"d":2}}}'
        array = b'[{"jsonrpc":"2.0","id":1,"result":1},{"jsonrpc":"2.0","id":null,"error":{"code":-32600,"message":"x"}}]'
        alive, ended, silent = State("alive"), State("ended", -11), State("silent")
        for text, contents, state, is_right in (
            ("error -32601 id 7", [error], alive, True),
            ("error -32601 -5 id $id", [error], alive, True),
            ("error -32600 id 7", [error], alive, False),
            ('error id "7"', [error], alive, False),
            ("error id 7.0", [error], alive, True),
            ("result id 7", [error], alive, False),
            ("response id 7", [error], alive, True),
            ("response id 7", [error, error], alive, False),
            ("response id 7", [], alive, False),
            ("response id 7", [error], ended, False),
            ("nothing", [], alive, True),
            ("nothing", [error], alive, False),
            ("nothing", [], silent, False),
            ("anything", [error], alive, True),
            ("anything", [], silent, False),
            ("silence", [], silent, True),
            ("end", [], ended, True),
            ("end 0", [], ended, False),
            ("end -11", [], ended, True),
            ('result id "a" has {"b":{"c":1}}', [result], alive, True),
            ('result id "a" has {"b":{"c":true}}', [result], alive, False),
            ('result id "a" has {"e":1}', [result], alive, False),
            ('error -32601 id 7 and result id "a"', [result, error], alive, True),
            ('error -32601 id 7 and result id "a"', [error], alive, False),
            ("array ids [null,1]", [array], alive, True),
            ("array ids [1]", [array], alive, False),
            ("responses ids 7..8", [error, error.replace(b"7", b"8")], alive, True),
            ("responses ids 7..8", [error], alive, False),
        ):
            messages = [read_message("server", 1, 0, it) for it in contents]
            came = [Came(tuple(it.entries), it.is_array) for it in messages]
            with self.subTest(text, state=state.how):
                self.assertEqual(fits(outcome_of(text), came, state, {"id": "7"}), is_right)
        self.assertEqual(outcome_of("should: nothing").level, "should")


class Known(InAFolder):
    def test_what_is_known_is_read_back_and_what_is_not_is_named(self):
        place = self.file("known", "examine 1\n# a comment\nmust the id 0\nnote b c\n")
        self.assertEqual(_files.read_known(place), {"the id 0": "must", "b c": "note"})
        for text, why in (
            ("", "line 1: expected 'examine 1'"),
            ("must the id 0\n", "line 1: expected 'examine 1', got 'must the id 0'"),
            ("examine 1\nbad the id 0\n", "line 2: expected a level and the name"),
            ("examine 1\nmust\n", "line 2: expected a level and the name"),
        ):
            with self.subTest(text), self.assertRaisesRegex(_files.NotKnown, why):
                _files.read_known(self.file("known", text))


# A tool server of one version, for which an array is no message.
OF_ONE = """
import json, sys
agreed = {"protocolVersion": sys.argv[1], "capabilities": {}, "serverInfo": {"name": "one", "version": "1"}}
for line in sys.stdin:
    asked = json.loads(line)
    if isinstance(asked, list):
        answer = {"id": None, "error": {"code": -32600, "message": "Invalid Request"}}
    elif "id" not in asked:
        continue
    elif asked["method"] == "initialize":
        answer = {"id": asked["id"], "result": agreed}
    elif asked["method"] == "ping":
        answer = {"id": asked["id"], "result": {}}
    else:
        answer = {"id": asked["id"], "error": {"code": -32601, "message": "Method not found"}}
    print(json.dumps({"jsonrpc": "2.0", **answer}), flush=True)
"""


class Commands(InAFolder):
    def ran(self, *words, server=(), status=None, **more):
        command = [*COMMAND, *words, *(["--", *server] if server else [])]
        ended = ran(command, **{"env": environment(ROOM=self.room), "cwd": self.room, **more})
        if status is not None:
            self.assertEqual(ended.returncode, status, ended.stdout + ended.stderr)
        return ended.stdout.decode(), ended.stderr.decode()

    def left(self):
        """What an examiner has started and runs on."""
        found = []
        for name in os.listdir("/proc"):
            try:
                with open(f"/proc/{name}/environ", "rb") as it:
                    data = it.read()
            except OSError:
                continue
            if MARK.encode() in data and f"ROOM={self.room}".encode() in data.split(b"\0"):
                found.append(name)
        return found

    def check_none_left(self):
        """Nothing that an examiner has started runs on. (What was killed may take a moment.)"""
        end = time.monotonic() + patience(20)
        while self.left() and time.monotonic() < end:
            time.sleep(0.02)
        self.assertEqual([], self.left())

    def test_a_right_server(self):
        said, _ = self.ran(*ONE, server=[*PEER, "server", "lsp"], status=0)
        self.assertEqual(
            said.split(" in ")[0], "0 must, 0 should, 0 note, 0 slow, 0 not tried, 1 ok of 1 cases"
        )

    def test_a_finding_is_shown_with_the_command_that_repeats_it(self):
        server = [*PEER, "server", "lsp", "unknown-is-internal"]
        said, _ = self.ran("--only", "request with params []", server=server, status=1)
        self.assertRegex(
            said, r"^must      an unknown request with params \[\] \(JSON-RPC 5.1\): the error -32603"
        )
        self.assertIn(
            '    client: Content-Length: 66\\r\\n\\r\\n{"jsonrpc":"2.0","id":1007,"method":"examine/unknown"',
            said,
        )
        self.assertIn(
            f"    again: python3 -m bullmyrtle.examine --rules lsp --frames --seconds {patience(5)} "
            "--only 'an unknown request",
            said,
        )
        self.assertIn("must        1 × a request with a method that isn't there is answered by -32601", said)

    def test_levels(self):
        server = [*PEER, "server", "jsonrpc", "no-json-is-silent"]
        words = ["--rules", "jsonrpc", "--only", "a content that is a word"]
        self.ran(*words, server=server, status=0)
        self.ran(*words, "--level", "should", server=server, status=1)

    def test_the_version_that_was_agreed_on(self):
        """What it alone has is asked by plain "mcp", and the command that repeats a case names it."""
        server = [sys.executable, "-c", OF_ONE]
        only = ["--rules", "mcp", "--only", "a batch of an array"]
        said, _ = self.ran(*only, server=[*server, "2025-11-25"], status=0)
        self.assertIn("1 not tried, 0 ok of 1 cases", said)
        self.assertNotIn("must ", said.splitlines()[0])
        said, _ = self.ran(*only, server=[*server, "2025-03-26"], status=1)
        self.assertIn("again: python3 -m bullmyrtle.examine --rules mcp:2025-03-26 --lines", said)
        for rules, count in (("mcp", 1), ("mcp:2025-03-26", 1), ("mcp:2025-06-18", 0)):
            words = ["--rules", rules, "--only", "a batch of an array", "--level", "note"]
            _, told = self.ran(*words, server=[*server, "2025-03-26"], status=1 if count else 2)
            self.assertEqual("no case has" in told, not count)

    def test_outputs(self):
        server = [*PEER, "server", "jsonrpc", "no-json-ends"]
        words = ["--rules", "jsonrpc", "--only", "a content that is c"]
        said, _ = self.ran(
            *words, "--tap", "--junit", "out.xml", "--report", "out.html", server=server, status=1
        )
        self.assertEqual(said.splitlines()[:2], ["TAP version 13", "not ok 1 - a content that is cut off"])
        self.assertEqual(said.splitlines()[-1], "1..1")
        suite = xml.etree.ElementTree.parse(self.file("out.xml")).getroot()
        self.assertEqual((suite.get("tests"), suite.get("failures")), ("1", "1"))
        failure = suite.find("testcase/failure")
        self.assertEqual((failure.get("type"), "status 3" in failure.get("message")), ("must", True))
        text = self.text("out.html")
        self.assertIn('<b class="must">must</b>', text)
        self.assertNotIn("http", text.replace("http-equiv", ""))

    def test_what_is_known_does_not_count(self):
        server = [*PEER, "server", "jsonrpc", "no-json-ends"]
        words = ["--rules", "jsonrpc", "--only", "a content that is c", "--known", "known"]
        self.ran(*words, "--write-known", server=server, status=0)
        self.assertEqual(self.text("known"), "examine 1\nmust a content that is cut off\n")
        said, _ = self.ran(*words, server=server, status=0)
        self.assertIn("(known)", said)
        said, _ = self.ran(*words, server=[*PEER, "server", "jsonrpc"], status=0)
        self.assertIn("no longer found, and in known: a content that is cut off", said)

    def test_a_list(self):
        said, _ = self.ran("--list", "--only", "the id -3", status=0)
        self.assertEqual(
            said.splitlines(),
            [
                "the id -3",
                "    JSON-RPC 5: a response has the same id as its request",
                '    > {"jsonrpc":"2.0","id":-3,"method":"examine/unknown","params":{}}',
                "    < response id -3",
                "    else: must",
            ],
        )

    def test_a_client(self):
        client = [*PEER, "client", "mcp", "-", "{}"]
        said, _ = self.ran("--rules", "mcp", "--client", "--only", "a ping", server=client, status=0)
        self.assertIn("1 ok of 1 cases", said)
        wrong = [*PEER, "client", "mcp", "ping-is-null", "{}"]
        self.ran("--rules", "mcp", "--client", "--only", "a ping", server=wrong, status=1)

    def test_connected(self):
        code = (
            "import socket, sys; sys.path.insert(0, {!r}); import faulty_peer\n"
            "s = socket.{}\nwhile True:\n    joined = s.accept()[0]\n    try:\n"
            "        faulty_peer.Peer('server', 'lsp', '-', joined.fileno(), joined.fileno()).run()\n"
            "    except SystemExit:\n        joined.close()\n"
        )
        # (its name is there once it listens, and not when it is only bound)
        unix = "socket(socket.AF_UNIX); s.bind('early'); s.listen(); __import__('os').rename('early', 'at')"
        words = ["--jobs", "1", "--only", "the id"]
        with a_port() as port:
            listening = code.format(HERE, f"create_server(('127.0.0.1', {port}))")
            said, _ = self.ran(
                *words, "--connect", f"127.0.0.1:{port}", server=[sys.executable, "-c", listening], status=0
            )
        self.assertRegex(said, r"[1-9]\d ok of")
        started = subprocess.Popen([sys.executable, "-c", code.format(HERE, unix)], cwd=self.room)
        self.addCleanup(started.wait)
        self.addCleanup(started.kill)
        while not os.path.exists(self.file("at")):
            self.assertIsNone(started.poll())
            time.sleep(0.01)
        self.ran(*words, "--connect", self.file("at"), status=0)
        _, why = self.ran("--connect", self.file("nowhere"), status=126)
        self.assertIn("nowhere can't be reached", why)

    def test_random_streams(self):
        server = [*PEER, "server", "jsonrpc", "scalar-ends"]
        words = ["--rules", "jsonrpc", *ONE, "--random", "30", "--seed", "7", "--jobs", "2"]
        said, _ = self.ran(*words, server=server, status=1)
        found = [it for it in said.splitlines() if it.startswith("must") and "made smaller: >" in it]
        self.assertTrue(found, said)
        self.assertLess(min(len(it.partition("made smaller: ")[2]) for it in found), 12, found)
        again = re.search(r"    again: python3 -m bullmyrtle.examine (.* --random 30 --seed 7 .*) -- ", said)
        said, _ = self.ran(*shlex.split(again[1]), server=server, status=1)
        self.assertLessEqual(
            {it.partition("made smaller")[0] for it in found},
            {it.partition("made smaller")[0] for it in said.splitlines()},
        )
        self.ran(*words, server=[*PEER, "server", "jsonrpc"], status=0)

    # Bad use

    def test_the_command_line(self):
        for words, why in (
            ([], "there is a command behind --"),
            (["--only", "nothing of this name", "--", "true"], "no case has"),
            (["--client", "--", "true"], "a client's command has {}"),
            (["--write-known", "--", "true"], "--write-known writes to the file that --known names"),
            (["--jobs", "0", "--", "true"], "must be an integer from 1"),
            (["--seconds", "-1", "--", "true"], "must be a number from 0"),
            (["--seconds", "nan", "--", "true"], "must be a number from 0"),
            (["--junit", "no/where.xml", "--", "true"], "no/where.xml can't be written"),
            (["--known", "nowhere", "--", "true"], "--known: "),
        ):
            with self.subTest(words):
                self.assertIn(why, self.ran(*words, status=2)[1])
        self.file("known", "nothing\n")
        self.assertIn(
            "known, line 1: expected 'examine 1'", self.ran("--known", "known", "--", "true", status=2)[1]
        )

    def test_what_can_not_be_examined(self):
        sleep = f"sleep {patience(100)}"
        # (what ends by itself may be late to do so, and what never answers is waited for ten times as many seconds)
        soon, late = patience(5), 0.2
        for server, seconds, status, why in (
            (["no-such-command"], soon, 127, "no-such-command can't be started"),
            ([self.room], soon, 126, "can't be started"),
            (["true"], soon, 3, "it ended with the status 0 after initialize"),
            (["sh", "-c", "kill -SEGV $$"], soon, 3, "it ended by SIGSEGV"),
            (
                ["sh", "-c", "echo why >&2; exit 4"],
                soon,
                3,
                "with the status 4 after initialize; it said: why",
            ),
            (["sh", "-c", "read it < /dev/tty || echo no terminal >&2"], soon, 3, "no terminal"),
            (["sleep", f"{patience(100)}"], late, 3, "no answer after initialize in 2 s"),
            (["sh", "-c", f"trap '' TERM; {sleep} & wait; {sleep}"], late, 3, "no answer after initialize"),
            (["sh", "-c", f"setsid {sleep} & exit 0"], patience(0.5), 3, "what it started has its output"),
        ):
            with self.subTest(server):
                begun = time.monotonic()
                _, said = self.ran(*ONE, "--seconds", f"{seconds}", server=server, status=status)
                self.assertIn(why, said)
                self.assertLess(time.monotonic() - begun, patience(30))
                self.check_none_left()

    def test_floods(self):
        flood = f"yes >&2 & exec {' '.join(PEER)} server lsp"
        self.ran(*ONE, server=["sh", "-c", flood], status=0)
        self.check_none_left()
        said, why = self.ran(*ONE, server=["yes"], status=1)
        self.assertIn("no session could be agreed on", why)
        self.assertIn("head", said)

    @rows([signal.SIGINT, signal.SIGTERM])
    def test_ctrl_c(self, number):
        started = subprocess.Popen(
            [*COMMAND, "--seconds", f"{patience(60)}", "--", "sleep", f"{patience(1000)}"],
            env=environment(ROOM=self.room),
            cwd=self.room,
            stderr=subprocess.DEVNULL,
        )
        self.addCleanup(started.kill)
        end = time.monotonic() + SECONDS
        while not self.left() and time.monotonic() < end:
            time.sleep(0.05)
        self.assertEqual(len(self.left()), 1)
        started.send_signal(number)
        self.assertEqual(started.wait(SECONDS), -number)
        self.check_none_left()

    def test_ctrl_c_as_a_process_begins(self):
        """It comes before the code that starts the process knows of it."""
        code = (
            "import os, signal, subprocess, sys\n"
            "begin = subprocess.Popen.__init__\n"
            "def begun(*words, **how):\n"
            "    begin(*words, **how)\n"
            "    os.kill(os.getpid(), signal.SIGINT)\n"
            "subprocess.Popen.__init__ = begun\n"
            "from bullmyrtle.examine._command import main\n"
            "sys.exit(main(['--', 'sleep', '1000']) + signal.SIGINT)\n"
        )
        words = [sys.executable, "-c", code]
        ended = ran(words, env=environment(ROOM=self.room), cwd=self.room)
        self.assertEqual(ended.returncode, 0)
        self.check_none_left()

    def test_one_test_a_case(self):
        if subprocess.run(
            [sys.executable, "-c", "import pytest"], capture_output=True, check=False
        ).returncode:
            self.skipTest("this Python has no pytest")
        text = (
            "from bullmyrtle.testing import examined\n"
            f"test_server = examined({[*PEER, 'server', 'jsonrpc', 'no-json-ends']!r}, 'jsonrpc', only='a content that is')\n"
        )
        self.file("test_it.py", text)
        words = [sys.executable, "-m", "pytest", "-q", "-p", "no:cacheprovider", "test_it.py"]
        ended = ran(words, cwd=self.room)
        said = ended.stdout.decode()
        self.assertRegex(said, r"\d+ failed, \d+ passed")
        self.assertIn("a content that is cut off (JSON-RPC 5.1): it ended with the status 3", said)
        self.assertNotIn("a content that is 5 ", said)

    def test_one_test_a_case_of_each_version(self):
        """Those that the agreed version hasn't are skipped."""
        if subprocess.run(
            [sys.executable, "-c", "import pytest"], capture_output=True, check=False
        ).returncode:
            self.skipTest("this Python has no pytest")
        for version, counts in (("2025-11-25", "4 skipped"), ("2025-06-18", "4 passed")):
            command = [sys.executable, "-c", OF_ONE, version]
            text = "from bullmyrtle.testing import examined\n"
            text += f"test_server = examined({command!r}, 'mcp', only='the later request', seconds={patience(20)})\n"
            self.file("test_it.py", text)
            words = [sys.executable, "-m", "pytest", "-q", "-p", "no:cacheprovider", "test_it.py"]
            ended = ran(words, cwd=self.room)
            self.assertIn(counts, ended.stdout.decode())
