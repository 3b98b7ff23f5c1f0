"""What the package passes to the library's judge is what C sees, and what that gives is what the package tells: by calls
in C that write down what they are given. And the package's tables beside those of the header."""
import ctypes
import os
import shutil
import tempfile

from helping import HERE, Case, extension_of, made_over

from bullmyrtle import BadSettings, NoMemory, _library
from bullmyrtle.judge import PROVED, Finding, Judge, _rules

SAID = """\
open 1 1 1 99 0
saw 1 0 2 255
saw 1 1 0 -1
saw 1 1 3 99
ended 1 0 0
ended 1 1 1
next 1 64
next 1 64
next 1 64
free 1
"""


class Interface(Case):
    def setUp(self):
        if shutil.which("cc") is None:
            self.skipTest("cc isn't there: nothing shows how C sees what the package passes")
        room = tempfile.TemporaryDirectory()
        self.addCleanup(room.cleanup)
        self.said = os.path.join(room.name, "said")
        os.environ["SAID"] = self.said
        self.addCleanup(os.environ.pop, "SAID")
        sources = [os.path.join(HERE, it) for it in ("interface.c", "interface_judge.c")]
        extension = extension_of(room.name, *sources)
        self.kind = made_over(Judge, extension.Judge)
        self.library = ctypes.CDLL(os.path.join(room.name, _library.FILE))

    def read(self):
        with open(self.said, encoding="ascii") as file:
            return file.read()

    def test_it(self):
        judge = self.kind("lsp", "lines", 99)
        judge.saw("client", b"x\xff")
        judge.saw("server", b"")
        with self.assertRaises(NoMemory):
            judge.saw("server", b"abc")
        judge.ended("client", "closed")
        judge.ended("server", "failed")
        found = judge.findings()
        self.assertEqual(judge.findings(), [])
        judge.close()
        judge.close()
        self.assertEqual(self.read(), SAID)
        self.assertEqual(found[0], Finding("server", "unanswered", "note", "client", 1 << 40, 1 << 63, 7))
        self.assertEqual(
            found[69], Finding("server", "not-judged", "note", "server", (1 << 40) + 69, 1 << 63, 7)
        )
        self.assertEqual(len(found), 70)

    def test_no_memory(self):
        with self.assertRaises(NoMemory):
            self.kind("mcp", "contents")
        self.assertEqual(self.read(), "open 1 2 2 0 0\n")

    def test_tables(self):
        self.library.say_tables()
        lines = self.read().splitlines()
        self.assertEqual(lines[-3:], [*_rules.LEVELS])
        names = [it.partition(": ") for it in lines[:-3]]
        self.assertEqual([it[0] for it in names], [it.name for it in PROVED])
        for (name, _, section), rule in zip(names, PROVED):
            # (what isn't judged is no rule of a standard's)
            self.assertEqual(section, "" if name == "not-judged" else rule.section, name)


class BadUse(Case):
    def test_settings(self):
        for ways in (
            ("dap", "lines"),
            ("lsp", "words"),
            ("lsp", "lines", 0),
            ("lsp", "lines", 1 << 40),
            (1, 2),
        ):
            with self.assertRaises(BadSettings):
                Judge(*ways)
