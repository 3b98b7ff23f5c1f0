"""What docs/examining.md shows, run as it stands there; and its tables beside those of the package."""
import os
import re
import shlex
import subprocess
import sys

from helping import TOP, InAFolder, environment, patience, ran

from bullmyrtle.examine._command import _parser
from bullmyrtle.examine._inserts import NAMES
from bullmyrtle.examine._outcomes import PARTS
from bullmyrtle.examine._reading import FOLDER, read
from bullmyrtle.examine._verdicts import ENDS

with open(os.path.join(TOP, "docs", "examining.md"), encoding="utf-8") as file:
    PAGE = file.read()
BLOCKS = re.findall(r"^```(\w*)\n(.*?)^```$", PAGE, re.M | re.S)


def first_cells(heading, below=""):
    """The words in code of the first column of a table."""
    table = PAGE.partition(f"\n## {heading}\n")[2].partition("\n## ")[0]
    table = table.partition(below)[2] if below else table
    return [
        word for row in re.findall(r"^\| (`.*?) \|", table, re.M) for word in re.findall(r"`([^`]+)`", row)
    ]


class Page(InAFolder):
    def setUp(self):
        super().setUp()
        for kind, text in BLOCKS:
            if kind == "python":
                self.file(re.match(r"# (\w+\.py)\n", text)[1], text)

    def test_each_command(self):
        os.mkdir(self.file("bin"))
        os.symlink(sys.executable, self.file("bin/python3"))
        path = os.pathsep.join([self.file("bin"), os.environ["PATH"]])
        env, count = environment(PATH=path), 0
        for (kind, text), (_, expected) in zip(BLOCKS, BLOCKS[1:]):
            if kind == "sh":
                ended = ran(["sh", "-c", text], cwd=self.room, env=env)
                self.assertEqual(ended.stdout.decode(), expected, ended.stderr)
                count += 1
        self.assertEqual(count, 1)

    def test_the_test(self):
        words = [sys.executable, "-m", "pytest", "-q", "-p", "no:cacheprovider", "test_server.py"]
        if subprocess.run(
            [sys.executable, "-c", "import pytest"], capture_output=True, check=False
        ).returncode:
            self.skipTest("this Python has no pytest")
        ended = ran(words, cwd=self.room, timeout=patience(240))
        self.assertRegex(ended.stdout.decode(), r"[1-9]\d passed")

    def test_the_cases(self):
        self.file("some.txt", dict(BLOCKS)["text"])
        found = read(self.file("some.txt"))
        self.assertEqual([it.name for it in found], ["the id 0", "the id 2^53 + 1"])

    def test_the_words_for_ci(self):
        (line,) = re.findall(r"^- run: bullmyrtle-examine (.*)$", dict(BLOCKS)["yaml"], re.M)
        options = _parser().parse_args(shlex.split(line))
        self.assertEqual(options.command, ["--", "./my_server"])

    def test_tables(self):
        known = {it for action in _parser()._actions for it in action.option_strings if it.startswith("--")}
        shown = {it.split()[0] for it in first_cells("Options and statuses") if it.startswith("--")}
        self.assertEqual(shown | {"--help"}, known)
        self.assertEqual(first_cells("What is said"), [it for it in ENDS if it != "ok"])
        files = [it for it in first_cells("What is asked") if it.endswith(".txt")]
        self.assertEqual(sorted(files), sorted(os.listdir(FOLDER)))
        outcomes = first_cells("Cases", "| Outcome |")
        self.assertEqual({it.split()[0] for it in outcomes if it[0] != "$"}, set(PARTS))
        self.assertEqual({it[1:] for it in outcomes if re.fullmatch(r"\$[a-z]+", it)}, set(NAMES))
