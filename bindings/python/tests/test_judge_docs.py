"""What docs/judge.md shows, run as it is there; and its tables beside those of the package."""
import itertools
import json
import os
import re
import shlex
import shutil
import stat
import subprocess
import sys
import unittest

from helping import HERE, TOP, InAFolder, environment, ran
from judging import COMMAND

from bullmyrtle.judge import LIFE, PROVED
from bullmyrtle.judge._command import _parser
from bullmyrtle.judge._versions import MCP

PAGE = os.path.join(TOP, "docs", "judge.md")
# A python3 whose judge is the one that the tests run.
PYTHON = """#!/bin/sh
if [ "$1 $2" = "-m bullmyrtle.judge" ]; then
    shift 2
    exec {judge} "$@"
fi
exec {python} "$@"
"""


def text_of(*place):
    with open(os.path.join(TOP, *place), encoding="utf-8") as it:
        return it.read()


def blocks():
    return re.findall(r"^```(\w*)\n(.*?)^```$", text_of("docs", "judge.md"), re.M | re.S)


class Page(InAFolder):
    def setUp(self):
        super().setUp()
        os.mkdir(self.file("bin"))
        judge = " ".join(map(shlex.quote, COMMAND))
        self.file("bin/python3", PYTHON.format(judge=judge, python=shlex.quote(sys.executable)))
        os.chmod(self.file("bin/python3"), stat.S_IRWXU)
        path = os.pathsep.join([self.file("bin"), os.environ["PATH"]])
        self.env = environment(PATH=path, HOME=self.room)

    def run_words(self, words):
        how = {"cwd": self.room, "env": self.env, "stdin": subprocess.DEVNULL}
        return ran(words, stderr=subprocess.STDOUT, **how).stdout.decode()

    def test_each_block(self):
        ran, found = 0, blocks()
        for (kind, text), (after, expected) in zip(found, [*found[1:], ("", "")]):
            if kind == "python":
                self.file(re.match(r"# (\w+\.py)\n", text)[1], text)
            elif kind == "text":
                self.file("talk.record", text)
            elif kind == "sh":
                self.assertEqual(after, "out", text)
                with self.subTest(text):
                    self.assertEqual(self.run_words(["sh", "-c", text]), expected)
                ran += 1
        self.assertGreaterEqual(ran, 2)

    def test_lines_for_neovim(self):
        if shutil.which("nvim") is None:
            self.skipTest("nvim isn't there: no hover as the page has it")
        servers = re.findall(r"^```python\n(.*?)^```$", text_of("docs", "language_servers.md"), re.M | re.S)
        self.file("hover.py", servers[0])
        self.file("start.lua", next(text for kind, text in blocks() if kind == "lua"))
        self.file("notes.txt", "a rose is\na rose\n")
        script = os.path.join(HERE, "editors", "neovim_page.lua")
        self.assertIn(
            "rose: 2 times", self.run_words(["nvim", "--headless", "--clean", "-S", script, "notes.txt"])
        )
        for _ in range(100):  # (nvim doesn't wait for its server)
            if os.path.isfile(self.file("talk.html")) and os.path.getsize(self.file("talk.html")):
                break
            self.run_words(["sleep", "0.1"])
        with open(self.file("talk.html"), encoding="utf-8") as it:
            self.assertIn("textDocument/hover", it.read())

    def test_settings(self):
        """The words for Eglot and for a host of tool servers are a command that the judge reads."""
        found = dict(blocks())
        quoted = re.search(r"text-mode (.*?)\)\)", found["elisp"])[1]
        (server,) = json.loads(found["json"])["mcpServers"].values()
        for words in (shlex.split(quoted), [server["command"], *server["args"]]):
            self.assertEqual(words[:3], ["python3", "-m", "bullmyrtle.judge"])
            self.assertIn("--", _parser().parse_args(words[3:]).command)


def by_version(levels):
    """The levels of a rule in the versions of MCP, in words."""
    runs = [(level, list(its)) for level, its in itertools.groupby(MCP, levels.get)]
    told = []
    for level, its in reversed(runs):
        if level is not None and len(runs) > 1:
            is_newest, is_oldest = its[-1] == MCP[-1], its[0] == MCP[0]
            told.append(
                f"{level} since {its[0]}"
                if is_newest
                else f"{level} before"
                if is_oldest and told
                else f"{level} in {its[-1]}"
            )
    return (runs[0][0] or "") if len(runs) == 1 else ", ".join(told)


class Tables(unittest.TestCase):
    def rows(self, page, columns):
        found = re.findall(r"^\| `([\w-]+)` \|(.*)\|$", page, re.M)
        cells = [(name, [it.strip() for it in rest.split("|")]) for name, rest in found]
        return {name: it for name, it in cells if len(it) == columns}

    def test_life(self):
        rows = self.rows(text_of("docs", "judge.md"), 5)
        self.assertEqual(list(rows), [it.name for it in LIFE])
        for rule in LIFE:
            _, lsp, mcp, what, section = rows[rule.name]
            self.assertEqual((lsp, section), (rule.levels.get("lsp", ""), rule.section), rule.name)
            self.assertEqual(mcp, by_version(rule.levels), rule.name)
            self.assertTrue(what.startswith(rule.what), rule.name)

    def test_proved(self):
        rows = self.rows(text_of("docs", "judge.md"), 4)
        proved = [it for it in PROVED if it.name != "not-judged"]
        self.assertEqual(list(rows), [it.name for it in proved])
        for rule in proved:
            self.assertEqual(rows[rule.name][3], rule.section, rule.name)

    def test_options(self):
        table = text_of("docs", "judge.md").partition("## Options and statuses")[2].partition("\n## ")[0]
        shown = set(re.findall(r"`(--[a-z]+)", table))
        known = {it for action in _parser()._actions for it in action.option_strings if it.startswith("--")}
        self.assertEqual(shown | {"--help", "--contents"}, known)
