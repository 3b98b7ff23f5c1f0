"""What docs/python.md, docs/language_servers.md and the package's README show, run as it stands there."""
import os
import re
import shutil
import stat
import subprocess
import sys

from helping import HERE, PACKAGE, TOP, InAFolder, environment, frame, ran, request, rows

PAGE = os.path.join(TOP, "docs", "python.md")
SERVERS = os.path.join(TOP, "docs", "language_servers.md")
RUNNER = '#!/bin/sh\nexec "{python}" "$@"\n'


def blocks_of(file):
    """The fenced blocks of a page: the word behind the fence, and the text."""
    with open(file, encoding="utf-8") as it:
        return re.findall(r"^```(\w*)\n(.*?)^```$", it.read(), re.M | re.S)


class Blocks(InAFolder):
    """A folder in which the blocks of a page are written and run."""

    def setUp(self):
        super().setUp()
        # (python3 is this one)
        os.mkdir(self.file("bin"))
        os.chmod(self.file("bin/python3", RUNNER.format(python=sys.executable)), stat.S_IRWXU)
        path = os.pathsep.join([self.file("bin"), os.environ["PATH"]])
        self.env = environment(PATH=path)

    def run_block(self, text):
        return ran(["sh", "-c", text], cwd=self.room, env=self.env).stdout.decode()

    def run_blocks(self, page, least):
        count = 0
        blocks = blocks_of(page)
        for (kind, text), (after, expected) in zip(blocks, [*blocks[1:], ("", "")]):
            if kind == "python":
                name = re.match(r"# (\w+\.py)\n", text)[1]
                self.file(name, text)
            elif kind == "sh":
                self.assertEqual(after, "out", text)
                with self.subTest(text):
                    self.assertEqual(self.run_block(text), expected)
                count += 1
        self.assertGreater(count, least)


class Page(Blocks):
    def test_each_block(self):
        self.run_blocks(PAGE, 7)

    def test_each_block_of_servers(self):
        self.run_blocks(SERVERS, 3)

    def test_a_hover_in_neovim(self):
        """What a stranger does with the first server of the page: at most ten lines, and a hover."""
        if shutil.which("nvim") is None:
            self.skipTest("nvim isn't there: no hover as the page has it")
        blocks = blocks_of(SERVERS)
        server = next(text for kind, text in blocks if kind == "python")
        own = [it for it in server.splitlines() if it.strip() and not it.startswith("#")]
        self.assertLessEqual(len(own), 10)
        self.file("hover.py", server)
        self.file("start.lua", next(text for kind, text in blocks if kind == "lua"))
        self.file("notes.txt", "a rose is\na rose\n")
        words = [
            "nvim",
            "--headless",
            "--clean",
            "-S",
            os.path.join(HERE, "editors", "neovim_page.lua"),
            "notes.txt",
        ]
        env = {**self.env, "HOME": self.room}
        ended = ran(words, cwd=self.room, env=env, stdin=subprocess.DEVNULL)
        self.assertIn("rose: 2 times", (ended.stdout + ended.stderr).decode())
        self.assertEqual(ended.returncode, 0)

    def test_how_long_the_examples_are(self):
        with open(SERVERS, encoding="utf-8") as it:
            rows = re.findall(r"^\| \[(\w+\.py)\]\(\.\./examples/python/\1\) \| (\d+) \|", it.read(), re.M)
        self.assertEqual(len(rows), 5)
        for name, lines in rows:
            with open(os.path.join(TOP, "examples", "python", name), encoding="utf-8") as it:
                self.assertEqual(len(it.readlines()), int(lines), name)

    def test_the_methods_of_lsp(self):
        """Each method that the layer tells of in the capabilities stands in the page's table."""
        from bullmyrtle.lsp._capabilities import _PROVIDERS, DYNAMIC, NEEDED

        with open(SERVERS, encoding="utf-8") as it:
            table = it.read().partition("## What is done for each method")[2].partition("## Types")[0]
        for name in (*_PROVIDERS, *DYNAMIC, *(it for it in NEEDED if "Files" not in it)):
            last = name.rpartition("/")[2]
            self.assertRegex(table, rf"`(?:\w+/)*{re.escape(last)}`", name)

    @rows([PAGE, SERVERS])
    def test_the_command_that_installs(self, page):
        text = next(text for kind, text in blocks_of(page) if kind == "text")
        *words, folder = text.split()
        self.assertEqual(words, ["pip", "install", "--no-index"])
        self.assertEqual(os.path.normpath(os.path.join(TOP, folder)), PACKAGE)

    def test_the_readme(self):
        ((kind, text),) = blocks_of(os.path.join(PACKAGE, "README.md"))
        self.file("first.py", text)
        self.file("given", frame(request(1, "add", [1, 2])))
        self.assertEqual(
            self.run_block("python3 first.py < given")[-35:], '{"id":1,"jsonrpc":"2.0","result":3}'
        )

    def test_the_map_of_the_modules(self):
        """Each module of the package is named once, and no other."""
        with open(PAGE, encoding="utf-8") as it:
            table = it.read().partition("\n## The modules\n")[2]
        named = {}
        for names, about in re.findall(r"^\| (`.*?) \| (.*) \|$", table, re.M):
            for name in re.findall(r"`(\w+/?)`", names):
                of = re.findall(r"`(\w+)`", about) if name in ("lsp/", "mcp/") else None
                self.assertNotIn(name, named)
                named[name.rstrip("/")] = of
        there = {}
        for it in os.listdir(os.path.join(PACKAGE, "bullmyrtle")):
            folder = os.path.join(PACKAGE, "bullmyrtle", it)
            if it.endswith(".py"):
                there[it[:-3]] = None
            elif os.path.isfile(os.path.join(folder, "__init__.py")):
                files = [one[:-3] for one in os.listdir(folder) if re.fullmatch(r"(?!__).*\.py", one)]
                there[it] = sorted(files) if it in ("lsp", "mcp") else None
        del there["__init__"]
        self.assertEqual({name: it and sorted(it) for name, it in named.items()}, there)

    @rows([PAGE, SERVERS, os.path.join(PACKAGE, "README.md")])
    def test_lines_are_short(self, file):
        with open(file, encoding="utf-8") as it:
            prose = re.sub(r"^```.*?^```$", "", it.read(), flags=re.M | re.S)
        long = [it for it in prose.splitlines() if len(it) > 120 and not it.startswith("|")]
        self.assertEqual(long, [])
