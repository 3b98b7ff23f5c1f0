"""What docs/tools_over_http.md shows, as a stranger runs it, where uvicorn and curl are; and its table of settings."""
import dataclasses
import os
import platform
import re
import shutil
import resource
import signal
import subprocess
import unittest

from helping import PACKAGE, SECONDS, TOP
from test_docs import Blocks, blocks_of
from test_tool_http_served import HAS_UVICORN

from bullmyrtle import _library
from bullmyrtle.mcp import HttpSettings

PAGE = os.path.join(TOP, "docs", "tools_over_http.md")
PORT = "8000"


def install():
    """How the page installs the package."""
    ((_, text),) = [it for it in blocks_of(PAGE) if it[0] == "text"]
    return text


class Shown(Blocks):
    def start(self, name, port, python=None):
        """Starts a script of the page, and gives the port at which it listens."""
        with open(os.path.join(self.room, "python3"), "w", encoding="utf-8") as file:
            file.write(f'#!/bin/sh\nexec "{python or HAS_UVICORN[0]}" "$@"\n')
        os.chmod(file.name, 0o700)
        made = subprocess.Popen(
            [file.name, name], cwd=self.room, env=self.env, stderr=subprocess.PIPE, text=True
        )
        self.addCleanup(self.end, made)
        said = ""
        for line in made.stderr:
            said += line
            found = re.search(r"running on http://127\.0\.0\.1:(\d+)", line)
            if found:
                return made, found.group(1)
        self.fail(said)

    @staticmethod
    def end(made):
        if made.poll() is None:
            made.send_signal(signal.SIGINT)
        made.wait(SECONDS)
        made.stderr.close()

    @unittest.skipUnless(HAS_UVICORN and shutil.which("curl"), "uvicorn or curl isn't installed")
    def test_each_block(self):
        ran, made, port = 0, None, "0"
        blocks = blocks_of(PAGE)
        for (kind, text), (_, expected) in zip(blocks, [*blocks[1:], ("", "")]):
            if kind == "python":
                name = re.match(r"# (\w+\.py)\n", text)[1]
                if "run_http" in text:
                    self.file(name, text.replace(f"run_http({PORT}", "run_http(0"))
                    if made is not None:
                        self.end(made)
                    made, port = self.start(name, port)
                else:
                    self.file(name, text.replace(PORT, port))
            elif kind == "sh":
                with self.subTest(text):
                    said = self.run_block(text.replace(PORT, port))
                    self.assertEqual(said.replace(port, PORT), expected)
                ran += 1
        self.assertEqual(ran, 6)

    def test_the_first_lines(self):
        """A tool is reached in few lines of the reader's own."""
        server = next(text for kind, text in blocks_of(PAGE) if kind == "python")
        own = [it for it in server.splitlines() if it.strip() and not it.startswith("#")]
        self.assertLessEqual(len(own), 10)
        self.assertEqual(len(install().splitlines()), 2)

    @unittest.skipUnless(HAS_UVICORN and shutil.which("curl"), "uvicorn or curl isn't installed")
    def test_a_stranger(self):
        """From the wheel to a tool that curl calls, in an environment that is empty, with the page's own commands."""
        used = resource.getrusage(resource.RUSAGE_CHILDREN)
        before = used.ru_utime + used.ru_stime
        wheels, python = os.path.join(PACKAGE, "build_backend"), HAS_UVICORN[0]
        if subprocess.run([python, "-c", "import venv, ensurepip"], stderr=subprocess.DEVNULL).returncode:
            self.skipTest("it needs the module venv with pip")
        words = [python, "-c", "import sys, wheels; wheels.build_wheel(sys.argv[1])", self.room]
        subprocess.run(
            words, cwd=wheels, check=True, env={**self.env, "BULLMYRTLE_EXTENSION": _library.find()}
        )
        (_, server), (call, said) = self.shown_first()
        self.file("web.py", server.replace(f"run_http({PORT}", "run_http(0"))
        # (there is no network, and uvicorn is Debian's)
        lines = install().replace("-m venv v", "-m venv --system-site-packages v").replace("python3", python)
        lines = lines.replace("install", "install -q --no-index").replace(" uvicorn", "")
        lines = lines.replace("x86_64", platform.machine())
        own = {it: value for it, value in self.env.items() if not it.startswith(("PYTHON", "BULLMYRTLE"))}
        subprocess.run(["sh", "-ec", lines], cwd=self.room, env=own, check=True)
        self.env = {**own, "PATH": os.pathsep.join([os.path.join(self.room, "v", "bin"), own["PATH"]])}
        _, port = self.start("web.py", "0", os.path.join(self.room, "v", "bin", "python3"))
        self.assertEqual(self.run_block(call.replace(PORT, port)), said)
        listed = self.run_block(f"bullmyrtle-mcp http://127.0.0.1:{port}/mcp | head -n 1")
        self.assertEqual(listed, "words 1.0, MCP 2025-11-25\n")
        # (five minutes are for a reader; of the machine it takes little of that, however much else that does)
        used = resource.getrusage(resource.RUSAGE_CHILDREN)
        self.assertLess(used.ru_utime + used.ru_stime - before, 60)

    @staticmethod
    def shown_first():
        """The page's first server, and how curl calls it."""
        blocks = blocks_of(PAGE)
        at = next(at for at, (kind, text) in enumerate(blocks) if kind == "sh" and "curl" in text)
        return next(it for it in blocks if it[0] == "python"), (blocks[at][1], blocks[at + 1][1])

    def test_the_table_of_settings(self):
        with open(PAGE, encoding="utf-8") as file:
            table = file.read().partition("## Settings and limits")[2].partition("## Statuses")[0]
        shown = {}
        for names, defaults in re.findall(
            r"^\| ((?:`\w+`(?:, )?)+) \| ((?:`[^`]*`(?:, )?)+) \|", table, re.M
        ):
            shown.update(zip(re.findall(r"`(\w+)`", names), re.findall(r"`([^`]*)`", defaults)))
        made = HttpSettings()
        wanted = {it.name: getattr(made, it.name) for it in dataclasses.fields(made)}
        wanted = {
            name: getattr(it, "__name__", None) or repr(it).replace("'", '"') for name, it in wanted.items()
        }
        self.assertEqual(shown, wanted)
