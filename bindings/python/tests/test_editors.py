"""Whole sessions of Neovim and of Eglot with language servers of examples/python, where they are installed."""
import json
import os
import shutil
import subprocess
import tempfile

from helping import HERE, TOP, Case, command, environment, rows

EXAMPLES = os.path.join(TOP, "examples", "python")
TEXT = "Roses are red.\nVoilets are are blue.\nThey are.\n"
EDITS = 500


class Editors(Case):
    def session(self, editor, server, *words, **more):
        with tempfile.TemporaryDirectory() as room:
            for name, text in {
                "notes.txt": TEXT,
                "words.txt": "and are blue not red roses they violets",
            }.items():
                with open(os.path.join(room, name), "w", encoding="utf-8") as it:
                    it.write(text)
            env = environment(
                SERVER=json.dumps(command(server)), ROOM=room, HOME=room, EDITS=str(EDITS), **more
            )
            how = {"stdin": subprocess.DEVNULL, "capture_output": True, "timeout": 120, "check": False}
            ended = subprocess.run([editor, *words], cwd=room, env=env, **how)
            said = (ended.stdout + ended.stderr).decode(errors="replace")[-2000:]
        self.assertEqual(ended.returncode, 0, said)
        self.assertIn("a whole session", said)
        self.assertNotIn("FAILED", said)

    def neovim(self, server, script, **more):
        if shutil.which("nvim") is None:
            self.skipTest("nvim isn't there: no session of its client")
        self.session(
            "nvim", server, "--headless", "--clean", "-S", os.path.join(HERE, "editors", script), **more
        )

    def eglot(self, server, script):
        if shutil.which("emacs") is None:
            self.skipTest("emacs isn't there: no session of Eglot")
        words = ["--batch", "--eval", "(require 'eglot)"]
        with tempfile.TemporaryDirectory() as room:
            how = {"stdin": subprocess.DEVNULL, "capture_output": True, "timeout": 120, "check": False}
            if subprocess.run(["emacs", *words], env={**os.environ, "HOME": room}, **how).returncode:
                self.skipTest("emacs has no Eglot")
        self.session("emacs", server, "--batch", "-l", os.path.join(HERE, "editors", script))

    # The server whose messages are all its own

    def test_neovim(self):
        self.neovim(os.path.join(EXAMPLES, "language_server_by_hand.py"), "neovim.lua")

    def test_eglot(self):
        self.eglot(os.path.join(EXAMPLES, "language_server_by_hand.py"), "eglot.el")

    # A LanguageServer: documents, hover, completion, diagnostics, configuration, progress with its cancel, shutdown

    def test_neovim_and_spelling(self):
        self.neovim(os.path.join(EXAMPLES, "spelling_server.py"), "neovim_spelling.lua")

    def test_eglot_and_spelling(self):
        self.eglot(os.path.join(EXAMPLES, "spelling_server.py"), "eglot_spelling.el")

    # The editors' own edits: the server has the buffer's text

    @rows(["unix", "dos"])
    def test_neovims_edits(self, endings):
        server = os.path.join(HERE, "editors", "texts_server.py")
        self.neovim(server, "neovim_edits.lua", ENDINGS=endings)

    def test_eglots_edits(self):
        self.eglot(os.path.join(HERE, "editors", "texts_server.py"), "eglot_edits.el")
