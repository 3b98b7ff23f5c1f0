"""The package is annotated throughout, and is Python 3.8."""
import ast
import glob
import os
import shutil
import subprocess
import sys
import tempfile

from helping import PACKAGE, TOP, Case, patience, rows

FILES = glob.glob(f"{PACKAGE}/bullmyrtle/**/*.py", recursive=True) + glob.glob(
    f"{PACKAGE}/build_backend/*.py"
)
FILES += glob.glob(f"{TOP}/examples/python/*.py")


class Types(Case):
    @rows(FILES)
    def test_it_is_python_3_8(self, file):
        with open(file, encoding="utf-8") as it:
            ast.parse(it.read(), file, feature_version=(3, 8))

    @rows(FILES)
    def test_everything_has_a_docstring(self, file):
        with open(file, encoding="utf-8") as it:
            tree = ast.parse(it.read(), file)
        self.assertTrue(ast.get_docstring(tree), file)
        names = [it for it in tree.body if isinstance(it, (ast.ClassDef, ast.FunctionDef))]
        for it in names if "bullmyrtle/" in file else ():
            if (
                isinstance(it, ast.ClassDef)
                and not it.name.startswith("_")
                and os.path.basename(file)[0] != "_"
            ):
                self.assertTrue(ast.get_docstring(it), f"{file}: {it.name}")
                for part in it.body:
                    if isinstance(part, (ast.FunctionDef, ast.AsyncFunctionDef)) and not part.name.startswith(
                        "_"
                    ):
                        is_property = any(
                            getattr(on, "id", "") in ("property", "overload") for on in part.decorator_list
                        )
                        self.assertTrue(
                            ast.get_docstring(part) or is_property, f"{file}: {it.name}.{part.name}"
                        )

    def test_mypy(self):
        # (this Python's, or the machine's)
        mypy = [sys.executable, "-m", "mypy"]
        if subprocess.run([*mypy, "--version"], capture_output=True, check=False).returncode:
            mypy = ["mypy"]
        if shutil.which(mypy[0]) is None:
            self.skipTest("mypy isn't there: no check of the package's types")
        with tempfile.TemporaryDirectory() as room:
            words = ["--strict", "--cache-dir", room, os.path.join(PACKAGE, "bullmyrtle")]
            ended = subprocess.run([*mypy, *words], capture_output=True, timeout=patience(300), check=False)
        self.assertEqual(ended.returncode, 0, ended.stdout.decode() + ended.stderr.decode())
