"""The package installs offline into a fresh environment, and says clearly where it can't run."""
import contextlib
import hashlib
import importlib
import io
import os
import pathlib
import re
import shlex
import shutil
import sys
import tarfile
import zipfile

from helping import PACKAGE, TOP, InAFolder, frame, messages, ran, request, rows

import bullmyrtle
from bullmyrtle import _library

SERVER = """
import sys, bullmyrtle
from bullmyrtle import Server
server = Server()
server.method("where")(lambda params: [bullmyrtle.__file__, bullmyrtle._library.find()])
sys.exit(server.run())
"""

# Of a wheel: it is for glibc and for musl (PEP 600, PEP 656), and its name has both tags in one.
PROCESSOR = os.uname().machine
TAGS = [f"cp38-abi3-manylinux2014_{PROCESSOR}", f"cp38-abi3-musllinux_1_1_{PROCESSOR}"]
TAG = f"cp38-abi3-manylinux2014_{PROCESSOR}.musllinux_1_1_{PROCESSOR}"
# The begin of an extension's file for other platforms, as their formats have it, and what its wheel is for (PEP 425): its
# tag, its file's name, and its system.
PE = b"MZ" + bytes(58) + (64).to_bytes(4, "little") + b"PE\0\0" + (0x8664).to_bytes(2, "little")
MACH = (0xFEEDFACF).to_bytes(4, "little")
OTHERS = {
    "of Windows": (PE, "win_amd64", "_bullmyrtle.pyd", "Microsoft :: Windows"),
    "of a Mac of Intel's": (MACH + b"\x07\0\0\x01", "macosx_11_0_x86_64", "_bullmyrtle.abi3.so", "MacOS"),
    "of a Mac of Apple's": (MACH + b"\x0c\0\0\x01", "macosx_11_0_arm64", "_bullmyrtle.abi3.so", "MacOS"),
}


def select_module():
    """The file of an extension that isn't ours."""
    return next(
        it.__file__ for it in map(importlib.import_module, ("_json", "_ctypes")) if hasattr(it, "__file__")
    )


class Wheels(InAFolder):
    def setUp(self):
        super().setUp()
        self.env = {
            name: it
            for name, it in os.environ.items()
            if not name.startswith(("PYTHON", "BULLMYRTLE", "PIP"))
        }
        self.env["BULLMYRTLE_EXTENSION"] = self.library = _library.find()

    def run_quietly(self, *words, **more):
        return ran(words, **{"env": self.env, "cwd": self.room, **more})

    def test_it_installs_offline(self):
        python = os.path.join(self.room, "venv", "bin", "python")
        # (this Python's pip does it, since it takes long to put one into the environment)
        pip = [sys.executable, "-m", "pip", "--python", python, "--disable-pip-version-check"]
        made = self.run_quietly(sys.executable, "-m", "venv", "--without-pip", "venv")
        if made.returncode or self.run_quietly(*pip, "list").returncode:
            self.skipTest("it needs the modules venv and pip, from version 22.3 on")
        got = self.run_quietly(*pip, "install", "--no-index", PACKAGE)
        self.assertEqual(got.returncode, 0, got.stdout + got.stderr)
        del self.env["BULLMYRTLE_EXTENSION"]
        got = self.run_quietly(python, "-c", SERVER, given=frame(request(1, "where")))
        where = messages(got.stdout)[0]["result"]
        self.assertEqual(got.returncode, 0, got.stderr)
        for it in where:
            self.assertTrue(it.startswith(os.path.join(self.room, "venv")), it)
        for name, needs in (
            ("examine", b"COMMAND"),
            ("judge", b"COMMAND"),
            ("mcp", b"usage: bullmyrtle-mcp [OPTION"),
        ):
            got = self.run_quietly(os.path.join(self.room, "venv", "bin", f"bullmyrtle-{name}"), "--help")
            self.assertEqual((got.returncode, needs in got.stdout), (0, True), got.stderr)
        self.examine(os.path.join(self.room, "venv", "bin"))
        with open(where[1], "rb") as installed, open(self.library, "rb") as given:
            self.assertEqual(installed.read(), given.read())
        # (nothing is left behind in the sources)
        self.assertFalse({"build", "dist", "bullmyrtle.egg-info"} & set(os.listdir(PACKAGE)))

    def examine(self, folder):
        """What repeats a case can be called as it was, by its place or by its name."""
        words = ["--rules", "jsonrpc", "--only", "a content that is a word", "--", "cat"]
        script = os.path.join(folder, "bullmyrtle-examine")
        path = {**self.env, "PATH": os.pathsep.join([folder, self.env["PATH"]])}
        for called, env in ((script, self.env), ("bullmyrtle-examine", path)):
            got = self.run_quietly("sh", "-c", shlex.join([called, *words]), env=env)
            self.assertIn(f"    again: {called} --rules jsonrpc", got.stdout.decode(), got.stderr)

    def build(self, hook, room):
        sys.path.insert(0, os.path.join(PACKAGE, "build_backend"))
        try:
            wheels = importlib.import_module("wheels")
        finally:
            del sys.path[0]
        before = os.environ.get("BULLMYRTLE_EXTENSION")
        os.environ["BULLMYRTLE_EXTENSION"] = self.library
        try:
            os.makedirs(os.path.join(self.room, room), exist_ok=True)
            return os.path.join(self.room, room, getattr(wheels, hook)(os.path.join(self.room, room)))
        finally:
            del os.environ["BULLMYRTLE_EXTENSION"]
            if before is not None:
                os.environ["BULLMYRTLE_EXTENSION"] = before

    def test_the_wheel(self):
        one, other = self.build("build_wheel", "one"), self.build("build_wheel", "other")
        with open(one, "rb") as first, open(other, "rb") as second:
            self.assertEqual(first.read(), second.read())
        # (a library that isn't the released one has a label in the version)
        label = r"(\+extension\.[0-9a-f]{8})?"
        self.assertRegex(
            os.path.basename(one),
            rf"^bullmyrtle-{re.escape(bullmyrtle.__version__)}{label}-{re.escape(TAG)}\.whl$",
        )
        with zipfile.ZipFile(one) as wheel:
            names = wheel.namelist()
            about = wheel.read(next(it for it in names if it.endswith("METADATA"))).decode()
            commands = wheel.read(next(it for it in names if it.endswith("entry_points.txt"))).decode()
            tags = wheel.read(next(it for it in names if it.endswith("WHEEL"))).decode()
        self.assertEqual(re.findall(r"^Tag: (.*)$", tags, re.M), TAGS)
        top = pathlib.Path(PACKAGE)
        modules = {
            str(it.relative_to(top))
            for it in (top / "bullmyrtle").rglob("*")
            if it.suffix in (".py", ".pyi", ".typed", ".txt")
        }
        self.assertEqual(
            {it for it in names if "dist-info" not in it}, modules | {f"bullmyrtle/{_library.FILE}"}
        )
        self.assertIn("bullmyrtle/py.typed", names)
        self.assertIn("bullmyrtle/lsp/server.py", names)
        # (the same commands that the project's file tells)
        with open(os.path.join(PACKAGE, "pyproject.toml"), encoding="utf-8") as file:
            told = re.search(r"^\[project\.scripts\]\n((?:.+\n)+)", file.read(), re.M)[1]
        self.assertEqual(commands, "[console_scripts]\n" + told.replace('"', ""))
        self.assertNotIn("License", about)
        self.assertIn("Requires-Python: >=3.8", about)
        self.assertTrue(self.build("build_editable", "editable").endswith(".whl"))

    def test_another_library_is_seen(self):
        """A library that the variable names goes into no wheel of the plain version, unless it is the released one."""
        released = os.path.join(TOP, "release", _library.FILE)
        if not os.path.isfile(released):
            self.skipTest(f"{released} isn't there: no wheel with another one than that")
        with open(released, "rb") as it:
            data = it.read()
        for name, more in (("same", b""), ("other", b"1"), ("another", b"2")):
            self.library = os.path.join(self.room, name)
            with open(self.library, "wb") as it:
                it.write(data + more)
            label = f"+extension.{hashlib.sha256(data + more).hexdigest()[:8]}" if more else ""
            version = bullmyrtle.__version__ + label
            with contextlib.redirect_stderr(io.StringIO()) as said:
                wheel = self.build("build_wheel", f"{name}-wheel")
            self.assertEqual(os.path.basename(wheel), f"bullmyrtle-{version}-{TAG}.whl")
            self.assertEqual(self.library in said.getvalue(), bool(more), said.getvalue())
            with zipfile.ZipFile(wheel) as it:
                about = it.read(f"bullmyrtle-{version}.dist-info/METADATA").decode()
            self.assertIn(f"\nVersion: {version}\n", about)
            # (and a wheel that is made of a source distribution with this library is the same)
            got = self.build_of_sources(self.library)
            self.assertEqual(got.stdout.decode().strip(), os.path.basename(wheel), got.stderr)
            with open(os.path.join(self.room, os.path.basename(wheel)), "rb") as again, open(
                wheel, "rb"
            ) as first:
                self.assertEqual(again.read(), first.read())

    @rows(OTHERS)
    def test_an_extension(self, name, other):
        """The wheel is for what the file says that it is for, wherever it is made."""
        data, tag, file, system = other
        self.library = self.file("extension", data + bytes(1000))
        with contextlib.redirect_stderr(io.StringIO()):
            wheel = self.build("build_wheel", "wheel")
        self.assertEqual(wheel.rpartition("-cp38-abi3-")[2], f"{tag}.whl")
        with zipfile.ZipFile(wheel) as it:
            names = it.namelist()
            about = it.read(next(it for it in names if it.endswith("METADATA"))).decode()
            tags = it.read(next(it for it in names if it.endswith("WHEEL"))).decode()
        found = [it for it in names if it.endswith((".so", ".pyd", ".dylib", ".dll"))]
        self.assertEqual(found, [f"bullmyrtle/{file}"])
        self.assertEqual(re.findall(r"^Tag: (.*)$", tags, re.M), [f"cp38-abi3-{tag}"])
        self.assertEqual(re.findall(r"^Classifier: Operating System :: (.*)$", about, re.M), [system])

    def build_of_sources(self, library=None):
        """Makes a wheel of a source distribution, as far from the repository as a stranger is."""
        source = self.build("build_sdist", "sources")
        with tarfile.open(source) as it:
            it.extractall(self.room)
        here = os.path.join(self.room, f"bullmyrtle-{bullmyrtle.__version__}")
        env = {**self.env, "PYTHONPATH": os.path.join(here, "build_backend")}
        del env["BULLMYRTLE_EXTENSION"]
        if library is not None:
            env["BULLMYRTLE_EXTENSION"] = library
        code = "import sys, wheels; print(wheels.build_wheel(sys.argv[1]))"
        return self.run_quietly(sys.executable, "-c", code, self.room, env=env)

    def test_the_source_distribution(self):
        one, other = self.build("build_sdist", "one"), self.build("build_sdist", "other")
        with open(one, "rb") as first, open(other, "rb") as second:
            self.assertEqual(first.read(), second.read())
        top = f"bullmyrtle-{bullmyrtle.__version__}"
        self.assertEqual(os.path.basename(one), f"{top}.tar.gz")
        with tarfile.open(one) as source:
            names = source.getnames()
            data = b"".join(source.extractfile(it).read() for it in names)
        # (it has sources alone, and says what to do for the extension)
        self.assertIn(f"{top}/bullmyrtle/lsp/server.py", names)
        self.assertNotIn(b"\x7fELF", data)
        self.assertIn(b"BULLMYRTLE_EXTENSION=", data)
        got = self.build_of_sources()
        self.assertEqual(got.returncode, 1, got)
        self.assertIn(b"BULLMYRTLE_EXTENSION may name it", got.stderr)

    def loaded(self, change):
        """What is said in another copy of the package, whose extension's file is changed before."""
        top = os.path.join(self.room, "copy")
        shutil.rmtree(top, ignore_errors=True)
        shutil.copytree(os.path.join(PACKAGE, "bullmyrtle"), os.path.join(top, "bullmyrtle"))
        file = os.path.join(top, "bullmyrtle", _library.FILE)
        shutil.copy(self.library, file)
        change(file)
        code = "import bullmyrtle\ntry:\n    bullmyrtle.Connection()\n"
        code += "except ImportError as error:\n    print(type(error).__name__, error)"
        got = self.run_quietly(sys.executable, "-c", code, env={**self.env, "PYTHONPATH": top})
        self.assertEqual(got.returncode, 0, got.stderr)
        said = got.stdout.decode()
        self.assertLessEqual(said.count("\n"), 1)
        return said, file

    def test_without_the_extension(self):
        said, file = self.loaded(os.remove)
        self.assertEqual(said, f"LibraryError {_library.FILE} isn't in {os.path.dirname(file)}\n")

    def test_a_damaged_extension(self):
        with open(self.library, "rb") as it:
            data = it.read()
        for damaged in (b"", b"hello", data[:100], data[: len(data) // 2], data[:-1], b"\0" + data[1:]):
            said, file = self.loaded(lambda it, data=damaged: pathlib.Path(it).write_bytes(data))
            self.assertTrue(said.startswith(f"LibraryError {file} can't be loaded: "), (len(damaged), said))

    def test_an_extension_of_another_version(self):
        said, file = self.loaded(
            lambda it: pathlib.Path(os.path.dirname(it), "_library.py").write_text(
                pathlib.Path(_library.__file__).read_text().replace("MADE_FOR = 1", "MADE_FOR = 7")
            )
        )
        self.assertEqual(
            said, f"LibraryError {file} is of another version: it is made for 1, and this package is 7\n"
        )
        said, file = self.loaded(lambda it: shutil.copy(select_module(), it))
        self.assertTrue(said.startswith(f"LibraryError {file} can't be loaded: "), said)

    @rows(
        [
            ("sys.platform = 'sunos5'", f"this is sunos5 on {PROCESSOR}"),
            ("sys.platform = 'win32'; del os.uname", "this is win32 on another machine"),
            ("os.uname = lambda: type('U', (), {'machine': 'riscv64'})", "this is linux on riscv64"),
            ("sys.maxsize = 2**31 - 1", "with 32 bits"),
        ]
    )
    def test_elsewhere(self, change, words):
        self.env["PYTHONPATH"] = PACKAGE
        code = f"import os, sys\n{change}\ntry:\n    import bullmyrtle\n"
        code += "except ImportError as error:\n    print(error)"
        got = self.run_quietly(sys.executable, "-c", code).stdout.decode()
        self.assertIn("bullmyrtle is for Linux, macOS and Windows on x86-64", got)
        self.assertIn(words, got)
