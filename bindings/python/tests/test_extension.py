"""The extension in interpreters that end, in several interpreters, in children that are forked, and beside its sources."""
import os
import sys
import unittest

from helping import Case, ran

from bullmyrtle import Connection, _library

USED = """
from bullmyrtle import Connection, InputOver
connection = Connection("lines")
connection.feed(b'{"jsonrpc":"2.0","id":1,"method":"a"}\\n')
[call] = connection.events()
connection.answer(call.number, "[1]")
assert connection.take() == b'{"id":1,"jsonrpc":"2.0","result":[1]}\\n'
connection.end()
try:
    connection.end()
except InputOver:
    pass
"""
INTERPRETERS = f"""
try:
    import _xxsubinterpreters as interpreters
except ImportError:
    import _interpreters as interpreters
used = {USED!r}
exec(used)
for _ in range(3):
    # (one that shares the interpreter's lock)
    try:
        made = interpreters.create("legacy") if hasattr(interpreters, "new_config") else interpreters.create(isolated=False)
    except TypeError:
        made = interpreters.create()
    found = (getattr(interpreters, "run_string", None) or interpreters.exec)(made, used)
    assert found is None, found
    exec(used)
    interpreters.destroy(made)
exec(used)
"""
# (from 3.12 on there are interpreters with a lock of their own)
ISOLATED = """
try:
    import _xxsubinterpreters as interpreters
except ImportError:
    import _interpreters as interpreters
made = interpreters.create("isolated") if hasattr(interpreters, "new_config") else interpreters.create(isolated=True)
code = "try:\\n    from bullmyrtle import Connection\\nexcept ImportError as error:\\n    print(error)"
(getattr(interpreters, "run_string", None) or interpreters.exec)(made, code)
"""
ENDED = """
import sys, threading, time
from bullmyrtle import Connection
connection, large = Connection(content=100_000_000), b"[" + b"1," * 20_000_000 + b"1]"
began = threading.Event()
def read():
    began.set()
    connection.fed(b"Content-Length: %d\\r\\n\\r\\n%s" % (len(large), large), True)
    time.sleep(30)
threading.Thread(target=read, daemon=True).start()
began.wait()
time.sleep(0.05)
"""


class Processes(Case):
    def run_code(self, code):
        return ran([sys.executable, "-c", code])

    def test_several_interpreters(self):
        got = self.run_code(INTERPRETERS)
        if b"No module named" in got.stderr and b"interpreters'" in got.stderr:
            self.skipTest("this Python has no module that makes interpreters")
        self.assertEqual((got.returncode, got.stdout, got.stderr), (0, b"", b""))

    @unittest.skipIf(sys.version_info < (3, 12), "interpreters with locks of their own begin with 3.12")
    def test_an_interpreter_with_its_own_lock(self):
        got = self.run_code(ISOLATED)
        words = "can't be loaded: module bullmyrtle._bullmyrtle does not support loading in subinterpreters\n"
        self.assertTrue(got.stdout.decode().endswith(words), got)

    def test_an_interpreter_that_ends_during_a_long_call(self):
        """(the thread comes back to an interpreter that is no more)"""
        got = self.run_code(ENDED)
        self.assertEqual((got.returncode, got.stdout, got.stderr), (0, b"", b""))

    def test_a_child_goes_on(self):
        with Connection("lines") as connection:
            connection.feed(b'{"jsonrpc":"2.0","id":1,"method":"a"}\n')
            child = os.fork()
            if child == 0:
                [call] = connection.events()
                connection.answer(call.number, "[1]")
                os._exit(len(connection.take()))
            self.assertEqual(os.WEXITSTATUS(os.waitpid(child, 0)[1]), 38)
            self.assertEqual(len(connection.events()), 1)


class Types(Case):
    def test_one_that_isnt_made(self):
        made = _library.extension.Connection.__new__(_library.extension.Connection)
        with self.assertRaisesRegex(Exception, "the connection is closed"):
            made.events()
        made.close()

    def test_made_again(self):
        """(what it held before is given back)"""
        connection = Connection("lines")
        connection.feed(b'{"jsonrpc":"2.0","id":1,"method":"a"}\n')
        connection.__init__("lines")
        self.assertEqual(connection.events(), [])

    def test_what_is_given(self):
        with Connection() as it:
            for call, given in (
                (it.answer, ()),
                (it.answer, (1, "2", 3)),
                (it.answer, ("1",)),
                (it.answer, (1.5,)),
                (it.call, (0,)),
                (it.feed, (5,)),
                (it.feed, ("text",)),
                (it.fed, ("text",)),
                (it.notify, (5,)),
                (it.take, ("x",)),
                (it.cancel, (None,)),
                (it._batch, (1, b"")),
            ):
                with self.subTest(call), self.assertRaises(TypeError):
                    call(*given)
            for named in ({"number": 1, "result": "1", "more": 2}, {"result": "1"}):
                with self.assertRaises(TypeError):
                    it.answer(**named)
            with self.assertRaises(TypeError):
                it.answer(1, number=1)
