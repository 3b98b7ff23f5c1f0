"""URIs of resources with parts (RFC 6570 has their templates, RFC 3986 what is encoded): none leads out of a folder."""
import pathlib
import re
import tempfile
import time

from helping import Case, by_the_clock, rows
from tool_wires import table, talking

from bullmyrtle import Error
from bullmyrtle.mcp import ToolServer

NOT_FOUND = None

TABLE = table("templates")
#: A URI, and the part that `doc:///{name}` finds in it: decoded once, since the name of a file may hold a percent sign.
NAMES = TABLE["names"]
#: The same for `doc:///{+path}`.
PATHS = TABLE["paths"]
#: Templates with several parts: a URI, and the parts that are found in it.
OTHERS = TABLE["others"]


def found(template, uri):
    """The parts that a server of this template finds in a URI."""
    server = ToolServer("parts")
    names = ", ".join(re.findall(r"\w+(?=\})", template))
    server.resource(template)(eval(f"lambda {names}: 0"))
    try:
        return server._found(uri)[1]
    except Error:
        return NOT_FOUND


class Templates(Case):
    """server/resources: templates"""

    def test_parts(self):
        self.assertGreaterEqual(len(NAMES), 40)
        found_in = [("doc:///{name}", uri, part and {"name": part}) for uri, part in NAMES]
        found_in += [("doc:///{+path}", uri, part and {"path": part}) for uri, part in PATHS]
        for template, uri, parts in found_in + OTHERS:
            with self.subTest(template, uri=uri):
                self.assertEqual(found(template, uri), parts)

    async def test_a_server_of_a_folder(self):
        """The obvious server, which opens what it is asked for, and each of the tries: none gets at what lies beside."""
        with tempfile.TemporaryDirectory() as room:
            folder = pathlib.Path(room, "docs")
            folder.mkdir()
            (folder / "a.txt").write_text("inside")
            pathlib.Path(room, "secret").write_text("outside")
            server = ToolServer("docs")

            def opened(name):
                try:
                    return (folder / name).read_text()
                except (OSError, ValueError):
                    return "none"

            server.resource("doc:///{name}")(lambda name: opened(name))
            server.resource("path:///{+name}")(lambda name: opened(name))
            # (half of a pair is no JSON, so no message has it)
            tries = [(uri, part) for uri, part in NAMES if "\ud800" not in uri]
            tries += [(uri.replace("doc:", "path:"), part) for uri, part in PATHS]
            async with talking(server) as talk:
                for uri, part in tries:
                    answer = await talk.ask("resources/read", {"uri": uri})
                    with self.subTest(uri):
                        if part is NOT_FOUND:
                            fault = {"code": -32002, "message": "Resource not found", "data": {"uri": uri}}
                            self.assertEqual(answer.get("error"), fault)
                        else:
                            text = answer["result"]["contents"][0]["text"]
                            self.assertEqual(text, "inside" if part == "a.txt" else "none")
                self.assertGreaterEqual(len(tries), 60)

    @rows(
        [
            ("a://{x}/{x}", "two parts of one name"),
            ("a://{+x}/{+y}", "two paths"),
            ("a://{x}-{+y}", "without a slash between"),
            ("a://{x", "parts are {name}, or {+name}"),
            ("a://{?x}", "parts are {name}, or {+name}"),
            ("a://{x*}", "parts are {name}, or {+name}"),
            ("a://{}", "parts are {name}, or {+name}"),
        ]
    )
    def test_what_cannot_be_told_apart(self, uri, words):
        with self.assertRaises(ValueError) as caught:
            ToolServer("bad").resource(uri)
        self.assertIn(words, str(caught.exception))
        self.assertIn(uri, str(caught.exception))

    @by_the_clock
    def test_long_ones(self):
        """A million characters that match no cut of a template: a regular expression would try the square of them, or the cube."""
        for template, uri in (
            ("a://{x}-{y}-{z}", "a://" + "-" * 1_000_000 + "/"),
            ("a://{x}-{y}-{z}!", "a://" + "-" * 1_000_000),
            ("a://{x}{y}{z}!", "a://" + "-" * 1_000_000),
            ("a://{+x}/{y}/{z}!", "a://" + "/a" * 500_000),
            ("a://{x}/b", "a://" + "%41" * 300_000 + "/c"),
        ):
            took = []
            # (whatever else the machine does adds to it)
            while len(took) < 5 and (not took or took[-1] >= 0.5):
                start = time.process_time()
                self.assertIsNone(found(template, uri))
                took.append(time.process_time() - start)
            self.assertLess(min(took), 0.5, template)
