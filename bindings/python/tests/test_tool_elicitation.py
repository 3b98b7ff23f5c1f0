"""What a tool asks a host's user: forms of each version, and pages that are opened (client/elicitation of 2025-11-25)."""
import asyncio
import dataclasses
import enum
import pickle
import sys
import typing
import unittest

from helping import Case, joined, logged, rows
from test_tool_server import Host, fault_of, hosting

from bullmyrtle import Error, Server
from bullmyrtle.mcp import Context, PageElicitation, Titles, ToolClient, ToolServer, UrlElicitationRequired

if sys.version_info < (3, 9):
    raise unittest.SkipTest("Annotated, which has the titles of choices, needs Python 3.9 or later")

VERSIONS = ["2025-06-18", "2025-11-25"]
COLORS = Titles({"r": "Red", "b": "Blue"})
PAGE = "https://example.com/pay"


class Size(enum.Enum):
    SMALL = "s"
    LARGE = "l"


@dataclasses.dataclass
class Wish:
    name: typing.Annotated[str, "your name"]
    count: int = 1
    weight: float = 0.5
    sure: bool = True
    size: Size = Size.SMALL
    color: typing.Annotated[str, COLORS] = "b"


@dataclasses.dataclass
class Several:
    sizes: typing.List[Size] = dataclasses.field(default_factory=list)
    colors: typing.Annotated[typing.List[str], COLORS, "what you like"] = dataclasses.field(
        default_factory=list
    )
    letters: typing.Set[typing.Literal["x", "y"]] = dataclasses.field(default_factory=set)


TITLED = [{"const": "r", "title": "Red"}, {"const": "b", "title": "Blue"}]
WISH = {
    "type": "object",
    "properties": {
        "name": {"type": "string", "description": "your name"},
        "count": {"type": "integer", "default": 1},
        "weight": {"type": "number", "default": 0.5},
        "sure": {"type": "boolean", "default": True},
        "size": {"type": "string", "enum": ["s", "l"], "default": "s"},
        "color": {"type": "string", "oneOf": TITLED, "default": "b"},
    },
    "required": ["name"],
}
SEVERAL = {
    "type": "object",
    "properties": {
        "sizes": {"type": "array", "items": {"type": "string", "enum": ["s", "l"]}},
        "colors": {"type": "array", "items": {"anyOf": TITLED}, "description": "what you like"},
        "letters": {"type": "array", "items": {"type": "string", "enum": ["x", "y"]}},
    },
}


def asking(kind):
    """A server whose tool asks for a form."""
    server = ToolServer("asks")

    @server.tool
    async def ask(context: Context):
        said = await context.elicit("?", kind)
        return [said.action, said.content]

    return server


def called(case, server, host, version="2025-11-25", **capabilities):
    async def main():
        async with hosting(server, host, version, **capabilities):
            return await fault_of(host.call("tools/call", {"name": "ask"}))

    return case.wait(main())


class Forms(Case):
    """Forms: what is asked in each version, and what may be answered."""

    @rows(VERSIONS)
    def test_choices_and_defaults(self, version):
        older = {"type": "string", "enum": ["r", "b"], "enumNames": ["Red", "Blue"], "default": "b"}
        host = Host(elicitation_create={"action": "decline"})
        called(self, asking(Wish), host, version, elicitation={})
        ((method, params),) = host.asked
        color = WISH["properties"]["color"] if version == "2025-11-25" else older
        schema = {**WISH, "properties": {**WISH["properties"], "color": color}}
        self.assertEqual(
            (method, params), ("elicitation/create", {"message": "?", "requestedSchema": schema})
        )

    @rows(VERSIONS)
    def test_choices_of_several(self, version):
        host = Host(elicitation_create={"action": "decline"})
        result = called(self, asking(Several), host, version, elicitation={})
        if version == "2025-11-25":
            self.assertEqual(host.asked[0][1]["requestedSchema"], SEVERAL)
        else:
            self.assertTrue(result["isError"])
            self.assertIn(
                "'sizes': the host's version has no choice of several", result["content"][0]["text"]
            )
            self.assertEqual(host.asked, [])

    def test_what_is_answered(self):
        good = {"name": "a", "count": 2, "color": "r"}
        for kind, content, words in (
            (Wish, good, None),
            (Wish, {}, "result.content lacks name"),
            (Wish, None, "result.content lacks name"),
            (Wish, {**good, "count": "2"}, "result.content.count must be an integer, got string"),
            (Wish, {**good, "color": "g"}, 'result.content.color must be "r" or "b", got "g"'),
            (Several, {"sizes": ["s", "l"], "colors": ["r"]}, None),
            (Several, {"sizes": ["x"]}, 'result.content.sizes[0] must be "s" or "l", got "x"'),
            (
                {"type": "object", "properties": {"a": {"type": "string", "minLength": 2}}},
                {"a": "x"},
                "result.content.a",
            ),
        ):
            host = Host(elicitation_create={"action": "accept", "content": content})
            with self.subTest(kind, content=content), logged() as log:
                result = called(self, asking(kind), host, elicitation={"form": {}})
                text = result["content"][0]["text"]
                if words is None:
                    self.assertNotIn("isError", result)
                else:
                    self.assertTrue(result["isError"])
                    self.assertTrue(text.startswith(f"elicitation/create: {words}"), text)
                self.assertEqual(log.texts, [])

    @rows([{}, {"elicitation": {"url": {}}}])
    def test_hosts_without_forms(self, capabilities):
        host = Host()
        result = called(self, asking(Wish), host, **capabilities)
        self.assertTrue(result["isError"])
        self.assertTrue(result["content"][0]["text"].startswith("the host has no elicitation"))
        self.assertEqual(host.asked, [])

    @rows([typing.Annotated[int, COLORS], typing.Annotated[typing.List[int], COLORS]])
    def test_what_has_no_titles(self, kind):
        def function(it):
            pass

        function.__annotations__["it"] = kind
        with self.assertRaises(TypeError):
            ToolServer("s").tool(function)

    async def test_titles_of_arguments(self):
        server = ToolServer("s")

        @server.tool
        def paint(color: typing.Annotated[str, COLORS]) -> str:
            return color

        async with hosting(server) as host:
            tool = (await host.call("tools/list"))["tools"][0]
            self.assertEqual(
                tool["inputSchema"]["properties"], {"color": {"type": "string", "oneOf": TITLED}}
            )
            for color, has_failed in (("r", False), ("g", True)):
                found = await fault_of(
                    host.call("tools/call", {"name": "paint", "arguments": {"color": color}})
                )
                self.assertEqual(isinstance(found, tuple), has_failed)


class Pages(Case):
    """Pages that a user is asked to open."""

    def server(self):
        server = ToolServer("pays")

        @server.tool
        async def ask(context: Context):
            return (await context.elicit_page("Pay", PAGE, "one")).action

        @server.tool(thread=True)
        def needs(context: Context):
            raise UrlElicitationRequired([PageElicitation("Pay", PAGE, "two")])

        return server

    async def test_a_whole_one(self):
        server, done = self.server(), []
        for agreed, action in (
            (True, "accept"),
            (False, "decline"),
            (None, "decline"),
            ({"action": "cancel"}, "cancel"),
        ):
            seen = []

            async def page(message, url):
                await asyncio.sleep(0)
                seen.append((message, url))
                return agreed

            async with joined(server, ToolClient(page=page, page_done=done.append)) as client:
                await client.initialize()
                self.assertEqual(((await client.call_tool("ask")).text, seen), (action, [("Pay", PAGE)]))
                server.elicitation_complete("other")
                server.elicitation_complete("one")
                server.elicitation_complete("one")
                await client.send_ping()
        # (of the page that was opened, once)
        self.assertEqual(done, ["one"])

    async def test_on_the_wire(self):
        server = self.server()
        host = Host(elicitation_create={"action": "accept"})
        async with hosting(server, host, "2025-11-25", elicitation={"url": {}}), hosting(
            server, Host(), "2025-11-25", elicitation={"url": {}}
        ) as other:
            await host.call("tools/call", {"name": "ask"})
            page = {"mode": "url", "message": "Pay", "url": PAGE, "elicitationId": "one"}
            self.assertEqual(host.asked, [("elicitation/create", page)])
            with self.assertRaises(Error) as caught:
                await host.call("tools/call", {"name": "needs"})
            self.assertEqual(caught.exception.code, -32042)
            self.assertEqual(caught.exception.data, {"elicitations": [{**page, "elicitationId": "two"}]})
            for it in ("one", "two"):
                server.elicitation_complete(it)
            await asyncio.gather(host.call("ping"), other.call("ping"))
            done = "notifications/elicitation/complete"
            self.assertEqual(host.of(done), [{"elicitationId": "one"}, {"elicitationId": "two"}])
            self.assertEqual(other.told, [])

    @rows([("2025-11-25", {"elicitation": {"form": {}}}), ("2025-06-18", {"elicitation": {}})])
    async def test_hosts_that_open_none(self, version, capabilities):
        host = Host()
        async with hosting(self.server(), host, version, **capabilities):
            asked, needed = [await host.call("tools/call", {"name": it}) for it in ("ask", "needs")]
        self.assertEqual(asked["content"][0]["text"], "the host has no elicitation.url")
        self.assertEqual(needed["content"][0]["text"], "Open the pages, and try again")
        self.assertTrue(asked["isError"] and needed["isError"])
        self.assertEqual(host.asked, [])

    async def test_what_a_client_declares_and_answers(self):
        form, page = (lambda message, schema: {}), (lambda message, url: True)
        asked_form = {"message": "?", "requestedSchema": {"type": "object"}}
        asked_page = {"mode": "url", "message": "?", "url": PAGE, "elicitationId": "1"}
        accepted, agreed = {"action": "accept", "content": {}}, {"action": "accept"}
        for given, versions, declared, form_answer, page_answer in (
            ({"elicitation": form}, VERSIONS[::-1], {"form": {}}, accepted, -32602),
            ({"page": page}, VERSIONS[::-1], {"url": {}}, -32602, agreed),
            ({"elicitation": form, "page": page}, VERSIONS[::-1], {"form": {}, "url": {}}, accepted, agreed),
            ({"elicitation": form}, ["2025-06-18"], {}, accepted, -32602),
            ({}, VERSIONS[::-1], None, -32601, -32601),
        ):
            server, seen = Server(framing="lines"), []

            @server.method("initialize")
            def initialize(params):
                seen.append(params["capabilities"].get("elicitation"))
                about = {"capabilities": {}, "serverInfo": {"name": "s", "version": "1"}}
                return {"protocolVersion": params["protocolVersion"], **about}

            server.method("notifications/initialized")(lambda params: None)
            with self.subTest(given=list(given), versions=versions):
                async with joined(server, ToolClient(versions=versions, **given)) as client:
                    await client.initialize()
                    found = []
                    for params in (asked_form, asked_page):
                        try:
                            found.append(await server.session.call("elicitation/create", params))
                        except Error as error:
                            found.append(error.code)
                    self.assertEqual(found, [form_answer, page_answer])
                self.assertEqual(seen, [declared])

    def test_what_is_no_page(self):
        for url in ("javascript:0", "file:///a", "example.com"):
            with self.assertRaises(ValueError):
                PageElicitation("Pay", url)
        error = pickle.loads(
            pickle.dumps(UrlElicitationRequired([PageElicitation("Pay", PAGE, "x")], "words"))
        )
        self.assertEqual((error.message, error.data["elicitations"][0]["elicitationId"]), ("words", "x"))
        self.assertNotEqual(
            PageElicitation("a", PAGE).elicitation_id, PageElicitation("a", PAGE).elicitation_id
        )
