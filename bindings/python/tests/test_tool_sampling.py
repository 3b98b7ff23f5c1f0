"""What a tool asks a host's model, with tools that the model may use (client/sampling of 2025-11-25)."""
import asyncio

from helping import Case, joined, logged, rows
from test_tool_server import Host, hosting
from tool_wires import table

from bullmyrtle import Error, Server
from bullmyrtle.mcp import Context, ToolClient, ToolServer, tool_result, tool_uses

VERSIONS = ["2024-11-05", "2025-03-26", "2025-06-18", "2025-11-25"]
TEXT = {"type": "text", "text": "t"}


def use(id_, name="count", **given):
    return {"type": "tool_use", "id": id_, "name": name, "input": given}


def result(id_, *content):
    return {"type": "tool_result", "toolUseId": id_, "content": list(content)}


def user(*content):
    return {"role": "user", "content": list(content)}


def model(*content, stop="endTurn"):
    return {"role": "assistant", "content": list(content), "model": "m", "stopReason": stop}


def make_server():
    server = ToolServer("agent")

    @server.tool(description="D", title="T")
    def count(text: str) -> int:
        return len(text.split())

    @server.tool
    async def ask(context: Context) -> str:
        """Asks the model, and runs the tools that it asks for, until it asks for none."""
        messages = [user({"type": "text", "text": "How many words?"})]
        while True:
            reply = await context.sample(messages, tools=["count"], tool_choice="auto")
            uses = tool_uses(reply)
            if not uses:
                return reply["content"][0]["text"]
            messages.append({"role": "assistant", "content": reply["content"]})
            messages.append(user(*(tool_result(it, count(**it["input"])) for it in uses)))

    return server


class Tools(Case):
    """A model that uses tools."""

    async def test_a_whole_turn(self):
        seen = []

        async def sampling(params):
            await asyncio.sleep(0)
            seen.append(params)
            if len(seen) == 1:
                return model(use("1", text="a b"), use("2", text="a"), stop="toolUse")
            return model(TEXT)

        async with joined(make_server(), ToolClient(sampling=sampling, sampling_tools=True)) as client:
            await client.initialize()
            self.assertEqual((await client.call_tool("ask")).text, "t")
        schema = {
            "type": "object",
            "properties": {"text": {"type": "string"}},
            "required": ["text"],
            "additionalProperties": False,
        }
        output = {"type": "object", "properties": {"result": {"type": "integer"}}, "required": ["result"]}
        tool = {
            "name": "count",
            "title": "T",
            "description": "D",
            "inputSchema": schema,
            "outputSchema": output,
        }
        self.assertEqual((seen[0]["tools"], seen[0]["toolChoice"]), ([tool], {"mode": "auto"}))
        two, one = result("1", {"type": "text", "text": "2"}), result("2", {"type": "text", "text": "1"})
        self.assertEqual(seen[1]["messages"][2], user(two, one))

    @rows(VERSIONS)
    async def test_hosts_without_it(self, version):
        host = Host(sampling_createMessage=model(TEXT))
        async with hosting(make_server(), host, version, sampling={}):
            found = await host.call("tools/call", {"name": "ask"})
        self.assertEqual((found["isError"], host.asked), (True, []))
        self.assertEqual(found["content"][0]["text"], "the host has no sampling.tools")

    @rows([(True, "2025-11-25", {"tools": {}}), (False, "2025-11-25", {}), (True, "2025-06-18", {})])
    def test_what_a_client_declares(self, tools, version, declared):
        client = ToolClient(sampling=lambda params: "t", sampling_tools=tools, versions=[version])
        self.assertEqual(client._capabilities["sampling"], declared)

    @rows(
        [
            (TEXT, None),
            ([TEXT, use("1")], None),
            ([], None),
            (use("1"), None),
            ({"type": "tool_use", "id": 1, "name": "a", "input": {}}, "result.content.id must be a string"),
            ([{"type": "tool_use", "id": "1", "name": "a"}], "result.content[0] lacks input"),
            ([TEXT, {"type": "text"}], "result.content[1] lacks text"),
            ("t", "result.content must be an object or an array, got string"),
        ]
    )
    async def test_what_a_model_answers(self, content, words):
        server = ToolServer("asks")

        @server.tool
        async def ask(context: Context):
            return (await context.sample("?", tools=["ask"]))["content"]

        host = Host(sampling_createMessage={**model(), "content": content})
        with logged() as log:
            async with hosting(server, host, "2025-11-25", sampling={"tools": {}}):
                found = await host.call("tools/call", {"name": "ask"})
            self.assertEqual("isError" in found, words is not None, found)
            if words is not None:
                text = found["content"][0]["text"]
                self.assertTrue(text.startswith(f"sampling/createMessage: {words}"), text)
            self.assertEqual(log.texts, [])

    #: Messages, and what is wrong with them.
    TURNS = table("turns")["turns"]

    async def test_turns(self):
        """A server sends none that are wrong, and a client answers them -32602."""
        client = ToolClient(sampling=lambda params: "t", sampling_tools=True)
        server, outcome = Server(framing="lines"), []
        tool = ToolServer("asks")

        @tool.tool
        async def ask(context: Context):
            for messages, _ in self.TURNS:
                try:
                    await context.sample(messages)
                    outcome.append(None)
                except ValueError as error:
                    outcome.append(str(error))

        found = []
        async with joined(server, client):
            for messages, _ in self.TURNS:
                params = {
                    "messages": messages,
                    "maxTokens": 1,
                    "tools": [{"name": "count", "inputSchema": {}}],
                }
                try:
                    await server.session.call("sampling/createMessage", params)
                    found.append(None)
                except Error as error:
                    self.assertEqual(error.code, -32602)
                    found.append(error.message.replace("Invalid params: params.", ""))
        async with hosting(tool, Host(sampling_createMessage=model(TEXT)), "2025-11-25", sampling={}) as host:
            await host.call("tools/call", {"name": "ask"})
        self.assertEqual(found, outcome)
        for (_, words), it in zip(self.TURNS, found):
            self.assertTrue(it is None if words is None else it.startswith(words), (it, words))

    async def test_what_is_refused(self):
        server = ToolServer("asks")

        @server.tool
        async def ask(context: Context, tools: list, choice: str):
            await context.sample("?", tools=tools, tool_choice=choice)

        with logged():
            async with hosting(server, Host(), "2025-11-25", sampling={"tools": {}}) as host:
                found = []
                for tools, choice in ((["none"], "auto"), (["ask"], "maybe")):
                    params = {"name": "ask", "arguments": {"tools": tools, "choice": choice}}
                    found.append((await host.call("tools/call", params))["content"][0]["text"])
        first, second = found
        self.assertIn("there is no tool 'none'", first)
        self.assertIn("tool_choice is one of auto, required, none: 'maybe'", second)

    async def test_a_client_without_tools(self):
        server = Server(framing="lines")
        async with joined(server, ToolClient(sampling=lambda params: "t")):
            for more in ({"tools": []}, {"toolChoice": {"mode": "none"}}):
                with self.assertRaises(Error) as caught:
                    await server.session.call(
                        "sampling/createMessage", {"messages": [], "maxTokens": 1, **more}
                    )
                self.assertEqual(caught.exception.code, -32602)
