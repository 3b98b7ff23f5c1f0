"""Whatever a host sends a tool server, each request has an answer soon, and a wrong type is -32602 and no fault of ours.

The short form is part of the tests. BULLMYRTLE_TOOL_SECONDS=600 has random messages for so long, and BULLMYRTLE_TOOL_SEED
begins with another one.
"""
import asyncio
import copy
import enum
import json
import os
import random
import time
import typing

from helping import Case, logged, rows
from test_tool_types import Add, Branch, Maybe, Mul, Node, Not, Twig
from tool_wires import talking

from bullmyrtle.mcp import ToolServer

# How many random messages the short form has, and how long the long one goes on.
MESSAGES = 2_000
TIME_LIMIT = os.environ.get("BULLMYRTLE_TOOL_SECONDS")
SEED = int(os.environ.get("BULLMYRTLE_TOOL_SEED", "1"))
# An answer takes at most so many seconds, of the processor's: what else the machine does doesn't count.
SOON = 1.0


class Color(enum.Enum):
    RED = "red"
    BLUE = "blue"


def make_server():
    """A server whose functions never raise, and give nothing that nests deeper than a message may."""
    server = ToolServer("all kinds", "1", page_size=3)

    @server.tool
    def plain(
        text: str, count: int, size: float, sure: bool, words: typing.List[str], table: typing.Dict[str, int]
    ) -> dict:
        return {"text": text, "count": count, "table": table}

    @server.tool(task="optional")
    async def chosen(
        color: Color, kind: typing.Literal["a", "b"], maybe: typing.Optional[int] = None
    ) -> Color:
        return color

    @server.tool
    def trees(
        expression: typing.Union[Add, Mul, int],
        query: typing.Union[Not, Maybe, str],
        node: typing.Optional[Node],
    ) -> typing.Union[Add, Mul, int]:
        return 1

    @server.tool(thread=True)
    def branches(branch: Branch, twigs: typing.List[typing.Union[Branch, Twig]]) -> Branch:
        return {"one": {}}

    schema = {
        "type": "object",
        "properties": {
            "unique": {"type": "array", "uniqueItems": True},
            "tenths": {"type": "number", "multipleOf": 0.1},
            "either": {"oneOf": [{"type": "integer"}, {"$ref": "#/$defs/tree"}]},
        },
        "required": ["unique", "tenths", "either"],
        "$defs": {
            "tree": {
                "type": "object",
                "properties": {
                    "a": {"anyOf": [{"$ref": "#/$defs/tree"}, {"$ref": "#/$defs/tree"}, {"type": "null"}]}
                },
                "required": ["a"],
            }
        },
    }
    server.tool(name="by_hand", input_schema=schema)(lambda arguments: sorted(arguments))
    server.resource("one://1")(lambda: "one")
    server.resource("day://{year}-{month}-{day}")(lambda year, month, day: [year, month, day])
    server.resource("file:///{+path}")(lambda path: path)
    server.prompt(name="greet")(lambda name, language="en": f"{name} {language}")
    server.completion("greet", "name")(lambda value, arguments: [value, *arguments])
    server.completion("day://{year}-{month}-{day}", "year")(lambda value: [value])
    return server


#: Requests that are as they should be, each with the places at which another type is none of the server's business.
PLAIN = {"text": "a", "count": 1, "size": 0.5, "sure": True, "words": ["a"], "table": {"a": 1}}
TREES = {
    "expression": {"left": {"left": 1, "right": 2}, "right": 3},
    "query": {"kind": "not", "of": {"of": "a", "kind": "maybe"}},
    "node": {"value": 1, "next": {"value": 2}},
}
BY_HAND = {"unique": [1, "a"], "tenths": 0.3, "either": {"a": {"a": None}}}
CURSOR = "Mw=="
REQUESTS = [
    ("ping", {"_meta": {}}, ["", "_meta"]),
    ("tools/list", {"cursor": CURSOR, "_meta": {"progressToken": 1}}, ["", "_meta", "_meta.progressToken"]),
    ("tools/call", {"name": "plain", "arguments": PLAIN}, []),
    ("tools/call", {"name": "chosen", "arguments": {"color": "red", "kind": "a", "maybe": 1}}, []),
    ("tools/call", {"name": "trees", "arguments": TREES}, []),
    (
        "tools/call",
        {
            "name": "branches",
            "arguments": {"branch": {"one": {"other": {}}}, "twigs": [{"one": {}, "leaf": 1}, {}]},
        },
        ["arguments.twigs[0].leaf"],  # (it is a Branch, which may have other members)
    ),
    (
        "tools/call",
        {"name": "by_hand", "arguments": BY_HAND},
        ["arguments.unique[0]", "arguments.unique[1]", "arguments.either.a.a"],
    ),
    ("resources/list", {"cursor": None}, [""]),
    ("resources/templates/list", {"cursor": None}, [""]),
    ("resources/read", {"uri": "one://1"}, []),
    ("resources/read", {"uri": "day://2025-11-28"}, []),
    ("resources/read", {"uri": "file:///a/b"}, []),
    ("resources/subscribe", {"uri": "one://1"}, []),
    ("resources/unsubscribe", {"uri": "one://1"}, []),
    ("prompts/list", {"cursor": None}, [""]),
    ("prompts/get", {"name": "greet", "arguments": {"name": "a", "language": "b"}}, []),
    (
        "completion/complete",
        {
            "ref": {"type": "ref/prompt", "name": "greet"},
            "argument": {"name": "name", "value": "a"},
            "context": {"arguments": {"language": "b"}},
        },
        [],
    ),
    (
        "completion/complete",
        {
            "ref": {"type": "ref/resource", "uri": "day://{year}-{month}-{day}"},
            "argument": {"name": "year", "value": "2"},
        },
        [],
    ),
    ("logging/setLevel", {"level": "info"}, []),
]
#: Those that 2025-11-25 has beside them. (There is no task of this id.)
TASKS = [
    (
        "tools/call",
        {"name": "chosen", "arguments": {"color": "red", "kind": "a"}, "task": {"ttl": 1000.5}},
        [
            "arguments",
            "arguments.color",
            "arguments.kind",
        ],  # (the task fails, whose request is answered before)
    ),
    ("tasks/list", {"cursor": None}, [""]),
    *((f"tasks/{it}", {"taskId": "x"}, []) for it in ("get", "result", "cancel")),
]
INITIALIZE = {
    "protocolVersion": "2025-06-18",
    "capabilities": {"roots": {"listChanged": True}},
    "clientInfo": {"name": "host", "version": "1"},
}
#: (what a host can do is asked for when it is needed, and who it is isn't looked at)
INITIALIZE_UNREAD = [
    "capabilities.roots",
    "capabilities.roots.listChanged",
    "clientInfo.name",
    "clientInfo.version",
]

#: A value of each type, and of some at the edge of theirs.
ODD = [None, True, False, 0, -1, 2**53, 10**40, 1.5, -1e300, "", "x", "\0", "a" * 5000]
ODD += [[], [None], [[]], {}, {"a": None}, {"name": 1}, {"": {}}]
# Members that may be null, or left out.
MAY_BE_NULL = {
    "task",
    "task.ttl",
    "cursor",
    "arguments",
    "context",
    "context.arguments",
    "capabilities",
    "clientInfo",
}
MAY_BE_NULL |= {"arguments.maybe", "arguments.node", "arguments.node.next"}
MAY_BE_NULL |= {"arguments.either.a", "arguments.either.a.a"}


def type_of(value):
    """The type of a value, as JSON Schema has it."""
    if value is None or isinstance(value, bool):
        return "null" if value is None else "boolean"
    if isinstance(value, float):
        return "integer" if value.is_integer() else "number"  # (as 1.0, or a long one)
    names = {int: "integer", str: "string", list: "array", dict: "object"}
    return names[type(value)]


def places_of(value, place=""):
    """Each place in a value, with the keys that lead to it."""
    yield place, ()
    members = (
        value.items() if isinstance(value, dict) else enumerate(value) if isinstance(value, list) else ()
    )
    for key, it in members:
        inner = f"{place}[{key}]" if isinstance(key, int) else f"{place}.{key}".lstrip(".")
        for found, keys in places_of(it, inner):
            yield found, (key, *keys)


def value_at(value, keys):
    for it in keys:
        value = value[it]
    return value


def with_value(value, keys, new):
    """A copy of a value with another one at a place."""
    if not keys:
        return new
    made = copy.copy(value)
    made[keys[0]] = with_value(value[keys[0]], keys[1:], new)
    return made


def is_allowed(place, right, odd):
    """Whether a value may stand at a place, by the types of what is right there and of it."""
    types = {type_of(right), type_of(odd)}
    if odd is None and place in MAY_BE_NULL:
        return True
    if (place.startswith("arguments.expression") or place == "arguments.either") and type_of(
        odd
    ) == "integer":
        return True  # (a tree, or an integer)
    if place in ("arguments.query", "arguments.query.of") and type_of(odd) in ("string", "object"):
        return True
    return len(types) == 1 or (types == {"integer", "number"} and type_of(right) == "number")


class WrongTypes(Case):
    """Each type at each place of each request: what isn't allowed there is -32602, and nothing is -32603."""

    def cases(self, version):
        for method, params, unread in REQUESTS + (TASKS if version == "2025-11-25" else []):
            for place, keys in places_of(params):
                for odd in ODD:
                    yield method, params, unread, place, keys, odd

    def check(self, answer, place, right, odd, unread):
        code = answer.get("error", {}).get("code")
        if place in unread or is_allowed(place, right, odd):
            # (a value of the right type may still be none that there is)
            self.assertIn(code, (None, -32602, -32002))
        elif place.startswith("arguments.") and code is None:
            # (since 2025-11-25 a tool's wrong arguments are a result, which a model reads)
            self.assertTrue(answer["result"]["isError"], answer)
        else:
            self.assertEqual(code, -32602, answer)

    @rows(["2025-06-18", "2025-11-25"])
    async def test_of_each_request(self, version):
        await self.requests_of(version)

    async def requests_of(self, version):
        with logged() as log:
            # (the number is that of an examination by others, of which none may be missing here)
            count = 0
            async with talking(make_server(), version) as talk:
                for method, params, unread, place, keys, odd in self.cases(version):
                    wrong = with_value(params, keys, odd)
                    if not isinstance(wrong, (dict, list)):
                        continue  # (no params of JSON-RPC: the connection answers that)
                    answer = await talk.ask(method, wrong)
                    with self.subTest(method, version=version, params=wrong):
                        self.check(answer, place, value_at(params, keys), odd, unread)
                        is_older = version < "2025-11-25"
                        self.assertFalse(is_older and answer.get("result", {}).get("isError"))
                    count += 1
            self.assertGreaterEqual(count, 1_319)
        self.assertEqual(log.texts, [])

    async def test_of_initialize(self):
        with logged() as log:
            for place, keys in places_of(INITIALIZE):
                for odd in ODD:
                    wrong = with_value(INITIALIZE, keys, odd)
                    if isinstance(wrong, (dict, list)):
                        async with talking(make_server(), begin=False) as talk:
                            answer = await talk.ask("initialize", wrong)
                            with self.subTest(params=wrong):
                                self.check(answer, place, value_at(INITIALIZE, keys), odd, INITIALIZE_UNREAD)
        self.assertEqual(log.texts, [])


class Sender:
    """Makes random messages: requests that are nearly right, and what is none."""

    def __init__(self, seed):
        self.random = random.Random(seed)

    def value(self, depth=3):
        """Any value, and sometimes a large or a deep one."""
        pick = self.random.random()
        if pick < 0.5 or not depth:
            return self.random.choice(ODD)
        if pick < 0.6:
            return self.tree()
        if pick < 0.62:
            return self.random.choice(
                [
                    "day://" + "-" * 200_000,
                    "file://" + "/a" * 50_000 + "/..",
                    [at * (2**61 - 1) for at in range(20_000)],
                    {"a" * 100_000: [0] * 1_000},
                    int("9" * 4_000),
                    [[]] * 5_000,
                ]
            )
        count = self.random.randint(0, 4)
        if pick < 0.8:
            return [self.value(depth - 1) for _ in range(count)]
        return {self.name(): self.value(depth - 1) for _ in range(count)}

    def tree(self):
        """A deep tree of one of the kinds that are known, mostly with a fault at its end."""
        found = self.random.choice([1, "x", None, {}, []])
        level = self.random.choice(
            [
                lambda it: {"left": it, "right": 1},
                lambda it: {"left": 1, "right": it},
                lambda it: {"of": it, "kind": self.random.choice(["not", "maybe"])},
                lambda it: {"value": 1, "next": it},
                lambda it: {"one": it, "leaf": 1},
                lambda it: {"a": it},
                lambda it: [it],
            ]
        )
        for _ in range(self.random.choice([5, 50, 112])):
            found = level(found)
        return found

    def name(self):
        return self.random.choice(
            ["name", "arguments", "uri", "kind", "of", "left", "right", "a", "", "x" * 100]
        )

    def request(self):
        """A request that was right until something was changed in it."""
        method, params, _ = self.random.choice([*REQUESTS, *TASKS, ("initialize", INITIALIZE, [])])
        for _ in range(self.random.randint(0, 3)):
            places = [keys for _, keys in places_of(params)]
            keys = self.random.choice(places)
            params = with_value(params, keys, self.value())
            if isinstance(params, dict) and params and self.random.random() < 0.2:
                params = {**params, self.name(): self.value()}
        if self.random.random() < 0.05:
            method = self.random.choice([method + "x", "", "tools", "$/x", "notifications/cancelled"])
        return method, params

    def noise(self):
        """What is no request."""
        messages = [
            [],
            5,
            {"jsonrpc": "2.0", "id": 5, "result": self.value()},
            {
                "jsonrpc": "2.0",
                "method": "notifications/cancelled",
                "params": {"requestId": self.random.randint(1, 99)},
            },
            {"jsonrpc": "2.0", "method": "notifications/progress", "params": self.value()},
            {"jsonrpc": "2.0", "method": "notifications/initialized", "params": self.value()},
            {"jsonrpc": "2.0", "method": "tools/call", "params": self.value()},
            {"jsonrpc": "1.0", "id": {}, "method": self.name()},
            [{"jsonrpc": "2.0", "id": "b", "method": "tools/list"}, self.value()],
        ]
        return self.random.choice(messages)


class RandomMessages(Case):
    """No answer later than a second, and no -32603: no function of this server raises."""

    async def session(self, seed, count):
        """One session with so many messages."""
        sender = Sender(seed)
        async with talking(make_server(), sender.random.choice(["2025-06-18", "2025-11-25"])) as talk:
            for at in range(count):
                if sender.random.random() < 0.2:
                    talk.wire.feed(sender.noise())
                method, params = sender.request()
                start, is_cancelled = time.process_time(), False
                id_ = talk.send(method, params)
                if sender.random.random() < 0.05:
                    talk.wire.feed(
                        {"jsonrpc": "2.0", "method": "notifications/cancelled", "params": {"requestId": id_}}
                    )
                    is_cancelled = True
                answer = await talk.ask("ping") if is_cancelled else await self.answer(talk, id_)
                taken = time.process_time() - start
                codes = [it.get("error", {}).get("code") for it in talk.wire.written if isinstance(it, dict)]
                if taken > SOON or -32603 in codes:
                    about = f"{method} {json.dumps(params)[:300]}: {json.dumps(answer)[:300]}"
                    self.fail(f"seed {seed}, message {at}, {taken:.2f} s: {about}")
                talk.forget()

    async def answer(self, talk, id_):
        while True:
            found = talk.answer(id_)
            # (params that are no array and no object are answered without an id)
            if found is not None or talk.answer(None) is not None:
                return found
            await asyncio.sleep(0)

    def test_they(self):
        with logged() as log:
            if TIME_LIMIT is None:
                for seed in range(SEED, SEED + 4):
                    self.wait(self.session(seed, MESSAGES // 4))
            else:
                end, seed = time.monotonic() + float(TIME_LIMIT), SEED
                while time.monotonic() < end:
                    self.wait(self.session(seed, 500), 600)
                    seed += 1
                print(f"seeds {SEED} to {seed - 1}, 500 messages each")
        # (notifications of methods that are for requests have no other answer)
        odd = [it for it in log.texts if "raised" in it and "InvalidParams" not in it]
        self.assertEqual(odd, [])
