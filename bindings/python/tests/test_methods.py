"""The upper floor: methods, what they take, what they answer, and in what order."""
import asyncio
import dataclasses
import enum
import math
import threading
import time
import typing
import uuid

from helping import MANY, SECONDS, Case, joined, logged, patience, rows

from bullmyrtle import (
    LATER,
    BadSettings,
    Client,
    Closed,
    Error,
    InvalidParams,
    NoMemory,
    NotJson,
    NotOpen,
    Request,
    Server,
    Unanswered,
)


@dataclasses.dataclass
class Position:
    line: int
    character: int = 0


@dataclasses.dataclass
class Place:
    uri: str
    position: Position
    tags: typing.List[str] = dataclasses.field(default_factory=list)
    near: "typing.Optional[Place]" = None
    kind: "typing.Literal['read', 'write']" = "read"
    more: typing.Dict[str, int] = dataclasses.field(default_factory=dict)


class Named(typing.TypedDict):
    name: str


class Colour(enum.Enum):
    RED = "red"


def a_server():
    server = Server(grace=1)

    @server.method("sum")
    def add(params: list) -> int:
        return sum(params)

    @server.method("echo")
    def echo(params):
        return params

    @server.method("place")
    def place(params: Place):
        assert isinstance(params, Place) and isinstance(params.position, Position)
        return dataclasses.asdict(params)

    @server.method("object")
    def object_(params: dict):
        return len(params)

    @server.method("nothing")
    def nothing(params: None):
        return "none"

    @server.method("maybe")
    def maybe(params: typing.Optional[Position]):
        return params

    @server.method("typed")
    def typed(params: Named):
        return params["name"]

    @server.method("no parameter")
    def no_parameter():
        return 1

    @server.method("slow")
    async def slow(params):
        await asyncio.sleep(params[0])
        return params

    @server.method("thread", thread=True)
    def thread(params):
        return threading.current_thread() is threading.main_thread()

    @server.method("who")
    async def who(params, request: Request):
        return [request.id, request.method, request.is_notification, request.number]

    return server


class Results(Case):
    HERE = {"uri": "x", "position": {"line": 1}}
    GIVEN = {**HERE, "unknown": 1, "near": {"uri": "y", "position": {"line": 2}}}
    DEFAULTS = {"tags": [], "near": None, "kind": "read", "more": {}}
    PLACE = {"uri": "x", "position": {"line": 1, "character": 0}, **DEFAULTS, "tags": ["a"]}
    NEAR = {"uri": "y", "position": {"line": 2, "character": 0}, **DEFAULTS}

    async def refused(self, method, params, code, words):
        async with joined(a_server()) as client:
            with self.assertRaises(Error) as caught:
                await client.call(method, params)
            self.assertEqual(caught.exception.code, code, caught.exception)
            self.assertIn(words, caught.exception.message)

    @rows(
        [
            ("sum", [1, 2], 3),
            ("echo", *[{"a": [1, 2.5, None, True, "\u00e9/\U0001f600\0"]}] * 2),
            ("echo", None, None),
            ("echo", (1, Position(2)), [1, {"line": 2, "character": 0}]),
            ("echo", [10**30], [10**30]),
            ("no parameter", [1], 1),
            ("slow", [0], [0]),
            ("thread", [], False),
            ("who", [], [1, "who", False, 1]),
            ("place", PLACE, PLACE),
            ("place", GIVEN, {**PLACE, "tags": [], "near": NEAR}),
            ("object", {"a": 1}, 1),
            ("nothing", None, "none"),
            ("maybe", None, None),
            ("maybe", {"line": 3}, {"line": 3, "character": 0}),
            ("typed", {"name": "x"}, "x"),
        ]
    )
    async def test_results(self, method, params, result):
        async with joined(a_server()) as client:
            self.assertEqual(await client.call(method, params), result)

    @rows(
        [
            ("sum", {"a": 1}, "params has to be an array, and is an object"),
            ("sum", None, "params has to be an array, and is null"),
            ("object", [], "params has to be an object"),
            ("nothing", [], "params has to be null"),
            ("typed", [], "params has to be an object"),
            ("maybe", {"line": "1"}, "params.line has to be an integer, and is a string"),
            ("maybe", {"line": True}, "params.line has to be an integer, and is true or false"),
            ("maybe", [], "params has to be"),
            ("place", {"uri": "x"}, "params lacks position"),
            ("place", {"uri": 1, "position": {"line": 1}}, "params.uri has to be a string"),
            ("place", {"uri": "x", "position": {}}, "params.position lacks line"),
            ("place", {**HERE, "tags": ["a", 1]}, "params.tags[1] has to be a string"),
            ("place", {**HERE, "kind": "run"}, "params.kind has to be one of"),
            ("place", {**HERE, "more": {"n": None}}, "params.more.n has to be an integer"),
            ("place", {**HERE, "near": {"uri": "y"}}, "params.near lacks position"),
        ]
    )
    async def test_params_that_dont_fit(self, method, params, words):
        await self.refused(method, params, -32602, words)

    async def test_an_unknown_method(self):
        await self.refused("nope", None, -32601, "Method not found: nope")

    async def test_unknown_notifications_are_closed(self):
        with logged() as log:
            async with joined(a_server()) as client:
                client.notify("nope", [1])
                client.notify("sum", {"a": 1})
                self.assertEqual(await client.call("sum", [1]), 1)
        self.assertEqual(log.texts, ["sum: Invalid params: params has to be an array, and is an object"])


class Errors(Case):
    async def errors(self, raised, thread=False):
        """What a method gets answered that raises something, and what is logged."""
        with logged() as log:
            server = Server()

            def method(params):
                raise raised

            async def later(params):
                await asyncio.sleep(0)
                raise raised

            server.method("x", thread=thread)(method)
            server.method("y")(later)
            found = []
            async with joined(server) as client:
                for name in "xy":
                    with self.assertRaises(Error) as caught:
                        await client.call(name)
                    found.append((caught.exception.code, caught.exception.message, caught.exception.data))
            self.assertEqual(found[0], found[1])
            return found[0], len(log.errors)

    @rows(
        [
            (Error(7, "seven", {"a": [1]}), (7, "seven", {"a": [1]}), 0),
            (Error(7, "seven"), (7, "seven", None), 0),
            (InvalidParams(), (-32602, "Invalid params", None), 0),
            (InvalidParams("no file", "x"), (-32602, "no file", "x"), 0),
            (KeyError("a"), (-32603, "Internal error: KeyError: 'a'", None), 2),
            (ValueError(), (-32603, "Internal error: ValueError", None), 2),
            (ValueError("\ud800"), (-32603, "Internal error: ValueError: \\ud800", None), 2),
        ]
    )
    async def test_raised(self, error, told, logs):
        for thread in (False, True):
            self.assertEqual(await self.errors(error, thread), (told, logs))

    @rows([Error("x", "y"), Error(1 << 63, "y"), Error(1, "y", object()), Error(1, "y", math.nan)])
    async def test_errors_that_are_no_json(self, error):
        (code, message, _), logs = await self.errors(error)
        self.assertEqual((code, logs), (-32603, 2), message)
        self.assertIn("the error isn't JSON", message)

    async def test_a_result_that_is_no_json(self):
        ring = []
        ring.append(ring)
        deep = []
        for _ in range(130):
            deep = [deep]
        bad = [
            object(),
            {1, 2},
            math.nan,
            [math.inf],
            "\ud800",
            {"\udfff": 1},
            ring,
            deep,
            b"x",
            {(1, 2): 3},
            Position,
        ]
        with logged() as log:
            server = Server()
            server.method("x")(lambda params: bad[params[0]])
            server.method("z", thread=True)(lambda params: bad[params[0]])

            @server.method("y")
            async def later(params):
                return bad[params[0]]

            async with joined(server) as client:
                for at in range(len(bad)):
                    for name in "xyz":
                        with self.assertRaises(Error) as caught:
                            await client.call(name, [at])
                        self.assertEqual(caught.exception.code, -32603)
                        self.assertIn("the result isn't JSON", caught.exception.message)
                self.assertEqual(
                    (await client.call_batch([("x", [0]), ("x", [1])], return_exceptions=True))[1].code,
                    -32603,
                )
        self.assertEqual(len(log.errors), 3 * len(bad) + 2)

    async def test_results_that_json_has_no_word_for(self):
        server = Server()
        given = [Colour.RED, uuid.UUID(int=1), Position(1), (1, 2), {1: 2, True: 3, None: 4}]
        server.method("x")(lambda params: given)
        async with joined(server) as client:
            self.assertEqual(
                await client.call("x"),
                ["red", str(uuid.UUID(int=1)), {"line": 1, "character": 0}, [1, 2], {"1": 3, "null": 4}],
            )


class Registering(Case):
    async def test_settings(self):
        with self.assertRaises(ValueError):
            Server(cancel_by="$/stop")
        for more in ({"framing": "pipes"}, {"framing": "contents"}, {"order": "soon"}):
            with self.assertRaises(BadSettings):
                Client(**more)
        with self.assertRaises(BadSettings):
            async with joined(Server(content=0), Client()):
                pass

    async def test_without_cancels(self):
        server, seen = Server(cancel_by=None), []
        server.method("$/cancelRequest")(seen.append)
        async with joined(server) as client:
            client.notify("$/cancelRequest", {"id": 1})
            with self.assertRaises(Error):
                await client.call("nope")
        self.assertEqual(seen, [{"id": 1}])

    async def test_a_tool_server_may_hear_of_cancels_itself(self):
        server, seen = Server(framing="lines"), []
        server.method("notifications/cancelled")(seen.append)

        @server.method("x")
        async def x(params):
            await asyncio.sleep(20)

        async with joined(server) as client:
            call = client.call("x")
            client.notify("notifications/cancelled", {"requestId": call.key})
            with self.assertRaises(Error) as caught:
                await call
            self.assertEqual((caught.exception.code, seen), (-32800, [{"requestId": 1}]))

    @rows(["fed", "answer_quickly"])
    async def test_no_memory(self, name):
        def refuse(*_):
            raise NoMemory()

        with logged() as log:
            server = Server(grace=0.1)
            server.method("x")(lambda params: params)
            statuses = []

            async def serve(channel):
                statuses.append(await Server.serve_over(server, channel))

            server.serve_over = serve
            async with joined(server) as client:
                self.assertEqual(await client.call("x", [1]), [1])
                session = server.session
                setattr(session._transport.connection if name == "fed" else session._incoming, name, refuse)
                with self.assertRaises((Unanswered, Error)):
                    await client.call("x", [2])
            self.assertEqual(statuses, [1])
            self.assertEqual(len([it for it in log.texts if "memory" in it]), 1)


class Ordering(Case):
    async def test_changes_are_seen_in_order_before_a_hover(self):
        server, seen = Server(), []

        @server.method("textDocument/didChange")
        def changed(params: dict):
            seen.append(params["version"])

        @server.method("textDocument/hover")
        async def hover(params):
            return seen[:]

        async with joined(server) as client:
            for version in range(1000):
                client.notify("textDocument/didChange", {"version": version})
            self.assertEqual(await client.call("textDocument/hover"), list(range(1000)))

    async def test_kinds_start_in_the_order_in_which_they_came(self):
        server, seen = Server(), []

        @server.method("plain")
        def plain(params):
            seen.append(params[0])

        @server.method("async")
        async def later(params):
            seen.append(params[0])
            await asyncio.sleep(0.01)

        @server.method("thread", thread=True)
        def thread(params):
            pass

        async with joined(server) as client:
            calls = [
                client.call(["plain", "async", "async", "thread"][it * it % 4], [it]) for it in range(200)
            ]
            await asyncio.gather(*calls)
        kinds = ["plain", "async", "async", "thread"]
        self.assertEqual(seen, [it for it in range(200) if kinds[it * it % 4] != "thread"])

    async def test_a_slow_method_holds_up_no_other(self):
        server, free = a_server(), threading.Event()

        @server.method("blocked", thread=True)
        def blocked(params):
            return free.wait(SECONDS)

        async with joined(server) as client:
            slow, thread = client.call("slow", [patience(20)]), client.call("blocked")
            began = time.monotonic()
            for it in range(100):
                self.assertEqual(await client.call("sum", [it, 1]), it + 1)
            self.assertFalse(await client.call("thread", []))
            self.assertLess(time.monotonic() - began, patience(10))
            self.assertFalse(slow.done() or thread.done())
            free.set()
            self.assertTrue(await thread)
            slow.cancel()

    async def test_as_came(self):
        server = Server(order="as-came")
        out = []

        @server.method("wait")
        async def wait(params):
            await asyncio.sleep(params[0])
            return params

        async with joined(server, Client()) as client:
            first, second = client.call("wait", [0.05]), client.call("wait", [0])
            for name, it in (("first", first), ("second", second)):
                it.add_done_callback(lambda _, name=name: out.append(name))
            await asyncio.gather(first, second)
        self.assertEqual(out, ["first", "second"])

    async def test_many_are_open_at_once(self):
        server, began = Server(), 0
        free = asyncio.Event()

        @server.method("hold")
        async def hold(params):
            nonlocal began
            began += 1
            await free.wait()
            return params[0]

        @server.method("open")
        def is_open(params, request):
            return request.session._transport.connection.counts().open - 1

        async with joined(server) as client:
            calls = [client.call("hold", [it]) for it in range(MANY)]
            self.assertEqual(await client.call("open"), MANY)
            self.assertEqual(began, MANY)
            free.set()
            self.assertEqual(await asyncio.gather(*calls), list(range(MANY)))

    async def test_a_batch(self):
        async with joined(a_server()) as client:
            found = await client.call_batch([("sum", [1]), ("slow", [0.01]), ("sum", [2])])
            self.assertEqual(found, [1, [0.01], 2])
            with self.assertRaises(Error):
                await client.call_batch([("sum", [1]), ("nope", None)])
            found = await client.call_batch([("sum", [1]), ("nope", None)], return_exceptions=True)
            self.assertEqual((found[0], found[1].code), (1, -32601))


class OneThread(Case):
    async def test_a_session_answers_quickly_and_closes_in_the_thread_of_its_loop(self):
        server, threads = Server(grace=0.05), []

        @server.method("thread", thread=True)
        def in_thread(params, request):
            request.notify("told")
            return params

        @server.method("by hand", thread=True)
        def by_hand(params, request):
            request.answer(params)

        @server.method("plain")
        def plain(params):
            return params

        @server.method("async")
        async def later(params):
            return params

        @server.method("stop", thread=True)
        def stop():
            server.stop(3)
            time.sleep(0.02)

        def watch():
            connection = server.session._transport.connection
            answer, close = server.session._incoming.answer_quickly, connection.close

            def answered(*words):
                threads.append(("answer", threading.get_ident()))
                answer(*words)

            def closed():
                threads.append(("close", threading.get_ident()))
                close()

            server.session._incoming.answer_quickly, connection.close = answered, closed

        async with joined(server, Client()) as client:
            watch()
            for name in ("thread", "by hand", "plain", "async"):
                self.assertEqual(await client.call(name, [1]), [1])
            client.notify("stop")
            await self.until(lambda: not server._sessions)
        self.assertEqual(threads, [(it, threading.get_ident()) for it in ("answer", "close")])


class Later(Case):
    async def test_an_answer_that_comes_later(self):
        with logged() as log:
            server, kept = Server(), []

            @server.method("x")
            def x(params, request):
                kept.append(request)
                return LATER

            @server.method("y")
            async def y(params, request):
                kept.append(request)
                return LATER

            @server.method("z", thread=True)
            def z(params, request):
                kept.append(request)
                return LATER

            async with joined(server) as client:
                for name in "xyz":
                    call = client.call(name)
                    await self.until(lambda: kept)
                    await asyncio.sleep(0.01)
                    self.assertFalse(call.done())
                    request = kept.pop()
                    if name == "y":
                        request.fail(Error(5, "five", [1]))
                        with self.assertRaises(Error) as caught:
                            await call
                        self.assertEqual((caught.exception.code, caught.exception.data), (5, [1]))
                    else:
                        thread = threading.Thread(target=request.answer, args=([name],))
                        thread.start()
                        self.assertEqual(await call, [name])
                        thread.join()
                    with self.assertRaises(NotOpen):
                        request.answer(1)
                    with self.assertRaises(NotOpen):
                        request.fail(Error(1, "x"))
        self.assertEqual(log.texts, [])

    async def test_answered_by_hand_and_again_by_a_result(self):
        with logged() as log:
            server = Server()

            def twice(params, request):
                request.answer("first")
                return params

            def raises(params, request):
                request.answer("first")
                raise KeyError("after")

            async def later(params, request):
                return twice(params, request)

            server.method("plain")(twice)
            server.method("thread", thread=True)(twice)
            server.method("async")(later)
            server.method("raises")(raises)
            async with joined(server) as client:
                for name in ("plain", "thread", "async"):
                    self.assertEqual(await client.call(name, ["again"]), "first")
                    self.assertEqual(await client.call(name), "first")
                self.assertEqual(await client.call("raises"), "first")
        self.assertEqual(len(log.errors), 4, log.texts)

    async def test_no_json_by_hand_is_refused_and_may_be_answered_again(self):
        server = Server()

        @server.method("x")
        async def x(params, request):
            for bad in (object(), math.nan, "\ud800"):
                with self.assertRaises(NotJson):
                    request.answer(bad)
                with self.assertRaises(NotJson):
                    request.notify("x", [bad])
                with self.assertRaises(NotJson):
                    request.call("x", [bad])
                with self.assertRaises(NotJson):
                    request.fail(Error(1, "x", bad))
            with self.assertRaises(NotJson):
                request.notify("x", 5)
            request.answer("good")

        async with joined(server) as client:
            self.assertEqual(await client.call("x"), "good")

    async def test_later_without_the_request(self):
        with logged() as log:
            server = Server()
            server.method("x")(lambda params: LATER)
            async with joined(server) as client:
                self.assertIsNone(await client.call("x"))
        self.assertEqual(len(log.errors), 1)

    async def test_never_answered(self):
        with logged() as log:
            server = Server(grace=0.05)
            server.method("x")(lambda params, request: LATER)

            @server.method("y")
            async def y(params):
                await asyncio.sleep(100)

            async with joined(server, Client(grace=2)) as client:
                calls = [client.call("x"), client.call("y"), client.call("nope")]
                with self.assertRaises(Error):
                    await calls[2]
            for it in calls[:2]:
                with self.assertRaises(Error) as caught:
                    await it
                self.assertEqual(caught.exception.code, -32800)
        # (one for each of the two calls, and one for the session's end)
        self.assertEqual(len(log.errors), 3, log.texts)
        self.assertIn("2 calls came to no end", log.texts[-1])

    async def test_answered_when_all_is_over(self):
        with logged():
            server, kept = Server(grace=0.01), []

            @server.method("x")
            def x(params, request):
                kept.append(request)
                return LATER

            async with joined(server) as client:
                client.call("x")
                await self.until(lambda: kept)
            with self.assertRaises(Closed):
                kept[0].answer(1)
            with self.assertRaises(Closed):
                kept[0].fail(Error(1, "x"))
            with self.assertRaises(Closed):
                kept[0].notify("x")
            with self.assertRaises(Closed):
                kept[0].session.call("x")
