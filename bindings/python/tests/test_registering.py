"""Registering: names, how params fill parameters, classes, what answers other names, and functions in threads."""
import asyncio
import dataclasses
import functools
import threading
import typing

from helping import SECONDS, Case, joined, logged, rows

import bullmyrtle
from bullmyrtle import LATER, Closed, Error, Request, Server


class Asking(Case):
    """What a server answers, each of whose methods is registered as `m`."""

    async def answers(self, function, *params, **how):
        """The result for each of these params; an error's code and message stand for it."""
        with logged() as log:
            server, found = Server(), []
            server.method("m", **how)(function)
            async with joined(server) as client:
                for it in params:
                    try:
                        found.append(await client.call("m", it))
                    except Error as error:
                        found.append((error.code, error.message))
        self.assertEqual(log.texts, [])
        return found

    def refused(self, function, *words, **how):
        with self.assertRaises(TypeError) as caught:
            Server().method("m", **how)(function)
        for it in ("m: ", *words):
            self.assertIn(it, str(caught.exception))


class Names(Asking):
    async def test_without_parentheses(self):
        server = Server()

        @server.method
        def add(a, b):
            return a + b

        @server.method
        async def later(params):
            return params

        @server.method()
        def empty():
            return "empty"

        @server.method(thread=True)
        def where(params):
            return threading.current_thread() is threading.main_thread()

        async with joined(server) as client:
            self.assertEqual(await client.call("add", [1, 2]), 3)
            self.assertEqual(await client.call("later", [1]), [1])
            self.assertEqual(await client.call("empty"), "empty")
            self.assertIs(await client.call("where"), False)
        self.assertEqual(add(1, 2), 3)

    def test_what_has_no_name(self):
        server = Server()
        for nameless in (lambda params: params, functools.partial(max, 1)):
            with self.assertRaises(TypeError) as caught:
                server.method(nameless)
            self.assertIn('server.method("name")(..)', str(caught.exception))
        for odd in (5, b"name", "", ["name"]):
            with self.assertRaises(TypeError):
                server.method(odd)(lambda params: params)
        with self.assertRaises(TypeError):
            server.method("m")(5)

    def test_a_name_twice(self):
        server = Server()

        @server.method
        def add(a, b):
            return a + b

        with self.assertRaises(ValueError) as caught:
            server.method(add)
        self.assertIn("'add'", str(caught.exception))


class Parameters(Asking):
    async def test_one_gets_the_params_whole(self):
        given = [[1, 2], {"a": 1}, [], None]
        self.assertEqual(await self.answers(lambda a: a, *given), given)
        self.assertEqual(await self.answers(lambda a=5: a, *given), given)
        self.assertEqual(await self.answers(lambda a, /: a, *given), given)
        self.assertEqual(await self.answers(lambda: "nothing", *given), ["nothing"] * 4)

    async def test_the_request_comes_second(self):
        def named(a, request):
            return [a, request.method]

        def annotated(a, asked: Request):
            return [a, asked.method]

        def as_text(a, asked: "bullmyrtle.Request"):
            return [a, asked.method]

        def unknown(a, asked: "Nowhere.Request"):  # noqa: F821
            return [a, asked.method]

        def maybe(a, asked: typing.Optional[Request] = None):
            return [a, asked.method]

        def with_default(a, request=None, own=5):
            return [a, request.method]

        async def later(a, request):
            return [a, request.method]

        for it in (named, annotated, as_text, unknown, maybe, with_default, later):
            with self.subTest(it.__name__):
                self.assertEqual(
                    await self.answers(it, [1, 2], {"b": 1}, None),
                    [[[1, 2], "m"], [{"b": 1}, "m"], [None, "m"]],
                )

    @rows([lambda params, kept=7: [params, kept], lambda params, *, kept=7: [params, kept]])
    async def test_a_first_one_named_params_gets_them_whole(self, it):
        """(as the idiom that keeps a variable of a loop: nobody from outside can reach `kept`)"""
        self.assertEqual(
            await self.answers(it, [1, 2], {"params": 1, "kept": 2}),
            [[[1, 2], 7], [{"params": 1, "kept": 2}, 7]],
        )

    async def test_they_are_filled(self):
        def add(a, b=10):
            return a + b

        self.assertEqual(await self.answers(add, [1, 2], {"b": 3, "a": 4}, [1], {"a": 5}), [3, 7, 11, 15])
        self.assertEqual(
            await self.answers(add, [], {"b": 1}, None, [1, 2, 3], {"a": 1, "c": 2}),
            [
                (-32602, "Invalid params: params lacks a"),
                (-32602, "Invalid params: params lacks a"),
                (-32602, "Invalid params: params lacks a"),
                (-32602, "Invalid params: params has to have at most 2 items, and has 3"),
                (-32602, "Invalid params: params has a member 'c', which no parameter takes"),
            ],
        )
        for how in ({}, {"thread": True}):
            self.assertEqual(await self.answers(lambda a, b: [b, a], [1, 2], **how), [[2, 1]])

        async def later(a, b):
            return [b, a]

        self.assertEqual(await self.answers(later, [1, 2], {"a": 1, "b": 2}), [[2, 1], [2, 1]])

    async def test_the_rest(self):
        self.assertEqual(await self.answers(lambda *all_: list(all_), [1, 2], [], None), [[1, 2], [], []])
        self.assertEqual(
            await self.answers(lambda a, *more: [a, list(more)], [1, 2, 3], {"a": 1}), [[1, [2, 3]], [1, []]]
        )
        self.assertEqual(await self.answers(lambda **named: named, {"a": 1}, None), [{"a": 1}, {}])
        self.assertEqual(
            await self.answers(lambda a, *more, **named: [a, list(more), named], [1, 2], {"a": 1, "b": 2}),
            [[1, [2], {}], [1, [], {"b": 2}]],
        )
        self.assertEqual(
            await self.answers(lambda *all_: 1, {"a": 1}),
            [(-32602, "Invalid params: params has a member 'a', which no parameter takes")],
        )
        self.assertEqual(
            await self.answers(lambda **named: 1, [1]),
            [(-32602, "Invalid params: params has to have at most 0 items, and has 1")],
        )

    async def test_places_and_names(self):
        self.assertEqual(
            await self.answers(lambda a, *, b: [a, b], {"a": 1, "b": 2}, [1]),
            [[1, 2], (-32602, "Invalid params: params has to be an object, and is an array")],
        )
        self.assertEqual(
            await self.answers(lambda a, b, /: [a, b], [1, 2], {"a": 1, "b": 2}),
            [[1, 2], (-32602, "Invalid params: params has to be an array, and is an object")],
        )
        self.assertEqual(
            await self.answers(lambda a=1, b=2, /: [a, b], [3], {}, {"a": 3}),
            [[3, 2], [1, 2], (-32602, "Invalid params: params has a member 'a', which no parameter takes")],
        )

    async def test_annotations(self):
        @dataclasses.dataclass
        class Place:
            line: int

        def move(place: Place, by: int = 1, *more: str, **named: float):
            assert isinstance(place, Place)
            return [place.line, by, list(more), named]

        at = {"line": 4}
        self.assertEqual(
            await self.answers(move, [at], [at, 2, "x"], {"place": at, "c": 1.5}),
            [[4, 1, [], {}], [4, 2, ["x"], {}], [4, 1, [], {"c": 1.5}]],
        )
        self.assertEqual(
            await self.answers(move, [at, "2"], {"place": {}}, [at, 2, "x", 3], {"place": at, "c": "x"}),
            [
                (-32602, "Invalid params: params[1] has to be an integer, and is a string"),
                (-32602, "Invalid params: params.place lacks line"),
                (-32602, "Invalid params: params[3] has to be a string, and is an integer"),
                (-32602, "Invalid params: params.c has to be a number, and is a string"),
            ],
        )

    async def test_the_request_by_its_name(self):
        def filled(a, b, *, request):
            return [a, b, request.method]

        def whole(params, *, asked: Request):
            return [params, asked.method]

        def more(a, *, request, **named):
            return [a, request.method, named]

        self.assertEqual(await self.answers(filled, [1, 2], {"a": 1, "b": 2}), [[1, 2, "m"], [1, 2, "m"]])
        self.assertEqual(await self.answers(whole, [1, 2]), [[[1, 2], "m"]])
        self.assertEqual(
            await self.answers(lambda a, *, request: [a, request.method], [1], {"a": 1}), [[1, "m"], [1, "m"]]
        )
        self.assertEqual(await self.answers(lambda *, request: request.method, [1], None), ["m", "m"])
        self.assertEqual(
            await self.answers(more, {"a": 1, "c": 2}, {"a": 1, "request": 2}),
            [
                [1, "m", {"c": 2}],
                (-32602, "Invalid params: params has a member 'request', which no parameter takes"),
            ],
        )

    async def test_what_is_bound_stays(self):
        class Thing:
            def any(self, **named):
                return named

            def __call__(self, a, b):
                return [a, b]

        self.assertEqual(
            await self.answers(Thing().any, {"a": 1}, {"self": 1}),
            [{"a": 1}, (-32602, "Invalid params: params has a member 'self', which no parameter takes")],
        )
        self.assertEqual(await self.answers(Thing(), [1, 2]), [[1, 2]])

        def pair(a, b):
            return [a, b]

        self.assertEqual(await self.answers(functools.partial(pair, 1), [2]), [[1, [2]]])
        self.assertEqual(
            await self.answers(functools.partial(pair, b=1), [2], {"b": 3}), [[[2], 1], [{"b": 3}, 1]]
        )

    async def test_decorated_functions(self):
        def doubled(function):
            @functools.wraps(function)
            def wrapper(*all_, **named):
                return 2 * function(*all_, **named)

            return wrapper

        self.assertEqual(await self.answers(doubled(lambda a, b: a + b), [1, 2], {"a": 1, "b": 2}), [6, 6])
        self.assertEqual(await self.answers(doubled(lambda params, request: params), [1]), [[1, 1]])

    @rows(["", "a b", "\u00e9\n", "x" * 5000, "__class__"])
    async def test_names_from_outside(self, name):
        """A member's name goes into an answer, and nowhere else."""
        ((code, message),) = await self.answers(lambda a, b: 1, {"a": 1, "b": 2, name: 3})
        self.assertEqual(code, -32602)
        self.assertLess(len(message), 200)

    def test_refused(self):
        self.refused(lambda params, req: 1, "def m(params, request)", "'req'", "Request")
        self.refused(lambda params, req, more: 1, "def m(params, request)", "'req'")
        self.refused(lambda params, request, more: 1, "def m(params, request)", "'more'")
        self.refused(lambda request, params: 1, "def m(params, request)")

        def alone(asked: Request):
            return 1

        self.refused(alone, "def m(params, request)")
        self.refused(lambda a, b, request: 1, "def m(params, request)", "def m(a, b, *, request)")
        self.refused(lambda a, b, /, *, c: 1, "def m(a, b, c)")
        self.refused(lambda ls, params: 1, "the params come first", "def m(params, request)")
        self.refused(lambda a, *, params: 1, "the params come first")

        def odd(a, b: set):
            return 1

        self.refused(odd, "'b'", "set")

        def unknown(a, b: "Nowhere"):  # noqa: F821
            return 1

        self.refused(unknown, "'b'")

        async def later(a, b):
            return 1

        self.refused(later, "async", thread=True)
        self.refused(dict, "lambda params: ")


class Classes(Asking):
    async def test_an_instance(self):
        class Words:
            def __init__(self):
                self.seen = []

            @bullmyrtle.method("words/count")
            def count(self, text: str, least: int = 0):
                return sum(len(it) >= least for it in text.split())

            @bullmyrtle.method("words/see")
            @bullmyrtle.method("words/look")
            async def see(self, params, request):
                self.seen.append(request.method)

            @bullmyrtle.method
            def seen_so_far(self):
                return self.seen

            @bullmyrtle.method("words/where", thread=True)
            def where(self):
                return threading.current_thread() is threading.main_thread()

            @staticmethod
            @bullmyrtle.method("words/static")
            def static(params):
                return params

            @bullmyrtle.method("words/class")
            @classmethod
            def of_class(cls, params):
                return cls.__name__

            @property
            def never(self):
                raise AssertionError("registering looks at nothing that it isn't told of")

            def plain(self, params):
                return 1

        server = Server()
        words = server.register(Words())
        async with joined(server) as client:
            self.assertEqual(await client.call("words/count", ["a bc def", 2]), 2)
            await client.call("words/see")
            await client.call("words/look")
            self.assertEqual(await client.call("seen_so_far"), ["words/see", "words/look"])
            self.assertIs(await client.call("words/where"), False)
            self.assertEqual(await client.call("words/static", [1]), [1])
            self.assertEqual(await client.call("words/class", [1]), "Words")
            with self.assertRaises(Error) as caught:
                await client.call("plain")
            self.assertEqual(caught.exception.code, -32601)
        self.assertEqual(words.count("a b"), 2)

    async def test_subclasses(self):
        class Base:
            @bullmyrtle.method("greet")
            def greet(self):
                return "base"

            @bullmyrtle.method("stay")
            def stay(self):
                return "stay"

        class Other(Base):
            def greet(self):
                return "other"

        server = Server()
        server.register(Other())
        async with joined(server) as client:
            self.assertEqual(await client.call("greet"), "other")
            self.assertEqual(await client.call("stay"), "stay")

    def test_refused(self):
        class Words:
            @bullmyrtle.method("one")
            def one(self):
                return 1

            @bullmyrtle.method("two")
            def two(self):
                return 2

        server = Server()
        with self.assertRaises(TypeError) as caught:
            server.register(Words)
        self.assertIn("Words()", str(caught.exception))
        with self.assertRaises(TypeError) as caught:
            server.register(object())
        self.assertIn("@bullmyrtle.method", str(caught.exception))
        server.method("two")(lambda: 0)
        with self.assertRaises(ValueError):
            server.register(Words())
        server.method("one")(lambda: 1)  # (of the refused instance nothing was registered)
        with self.assertRaises(TypeError):
            bullmyrtle.method(5)
        with self.assertRaises(TypeError):
            bullmyrtle.method("one")(5)


class Fallback(Case):
    async def test_other_names(self):
        server, seen = Server(), []
        server.method("known")(lambda: "known")

        @server.fallback
        async def other(params, request):
            seen.append((request.method, params, request.is_notification))
            if request.method == "bad":
                raise Error(-32601, "no such thing")
            return request.method

        async with joined(server) as client:
            self.assertEqual(await client.call("known"), "known")
            self.assertEqual(await client.call("unknown", [1]), "unknown")
            client.notify("told", {"a": 1})
            with self.assertRaises(Error) as caught:
                await client.call("bad")
            self.assertEqual(caught.exception.message, "no such thing")
            client.notify("$/setTrace", {"value": "off"})
            with self.assertRaises(Error) as caught:
                await client.call("$/x")
            self.assertEqual(
                (caught.exception.code, caught.exception.message), (-32601, "Method not found: $/x")
            )
        self.assertEqual(seen, [("unknown", [1], False), ("told", {"a": 1}, True), ("bad", None, False)])

    async def test_dollar_names(self):
        server = Server()
        server.fallback(lambda params, request: request.method, dollar=True)
        async with joined(server) as client:
            self.assertEqual(await client.call("$/x"), "$/x")

    async def test_in_a_thread(self):
        server = Server()

        @server.fallback(thread=True)
        def other(params):
            return threading.current_thread() is threading.main_thread()

        async with joined(server) as client:
            self.assertIs(await client.call("x"), False)

    async def test_it_may_come_while_a_session_runs(self):
        server = Server()
        async with joined(server) as client:
            with self.assertRaises(Error):
                await client.call("x")
            server.fallback(lambda params: "now")
            self.assertEqual(await client.call("x"), "now")

    @rows(["frames", "lines"])
    def test_cancels_arent_for_it(self, framing):
        async def main(framing=framing):
            server, seen = Server(framing=framing), []
            server.fallback(lambda params, request: seen.append(request.method))

            @server.method("wait")
            async def wait(params):
                await asyncio.sleep(20)

            async with joined(server) as client:
                call = client.call("wait")
                await asyncio.sleep(0.01)
                call.cancel()
                client.notify(
                    "notifications/cancelled" if framing == "lines" else "$/cancelRequest", {"x": 1}
                )
                await client.call("last")
            self.assertEqual(seen, ["last"])

        self.wait(main())

    async def test_names_from_outside_stay_in_one_line_of_the_log(self):
        name = "a\nERROR: b\r\x1b[1m\u2028" + "x" * 5000
        with logged() as log:
            server = Server(grace=0.01)

            @server.fallback
            def other(params, request):
                if params:
                    raise KeyError("no")
                return LATER

            async with joined(server) as client:
                with self.assertRaises(Error):
                    await client.call(name, [1])
                client.notify(name, [1])
                client.call(name)
                await asyncio.sleep(0.01)
            end = server.ended
        self.assertEqual((end.how, len(log.texts)), ("Late", 4))
        for it in (*log.texts, end.text):
            self.assertEqual(len(it.splitlines()), 1, it)
            self.assertNotIn("\x1b", it)
            self.assertLess(len(it), 2000)

    def test_twice(self):
        server = Server()
        server.fallback(lambda params: 1)
        with self.assertRaises(ValueError):
            server.fallback(lambda params: 2)
        with self.assertRaises(TypeError):
            Server().fallback("name")


class InThreads(Case):
    async def test_any_function(self):
        def work(a, b=1):
            return [a, b, threading.current_thread() is threading.main_thread()]

        server = Server()

        @server.method("await")
        async def awaited(params):
            return await server.in_thread(work, 1, b=2)

        @server.method("return")
        def returned(params, request):
            return request.in_thread(work, 3)

        @server.method("raise")
        async def raised(params):
            def fail():
                raise Error(7, "seven")

            return await server.in_thread(fail)

        @server.method("stop")
        async def stopped(params):
            return await server.in_thread(next, iter(()))

        async with joined(server) as client:
            self.assertEqual(await client.call("await"), [1, 2, False])
            self.assertEqual(await client.call("return"), [3, 1, False])
            with self.assertRaises(Error) as caught:
                await client.call("raise")
            self.assertEqual(caught.exception.code, 7)
            with logged(), self.assertRaises(Error) as caught:
                await client.call("stop")
            self.assertEqual(caught.exception.code, -32603)

    async def test_a_cancelled_one_never_begins(self):
        server, ran, free = Server(workers=1), [], threading.Event()

        @server.method("work")
        async def work(params):
            return await server.in_thread(lambda: (free.wait(SECONDS), ran.append(params[0])))

        async with joined(server) as client:
            first = client.call("work", [1])
            second = client.call("work", [2])
            await asyncio.sleep(0.05)
            second.cancel()
            await asyncio.sleep(0.05)
            free.set()
            await first
        self.assertEqual(ran, [1])

    async def test_it_uses_the_servers_own_threads(self):
        server, seen = Server(workers=2), set()

        @server.method("work")
        async def work(params):
            await server.in_thread(lambda: seen.add(threading.current_thread().name))

        before = threading.active_count()
        async with joined(server) as client:
            await asyncio.gather(*(client.call("work") for _ in range(20)))
        self.assertLessEqual(seen, {"bullmyrtle-1", "bullmyrtle-2"})
        self.assertEqual(threading.active_count(), before)

    async def test_where_it_cant_be(self):
        server = Server()
        with self.assertRaises(Closed):
            server.in_thread(len, "abc")
        caught = []

        @server.method("thread", thread=True)
        def thread(params, request):
            try:
                request.in_thread(len, "abc")
            except RuntimeError as error:
                caught.append(str(error))

        async with joined(server) as client:
            await client.call("thread")
            session = server.session
        self.assertIn("thread already", caught[0])
        with self.assertRaises(Closed):
            session.in_thread(len, "abc")
