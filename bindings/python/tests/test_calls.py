"""Calls back to the other side, and cancels in every state."""
import asyncio
import gc
import json
import threading
import warnings

from helping import MANY, SECONDS, Case, frame, joined, logged, notice, request, rows

from bullmyrtle import LATER, Client, Closed, Empty, Error, Server, Unanswered
from bullmyrtle._channels import Channel


def a_client(**more):
    client = Client(**more)

    @client.method("twice")
    def twice(params):
        return 2 * params[0]

    @client.method("fail")
    def fail(params):
        raise Error(7, "seven", params)

    @client.method("slow")
    async def slow(params):
        await asyncio.sleep(20)

    return client


class Back(Case):
    async def both(self, method):
        """Runs a method that calls back, async and in a thread, and gives what they answer."""
        server = Server()
        server.method("thread", thread=True)(method)

        @server.method("async")
        async def later(params, request):
            return await asyncio.get_running_loop().run_in_executor(None, method, params, request)

        async with joined(server, a_client()) as client:
            return [await client.call("thread", [4]), await client.call("async", [4])]

    async def test_async(self):
        server = Server()

        @server.method("x")
        async def x(params, request):
            first = request.call("twice", [params[0]])
            second = request.call("twice", [params[0] + 1])
            found = await request.call_batch([("twice", [1]), ("fail", [2])], return_exceptions=True)
            with self.assertRaises(Error) as caught:
                await request.call("fail", [3])
            return [await first, await second, found[0], found[1].data, caught.exception.message]

        @server.method("through")
        async def through(params, request):
            return await request.call("fail", params)

        async with joined(server, a_client()) as client:
            self.assertEqual(await client.call("x", [5]), [10, 12, 2, [2], "seven"])
            with self.assertRaises(Error) as caught:
                await client.call("through", ["d"])
            self.assertEqual((caught.exception.code, caught.exception.data), (7, ["d"]))

    async def test_in_a_thread_it_blocks(self):
        def method(params, request):
            try:
                request.call("fail", [1])
            except Error as error:
                code = error.code
            return [request.call("twice", params), request.call_batch([("twice", [1]), ("twice", [2])]), code]

        self.assertEqual(await self.both(method), [[8, [2, 4], 7]] * 2)

    async def test_in_a_plain_function_it_says_that_it_would_block(self):
        with logged() as log:
            server = Server()

            @server.method("x")
            def x(params, request):
                return request.call("twice", [1])

            @server.method("y")
            def y(params, request):
                try:
                    request.call_batch([("twice", [1])])
                except RuntimeError as error:
                    return str(error)

            async with joined(server, a_client()) as client:
                with self.assertRaises(Error) as caught:
                    await client.call("x")
                self.assertEqual(caught.exception.code, -32603)
                self.assertIn("would block the loop", caught.exception.message)
                self.assertIn("thread=True", await client.call("y"))
        self.assertEqual(len(log.errors), 1)

    async def test_an_empty_batch(self):
        async with joined(Server(), a_client()) as client:
            with self.assertRaises(Empty):
                client.call_batch([])

    async def test_of_its_own(self):
        server, seen = Server(), []
        client = a_client()
        client.method("window/log")(lambda params: seen.append(params))

        @server.method("x")
        def x(params):
            server.notify("window/log", ["hello"])
            server.call("twice", [3]).add_done_callback(lambda it: seen.append(it.result()))

        @server.method("y", thread=True)
        def y(params):
            server.notify("window/log", ["thread"])
            return server.call("twice", [4])

        async with joined(server, client):
            await client.call("x")
            await self.until(lambda: 6 in seen)
            self.assertEqual(await client.call("y"), 8)
        self.assertEqual(seen, [["hello"], 6, ["thread"]])

    async def test_the_request_is_answered_while_others_wait_for_its_calls(self):
        with logged():
            server, found = Server(), []

            @server.method("x")
            async def x(params, request):
                async def helper():
                    try:
                        await request.call("slow")
                    except Closed as error:
                        found.append(error)
                    with self.assertRaises(Closed):
                        request.call("twice", [1])
                    found.append("after")

                found.append(asyncio.ensure_future(helper()))
                await asyncio.sleep(0.01)
                return "done"

            async with joined(server, a_client(grace=0.1)) as client:
                self.assertEqual(await client.call("x"), "done")
                await self.until(lambda: "after" in found)
                self.assertIsInstance(found[1], Closed)

    async def test_a_call_that_isnt_wanted_any_more(self):
        server, gone = Server(), []
        client = Client()

        @client.method("slow")
        async def slow(params):
            try:
                await asyncio.sleep(20)
            except asyncio.CancelledError:
                gone.append(params)
                raise

        @server.method("x")
        async def x(params, request):
            try:
                await asyncio.wait_for(request.call("slow", params), 0.05)
            except asyncio.TimeoutError:
                return "too slow"

        async with joined(server, client):
            self.assertEqual(await client.call("x", [1]), "too slow")
            await self.until(lambda: gone == [[1]])

    async def test_the_end_of_the_input(self):
        with logged():
            server, found = Server(), []

            @server.method("x")
            async def x(params, request):
                with self.assertRaises(Unanswered):
                    await request.call("slow")
                with self.assertRaises(Unanswered):
                    request.call("slow")
                with self.assertRaises(Unanswered):
                    request.call_batch([("slow", None)])
                request.notify("last")
                found.append("async")

            @server.method("y", thread=True)
            def y(params, request):
                for _ in range(2):
                    with self.assertRaises(Unanswered):
                        request.call("slow")
                found.append("thread")

            async with joined(server, a_client()) as client:
                client.notify("x")
                client.notify("y")
                await self.until(lambda: len(server._sessions) and len(server.session._outgoing.replies) == 2)
            self.assertEqual(sorted(found), ["async", "thread"])

    async def test_the_client_gets_unanswered_too(self):
        with logged():
            server = Server(grace=0.05)
            kept = []

            @server.method("x")
            def x(params, request):
                kept.append(request)
                return LATER

            @server.method("exit")
            def end(params):
                server.stop(3)

            client = Client()
            async with joined(server, client):
                call = client.call("x")
                client.notify("exit")
                with self.assertRaises((Error, Unanswered)):
                    await call
                await self.until(lambda: not client._sessions)
                with self.assertRaises(Closed):
                    client.call("x")


class Cancels(Case):
    """Each state in which a request may be cancelled, in the way of each protocol."""

    settings = {"framing": "frames"}
    cancel_of = "$/cancelRequest", "id"

    async def cancelled(self, method, state, after=None, thread=False):
        """Cancels a request once its method is in a state; gives the server's log."""
        server, client, withdrawn = Server(**self.settings), Client(**self.settings), []
        server.method("x", thread=thread)(method)
        self.alive(server)

        @client.method("slow")
        async def slow(params):
            try:
                await asyncio.sleep(20)
            except asyncio.CancelledError:
                withdrawn.append(params)
                raise

        with logged() as log:
            async with joined(server, client):
                call = client.call("x", [1])
                if state is not None:
                    await self.until(state)
                await self.cancel(client, call)
                if after is not None:
                    await self.until(lambda: after(withdrawn))
                self.assertEqual(await client.call("alive"), True)
                counts = server.session._transport.connection.counts()
                self.assertEqual((counts.open, counts.waiting), (0, 0))
        return log.texts

    async def cancel(self, client, call):
        """Cancels a call of the client's as the protocol does, and waits for its answer."""
        # (a Reply that is cancelled would not tell of the answer)
        self.say_cancel(client, call.key)
        with self.assertRaises(Error) as caught:
            await call
        self.assertEqual((caught.exception.code, caught.exception.message), (-32800, "Request cancelled"))

    def say_cancel(self, client, id_):
        name, member = self.cancel_of
        client.notify(name, {member: id_})

    @staticmethod
    def alive(server):
        server.method("alive")(lambda params: True)

    async def test_async_that_sleeps(self):
        seen = []

        async def x(params, request):
            seen.append("began")
            try:
                await asyncio.sleep(20)
            except asyncio.CancelledError:
                seen.append(request.is_cancelled)
                raise

        self.assertEqual(await self.cancelled(x, lambda: seen, lambda _: seen == ["began", True]), [])

    async def test_before_it_began(self):
        seen = []

        async def x(params):
            seen.append(1)
            await asyncio.sleep(20)

        self.assertEqual(await self.cancelled(x, None), [])

    async def test_while_its_calls_wait(self):
        seen = []

        async def x(params, request):
            calls = [request.call("slow", [it]) for it in range(3)]
            seen.append(1)
            try:
                await asyncio.gather(*calls)
            finally:
                seen.append([it.cancelled() for it in calls])

        log = await self.cancelled(x, lambda: seen, lambda withdrawn: sorted(withdrawn) == [[0], [1], [2]])
        self.assertEqual((log, seen), ([], [1, [True] * 3]))

    async def test_a_thread_whose_call_waits(self):
        seen = []

        def x(params, request):
            seen.append("began")
            try:
                request.call("slow", [1])
            except Closed:
                seen.append(request.is_cancelled)
            try:
                request.call("slow", [2])
            except Closed:
                seen.append("closed")
            request.answer("too late")
            return "too late"

        log = await self.cancelled(x, lambda: seen, lambda withdrawn: len(seen) == 3, thread=True)
        self.assertEqual((log, seen), ([], ["began", True, "closed"]))

    async def test_a_thread_that_works(self):
        seen, free = [], threading.Event()

        def x(params):
            seen.append("began")
            free.wait(SECONDS)
            seen.append("result")
            return "too late"

        def after(withdrawn):
            free.set()
            return len(seen) == 2

        self.assertEqual(await self.cancelled(x, lambda: seen, after, thread=True), [])

    async def test_a_thread_that_raises_afterwards(self):
        seen, free = [], threading.Event()

        def x(params):
            seen.append("began")
            free.wait(SECONDS)
            seen.append("raised")
            raise KeyError("too late")

        def after(withdrawn):
            free.set()
            return len(seen) == 2

        self.assertEqual(await self.cancelled(x, lambda: seen, after, thread=True), [])

    async def test_a_thread_that_hasnt_begun(self):
        seen, free = [], threading.Event()
        server = Server(**self.settings, workers=1)
        self.alive(server)

        @server.method("hold", thread=True)
        def hold(params):
            free.wait(SECONDS)

        @server.method("x", thread=True)
        def x(params):
            seen.append(1)

        client = Client(**self.settings)
        async with joined(server, client):
            first = client.call("hold")
            await self.cancel(client, client.call("x"))
            free.set()
            await first
            self.assertTrue(await client.call("alive"))
        self.assertEqual(seen, [])

    async def test_it_goes_on_all_the_same(self):
        seen = []

        async def x(params, request):
            seen.append("began")
            try:
                await asyncio.sleep(20)
            except asyncio.CancelledError:
                pass
            with self.assertRaises(Closed):
                request.call("slow")
            seen.append("went on")
            return "too late"

        self.assertEqual(await self.cancelled(x, lambda: seen, lambda _: len(seen) == 2), [])

    async def test_it_raises_as_it_is_cancelled(self):
        seen = []

        async def x(params):
            seen.append("began")
            try:
                await asyncio.sleep(20)
            finally:
                seen.append("raised")
                raise KeyError("x")

        self.assertEqual(await self.cancelled(x, lambda: seen, lambda _: len(seen) == 2), [])

    async def test_later(self):
        seen = []

        def x(params, request):
            seen.append(request)
            return LATER

        def after(_):
            seen[0].answer("too late")
            seen[0].fail(Error(1, "too late"))
            return seen[0].is_cancelled

        self.assertEqual(await self.cancelled(x, lambda: seen, after), [])

    async def test_a_helper_that_awaits_its_call(self):
        seen = []

        async def x(params, request):
            async def helper():
                try:
                    await request.call("slow")
                except Closed:
                    seen.append("closed")

            seen.append(asyncio.ensure_future(helper()))
            await asyncio.sleep(20)

        self.assertEqual(await self.cancelled(x, lambda: seen, lambda _: len(seen) == 2), [])

    async def test_after_the_answer_and_of_what_isnt_there(self):
        with logged() as log:
            server = Server(**self.settings)
            self.alive(server)
            client = Client(**self.settings)
            async with joined(server, client):
                for id_ in (1, "1", None, 1.0, True, [1], 99):
                    self.assertTrue(await client.call("alive"))
                    self.say_cancel(client, id_)
                client.notify(self.cancel_of[0])
                client.notify(self.cancel_of[0], [1])
                self.assertTrue(await client.call("alive"))
        self.assertEqual(log.texts, [])

    async def test_ids_are_compared_as_values(self):
        with logged():
            server = Server(**self.settings)
            self.alive(server)

            @server.method("x")
            async def x(params, request):
                await asyncio.sleep(20)

            client = Client(**self.settings)
            async with joined(server, client):
                call = client.call("x")
                for other in ("1", 1.0, True, [1], None, 2):
                    self.say_cancel(client, other)
                self.assertTrue(await client.call("alive"))
                self.assertFalse(call.done())
                await self.cancel(client, call)

    async def test_the_client_cancels_by_cancelling_what_it_awaits(self):
        seen = []
        server = Server(**self.settings)
        self.alive(server)

        @server.method("x")
        async def x(params):
            try:
                await asyncio.sleep(20)
            except asyncio.CancelledError:
                seen.append("cancelled")
                raise

        client = Client(**self.settings)
        async with joined(server, client):
            with self.assertRaises(asyncio.TimeoutError):
                await asyncio.wait_for(client.call("x"), 0.05)
            await self.until(lambda: seen)
            self.assertTrue(await client.call("alive"))

    async def test_a_notification_isnt_cancelled(self):
        with logged() as log:
            server, seen = Server(**self.settings), []
            self.alive(server)

            @server.method("x")
            async def x(params):
                await asyncio.sleep(0.05)
                seen.append(params)

            client = Client(**self.settings)
            async with joined(server, client):
                client.notify("x", [1])
                for id_ in range(3):
                    client.notify("$/cancelRequest", {"id": id_})
                await self.until(lambda: seen)
        self.assertEqual(log.texts, [])


class ToolCancels(Cancels):
    settings = {"framing": "lines"}
    cancel_of = "notifications/cancelled", "requestId"


class McpCancels(ToolCancels):
    settings = {"protocol": "mcp"}

    async def cancel(self, client, call):
        """The same: there is no answer."""
        self.say_cancel(client, call.key)
        self.assertTrue(await client.call("alive"))  # (an answer would have come before this one's)
        self.assertFalse(call.done())


class Kept(Channel):
    """A channel that is fed by hand."""

    takes_turns = True

    def __init__(self):
        self.written = b""

    def start(self, transport):
        self.session = transport.session

    def write(self):
        self.written += self.session._transport.take(1 << 20)


class Alone(Case):
    """A call that comes by itself."""

    async def answers(self, method):
        """What is answered where a call of the method comes, which is given the channel."""
        server, channel = Server(framing="lines"), Kept()
        server.method("x")(lambda: method(channel))
        server.method("echo")(lambda params: params)
        serving = asyncio.ensure_future(server.serve_over(channel))
        await asyncio.sleep(0)
        channel.session._transport.received(json.dumps(request(1, "x")).encode() + b"\n")
        while channel.written.count(b"\n") < 3:
            await asyncio.sleep(0)
        channel.session._transport.input_ended(False)
        self.assertEqual(await serving, 0)
        return [json.loads(it) for it in channel.written.splitlines()]

    def more(self, channel):
        """Two more calls come, each by itself."""
        for id_ in (2, 3):
            channel.session._transport.received(json.dumps(request(id_, "echo", [id_])).encode() + b"\n")

    async def test_more_that_comes_while_it_runs(self):
        """It is answered behind it, in its order."""

        def returns(channel):
            self.more(channel)
            return 1

        def fails(channel):
            self.more(channel)
            raise Error(7, "seven")

        for method, said in ((returns, {"result": 1}), (fails, {"error": {"code": 7, "message": "seven"}})):
            first, *others = await self.answers(method)
            self.assertEqual(first, {"jsonrpc": "2.0", "id": 1, **said})
            self.assertEqual([(it["id"], it["result"]) for it in others], [(2, [2]), (3, [3])])

    async def test_more_that_comes_while_it_is_awaited(self):
        """It is answered before it."""

        def awaits(channel):
            async def later():
                await asyncio.sleep(0.01)
                return 1

            self.more(channel)
            return later()

        found = await self.answers(awaits)
        self.assertEqual([(it["id"], it["result"]) for it in found], [(2, [2]), (3, [3]), (1, 1)])


class BeforeItsTurn(Case):
    """A request whose cancel has been read before its turn never begins."""

    # Each way to cancel: a server's settings, the notification, its member, and the error that is answered.
    WAYS = [
        ({"framing": "lines", "cancel_by": "$/cancelRequest"}, "$/cancelRequest", "id", -32800),
        ({"framing": "lines"}, "notifications/cancelled", "requestId", -32800),
        ({"protocol": "mcp"}, "notifications/cancelled", "requestId", None),
    ]

    async def told(self, pieces, settings):
        """What begins where pieces of lines are read, each in one turn of the loop, and what is answered by id."""
        with logged() as log:
            server, channel, began = Server(**settings), Kept(), []

            @server.method("plain")
            def plain(params):
                began.append(params[0])
                return "done"

            @server.method("two")
            def two(params, request):
                began.append(params[0])
                return "done"

            @server.method("async")
            async def later(params):
                began.append(params[0])
                await asyncio.sleep(0)
                return "done"

            @server.method("thread", thread=True)
            def thread(params):
                began.append(params[0])
                return "done"

            serving = asyncio.ensure_future(server.serve_over(channel))
            await asyncio.sleep(0)
            for it in pieces:
                channel.session._transport.received(b"".join(json.dumps(one).encode() + b"\n" for one in it))
                await asyncio.sleep(0)
            channel.session._transport.input_ended(False)
            self.assertEqual(await serving, 0)
            answers = {}
            for it in map(json.loads, channel.written.splitlines()):
                for one in it if isinstance(it, list) else [it]:
                    answers[one["id"]] = one.get("result", one.get("error", {}).get("code"))
            found = sorted(began), answers
        self.assertEqual(log.texts, [])
        return found

    @rows([(kind, *way) for way in WAYS for kind in ("plain", "two", "async", "thread")])
    async def test_of_each_kind_and_by_each_protocol(self, kind, settings, name, member, code):
        said = [request(it, kind, [it]) for it in range(12)]
        cancels = [notice(name, {member: it}) for it in range(11)]
        # (as an editor has it: each keystroke asks, and cancels what the one before it asked)
        keys = [one for pair in zip(said, [*cancels, notice("nothing")]) for one in pair]
        codes = {it: code for it in range(11) if code is not None}
        for pieces in ([keys], [[*said, *cancels]]):
            self.assertEqual(await self.told(pieces, settings), ([11], {**codes, 11: "done"}))

    @rows([(kind, *way) for way in WAYS for kind in ("plain", "async", "thread")])
    async def test_in_a_batch(self, kind, settings, name, member, code):
        batch = [request(1, kind, [1]), request("1", kind, [2]), notice(name, {member: 1})]
        codes = {} if code is None else {1: code}
        self.assertEqual(await self.told([[batch]], settings), ([2], {**codes, "1": "done"}))

    @rows(WAYS)
    async def test_a_cancel_that_comes_first_reaches_nothing(self, settings, name, member, _):
        said = [notice(name, {member: 1}), request(1, "plain", [1]), request(2, "async", [2])]
        self.assertEqual(await self.told([said], settings), ([1, 2], {1: "done", 2: "done"}))

    @rows(WAYS)
    async def test_an_id_that_comes_again(self, settings, name, member, _):
        said = [request(1, "plain", [1]), notice(name, {member: 1}), request(1, "plain", [2])]
        self.assertEqual(await self.told([said], settings), ([2], {1: "done"}))

    @rows(WAYS)
    async def test_while_earlier_ones_begin(self, settings, name, member, code):
        # (each async method has a turn of the loop for its first step, and the cancel is read meanwhile)
        said = [[request(it, "async", [it]) for it in range(9)], [notice(name, {member: 8})]]
        began, answers = await self.told(said, settings)
        self.assertEqual((began, answers.get(8)), (list(range(8)), code))

    @rows(["async", "plain"])
    async def test_a_coroutine_that_never_begins_warns_nobody(self, kind):
        server, channel, began = Server(), Kept(), []

        async def later():
            began.append(1)

        server.method("x")(later if kind == "async" else lambda params: later())
        with warnings.catch_warnings(record=True) as caught:
            warnings.simplefilter("always")
            serving = asyncio.ensure_future(server.serve_over(channel))
            await asyncio.sleep(0)
            # (its task is made, and is cancelled before its first step)
            channel.session._transport.received(frame(request(1, "x")))
            channel.session._transport.received(frame(notice("$/cancelRequest", {"id": 1})))
            channel.session._transport.input_ended(False)
            self.assertEqual(await serving, 0)
            self.assertEqual(began, [])
            self.assertIn(b"-32800", channel.written)
            gc.collect()
            self.assertEqual([str(it.message) for it in caught if "never awaited" in str(it.message)], [])

    async def test_many_cost_little(self):
        server, channel = Server(framing="lines"), Kept()
        server.method("x")(lambda params: params)
        serving = asyncio.ensure_future(server.serve_over(channel))
        await asyncio.sleep(0)
        for count in (MANY // 25, MANY // 12):
            data = b"".join(
                b'{"jsonrpc":"2.0","method":"x","id":%d}\n' % it for it in range(count)
            ) + b"".join(
                b'{"jsonrpc":"2.0","method":"notifications/cancelled","params":{"requestId":%d}}\n' % it
                for it in range(count)
            )
            for at in range(0, len(data), 60_000):
                channel.session._transport.received(data[at : at + 60_000])
        self.assertEqual(channel.session._transport.gone, set())
        channel.session._transport.input_ended(False)
        self.assertEqual(await serving, 0)
