"""A tool server over HTTP: sessions, streams that go on where they broke, and each status."""
import asyncio
import contextlib
import threading

from asgi_caller import Web
from helping import Case, logged, notice, patience, rows
from test_tool_versions import ANSWERS, INITIALIZED, VERSIONS, make_server, older

from bullmyrtle import Refused
from bullmyrtle.mcp import Context, ToolServer


def words(**settings):
    """A server with tools, and what they wait for."""
    server = ToolServer("words", "1.0", **settings)
    server.go = {}

    @server.tool
    def count(text: str) -> int:
        return len(text.split())

    @server.tool
    async def steps(name: str, context: Context, count: int = 3) -> str:
        """Reports its steps, and waits before the last one until the test lets it go on."""
        for it in range(1, count + 1):
            context.report_progress(it)
        await server.go.setdefault(name, asyncio.Event()).wait()
        return f"done: {name}"

    @server.tool
    async def title(context: Context) -> str:
        context.info("asking")
        return (await context.sample("A title?"))["content"]["text"]

    @server.tool(thread=True)
    def block(context: Context) -> str:
        context.report_progress(1)
        return context.sample("A title?")["content"]["text"]

    return server


def progress(number, token=1):
    return {
        "jsonrpc": "2.0",
        "method": "notifications/progress",
        "params": {"progressToken": token, "progress": number},
    }


class Over(Case):
    @contextlib.asynccontextmanager
    async def over(self, server=None, **settings):
        """A client of an application, of which nothing is left."""
        with logged() as log:
            app = (server or words()).asgi(**settings)
            yield Web(app)
            await app.close()
            self.assertEqual(app.sessions, 0)
        self.texts = log.texts

    @contextlib.asynccontextmanager
    async def begun(self, server=None, **settings):
        """The same, whose session has begun."""
        async with self.over(server, **settings) as web:
            await web.begin()
            yield web


class Posts(Over):
    async def test_a_call(self):
        async with self.over() as web:
            result = await web.begin()
            self.assertEqual(result["serverInfo"], {"name": "words", "version": "1.0"})
            response = web.call("count", {"text": "a b c"})
            self.assertEqual(await response.whole(), 200)
            self.assertEqual(response.headers["content-type"], "application/json")
            self.assertEqual(response.json["id"], 2)
            self.assertEqual(response.json["result"]["structuredContent"], {"result": 3})
            self.assertEqual(await web.delete(), 204)
            self.assertEqual(await web.call("count").whole(), 404)

    async def test_a_stream(self):
        server = words()
        async with self.begun(server) as web:
            response = web.call("steps", {"name": "a"}, {"progressToken": 1})
            await response.until(lambda it: len(it.events) == 4)
            self.assertTrue(response.is_stream)
            server.go["a"].set()
            self.assertEqual(await response.whole(), 200)
            *first, last = response.messages
            self.assertEqual(first, [progress(1), progress(2), progress(3)])
            self.assertEqual((last["id"], last["result"]["content"][0]["text"]), (2, "done: a"))
            # (an event first that has no data, so that a client can ask for the rest)
            ids = [it for it, _ in response.events]
            self.assertEqual(response.events[0][1], "")
            self.assertEqual(len(set(ids)), 5)

    async def test_it_goes_on_where_it_broke(self):
        server = words()
        async with self.begun(server) as web:
            for at in range(4):
                name = f"cut {at}"
                response = web.call("steps", {"name": name}, {"progressToken": 1})
                await response.until(lambda it: len(it.events) == 4)
                response.cut()
                await response.whole()
                again = web.get(response.events[at][0])
                await again.until(lambda it: len(it.messages) == 3 - at)
                server.go[name].set()
                await again.whole()
                self.assertEqual(again.messages[:-1], [progress(it) for it in range(at + 1, 4)])
                self.assertEqual(again.messages[-1]["result"]["content"][0]["text"], f"done: {name}")
                # (and once more, when all is over)
                once_more = web.get(response.events[at][0])
                await once_more.whole()
                self.assertEqual(once_more.events, again.events)

    @rows([("auto", False, True), ("json", False, False), ("stream", True, True)])
    async def test_an_answer_that_is_late_or_not(self, answers, quick, slow):
        """ "auto" answers by JSON what is there at once; the others always do the same."""
        server = words()
        async with self.begun(server, answers=answers) as web:
            response = web.call("count", {"text": "a"})
            await response.whole()
            self.assertEqual((response.is_stream, len(response.messages)), (quick, 1))
            response = web.call("steps", {"name": answers, "count": 0})
            await self.until(lambda: answers in server.go)
            if slow:
                await response.until(lambda it: it.status)
            else:
                await asyncio.sleep(0.1)
            server.go[answers].set()
            await response.whole()
            self.assertEqual((response.is_stream, len(response.messages)), (slow, 1))

    @rows([("title", "notifications/message"), ("block", "notifications/progress")])
    async def test_what_a_call_asks_is_on_its_own_stream(self, tool, before):
        """basic/transports: messages on a POST's stream relate to its request; those on a GET's to none."""
        async with self.over() as web:
            await web.begin(sampling={})
            own = web.get()
            calls = [web.call(tool, meta={"progressToken": it}) for it in range(3)]
            for it in calls:
                await it.until(lambda it: len(it.messages) == 2)
                self.assertEqual([m["method"] for m in it.messages], [before, "sampling/createMessage"])
            for at in (2, 0, 1):
                asked = calls[at].messages[1]["id"]
                text = {"role": "assistant", "content": {"type": "text", "text": f"{at}"}, "model": "m"}
                reply = web.post({"jsonrpc": "2.0", "id": asked, "result": text})
                self.assertEqual((await reply.whole(), reply.data), (202, b""))
                await calls[at].whole()
                self.assertEqual(calls[at].messages[2]["result"]["content"][0]["text"], f"{at}")
            self.assertEqual(own.messages, [])
            own.cut()

    async def test_what_belongs_to_no_call(self):
        """It goes to one stream of a GET, and waits where there is none; nothing comes twice."""
        server = words()
        async with self.begun(server) as web:
            server.log("info", 1)
            first = web.get()
            await first.until(lambda it: len(it.messages) == 1)
            second = web.get()
            await second.until(lambda it: it.status)
            server.log("info", 2)
            await second.until(lambda it: len(it.messages) == 1)
            second.cut()
            await second.task
            server.log("info", 3)
            await first.until(lambda it: len(it.messages) == 2)
            first.cut()
            await first.task
            server.log("info", 4)
            await asyncio.sleep(0)
            again = web.get(first.events[0][0])
            await again.until(lambda it: len(it.messages) == 2)
            came = [[it["params"]["data"] for it in of.messages] for of in (first, second, again)]
            self.assertEqual(came, [[1, 3], [2], [3, 4]])
            again.cut()

    async def test_a_stream_that_drops_is_no_cancel(self):
        server = words()
        ended = []

        @server.tool
        async def work(context: Context) -> str:
            context.report_progress(1)
            try:
                await server.go.setdefault("work", asyncio.Event()).wait()
            finally:
                ended.append(context.is_cancelled)
            return "done"

        async with self.begun(server) as web:
            response = web.call("work", meta={"progressToken": 1})
            await response.until(lambda it: len(it.messages) == 1)
            response.cut()
            await response.task
            self.assertEqual((await web.ask("ping"))["result"], {})
            self.assertEqual(ended, [])
            server.go["work"].set()
            again = web.get(response.last_id)
            await again.whole()
            self.assertEqual(again.messages[0]["result"]["content"][0]["text"], "done")
            self.assertEqual(ended, [False])

    @rows([("stream", 200), ("json", 202)])
    async def test_a_cancel(self, answers, status):
        """A cancelled request has no response, on its stream or else."""
        server = words()
        async with self.begun(server, answers=answers) as web:
            response = web.call("steps", {"name": "a"}, {"progressToken": 1})
            await self.until(lambda: "a" in server.go)
            cancel = notice("notifications/cancelled", {"requestId": web._last})
            self.assertEqual(await web.post(cancel).whole(), 202)
            await response.whole()
            self.assertEqual([it for it in response.messages if "id" in it], [])
            self.assertEqual(response.status, status)

    async def test_batches(self):
        """2025-03-26 has them, and no other version."""
        async with self.over() as web:
            for version in VERSIONS:
                await web.begin(version)
                batch = [web.message("ping"), notice("notifications/x"), web.message("nothing")]
                response = web.post(batch)
                await response.whole()
                if version != "2025-03-26":
                    self.assertEqual((response.status, response.json["error"]["code"]), (400, -32600))
                    continue
                self.assertEqual([it["id"] for it in response.json], [batch[0]["id"], batch[2]["id"]])
                self.assertEqual(await web.post([notice("notifications/x")]).whole(), 202)
                about = {
                    "protocolVersion": version,
                    "capabilities": {},
                    "clientInfo": {"name": "t", "version": "1"},
                }
                self.assertEqual(await web.post([web.message("initialize", about)]).whole(), 400)

    async def test_a_batch_of_which_some_are_cancelled(self):
        server = words()
        async with self.over(server) as web:
            await web.begin("2025-03-26")
            calls = [
                web.message("tools/call", {"name": "steps", "arguments": {"name": f"{it}"}})
                for it in range(3)
            ]
            response = web.post(calls)
            await self.until(lambda: len(server.go) == 3)
            await web.tell("notifications/cancelled", {"requestId": calls[0]["id"]})
            server.go["1"].set()
            await asyncio.sleep(0)
            await web.tell("notifications/cancelled", {"requestId": calls[2]["id"]})
            await response.whole()
            self.assertEqual([[it["id"] for it in of] for of in response.messages], [[calls[1]["id"]]])
            server.go.clear()
            response = web.post(calls)
            await self.until(lambda: len(server.go) == 3)
            for it in calls:
                await web.tell("notifications/cancelled", {"requestId": it["id"]})
            await response.whole()
            self.assertEqual(response.messages, [])

    @rows(VERSIONS)
    async def test_what_each_version_is_told_of_streams(self, version):
        """2025-11-25 has an event without data first, and clients that ask again; the older ones know of neither."""
        server = words()
        async with self.over(server, poll=0.1, retry=0.25) as web:
            await web.begin(version)
            response = web.call("steps", {"name": "a"}, {"progressToken": 1})
            await self.until(lambda: "a" in server.go)
            is_new = version == "2025-11-25"
            if is_new:
                await response.whole()
                again = web.get(response.last_id)
                await again.whole()
                came = response.messages + again.messages
                server.go["a"].set()
                last = web.get(again.last_id or response.last_id)
                await last.whole()
                came += last.messages
            else:
                await asyncio.sleep(0.2)
                self.assertFalse(response.is_over)
                server.go["a"].set()
                await response.whole()
                came = response.messages
            self.assertEqual(response.events[0][1] == "", is_new)
            self.assertEqual(b"retry: 250\n" in response.data, is_new)
            self.assertEqual(came[:-1], [progress(1), progress(2), progress(3)])
            self.assertEqual(came[-1]["result"]["content"][0]["text"], "done: a")

    async def test_what_is_asked_where_answers_are_json(self):
        """It goes to the stream of a GET, since a POST has none."""
        async with self.over(answers="json") as web:
            await web.begin(sampling={})
            own = web.get()
            response = web.call("title")
            await own.until(lambda it: len(it.messages) == 2)
            text = {"role": "assistant", "content": {"type": "text", "text": "Flowers"}, "model": "m"}
            await web.post({"jsonrpc": "2.0", "id": own.messages[1]["id"], "result": text}).whole()
            await response.whole()
            self.assertFalse(response.is_stream)
            self.assertEqual(response.json["result"]["content"][0]["text"], "Flowers")
            own.cut()

    async def test_a_question_that_is_withdrawn(self):
        """Its cancel is on the same stream."""
        server = words()

        @server.tool
        async def impatient(context: Context) -> str:
            asking = asyncio.ensure_future(context.sample("?"))
            await server.go.setdefault("impatient", asyncio.Event()).wait()
            asking.cancel()
            await asyncio.wait({asking})
            return "gave up"

        async with self.over(server) as web:
            await web.begin(sampling={})
            own = web.get()
            response = web.call("impatient")
            await response.until(lambda it: it.messages)
            server.go["impatient"].set()
            await response.whole()
            asked, cancelled, answer = response.messages
            self.assertEqual(cancelled["method"], "notifications/cancelled")
            self.assertEqual(cancelled["params"]["requestId"], asked["id"])
            self.assertEqual(answer["result"]["content"][0]["text"], "gave up")
            self.assertEqual(own.messages, [])
            own.cut()

    async def test_a_task(self):
        """What it tells and asks is on the stream that waits for its result (2025-11-25, tasks)."""
        server = words()

        @server.tool(task="optional")
        async def ask(context: Context) -> str:
            await server.go.setdefault("ask", asyncio.Event()).wait()
            context.report_progress(1)
            context.info("asking")
            return (await context.elicit("?", {"type": "object", "properties": {}})).action

        async with self.over(server) as web:
            await web.begin(elicitation={})
            about = {"arguments": {}, "task": {}, "_meta": {"progressToken": "p"}}
            begun = await web.ask("tools/call", {"name": "ask", **about})
            task = {"taskId": begun["result"]["task"]["taskId"]}
            own = web.get()
            response = web.send("tasks/result", task)
            await response.until(lambda it: it.is_stream)
            server.go["ask"].set()
            await response.until(lambda it: len(it.messages) == 3)
            progress, log, question = response.messages
            methods = ["notifications/progress", "notifications/message", "elicitation/create"]
            self.assertEqual([it["method"] for it in response.messages], methods)
            related = {"io.modelcontextprotocol/related-task": task}
            self.assertEqual(
                [it["params"]["_meta"] for it in (progress, log, question)], [related, related, related]
            )
            reply = {"jsonrpc": "2.0", "id": question["id"], "result": {"action": "decline"}}
            await web.post(reply).whole()
            await response.whole()
            self.assertEqual(response.messages[-1]["result"]["content"][0]["text"], "decline")
            self.assertEqual(len(response.messages), 4)
            # (its status belongs to no request)
            await own.until(lambda it: len(it.messages) == 3)
            statuses = [it["params"]["status"] for it in own.messages]
            self.assertEqual(statuses, ["input_required", "working", "completed"])
            own.cut()

    async def test_two_that_take_up_the_same_stream(self):
        server = words()
        async with self.begun(server) as web:
            response = web.call("steps", {"name": "a"}, {"progressToken": 1})
            await response.until(lambda it: len(it.messages) == 3)
            first, second = web.get(response.events[1][0]), web.get(response.events[1][0])
            await first.whole()
            await second.until(lambda it: len(it.messages) == 2)
            await response.whole()
            server.go["a"].set()
            await second.whole()
            self.assertEqual([len(it.messages) for it in (response, second)], [3, 3])
            self.assertIn(b": the stream was taken up again", response.data)
            self.assertIn(b": the stream was taken up again", first.data)

    async def test_it_is_mounted_anywhere(self):
        async with self.over() as web:
            for path in ("/", "/mcp", "/a/b/c/"):
                web.path, web.session = path, None
                await web.begin()
                self.assertEqual((await web.ask("ping"))["result"], {})
        async with self.over(path="/mcp") as web:
            self.assertEqual(await web.send("ping", path="/").whole(), 404)
            self.assertEqual(await web.send("ping", path="/mcp/x").whole(), 404)
            await web.begin()

    async def test_lifespan_ends_the_sessions(self):
        app = words().asgi()
        web = Web(app)
        await web.begin()
        kinds, said = ["lifespan.startup", "lifespan.shutdown"], []

        async def receive():
            return {"type": kinds.pop(0)}

        async def send(message):
            said.append(message["type"])

        await app({"type": "lifespan"}, receive, send)
        self.assertEqual(said, ["lifespan.startup.complete", "lifespan.shutdown.complete"])
        self.assertEqual(app.sessions, 0)

    def test_a_session_of_another_loop(self):
        """As with test clients that have a loop for each request. The other one goes on."""
        web, loop = Web(words().asgi()), asyncio.new_event_loop()
        thread = threading.Thread(target=loop.run_forever)
        thread.start()
        try:
            asyncio.run_coroutine_threadsafe(web.begin(), loop).result(patience(20))
            self.assertEqual(self.wait(later(web)), 404)
            self.assertEqual(asyncio.run_coroutine_threadsafe(later(web), loop).result(patience(20)), 200)
        finally:
            asyncio.run_coroutine_threadsafe(ended(), loop).result(patience(20))
            loop.call_soon_threadsafe(loop.stop)
            thread.join()
            loop.close()

    async def test_a_large_message(self):
        async with self.begun() as web:
            text = "a " * 500_000
            response = web.call("count", {"text": text})
            await response.whole()
            self.assertEqual(response.messages[-1]["result"]["structuredContent"], {"result": 500_000})


class Versions(Over):
    """The rows of test_tool_versions.py, over HTTP."""

    @rows(VERSIONS)
    async def test_answers(self, version):
        for answers in ("json", "stream"):
            async with self.over(make_server(), answers=answers) as web:
                begun = await web.begin(version)
                self.assertEqual(begun, {"protocolVersion": version, **older(INITIALIZED, version)})
                for method, params, answer in ANSWERS:
                    with self.subTest(version, method=method):
                        self.assertEqual((await web.ask(method, params))["result"], older(answer, version))

    @rows(VERSIONS)
    async def test_answers_without_state(self, version):
        """Of each version, by its header."""
        async with self.over(make_server(), stateless=True) as web:
            web.version = version
            for method, params, answer in ANSWERS:
                with self.subTest(version, method=method):
                    self.assertEqual((await web.ask(method, params))["result"], older(answer, version))

    @rows(VERSIONS)
    async def test_notifications(self, version):
        """What belongs to a call is on its stream, and the rest on that of a GET."""
        server = make_server()

        @server.tool
        def told(context: Context):
            context.report_progress(1, 2, "half")
            context.error("e")
            server.resource_updated("a://1")
            server.remove_prompt("hello")

        async with self.over(server) as web:
            await web.begin(version)
            own = web.get()
            await web.ask("resources/subscribe", {"uri": "a://1"})
            response = web.call("told", meta={"progressToken": 1})
            await response.whole()
            await own.until(lambda it: len(it.messages) == 2)
            words = {"message": "half"} if version >= "2025-03-26" else {}
            params = [it.get("params") for it in response.messages[:-1]]
            self.assertEqual(params[0], {"progressToken": 1, "progress": 1, "total": 2, **words})
            self.assertEqual(params[1:], [{"level": "error", "data": "e"}])
            names = [it["method"].partition("/")[2] for it in own.messages]
            self.assertEqual(names, ["resources/updated", "prompts/list_changed"])
            own.cut()


class Stateless(Over):
    """A POST needs no `initialize`, and any process can answer it."""

    async def test_calls(self):
        server = words(versions=VERSIONS[1:])
        server.tool(task="optional")(named("later"))
        async with self.over(server, stateless=True) as web:
            for version, has_titles in (("2025-11-25", True), (None, False), ("2025-06-18", True)):
                web.version = version
                response = web.call("count", {"text": "a b"})
                self.assertEqual(await response.whole(), 200)
                self.assertNotIn("mcp-session-id", response.headers)
                # (an absent version is 2025-03-26, which has no structuredContent)
                self.assertEqual("structuredContent" in response.json["result"], has_titles)
            self.assertEqual(await web.tell("notifications/initialized"), 202)
            for version in ("2024-11-05", "x"):
                web.version = version
                self.assertEqual(await web.send("ping").whole(), 400)

    async def test_initialize(self):
        server = words()
        server.tool(task="optional")(named("later"))
        server.resource("a://b")(named("b"))
        async with self.over(server, stateless=True) as web:
            result = await web.begin(sampling={})
            self.assertIsNone(web.session)
            # (nothing can be told later, and no task is kept)
            self.assertEqual(result["capabilities"], {"logging": {}, "tools": {}, "resources": {}})
            self.assertEqual((await web.ask("tasks/list"))["error"]["code"], -32601)

    async def test_the_client_is_asked_nothing(self):
        server = words()
        raised = []

        @server.tool
        async def ask(context: Context) -> str:
            try:
                await context.request.call("sampling/createMessage", {})
            except Refused as error:
                raised.append(str(error))
            try:
                context.request.session.call_batch([("ping", None)])
            except Refused as error:
                raised.append(str(error))
            return "asked"

        async with self.over(server, stateless=True) as web:
            self.assertIs((await web.ask("tools/call", {"name": "title"}))["result"]["isError"], True)
            self.assertNotIn("isError", (await web.ask("tools/call", {"name": "ask"}))["result"])
        self.assertEqual([it.split(":")[0] for it in raised], ["a stateless server can't ask its client"] * 2)

    async def test_progress_is_told(self):
        server = words()
        async with self.over(server, stateless=True) as web:
            response = web.call("steps", {"name": "a"}, {"progressToken": 1})
            await response.until(lambda it: len(it.messages) == 3)
            server.go["a"].set()
            await response.whole()
            self.assertEqual(len(response.messages), 4)
            # (no stream can be taken up, so no event has an id)
            self.assertEqual({it for it, _ in response.events}, {None})

    async def test_there_are_no_sessions(self):
        async with self.over(stateless=True) as web:
            response = web.get()
            self.assertEqual((await response.whole(), response.headers["allow"]), (405, "POST"))
            self.assertEqual(await web.delete(), 405)


def named(name):
    """A tool of this name."""

    def made() -> str:
        return name

    made.__name__ = name
    return made


async def ended():
    """Ends the tasks of a loop."""
    tasks = asyncio.all_tasks() - {asyncio.current_task()}
    for it in tasks:
        it.cancel()
    await asyncio.gather(*tasks, return_exceptions=True)


async def later(web):
    return await web.send("ping").whole()
