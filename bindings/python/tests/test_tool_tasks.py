"""Tools that are called as tasks (basic/utilities/tasks of 2025-11-25, experimental)."""
import asyncio
import contextlib
import time

from helping import Case, joined, logged, rows
from test_tool_server import Host, fault_of, hosting

from bullmyrtle import Error, Server
from bullmyrtle.mcp import (
    Context,
    InvalidResult,
    PageElicitation,
    ToolClient,
    ToolServer,
    UrlElicitationRequired,
)

RELATED = "io.modelcontextprotocol/related-task"
STATUS = "notifications/tasks/status"
MODEL = {"role": "assistant", "model": "m", "content": {"type": "text", "text": "t"}}


def make_server(ended, **settings):
    """A server with tools, which notes what has begun and what was cancelled, and says when one that waits may end."""
    server = ToolServer("tasks", **settings)
    server.began, server.may_end = [], False

    @server.tool(task="optional")
    async def waits(seconds: float = 0) -> str:
        server.began.append("waits")
        try:
            await asyncio.sleep(seconds)
        except asyncio.CancelledError:
            ended.append("waits")
            raise
        return "done"

    @server.tool(task="optional")
    async def is_let() -> str:
        while not server.may_end:
            await asyncio.sleep(0.001)
        return "done"

    @server.tool(task="required", thread=True)
    def looks(context: Context) -> str:
        server.began.append("looks")
        while not context.is_cancelled:
            time.sleep(0.001)
        ended.append("looks")

    @server.tool(task="optional")
    def plain(text: str) -> int:
        return len(text)

    @server.tool(task="optional")
    async def asks(context: Context) -> str:
        context.report_progress(1)
        context.info("asking")
        context.request.notify("mine", {"_meta": {"a": 1}})
        return (await context.sample("?"))["content"]["text"]

    @server.tool(task="optional", thread=True)
    def asks_in_thread(context: Context) -> str:
        return context.sample("?")["content"]["text"]

    @server.tool(task="optional", timeout=0.02)
    async def late() -> str:
        await asyncio.sleep(20)

    @server.tool(task="optional")
    async def raises(kind: str):
        if kind == "page":
            raise UrlElicitationRequired([PageElicitation("a", "https://example.com", "1")])
        raise KeyError(kind)

    server.tool(name="never")(lambda: "never")
    return server


class Host(Host):
    async def start(self, name, ttl=None, meta=None, **arguments):
        params = {"name": name, "arguments": arguments, "task": {} if ttl is None else {"ttl": ttl}}
        return (await self.call("tools/call", {**params, **({} if meta is None else {"_meta": meta})}))[
            "task"
        ]

    async def ask(self, method, task):
        return await fault_of(self.call(method, {"taskId": task["taskId"]}))


class Tasks(Case):
    """What a server does with them."""

    @contextlib.asynccontextmanager
    async def tasks(self, version="2025-11-25", capabilities=None, **settings):
        """A host of a server with tasks."""
        self.ended = []
        self.server = make_server(self.ended, **settings)
        with logged() as log:
            async with hosting(self.server, Host(), version, **(capabilities or {})) as it:
                yield it
        self.texts = log.texts

    async def test_a_whole_one(self):
        async with self.tasks() as host:
            declared = {"list": {}, "cancel": {}, "requests": {"tools": {"call": {}}}}
            self.assertEqual(host.begun["capabilities"]["tasks"], declared)
            task = await host.start("is_let")
            self.assertEqual((task["status"], task["ttl"]), ("working", 3_600_000))
            self.assertRegex(task["createdAt"], r"^\d{4}-\d\d-\d\dT\d\d:\d\d:\d\d\.\d{3}Z$")
            self.assertEqual(await host.ask("tasks/get", task), task)
            self.assertEqual(await host.call("tasks/list"), {"tasks": [task]})
            self.server.may_end = True
            result = await host.ask("tasks/result", task)
            words = [{"type": "text", "text": "done"}]
            self.assertEqual(result, {"content": words, "_meta": {RELATED: {"taskId": task["taskId"]}}})
            after = await host.ask("tasks/get", task)
            self.assertEqual(after["status"], "completed")
            self.assertEqual(host.of(STATUS), [after])
            # (as often as it is asked for)
            self.assertEqual(await host.ask("tasks/result", task), result)
        self.assertEqual(self.ended, [])

    @rows(["2025-06-18", "2025-11-25"])
    async def test_what_a_tool_supports(self, version):
        async with self.tasks(version) as host:
            tools = {it["name"]: it.get("execution") for it in (await host.call("tools/list"))["tools"]}
            is_new = version == "2025-11-25"
            self.assertEqual(tools["waits"], {"taskSupport": "optional"} if is_new else None)
            self.assertEqual(
                (tools["looks"], tools["never"]), ({"taskSupport": "required"} if is_new else None, None)
            )
            self.assertEqual("tasks" in host.begun["capabilities"], is_new)
            for name, is_task, expected in (
                ("plain", False, "result"),
                ("plain", True, "task" if is_new else "result"),
                ("never", False, "result"),
                ("never", True, -32601 if is_new else "result"),
                ("looks", False, -32601 if is_new else None),
            ):
                if expected is None:
                    continue
                arguments = {"text": "a"} if name == "plain" else {}
                params = {"name": name, "arguments": arguments, **({"task": {}} if is_task else {})}
                found = await fault_of(host.call("tools/call", params))
                kind = found[0] if isinstance(found, tuple) else "task" if "task" in found else "result"
                with self.subTest(version, name=name, is_task=is_task):
                    self.assertEqual(kind, expected)
            if not is_new:
                for method in ("get", "result", "list", "cancel"):
                    self.assertEqual(
                        (await fault_of(host.call(f"tasks/{method}", {"taskId": "x"})))[0], -32601
                    )

    async def test_a_server_without_tasks(self):
        server = ToolServer("none")
        server.tool(name="it")(lambda: "it")
        async with hosting(server, Host(), "2025-11-25") as host:
            self.assertNotIn("tasks", host.begun["capabilities"])
            self.assertEqual(
                await host.call("tools/call", {"name": "it", "task": {"ttl": 5}}),
                {"content": [{"type": "text", "text": "it"}]},
            )
            self.assertEqual((await fault_of(host.call("tasks/list")))[0], -32601)

    async def test_ends(self):
        async with self.tasks(capabilities={"elicitation": {"url": {}}}) as host:
            for name, arguments, status, expected in (
                ("plain", {"text": "ab"}, "completed", "2"),
                (
                    "plain",
                    {"text": 5},
                    "failed",
                    "Invalid params: arguments.text must be a string, got integer",
                ),
                ("raises", {"kind": "a"}, "failed", "KeyError: 'a'"),
                ("raises", {"kind": "page"}, "failed", -32042),
                ("late", {}, "failed", "The tool took longer than 0.02 seconds"),
            ):
                task = await host.start(name, **arguments)
                found = await host.ask("tasks/result", task)
                with self.subTest(name, arguments=arguments):
                    self.assertEqual((await host.ask("tasks/get", task))["status"], status)
                    if isinstance(expected, int):
                        self.assertEqual(found[0], expected)
                    else:
                        self.assertEqual(found["content"][0]["text"], expected)
                        self.assertEqual(found.get("isError", False), status == "failed")
        self.assertEqual(self.texts, ["the tool raises raised KeyError"])

    async def test_cancels(self):
        async def use(host):
            for name, more in (("waits", {"seconds": 20}), ("looks", {})):
                task = await host.start(name, **more)
                waiting = host.call("tasks/result", {"taskId": task["taskId"]})
                # (one that has not begun never does)
                await self.until(lambda name=name: name in server.began)
                cancelled = await host.ask("tasks/cancel", task)
                self.assertEqual(cancelled["status"], "cancelled")
                self.assertEqual((await fault_of(waiting))[0], -32800)
                self.assertEqual(await host.ask("tasks/get", task), cancelled)
                self.assertEqual((await host.ask("tasks/cancel", task))[0], -32602)
            done = await host.start("plain", text="a")
            await host.ask("tasks/result", done)
            code, words = await host.ask("tasks/cancel", done)
            self.assertEqual((code, words), (-32602, "Invalid params: the task is completed already"))
            # (one that waits for a result gives up, and the task goes on)
            task = await host.start("is_let")
            with self.assertRaises(asyncio.TimeoutError):
                await asyncio.wait_for(host.call("tasks/result", {"taskId": task["taskId"]}), 0.01)
            server.may_end = True
            self.assertEqual((await host.ask("tasks/result", task))["content"][0]["text"], "done")
            await self.until(lambda: len(ended) == 2)

        ended = []
        server = make_server(ended)
        with logged() as log:
            async with hosting(server, Host(), "2025-11-25") as host:
                await use(host)
        self.assertEqual((sorted(ended), log.texts), (["looks", "waits"], []))

    async def test_times(self):
        async with self.tasks(task_ttl=60) as host:
            # (so long that its result is asked for before it is over)
            task = await host.start("waits", 1_000, seconds=60)
            self.assertEqual(task["ttl"], 1_000)
            waiting = host.call("tasks/result", {"taskId": task["taskId"]})
            self.assertEqual((await fault_of(waiting))[0], -32800)
            self.assertEqual((await host.ask("tasks/get", task))[0], -32602)
            self.assertEqual(await host.call("tasks/list"), {"tasks": []})
            self.assertEqual((await host.start("plain", 10**12, text="a"))["ttl"], 60_000)
            for ttl in (-1, True, "1", []):
                params = {"name": "plain", "arguments": {"text": "a"}, "task": {"ttl": ttl}}
                found = await fault_of(host.call("tools/call", params))
                self.assertEqual(found[0], -32602, ttl)
            params = {"name": "plain", "arguments": {"text": "a"}, "task": 5}
            self.assertEqual((await fault_of(host.call("tools/call", params)))[0], -32602)
        self.assertEqual(self.ended, ["waits"])

    @rows(["asks", "asks_in_thread"])
    async def test_the_host_is_asked(self, name):
        """What is asked and told says which task it belongs to, and the task waits for input meanwhile."""
        seen = []

        async def answer(params):
            await asyncio.sleep(0.01)
            status = await seen[0].ask("tasks/get", {"taskId": params["_meta"][RELATED]["taskId"]})
            self.assertEqual(status["status"], "input_required")
            return MODEL

        async with self.tasks(capabilities={"sampling": {}}) as host:
            host.replies["sampling_createMessage"] = answer
            seen.append(host)
            task = await host.start(name, meta={"progressToken": "p"})
            seen.append(task)
            self.assertEqual((await host.ask("tasks/result", task))["content"][0]["text"], "t")
            ((_, params),) = host.asked
            related = {RELATED: {"taskId": task["taskId"]}}
            self.assertEqual(params["_meta"], related)
            statuses = [it["status"] for it in host.of(STATUS)]
            self.assertEqual(statuses, ["input_required", "working", "completed"])
            # (its status says by itself what it is of)
            self.assertFalse([it for it in host.of(STATUS) if "_meta" in it])
            told = {it: host.of(it) for it in ("notifications/progress", "notifications/message", "mine")}
            if name == "asks":
                progress = {"progressToken": "p", "progress": 1, "_meta": related}
                message = {"level": "info", "data": "asking", "_meta": related}
                self.assertEqual([*told.values()], [[progress], [message], [{"_meta": {"a": 1, **related}}]])
        self.assertEqual(self.texts, [])

    async def test_other_sessions(self):
        server = make_server([])
        async with hosting(server, Host(), "2025-11-25") as host, hosting(
            server, Host(), "2025-11-25"
        ) as other:
            task = await host.start("plain", text="a")
            for method in ("tasks/get", "tasks/result", "tasks/cancel"):
                self.assertEqual((await other.ask(method, task))[0], -32602)
                for params in ({}, {"taskId": 5}, {"taskId": "x"}, [1], None):
                    self.assertEqual((await fault_of(host.call(method, params)))[0], -32602)
            self.assertEqual(await other.call("tasks/list"), {"tasks": []})

    async def test_a_session_that_ends(self):
        """What still runs is cancelled, and nothing is kept or logged."""
        async with self.tasks(grace=0.1) as host:
            await host.start("waits", seconds=20)
            await host.start("looks")
            await self.until(lambda: len(self.server.began) == 2)
        await self.until(lambda: len(self.ended) == 2)
        self.assertEqual((sorted(self.ended), self.texts), (["looks", "waits"], []))

    async def test_as_many_as_are_kept(self):
        async with self.tasks() as host:
            for _ in range(1_000):
                await host.start("plain", text="a")
            params = {"name": "plain", "arguments": {"text": "a"}, "task": {}}
            self.assertEqual((await fault_of(host.call("tools/call", params)))[0], -32000)

    def test_what_is_no_support(self):
        with self.assertRaises(ValueError):
            ToolServer("s").tool(task="maybe")


class Clients(Case):
    """What a `ToolClient` does with them."""

    async def test_a_whole_one(self):
        ended = []
        async with joined(make_server(ended), ToolClient()) as client:
            await client.initialize()
            task = await client.call_tool_as_task("waits", {"seconds": 0.02}, ttl=5)
            self.assertEqual((task.status, task.about["ttl"]), ("working", 5000))
            self.assertEqual([it.id for it in await client.list_tasks()], [task.id])
            self.assertEqual((await task.result()).text, "done")
            self.assertEqual(await task.refresh(), "completed")
            with self.assertRaises(Error):
                await task.cancel()
            other = await client.call_tool_as_task("waits", {"seconds": 20})
            await other.cancel()
            self.assertEqual(other.status, "cancelled")
            with self.assertRaises(Error):
                await other.result()
        self.assertEqual(ended, ["waits"])

    def test_wrong_answers(self):
        task = {"taskId": "1", "status": "working", "createdAt": "2025-11-28T10:00:00Z", "ttl": None}
        for method, answer, words in (
            ("tools/call", {"content": []}, "tools/call as a task: result lacks task"),
            (
                "tools/call",
                {"task": {**task, "status": "odd"}},
                "tools/call as a task: result.task.status must be",
            ),
            ("tasks/get", {**task, "taskId": 5}, "tasks/get: result.taskId must be a string, got integer"),
            (
                "tasks/result",
                {"content": 5},
                "tasks/result: result.content must be an array or null, got integer",
            ),
            ("tasks/cancel", [], "tasks/cancel: result must be an object, got array"),
            ("tasks/list", {"tasks": [{}]}, "tasks/list: result.tasks[0] lacks status"),
        ):
            server = Server(framing="lines")
            answers = {"tools/call": {"task": task}, method: answer}
            for name, it in answers.items():
                server.method(name)(lambda params, it=it: it)

            async def main():
                async with joined(server, ToolClient()) as client:
                    if method == "tasks/list":
                        return await client.list_tasks()
                    made = await client.call_tool_as_task("a")
                    calls = {
                        "tasks/get": made.refresh,
                        "tasks/result": made.result,
                        "tasks/cancel": made.cancel,
                    }
                    return await calls[method]()

            with self.subTest(method), self.assertRaises(InvalidResult) as caught:
                self.wait(main())
            self.assertTrue(str(caught.exception).startswith(words), caught.exception)
