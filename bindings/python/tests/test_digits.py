"""Whole numbers of many digits: how many there may be is a setting, whatever the interpreter's own bound is."""
import asyncio
import contextlib
import json
import sys
import time

from helping import Case, by_the_clock, environment, joined, logged, notice, patience, ran, rows

from bullmyrtle import BadSettings, Client, Connection, Error, NotJson, Server, _json, events

# The bound that interpreters have, and that the package has where nothing else is said.
MOST = 4300


def number(digits):
    """A number of so many digits, and none of its digits tells where it stands."""
    return 10 ** (digits - 1) * 9 + 123_456_789


class Default(Case):
    @contextlib.asynccontextmanager
    async def run_both(self, server=None, client=None):
        first, second = server or Server(), client or Client()
        for it in (first, second):
            it.method("echo")(lambda params: params)
            it.method("type")(lambda params: type(params[0]).__name__)
        first.method("number")(lambda params: number(params[0]))

        @first.method("data")
        def data(params):
            raise Error(1, "x", [number(params[0])])

        @first.method("ask")
        async def ask(params, request):
            return await request.call("number", params)

        second.method("number")(lambda params: number(params[0]))
        async with joined(first, second) as joint:
            yield first, second, joint

    async def refused(self, awaitable, code, *words):
        with self.assertRaises(Error) as caught:
            await awaitable
        self.assertEqual(caught.exception.code, code, caught.exception)
        for it in words:
            self.assertIn(it, caught.exception.message)

    async def test_up_to_the_bound_all_goes_through_both_ways(self):
        async with self.run_both() as (_, client, _):
            for digits in (1, 19, 20, 21, 400, 640, 641, MOST - 1, MOST):
                for it in (number(digits) if digits > 9 else 7, -number(max(digits, 9))):
                    self.assertEqual(await client.call("echo", [it, {"a": [it]}]), [it, {"a": [it]}])
            self.assertEqual(await client.call("number", [MOST]), number(MOST))
            self.assertEqual(await client.call("ask", [MOST]), number(MOST))

    async def test_own_values_over_it_are_no_json(self):
        async with self.run_both() as (_, client, _):
            for it in (number(MOST + 1), -number(MOST + 1), {"a": [10**20_000]}):
                with self.assertRaises(NotJson):
                    client.call("echo", [it])
                with self.assertRaises(NotJson):
                    client.notify("echo", [it])
            with logged() as log:
                await self.refused(client.call("number", [MOST + 1]), -32603, "the result isn't JSON")
                await self.refused(client.call("data", [MOST + 1]), -32603, "the error isn't JSON")
            self.assertEqual(len(log.errors), 2)

    async def test_params_over_it_are_refused(self):
        async with self.run_both(client=Client(digits=20_000)) as (_, client, _):
            await self.refused(client.call("echo", [number(MOST + 1)]), -32602, "4,300 digits")
            await self.refused(client.call("echo", {"a": -number(MOST + 1)}), -32602, "4,300 digits")
            # (digits that are no whole number have no bound)
            self.assertEqual(await client.call("type", ["1" * 9000]), "str")
            self.assertEqual(await client.call("type", [1.5]), "float")

    async def test_a_reply_over_it_raises_an_error_and_data_over_it_stay_text(self):
        async with self.run_both(server=Server(digits=20_000)) as (_, client, _):
            await self.refused(client.call("number", [MOST + 1]), -32603, "the result can't be read")
            with self.assertRaises(Error) as caught:
                await client.call("data", [MOST + 1])
            text = "[9" + "0" * (MOST - 9) + "123456789]"
            self.assertEqual((caught.exception.code, caught.exception.data), (1, text))
            with self.assertRaises(Error) as caught:
                await client.call("data", [MOST])
            self.assertEqual(caught.exception.data, [number(MOST)])

    @rows([20, 700, 12_000])
    async def test_another_bound(self, digits):
        async with self.run_both(Server(digits=digits), Client(digits=digits)) as (_, client, _):
            self.assertEqual(await client.call("echo", [number(digits)]), [number(digits)])
            self.assertEqual(await client.call("ask", [digits]), number(digits))
            with self.assertRaises(NotJson):
                client.call("echo", [number(digits + 1)])

    @rows([19, 0, -1, None, "20", True, 4300.0])
    def test_bounds_that_there_are_none(self, it):
        for side in (Server, Client):
            with self.assertRaises(BadSettings):
                side(digits=it)

    def test_the_lower_floor_passes_all_digits(self):
        connection = Connection("lines")
        digits = b"7" * 100_000
        (call,) = connection.fed(b'{"jsonrpc":"2.0","id":1,"method":"x","params":[%s]}\n' % digits)
        self.assertEqual(call, events.Call(1, "x", b"[%s]" % digits, b"1"))
        connection.answer(1, digits)
        self.assertEqual(connection.take(1 << 20), b'{"id":1,"jsonrpc":"2.0","result":%s}\n' % digits)


class Streams(Case):
    """A cancel with a number that is too long is a cancel all the same, and what stands behind it is read."""

    async def test_over_tcp(self):
        with logged():
            server = Server(framing="lines")
            server.method("echo")(lambda params: params)

            @server.method("slow")
            async def slow():
                await asyncio.sleep(20)

            listening = await asyncio.start_server(server.serve_async, "127.0.0.1", 0)
            for member in ("x", "requestId"):
                reader, writer = await asyncio.open_connection(*listening.sockets[0].getsockname())
                writer.write(b'{"jsonrpc":"2.0","id":1,"method":"slow"}\n')
                await asyncio.sleep(0.01)
                params = {"requestId": 1, member: 0}
                text = json.dumps(notice("notifications/cancelled", params)).replace(
                    f'"{member}": 0', f'"{member}": {"1" * 5000}'
                )
                writer.write(
                    text.encode() + b"\n" + b'{"jsonrpc":"2.0","id":2,"method":"echo","params":[2]}\n'
                )
                found = {}
                while 2 not in found or (member == "x" and 1 not in found):
                    answer = json.loads(await asyncio.wait_for(reader.readline(), patience(5)))
                    found[answer["id"]] = answer
                self.assertEqual(found[2]["result"], [2])
                if member == "x":
                    self.assertEqual(found[1]["error"]["code"], -32800)
                writer.close()
            await self.until(lambda: not server._sessions)
            listening.close()


class Interpreters(Case):
    """The interpreter's own bound is neither asked for nor changed."""

    SCRIPT = """
import sys
from bullmyrtle import _json
before = sys.get_int_max_str_digits() if hasattr(sys, "get_int_max_str_digits") else None
for digits in (20, 640, 4300, 5000):
    loads, dumps = _json.with_digits(digits)
    number = 10 ** (digits - 1) * 9 + 7
    text = b"9" + b"0" * (digits - 2) + b"7"
    for value, said in ((number, text), (-number, b"-" + text), ([{"a": number}], b'[{"a":' + text + b"}]")):
        assert dumps(value) == said, (digits, dumps(value)[:50])
        assert loads(said) == value, digits
    for said in (b"1" + text, b"-1" + text, b"[" + text + b"1]"):
        try:
            loads(said)
        except ValueError as error:
            assert "digits" in str(error)
        else:
            assert False, digits
    for value in (number * 10, [-number * 10]):
        try:
            dumps(value)
        except ValueError as error:
            assert "digits" in str(error), error
        else:
            assert False, digits
    assert loads(b'["' + text + text + b'",1.' + text + b"]")[0] == (text + text).decode()
after = sys.get_int_max_str_digits() if hasattr(sys, "get_int_max_str_digits") else None
assert before == after
"""

    @rows(["0", "640", "4300", "100000"])
    def test_each_bound_of_the_interpreters(self, bound):
        ran(
            [sys.executable, "-c", self.SCRIPT],
            env=environment(PYTHONINTMAXSTRDIGITS=bound),
            check=True,
            stderr=None,
        )

    @by_the_clock
    def test_what_it_costs_is_at_most_about_quadratic(self):
        loads, dumps = _json.with_digits(10**6)
        times = []
        for it in (number(20_000), number(80_000)):
            took = []
            for _ in range(3):
                began = time.process_time()
                self.assertEqual(loads(dumps([it])), [it])
                took.append(time.process_time() - began)
            times.append(min(took))
        # (four times the digits take 16 times as long where it is quadratic, and 64 times where it is cubic)
        self.assertLess(times[1], 32 * times[0])
