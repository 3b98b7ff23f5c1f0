"""A server with a method for each way to misbehave, and what each of its requests has to be answered.

misbehaving.py run|tcp   answers lines on the standard streams, or over TCP, and writes each line of its log to the standard error
"""
import asyncio
import dataclasses
import enum
import logging
import sys

import helping

from bullmyrtle import LATER, Error, InvalidParams, Server

assert helping.PACKAGE  # (to import it makes the package be found)

INTERNAL = -32603


class BadText(Exception):
    def __str__(self):
        raise AttributeError("no text")


class BadTextOfAll(BaseException):
    def __str__(self):
        raise GeneratorExit


class BadClass(Exception):
    @property
    def __class__(self):
        raise RuntimeError("class")


class Base(BaseException):
    pass


class BadItems(dict):
    def items(self):
        raise KeyError("items")


class BadItemsOfAll(dict):
    def items(self):
        raise Base("items")


@dataclasses.dataclass
class Hole:
    here: int
    missing: int = dataclasses.field(init=False)


class NoJson(enum.Enum):
    A = object()


class BadAwait:
    def __await__(self):
        raise OSError("await")


class NoHash(str):
    __hash__ = None


def ring():
    value = []
    value.append(value)
    return value


def deep(levels):
    value = []
    for _ in range(levels):
        value = [value]
    return value


def raise_(error):
    raise error


async def nothing():
    pass


# What each raises: the code and the message of its answer, which begins so, and how many lines of the log it has.
RAISES = {
    "ValueError": (lambda: ValueError("x"), INTERNAL, "Internal error: ValueError: x", 1),
    "CancelledError": (asyncio.CancelledError, INTERNAL, "Internal error: CancelledError", 1),
    "GeneratorExit": (GeneratorExit, INTERNAL, "Internal error: GeneratorExit", 1),
    "Base": (lambda: Base("b"), INTERNAL, "Internal error: Base: b", 1),
    "StopAsyncIteration": (lambda: StopAsyncIteration(1), INTERNAL, "Internal error: ", 1),
    "StopIteration": (lambda: StopIteration(1), INTERNAL, "Internal error: ", 1),
    "MemoryError": (MemoryError, INTERNAL, "Internal error: MemoryError", 1),
    "RecursionError": (lambda: RecursionError("r"), INTERNAL, "Internal error: RecursionError: r", 1),
    "BadText": (BadText, INTERNAL, "Internal error: BadText", 1),
    "BadTextOfAll": (BadTextOfAll, INTERNAL, "Internal error: ", 1),
    "BadClass": (BadClass, INTERNAL, "Internal error: ", 1),
    "LongNumber": (lambda: ValueError(10**5000), INTERNAL, "Internal error: ValueError", 1),
    "OSError": (lambda: OSError(5, "five"), INTERNAL, "Internal error: OSError: [Errno 5] five", 1),
    "BrokenPipeError": (BrokenPipeError, INTERNAL, "Internal error: BrokenPipeError", 1),
    "EOFError": (EOFError, INTERNAL, "Internal error: EOFError", 1),
    "TimeoutError": (asyncio.TimeoutError, INTERNAL, "Internal error: TimeoutError", 1),
    "Surrogate": (lambda: ValueError("\ud800"), INTERNAL, "Internal error: ValueError: \\ud800", 1),
    "UnicodeDecodeError": (
        lambda: UnicodeDecodeError("utf-8", b"x", 0, 1, "r"),
        INTERNAL,
        "Internal error: UnicodeDecodeError",
        1,
    ),
    "Group": (
        lambda: BaseExceptionGroup("g", [Base()]) if sys.version_info >= (3, 11) else Base("g"),
        INTERNAL,
        "Internal error: Base",
        1,
    ),
    "Error": (lambda: Error(7, "seven", {"a": 1}), 7, "seven", 0),
    "ErrorOfNone": (lambda: Error(1, None), 1, "None", 0),
    "InvalidParams": (lambda: InvalidParams("\udfff"), -32602, "\\udfff", 0),
    "ErrorBadCode": (lambda: Error("x", "m"), INTERNAL, "Internal error: the error isn't JSON", 1),
    "ErrorHugeCode": (lambda: Error(1 << 70, "m"), INTERNAL, "Internal error: the error isn't JSON", 1),
    "ErrorBadMessage": (lambda: Error(1, BadText()), INTERNAL, "Internal error: the error isn't JSON", 1),
    "ErrorBadData": (lambda: Error(1, "m", object()), INTERNAL, "Internal error: the error isn't JSON", 1),
    "ErrorHole": (lambda: Error(1, "m", Hole(1)), INTERNAL, "Internal error: the error isn't JSON", 1),
}
# What each returns, and whether that is JSON.
RETURNS = {
    "object": (object, False),
    "nan": (lambda: float("nan"), False),
    "infinities": (lambda: [float("inf")], False),
    "surrogate": (lambda: "\ud800", False),
    "hole": (lambda: Hole(1), False),
    "holes": (lambda: [Hole(1)], False),
    "bad items": (lambda: BadItems(a=1), False),
    "list of bad items": (lambda: [BadItems(a=1)], False),
    "bad items of all": (lambda: [BadItemsOfAll(a=1)], False),
    "no json": (lambda: NoJson.A, False),
    "bad class": (lambda: BadClass(), False),
    "list of bad class": (lambda: [BadClass()], False),
    "ring": (ring, False),
    "deep": (lambda: deep(100_000), False),
    "deep by ten": (lambda: deep(130), False),
    "bytes": (lambda: b"x", False),
    "set": (lambda: {1}, False),
    "tuple keys": (lambda: {(1, 2): 3}, False),
    "long number": (lambda: 10**6000, False),
    "generator": (lambda: (it for it in ()), False),
    "type": (lambda: int, False),
    "function": (lambda: raise_, False),
    "bad await": (BadAwait, False),
    "mixed keys": (lambda: {1: 2, None: 4, True: 5}, True),
    "no hash": (lambda: NoHash("s"), True),
    "large": (lambda: "x" * 3_000_000, True),
}


def methods(make):
    """The kinds of methods that do something: by their names, each with whether it runs in a thread."""

    async def at_once(params, request):
        return make()

    async def after_a_while(params, request):
        await asyncio.sleep(0.001)
        return make()

    async def awaitable():
        return make()

    return {
        "plain": (lambda: make(), False),
        "with the request": (lambda params, request: make(), False),
        "async": (at_once, False),
        "async that waits": (after_a_while, False),
        "awaitable": (lambda params: awaitable(), False),
        "thread": (lambda params: make(), True),
    }


def later(make):
    """A method that answers by hand, and says of what is refused by which exception."""

    def method(params, request):
        async def answer():
            try:
                request.answer(make())
            except Exception as error:
                request.fail(Error(-1, type(error).__name__))

        request.session.kept = asyncio.ensure_future(answer())
        return LATER

    return method


def rows():
    """Each method, with what its request has to be answered: its code, what its message begins with, its log's lines."""
    found = {}
    for what, (make, code, words, logs) in RAISES.items():
        for kind, (function, thread) in methods(lambda make=make: raise_(make())).items():
            found[f"{kind} raises {what}"] = (function, thread, code, words, logs)
    for what, (make, is_json) in RETURNS.items():
        code, words, logs = (None, "", 0) if is_json else (INTERNAL, "Internal error: ", 1)
        for kind, (function, thread) in methods(make).items():
            found[f"{kind} returns {what}"] = (function, thread, code, words, logs)
        code, words = (None, "") if is_json else (-1, "NotJson")
        if not what.endswith("of all"):
            found[f"later returns {what}"] = (later(make), False, code, words, 0)
    return found


def a_server(**settings):
    server = Server(framing="lines", grace=1, errors="full", **settings)
    for name, (function, thread, *_) in rows().items():
        server.method(name, thread=thread)(function)
    server.method("ping")(lambda params: params)
    for name, error in (("interrupts", KeyboardInterrupt), ("exits", lambda: SystemExit(7))):
        for kind, (function, thread) in methods(lambda error=error: raise_(error())).items():
            server.method(f"{kind} {name}", thread=thread)(function)
    return server


async def over_tcp(server):
    listening = await asyncio.start_server(server.serve_async, "127.0.0.1", 0)
    print(listening.sockets[0].getsockname()[1], flush=True)
    await listening.serve_forever()


def main():
    class Lines(logging.Handler):
        def emit(self, record):
            sys.stderr.write("LOG " + record.getMessage().replace("\n", " ") + "\n")
            sys.stderr.flush()

    logging.getLogger("bullmyrtle").addHandler(Lines(logging.WARNING))
    logging.getLogger("bullmyrtle").propagate = False
    server = a_server()
    if sys.argv[1] == "run":
        sys.exit(server.run())
    asyncio.run(over_tcp(server))


if __name__ == "__main__":
    main()
