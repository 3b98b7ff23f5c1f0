"""usage: pylsp_over_package.py [WORD ..]    python-lsp-server, with its own words, over bullmyrtle.Server in place of its own library

PYTHONPATH leads to the package. Nothing of python-lsp-server is changed: the three names that pylsp.python_lsp imports from pylsp_jsonrpc
stand for what is below."""
import concurrent.futures
import logging
import sys

import pylsp.__main__
import pylsp.python_lsp as host
from pylsp_jsonrpc.exceptions import JsonRpcException, JsonRpcInternalError

from bullmyrtle import Error, Server

log = logging.getLogger("pylsp_over_package")


def as_error(error):
    """What python-lsp-server's own library answers for an exception."""
    if not isinstance(error, JsonRpcException):
        error = JsonRpcInternalError.of((type(error), error, error.__traceback__))
    told = error.to_dict()
    return Error(told["code"], told["message"], told.get("data"))


class Endpoint:
    """What python-lsp-server talks through."""

    def __init__(self, dispatcher, consumer=None, id_generator=None, max_workers=5):
        self.dispatcher = dispatcher
        self.server = Server(workers=max_workers)
        self.server.fallback(self.answer, dollar=True)

    def answer(self, params, request):
        """Runs what the dispatcher has for the method, which may give a function for a thread."""
        try:
            handler = self.dispatcher[request.method]
        except KeyError:
            raise Error(-32601, f"Method Not Found: {request.method}") from None
        try:
            result = handler(params)
        except Exception as error:
            raise as_error(error) from error
        return self.work(result, request) if callable(result) else result

    async def work(self, function, request):
        try:
            return await request.in_thread(function)
        except Exception as error:
            raise as_error(error) from error

    def notify(self, method, params=None):
        self.server.notify(method, params)

    def request(self, method, params=None):
        """A call of the editor, whose reply python-lsp-server waits for in a thread."""
        ticket = concurrent.futures.Future()

        def told(reply):
            error = reply.exception()
            if error is None:
                ticket.set_result(reply.result())
            else:
                ticket.set_exception(error)

        session = self.server.session
        session.loop.call_soon_threadsafe(lambda: session.call(method, params).add_done_callback(told))
        return ticket

    def consume(self, message):
        raise AssertionError("the endpoint reads what is to be read")

    def shutdown(self):
        self.server.stop(0, grace=0)


class Reader:
    """In place of what reads messages."""

    def __init__(self, rx):
        pass

    def listen(self, consume):
        """(It is given a method of the endpoint's.)"""
        consume.__self__.server.run()

    def close(self):
        pass


class Writer:
    """In place of what writes them."""

    def __init__(self, tx):
        pass

    def write(self, message):
        raise AssertionError("the endpoint writes what is to be written")

    def close(self):
        pass


if __name__ == "__main__":
    host.Endpoint, host.JsonRpcStreamReader, host.JsonRpcStreamWriter = Endpoint, Reader, Writer
    sys.argv[0] = "pylsp"
    pylsp.__main__.main()
