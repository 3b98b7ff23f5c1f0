"""usage: asking_client.py FILE LANGUAGE LINE COLUMN COMMAND [WORD ..]    a session of our client with any language server

It begins, opens the file, asks about a place, changes the text, and ends; and then it asks once more, which nobody may
do behind `shutdown`, to see what the server does."""
import asyncio
import os
import sys

sys.path.insert(0, os.path.join(os.path.dirname(os.path.abspath(__file__)), "..", ".."))

from bullmyrtle import Client, Error  # noqa: E402

CAPABILITIES = {
    "window": {"workDoneProgress": True},
    "workspace": {"configuration": True},
    "textDocument": {"hover": {"contentFormat": ["plaintext"]}, "publishDiagnostics": {}},
}


def made(command):
    """A client that answers what servers ask of an editor."""
    client = Client(command, protocol="lsp", stderr=sys.stderr, grace=20)
    diagnosed = asyncio.Event()

    @client.method("window/workDoneProgress/create")
    def create(params):
        return None

    @client.method("client/registerCapability")
    def register(params):
        return None

    @client.method("workspace/configuration")
    def configure(params):
        return [None for _ in params["items"]]

    @client.method("textDocument/publishDiagnostics")
    def diagnose(params):
        diagnosed.set()

    for it in ("window/logMessage", "window/showMessage", "$/progress", "telemetry/event"):
        client.method(it)(lambda params: None)
    return client, diagnosed


async def main(file, language, line, column, *command):
    folder = os.path.dirname(os.path.abspath(file))
    uri, place = f"file://{os.path.abspath(file)}", {"line": int(line), "character": int(column)}
    with open(file, encoding="utf-8") as it:
        text = it.read()
    client, diagnosed = made(list(command))
    about = {"textDocument": {"uri": uri}, "position": place}
    async with client:
        first = {"processId": os.getpid(), "rootUri": f"file://{folder}", "capabilities": CAPABILITIES}
        first["clientInfo"] = {"name": "asking_client"}
        await client.call("initialize", first)
        client.notify("initialized", {})
        document = {"uri": uri, "languageId": language, "version": 1, "text": text}
        client.notify("textDocument/didOpen", {"textDocument": document})
        for method in ("textDocument/hover", "textDocument/definition", "textDocument/completion"):
            await asked(client, method, about)
        changed = {"uri": uri, "version": 2}
        client.notify(
            "textDocument/didChange", {"textDocument": changed, "contentChanges": [{"text": text + "\n"}]}
        )
        await asked(client, "textDocument/hover", about)
        if os.environ.get("KNOWS") != "no":
            await asyncio.wait_for(diagnosed.wait(), 60)
        await client.call("shutdown")
        await asked(client, "textDocument/hover", about)
        client.notify("exit")
    print("a whole session")


async def asked(client, method, params):
    try:
        await client.call(method, params)
    except Error as error:
        print(f"{method}: {error.code}", file=sys.stderr)


if __name__ == "__main__":
    asyncio.run(asyncio.wait_for(main(*sys.argv[1:]), 100))
