"""A server with a fault that its author never saw, since no client of theirs sends notifications: ../docs/examining.md"""
import json
import sys

for line in sys.stdin:
    request = json.loads(line)
    if request["method"] == "add":
        answer = {"result": sum(request["params"])}
    else:
        answer = {"error": {"code": -32601, "message": "no such method"}}
    print(json.dumps({"jsonrpc": "2.0", "id": request["id"], **answer}), flush=True)
