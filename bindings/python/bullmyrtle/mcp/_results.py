"""What the other side's results must be, as far as they are read here (schema.ts of 2025-11-25)."""
from __future__ import annotations

from typing import Any, Dict

from .._signatures.checker import Checker
from .._signatures.readers import read

Json = Dict[str, Any]


class InvalidResult(ValueError):
    """The other side answered a request with a result that isn't one of its method's. The text has the place."""


_TEXT: Json = {"type": "string"}
_OBJECT: Json = {"type": "object"}
_NUMBER: Json = {"type": "number"}
_BOOLEAN: Json = {"type": "boolean"}


def _or_null(schema: Json) -> Json:
    # (there are servers that write null for what they leave out, and nothing is lost by that)
    return {"anyOf": [schema, {"type": "null"}]}


def _object(required: Json, optional: Json) -> Json:
    members = {**required, **{name: _or_null(it) for name, it in optional.items()}}
    return {"type": "object", "properties": members, "required": list(required)}


def _array(item: Json) -> Json:
    return {"type": "array", "items": item}


def _page(name: str, item: Json) -> Json:
    return _object({name: _array(item)}, {"nextCursor": _TEXT})


_NAMED = {"name": _TEXT}
_ABOUT = {"title": _TEXT, "description": _TEXT}
_ICON = _object({"src": _TEXT}, {"mimeType": _TEXT, "sizes": _array(_TEXT), "theme": _TEXT})
_SHOWN = {**_ABOUT, "icons": _array(_ICON)}
_CONTENTS: Json = {
    **_object({"uri": _TEXT}, {"mimeType": _TEXT}),
    # (a text, or bytes in base64)
    "anyOf": [_object({"text": _TEXT}, {}), _object({"blob": _TEXT}, {})],
}
_PARTS = {
    "text": {"text": _TEXT},
    "image": {"data": _TEXT, "mimeType": _TEXT},
    "audio": {"data": _TEXT, "mimeType": _TEXT},
    "resource": {"resource": _CONTENTS},
    "resource_link": {"uri": _TEXT, **_NAMED},
}
# (a later version may have other types: nothing is known of these)
_OTHER_PART = {"type": {"allOf": [_TEXT, {"not": {"enum": list(_PARTS)}}]}}
_PART = {
    "anyOf": [
        *(_object({"type": {"const": name}, **members}, {}) for name, members in _PARTS.items()),
        _object(_OTHER_PART, {}),
    ]
}
_TOOL_PARTS = [
    _object({"type": {"const": "tool_use"}, "id": _TEXT, "name": _TEXT, "input": _OBJECT}, {}),
    _object(
        {"type": {"const": "tool_result"}, "toolUseId": _TEXT, "content": _array(_PART)},
        {"isError": _BOOLEAN},
    ),
]
_OTHER_THAN_TOOLS = {
    "allOf": [_PART, {"properties": {"type": {"not": {"enum": ["tool_use", "tool_result"]}}}}]
}
_SAMPLED_PART = {"anyOf": [*_TOOL_PARTS, _OTHER_THAN_TOOLS]}
_ARGUMENT = _object(_NAMED, {**_ABOUT, "required": _BOOLEAN})
_MESSAGE = _object({"role": {"enum": ["user", "assistant"]}, "content": _PART}, {})
_SERVER = _object({**_NAMED, "version": _TEXT}, {**_SHOWN, "websiteUrl": _TEXT})
_INITIALIZED = {"protocolVersion": _TEXT, "capabilities": _OBJECT, "serverInfo": _SERVER}
_TOOL = _object(
    {**_NAMED, "inputSchema": _OBJECT}, {**_SHOWN, "outputSchema": _OBJECT, "annotations": _OBJECT}
)
_RESOURCE = _object({"uri": _TEXT, **_NAMED}, {**_SHOWN, "mimeType": _TEXT, "size": _NUMBER})
_TEMPLATE = _object({"uriTemplate": _TEXT, **_NAMED}, {**_SHOWN, "mimeType": _TEXT})
_PROMPT = _object(_NAMED, {**_SHOWN, "arguments": _array(_ARGUMENT)})
_COMPLETION = _object({"values": _array(_TEXT)}, {"total": _NUMBER, "hasMore": _BOOLEAN})

_STATUS = {"enum": ["working", "input_required", "completed", "failed", "cancelled"]}
_TASK = _object(
    {"taskId": _TEXT, "status": _STATUS, "createdAt": _TEXT},
    {"lastUpdatedAt": _TEXT, "statusMessage": _TEXT, "ttl": _NUMBER, "pollInterval": _NUMBER},
)
_CALLED = _object(
    {},
    {"content": _array(_PART), "structuredContent": _OBJECT, "isError": _BOOLEAN, "_meta": _OBJECT},
)

_RESULTS = {
    # what a server answers
    "initialize": _object(_INITIALIZED, {"instructions": _TEXT}),
    "tools/list": _page("tools", _TOOL),
    "tools/call": _CALLED,
    "tasks/result": _CALLED,
    "tools/call as a task": _object({"task": _TASK}, {}),
    "tasks/get": _TASK,
    "tasks/cancel": _TASK,
    "tasks/list": _page("tasks", _TASK),
    "resources/list": _page("resources", _RESOURCE),
    "resources/templates/list": _page("resourceTemplates", _TEMPLATE),
    "resources/read": _object({"contents": _array(_CONTENTS)}, {}),
    "resources/subscribe": _OBJECT,
    "resources/unsubscribe": _OBJECT,
    "prompts/list": _page("prompts", _PROMPT),
    "prompts/get": _object({"messages": _array(_MESSAGE)}, {"description": _TEXT}),
    "completion/complete": _object({"completion": _COMPLETION}, {}),
    "logging/setLevel": _OBJECT,
    "ping": _OBJECT,
    # what a host answers
    "sampling/createMessage": _object(
        {
            "role": {"enum": ["user", "assistant"]},
            "content": {"anyOf": [_SAMPLED_PART, _array(_SAMPLED_PART)]},
            "model": _TEXT,
        },
        {"stopReason": _TEXT},
    ),
    "elicitation/create": _object(
        {"action": {"enum": ["accept", "decline", "cancel"]}}, {"content": _OBJECT}
    ),
    "roots/list": _object({"roots": _array(_object({"uri": _TEXT}, {"name": _TEXT}))}, {}),
}
#: Params of what a server asks a host, as far as they are looked at before its functions get them.
QUESTIONS = {
    "sampling/createMessage": _object(
        {"messages": _array(_OBJECT)}, {"tools": _array(_TOOL), "toolChoice": _object({}, {"mode": _TEXT})}
    ),
    "elicitation/create": {
        "anyOf": [
            _object({"mode": {"const": "url"}, "message": _TEXT, "url": _TEXT, "elicitationId": _TEXT}, {}),
            _object({"message": _TEXT}, {"mode": {"const": "form"}, "requestedSchema": _OBJECT}),
        ]
    },
}
_READERS: Dict[str, Any] = {}


def checked(method: str, result: Any) -> Json:
    """The result of a request. Raises InvalidResult, with the place, if it isn't one of this method's."""
    if method not in _READERS:
        _READERS[method] = Checker(_RESULTS[method], method).reader
    made: Json = read(_READERS[method], result, "result", lambda text: InvalidResult(f"{method}: {text}"))
    return made
