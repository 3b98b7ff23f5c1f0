"""Questions to a host's model, which may use tools in its answer (client/sampling of 2025-11-25)."""
from __future__ import annotations

from typing import Any, Dict, List, Optional

from .content import parts_of

Json = Dict[str, Any]

CHOICES = ("auto", "required", "none")


def _parts(message: Any, kind: str) -> List[Json]:
    """The parts of a message that are of a type; a message has one part, or a list of them."""
    content = message.get("content") if isinstance(message, dict) else None
    given = content if isinstance(content, list) else [content]
    return [it for it in given if isinstance(it, dict) and it.get("type") == kind]


def tool_uses(message: Json) -> List[Json]:
    """The tools that a model asks for in its message: each has an `id`, a `name` and the arguments as `input`."""
    return _parts(message, "tool_use")


def tool_result(use: Json, value: Any, is_error: bool = False) -> Json:
    """What a tool gave that a model asked for, as a part of the next message."""
    made = {"type": "tool_result", "toolUseId": use["id"], "content": parts_of(value, "2025-11-25")}
    return {**made, "isError": True} if is_error else made


def fault_of(messages: List[Any]) -> Optional[str]:
    """What is wrong with the turns in which tools are used: each use has its result in the next message."""
    owed: List[Any] = []
    for at, it in enumerate(messages):
        results = _parts(it, "tool_result")
        content = it.get("content") if isinstance(it, dict) else None
        if results and isinstance(content, list) and len(results) < len(content):
            return f"messages[{at}] has results of tools beside other content"
        found = [part.get("toolUseId") for part in results]
        for use in owed:
            if use not in found:
                return f"messages[{at}] lacks the result of the tool use {str(use)[:60]!r}"
        for result in found:
            if result not in owed:
                return (
                    f"messages[{at}] has the result of {str(result)[:60]!r}, which no use before it asks for"
                )
        owed = [part.get("id") for part in tool_uses(it)] if isinstance(it, dict) else []
    return f"messages lacks the result of the tool use {str(owed[0])[:60]!r}" if owed else None
