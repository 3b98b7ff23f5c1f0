"""What a docstring says of a function and of its parameters."""
from __future__ import annotations

import inspect
import re
from typing import Any, Dict, List, Optional, Tuple

_HEAD = re.compile(r"(args|arguments|parameters|params):\s*$", re.I)
_OTHER_HEAD = re.compile(r"(returns?|raises|yields?|examples?|notes?):\s*$", re.I)
_ITEM = re.compile(r"(\*{0,2}\w+)\s*(?:\([^)]*\))?\s*:\s*(.*)")
_FIELD = re.compile(r":(?:param|parameter|arg|argument)\s+(?:\S+\s+)?(\w+)\s*:\s*(.*)")
_OTHER_FIELD = re.compile(r":(?:returns?|rtype|raises?|type)\b.*:")


def described(function: Any) -> Tuple[Optional[str], Dict[str, str]]:
    """The description, and those of parameters: written below `Args:`, or as `:param name: text`."""
    lines = (inspect.getdoc(function) or "").splitlines()
    about: List[str] = []
    parameters: Dict[str, str] = {}
    section, indent, last = "about", 0, None
    for line in lines:
        words, depth = line.strip(), len(line) - len(line.lstrip())
        field = _FIELD.match(words)
        if _HEAD.match(words):
            section, indent, last = "args", 0, None
        elif _OTHER_HEAD.match(words) or _OTHER_FIELD.match(words):
            section = "other"
        elif field is not None:
            section, indent, last = "field", depth, field[1]
            parameters[field[1]] = field[2]
        elif section == "args" and words:
            item = _ITEM.match(words)
            indent = indent or depth
            if depth == 0:
                section = "about"
                about.append(line)
            elif item is not None and depth <= indent:
                last = item[1].lstrip("*")
                parameters[last] = item[2]
            elif last is not None:
                parameters[last] = f"{parameters[last]} {words}".strip()
        elif section == "field" and words and last is not None:
            parameters[last] = f"{parameters[last]} {words}".strip()
        elif section == "about":
            about.append(line)
    text = "\n".join(about).strip()
    return text or None, {name: it for name, it in parameters.items() if it}
