"""What a host's user is asked for: forms, and pages that are opened."""
from __future__ import annotations

import dataclasses
import uuid
from typing import Any, Dict, List, Optional, Sequence

from .._signatures.checker import Checker
from .._signatures.readers import read
from .._signatures.schemas import Kinds
from ..errors import Error
from ._results import InvalidResult, checked
from .content import ToolError

Json = Dict[str, Any]

#: The code of a request that needs the user to open a page first.
URL_ELICITATION_REQUIRED = -32042
_PLAIN = ("string", "number", "integer", "boolean")


@dataclasses.dataclass
class Elicited:
    """What the host's user said: "accept" with the content, "decline" or "cancel"."""

    action: str
    content: Optional[Json] = None


@dataclasses.dataclass
class PageElicitation:
    """A page that the user is asked to open, since version 2025-11-25. Its id is sent again when the user is done."""

    message: str
    url: str
    elicitation_id: str = dataclasses.field(default_factory=lambda: str(uuid.uuid4()))

    def __post_init__(self) -> None:
        if not self.url.startswith(("https://", "http://")):
            raise ValueError(f"a page's URL begins with https://, got {self.url[:60]!r}")

    def as_json(self) -> Json:
        """The params of the question."""
        about = {"message": self.message, "url": self.url, "elicitationId": self.elicitation_id}
        return {"mode": "url", **about}


class UrlElicitationRequired(Error):
    """A tool raises it if it can't go on before the user has opened some pages: the host gets the error -32042."""

    def __init__(
        self, pages: Sequence[PageElicitation], message: str = "Open the pages, and try again"
    ) -> None:
        super().__init__(URL_ELICITATION_REQUIRED, message, {"elicitations": [it.as_json() for it in pages]})
        self.pages = list(pages)

    def __reduce__(self) -> Any:
        return type(self), (self.pages, self.message)


def form_of(kind: Any, version: str) -> Json:
    """The schema of a form: texts, numbers, booleans and choices, side by side. Raises TypeError for others."""
    kinds = Kinds()
    schema = kinds.of(kind).schema
    form = dict(kinds.found(schema))
    form["properties"] = {it: _field(it, of, version) for it, of in form.get("properties", {}).items()}
    return form


def _field(name: str, schema: Json, version: str) -> Json:
    made = {word: it for word, it in schema.items() if word != "uniqueItems"}
    several = made.get("items", {}) if made.get("type") == "array" else None
    if several is not None and several.get("type") == "string" and {"enum", "oneOf"} & several.keys():
        if version < "2025-11-25":
            raise ToolError(f"{name!r}: the host's version has no choice of several")
        if "oneOf" in several:
            made["items"] = {"anyOf": several["oneOf"]}
        return made
    if made.get("type") not in _PLAIN:
        raise TypeError(
            f"{name!r} can't be asked for: a user gives texts, numbers, booleans and choices of these"
        )
    if "oneOf" in made and version < "2025-11-25":
        titled: List[Json] = made.pop("oneOf")
        made.update(enum=[it["const"] for it in titled], enumNames=[it["title"] for it in titled])
    return made


def elicited(result: Any, schema: Optional[Json] = None) -> Elicited:
    """What a user said. Raises InvalidResult if the content isn't as the schema of the form has it."""
    made = checked("elicitation/create", result)
    content = made.get("content")
    if made["action"] == "accept" and schema is not None:
        read(Checker(schema, "the form").reader, content or {}, "result.content", _refused)
    return Elicited(made["action"], content)


def _refused(text: str) -> Exception:
    return InvalidResult(f"elicitation/create: {text}")
