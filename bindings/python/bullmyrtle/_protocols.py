"""Protocols over JSON-RPC: what each of them sets, and what its other side can't read."""
from __future__ import annotations

from ._hints import TYPE_CHECKING, NamedTuple
from .errors import BadSettings

if TYPE_CHECKING:
    from typing import Any, Dict, FrozenSet, Literal, Optional

    ProtocolName = Literal["lsp", "mcp"]
else:
    ProtocolName = object


class ProtocolSettings(NamedTuple):
    """What a protocol sets."""

    name: str
    framing: str
    cancel_by: str
    #: Whether its other sides read a batch of calls.
    has_batches: bool = False
    #: The requests that are never cancelled: no cancel of them is said, and one that comes plays no part.
    never_cancelled: FrozenSet[str] = frozenset()

    def check(self, framing: Optional[str], cancel_by: Any, no_choice: str) -> None:
        """Refuses what contradicts it; `no_choice` is a `cancel_by` that nobody chose."""
        if framing not in (None, self.framing):
            raise BadSettings(
                f"framing={framing!r} contradicts: protocol={self.name!r} has framing={self.framing!r}"
            )
        if cancel_by not in (no_choice, self.cancel_by):
            raise BadSettings(
                f"cancel_by={cancel_by!r} contradicts: protocol={self.name!r} has cancel_by={self.cancel_by!r}"
            )

    def check_batch(self) -> None:
        """Refuses a batch of calls where the protocol has none."""
        if not self.has_batches:
            raise RuntimeError(
                f"protocol={self.name!r} has no batches: write call(..) for each, and asyncio.gather to await them"
            )


#: What each protocol sets. (LSP has no batches: clangd and gopls end the session at one, and pylsp doesn't answer. MCP
#: has had none since 2025-06-18.)
PROTOCOLS: Dict[str, ProtocolSettings] = {
    "lsp": ProtocolSettings("lsp", framing="frames", cancel_by="$/cancelRequest"),
    "mcp": ProtocolSettings(
        "mcp",
        framing="lines",
        cancel_by="notifications/cancelled",
        never_cancelled=frozenset({"initialize"}),
    ),
}
