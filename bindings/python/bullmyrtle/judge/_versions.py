"""The sets of rules by which a conversation is judged: those of the library, and the versions of MCP."""
from __future__ import annotations

#: The versions of MCP, the oldest first.
MCP = ("2024-11-05", "2025-03-26", "2025-06-18", "2025-11-25")
#: The version that a set of rules is of. By "mcp" it is the one that the sides agree on, and the newest until then.
VERSIONS = {"mcp": MCP[-1], **{f"mcp:{it}": it for it in reversed(MCP)}}
#: The names of all.
NAMES = ("jsonrpc", "lsp", *VERSIONS)
#: The one version that has batches.
WITH_BATCHES = "2025-03-26"


def of_library(rules: str) -> str:
    """The library's rules, whose "mcp" is the newest version."""
    return "mcp" if VERSIONS.get(rules) == MCP[-1] else rules
