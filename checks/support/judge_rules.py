"""The rules of docs/judge.md: their names, their levels, and what differs between the protocols."""
from typing import NamedTuple, Optional

MUST, SHOULD, NOTE = "must", "should", "note"
DEFINED = {-32700, *range(-32603, -32599), *range(-32099, -31999)}
RESERVED = range(-32768, -31999)

# The rules that a connection of ours keeps, whatever its host does; and the others, which are its host's.
CONNECTION = (
    "head",
    "not-json",
    "charset",
    "object",
    "version",
    "method",
    "params",
    "id",
    "outcome",
    "error",
    "both-kinds",
    "twice",
    "empty-array",
    "not-owed",
    "not-as-array",
    "id-fraction",
    "id-null",
    "id-form",
    "id-again",
)
HOST = (
    "cut-off",
    "line-end",
    "batch",
    "rpc-name",
    "code",
    "cancelled-code",
    "cancel-params",
    "cancel-unknown",
    "cancel-initialize",
    "after-cancel",
    "params-object",
    "result-object",
    "unanswered",
)
NOT_JUDGED = "not-judged"
# The levels that a rule may have; each one that isn't listed is a must.
OTHER_LEVELS = {
    "line-end": (NOTE,),
    "twice": (SHOULD,),
    "batch": (NOTE, MUST),
    "not-as-array": (SHOULD, NOTE),
    "id-fraction": (SHOULD, MUST),
    "id-null": (SHOULD, MUST),
    "id-form": (NOTE,),
    "id-again": (NOTE, MUST),
    "rpc-name": (NOTE,),
    "cancelled-code": (SHOULD,),
    "cancel-params": (MUST, NOTE),
    "cancel-unknown": (NOTE, MUST),
    "after-cancel": (NOTE,),
    "unanswered": (MUST, NOTE),
    "not-owed": (MUST, NOTE),
}
LEVELS_BY_RULE = {it: OTHER_LEVELS.get(it, (MUST,)) for it in (*CONNECTION, *HOST)}


class Rules(NamedTuple):
    """What differs between the protocols."""

    name: str
    batch: Optional[str] = None  # the level of a batch, where the rules have none
    id_level: str = SHOULD  # of an id that is null or has a fraction
    may_leave_null: bool = False  # a request with the id null
    cancel: str = ""  # the method of a cancel
    target: str = ""  # the member of its params that names a request
    cancel_settles: bool = False  # a request whose cancel was seen is owed no longer
    has_objects: bool = False  # params and results are objects
    ids_once: bool = False  # an id may never be used again
    ends_by_close: bool = False  # a client ends the session by its end
    leaves_ids_out: bool = False  # an error may be without an id, and a cancel without that of a request
    defined: frozenset[int] = frozenset(DEFINED)
    reserved: tuple[range, ...] = (RESERVED,)


MCP = Rules(
    "mcp:2025-06-18",
    MUST,
    MUST,
    may_leave_null=True,
    cancel="notifications/cancelled",
    target="requestId",
    cancel_settles=True,
    has_objects=True,
    ids_once=True,
    ends_by_close=True,
)
RULES = {
    it.name: it
    for it in (
        Rules("jsonrpc"),
        Rules(
            "lsp",
            NOTE,
            MUST,
            may_leave_null=True,
            cancel="$/cancelRequest",
            target="id",
            defined=frozenset({*DEFINED, *range(-32803, -32799)}),
            reserved=(RESERVED, range(-32899, -32799)),
        ),
        MCP._replace(name="mcp", leaves_ids_out=True),
        MCP,
        MCP._replace(name="mcp:2025-03-26", batch=None),
        MCP._replace(name="mcp:2024-11-05", batch=NOTE),
    )
}
