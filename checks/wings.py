#!/usr/bin/env python3
"""The groups of crates.txt keep to their rule: the floor (values, streams, messages) stands on itself alone, and of the three wings on it, the
table peer, the connection and the judge, none names a crate of another. So an edit in one wing proves nothing of the other again.
And no crate has a module or a type with the name of a library that it stands on, which the gate refuses. None that
another one names has a test: the gate would prove it a second time with it."""
import os
import re
import sys
from typing import Optional

from support import ran

sys.path.insert(0, f"{ran.TOP}/bin")
from tools.repository import Listing, read_text  # noqa: E402 (the folder of the commands is on the path only now)

FLOOR = ["values", "streams", "messages"]
WINGS = ["the table peer", "the connection", "the judge"]
TOPS = ["the library for C", "programs", "tests"]


def groups_of(text: str) -> tuple[dict[str, Optional[str]], list[str]]:
    """Of each crate the group that it stands in; and the groups, in their order."""
    groups: dict[str, Optional[str]] = {}
    order: list[str] = []
    group: Optional[str] = None
    for line in text.split("\n"):
        if heading := re.fullmatch(r"# == ([^:]*)(:.*)?", line):
            group = heading[1]
            order.append(group)
        elif crate := re.match(r"(\w+)[ :]", line):
            groups[crate[1]] = group
    return groups, order


def may_name(group: Optional[str], other: Optional[str]) -> bool:
    """Whether a crate of a group may name one of another."""
    if group in FLOOR:
        return other in FLOOR and FLOOR.index(other) <= FLOOR.index(group)
    return other in FLOOR or other == group or (group in TOPS and other != "tests")


def broken(text: str) -> list[str]:
    """The crates that name one that they may not."""
    groups, _ = groups_of(text)
    libraries = Listing(text).libraries
    return [
        f"{name} names {it}"
        for name in libraries
        for it in libraries[name]
        if it in groups and not may_name(groups[name], groups[it])
    ]


def names_in(source: str) -> set[str]:
    """The names of the modules and types that a file declares."""
    return {*re.findall(r"^\s*(?:pub(?:\(\w+\))? )?(?:mod|struct|enum|trait|type) (\w+)", source, re.M)}


def sources_of(name: str) -> str:
    """What a crate's files of src/ hold."""
    folders = os.walk(f"{ran.TOP}/crates/{name}/src")
    return "\n".join(read_text(f"{at}/{it}") for at, _, files in folders for it in files if it.endswith(".rt"))


def taken(listing: Listing, sources: dict[str, str]) -> list[str]:
    """The crates that declare the name of a library below them, and that name."""
    below = {
        name: {it for at in listing.below(name) for it in (at, *listing.libraries[at])} - {name} for name in sources
    }
    return [f"{name} declares {it}" for name in sources for it in sorted(names_in(sources[name]) & below[name])]


def twice_proved(listing: Listing, sources: dict[str, str]) -> list[str]:
    """The crates that others name and that have tests."""
    named = {it for libraries in listing.libraries.values() for it in libraries}
    return [it for it in sources if it in named and re.search(r"^\s*#\[test\]", sources[it], re.M)]


def main() -> None:
    count = ran.Count()
    text = read_text(f"{ran.TOP}/crates.txt")
    groups, order = groups_of(text)
    count.same("the groups, in their order", order, [*FLOOR, *WINGS, *TOPS])
    count.same("crates without a group", [it for it in Listing(text).lines if groups.get(it) is None], [])
    count.same("crates with a folder", sorted(groups), sorted(os.listdir(f"{ran.TOP}/crates")))
    count.same("crates that name one that they may not", broken(text), [])
    # (a look that can't fail shows nothing)
    beam = text.replace("connection_messages:", "connection_messages: rpc_messages")
    count.same("a beam between the wings", broken(beam), ["connection_messages names rpc_messages"])
    count.same(
        "a floor on a wing",
        broken(text.replace("message_ids:", "message_ids: rpc_messages")),
        ["message_ids names rpc_messages"],
    )
    sources = {name: sources_of(name) for name in Listing(text).lines}
    count.same("crates with the name of a library below them", taken(Listing(text), sources), [])
    count.same(
        "a module with the name of a library below it",
        taken(Listing(text), {"peer_bench": "mod value_reading;", "rpc_messages": "pub mod peer_bench;"}),
        ["peer_bench declares value_reading"],
    )
    count.same("libraries with tests", twice_proved(Listing(text), sources), [])
    tested = {"message_ids": "    #[test]\n    fn it() {}", "library_rows": "#[test]\nfn it() {}"}
    count.same("a library with a test", twice_proved(Listing(text), tested), ["message_ids"])
    count.end()


if __name__ == "__main__":
    main()
