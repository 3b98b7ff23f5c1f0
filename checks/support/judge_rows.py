"""Rows of checks/judge_rows, of two sides that talk and what the judge finds.

row_language.py has their language. `>` is what the client writes and `<` what the server writes. A row's name begins
with a rule and with what the row shows: that it is kept, broken, or broken at its border. Its ways are the rules and the
framing, and the judge's limits where they are other than its own:

    not-owed broken: an id that was never used: jsonrpc lines limit 100 ids 5
    > {"jsonrpc":"2.0","method":"a","id":7}
    < {"jsonrpc":"2.0","id":8,"result":1}
    ! server not-owed must 1                    what is found as soon as this was seen: who, the rule, its level, and the
    server closed                               message; 2.1 is the first entry of the second message
    ! server unanswered must client 1           the message of the other side; `at 25` may follow, the offset of its first byte"""
import glob
import os
import re
from dataclasses import dataclass, field

from support.connection_rows import framed
from support.judge_model import OTHER, SIDES, Finding, Judge
from support.judge_rules import CONNECTION, HOST, NOT_JUDGED, RULES
from support.row_language import Block, Unread, block_of, read_file, wire_of

FOLDER = os.path.join(os.path.dirname(os.path.dirname(os.path.abspath(__file__))), "judge_rows")
NAMES = (*CONNECTION, *HOST, NOT_JUDGED)
SHOWS = ("kept", "broken", "border")
LEVELS = ("must", "should", "note")
FRAMINGS = ("frames", "lines", "contents")
FOUND = re.compile(r"! (\w+) ([\w-]+) (\w+)(?: (client|server))? (\d+)(?:\.(\d+))?(?: at (\d+))?")


@dataclass
class Seen:
    """What a side wrote, or how it ended, and what is found as soon as that was seen."""

    side: str
    data: bytes = b""
    ended: str = ""
    found: list["Found"] = field(default_factory=list)


@dataclass(frozen=True)
class Found:
    side: str
    rule: str
    level: str
    of: str
    count: int
    entry: int
    offset: int  # or -1 where the row doesn't say

    @property
    def line(self) -> str:
        of = "" if self.of == self.side else f" {self.of}"
        place = f"{self.count}.{self.entry}" if self.entry else str(self.count)
        return f"! {self.side} {self.rule} {self.level}{of} {place}" + (
            f" at {self.offset}" if self.offset >= 0 else ""
        )


@dataclass(frozen=True)
class Row:
    name: str
    rules: str
    framing: str
    limits: dict[str, int]
    seen: list[Seen]

    @property
    def rule(self) -> str:
        return self.name.split(" ")[0]

    @property
    def shows(self) -> str:
        return self.name.split(" ")[1].removesuffix(":")

    def judge(self) -> Judge:
        return Judge(self.rules, self.framing, **self.limits)

    def wanted(self) -> list[str]:
        return [it.line for seen in self.seen for it in seen.found]

    def found(self) -> list[str]:
        """What the model finds, told as the row tells it."""
        judge, lines = self.judge(), list[str]()
        for seen in self.seen:
            before = len(judge.findings)
            show(judge, seen, [seen.data])
            offsets = [it.offset >= 0 for it in seen.found]
            for at, it in enumerate(judge.findings[before:]):
                lines.append(found_of(it, at < len(offsets) and offsets[at]).line)
        return lines

    def found_by_bytes(self) -> list[Finding]:
        judge = self.judge()
        for seen in self.seen:
            show(judge, seen, [seen.data[at : at + 1] for at in range(len(seen.data))])
        return judge.findings

    def found_whole(self) -> list[Finding]:
        judge = self.judge()
        for seen in self.seen:
            show(judge, seen, [seen.data])
        return judge.findings


def show(judge: Judge, seen: Seen, pieces: list[bytes]) -> None:
    if seen.ended:
        judge.end(seen.side, seen.ended)
        return
    for it in pieces:
        judge.saw(seen.side, it)


def found_of(finding: Finding, has_offset: bool) -> Found:
    place = finding.place
    offset = place.offset if has_offset else -1
    return Found(finding.side, finding.rule, finding.level, place.side, place.number, place.entry, offset)


def read_found(line: str) -> Found:
    read = FOUND.fullmatch(line)
    if read is None or read[1] not in SIDES or read[2] not in NAMES or read[3] not in LEVELS:
        raise Unread(f"no finding: {line}")
    side, rule, level, of, count, entry, offset = read.groups()
    return Found(side, rule, level, of or side, int(count), int(entry or 0), int(offset or -1))


def read_ways(ways: list[str]) -> tuple[str, str, dict[str, int]]:
    rules, framing, *rest = [*ways, "", ""][:2] + ways[2:]
    names, numbers = rest[::2], rest[1::2]
    is_well = rules in RULES and framing in FRAMINGS and {*names} <= {"limit", "ids"} and len(names) == len(numbers)
    if not is_well or not all(it.isdecimal() for it in numbers):
        raise Unread(f"ways that aren't known: {ways}")
    return rules, framing, dict(zip(names, map(int, numbers)))


def row_of(block: Block) -> Row:
    rules, framing, limits = read_ways(block.ways)
    row = Row(block.name, rules, framing, limits, [])
    if row.rule not in NAMES or row.shows not in SHOWS or not row.name.startswith(f"{row.rule} {row.shows}: "):
        raise Unread(f"a name that begins with no rule and what the row shows of it: {row.name}")
    for line in block.lines:
        read_line(row, line)
    return row


def read_line(row: Row, line: str) -> None:
    """Takes a line into the row that it is of."""
    wire = wire_of(line)
    side, _, how = line.partition(" ")
    if wire:
        data = framed(wire, row.framing)
        if wire.is_joined:
            row.seen[-1].data += data
        else:
            row.seen.append(Seen("server" if wire.comes else "client", data))
    elif side in OTHER and how in ("closed", "failed"):
        row.seen.append(Seen(side, ended=how))
    elif line.startswith("! ") and row.seen:
        row.seen[-1].found.append(read_found(line))
    else:
        raise Unread(f"{row.name}: a line of no kind: {line}")


def rows_of(file: str) -> list[Row]:
    with open(file, encoding="utf-8", newline="") as it:
        facts, blocks = read_file(it.read())
    if facts:
        raise Unread(f"{file}: lines that hold for all rows: {facts}")
    return [row_of(it) for it in blocks]


def row_in(text: str) -> Row:
    return row_of(block_of(text))


def all_rows() -> list[Row]:
    return [row for file in sorted(glob.glob(os.path.join(FOLDER, "*.txt"))) for row in rows_of(file)]
