"""What was measured, kept in bench/figures.json. The figures of one kind of all rows of a table are a part, which is of
one run."""
import datetime
import json
import os
from typing import Dict, List, NamedTuple

from measures.contenders import TOP

FILE = os.path.join(TOP, "bench", "figures.json")
# The figures of a row, by the programs' names in the tables.
Values = Dict[str, float]


class Part(NamedTuple):
    """The figures of one kind of a table's rows, and when and where they were measured."""

    table: str
    kind: str
    date: str
    machine: str
    rows: Dict[str, Values]


class Figures:
    """What is measured in a run. It is kept if the run is a whole one."""

    def __init__(self, is_whole: bool, file: str = FILE) -> None:
        self.is_whole, self.file = is_whole, file
        self.parts: List[Part] = []

    def note(self, table: str, kind: str, row: str, values: Values) -> None:
        """Notes figures of a row, without those of an earlier program."""
        found = {label: rounded(it) for label, it in values.items() if label.partition(",")[0] != "before"}
        self.part(table, kind).rows[row] = found

    def part(self, table: str, kind: str) -> Part:
        """The part of such figures, which begins with the first of them."""
        made = (it for it in self.parts if (it.table, it.kind) == (table, kind))
        found = next(made, None)
        if found is None:
            found = Part(table, kind, datetime.date.today().isoformat(), machine(), {})
            self.parts.append(found)
        return found

    def keep(self) -> None:
        """Has the file keep each part of what was noted, in place of what it has of that part."""
        if self.is_whole and self.parts:
            new = {(it.table, it.kind) for it in self.parts}
            write(self.file, [*(it for it in read(self.file) if (it.table, it.kind) not in new), *self.parts])
        self.parts = []


def rounded(value: float) -> float:
    found = float(f"{value:.6g}")
    return int(found) if found.is_integer() else found


def machine() -> str:
    """The processors of this machine."""
    with open("/proc/cpuinfo", encoding="utf-8") as it:
        names = [line.partition(":")[2].strip() for line in it if line.startswith("model name")]
    return f"{len(names)} x {names[0]}" if names else "unknown"


def read(file: str = FILE) -> List[Part]:
    with open(file, encoding="utf-8") as it:
        return [Part(**each) for each in json.load(it)]


def write(file: str, parts: List[Part]) -> None:
    """Each row is a line."""
    with open(file, "w", encoding="utf-8") as it:
        it.write("[\n" + ",\n".join(map(text_of, sorted(parts))) + "\n]\n")


def text_of(part: Part) -> str:
    head = json.dumps({**part._asdict(), "rows": {}}, ensure_ascii=False).removesuffix("}}")
    rows = (f"{json.dumps(row)}: {json.dumps(values)}" for row, values in part.rows.items())
    return head + "\n" + ",\n".join(rows) + "\n}}"
