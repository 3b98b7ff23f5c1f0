"""Where a program of ours is behind the baseline, and what it does there that the baseline doesn't."""
from typing import Dict, List, NamedTuple


# What is measured beside ours.
NOT_OURS = ("baseline", "limit", "limit v3", "model")


class Row(NamedTuple):
    """A row of a table by one program, at its largest size: the baseline's time by the program's, and why it is below
    1."""

    name: str
    label: str
    ratio: float
    why: str


class Behind:
    """The rows of all tables in which a program of ours takes longer than the baseline."""

    def __init__(self) -> None:
        self.rows: List[Row] = []

    def note(self, name: str, why: str, seconds: Dict[str, float]) -> None:
        """Keeps what is behind of one row, given the time of each program."""
        for label, took in seconds.items():
            ratio = seconds["baseline"] / took
            if label not in NOT_OURS and ratio < 1:
                self.rows.append(Row(name, label, ratio, why))

    def show(self) -> None:
        print("behind the baseline at the largest size, and why (docs/performance.md says more):")
        for it in self.rows:
            print(f"  {it.name}, {it.label}: {it.ratio:.2f}, since {it.why}")
        if not self.rows:
            print("  in no row")
        print(flush=True)
