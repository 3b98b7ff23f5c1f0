"""How tables are measured, and where what was measured goes."""
from typing import NamedTuple

from measures.behind import Behind
from measures.figures import Figures


class Run(NamedTuple):
    """All sizes are divided by `small`, and each program runs so many times. Times and peaks are taken, instructions
    and memory are counted, or both."""

    small: int
    runs: int
    has_times: bool
    has_counts: bool
    behind: Behind
    figures: Figures
