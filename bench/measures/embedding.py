"""The tables of hosts in C and in Rust over the released C library, beside the baseline's host, the limit and the
model: the loads of measures/hosting.py, each on one thread; inputs that stand there whole; how often each asks for
memory for one small request; and what it holds for an open one."""
import os
import subprocess
from typing import List

from measures import contenders
from measures.contenders import BASELINE, TOP, Contender, limits
from measures.hosting import BULKS, TRIPS, memory_tables
from measures.playing import hosts_table
from measures.running import Run
from measures.serving import show_bulks, show_trips_of

FOLDER = os.path.join(TOP, "bench", "embedded")
IN_RUST = os.path.join(FOLDER, "target", "release", "embedded_host")


def built(counts: bool) -> List[Contender]:
    """The baseline's host, the limit, the host in C over the model and over the released library, and that in Rust."""
    contenders.want(counts)
    contenders.build_others()
    subprocess.run(["cargo", "build", "--release", "--offline", "--quiet"], cwd=FOLDER, check=True)
    baseline, in_rust = Contender("baseline", (BASELINE, "host")), Contender("in Rust", (IN_RUST,))
    return [baseline, *limits(), *contenders.hosts_in_c(), in_rust]


def table(run: Run) -> None:
    hosts = built(run.has_counts)
    if run.has_times:
        show_bulks(BULKS, "sent at once (lib)", lambda _: hosts, run)
        print()
        show_trips_of(TRIPS, "there and back (lib)", lambda _: hosts, run)
        print()
    hosts_table("played (lib)", hosts, run)
    print()
    memory_tables(hosts, run)
