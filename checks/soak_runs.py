"""Runs the soak of bench/ for 20 seconds: a server under traffic of all kinds, each of whose answers is checked; two
servers after each other, of which the first is filled up to its last call; and, where there is `cc`, one that loses
some 20 bytes a call, which it has to see."""
import os
import re
import sys

from support import ran
from support import refusals

SOAK = os.path.join(ran.TOP, "bench", "soak")
# The words of a run, and how many servers it has.
RUNS = ((["--seconds", "20"], 1), (["--seconds", "12", "--calls", "3000", "--workers", "1", "--open", "600"], 2))


# A control: 24 bytes are lost behind each 50 requests for memory, of which a call makes some 40. It is calls that lose, and
# not seconds: a run that had fewer than so many between its rests, as on a slow machine, is made again, and longer.
LOSES, LOSING, LONGER = ["--lose", "50"], 10_000, (20, 60, 180)


def soaked(words: list[str]) -> tuple[int | str, str]:
    """A run's status, and what it told."""
    status, told = ran.told_by([sys.executable, SOAK, *words], 300)
    print(told.decode(), end="", flush=True)
    return status, told.decode()


def check_run(count: ran.Count, words: list[str], servers: int) -> None:
    status, told = soaked(words)
    count.check(f"bench/soak {' '.join(words)}", status == 0, f"status {status}")
    count.check(f"bench/soak {' '.join(words)} has {servers} servers", f"\n{servers} servers, " in told)
    for what in ("calls back", "doubled replies", "late replies", "withdrawals", "answers"):
        count.check(f"bench/soak {' '.join(words)} had {what}", re.search(rf"[1-9][\d,]* {what}\b", told) is not None)


def check_runs(count: ran.Count) -> None:
    for words, servers in RUNS:
        check_run(count, words, servers)
    if not ran.lacks("cc", refusals.WHY):
        check_loss(count)


def calls_between_rests(told: str) -> int:
    found = re.search(r"^held at rest: .* in ([\d,]+) calls$", told, re.M)
    return int(found[1].replace(",", "")) if found else 0


def check_loss(count: ran.Count) -> None:
    status: int | str = 0
    told = ""
    for seconds in LONGER:
        status, told = soaked(["--seconds", f"{seconds}", *LOSES])
        if calls_between_rests(told) >= LOSING:
            break
    count.check(
        "a loss is seen", status == 1 and re.search(r"DIFFERS: .* are kept", told) is not None, f"status {status}"
    )


ran.script(check_runs)
