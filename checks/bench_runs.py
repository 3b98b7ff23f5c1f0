"""Runs the bench program on sizes that are no multiple of anything: each job comes home once, each unit is released,
and its time is printed. What a desk took while much was open it gives back. And bench/run runs on small sizes, where
what it measures can be built: each answer of the player, of the server and of the hosts is the one that it has to be.
Instructions are counted of one row, and of a long copy."""
import os
import re
import subprocess
import sys

from support import callgrind, ran
from support import refusals

sys.path.insert(0, os.path.join(ran.TOP, "bench"))

from measures import behind, contenders, figures, inputs, playing, running  # noqa: E402 (it stands in bench/)

# The rows of bench/run's tables, by whether the other side is called: only where it isn't the limit is beside ours in
# `play` and `serve`, and it always is beside hosts.
LONG = (
    *("completion list", "list with blanks", "list, indented", "didOpen", "didOpen with blanks"),
    *("semantic tokens", "tokens with blanks", "beyond ASCII", "beyond ASCII as \\u"),
)
HOVERS = ("hovers", "hovers with blanks")
PLAYED = (
    *("single requests", "batches of 100", *HOVERS, "one param of 8 MB", *LONG),
    *("completion list, known", "list with blanks, known", "adds", "adds with blanks", "adds in batches"),
)
PLAYED_WITH_CALLS = ("calls back", "the same in batches", "cancels")
SERVED = ("unknown methods", "adds", "adds with blanks", "adds in batches")
THERE_AND_BACK = ("a request", "one after 5 ms", "8 MB, unknown method", *LONG)
THERE_AND_BACK_WITH_CALLS = ("a call back", "a cancel", "a reply of 8 MB", "a param of 8 MB")
HOSTED = ("requests", "requests with blanks", "batches of 100", "open calls")
HOSTED_THERE_AND_BACK = ("a request", "a call back", "a cancel", "a param of 8 MB", *LONG)
HOSTED_WHOLE = (
    *(*HOVERS, *LONG, "adds", "adds with blanks", "adds in batches", "adds, string ids"),
    *("calls back", "cancels", "open calls", "open, string ids", "long results"),
)
HOSTED_MEMORY = ("a small request", "an unknown method", "a notification")
HELD = ("one of open calls", "one, string id")
# A copy of so many bytes, and the most instructions that it takes with the start of its program.
COPIED, MOST = 1 << 20, 1 << 19
COPY = (
    "#include <string.h>\n"
    f"static char from[{COPIED}], to[{COPIED}];\n"
    "int main(int count, char **words) { memcpy(to, from, sizeof from - (size_t)count); return (void)words, to[5]; }\n"
)

count = ran.Count()
BENCH = count.built("peer_bench", ran.gates_program("peer_bench"))


def check_work(words, name, number, outcome):
    """Does work of one kind, and looks at how much of it was done."""
    status, output, errors = ran.run(words, program=BENCH)
    well = re.fullmatch(rb"(.*): (\d+) (\w+) in \d+ us\n", output)
    got = (status, *(well.groups() if well else (output,)), errors)
    count.check(" ".join(words), got == (0, name.encode(), b"%d" % number, outcome.encode(), b""), f"{got}")


def check_all():
    for workers, room in ((1, 1), (1, 128), (2, 3), (4, 8), (4, 128)):
        for jobs in (0, 5_003):
            words = ["slots", f"--workers={workers}", f"--room={room}", "--jobs", str(jobs)]
            check_work(words, "slots", jobs, "turned")
    for order in ("straight", "windows", "cancels", "stream", "behind", "batch"):
        for units in (0, 1, 999, 1_000, 1_001, 2_017):
            # (the first unit of the one is never finished, and the other is one unit)
            released = {"behind": max(0, units - 1), "batch": min(1, units)}.get(order, units)
            check_work(["desk", "--order", order, f"--units={units}"], f"desk {order}", released, "released")
    for words in (
        ["--help"],
        *([it, "--help"] for it in ("slots", "desk", "lockstep", "cases")),
        ["--version"],
    ):
        status, output, errors = ran.run(words, program=BENCH)
        count.check(f"{words}", status == 0 and b"peer_bench" in output and errors == b"", f"{status}, {errors!r}")
    for words in (
        ["frobnicate"],
        ["slots", "--workers", "0"],
        ["slots", "--room", "129"],
        ["slots", "--jobs", "1000000001"],
        ["desk", "--units", "1000001"],
        ["desk", "--order", "sideways"],
        ["desk", "more"],
        ["lockstep", "--rounds", "0"],
        ["lockstep", "--workers", "65"],
        ["lockstep", "--room", "1"],
        ["cases", "more"],
    ):
        status, output, errors = ran.run(words, program=BENCH)
        count.check(
            f"refused words {words}",
            status == 2 and output == b"" and errors.startswith(b"error: "),
            f"{status}, {errors!r}",
        )
    for room in (0, 1, 20):
        got = ran.run_into(room, ["desk", "--units", "3"], program=BENCH)
        count.same(
            f"an output that takes {room} bytes", got, (1, b"desk straight: 3 released in "[:room], b"failed: Write\n")
        )


def check_memory():
    """Of 10,000 requests that were open at once 128 empty blocks are kept once they are released, for further calls,
    and nothing else; and few bytes of each behind an open call."""
    desk = [BENCH, "desk", "--units", "10000", "--order"]
    status, most, last, *_ = refusals.counted([*desk, "straight"])
    count.check("10,000 open requests take memory", status == 0 and most >= 1_000_000, f"{status}, {most:,} bytes")
    count.check("their memory goes back", last <= 32_768, f"{last:,} bytes")
    status, most, last, *_ = refusals.counted([*desk, "behind"])
    count.check(
        "a number that is over keeps little behind an open one",
        status == 0 and last <= 10_000 * 32,
        f"{status}, {last:,} bytes",
    )


def tables_in(output):
    """The lines of each table, by its title and which one of that title it is."""
    found, lines = {}, []
    for line in output.splitlines():
        head = re.match(r"(\S.*?) {2,}(?:size|trips|seconds|program)\b", line)
        if head:
            lines = []
            found[head[1], sum(title == head[1] for title, _ in found)] = lines
        lines.append(line)
    return found


def check_table(found, key, names, labels):
    """A table has these rows, each by these programs."""
    text = "\n".join(found.get(key, []))
    one = "|".join(sorted(map(re.escape, labels), reverse=True))
    for name in names:
        lines = re.findall(rf"^{re.escape(name)}(?: +\d+)? +({one}) +[\d.,]+", text, re.M)
        count.check(f"bench/run's row of {key}: {name}", {*lines} == {*labels}, f"it has {lines}")


def check_hosts(found):
    """The five tables of hosts."""
    ours = ["model", "in C", "in Rust"]
    labels = ["baseline", *(it.label for it in contenders.limits()), *ours]
    check_table(found, ("sent at once (lib)", 0), HOSTED, labels)
    check_table(found, ("there and back (lib)", 0), HOSTED_THERE_AND_BACK, labels)
    check_table(found, ("played (lib)", 0), HOSTED_WHOLE, labels)
    check_table(found, ("requests for memory", 0), HOSTED_MEMORY, ["baseline", *ours])
    check_table(found, ("bytes held", 0), HELD, labels)


def check_tables(output):
    found = tables_in(output)
    limits = [it.label for it in contenders.limits()]
    workers = ["ours, 1 worker", "ours, 4 workers"]
    check_table(found, ("input", 0), PLAYED, ["baseline", *limits, "ours"])
    check_table(found, ("input", 0), PLAYED_WITH_CALLS, ["baseline", "ours"])
    check_table(found, ("sent at once", 0), SERVED, ["baseline", *limits, *workers])
    check_table(found, ("sent at once", 0), ("open calls",), ["baseline", *workers])
    check_table(found, ("there and back", 0), THERE_AND_BACK, ["baseline", *limits, *workers])
    check_table(found, ("there and back", 0), THERE_AND_BACK_WITH_CALLS, ["baseline", *workers])
    check_hosts(found)


def check_run():
    """All that bench/run measures of the player, the server and the hosts, on small sizes: of the released files where
    the programs aren't built that the gate builds."""
    wanted = contenders.lacking(counts=False)
    if wanted:
        print(f"SKIPPED: bench/run on small sizes, which wants {' '.join(wanted)}", flush=True)
        return
    which = [] if BENCH else ["--released"]
    words = [os.path.join(ran.TOP, "bench", "run"), "--quick", "--small", "1000", "--runs", "1", *which]
    ended = subprocess.run(words, capture_output=True, text=True, timeout=900, check=False)
    count.check("bench/run on small sizes", ended.returncode == 0, f"{ended.stdout[-500:]} {ended.stderr[-1000:]}")
    check_tables(ended.stdout)
    count.check("bench/run says where ours is behind", "behind the baseline at the largest size" in ended.stdout)
    check_counts()


def check_counts():
    """A row of instructions alone, by the limit that was built, and a copy: glibc's `rep movsb` would be counted by the
    byte."""
    if ran.lacks("valgrind", "it counts the instructions"):
        return
    kept = figures.Figures(is_whole=False)
    run = running.Run(10, 1, False, True, behind.Behind(), kept)
    playing.show_row("played", inputs.HOVERS[0], contenders.limits(), run)
    found = {(it.table, it.kind): it.rows["hovers"]["limit"] for it in kept.parts}
    each = found.pop(("played", "instructions"), 0)
    count.check("instructions alone are counted", 1_000 < each < 3_000 and not found, f"{each}, {found}")
    program = os.path.join(ran.ROOM.name, "copy")
    subprocess.run(["cc", "-fno-builtin", "-o", program, ran.file_of("copy.c", COPY)], check=True)
    taken = callgrind.instructions([program])
    count.check("a long copy is counted as a loop", taken and taken < MOST, f"{taken}")


if BENCH:
    check_all()
    if not ran.lacks("cc", refusals.WHY):
        check_memory()
check_run()
count.end()
