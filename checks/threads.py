"""What starts threads, many times in a row: each run ends by itself. The tests of job slots that have two workers pass,
and of 10,000 jobs that four workers turn each comes home once, turned once. And a server whose client waits for each
answer before its next request: no wake-up is lost, however soon its threads go to sleep, they look as often before that
as they were told to, and let others run in between. It has as many threads as it was told to have."""
import os
import resource
import subprocess
import time

from support import ran

# How often each test, and each hand-out of jobs, is run.
TURNS = 50
THREADED = ("two_workers_turn_each_job_at_most_once", "all_jobs_are_turned_before_the_stop")
JOBS, ROUNDS = 10_000, 20_000
# How many seconds the rounds may take: each waits for two threads to be woken, which other processes hold up; and one that
# isn't woken waits for ever.
PATIENCE = 900
# Rounds in which the threads' sleeps are counted, and as many looks as a thread may make.
FEW_ROUNDS, MOST_LOOKS = 2_000, 2**32 - 1
# So many requests are sent ahead, of so many in all: their reader waits again and again until there is room for a piece.
AHEAD, MANY_ROUNDS = 1_000, 50_000
# A server of so many workers has as many threads, one that reads, and the one that has called it.
WORKERS, OTHERS = 3, 2
# The seconds of the processor that a round may take where all threads share one: a thread that goes on until the system
# stops it takes some 3 milliseconds each time.
A_ROUND = 0.0005

count = ran.Count()


def check_tests() -> None:
    for threaded in THREADED:
        test = count.built(threaded, ran.test_named(threaded))
        for turn in range(1, TURNS + 1 if test else 1):
            status, _ = ran.told_by(test or (), 60)
            count.check(f"{threaded}, run {turn}", status == 0, f"{status}")
            if status:
                break


def check_jobs(bench: str) -> None:
    for room in ("8", "128"):
        for turn in range(1, TURNS + 1):
            status, output = ran.told_by([bench, "slots", "--workers", "4", "--room", room, "--jobs", str(JOBS)], 60)
            well = status == 0 and output.startswith(b"slots: %d turned in " % JOBS)
            count.check(f"{JOBS} jobs by way of {room} slots, run {turn}", well, f"{status}, {output!r}")
            if not well:
                break


def check_wake_ups(bench: str) -> None:
    for workers in ("1", "4"):
        for yields in ("0", "5"):
            words = ["lockstep", "--rounds", str(ROUNDS), "--workers", workers, "--yields", yields]
            count.same(
                f"peer_bench {' '.join(words)}",
                ran.told_by([bench, *words], PATIENCE),
                (0, b"%d requests answered\n" % ROUNDS),
            )


def run_of(bench: str, looks: int, rounds: int = FEW_ROUNDS, ahead: int = 0) -> tuple[int | str, int, float]:
    """How a server of one worker ends whose threads look so often before they sleep, how often they have slept, and the
    seconds of the processor that it has taken."""
    words = ["lockstep", "--rounds", str(rounds), "--ahead", str(ahead), "--workers", "1", "--yields", str(looks)]
    before = resource.getrusage(resource.RUSAGE_CHILDREN)
    status, _ = ran.told_by([bench, *words], PATIENCE)
    after = resource.getrusage(resource.RUSAGE_CHILDREN)
    seconds = after.ru_utime + after.ru_stime - before.ru_utime - before.ru_stime
    return status, after.ru_nvcsw - before.ru_nvcsw, seconds


def check_patience(bench: str) -> None:
    """The patience that a crew is given comes to its threads: without any the clerk and the worker sleep in each round,
    three times in all, and with the greatest neither ever does, nor the reader where there is no room for its piece."""
    status, sleeps, _ = run_of(bench, 0)
    count.check(
        "threads without patience sleep in each round", status == 0 and sleeps >= FEW_ROUNDS, f"{status} {sleeps}"
    )
    for rounds, ahead in ((FEW_ROUNDS, 0), (MANY_ROUNDS, AHEAD)):
        status, sleeps, _ = run_of(bench, MOST_LOOKS, rounds, ahead)
        count.check(
            f"threads that may look on don't sleep, {ahead} requests ahead",
            status == 0 and sleeps < FEW_ROUNDS // 10,
            f"{status} {sleeps}",
        )


def check_yields(bench: str) -> None:
    """On one processor each thread that waits lets the one run that it waits for."""
    all_of_them = os.sched_getaffinity(0)
    os.sched_setaffinity(0, {min(all_of_them)})
    try:
        status, _, seconds = run_of(bench, MOST_LOOKS)
    finally:
        os.sched_setaffinity(0, all_of_them)
    most = FEW_ROUNDS * A_ROUND
    count.check("threads that wait let others run", status == 0 and seconds < most, f"{status} {seconds} {most}")


def threads_of(bench: str, server: str) -> tuple[int, int]:
    """How a server ends, and the most threads that it was seen to have."""
    words = ["lockstep", "--rounds", str(ROUNDS), "--server", server, "--workers", str(WORKERS)]
    most, end = 0, time.monotonic() + PATIENCE
    with subprocess.Popen([bench, *words], stdout=subprocess.DEVNULL) as running:
        while running.poll() is None:
            most = max(most, len(os.listdir(f"/proc/{running.pid}/task")))
            if time.monotonic() > end:
                running.kill()
    return running.returncode, most


def check_crews(bench: str) -> None:
    for server in ("serve_by", "serve", "serve_lines"):
        count.same(f"{server} with {WORKERS} workers", threads_of(bench, server), (0, WORKERS + OTHERS))


check_tests()
BENCH = count.built("peer_bench", ran.gates_program("peer_bench"))
if BENCH:
    check_jobs(BENCH)
    check_wake_ups(BENCH)
    check_patience(BENCH)
    check_yields(BENCH)
    check_crews(BENCH)
count.end()
