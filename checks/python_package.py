"""usage: python3 checks/python_package.py [FILE ..]     runs these files of tests, such as test_calls, or else all

Runs the tests of the Python package over the C library, with the examples and with what docs/python.md and docs/language_servers.md
show. Each Python that is named in the variable PYTHONS, separated by colons, runs them too."""
import os
import re
import signal
import subprocess
import sys
import threading
from concurrent.futures import ThreadPoolExecutor

from support import ran

PACKAGE = os.path.join(ran.TOP, "bindings", "python")
TESTS = os.path.join(PACKAGE, "tests")
EXTENSION = "_bullmyrtle.abi3.so"
# (with the rows, of which Pythons before 3.10 have some fewer)
FEWEST = 2_500
# (support/arm64.py runs them on a processor that is worked out in software, by fewer processes than there are processors)
TIMES_SLOWER = int(os.environ.get("TIMES_SLOWER", "1"))
SECONDS = 900 * TIMES_SLOWER
PROCESSES = int(os.environ.get("PROCESSES", os.cpu_count() or 1))
# The files that take longest, which begin first.
LONGEST = ("test_examine", "test_judge_driver", "test_storms", "test_editors", "test_documents", "test_install")
LOCK = threading.Lock()
# The files that are run again with less of what Linux has to wait for streams with, as on macOS and on Windows: those that
# are about standard streams and processes.
AFRESH = ("test_client", "test_ends", "test_examples", "test_language_server", "test_stdio", "test_timeouts")
KINDS = ("plain", "threads")
# How long a single test may take, which then says what it waits for, while the others go on.
ONE = SECONDS * 4 // 9
# As `-m unittest`; a file that doesn't end says where it stands, and one that is for other Pythons says so.
TESTING = f"""
import faulthandler, sys, unittest
faulthandler.dump_traceback_later({SECONDS - 30}, exit=True)
try:
    unittest.main(module=None)
except unittest.SkipTest as why:
    print("... skipped", repr(str(why)), file=sys.stderr)
"""
# What a test says that is left out here, and runs apart.
APART = "it holds a bound on time, and runs apart"


def files():
    """The files of tests, those that take longest first."""
    found = [it for it in os.listdir(TESTS) if it.startswith("test_") and it.endswith(".py")]
    wanted = {f"{it}.py" for it in sys.argv[1:]} or {*found}
    return sorted({*found} & wanted, key=lambda it: (not it.startswith(LONGEST), it))


def check(python):
    """Runs each file of tests in a process of its own, as many side by side as there are processors: most of them wait."""
    env = {
        **os.environ,
        # (checks/test_python_clock.py runs what holds a bound on time, while nothing else runs)
        "BULLMYRTLE_TEST_CLOCK": "no",
        "BULLMYRTLE_TEST_SECONDS": f"{ONE}",
        "PYTHONDONTWRITEBYTECODE": "1",
    }
    runs = [(it, env) for it in files()]
    runs += [(it, {**env, "BULLMYRTLE_IO": kind}) for it in files() if it[:-3] in AFRESH for kind in KINDS]
    with ThreadPoolExecutor(PROCESSES) as pool:
        many = sum(pool.map(lambda it: run(python, *it), runs))
    if not sys.argv[1:]:
        count.check(f"{python}: {FEWEST} tests at least", many >= FEWEST, f"{many}")
    print(f"{python}: {many} tests", flush=True)


def run(python, name, env):
    """Runs a file of tests, and gives how many there are."""
    of = f"{python}, {name} {env.get('BULLMYRTLE_IO', '')}".rstrip()
    words = [python, "-W", "error::RuntimeWarning", "-c", TESTING, "-v", name[: -len(".py")]]
    try:
        ended = subprocess.run(words, cwd=TESTS, env=env, capture_output=True, timeout=SECONDS, check=False)
    except subprocess.TimeoutExpired as late:
        with LOCK:
            count.check(of, False, f"no end after {SECONDS} seconds: {(late.stderr or b'')[-500:]!r}")
        return 0
    said = ended.stderr.decode(errors="replace")
    tests = re.search(r"^Ran (\d+) tests? in", said, re.M)
    many = int(tests[1]) if tests else 0
    with LOCK:
        if TIMES_SLOWER > 1:
            print(f"{of}: {many} tests", flush=True)
        for _, why in re.findall(r"\.\.\. skipped (['\"])(.*)\1$", said, re.M):
            if why != APART:
                print(f"SKIPPED: {why}", flush=True)
        for it in re.findall(r"^((?:FAIL|ERROR): .*?)^-{70}$\n(.*?)(?=^={70}$|^-{70}$)", said, re.M | re.S):
            count.check(f"{of}: {it[0].strip()}", False, it[1].strip()[-700:])
        count.check(f"{of}: its status", ended.returncode == 0, said[-1500:])
        count.passed += max(0, many - said.count("\nFAIL:") - said.count("\nERROR:"))
    return many


# (what is started in the background ignores it, and what that starts too)
signal.signal(signal.SIGINT, signal.default_int_handler)
count = ran.Count()
if os.path.isfile(os.path.join(ran.TOP, "release", EXTENSION)):
    for it in [sys.executable, *filter(None, os.environ.get("PYTHONS", "").split(":"))]:
        check(it)
else:
    print(f"SKIPPED: the Python package, since {EXTENSION} isn't there", flush=True)
count.end()
