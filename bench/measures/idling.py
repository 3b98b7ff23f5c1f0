"""The table of servers that have nothing to do: what processor time they use in some seconds after a request."""
import os
import subprocess
import sys
import time
from typing import List

from measures.contenders import Contender, Programs
from measures.inputs import frame, request
from measures.loads import not_found

WORKERS = (1, 4, 64)
SECONDS = 5
# How long a server has to come to rest.
REST = 0.3


def processor_time(process: int) -> int:
    """The processor time of a process's threads so far, in nanoseconds."""
    used = 0
    for thread in os.listdir(f"/proc/{process}/task"):
        with open(f"/proc/{process}/task/{thread}/schedstat", encoding="ascii") as it:
            used += int(it.read().split()[0])
    return used


def started(server: Contender) -> "subprocess.Popen[bytes]":
    """A server that has answered one request."""
    running = subprocess.Popen(server.words, stdin=subprocess.PIPE, stdout=subprocess.PIPE)
    assert running.stdin is not None and running.stdout is not None
    running.stdin.write(frame(request(1)))
    running.stdin.flush()
    answer = frame(not_found(1))
    if running.stdout.read(len(answer)) != answer:
        sys.exit(f"bench/run: {server.label} doesn't answer a request")
    return running


def used_by(servers: List["subprocess.Popen[bytes]"], seconds: float) -> List[float]:
    """The shares of a processor that servers use in some seconds."""
    before = [processor_time(it.pid) for it in servers]
    begun = time.monotonic()
    time.sleep(seconds)
    passed = (time.monotonic() - begun) * 1e9
    return [(processor_time(it.pid) - first) / passed for it, first in zip(servers, before)]


def table(programs: Programs, small: int) -> None:
    print(f"{'nothing to do':20} {'seconds':>9} {'program':17} {'of a cpu':>10}")
    contenders, seconds = programs.servers(WORKERS), SECONDS / min(small, 10)
    servers = [started(it) for it in contenders]
    time.sleep(REST)
    for contender, share in zip(contenders, used_by(servers, seconds)):
        print(f"{'':20} {seconds:>9} {contender.label:17} {share:>10.3%}", flush=True)
    for contender, running in zip(contenders, servers):
        if running.communicate()[0] or running.returncode:
            sys.exit(f"bench/run: {contender.label} doesn't end well")
