"""Plays a load with a server by the client in bench/baseline, looks at all that came, and gives what it took."""
import os
import subprocess
import sys
from typing import Iterator, List, NamedTuple

from measures.contenders import CLIENT, Contender
from measures.inputs import frame
from measures.loads import Load

# How long a load may take, in seconds, before the bench fails.
PATIENCE = 300


class Played(NamedTuple):
    """What one run took: the seconds of each trip, and the server's most memory in KiB and processor time in
    seconds."""

    trips: List[float]
    peak: int
    used: float


def write(load: Load, file: str) -> None:
    """Writes the rounds as the client reads them."""
    with open(file, "wb") as it:
        for sent, contents, pause in load.rounds:
            it.write(b"%d %d %d\n%s" % (pause, len(sent), contents, sent))


def play(name: str, load: Load, server: Contender, file: str) -> Played:
    """Plays the rounds that stand in the file."""
    came = f"{file}.came"
    words = [CLIENT, file, came, *server.words]
    ended = subprocess.run(words, capture_output=True, text=True, timeout=PATIENCE, check=False)
    if ended.returncode:
        sys.exit(f"bench/run: {name} by {server.label}: {ended.stderr.strip()}")
    with open(came, "rb") as it:
        check(name, load, server, it.read())
    os.remove(came)
    _, *rounds, peak, used = map(int, ended.stdout.split())
    each = load.rounds_of_trip
    trips = [sum(rounds[at : at + each]) / 1e9 for at in range(0, len(rounds), each)]
    return Played(trips, peak, used / 1e9)


def check(name: str, load: Load, server: Contender, came: bytes) -> None:
    """Ends the bench where what came isn't what has to come."""
    if not load.calls and came == b"".join(map(frame, load.answers)):
        return
    contents = [*contents_of(came)]
    calls = [it for it in contents if b'"method":"confirm"' in it]
    answers = [it for it in contents if b'"method":"confirm"' not in it]
    if sorted(calls) != sorted(load.calls) or answers != load.answers:
        sys.exit(f"bench/run: the answers to {name} by {server.label} aren't those that they have to be")


def contents_of(came: bytes) -> Iterator[bytes]:
    at = 0
    while at < len(came):
        behind = came.index(b"\r\n\r\n", at) + 4
        end = behind + int(came[at + len(b"Content-Length: ") : behind - 4])
        yield came[behind:end]
        at = end
