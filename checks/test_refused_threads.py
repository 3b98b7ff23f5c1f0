"""Refuses each thread that a server starts in turn, until a run meets no refusal: with one worker and with more, each
refused run ends with `failed: Memory`, has read nothing and has written nothing, whichever of its workers or its reader
it was; then the row's bytes are written."""
import os
import tempfile

import pytest

from support import needing, ran, refusals, rows
from support.expecting import check

GIVEN, WRITTEN = rows.frames(rows.REQUEST), rows.frames(rows.NOT_FOUND)
NO_THREAD = b"failed: Memory\n"
# A server of so many workers starts one thread for each, and one for its reader; the thread behind these isn't there.
THREADS = [(workers, number) for workers in (1, 2, 4, 64) for number in range(1, workers + 3)]


@pytest.fixture(scope="session")
def refusing() -> refusals.Refusals:
    needing.tool("cc", "it compiles the start of threads that refuses")
    return refusals.Refusals("refuse_threads")


@pytest.mark.parametrize(
    "workers, number", THREADS, ids=[f"{workers}_workers-thread_{number}" for workers, number in THREADS]
)
def test_thread(refusing: refusals.Refusals, workers: int, number: int) -> None:
    words = [ran.BUILT, "serve", "--workers", str(workers)]
    with tempfile.TemporaryFile() as stream:
        stream.write(GIVEN)
        stream.seek(0)
        status, wrote, said, was_refused = refusing.run(words, stream, "REFUSE_NTH", number)
        read = os.lseek(stream.fileno(), 0, os.SEEK_CUR)
    check(was_refused == (number <= workers + 1), f"was it refused? {was_refused}")
    if was_refused:
        well = status != 0 and wrote == b"" and said == NO_THREAD and read == 0
    else:
        well = status == 0 and wrote == WRITTEN and read == len(GIVEN)
    check(well, f"status {status}, {wrote[-300:]!r}, {said[-300:]!r}, {read} bytes read")
