"""Threads for methods that block."""
from __future__ import annotations

import os
import time
from ._hints import TYPE_CHECKING
from ._log import log

if TYPE_CHECKING:
    import queue
    import threading
    from typing import Callable, List, Optional

    Job = Callable[[], None]


class Pool:
    """Threads that are made as they are needed, up to a number.

    They are daemons, and not those of concurrent.futures: one that never comes back can't hold up the program's end.
    """

    def __init__(self, most: Optional[int] = None) -> None:
        self._most = most or min(32, (os.cpu_count() or 1) + 4)
        self._jobs: "queue.SimpleQueue[Optional[Job]]"
        self._idle: Optional[threading.Semaphore] = None
        self._threads: List[threading.Thread] = []
        self._is_short = False

    def _begin(self) -> threading.Semaphore:
        """(here, as a server without threads starts sooner without these modules)"""
        import queue
        import threading

        self._jobs = queue.SimpleQueue()
        self._idle = threading.Semaphore(0)
        return self._idle

    def submit(self, job: Job) -> None:
        """Run a job in a thread, in the order of these calls where all threads are busy.

        Where no more threads can be started, those that there are do the work; with none, RuntimeError is raised.
        """
        idle = self._idle or self._begin()
        self._jobs.put(job)
        if not idle.acquire(blocking=False) and len(self._threads) < self._most:
            self._start()

    def _start(self) -> None:
        import threading

        thread = threading.Thread(target=self._work, name=f"bullmyrtle-{len(self._threads) + 1}", daemon=True)
        try:
            thread.start()
        except (RuntimeError, MemoryError) as error:
            if not self._threads:
                self._jobs.get_nowait()
                raise RuntimeError(f"no thread can be started: {error}") from error
            if not self._is_short:
                log.warning("no more threads than %d can be started: %s", len(self._threads), error)
            self._is_short = True
        else:
            self._threads.append(thread)

    def _work(self) -> None:
        while True:
            job = self._jobs.get()
            if job is None:
                return
            try:
                job()
            except BaseException:
                log.exception("a thread's work failed")
            del job
            assert self._idle is not None
            self._idle.release()

    def close(self) -> None:
        """Let each thread end as soon as it has nothing to do."""
        for _ in self._threads:
            self._jobs.put(None)

    def is_alive(self) -> bool:
        return any(it.is_alive() for it in self._threads)

    def join(self, seconds: float) -> None:
        """Wait until the threads have ended, for so long at most."""
        end = time.monotonic() + seconds
        for it in self._threads:
            it.join(max(0.0, end - time.monotonic()))
