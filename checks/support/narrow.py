"""Runs the program on standard streams that are cut, short or broken. Why by a library that is preloaded:
docs/decisions/tests_and_releases.md#refused-memory-and-devices-that-fail."""
import os
import subprocess

from support import ran
from support import refusals

WHY = "it compiles what narrows the standard streams"
# How long the program may take to end, in seconds.
PATIENCE = 120


class Narrowed:
    """The library that narrows streams."""

    def __init__(self) -> None:
        self.library = refusals.compiled("narrow_streams")

    def environment(self, **limits: object) -> dict[str, str]:
        """The environment of a program with these limits, which are named as narrow_streams.c says, in lower case."""
        return {
            **os.environ,
            "LD_PRELOAD": self.library,
            **{name.upper(): str(limit) for name, limit in limits.items()},
        }

    def run(self, words: list[str], given: bytes, **limits: object) -> tuple[object, bytes, bytes]:
        """The program's status and what it wrote to its two outputs. One that doesn't end in time is killed, and has a
        text for a status."""
        with subprocess.Popen(
            [ran.BUILT, *words],
            stdin=subprocess.PIPE,
            stdout=subprocess.PIPE,
            stderr=subprocess.PIPE,
            env=self.environment(**limits),
        ) as process:
            try:
                output, errors = process.communicate(given, PATIENCE)
                return process.returncode, output, errors
            except subprocess.TimeoutExpired:
                process.kill()
                output, errors = process.communicate()
                return f"no end after {PATIENCE} seconds", output, errors
