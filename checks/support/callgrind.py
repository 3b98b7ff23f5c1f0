"""How many instructions a program takes, by callgrind, so that no load of the machine moves it."""
import os
import re
import subprocess
import tempfile
from typing import Optional, Sequence

# glibc copies and fills long blocks by `rep movsb` and `rep stosb`. Callgrind counts an instruction for each byte of
# these, which takes the processor some 0.05 ns. Behind this threshold glibc takes its loops of vectors.
AS_LOOPS = ":".join(f"glibc.cpu.x86_rep_{it}_threshold=1000000000" for it in ("movsb", "stosb"))


def instructions(words: Sequence[str], given: bytes = b"", ends: Sequence[int] = (0,)) -> Optional[int]:
    """None where the run fails: it has to end with one of these statuses. The input comes from a file: what a pipe
    gives at once depends on the machine's load."""
    with tempfile.TemporaryFile() as file, tempfile.TemporaryDirectory() as room:
        file.write(given)
        file.seek(0)
        ended = subprocess.run(
            ["valgrind", "--tool=callgrind", f"--callgrind-out-file={os.path.join(room, 'out')}", *words],
            stdin=file,
            stdout=subprocess.DEVNULL,
            stderr=subprocess.PIPE,
            env={**os.environ, "GLIBC_TUNABLES": AS_LOOPS},
            timeout=900,
            check=False,
        )
    found = re.search(rb"Collected : (\d+)", ended.stderr)
    return int(found[1]) if found and ended.returncode in ends else None
