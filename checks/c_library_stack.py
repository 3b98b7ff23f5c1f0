"""usage: python3 checks/c_library_stack.py [--library FOLDER]

How much of a stack the C library takes, beside what docs/embedding.md says: on a thread whose stack is seen through, with
contents that nest as deep as may be, and deeper, and with contents that nest 20 levels."""
import argparse
import os
import re
import sys
import tempfile

from support import ran
from support.c_programs import SUPPORT, build, default_library, is_whole, said

# How deep contents nest: far deeper than may be, and little.
DEEP, SHALLOW = 400, 20


def bounds() -> tuple[int, int]:
    """What the page says, in bytes: of any content, and of one that nests little."""
    found = re.search(
        r"takes (\d+) KB of stack at most, .*? (\d+) KB where nothing nests deeper than (\d+) levels",
        " ".join(ran.text_of("docs", "embedding.md").split()),
    )
    assert found and int(found[3]) == SHALLOW, found
    return int(found[1]) * 1024, int(found[2]) * 1024


def main(words: list[str]) -> None:
    parser = argparse.ArgumentParser(usage=__doc__.partition("\n\n")[0].removeprefix("usage: "))
    parser.add_argument("--library", default=default_library())
    library, count = os.path.abspath(parser.parse_args(words).library), ran.Count()
    if ran.lacks("cc", "it compiles what looks at the stack"):
        count.end()
    if not is_whole(library):
        print(f"SKIPPED: there is no library in {library}: bin/build-library builds it", flush=True)
        count.end()
    with tempfile.TemporaryDirectory(prefix="c-library-stack-") as room:
        program = build(count, library, room, f"{SUPPORT}/least_stack.c", "static", ["-pthread"])
        taken = {}
        for levels, most in zip((DEEP, SHALLOW), bounds()):
            got = said([program, str(levels)])
            taken[levels] = int(got[1]) if got[0] == 0 else 1 << 60
            print(f"{levels} levels: {taken[levels]:,} bytes of stack, with the thread's own", flush=True)
            count.check(f"{levels} levels take {most:,} bytes of stack at most", taken[levels] <= most, f"{got}")
        # (or else nothing nested)
        count.check("nesting is seen", taken[DEEP] > 2 * taken[SHALLOW], f"{taken}")
    count.end()


main(sys.argv[1:])
