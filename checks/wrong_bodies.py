#!/usr/bin/env python3
"""Has the prover refuse each wrong body of crates/*/wrong-bodies, many in one check, and accept the right ones.

A wrong body is a change of a function's text after which a promise no longer holds, so the check must refuse that
function. The wrong bodies of different functions are tried at once, in rounds, in copies of the crate. A round looks at
the functions that it changes and at what these call: each changed function must fall for a reason of its own, and every
other is proved, or falls only because it calls one of those. What hurts more than that is tried singly, and what isn't
refused on the whole crate. Control: right bodies, which are written differently, and a comment in each other function
that has bodies must be proved, and the rounds stand on what that proof kept. checks/tried.txt tells which bodies were tried as
they stand, on whatever machine: these aren't tried again, unless they are named, or with --anew.

For each wrong body a line says how it was refused: by which clauses or goals, or only because an answer by hand no
longer fits (which says less: a right body could be refused so too). One that is proved is a failure, and so is one that
doesn't compile, whose old text no longer stands, or that the check did not judge. The last line is 'N passed, M
failed'; the status is 0 only where M is."""
import argparse
import glob
import os
import re
import shutil
import signal
import sys
import tempfile
import time
from collections import Counter

from support.bodies import Sources, read_bodies
from support.ran import TOP, text_of
from support.record import Record
from support.trees import Trees
from support.trial import Crate, Trial, say
from tools import machine  # (it stands in bin/)
from tools.repository import listing


def arguments() -> argparse.Namespace:
    summary, _, more = __doc__.partition("\n\n")
    parser = argparse.ArgumentParser(
        description=summary, epilog=more, formatter_class=argparse.RawDescriptionHelpFormatter
    )
    parser.add_argument(
        "names",
        nargs="*",
        metavar="NAME",
        help="a crate, a body, or CRATE/BODY; none: the bodies that checks/tried.txt doesn't have as they stand",
    )
    parser.add_argument(
        "--stands",
        action="store_true",
        help="only look whether each old text stands once, in the function that is named, and whether docs/promises.md names bodies that there are; proves nothing",
    )
    parser.add_argument(
        "--kept",
        action="store_true",
        help="use what is kept in crates/*/out where the crate is proved there, and prove the others",
    )
    parser.add_argument(
        "--gate",
        action="store_true",
        help="try them over the libraries that the gate has just built in crates/*/out, as bin/test does; where one is missing, as with --kept",
    )
    parser.add_argument(
        "--anew", action="store_true", help="try all, also the bodies that checks/tried.txt has as they stand"
    )
    parser.add_argument(
        "--record",
        action="store_true",
        help="write checks/tried.txt, the line of each body as soon as it is judged; of those that are named it tries the ones that the file doesn't have as they stand",
    )
    parser.add_argument(
        "--jobs",
        type=int,
        metavar="N",
        default=default_jobs(),
        help="checks side by side (default: %(default)s), each with up to 2.5 GB",
    )
    parser.add_argument(
        "--minutes",
        type=float,
        metavar="M",
        default=120,
        help="the most that one check may take (default: %(default)s)",
    )
    parser.add_argument("--logs", metavar="FOLDER", help="keep the output of each check there")
    given = parser.parse_args()
    if given.record and given.gate:
        parser.error("--record wants libraries that are known to be of these sources: leave out --gate")
    return given


def default_jobs() -> int:
    """As many as there are processors, where memory holds them."""
    return max(1, min(machine.processors(), machine.memory() // machine.MEMORY))


def read_crates(names: list[str]) -> tuple[list[Crate], list[str]]:
    """The crates with the bodies that are asked for, and what is wrong with their files and with the names."""
    crates: list[Crate] = []
    problems: list[str] = []
    found: set[str] = set()
    for name in listing().lines:
        if not os.path.isdir(f"{TOP}/crates/{name}/wrong-bodies"):
            continue
        sources = Sources(f"{TOP}/crates/{name}")
        bodies, unfit = read_bodies(sources)
        found |= {name, *(it.name for it in bodies), *(it.label for it in bodies)}
        asked = not names or name in names
        tried = bodies if asked else [it for it in bodies if {it.name, it.label} & {*names}]
        crate = Crate(name, sources, tried, bodies)
        problems += [it for it in unfit if asked or any(f": {word.rpartition('/')[2]}: " in it for word in names)]
        if crate.bodies:
            crates.append(crate)
    problems += [
        f"{it} names no crate with wrong bodies, and no body that can be tried" for it in names if it not in found
    ]
    return crates, problems


def report(crates: list[Crate], names: list[str]) -> tuple[int, list[str]]:
    """Prints what became of each body; gives how many passed, and what failed."""
    passed, failures = 0, []
    for crate in crates:
        for it in sorted(crate.judged, key=lambda it: crate.bodies.index(it.body)):
            if it.is_well:
                passed += 1
                how = {
                    "refused": "refused by",
                    "by hand answer": "refused only because a hand answer no longer fits:",
                }
                say(f"{it.body.label} ({it.body.said}): {it.why if it.body.is_right else how[it.word] + ' ' + it.why}")
            else:
                failures.append(f"{it.body.label}: {'PROVED' if it.word == 'proved' else it.word}: {it.why}")
        judged = [it.body for it in crate.judged]
        lost = [it.name for it in crate.bodies if judged.count(it) != 1]
        failures += [f"{crate.name}: {len(lost)} bodies were not judged: {', '.join(lost)}"] if lost else []
        failures += crate.failures
        passed += crate.comments == "proved" or not crate.bodies
    if not names and not any(it.wrong or it.recorded for it in crates):
        failures.append("no crate has a wrong body")
    return passed, failures


def summary(crates: list[Crate], seconds: float, wall: float) -> None:
    """How many were refused and how, by crate, and what it took."""
    for crate in crates:
        if crate.recorded:
            say(f"== {crate.name}: {crate.recorded} bodies not tried: checks/tried.txt has them as they stand")
        if not crate.bodies:
            continue
        counts = Counter(it.word for it in crate.judged if it.is_well)
        say(
            f"== {crate.name}: {len(crate.wrong)} wrong bodies in {crate.checks} checks, {counts['refused']} refused by a clause or goal, "
            f"{counts['by hand answer']} only because a hand answer no longer fits; {counts['proved']} of {len(crate.right)} right bodies proved; "
            f"comments {crate.comments}; {crate.seconds:.0f} processor seconds"
        )
    say(f"== in all {seconds:.0f} processor seconds, {wall:.0f} s")


def unknown_on_page() -> list[str]:
    """The names that docs/promises.md tells as refused bodies and that no file has."""
    known = {os.path.basename(it).removesuffix(".edit") for it in glob.glob(f"{TOP}/crates/*/must-fail/*.edit")}
    for name in listing().lines:
        known |= {it.name for it in read_bodies(Sources(f"{TOP}/crates/{name}"))[0]}
    rows = [
        line.split("|")[-2]
        for line in text_of("docs", "promises.md").split("\n")
        if line.startswith("|") and line.endswith("|")
    ]
    named = [word for cell in rows for word in re.findall(r"`(\w+)`", cell)]
    return [
        f"docs/promises.md tells of {it}, and no wrong body has that name"
        for it in dict.fromkeys(named)
        if it not in known
    ]


def attempt(crates: list[Crate], given: argparse.Namespace, record: Record) -> float:
    """Tries the crates' bodies in a folder of this run, and writes the record where that is asked for; gives the
    processor seconds that it took."""
    with tempfile.TemporaryDirectory(prefix="wrong-bodies-") as folder:
        # (it ends as after an interrupt from the keyboard: what runs is stopped, and the folder is removed)
        for it in (signal.SIGTERM, signal.SIGHUP):
            signal.signal(it, lambda number, _: sys.exit(128 + number))
        trees = Trees(TOP, folder, {it.name: it.control for it in crates}, given.minutes * 60, given.gate)
        if trees.is_over_gate:
            say(f"== the gate's libraries of: {', '.join(trees.libraries)}")
        elif given.kept or given.gate:
            kept = [it for it in trees.needed if trees.take_kept(it)]
            say(f"== kept work of: {', '.join(kept) or 'no crate'}")

        def is_done(crate: Crate) -> None:
            if given.record:
                is_kept = record.keep(crate.name, crate.every, crate.judged)
                say(f"== {crate.name}: {'recorded' if is_kept else 'NOT recorded: a file has changed meanwhile'}")

        trial = Trial(crates, trees, max(1, given.jobs), given.logs or "", is_done)
        trial.run()
        return trial.seconds


def leave_out_recorded(crates: list[Crate], record: Record) -> None:
    for it in crates:
        asked, it.bodies = it.bodies, [body for body in it.bodies if not record.has(body)]
        it.recorded = len(asked) - len(it.bodies)


def looked_at(names: list[str]) -> tuple[list[Crate], list[str]]:
    """The same, and what docs/promises.md tells of and no file has, where all crates are asked for."""
    crates, problems = read_crates(names)
    return crates, problems + ([] if names else unknown_on_page())


def main() -> int:
    given, began, seconds = arguments(), time.monotonic(), 0.0
    if given.stands:
        crates, problems = looked_at(given.names)
        return end(sum(len(it.bodies) for it in crates), problems)
    record = Record(TOP)
    crates, problems = looked_at(given.names)
    if not shutil.which("rt"):
        problems, crates = ["the command rt of the Rattle kit isn't on the PATH"], []
    if not given.anew and (given.record or not given.names):
        leave_out_recorded(crates, record)
    left = [it for it in crates if it.bodies]
    if left:
        seconds = attempt(left, given, record)
    passed, failures = report(crates, given.names)
    summary(crates, seconds, time.monotonic() - began)
    return end(passed, problems + failures)


def end(passed: int, failures: list[str]) -> int:
    """Tells what failed, and the tally."""
    failures = failures or ([] if passed else ["no body was looked at"])
    for it in failures:
        say(f"FAILED: {it}")
    say(f"{passed} passed, {len(failures)} failed")
    return 1 if failures else 0


if __name__ == "__main__":
    sys.exit(main())
