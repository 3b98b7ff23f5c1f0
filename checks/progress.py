"""Progress, by a model: spin goes through every interleaving of the server's threads in checks/progress/*.pml, for
servers of several small sizes. No thread is left that waits, every job is turned and comes home, and every thread ends.
Bugs planted in the model are found by the same runs. And the model makes the same calls in the same order as the code:
docs/server.md has a table of the functions that its steps are, and docs/decisions/programs_and_server.md#the-server-rpc_peer
says why there is a model. checks/progress/texts.txt has a sum of each function's text, from when the model was last held
beside it: where a text has changed, the step that stands for it has to be looked at again.

usage: python3 checks/progress.py [--anew | --record | --looked] [NAME ..]    only the runs of these names, and the bugs
                                                                              that they find

A run that checks/progress/tried.txt has as it stands isn't made, unless it is named, or with --anew. --record makes those
that it doesn't have, and writes that file. --looked writes the sums of the texts as they are: the model was held beside
them."""
import argparse
import glob
import hashlib
import os
import re
import shutil
from concurrent.futures import ThreadPoolExecutor
from dataclasses import dataclass
from typing import Optional

from support import ran
from support.functions import functions_of
from support.interleavings import (
    MODEL,
    RUNS,
    SIDE_BY_SIDE,
    Bug,
    Found,
    Run,
    bugs,
    go_through,
    line_of,
    read,
    record,
    recorded,
    sum_of,
)
from tools import kit

TEXTS = os.path.join(MODEL, "texts.txt")
HEAD = """# The functions that the steps of the model are: a sum of the text that each had when its step was last held beside it.
# Written by python3 checks/progress.py --looked
"""
# A source of whose functions the server needs a part.
LARGE = "job_slots/src/slots.rt"


@dataclass(frozen=True)
class Source:
    """A row of the page's table: a source file, those of its functions that make the model's calls, and those that the
    model has in its own words."""

    file: str
    same: list[str]
    other: list[str]


def table_of_page() -> list[Source]:
    section = ran.text_of("docs", "server.md").split("## That it goes on\n")[1].split("\n## ")[0]
    rows = [it.strip("|").split("|") for it in section.splitlines() if it.startswith("| `")]
    names = [[re.findall(r"`([^`]+)`", it) for it in row] for row in rows]
    return [Source(file, same, other) for (file,), same, other in names if file.endswith(".rt")]


def texts_of(source: Source) -> list[tuple[str, str]]:
    """The functions of a source: their names, and their bodies without comments. A file that isn't here is one of the
    kit."""
    crate, _, file = source.file.partition("/")
    ours = os.path.join(ran.TOP, "crates", source.file)
    text = read(ours if os.path.isfile(ours) else os.path.join(kit.folder(), "rattle", source.file))
    functions = functions_of(crate, file, text)
    return [(it.name.split("::")[-1], re.sub(r"//.*", "", text[it.opening or it.start : it.end])) for it in functions]


def bodies_of(source: Source) -> dict[str, str]:
    """The bodies of a source's functions by name."""
    return dict(texts_of(source))


def is_here(source: Source) -> bool:
    """Whether there is a source: one of the kit's is where the kit is."""
    return os.path.isdir(os.path.join(ran.TOP, "crates", source.file.split("/")[0])) or shutil.which("rt") is not None


def lines_of(source: Source) -> list[str]:
    """For each function that a step of the model is, a sum of its text, however that is laid out. (In a file a name may
    stand for several.)"""
    texts = texts_of(source)
    found = {name: [body.split() for it, body in texts if it == name] for name in (*source.same, *source.other)}
    return [
        f"{hashlib.sha256(repr(them).encode()).hexdigest()[:16]} {source.file} {name}" for name, them in found.items()
    ]


def check_texts(count: ran.Count) -> None:
    """Each step of the page's table was held beside the text that its function has."""
    known = {it.partition(" ")[2]: it for it in read(TEXTS).splitlines() if not it.startswith("#")}
    for source in filter(is_here, table_of_page()):
        for line in lines_of(source):
            what = line.partition(" ")[2]
            why = "hold its step in checks/progress beside it, and then run python3 checks/progress.py --looked"
            count.check(f"{what} has the text that the model was held beside", known.get(what) == line, why)
    named = {line.partition(" ")[2] for source in filter(is_here, table_of_page()) for line in lines_of(source)}
    gone = {it for it in known if is_here(Source(it.split(" ")[0], [], []))} - named
    count.check("texts.txt has no more than the page's table", not gone, f"{sorted(gone)}")


def write_texts() -> None:
    with open(TEXTS, "w", encoding="utf-8") as it:
        it.write(HEAD + "".join(f"{line}\n" for source in table_of_page() for line in lines_of(source)))


def steps_of_model() -> dict[str, str]:
    """The model's steps, by name."""
    text = "".join(read(it) for it in sorted(glob.glob(os.path.join(MODEL, "*.pml"))))
    text = re.sub(r"/\*.*?\*/", "", text, flags=re.S)
    steps = re.findall(r"^inline (\w+)\(.*?\) \{\n(.*?)^\}", text, re.M | re.S)
    return dict([*steps, *re.findall(r"^#define (\w+)\(.*?\) (.*)$", text, re.M)])


# How some steps are called in the code, where a name alone doesn't tell: other things are pushed too.
CALLED = {"push": r"ring\s*\.push", "pop": r"ring\s*\.pop", "serve": r"clerk\s*\.(?:run|serve)"}


# What makes something, or decides how often a thread looks before it sleeps: in the model it may look as often as it
# likes.
NO_STEPS = {"new", "has_jobs_out", "learn_from_a_look", "learn_from_a_sleep"}


def calls_in(body: str, names: set[str], is_code: bool) -> list[str]:
    """The steps that a body calls, in their order."""
    forms = {it: CALLED.get(it, rf"\b{it}") if is_code else rf"\b{it}" for it in names}
    found = [(it.start(), name) for name, form in forms.items() for it in re.finditer(rf"{form}(?:::<\w+>)?\(", body)]
    return [name for _, name in sorted(found)]


def check_steps(count: ran.Count) -> None:
    """Each step of the page's table is a function of its file and a step of the model, and calls the same steps in the
    same order; and each function of a file with such steps is one, or makes something."""
    table, steps = table_of_page(), steps_of_model()
    names = {name for source in table for name in (*source.same, *source.other)}
    ran.lacks("rt", "the steps of the kit's crates weren't looked at")
    is_whole = len(table) > 15 and len(names) > 40
    count.check("the page ties the steps to functions", is_whole, f"{len(table)} files, {len(names)} functions")
    for source in table:
        if not is_here(source):
            continue
        bodies = bodies_of(source)
        for name in (*source.same, *source.other):
            count.check(f"{source.file} has {name}", name in bodies, f"it has {' '.join(bodies)}")
            count.check(f"the model has {name}", name in steps)
        for name in source.same:
            in_model, in_code = steps.get(name, ""), bodies.get(name, "")
            count.same(f"the calls of {name}", calls_in(in_model, names, False), calls_in(in_code, names, True))
        if source.same and source.file != LARGE:
            count.same(f"the functions of {source.file}", {*bodies} - NO_STEPS, {*source.same, *source.other})


def planned(names: list[str]) -> list[tuple[Run, Optional[Bug]]]:
    """The runs of these names, or all, and those that have to find a bug."""
    runs = {it.name: it for it in RUNS if not names or it.name in names}
    return [*((it, None) for it in runs.values()), *((runs[it.by], it) for it in bugs() if it.by in runs)]


def is_as_wanted(bug: Optional[Bug], found: Found) -> bool:
    """The model as it stands has no error, and the model with a bug has one."""
    return bool(found.error) if bug else not found.error and not found.unfinished


def check_model(count: ran.Count, options: argparse.Namespace) -> list[str]:
    """Makes the runs that aren't recorded; gives the lines of all that are as they should be."""
    plan = planned(options.names)
    known = {} if options.anew or options.names else recorded()
    if any(sum_of(*it) not in known for it in plan) and ran.lacks("spin", "some interleavings weren't gone through"):
        return []
    lines, made = list[str](), 0
    with ThreadPoolExecutor(SIDE_BY_SIDE) as pool:
        waits = [(it, None if sum_of(*it) in known else pool.submit(go_through, *it)) for it in plan]
        for (run, bug), wait in waits:
            if wait is None:
                lines.append(known[sum_of(run, bug)])
                continue
            found, made = wait.result(), made + 1
            is_well = is_as_wanted(bug, found)
            lines += [line_of(run, bug, found)] if is_well else []
            print(f"{line_of(run, bug, found)}, by {run.name}, {found.seconds:.0f} seconds", flush=True)
            count.check(f"found: {bug.name}" if bug else run.name, is_well, f"{found}")
    count.passed += len(plan) - made
    print(f"{len(plan) - made} runs not made: checks/progress/tried.txt has them as they stand", flush=True)
    return lines


def words_of() -> argparse.Namespace:
    parser = argparse.ArgumentParser(usage=__doc__.partition("usage: ")[2].partition("\n\n")[0])
    parser.add_argument("names", nargs="*", metavar="NAME")
    parser.add_argument("--anew", action="store_true")
    parser.add_argument("--record", action="store_true")
    parser.add_argument("--looked", action="store_true")
    given = parser.parse_args()
    if (given.record or given.looked) and given.names:
        parser.error("--record and --looked take no names")
    if given.looked and shutil.which("rt") is None:
        parser.error("--looked needs the kit, some of whose functions are steps")
    return given


def main() -> None:
    options, count = words_of(), ran.Count()
    if options.looked:
        write_texts()
    check_steps(count)
    check_texts(count)
    lines = check_model(count, options)
    if options.record and lines:
        record(lines)
    count.end()


if __name__ == "__main__":
    main()
