#!/usr/bin/env python3
"""The judge of wrong bodies takes only what is a refusal for one: on outputs of the prover that are written by hand.

A function that falls since it calls another that falls is tried alone, and one that the prover has no rule for is
unfit. The last line is 'N passed, M failed'; the status is 0 only where M is."""
import os
import tempfile
from types import SimpleNamespace
from typing import Any, Optional

from support import ran
from support.bodies import Body, Sources, read_bodies
from support.functions import functions_of
from support.rounds import hurt_beside, judge_right, judge_wrong, rounds_of
from support.trees import Ran, Trees
from support.trial import Crate, Trial, Turn
from support.verdicts import Output, read_output

SOURCE = """fn inner(n: u32) -> u32 {
    n + 1
}

fn outer(n: u32) -> u32 {
    inner(n)
}
"""
BODIES = """[[wrong]]
name = "inner_is_wrong"
function = "inner"
what = "It adds two."
old = 'n + 1'
new = 'n + 2'

[[wrong]]
name = "outer_is_wrong"
function = "outer"
what = "It adds nothing."
old = 'inner(n)'
new = 'n'
"""

OF_SPECIAL = """[[wrong]]
name = "nothing_is_taken"
function = "Window::take"
what = "It takes nothing."
old = 'fn take() {'
new = 'fn take() { return'
"""
OF_DEFINITION = """[[wrong]]
name = "sum_is_one_more"
function = "outer"
what = "A sum is one more."
file = "specs/Sums.antt"
old = 'n + 1'
new = 'n + 2'
"""

PROVED = "fn toy::{0}: proved"
CLAUSE = "note: src/lib.rt:2:5: it is not proved that the clause holds (`returns-clause`)\nfn toy::{0}: not proved: `search` did not prove `returns-clause`"
FALSE = "note: src/lib.rt:2:5: it is not proved that the clause holds (`returns-clause`), and it is false\nfn toy::{0}: not proved"
ANSWER = "./proofs/{0}/Answers.antt:3:1: error: `returns-clause`: the term has another type\nfn toy::{0}: no proof: expected answers in proofs/{0}/"
CALLS = "fn toy::{0}: no proof: it calls `inner`, which has no proof"
WAITS = "fn toy::{0}: no proof: it waits for the proof of `inner`"
LENDS = "fn toy::{0}: no proof: the borrow checker's part in its proof is not made yet: a call of `inner`, which has no proof"
LENDS_HELPED = LENDS + ": help: prove it first"
LENDS_AND_CALLS = LENDS + "; it calls `inner`, which has no proof"
LENDS_AND_FALLS = LENDS + "; `search` did not prove `returns-clause`"
UNCOVERED = "fn toy::{0}: no proof: the borrow checker does not cover this function yet: two branches join: help: choose in a function of its own"
UNCOVERED_BY_HAND = "fn toy::{0}: no proof: expected `{0}_spec` in ./proofs/{0}/Proof.antt; the borrow checker does not cover this function yet: src/lib.rt:6:5: it is lent"
UNMADE = "fn toy::{0}: no proof: the borrow checker's part in its proof is not made yet: help: write the method in each `impl`"
UNTOLD = "fn toy::{0}: could not tell: the search met a limit"

# The last line of a check, and whether it says that all is proved, and whether it says anything.
TRUSTED = "sum=dac8208d650f15bf native=nat,char,string logic-built=trusted libraries-built=trusted statements=trusted incremental=trusted"
AXIOMS = "axioms libc: libc::heap::rattle_alloc, libc::heap::rattle_dealloc (2 of the 128 declared)\naxioms os: none reached of the 22 declared\n"
LAST_LINES = [
    ("a library", f"logic=proved functions=2 {TRUSTED}", True, True),
    (
        "a static library",
        f"{AXIOMS}logic=proved functions=2 axioms=2 target=x86_64-unknown-linux-gnu cpu=x86-64-v2 {TRUSTED}",
        True,
        True,
    ),
    (
        "a static library that reaches no axiom",
        f"logic=proved functions=2 target=x86_64-unknown-linux-gnu cpu=x86-64-v2 {TRUSTED}",
        True,
        True,
    ),
    (
        "a program",
        f"{AXIOMS}logic=proved functions=2 axioms=2 target=x86_64-unknown-linux-gnu cpu=x86-64-v2 main=Wait {TRUSTED}",
        True,
        True,
    ),
    ("what isn't proved", "logic=not-proved", False, True),
    (
        "a static library that isn't proved",
        f"{AXIOMS}logic=not-proved axioms=2 target=x86_64-unknown-linux-gnu cpu=x86-64-v2",
        False,
        True,
    ),
    ("some functions", "only=2 proved=2", True, True),
    ("some functions, one not proved", "only=2 proved=1", False, True),
    ("no function", "only=0 proved=0", False, True),
    ("a line that isn't whole", "logic=prov", False, False),
    ("another word", "logic=assumed functions=2", False, False),
    ("a report alone", AXIOMS.rstrip(), False, False),
    ("no last line", "rattle: no verdict: antt ran out of memory", False, False),
    ("two last lines", "logic=proved functions=1\nlogic=proved functions=2", False, False),
    ("two that differ", "logic=not-proved\nlogic=proved functions=2", False, False),
]

# What the prover says of a function, and what that makes of its wrong body: in a round, where another body is wrong
# beside it, and alone. None: it is to be tried alone.
CASES = [
    ("a proved body", PROVED, "proved", "proved"),
    ("an open clause", CLAUSE, "refused", "refused"),
    ("a clause that is false", FALSE, "refused", "refused"),
    ("an answer that no longer fits", ANSWER, "by hand answer", "by hand answer"),
    ("a call of what isn't proved", CALLS, None, "unfit"),
    ("a wait for another proof", WAITS, None, "unfit"),
    ("a loan through a call of what isn't proved", LENDS, None, "unfit"),
    ("the same with a help", LENDS_HELPED, None, "unfit"),
    ("a loan and a call", LENDS_AND_CALLS, None, "unfit"),
    ("a loan and an open goal", LENDS_AND_FALLS, "refused", "refused"),
    ("a function that isn't covered", UNCOVERED, None, "unfit"),
    ("the same, with a proof by hand", UNCOVERED_BY_HAND, None, "unfit"),
    ("a part of a proof that can't be made", UNMADE, None, "unfit"),
    ("a verdict that couldn't be had", UNTOLD, None, "unfit"),
]

# (what judges looks at none)
NO_TREES: Any = SimpleNamespace(needed=[])


def toy(room: str) -> Crate:
    """A crate of two functions, each with a wrong body."""
    for file, text in (("src/lib.rt", SOURCE), ("wrong-bodies/lib.toml", BODIES)):
        os.makedirs(os.path.dirname(f"{room}/toy/{file}"))
        with open(f"{room}/toy/{file}", "w", encoding="utf-8") as it:
            it.write(text)
    sources = Sources(f"{room}/toy")
    bodies, unfit = read_bodies(sources)
    assert not unfit and len(bodies) == 2, unfit
    return Crate("toy", sources, bodies)


def said(inner: str, outer: str) -> Output:
    """A check's output with these lines on the two functions."""
    return read_output(f"{inner.format('inner')}\n{outer.format('outer')}\nlogic=not-proved\n")


def check_verdicts(count: ran.Count, crate: Crate) -> None:
    """What each line makes of the outer function's body, in a round and alone."""
    outer = crate.bodies[1]
    for name, line, in_round, alone in CASES:
        output = said(CLAUSE, line)
        count.check(f"{name}, read", output.has_verdict and "toy::outer" in output.verdicts, f"{output}")
        for where, is_alone, wanted in (("in a round", False, in_round), ("alone", True, alone)):
            judged = judge_wrong(outer, output, is_alone)
            found = judged and judged.word
            count.check(f"{name}, {where}", found == wanted, f"{found}, and not {wanted}: {judged and judged.why}")
            is_refusal = found in ("refused", "by hand answer")
            count.check(
                f"{name}, {where}, is as it should be", judged is None or judged.is_well == is_refusal, f"{judged}"
            )
        right = judge_right(outer, output)
        count.check(f"{name}, of a right body", right.is_well == (line == PROVED), f"{right}")


def check_last_lines(count: ran.Count) -> None:
    """What the last line says, behind lines on functions; with none of these nothing is said. Hints of the kit's
    commands may follow it."""
    lines = "".join(f"{PROVED.format(it)}\n" for it in ("inner", "outer"))
    for name, last, is_proved, has_verdict in LAST_LINES:
        for where, text in (
            ("", f"{lines}{last}\n"),
            (", and hints behind it", f"{lines}{last}\nrt: rt lemma WORD.. finds a lemma\n"),
        ):
            output = read_output(text)
            count.check(
                f"{name}{where}", (output.is_proved, output.has_verdict) == (is_proved, has_verdict), f"{output}"
            )
        count.check(f"{name}, without a function", not read_output(f"{last}\n").has_verdict, last)


def check_static(count: ran.Count, room: str) -> None:
    """A static library is checked as one: crates.txt says which crate is."""
    with open(f"{room}/crates.txt", "w", encoding="utf-8") as it:
        it.write("low: json\n# staticlib: none\ntoy staticlib: core low\nstaticlib: low\n")
    trees = Trees(room, f"{room}/copies", {}, 60)
    trees.libraries["low"] = "LOW"
    for name, is_static in (("low", False), ("toy", True), ("staticlib", False)):
        words = trees.words(name, room, 1, ["f"])
        count.check(
            f"{name} is checked as what it is",
            ("--crate-type" in words) == is_static and words[-2:] == ["--only", "f"],
            f"{words}",
        )
    count.check(
        "the libraries below", trees.below == {"low": [], "toy": ["low"], "staticlib": ["low"]}, f"{trees.below}"
    )


def put(file: str, text: str = "") -> None:
    os.makedirs(os.path.dirname(file), exist_ok=True)
    with open(file, "w", encoding="utf-8") as it:
        it.write(text)


def check_over_gate(count: ran.Count, room: str) -> None:
    """Crates are proved over the gate's libraries where all of them are there, of these sources; else those below are
    proved again."""
    put(f"{room}/crates.txt", "low:\nmiddle: low\ntoy: middle low\nother: low\n")
    stamp, source = f"{room}/crates/middle/out/rlib/stamp", f"{room}/crates/low/src/lib.rt"
    for name in ("low", "middle", "toy", "other"):
        put(f"{room}/crates/{name}/src/lib.rt")
    made = {name: f"{room}/crates/{name}/out/rlib/{name}.rlib" for name in ("low", "middle")}

    def look(name: str, is_over_gate: bool, wanted: bool) -> None:
        with tempfile.TemporaryDirectory(dir=room) as folder:
            trees = Trees(room, folder, {"toy": {}}, 60, is_over_gate)
            needed = ["toy"] if wanted else ["low", "middle", "toy"]
            count.same(name, (trees.is_over_gate, trees.needed, trees.is_ready("toy")), (wanted, needed, wanted))
            words = trees.words("toy", folder, 1) if wanted else []
            count.check(
                f"{name}: where they lie",
                all(f"{it}={folder}/gate/{it}/{it}.rlib" in words for it in made if wanted),
                f"{words}",
            )
            count.check(
                f"{name}: what they hold",
                not wanted or os.path.isfile(f"{folder}/gate/low/low.rlib/format"),
                f"{trees.libraries}",
            )

    put(f"{made['low']}/format")
    look("one of the gate's libraries is missing", True, False)
    put(f"{made['middle']}/format")
    look("the gate's libraries", True, True)
    look("the gate's libraries that aren't asked for", False, False)
    put(stamp)
    look("a library of other commands", True, False)
    os.remove(stamp)
    os.utime(source, (os.path.getmtime(made["low"]) + 10,) * 2)
    look("a source that is newer", True, False)
    os.utime(source, (1, 1))
    look("no source that is newer", True, True)


def labels(trial: Trial) -> list[str]:
    return [it.label for it in trial.waiting]


def judged_in_round(room: str, outer: str) -> tuple[Trial, Crate]:
    """What a round of both bodies leaves, where the inner function falls by a clause and the outer one so."""
    with tempfile.TemporaryDirectory(dir=room) as folder:
        crate = toy(folder)
    crate.names = {fn: [f"toy::{fn.name}"] for fn in crate.functions}
    trial = Trial([crate], NO_TREES, 1, "")
    trial.judge_round(Turn(crate, crate.bodies, "round-1"), said(CLAUSE, outer), None, False)
    return trial, crate


def word_of(crate: Crate, body: Body) -> Optional[str]:
    return next((it.word for it in crate.judged if it.body is body), None)


def check_rounds(count: ran.Count, room: str) -> None:
    """A round's body that falls with another is tried alone; a comment that is tried so is proved, and so counts as a
    failure."""
    for name, line, in_round, _ in CASES[1:]:
        trial, crate = judged_in_round(room, line)
        inner, outer = crate.bodies
        count.check(f"{name}: the other body is refused", word_of(crate, inner) == "refused", f"{crate.judged}")
        wanted = [] if in_round else ["alone-outer_is_wrong"]
        count.check(f"{name}: what is tried again", labels(trial) == wanted, f"{labels(trial)}")
        count.check(f"{name}: what is settled", word_of(crate, outer) == in_round, f"{crate.judged}")
        if in_round is None:
            trial.judge_round(
                Turn(crate, [outer], "alone-outer_is_wrong", is_whole=True), said(PROVED, PROVED), None, False
            )
            count.check(
                f"{name}: alone it is proved",
                word_of(crate, outer) == "proved" and not crate.is_well,
                f"{crate.judged}",
            )


def check_control(count: ran.Count, room: str) -> None:
    """Rounds come once the crate is proved with its comments, whatever kind of crate it is; and else it fails, and none
    comes."""
    proved = "".join(f"{PROVED.format(it)}\n" for it in ("inner", "outer"))
    fallen = f"{CLAUSE.format('inner')}\n{PROVED.format('outer')}\n"
    library, static = LAST_LINES[0][1], LAST_LINES[1][1]
    for name, text, status, is_well in (
        ("a library", f"{proved}{library}\n", 0, True),
        ("a static library", f"{proved}{static}\n", 0, True),
        ("a comment that is refused", f"{fallen}logic=not-proved\n", 1, False),
        ("a status that says otherwise", f"{proved}{static}\n", 1, False),
        ("no line on a function", f"{PROVED.format('inner')}\n{library}\n", 0, False),
        ("no verdict", proved, 3, False),
    ):
        with tempfile.TemporaryDirectory(dir=room) as folder:
            crate = toy(folder)
        trial = Trial([crate], NO_TREES, 1, "")
        trial.judge_proof(crate, Ran(status, text, 0.0, 0.0, False))
        wanted = ("proved", ["round-1"], False) if is_well else ("NOT proved", [], True)
        count.same(f"{name}: the control", (crate.comments, labels(trial), bool(crate.failures)), wanted)


SHAPES = """fn plain() {
}

impl Pair {
    pub fn first() {
    }
}

impl PartialEq for Pair {
    fn eq() {
    }
}

impl Window<Option<T>> {
    fn take() {
    }
}
"""


def check_endings(count: ran.Count, room: str) -> None:
    """What the control's check is told to look at: functions by how their names end, or all where one's isn't known."""
    found = [*functions_of("toy", "src/read/call.rt", SHAPES)]
    wanted = ["toy::read::call::plain", "Pair::first", "PairPartialEq::eq", ""]
    count.same("how names end", [it.ending for it in found], wanted)
    for it in found[:3]:
        count.check(
            f"{it.ending} is of its name", it.printed.fullmatch(f"toy::read::call::{it.ending.split('call::')[-1]}")
        )
    crate = toy(room)
    count.same("the control's functions", crate.endings, ["toy::inner", "toy::outer"])
    with open(f"{room}/toy/src/lib.rt", "a", encoding="utf-8") as file:
        file.write(f"\n{SHAPES.partition('impl Window')[1]}{SHAPES.partition('impl Window')[2]}")
    put(f"{room}/toy/wrong-bodies/lib.toml", f"{BODIES}\n{OF_SPECIAL}")
    sources = Sources(f"{room}/toy")
    count.same("where one's isn't known", Crate("toy", sources, read_bodies(sources)[0]).endings, [])


def check_definition(count: ran.Count, room: str) -> None:
    """A wrong definition is tried alone, on the functions that must be refused with it."""
    crate = toy(room)
    put(f"{room}/toy/specs/Sums.antt", "sum n = n + 1\n")
    put(f"{room}/toy/wrong-bodies/lib.toml", f"{BODIES}\n{OF_DEFINITION}")
    sources = Sources(f"{room}/toy")
    bodies, unfit = read_bodies(sources)
    crate = Crate("toy", sources, bodies)
    crate.names = {fn: [f"toy::{fn.name}"] for fn in crate.functions}
    count.same("a wrong definition can be tried", unfit, [])
    count.same("its round", [[it.name for it in one] for one in rounds_of(bodies)][-1], ["sum_is_one_more"])
    count.same("what its round looks at", Turn(crate, bodies[2:], "round-2").only, ["toy::outer"])
    count.same("what is changed", crate.with_bodies(bodies[2:]), {"specs/Sums.antt": "sum n = n + 2\n"})


def check_beside(count: ran.Count, crate: Crate) -> None:
    """A function that no body of a round touches is hurt by it only where it falls for a reason of its own."""
    inner = crate.bodies[:1]
    for name, line, in_round, alone in CASES:
        is_hurt = line not in (PROVED, CALLS, WAITS, LENDS, LENDS_HELPED, LENDS_AND_CALLS)
        found = hurt_beside(said(CLAUSE, line), inner, {"toy::inner", "toy::outer"})
        count.check(f"{name}, beside a body", found == (["toy::outer"] if is_hurt else []), f"{found}")


def main() -> None:
    count = ran.Count()
    with tempfile.TemporaryDirectory(prefix="judge-") as room:
        crate = toy(room)
        check_verdicts(count, crate)
        check_beside(count, crate)
        check_rounds(count, room)
        check_control(count, room)
        check_last_lines(count)
        check_endings(count, f"{room}/endings")
        check_definition(count, f"{room}/definition")
        check_static(count, room)
    with tempfile.TemporaryDirectory(prefix="judge-") as room:
        check_over_gate(count, room)
    count.end()


main()
