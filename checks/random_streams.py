"""Plays random streams with the tables of the rows and of examples/, and compares what goes out with a plain model of
the rules. What is proved of the program is that it writes one of the outputs that are allowed; that it is the one that
`play`, `--lazy` and `--last` stand for is only tested, by the rows and here. `--program FILE N` plays the
first N of them by another program."""
import json
import random
import sys
from typing import Iterator

from support import fuzzing
from support import model
from support import ran
from support import rows
from support.grammar import Grammar
from support.long_contents import BLANKS

STREAMS = int(sys.argv[3]) if len(sys.argv) > 3 else 3_000
WAYS: tuple[list[str], ...] = ([], [], ["--lazy"], ["--last"], ["--lazy", "--last"])


def stream(chance: random.Random, table: str) -> Iterator[str]:
    """Lines, mostly of calls, replies that calls wait for, and cancels; now and then a batch, or what can't be read.
    Some are long."""
    grammar = Grammar(chance, {"nope": 0, **fuzzing.methods_of(table)})
    for _ in range(chance.randint(2, 16)):
        text = "{" if chance.random() < 0.03 else json.dumps(grammar.value())
        yield text + BLANKS if chance.random() < 0.1 else text


def check_model(count: ran.Count) -> None:
    """The model gives the rows."""
    for name, table, ways, given, output in rows.PLAYS:
        for way in ways:
            got = model.play(table, given, "--lazy" in way, "--last" in way)
            count.same(f"the model: {name}, {way}", got, output)


def check_streams(count: ran.Count) -> None:
    tables = [rows.METHODS, rows.OPENING, rows.EACH, ran.text_of("examples", "toolbox.toml")]
    for seed in range(STREAMS):
        chance = random.Random(seed)
        table = chance.choice(tables)
        lines, way, piece = [*stream(chance, table)], chance.choice(WAYS), chance.choice(("1", "7", "65536"))
        output = rows.lines(*model.play(table, lines, "--lazy" in way, "--last" in way))
        got = ran.run(["play", "--lines", "--table", rows.file_of(table), "--piece", piece, *way], rows.lines(*lines))
        count.check(f"stream {seed}, {way}", got == (0, output, b""), f"{lines} give {got}, and not {output!r}")


ran.script(check_model, check_streams)
