"""The recordings of real sessions in examples/judge: what is found in each is what its page says."""
import collections
import os
import re

from helping import TOP
from judging import Case

from bullmyrtle.judge import Recording, Talk

FOLDER = os.path.join(TOP, "examples", "judge")
ROW = re.compile(r"^\| \[(\w+)\]\(\1\.record\) \| .* \| (.*) \|$", re.M)


def found_in(name):
    """How often each rule is broken, as the page has it."""
    with open(os.path.join(FOLDER, f"{name}.record"), "rb") as file:
        recording = Recording(file)
        talk, found = Talk(recording.rules, recording.framing, shapes=True), []
        for it in recording:
            found += talk.ended(it.side, it.ended, it.at) if it.ended else talk.saw(it.side, it.data, it.at)
        talk.close()
    counts = collections.Counter(f"{it.level} {it.side} {it.rule}" for it in found)
    return ", ".join(sorted(f"{count} {it}" for it, count in counts.items())) or "nothing", talk


class Recordings(Case):
    def test_what_is_found(self):
        with open(os.path.join(FOLDER, "README.md"), encoding="utf-8") as it:
            rows = dict(ROW.findall(it.read()))
        files = {it[: -len(".record")] for it in os.listdir(FOLDER) if it.endswith(".record")}
        self.assertEqual(set(rows), files)
        for name, wanted in rows.items():
            with self.subTest(name):
                found, talk = found_in(name)
                self.assertEqual(found, wanted)
                for side, its in talk.sides.items():
                    self.assertGreater(its.messages, 5, side)
                    self.assertEqual(its.open_requests(), [], side)
                    self.assertFalse(its.is_unsure)

    def test_none_is_large(self):
        for it in os.listdir(FOLDER):
            self.assertLess(os.path.getsize(os.path.join(FOLDER, it)), 100_000, it)
