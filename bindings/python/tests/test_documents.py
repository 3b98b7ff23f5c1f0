"""The texts of open documents, beside a plain model: a string, which is cut into lines anew for each position."""
import random
import re
import time
import unittest
import unittest.mock

from helping import Case, by_the_clock, logged

from bullmyrtle import InvalidParams
from bullmyrtle.lsp import Document
from bullmyrtle.lsp._text import Text

EDITS = 20_000
# (U+10000 and U+10FFFF are pairs in UTF-16; U+0085, U+2028, VT and FF are no line breaks of LSP's)
PIECES = [
    "a",
    "b",
    " ",
    "\n",
    "\r",
    "\r\n",
    "\n\r",
    "é",
    "€",
    "\U00010000",
    "\U0010ffff",
    "word",
    "\x0b\x0c\x85\u2028",
]
PIECES += ["", "line\n", "\U0001f600\U0001f600", "x" * 40, "\r\r\n\n"]


class Small(Text):
    """A text of tiny pieces, so that a short one has many of them, on many shelves."""

    least, size, shelf_least, shelf_size = 3, 6, 2, 4
    __slots__ = ()


class Plain:
    """What a position means, by the words of the specification."""

    def __init__(self, text, encoding):
        self.text, self.encoding = text, encoding
        self.cut = None, []

    def lines(self):
        """The offsets between which each line stands, without its line break."""
        if self.cut[0] != self.text:
            self.cut = self.text, self.cut_lines()
        return self.cut[1]

    def cut_lines(self):
        found, start = [], 0
        for it in re.finditer("\r\n|\n|\r", self.text):
            found.append((start, it.start()))
            start = it.end()
        return [*found, (start, len(self.text))]

    def units(self, text):
        if self.encoding == "utf-32":
            return len(text)
        if self.encoding == "utf-8":
            return len(text.encode())
        return sum(2 if ord(it) > 0xFFFF else 1 for it in text)

    def offset(self, line, character):
        lines = self.lines()
        if line >= len(lines):
            return len(self.text)
        at, end = lines[line]
        while at < end and self.units(self.text[at]) <= character:
            character -= self.units(self.text[at])
            at += 1
        return at

    def place(self, offset):
        for line, (start, end) in reversed(list(enumerate(self.lines()))):
            if start <= offset:
                return line, self.units(self.text[start : min(offset, end)])
        raise AssertionError(offset)


def at(line, character):
    return {"line": line, "character": character}


def between(start, end):
    return {"start": at(*start), "end": at(*end)}


class Edits(Case):
    def some_place(self, plain):
        """A position, which may lie behind a line's end, behind the last line, or inside a pair."""
        lines = plain.lines()
        line = self.random.choice([self.random.randrange(len(lines) + 2), len(lines) - 1])
        longest = plain.units(plain.text[slice(*lines[line])]) if line < len(lines) else 9
        return line, self.random.randrange(longest + 3)

    def edit(self, encoding, kind, seed, edits=EDITS):
        self.random = random.Random(seed)
        plain = Plain("", encoding)
        document = Document("file:///a", "", 0, "text", encoding)
        document._text = kind("", encoding)
        for version in range(1, edits + 1):
            start, end = sorted([self.some_place(plain), self.some_place(plain)])
            if len(plain.text) < 300 and self.random.random() < 0.7:
                end = start  # (it grows, up to a size)
            new = "".join(self.random.choices(PIECES, k=self.random.randrange(4)))
            low, high = plain.offset(*start), plain.offset(*end)
            document.change([{"range": between(start, end), "text": new}], version)
            plain.text = plain.text[:low] + new + plain.text[high:]
            where = (encoding, seed, version)
            self.assertEqual(document.text, plain.text, where)
            self.assertEqual(
                (len(document), document.line_count), (len(plain.text), len(plain.lines())), where
            )
            place, offset = self.some_place(plain), self.random.randrange(len(plain.text) + 1)
            self.assertEqual(document.offset(at(*place)), plain.offset(*place), where)
            self.assertEqual(document.position(offset), at(*plain.place(offset)), where)
            low, high = sorted([offset, self.random.randrange(len(plain.text) + 1)])
            self.assertEqual(document._text.part(low, high), plain.text[low:high], where)
        return document

    def test_tiny_pieces(self):
        for seed, encoding in enumerate(("utf-8", "utf-16", "utf-32")):
            with self.subTest(encoding):
                document = self.edit(encoding, Small, seed)
                text = document._text
                pieces = [it for shelf in text._shelves for it in shelf[0]]
                self.assertLess(max(map(len, pieces)), 2 * text.size + 2)
                self.assertGreater(len(text._shelves), 1)

    def test_pieces_as_they_are(self):
        self.edit("utf-16", Text, 7, EDITS // 4)

    def test_a_model_that_is_wrong_is_found(self):
        """(the comparison tells a text that counts otherwise)"""
        with self.assertRaises(AssertionError):
            right, Plain.units = Plain.units, lambda self, text: len(text)
            try:
                self.edit("utf-16", Small, 1)
            finally:
                Plain.units = right


class Places(Case):
    def document(self, text, encoding="utf-16"):
        return Document("file:///tmp/a%20b.txt", text, 1, "text", encoding)

    def test_what_does_not_fit(self):
        document = self.document("ab\r\nc\U0001f600d\rend")
        self.assertEqual(document.line_count, 3)
        for place, offset in {
            (0, 2): 2,
            (0, 3): 2,
            (0, 99): 2,
            (1, 0): 4,
            (1, 1): 5,
            (1, 2): 5,
            (1, 3): 6,
            (1, 4): 7,
            (1, 5): 7,
            (2, 3): 11,
            (2, 4): 11,
            (3, 0): 11,
            (99, 99): 11,
            (-1, 5): 0,
            (1, -1): 4,
        }.items():
            self.assertEqual(document.offset(at(*place)), offset, place)
        self.assertEqual(document.position(3), at(0, 2))
        self.assertEqual(document.position(6), at(1, 3))
        self.assertEqual(document.position(99), at(2, 3))

    def test_the_encodings(self):
        for encoding, units in {"utf-8": 4, "utf-16": 2, "utf-32": 1}.items():
            document = self.document("\U0001f600x", encoding)
            self.assertEqual(document.position(1), at(0, units))
            self.assertEqual([document.offset(at(0, it)) for it in range(units + 2)], [0] * units + [1, 2])
        with self.assertRaises(ValueError):
            self.document("", "utf-7")

    def test_lines(self):
        document = self.document("one\n\r\nthree\rlast")
        self.assertEqual(document.lines, ["one\n", "\r\n", "three\r", "last"])
        self.assertEqual([document.line(it) for it in range(-1, 5)], ["", "one", "", "three", "last", ""])
        self.assertEqual(document.text_in(between((0, 1), (2, 2))), "ne\n\r\nth")
        self.assertEqual(document.text_in(between((2, 2), (0, 1))), "ne\n\r\nth")

    def test_lines_are_split_once_for_each_change(self):
        document, splits = self.document("one\ntwo\n"), []

        def split(pattern, text):
            splits.append(text)
            return text.splitlines(True)

        with unittest.mock.patch.object(re, "findall", split):
            document.lines.append("of the user's own")
            before = document.snapshot()
            self.assertEqual((document.lines, before.lines), (["one\n", "two\n"],) * 2)
            self.assertEqual(splits, ["one\ntwo\n"])
            document.change([{"range": between((0, 0), (1, 0)), "text": ""}])
            self.assertEqual((document.lines, document.lines), (["two\n"],) * 2)
            self.assertEqual(before.lines, ["one\n", "two\n"])
            self.assertEqual(splits[1:], ["two\n"])

    def test_words(self):
        document = self.document("  foo_1 bär-\U0001f600z\n")
        words = [document.word_at(at(0, it)) for it in range(16)]
        self.assertEqual(words, ["", "", *["foo_1"] * 6, *["bär"] * 4, "", "", "z", "z"])
        self.assertEqual(document.word_range(at(0, 9)), between((0, 8), (0, 11)))
        self.assertEqual(document.word_range(at(0, 0)), between((0, 0), (0, 0)))
        self.assertEqual(document.word_at(at(0, 9), r"[a-zä]+-"), "bär-")
        self.assertEqual(document.word_at(at(5, 0)), "")

    def test_a_snapshot_stays(self):
        document = self.document("one two")
        kept = document.snapshot()
        document.change([{"range": between((0, 0), (0, 3)), "text": "1"}], 2)
        self.assertEqual(
            (kept.text, kept.version, document.text, document.version), ("one two", 1, "1 two", 2)
        )
        self.assertEqual(kept.offset(at(0, 9)), 7)

    def test_a_version_that_falls(self):
        document = self.document("a")
        with logged() as log:
            document.change([{"text": "b"}], 3)
            document.change([{"text": "c"}], 2)
        self.assertEqual((document.text, document.version), ("c", 2))
        self.assertEqual(log.texts, ["file:///tmp/a%20b.txt: version 2 comes after version 3"])

    def test_changes_that_are_none(self):
        document = self.document("whole")
        good = {"range": between((0, 0), (0, 1)), "text": "W"}
        for bad in (
            {"range": between((0, 0), (0, 1))},
            {"range": {"start": at(0, 0)}, "text": ""},
            {"range": between((0, "0"), (0, 1)), "text": ""},
            {"range": between((0, 0.5), (0, 1)), "text": ""},
            {"text": None},
            7,
        ):
            with self.assertRaises(InvalidParams):
                document.change([good, bad], 2)
        self.assertEqual((document.text, document.version), ("whole", 1))

    def test_names(self):
        document = self.document("")
        self.assertEqual((document.path, document.filename), ("/tmp/a b.txt", "a b.txt"))
        self.assertIsNone(Document("untitled:Untitled-1").path)

    def test_half_a_pair_alone(self):
        document = self.document("a\ud83db")
        self.assertEqual(document.text, "a\ufffdb")
        document.change([{"range": between((0, 0), (0, 1)), "text": "\ude00"}])
        self.assertEqual(document.text, "\ufffd\ufffdb")


class Large(Case):
    """10 MB, in one line and in 200,000: 10,000 changes within 5 seconds, and twice as many in 2.2 times the time."""

    TEXTS = {"one line": "0123456789" * 1_000_000, "lines": ("x" * 49 + "\n") * 200_000}

    def changes(self, text, count):
        rand = random.Random(count)
        lines = text.count("\n") + 1
        width = len(text) // lines
        found = []
        for version in range(count):
            line, character = rand.randrange(lines), rand.randrange(width)
            where = between((line, character), (line, character + rand.randrange(3)))
            found.append({"range": where, "text": rand.choice(["", "y", "new words", "\n", "é\U0001f600"])})
        return found

    def seconds(self, text, count):
        document = Document("file:///a", text)
        changes = self.changes(text, count)
        start = time.process_time()
        for version, it in enumerate(changes):
            document.change([it], version)
        return time.process_time() - start

    @by_the_clock
    def test_many_changes(self):
        for name, text in self.TEXTS.items():
            with self.subTest(name):
                least, ratio, turns = 5.0, 3.0, 0
                # (the least of a few turns, of each of which the parts stand side by side: other processes slow it down)
                while (least >= 5 or ratio > 2.2) and turns < 8:
                    once, twice = self.seconds(text, 10_000), self.seconds(text, 20_000)
                    least, ratio, turns = min(least, once), min(ratio, twice / once), turns + 1
                self.assertLess(least, 5)
                self.assertLessEqual(ratio, 2.2)

    def test_they_are_applied(self):
        text = "0123456789" * 1_000
        document, plain = Document("file:///a", text), Plain(text, "utf-16")
        for it in self.changes(text, 300):
            start, end = (
                (it["range"][name]["line"], it["range"][name]["character"]) for name in ("start", "end")
            )
            low, high = plain.offset(*start), plain.offset(*end)
            plain.text = plain.text[:low] + it["text"] + plain.text[high:]
            document.change([it])
        self.assertEqual(document.text, plain.text)

    def test_memory_follows_the_text(self):
        import tracemalloc

        tracemalloc.start()
        try:
            document = Document("file:///a", "x" * 49 + "\n")
            before = tracemalloc.get_traced_memory()[0]
            document.change([{"text": self.TEXTS["lines"]}])
            full = tracemalloc.get_traced_memory()[0] - before
            for _ in range(2_000):  # (all lines but the last)
                document.change([{"range": between((0, 0), (100, 0)), "text": ""}])
            left = tracemalloc.get_traced_memory()[0] - before
        finally:
            tracemalloc.stop()
        self.assertEqual(document.text, "")
        self.assertLess(full, 1.25 * 10_000_000)
        self.assertLess(left, 100_000)
