"""What schemas allow: the checks of tools beside Debian's python3-jsonschema, on random schemas and values of the words that are checked."""
import os
import random
import subprocess

from helping import HERE, Case, patience, ran

from bullmyrtle import InvalidParams
from bullmyrtle._signatures.checker import CHECKED, Checker

try:
    from jsonschema import Draft202012Validator
except ImportError:
    Draft202012Validator = None

# Debian's interpreter, for which its packages are: it runs this file if the one that runs the tests lacks the package.
DEBIAN = "/usr/bin/python3"
SCHEMAS, VALUES = 5_000, 4
SEED = 1

_SCALARS = [None, True, False, 0, 1, 2, 3, -1, 1.0, 1.5, 2.5, 10**20, "", "a", "ab", "abc", "\U0001f600"]
_TYPES = ["string", "integer", "number", "boolean", "null", "array", "object"]
_NAMES = ["a", "b", "c"]


class Maker:
    """Makes schemas and values at random, such that each allows some of the others."""

    def __init__(self, seed):
        self.random = random.Random(seed)
        self.choice = self.random.choice

    def value(self, depth=3):
        pick = self.random.random()
        if pick < 0.5 or not depth:
            return self.choice(_SCALARS)
        if pick < 0.75:
            return [self.value(depth - 1) for _ in range(self.random.randint(0, 3))]
        return {it: self.value(depth - 1) for it in _NAMES if self.random.random() < 0.5}

    def schemas(self, depth):
        return [self.schema(depth - 1) for _ in range(self.random.randint(1, 3))]

    def schema(self, depth=3):
        """A schema of one to three words, whose references stand below members and items, so that each ends."""
        if not depth or self.random.random() < 0.1:
            return self.choice([True, True, False, {}, {"type": self.choice(_TYPES)}])
        made = {}
        for _ in range(self.random.randint(1, 3)):
            word = self.choice(CHECKED)
            made[word] = self.of(word, depth)
        if "$ref" in made:
            del made["$ref"]
            made["items"] = {"$ref": self.choice(["#/$defs/a", "#/$defs/b", "#"])}
        return made

    def of(self, word, depth):
        if word == "type":
            return self.choice([self.choice(_TYPES), self.random.sample(_TYPES, 2)])
        if word == "enum":
            # (numbers and texts alone: that package takes [true] for [1] here)
            return self.random.sample([None, 0, 1, 2, 1.5, "a", "ab"], 3)
        if word == "const":
            return self.value(2)
        if word == "required":
            return self.random.sample(_NAMES, self.random.randint(0, 2))
        if word in ("anyOf", "oneOf", "allOf", "prefixItems"):
            return self.schemas(depth)
        if word == "properties":
            below = {it: self.schema(depth - 1) for it in _NAMES if self.random.random() < 0.5}
            return {**below, "c": {"$ref": "#/$defs/a"}} if self.random.random() < 0.2 else below
        if word in ("items", "additionalProperties", "not"):
            return self.schema(depth - 1)
        if word == "pattern":
            return self.choice(["a", "^a", "b$", "^$", "."])
        if word == "uniqueItems":
            return self.choice([True, True, False])
        if word == "multipleOf":
            # (what is exact in floats: that package divides by them)
            return self.choice([1, 2, 3, 0.5])
        if word == "$ref":
            return ""
        if word.endswith("imum"):
            return self.choice([-1, 0, 1, 1.5, 2, 10**20])
        return self.random.randint(0, 3)


class Beside(Case):
    """Each schema allows what it allows there."""

    def test_random_ones(self):
        if Draft202012Validator is None:
            self.by_debians_interpreter()
        else:
            self.compare()

    def by_debians_interpreter(self):
        words = [DEBIAN, "-c", "import jsonschema"]
        if not os.path.exists(DEBIAN) or subprocess.run(words, stderr=subprocess.DEVNULL).returncode:
            self.skipTest("schemas beside another implementation need Debian's python3-jsonschema")
        ended = ran([DEBIAN, "-m", "unittest", "test_tool_schemas"], timeout=patience(300), cwd=HERE)
        self.assertEqual(
            (ended.returncode, ended.stderr.count(b"\nOK\n")), (0, 1), ended.stderr.decode()[-2000:]
        )

    def compare(self):
        maker = Maker(SEED)
        verdicts = {True: 0, False: 0}
        for _ in range(SCHEMAS):
            schema = maker.schema()
            if isinstance(schema, dict):
                schema = {**schema, "$defs": {"a": maker.schema(2), "b": maker.schema(2)}}
            check, theirs = Checker(schema), Draft202012Validator(schema)
            for _ in range(VALUES):
                value = maker.value()
                try:
                    check(value, "it")
                    is_allowed = True
                except InvalidParams:
                    is_allowed = False
                self.assertEqual(is_allowed, theirs.is_valid(value), (schema, value))
                verdicts[is_allowed] += 1
        # (schemas that allow nothing, or everything, would say little)
        self.assertGreater(min(verdicts.values()), SCHEMAS * VALUES // 5, verdicts)
