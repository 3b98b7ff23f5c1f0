"""A small library, and edits of it: of each, whether crates above see it."""
from typing import NamedTuple

FILES = {
    "src/lib.rt": """//! A library.
#![tactic(auto)]

ghost use Rattle.std.specs.Prelude.{◌≡◌, ℕ};
ghost use Rattle.toy.specs.Twice.{twice};

mod apart;
mod inner;
mod macros;
#[cfg(test)]
mod tests;

pub use inner::half_of;

use std::mem;

/// The most.
pub const MOST: u32 = 7;

pub const PAGE: &str = "http://page \\" // of it";

/// Two numbers.
#[derive(Drop)]
pub struct Pair {
    a: u32,
    b: u32,
}

/// What has a size.
pub trait Measured {
    fn size(&self) -> u32;

    fn more(&self) -> u32 {
        1
    }
}

impl Measured for Pair {
    fn size(&self) -> u32 {
        self.a
    }
}

impl Pair {
    pub fn new(a: u32, b: u32) -> Pair {
        Pair { a, b }
    }

    #[inline]
    pub fn first(&self) -> u32 {
        self.a
    }

    pub fn turn(&mut self) {
        mem::swap(&mut self.a, &mut self.b)
    }
}

pub fn echo(x: u32) -> u32
    ensures { result ≡ x }
{
    x
}

pub fn held<T>(x: T) -> T
    ensures { result ≡ x }
{
    x
}

#[inline]
pub fn quick(x: u32) -> u32
    ensures { result ≡ x }
{
    x
}

pub const fn fixed(x: u32) -> u32
    ensures { result ≡ x }
{
    x
}

/// A law.
pub fn law()
    ensures { (n : ℕ) → twice n ≡ twice n }
{}
""",
    "src/apart.rt": """//! Apart.

ghost use Rattle.std.specs.Prelude.{◌≡◌};

use std::cmp;

fn least(x: u32, y: u32) -> u32
    ensures { x ≡ x }
{
    cmp::min(x, y)
}
""",
    "src/inner.rt": """ghost use Rattle.std.specs.Prelude.{◌≡◌};

pub fn half_of(x: u32) -> u32 {
    same(x)
}

/// It does nothing.
#[inline(always)]
fn same(x: u32) -> u32
    ensures { result ≡ x }
{
    x
}
""",
    "src/macros.rt": """#[macro_export]
macro_rules! same {
    ($x:expr) => {
        $x
    };
}
""",
    "src/tests.rt": "// None yet.\n",
    "specs/Lib.antt": "pub mod Twice\n",
    "specs/Twice.antt": """-- What is twice a number.
use Rattle.std.specs.Prelude.{ℕ, ◌+◌}

unfoldable pub twice : ℕ → ℕ
twice x = x + x
""",
    "proofs/Lib.antt": "pub mod Told\nmod Under\nmod Kept\n",
    "proofs/Told.antt": """use Rattle.std.proofs.Common.{ℕ, ◌≡◌}
use Rattle.toy.specs.Twice.{twice}
use Rattle.toy.proofs.Under.{under}

pub told : (n : ℕ) → twice n ≡ twice n
told n = under n
""",
    "proofs/Under.antt": """use Rattle.std.proofs.Common.{ℕ, ◌≡◌, refl}
use Rattle.toy.specs.Twice.{twice}

pub under : (n : ℕ) → twice n ≡ twice n
under n = refl
""",
    "proofs/Kept.antt": """use Rattle.std.proofs.Common.{ℕ, ◌≡◌, refl}

pub alone : (n : ℕ) → n ≡ n
alone n = refl
""",
}
# What the small library has no use for, so that only its text is looked at.
TEXTS = {
    "src/counted.rt": """pub fn counted() -> impl Iterator<Item = u32> {
    (0u32..7).skip(1)
}

thing! {
    fn loose() -> u32 {
        1
    }
}
""",
    "src/outer.rt": """mod deeper;

pub fn nothing() {}

#[cfg(test)]
mod tests;
""",
    "proofs/inner/same/Answers.antt": "-- An answer.\n",
    "proofs/inner/Pair/TheSendSync/Send.antt": "-- It may be sent.\n",
}


class Edit(NamedTuple):
    what: str
    file: str
    old: str
    new: str


UNSEEN = [
    Edit(
        "what a function does",
        "src/lib.rt",
        "    ensures { result ≡ x }\n{\n    x\n",
        "    ensures { result ≡ x }\n{\n    let y = x;\n    y\n",
    ),
    Edit(
        "what a method does",
        "src/lib.rt",
        "a: u32, b: u32) -> Pair {\n        Pair { a, b }",
        "a: u32, b: u32) -> Pair {\n        Pair { a: b, b: a }",
    ),
    Edit(
        "what an inlined method does",
        "src/lib.rt",
        "fn first(&self) -> u32 {\n        self.a",
        "fn first(&self) -> u32 {\n        self.b",
    ),
    Edit(
        "what a generic function does",
        "src/lib.rt",
        "(x: T) -> T\n    ensures { result ≡ x }\n{\n    x\n",
        "(x: T) -> T\n    ensures { result ≡ x }\n{\n    let y = x;\n    y\n",
    ),
    Edit(
        "what an inlined function does",
        "src/lib.rt",
        "quick(x: u32) -> u32\n    ensures { result ≡ x }\n{\n    x\n",
        "quick(x: u32) -> u32\n    ensures { result ≡ x }\n{\n    let y = x;\n    y\n",
    ),
    Edit("what a trait's method does unless an impl says more", "src/lib.rt", "        1\n", "        2\n"),
    Edit(
        "what the method of an impl does",
        "src/lib.rt",
        "fn size(&self) -> u32 {\n        self.a",
        "fn size(&self) -> u32 {\n        self.b",
    ),
    Edit("what nothing but functions may import", "src/lib.rt", "use std::mem;", "use std::cmp;\nuse std::mem;"),
    Edit("a comment more", "src/lib.rt", "/// A law.", "// Of numbers.\n\n/// A law."),
    Edit("a comment", "src/lib.rt", "/// A law.", "/// A law of numbers."),
    Edit(
        "a function that no other crate can call",
        "src/inner.rt",
        "    same(x)\n}\n\n/// It does nothing.\n#[inline(always)]\nfn same(x: u32) -> u32\n    ensures { result ≡ x }",
        "    the_same(x)\n}\n\n#[cold]\nfn the_same(x: u32) -> u32",
    ),
    Edit("that there is a file of such functions", "src/outer.rt", "mod deeper;\n", ""),
    Edit(
        "what such a file imports", "src/apart.rt", "{◌≡◌};\n\nuse std::cmp;", "{◌≡◌, ℕ};\n\nuse std::cmp::{self, Ord};"
    ),
    Edit("that there are tests", "src/outer.rt", "#[cfg(test)]\nmod tests;\n", ""),
    Edit("a test", "src/tests.rt", "None yet.", "Not one yet."),
    Edit(
        "a lemma that no other crate can cite",
        "proofs/Kept.antt",
        "pub alone : (n : ℕ) → n ≡ n\nalone n",
        "pub apart : (m : ℕ) → m ≡ m\napart m",
    ),
    Edit("an answer", "proofs/inner/same/Answers.antt", "An answer.", "Another answer."),
]
SEEN = [
    Edit("a clause", "src/lib.rt", "ensures { result ≡ x }", "ensures { x ≡ result }"),
    Edit("a law", "src/lib.rt", "twice n ≡ twice n", "twice (twice n) ≡ twice (twice n)"),
    Edit("a type of a parameter", "src/lib.rt", "echo(x: u32)", "echo(x: u64)"),
    Edit("an attribute", "src/lib.rt", "pub fn echo", "#[inline]\npub fn echo"),
    Edit("a derived trait", "src/lib.rt", "#[derive(Drop)]", "#[derive(Clone, Drop)]"),
    Edit("a private field", "src/lib.rt", "    b: u32,\n", "    b: u32,\n    c: u32,\n"),
    Edit("a constant", "src/lib.rt", "MOST: u32 = 7", "MOST: u32 = 8"),
    Edit("a text with a comment's sign in it", "src/lib.rt", "// of it", "// of them"),
    Edit(
        "a method of a trait",
        "src/lib.rt",
        "    fn size(&self) -> u32;\n",
        "    fn size(&self) -> u32;\n\n    fn less(&self) -> u32;\n",
    ),
    Edit("a function in a file that had none for crates above", "src/apart.rt", "fn least", "pub fn least"),
    Edit("a type in such a file", "src/apart.rt", "fn least", "struct Least;\n\nfn least"),
    Edit("what crates above may name", "src/lib.rt", "mod inner;", "pub mod inner;"),
    Edit("a function more", "src/inner.rt", "pub fn half_of", "pub fn no_more() {}\n\npub fn half_of"),
    Edit("what is called from outside", "src/inner.rt", "\nfn same", "\npub fn same"),
    Edit("what definitions are imported", "src/lib.rt", "specs.Twice.{twice}", "specs.Twice.{twice as double}"),
    Edit(
        "what a constant's function does",
        "src/lib.rt",
        "fixed(x: u32) -> u32\n    ensures { result ≡ x }\n{\n    x\n",
        "fixed(x: u32) -> u32\n    ensures { result ≡ x }\n{\n    let y = x;\n    y\n",
    ),
    Edit("a macro", "src/macros.rt", "        $x\n", "        ($x)\n"),
    Edit("what makes the type of a result", "src/counted.rt", "skip(1)", "take(1)"),
    Edit("what a macro is given", "src/counted.rt", "        1\n", "        2\n"),
    Edit("a definition", "specs/Twice.antt", "x + x", "x + (x + 0)"),
    Edit("which definitions there are", "specs/Lib.antt", "pub mod", "mod"),
    Edit("a lemma that other crates can cite", "proofs/Told.antt", "told n = under n", "told m = under m"),
    Edit("what such a lemma stands on", "proofs/Under.antt", "under n = refl", "under m = refl"),
    Edit("which lemmas can be cited", "proofs/Lib.antt", "mod Kept", "pub mod Kept"),
    Edit("that a type may be sent", "proofs/inner/Pair/TheSendSync/Send.antt", "It may", "It can"),
]


def edited(files: dict[str, str], edits: list[Edit]) -> dict[str, str]:
    """The files with these edits, each of which has to find its text."""
    made = dict(files)
    for it in edits:
        assert it.old in made[it.file], it
        made[it.file] = made[it.file].replace(it.old, it.new, 1)
    return made
