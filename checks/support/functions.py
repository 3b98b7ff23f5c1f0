"""Where the functions of a source file stand, and how the check's output names them.

It goes by the lines and their indents, as `rt fmt` leaves them, and reads no further into the language."""
import re
from dataclasses import dataclass
from typing import Iterator, Optional

FN = re.compile(
    r'(?P<indent> *)(?P<pub>pub(?:\([^)]*\))? )?(?P<const>const )?(?:unsafe )?(?:extern "C" )?fn (?P<name>\w+)'
)
IMPL = re.compile(r"(?:unsafe )?impl\b")


@dataclass(frozen=True)
class Function:
    """A function of a source file: its text goes from offset `start` to `end`."""

    file: str
    name: str  # as a reader says it: `put_head`, `Text::eq`
    printed: "re.Pattern[str]"  # what its name in the check's output fits
    ending: str  # how that name ends, or all of it; nothing where only a pattern tells
    start: int
    end: int
    opening: int  # the offset behind the brace that opens its body; 0 where it has none
    cycle: str  # the cycle of calls that it is in, as its attribute names it
    is_const: bool
    is_hidden: bool  # whether no other crate can call it: it isn't `pub`, and no trait's

    def holds(self, start: int, end: int) -> bool:
        return self.start <= start and end <= self.end


def without_generics(text: str) -> str:
    """The text without what stands between angle brackets."""
    depth, kept = 0, []
    for at, sign in enumerate(text):
        is_arrow = sign == ">" and text[at - 1 : at] == "-"
        depth += (sign == "<") - (sign == ">" and not is_arrow)
        if not depth and sign != ">":
            kept.append(sign)
    return "".join(kept)


def after_parameters(header: str) -> tuple[set[str], str]:
    """The names of an impl's parameters, and the header behind them."""
    rest = IMPL.sub("", header, count=1)
    if not rest.startswith("<"):
        return set(), rest.strip()
    depth = 0
    for at, sign in enumerate(rest):
        depth += (sign == "<") - (sign == ">")
        if not depth:
            names = re.findall(r"(?:^|,)\s*(?:const )?('?\w+)", rest[1:at])
            return {*names}, rest[at + 1 :].strip()
    return set(), rest.strip()


def last_name(path: str) -> str:
    """The last word of a type's path: `Debug` of `fmt::Debug`, `Awaiting` of `&'a Awaiting<'a>`."""
    found = re.findall(r"[A-Za-z_]\w*", re.sub(r"'\w+", "", without_generics(path)))
    return str(found[-1]) if found else ""


def owner_of(header: str) -> tuple[str, str]:
    """The type that an impl or a trait is about, and a pattern of what the check calls it: `Text`, and
    `TextPartialEq`."""
    trait = re.match(r"(?:pub(?:\([^)]*\))? )?(?:unsafe )?trait (\w+)", header)
    if trait:
        return trait[1], trait[1]
    parameters, rest = after_parameters(header.split(" where ")[0].split("{")[0].strip())
    if " for " not in rest:
        # (an impl of `DenseWindow<Option<T>>` is called `DenseWindow+Option+T`, one of `DenseWindow<P>` just by its type)
        is_special = not {*re.findall(r"[A-Za-z_]\w*", re.sub(r"'\w+|\w+::", "", rest))[1:]} <= parameters
        return last_name(rest), last_name(rest) + (r"(?:\+\w+)+" if is_special else "")
    of, kind = rest.split(" for ", 1)
    words = re.findall(r"[A-Za-z_]\w*", re.sub(r"'\w+|\w+::", "", of))
    words = [it[0].upper() + it[1:] for it in words if it not in parameters]
    return last_name(kind), last_name(kind) + "".join(words)


def module_of(file: str) -> str:
    """The module that a file of src/ is, below the crate."""
    parts = file.removeprefix("src/").removesuffix(".rt").split("/")
    return "".join(f"{it}::" for it in parts if it not in ("lib", "main", "mod"))


def cycle_of(lines: list[str], first: int) -> str:
    """The cycle that an attribute above the function at line `first` names."""
    for line in reversed(lines[:first]):
        if found := re.match(r" *#\[cycle\((\w+)\)\]", line):
            return found[1]
        if not re.match(r" *(#\[|///)", line):
            break
    return ""


def end_of(lines: list[str], first: int, indent: str) -> tuple[int, Optional[int]]:
    """The last line of the function that begins at line `first`, and the line whose brace opens its body."""
    opening = first if lines[first].rstrip().endswith("{") else None
    if lines[first].rstrip().endswith("}"):
        return first, None
    for at in range(first + 1, len(lines)):
        line = lines[at].rstrip()
        depth = len(line) - len(line.lstrip())
        if not line or depth > len(indent):
            continue
        if depth == len(indent) and line.endswith("{") and opening is None and line.lstrip()[0] in "){w":
            opening = at
        elif line == f"{indent}}}":
            return at, opening
        elif line.lstrip()[0] != ")" and line.strip() != "where":
            return at - 1, None
    return len(lines) - 1, opening


def functions_of(crate: str, file: str, text: str) -> Iterator[Function]:
    """The functions of a source file, in their order; those in functions and in nested modules are left out."""
    lines = text.split("\n")
    starts = [0]
    for line in lines:
        starts.append(starts[-1] + len(line) + 1)
    header, past = "", -1
    for at, line in enumerate(lines):
        if line[:1].strip() and line[0] not in "/#}":
            header = line if re.match(r"(pub(\([^)]*\))? )?(unsafe )?(impl|trait)\b", line) else ""
            if header and "{" not in header:
                header = " ".join(it.strip() for it in lines[at : at + 4]).split("{")[0]
        found = FN.match(line)
        if not found or at <= past or len(found["indent"]) > 4:
            continue
        past, opening = end_of(lines, at, found["indent"])
        name, path = found["name"], re.escape(crate) + "::"
        if found["indent"]:
            owner, shown = owner_of(header) if header else ("", r"\w+")
            printed = rf"{path}(?:\S+::)?{shown}::{name}"
            ending = f"{shown}::{name}" if shown.isidentifier() else ""
            name = f"{owner}::{name}" if owner else name
        else:
            ending = f"{crate}::{module_of(file)}{name}"
            printed = re.escape(ending)
        opened = starts[opening + 1] - 1 if opening is not None else 0
        yield Function(
            file,
            name,
            re.compile(printed),
            ending,
            starts[at],
            starts[past + 1] - 1,
            opened,
            cycle_of(lines, at),
            found["const"] is not None,
            found["pub"] != "pub " and not re.search(r"\btrait\b| for\b", header),
        )
