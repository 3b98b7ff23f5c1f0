"""Makes a module of WebAssembly for memory of 64 bits, which LLVM makes of a program whose pointers have 64, into one for memory of 32, which
every engine runs. Addresses stay numbers of 64 bits, and each instruction of memory takes the lower 32 of its address. So pointers keep their
size, as the library's module was proved with, and memory ends at 4 GiB.

It knows what LLVM writes, and refuses what it doesn't know, and a module that takes a function's address: its table would have 64 bits too."""
from __future__ import annotations

from dataclasses import dataclass

from tools.repository import Fault

MAGIC = b"\0asm\1\0\0\0"
TYPES, FUNCTIONS, TABLES, MEMORIES, GLOBALS, ELEMENTS, CODE, DATA = 1, 3, 4, 5, 6, 9, 10, 11
OF_64_BITS = 4
I32, I64, F32, F64, V128 = 0x7F, 0x7E, 0x7D, 0x7C, 0x7B
# Instructions, by their first byte or behind a prefix.
LOCAL_GET, LOCAL_SET, I32_CONST, I64_CONST, END = 0x20, 0x21, 0x41, 0x42, 0x0B
WRAP, EXTEND_SIGNED, EXTEND_UNSIGNED = b"\xa7", b"\xac", b"\xad"
LOADS = range(0x28, 0x36)
STORES = {
    0x36: I32,
    0x37: I64,
    0x38: F32,
    0x39: F64,
    **dict.fromkeys((0x3A, 0x3B), I32),
    **dict.fromkeys((0x3C, 0x3D, 0x3E), I64),
}
MEMORY_SIZE, MEMORY_GROW = 0x3F, 0x40
MISC, VECTOR = 0xFC, 0xFD
MEMORY_COPY, MEMORY_FILL = 10, 11
VECTOR_LOADS, VECTOR_STORE, LANE_LOADS, LANE_STORES = {*range(11), 92, 93}, 11, range(84, 88), range(88, 92)
# What stands behind an instruction: u and s are numbers, a a place in memory, digits so many bytes, v a list and a number.
BEHIND = {0x0C: "u", 0x0D: "u", 0x0E: "v", 0x10: "u", I32_CONST: "s", I64_CONST: "s", 0x43: "4", 0x44: "8"}
BEHIND |= (
    {it: "s" for it in (0x02, 0x03, 0x04)}
    | {it: "u" for it in range(0x20, 0x25)}
    | {it: "a" for it in range(0x28, 0x3F)}
)
BEHIND |= {MEMORY_SIZE: "u", MEMORY_GROW: "u", 0x1C: "t"}
ALONE = {0x00, 0x01, 0x05, END, 0x0F, 0x1A, 0x1B, *range(0x45, 0xC5)}
BEHIND_MISC = {**dict.fromkeys(range(8), ""), MEMORY_COPY: "uu", MEMORY_FILL: "u"}
BEHIND_VECTOR = {**dict.fromkeys(range(256), ""), **dict.fromkeys((*range(12), 92, 93), "a"), 12: "8" "8", 13: "8" "8"}
BEHIND_VECTOR |= {**dict.fromkeys(range(21, 35), "1"), **dict.fromkeys(range(84, 92), "a1")}


def unsigned(number: int) -> bytes:
    made = bytearray()
    while number > 0x7F:
        made.append(number & 0x7F | 0x80)
        number >>= 7
    return bytes([*made, number])


def signed(number: int) -> bytes:
    made = bytearray()
    while not -64 <= number < 64:
        made.append(number & 0x7F | 0x80)
        number >>= 7
    return bytes([*made, number & 0x7F])


class Reader:
    """Goes through bytes."""

    def __init__(self, data: bytes) -> None:
        self.data, self.at = data, 0

    @property
    def has_more(self) -> bool:
        return self.at < len(self.data)

    def byte(self) -> int:
        self.at += 1
        return self.data[self.at - 1]

    def take(self, length: int) -> bytes:
        self.at += length
        return self.data[self.at - length : self.at]

    def number(self) -> int:
        made = shift = 0
        while True:
            it = self.byte()
            made |= (it & 0x7F) << shift
            shift += 7
            if it < 0x80:
                return made

    def signed(self) -> int:
        begin = self.at
        made, bits = self.number(), 7 * (self.at - begin)
        return made - (1 << bits) if made >> (bits - 1) else made

    def vector(self) -> range:
        """(to be gone through as often as it has elements)"""
        return range(self.number())

    def behind(self, form: str) -> bytes:
        """What stands behind an instruction."""
        begin, made = self.at, b""
        for it in form:
            if it in "us":
                self.number()
            elif it == "a":
                made = self.place()
                begin = self.at
            elif it in "vt":
                for _ in self.vector():
                    self.number()
                if it == "v":
                    self.number()
            else:
                self.at += int(it)
        return made + self.data[begin : self.at]

    def place(self) -> bytes:
        """An alignment and an offset. (Another memory than the first would have a bit of its own.)"""
        alignment, offset = self.number(), self.number()
        if alignment >= 64 or offset >> 32:
            raise Fault("the module has several memories, or an offset that a memory of 32 bits hasn't")
        return unsigned(alignment) + unsigned(offset)


@dataclass
class Function:
    """A function whose code is made anew: what it takes, what locals it has, and those that are added to hold what lies above an address."""

    locals: list[tuple[int, int]]
    count: int
    added: list[int]

    def kept(self, kind: int, nth: int = 0) -> int:
        """A local of this kind, which isn't used by the code."""
        places = [at for at, it in enumerate(self.added) if it == kind]
        while len(places) <= nth:
            self.added.append(kind)
            places.append(len(self.added) - 1)
        return self.count + places[nth]

    def under(self, kind: int) -> bytes:
        """Takes the lower half of the address that lies under a value."""
        at = unsigned(self.kept(kind))
        return bytes([LOCAL_SET]) + at + WRAP + bytes([LOCAL_GET]) + at

    def under_two(self, kind: int) -> bytes:
        """The same of one under a value of this kind and a length, which is made shorter too; and of that value, if it is an address."""
        first, length = unsigned(self.kept(kind)), unsigned(self.kept(I64, kind == I64))
        put, get = bytes([LOCAL_SET]), bytes([LOCAL_GET])
        shorter = WRAP if kind == I64 else b""
        return put + length + put + first + WRAP + get + first + shorter + get + length + WRAP


def lowered_code(body: bytes, parameters: int) -> bytes:
    """A function's locals and code."""
    given = Reader(body)
    groups = [(given.number(), given.byte()) for _ in given.vector()]
    function = Function(groups, parameters + sum(count for count, _ in groups), [])
    made = bytearray()
    while given.has_more:
        made += instruction(given, function)
    all_groups = [*groups, *((1, it) for it in function.added)]
    head = unsigned(len(all_groups)) + b"".join(unsigned(count) + bytes([kind]) for count, kind in all_groups)
    return head + made


def instruction(given: Reader, function: Function) -> bytes:
    """The next instruction, for memory of 32 bits."""
    it = given.byte()
    if it in (MISC, VECTOR):
        return prefixed(given, it, function)
    if it not in BEHIND and it not in ALONE:
        raise Fault(f"the module has an instruction {it:#x}, which isn't known")
    whole = bytes([it]) + given.behind(BEHIND.get(it, ""))
    if it in LOADS:
        return WRAP + whole
    if it in STORES:
        return function.under(STORES[it]) + whole
    if it == MEMORY_SIZE:
        return whole + EXTEND_UNSIGNED
    return WRAP + whole + EXTEND_SIGNED if it == MEMORY_GROW else whole


def prefixed(given: Reader, prefix: int, function: Function) -> bytes:
    it = given.number()
    forms = BEHIND_MISC if prefix == MISC else BEHIND_VECTOR
    if it not in forms:
        raise Fault(f"the module has an instruction {prefix:#x} {it}, which isn't known")
    whole = bytes([prefix]) + unsigned(it) + given.behind(forms[it])
    if prefix == MISC:
        is_fill = it == MEMORY_FILL
        return function.under_two(I32 if is_fill else I64) + whole if it in (MEMORY_COPY, MEMORY_FILL) else whole
    if it in VECTOR_LOADS:
        return WRAP + whole
    return function.under(V128) + whole if it == VECTOR_STORE or it in LANE_LOADS or it in LANE_STORES else whole


def sections(module: bytes) -> list[tuple[int, bytes]]:
    given, found = Reader(module), []
    if given.take(len(MAGIC)) != MAGIC:
        raise Fault("it is no module of WebAssembly")
    while given.has_more:
        kind = given.byte()
        found.append((kind, given.take(given.number())))
    return found


def parameters(types: bytes) -> list[int]:
    """How many parameters each type of function has."""
    given, found = Reader(types), []
    for _ in given.vector():
        given.byte()
        found.append(len(given.take(given.number())))
        given.take(given.number())
    return found


def lowered_memory(section: bytes) -> bytes:
    """(one memory, its least size, and maybe its greatest)"""
    if section[:1] != b"\1" or section[1] & ~1 != OF_64_BITS:
        raise Fault("the module hasn't one memory of 64 bits")
    return section[:1] + bytes([section[1] - OF_64_BITS]) + section[2:]


def lowered_data(section: bytes) -> bytes:
    """Each piece of data with where it lies."""
    given, made = Reader(section), bytearray()
    count = given.number()
    for _ in range(count):
        if given.number() != 0 or given.byte() != I64_CONST:
            raise Fault("the module has data that isn't laid at a number")
        made += b"\0" + bytes([I32_CONST]) + signed(given.signed())
        made += bytes([given.byte()])
        length = given.number()
        made += unsigned(length) + given.take(length)
    return unsigned(count) + made


def lowered(module: bytes) -> bytes:
    """The module, for memory of 32 bits."""
    found = sections(module)
    held = dict(found)
    if ELEMENTS in held:
        raise Fault("the module has a table of functions: something takes a function's address")
    given = Reader(held[FUNCTIONS])
    counts = parameters(held[TYPES])
    takes = [counts[given.number()] for _ in given.vector()]
    code, bodies = Reader(held[CODE]), []
    for _, count in zip(code.vector(), takes):
        bodies.append(lowered_code(code.take(code.number()), count))
    held[CODE] = unsigned(len(bodies)) + b"".join(unsigned(len(it)) + it for it in bodies)
    held[MEMORIES] = lowered_memory(held[MEMORIES])
    if DATA in held:
        held[DATA] = lowered_data(held[DATA])
    return MAGIC + b"".join(
        bytes([kind]) + unsigned(len(held[kind])) + held[kind] for kind, _ in found if kind != TABLES
    )
