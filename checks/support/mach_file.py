"""What a Mac's file takes of others, by Apple's mach-o/loader.h and mach-o/nlist.h."""
import struct

# Commands: a library that is loaded, and the table of symbols. A symbol that is defined elsewhere has no section. Where
# it is looked for stands in the upper byte of its description: in so manieth a library, or in the program that loads it.
LOAD_LIBRARY, SYMBOLS, DEBUGGING, KIND, DYNAMIC = 0xC, 0x2, 0xE0, 0x0E, 0xFE


def commands(data: bytes) -> list[tuple[int, bytes]]:
    """The load commands."""
    magic, count = struct.unpack_from("<I12xI", data)
    if magic != 0xFEEDFACF:
        raise ValueError("it isn't a Mac's file for 64 bits")
    found, at = [], 32
    for _ in range(count):
        kind, size = struct.unpack_from("<II", data, at)
        found.append((kind, data[at : at + size]))
        at += size
    return found


def text(data: bytes, at: int) -> str:
    return data[at : data.index(b"\0", at)].decode()


def taken(data: bytes) -> tuple[list[str], dict[str, list[str]]]:
    """The libraries that a file names; and the names that it takes, by the library, or by "the program"."""
    libraries = [text(it, struct.unpack_from("<8xI", it)[0]) for kind, it in commands(data) if kind == LOAD_LIBRARY]
    table = next(it for kind, it in commands(data) if kind == SYMBOLS)
    symbols, count, names, _ = struct.unpack_from("<8xIIII", table)
    found: dict[str, list[str]] = {}
    for at in range(symbols, symbols + 16 * count, 16):
        name, kind, _, description = struct.unpack_from("<IBBH", data, at)
        if not kind & DEBUGGING and not kind & KIND:
            place = description >> 8
            of = "the program" if place == DYNAMIC else libraries[place - 1]
            found.setdefault(of, []).append(text(data, names + name).removeprefix("_"))
    return libraries, {of: sorted(it) for of, it in found.items()}
