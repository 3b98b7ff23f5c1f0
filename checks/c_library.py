"""usage: python3 checks/c_library.py [--library FOLDER] [--cases N]      tries N sessions, 1,000 where none are named

The C library in a folder; where none is named, in out/library, as bin/build-library builds it, or else the released one. Where there is none,
the header alone is tried. Its header, its exports and its map have the same calls, with the same parameters, and the structs lie as C, ctypes
and the exports lay them out. The header compiles without a warning, as C99 and as C++. The programs of examples/c are built and run, with the
shared library and with the static one, and so is a player of scripts, which gives what the model of docs/connection.md does for its rows and
for random sessions, call by call and with several things said in one call, and finds what it is lent unchanged as long as it may be read. What hosts
of this interface rely on stays as it is, and the texts of codes and ends are those of docs/embedding.md. (What is refused, loans, threads and memory
are tried by c_library_use.py and c_library_memory.py.)"""
import argparse
import os
import re
import shutil
import sys
import tempfile
from functools import partial
from typing import Iterable

from support import c_interface as interface
from support import connection_fuzzing as fuzzing
from support import connection_rows as rows
from support import hosts, playing_scripts, ran
from support.c_programs import C99, EXAMPLES, PLAYER, PLAYER_NEEDS, SUPPORT, WARNINGS
from support.c_programs import build, default_library, is_whole, lacks_cjson, said, said_slowly
from support.c_programs import watched, wrapped

SESSIONS = 1_000


def words_of(words: Iterable[str]) -> argparse.Namespace:
    parser = argparse.ArgumentParser(usage=__doc__.partition("\n\n")[0].removeprefix("usage: "))
    parser.add_argument("--library", default=default_library())
    parser.add_argument("--cases", type=int, default=SESSIONS)
    return parser.parse_args([*words])


# The interface


def imports(file: str) -> tuple[list[str], list[str]]:
    """The libraries that a shared library names, and the symbols that it takes, with their versions where it names
    any."""
    needed = re.findall(rb"\(NEEDED\).*\[(.*)\]", said(["readelf", "-dW", file])[1])
    names = said(["nm", "-D", "--undefined-only", "--format=just-symbols", file])[1]
    return [it.decode() for it in needed], sorted(names.decode().split())


def check_interface(count: ran.Count, library: str, room: str) -> None:
    header, exports = interface.in_header(), interface.in_exports()
    count.check(
        "the header and the exports have the same calls",
        header.keys() == exports.keys(),
        f"{header.keys() ^ exports.keys()}",
    )
    for name in header.keys() & exports.keys():
        count.check(
            f"{name}: the header and the export are the same",
            header[name] == exports[name],
            f"{header[name]}, {exports[name]}",
        )
    count.check("the map has the calls of the header", interface.in_map() == sorted(header))
    status, names, _ = said(["nm", "-D", "--defined-only", "--format=just-symbols", f"{library}/libbullmyrtle.so.1"])
    versions = dict(it.split("@@") for it in names.decode().split() if "@@" in it)
    seen = sorted(it.partition("@")[0] for it in names.decode().split() if not it.startswith("BULLMYRTLE_"))
    count.check("of the shared library just the calls can be seen", status == 0 and seen == sorted(header), f"{seen}")
    count.check(
        "the shared library names no other and asks for just six functions of C, by no version",
        imports(f"{library}/libbullmyrtle.so.1") == ([], sorted(interface.OF_C)),
        f"{imports(f'{library}/libbullmyrtle.so.1')}",
    )
    count.check("the map has one version", interface.versions_in_map() == [interface.VERSION])
    count.check("each call has it", versions == dict.fromkeys(header, interface.VERSION), f"{versions}")
    status, names, _ = said(["nm", "-g", "--defined-only", "--format=just-symbols", f"{library}/libbullmyrtle.a"])
    defined = {it for it in names.decode().split() if not it.endswith(":")}
    count.check(
        "the static library defines the calls, and what the page names",
        status == 0 and defined == {*header, *interface.OF_THE_HEAP},
        f"{defined}",
    )
    for name in interface.STRUCTS:
        count.check(f"{name}: the same fields", interface.fields_in_header(name) == interface.fields_in_exports(name))
    with open(f"{room}/layouts.c", "w", encoding="ascii") as it:
        it.write(interface.program_of_layouts())
    built = said([*C99, f"-I{library}", f"{room}/layouts.c", "-o", f"{room}/layouts"])
    count.check("the layouts are built", built[0] == 0, f"{built}")
    wanted = "".join(f"{name} {' '.join(map(str, interface.laid_out(name)))}\n" for name in interface.STRUCTS)
    count.check(
        "C and ctypes lay the structs out in the same way", said([f"{room}/layouts"])[:2] == (0, wanted.encode())
    )


def check_hosts(count: ran.Count) -> None:
    """What hosts rely on that were built for this interface."""
    count.same("these are of this interface", interface.interface_in_header(), interface.INTERFACE)
    count.same("the layouts are those of all structs", {*interface.LAYOUTS}, {*interface.STRUCTS})
    for name, wanted in interface.LAYOUTS.items():
        count.same(f"{name} lies as it did", interface.laid_out(name), wanted)
    values = interface.names_in_header()
    for first, kinds in enumerate((interface.NAMES, interface.NAMES_FROM_1)):
        for names in kinds:
            wanted = [*range(first, first + len(names))]
            count.same(f"{names[0]} and its neighbours have their values", [values.get(it) for it in names], wanted)
    due = {it for kinds in (interface.NAMES, interface.NAMES_FROM_1) for names in kinds for it in names}
    # (the rules are those of the page: c_judge.py)
    count.same("no other name has a value", {it for it in values if not it.startswith("BM_RULE_")}, due)


def check_texts(count: ran.Count, library: str, room: str) -> None:
    """The texts of codes and ends are those of the page."""
    with open(os.path.join(ran.TOP, "docs", "embedding.md"), encoding="utf-8") as it:
        rows_of = re.findall(r"^\| `(BM_\w+)` \| (\d+) \| (.*) \|$", it.read(), re.M)
    values = interface.names_in_header()
    for name, value, _ in rows_of:
        count.check(f"{name} has the page's value", values.get(name) == int(value), f"{values.get(name)}")
    codes = [text for name, _, text in rows_of if not name.startswith("BM_OVER_")]
    ends = [text for name, _, text in rows_of if name.startswith("BM_OVER_")]
    count.check(
        "the page has all codes and ends",
        (len(codes), len(ends)) == (len(interface.CODES), len(interface.ENDS)),
    )
    with open(f"{room}/texts.c", "w", encoding="ascii") as it:
        it.write(interface.program_of_texts(len(codes), len(ends)))
    built = said([*C99, f"-I{library}", f"{room}/texts.c", "-o", f"{room}/texts"])
    wanted = ["another code", *codes, "another code", *ends, "another end"]
    got = said([f"{room}/texts"]) if built[0] == 0 else built
    count.check(
        "the header has the page's texts", got[:2] == (0, "".join(f"{it}\n" for it in wanted).encode()), f"{got}"
    )


def check_header(count: ran.Count, library: str) -> None:
    alone = b'#include "bullmyrtle.h"\nint main(void) { return 0; }\n'
    for words in (["cc", "-std=c99"], ["cc", "-std=c11"], ["c++", "-std=c++11"], ["c++", "-std=c++17"]):
        language = "c++" if words[0] == "c++" else "c"
        if shutil.which(words[0]):
            got = said([*words, *WARNINGS, f"-I{library}", "-fsyntax-only", "-x", language, "-"], alone)
            count.check(f"the header compiles by {' '.join(words)}", got[0] == 0, f"{got}")


# Programs


def check_host(count: ran.Count, host: str, way: str) -> None:
    got = said([host], hosts.HOST[0])
    count.check(f"the host answers, {way}", got == (0, hosts.HOST[1], b""), f"{got}")


def check_explaining(count: ran.Count, host: str, way: str) -> None:
    given, wanted, says = hosts.EXPLAINING
    got = said([host], given)
    count.check(f"the host says what is broken, {way}", got == (0, wanted, says), f"{got}")


def check_client(count: ran.Count, client: str, host: str, way: str) -> None:
    for words, wanted in hosts.CLIENT:
        got = said([client, *words, host])
        count.check(
            f"the client calls {words[0]} with {words[1]}"[:60] + f", {way}", got == (*wanted, b""), f"{got}"[:300]
        )


def check_client_of_others(count: ran.Count, client: str) -> None:
    """Servers of frames, servers that give no reply, or none in time; and words that it refuses."""
    refused = [(it, hosts.CLIENT_USAGE) for it in hosts.CLIENT_REFUSES]
    for words, others in (*hosts.CLIENT_OF_OTHERS, *refused):
        count.same(f"the client with the words {words}", said([client, *words]), others)


def check_server(count: ran.Count, library: str, room: str) -> None:
    if lacks_cjson():
        return
    for way in ("shared", "static"):
        server = build(count, library, room, f"{EXAMPLES}/language_server.c", way, ["-lcjson"])
        for name, it in hosts.GREETER.items():
            wanted = (it.status, hosts.framed(*it.answers), b"")
            got = said([server], hosts.framed(*it.says))
            count.check(f"the language server: {name}, {way}", got == wanted, f"{got}")
            got = said_slowly([server], hosts.framed(*it.says))
            count.check(f"the language server, byte by byte: {name}, {way}", got == wanted, f"{got}")


def check_cpp(count: ran.Count, library: str, room: str) -> None:
    """The header for C++17 compiles without a warning, alone too; its example answers; and what it adds holds."""
    if ran.lacks("c++", "no program in C++ is built"):
        return
    words = ["c++", "-O1", "-g", *WARNINGS, f"-I{ran.TOP}/include"]
    for standard in ("c++17", "c++20"):
        got = said([*words, f"-std={standard}", "-fsyntax-only", "-x", "c++", "-"], b'#include "bullmyrtle.hpp"\n')
        count.check(f"bullmyrtle.hpp compiles by {standard}", got[0] == 0, f"{got}")
    for way in ("shared", "static"):
        host = build(count, library, room, f"{EXAMPLES}/host.cpp", way, words=[*words, "-std=c++17"])
        check_host(count, host, f"{way}, in C++")
    use = f"{SUPPORT}/hpp_use.cpp"
    program = build(count, library, room, use, "static", wrapped(use), [*words, "-std=c++17"])
    got = said([program])
    count.check("what bullmyrtle.hpp adds", got == (0, b"", b""), f"{got}")
    watched(count, "what bullmyrtle.hpp adds", [program])


# Scripts


def check_players(count: ran.Count, library: str, room: str, cases: int) -> None:
    by_hand = rows.all_rows()
    for way in ("shared", "static"):
        player = build(count, library, room, PLAYER, way, PLAYER_NEEDS)
        playing_scripts.check(count, [player], way, by_hand + [row.cut_once for row in by_hand])
        playing_scripts.check(
            count, [player, "together"], f"{way}, together", by_hand + [row.cut_once for row in by_hand]
        )
        for line in (*rows.UNREADABLE, "next"):
            got = said([player], f"{line}\n".encode())
            count.check(f"the player refuses {line!r}", got[:2] == (2, b""), f"{got}")
    # (call by call: connection_fuzz.py)
    again = f"python3 checks/connection_fuzz.py --program {player} --how together"
    fuzzing.Fuzzer(partial(fuzzing.play_by_program, player, how="together"), count, again).try_all(1, cases)


def main(words: list[str]) -> None:
    options, count = words_of(words), ran.Count()
    library = os.path.abspath(options.library)
    if not is_whole(library):
        check_header(count, os.path.join(ran.TOP, "include"))
        print(
            f"SKIPPED: all but the header, since there is no library in {library}: bin/build-library builds it",
            flush=True,
        )
    else:
        with tempfile.TemporaryDirectory(prefix="c-library-") as room:
            check_interface(count, library, room)
            check_hosts(count)
            check_texts(count, library, room)
            check_header(count, library)
            for way in ("shared", "static"):
                check_host(
                    count, build(count, library, room, f"{EXAMPLES}/quick_host.c", way), f"{way}, with few calls"
                )
                host = build(count, library, room, f"{EXAMPLES}/host.c", way)
                check_host(count, host, way)
                check_explaining(count, build(count, library, room, f"{EXAMPLES}/explaining_host.c", way), way)
                client = build(count, library, room, f"{EXAMPLES}/client.c", way)
                check_client(count, client, host, way)
            check_client_of_others(count, client)
            check_server(count, library, room)
            check_cpp(count, library, room)
            check_players(count, library, room, options.cases)
    count.end()


main(sys.argv[1:])
