"""usage: python3 checks/ports.py [--library FOLDER] [--cases N] [--only NAME] [--made]     tries N sessions, 2,000 where none are named;
                                  with --made the files that lie in out/ports, which aren't made again
       python3 checks/ports.py --python [FILE ..]     runs the tests of the package for Python on Linux on arm64, or those in some files, and
                                                      nothing else
       python3 checks/ports.py --node [FILE ..]       the same for Node.js

The library and the addon for Node.js where the other checks don't run them: with musl, in a root that has musl alone; and on the
platforms of bin/build-ports, which makes their files before, or sees that they have the sums in release/: on AArch64 by qemu, on Windows by Wine,
the instructions of a Mac's library in a program of Linux that loads its file; and WebAssembly in Node.js, with all tests of Node's package
over it, and in a page in Chromium. A player of scripts gives what the model of docs/connection.md
does for its rows and for random sessions, call by call and several in one; the judge finds what the model of docs/judge.md does, in its
rows and in random conversations; each request for memory of each call is refused in turn, as many as on linux-x64. The example of a host
answers, and so does one over the addon, in a program that has the calls of Node-API (support/napi_host.c). The
program as one file is tried by support/static_programs.py, with `--only rpc_tool` alone. What needs a tool that is
missing is skipped, and told by the name of its platform."""
import argparse
import json
import os
import re
import sys
import tempfile
import time
from concurrent.futures import ProcessPoolExecutor
from dataclasses import dataclass
from functools import partial
from typing import Callable, Iterable, Iterator

from support import c_interface as interface
import node_package
from support import connection_fuzzing as fuzzing
from support import connection_rows as rows
from support import connection_script as script
from support import arm64, hosts, in_browser, mach_file, static_programs
from support import judged_in_c as judged
from support import playing_scripts, ran
from support.c_programs import EXAMPLES, PLAYER, SUPPORT, default_library, is_whole, said, wrapped
from support.platforms import WINE, Platform, glibc, musl, options, ported

from tools import addon, extension, modules, porting, ports, program  # (ran has put bin/ on the path)
from tools.archives import File
from tools.library import RELEASED
from tools.repository import Fault, read_bytes

SESSIONS, SEED = 2_000, 28
# So many sessions are one script, of so many requests for memory are refused, and so many conversations are judged of each kind.
BATCH, REFUSED, CONVERSATIONS = 100, 10, 200
REFUSING = f"{SUPPORT}/refuse_calls.c"
NODE = os.path.join(ran.TOP, "bindings", "node")
# So many of the tests that refuse it memory there are at least.
REFUSED_TESTS = 4
# Each request of each call is refused in turn, and each refusal and each call is told.
EACH_REFUSED = {"REFUSE_EACH": "1", "REFUSE_TELL": "2"}
# What the compiler takes for a Mac alone; all of it macOS's own library has, which each program loads.
OF_MAC = {"bzero", "__bzero", "dyld_stub_binder", "__stack_chk_fail", "__stack_chk_guard"}
# So many seconds the page in Chromium may take.
PAGE_SECONDS = 300


@dataclass(frozen=True)
class Script:
    """What a program is given, and what it has to write."""

    name: str
    given: bytes
    wanted: bytes

    def why_not(self, words: list[str], env: dict[str, str]) -> str:
        """How what the program writes differs, or nothing."""
        status, output, errors = said(words, self.given, env=env)
        # (Windows writes lines with CR LF)
        got = output.replace(b"\r\n", b"\n")
        if status == 0 and got == self.wanted and not errors:
            return ""
        lines, wanted = got.split(b"\n"), self.wanted.split(b"\n")
        at = next(
            (i for i, (one, other) in enumerate(zip(lines, wanted)) if one != other), min(len(lines), len(wanted))
        )
        return f"status {status}, {errors[-300:]!r}, line {at + 1}: {lines[at:at + 1]} in place of {wanted[at:at + 1]}"


def text(lines: Iterable[str]) -> bytes:
    return "".join(f"{it}\n" for it in lines).encode()


def of_actions(name: str, trials: Iterable[rows.Row]) -> Script:
    one = playing_scripts.one_of([*trials])
    return Script(name, script.written(one.actions).encode(), text(one.gives))


def of_sessions(first: int, most: int) -> Script:
    trials = [fuzzing.made(SEED, it)[0] for it in range(first, min(first + BATCH, most))]
    return of_actions(f"sessions from {first}", (rows.Row(it.name, it.actions, it.wanted) for it in trials))


def of_talks(name: str, talks: list[judged.Talk]) -> Script:
    return Script(
        name,
        text(line for it in talks for line in it.lines()),
        text(line for it in talks for line in it.wanted(judged.NAMES)),
    )


def of_kind(kind: str) -> Script:
    return of_talks(kind, judged.talks(kind, CONVERSATIONS))


def of_echoes() -> Script:
    """What a host is given and answers, of all the sizes that a piece of input cuts, and of texts in and beyond ASCII."""
    params = [[it, "é😀" * (it % 700)] if it % 3 else {"a": "b" * (it * 7 % 5_000)} for it in range(600)]
    compact = {"ensure_ascii": False, "separators": (",", ":")}
    asks = [{"jsonrpc": "2.0", "method": "echo", "params": it, "id": at} for at, it in enumerate(params)]
    answers = [{"id": at, "jsonrpc": "2.0", "result": it} for at, it in enumerate(params)]
    given, wanted = (text(json.dumps(it, **compact) for it in some) for some in (asks, answers))  # type: ignore[arg-type]
    return Script("echoes", hosts.HOST[0] + given, hosts.HOST[1] + wanted)


@dataclass(frozen=True)
class Scripts:
    """All that is tried on each platform."""

    connection: list[Script]
    judge: list[Script]
    refused: Script
    host: Script


def made(cases: int) -> Scripts:
    """The scripts with what the models say, which takes the most of a processor's time here."""
    by_hand = [it for it in rows.all_rows() if len(script.written(it.actions)) <= playing_scripts.LONGEST]
    with ProcessPoolExecutor(len(os.sched_getaffinity(0))) as pool:
        sessions = pool.map(partial(of_sessions, most=cases), range(0, cases, BATCH))
        kinds = pool.map(of_kind, judged.KINDS)
        some = [fuzzing.made(SEED, it)[0] for it in range(REFUSED)]
        refused = [*by_hand, *(rows.Row(it.name, it.actions, it.wanted) for it in some)]
        whole = rows.all_rows()
        return Scripts(
            [of_actions("rows", whole + [it.cut_once for it in whole]), *sessions],
            [of_talks("worked rows", judged.of_rows()), *kinds],
            of_actions("rows and sessions", refused),
            of_echoes(),
        )


class Trial:
    """A platform and what is tried on it."""

    def __init__(self, count: ran.Count, library: str, room: str, platform: Platform) -> None:
        self.count, self.library, self.it = count, library, platform
        self.room, self.env = f"{room}/{platform.name.replace(' ', '-')}", {**os.environ, **platform.env}
        self.built = dict[str, str]()
        os.makedirs(self.room)

    def name(self, what: str) -> str:
        return f"{self.it.name}: {what}"

    def build(self, name: str, file: str, way: str, more: Iterable[str] = ()) -> list[str]:
        """Builds a program for the platform, once, and gives how it is run."""
        made = f"{self.room}/{name}-{way}{'.exe' if 'win32' in self.it.name else ''}"
        if made not in self.built:
            words = [*self.it.compiler, *options(), f"-I{self.library}", *more, file, *self.it.ways[way], "-o", made]
            status, _, errors = said(words)
            self.count.check(
                self.name(f"{name} is built without a warning, {way}"), status == 0, errors.decode()[-900:]
            )
            self.built[made] = made
        return self.it.run(made)

    def plays(self, words: list[str], scripts: Iterable[Script], way: str) -> Iterator[Callable[[], None]]:
        """Each script played by a program, to be called."""

        def play(it: Script) -> None:
            why = it.why_not(words, self.env)
            self.count.check(self.name(f"{it.name}, {way}"), not why, why)

        for it in scripts:
            yield partial(play, it)

    def all_plays(self, scripts: Scripts) -> Iterator[Callable[[], None]]:
        # (the two ways hold the same code, so each way of playing goes by one of them)
        ways = [it for it in ("static", "shared") if it in self.it.ways]
        for way, how in ((ways[0], "script"), (ways[-1], "together")):
            player = self.build("play_script", PLAYER, way)
            yield from self.plays([*player, how], scripts.connection, f"{way}, {how}")
        for way in ways:
            host = self.build("host", f"{EXAMPLES}/host.c", way)
            yield from self.plays(host, [scripts.host], f"the host, {way}")
            judge = self.build("judge_talks", f"{SUPPORT}/judge_talks.c", way)
            yield from self.plays(judge, scripts.judge, f"the judge, {way}")
        if self.it.addon:
            more = [f"-I{addon.FOLDER}", "-Wno-unused-parameter", *self.it.exports]
            host = self.build("napi_host", f"{SUPPORT}/napi_host.c", "addon", more)
            yield from self.plays([*host, self.it.addon], [scripts.host], "a host over the addon")

    def refusing(self) -> list[str]:
        """The player whose requests for memory are refused."""
        return self.build("refused_script", PLAYER, next(iter(self.it.ways)), [REFUSING, *wrapped(REFUSING)])

    def refuses(self, it: Script, how: str) -> int:
        """Refuses each request of each call in turn, and gives how many."""
        status, output, errors = said([*self.refusing(), how], it.given, env={**self.env, **EACH_REFUSED})
        well = status == 0 and output.replace(b"\r\n", b"\n") == it.wanted
        self.count.check(self.name(f"memory is refused, and all goes on, {how}"), well, f"{status}, {errors[-300:]!r}")
        return errors.split().count(b"refused")

    def refusals(self, scripts: Scripts) -> tuple[int, ...]:
        return tuple(self.refuses(scripts.refused, how) for how in ("script", "together"))


def check_package(trial: Trial, scripts: Scripts) -> None:
    """Node's package over the module, in place of the addon: all its tests, and its player of scripts. (Nothing stands for AddressSanitizer:
    the engine sees to the memory's bounds as a whole.)"""
    node_package.check_tests(trial.count, "node", f" over {trial.it.name}", [], trial.it.env, node_package.FEWEST)
    check_refused_package(trial)
    for way, some in (("bytes", scripts.connection), ("strings", scripts.connection[:1])):
        player = ["node", f"{NODE}/tests/play_script.js", way]
        ran.side_by_side(trial.plays(player, some, f"Node's package, {way}"))


def refusing_package(trial: Trial) -> str:
    """The module, in which requests for memory are refused."""
    port = porting.port(trial.it.name)(trial.it.name, "", f"{trial.room}/refusing", f"{trial.room}/refused")
    wrapped_around = port.compiled(f"{SUPPORT}/wasm/refuse.c", [*port.target.words, "-O1"])
    names = [f"--wrap={it}" for it in ("malloc", "calloc", "realloc")]
    made = f"{trial.room}/refusing.wasm"
    porting.linked_wasm([*names, port.of_addon(), wrapped_around, *trial.it.ways["static"]], made, trial.room)
    return made


def check_refused_package(trial: Trial) -> None:
    """Each request for memory of the package and of the library is refused in turn."""
    env = {**trial.env, "BULLMYRTLE_ADDON": refusing_package(trial)}
    words = ["node", "--require", f"{SUPPORT}/wasm/refuse.js", "--test", "--test-reporter=tap"]
    status, output, _ = said([*words, f"{NODE}/tests/refused_memory.js"], env=env)
    passed = len(re.findall(r"^ok \d+ - ", output.decode(), re.M))
    well = status == 0 and passed >= REFUSED_TESTS
    trial.count.check(trial.name("Node's package, without memory"), well, output.decode()[-1500:])


def check_browser(trial: Trial, scripts: Scripts, refused: int) -> None:
    """The package for browsers in a page, and the players in it."""
    if ran.lacks("chromium", "bullmyrtle/browser isn't tried in a page"):
        return
    way = next(iter(trial.it.ways))
    programs = {"player": trial.build("play_script", PLAYER, way)[-1], "refusing": trial.refusing()[-1]}
    held = {f"{name}.wasm": read_bytes(file) for name, file in programs.items()}
    plays = [
        in_browser.Play(f"{at}", "player.wasm", ["script"], {}, it.given) for at, it in enumerate(scripts.connection)
    ]
    plays.append(in_browser.Play("refused", "refusing.wasm", ["script"], EACH_REFUSED, scripts.refused.given))
    told = in_browser.opened(held, plays, PAGE_SECONDS)
    trial.count.check(trial.name("the page in Chromium came to its end"), told.is_over.is_set())
    for name, why in told.checks:
        trial.count.check(trial.name(f"in Chromium: {name}"), not why, why)
    for it, wanted in zip(plays, [*scripts.connection, scripts.refused]):
        got = told.played.get(it.name, {"status": None, "output": "", "errors": ""})
        well = got["status"] == 0 and got["output"].encode() == wanted.wanted
        trial.count.check(trial.name(f"in Chromium: {wanted.name}"), well, f"{got['status']}, {got['errors'][-300:]}")
        if it.name == "refused":
            count = got["errors"].split().count("refused")
            trial.count.same(trial.name("in Chromium: as many requests for memory as on linux-x64"), count, refused)


def of_python(words: list[str], pattern: str) -> list[str]:
    """The functions of Python that a file takes, by what a tool says of it."""
    return sorted(set(re.findall(pattern, said(words)[1].decode(), re.M)))


def taken_on_linux() -> list[str]:
    """The functions of Python that the released extension takes."""
    return of_python(["nm", "-D", f"{RELEASED}/{extension.EXTENSION}"], r"^ +U (Py\w+)$")


def check_extension_of_mac(trial: Trial) -> None:
    """The extension for Python on macOS takes what that for Linux takes, of the program that loads it, and the rest of macOS's own library."""
    if ran.lacks("nm", "what the extension takes on macOS isn't compared"):
        return
    libraries, taken = mach_file.taken(read_bytes(f"{ports.BUILT}/{trial.it.name}/{extension.EXTENSION}"))
    of_system = "/usr/lib/libSystem.B.dylib"
    trial.count.same(trial.name("what libraries the extension names"), libraries, [of_system])
    looked_up, of_c = ({*taken.pop(it, [])} for it in ("the program", of_system))
    trial.count.same(trial.name("what the extension takes of Python"), sorted(looked_up - OF_MAC), taken_on_linux())
    others = of_c - OF_MAC - {*porting.OF_C_IN_THE_ADDON}
    trial.count.same(trial.name("what else the extension takes"), (others, taken), (set(), {}))


def check_extension(trial: Trial) -> None:
    """The extension for Python on Windows takes what that for Linux takes, and loads where python3.dll has it."""
    file, room = f"{ports.BUILT}/{trial.it.name}/{extension.FOR_WINDOWS}", f"{trial.room}/extension"
    names = taken_on_linux()
    listing = ["x86_64-w64-mingw32-objdump", "-p", file]
    taken = of_python(listing, r"^\s+[0-9a-f]+\s+\d+\s+(Py\w+)$")
    trial.count.same(trial.name("what the extension takes of Python"), taken, names)
    libraries = of_python(listing, r"DLL Name: (\S+)$")
    trial.count.same(trial.name("what libraries the extension names"), libraries, ["msvcrt.dll", "python3.dll"])
    giving = {it: "given" if it == "PyModuleDef_Init" else "0" for it in names}
    lines = (f"void *{name}(void *given) {{ (void)given; return {gives}; }}" for name, gives in giving.items())
    program.write(f"{room}/python3.c", text(lines))
    made = said([trial.it.compiler[0], "-shared", f"{room}/python3.c", "-o", f"{room}/python3.dll"])
    trial.count.check(trial.name("what stands for python3.dll"), made[0] == 0, f"{made}")
    loader = [trial.it.compiler[0], f"{SUPPORT}/load_extension.c", "-o", f"{room}/load.exe"]
    trial.count.same(trial.name("what loads the extension is built"), said(loader), (0, b"", b""))
    status, output, errors = said([WINE, f"{room}/load.exe", f"Z:{file}"], env=trial.env)
    trial.count.same(
        trial.name("the extension loads"), (status, output.strip(), errors), (0, b"bullmyrtle._bullmyrtle", b"")
    )


def page_rows() -> dict[str, tuple[int, ...]]:
    """By platform, what docs/platforms.md has: the size of the shared library in bytes, and the most stack of a call, with contents of any
    depth and of 20 levels, in KB."""
    found = re.findall(
        r"^\| `([a-z0-9-]+)` \| ([\d,]+) \| (\d+) KB \| (\d+) KB \|$", ran.text_of("docs/platforms.md"), re.M
    )
    return {name: tuple(int(it.replace(",", "")) for it in numbers) for name, *numbers in found}


def check_page(trial: Trial) -> None:
    """The page has the size of the shared library, and no call takes more stack than the page says, or a quarter less. (Windows gives a
    thread its stack by itself.)"""
    size, *bounds = page_rows()[trial.it.name]
    trial.count.same(
        trial.name("the size of the shared library, as the page has it"), os.path.getsize(trial.it.shared), size
    )
    for levels, most in zip((400, 20), bounds):
        # (WebAssembly has no threads, and its program looks at the module's own stack)
        more = [] if trial.it.name == "wasm32" else ["-pthread"]
        words = trial.build("least_stack", f"{SUPPORT}/least_stack.c", next(iter(trial.it.ways)), more)
        status, output, errors = said([*words, str(levels)], env=trial.env)
        taken = int(output) if status == 0 else 0
        well = 768 * most <= taken <= 1024 * most
        trial.count.check(trial.name(f"{levels} levels take {most} KB of stack at most"), well, f"{taken}, {errors!r}")


def check_platform(trial: Trial, scripts: Scripts, refused: tuple[int, ...]) -> None:
    if trial.it.lacking():
        print(f"SKIPPED: {trial.it.name}, which takes {', '.join(trial.it.lacking())}", flush=True)
        return
    begun = time.monotonic()
    if trial.it.first:
        said([*trial.it.first], env=trial.env)
    ran.side_by_side(trial.all_plays(scripts))
    got = trial.refusals(scripts)
    trial.count.same(trial.name("as many requests for memory as on linux-x64"), got, refused)
    if trial.it.name == "wasm32":
        check_package(trial, scripts)
        check_browser(trial, scripts, refused[0])
    if trial.it.name == "win32-x64":
        check_extension(trial)
    if trial.it.name.startswith("darwin"):
        check_extension_of_mac(trial)
    if trial.it.name in page_rows():
        check_page(trial)
    seconds = time.monotonic() - begun
    print(f"{trial.it.name}: {sum(got):,} requests for memory were refused, {seconds:.0f} seconds", flush=True)


def has_ports(count: ran.Count, are_made: bool) -> bool:
    """Whether the files of other platforms are in out/ports. They are made where the kit is, but for those that are made already."""
    if are_made:
        count.same("the platforms whose files have the sums in release/", ports.whole(), ports.NAMES)
        return ports.whole() == ports.NAMES
    if ran.lacks("rt", "the library isn't made for other platforms"):
        return False
    status, told = ran.told_by([os.path.join(ran.TOP, "bin", "build-ports")], 900)
    count.check("bin/build-ports makes what release/ has the sums of", status == 0, told.decode()[-1500:])
    return status == 0


def check_bad_modules(count: ran.Count, room: str) -> None:
    """Modules that are damaged, lack something or aren't those of the released library are refused, and by their name."""
    packed = read_bytes(f"{ports.modules_folder()}/{modules.PACKED}")
    bad = {
        "cut": (packed[:1_000], "modules.tar.xz is damaged"),
        "no archive": (b"modules", "modules.tar.xz is damaged"),
        "of other files": (modules.packed([File("a", b"b")]), "modules.tar.xz holds other files: a"),
    }
    for name, (data, why) in bad.items():
        program.write(f"{room}/{name}/{modules.PACKED}", data)
        count.check(f"modules that are {name}", why in fault_of(partial(modules.unpacked, f"{room}/{name}")))
    kits = modules.unpacked(ports.modules_folder())[modules.OBJECTS].decode()
    other = ran.file_of("other.ll", text(f"define void @{it}() {{\n  ret void\n}}" for it in interface.in_map()))
    for name in ("linux-x64", "linux-arm64"):
        why = f"the module for {name[6:]}, compiled here, isn't the kit's object"
        got = fault_of(partial(ports.make_one, name, other, kits, f"{room}/{name}"))
        count.check(f"another module, for {name}", why in got, got)


def fault_of(call: Callable[[], object]) -> str:
    """What a command would say and end."""
    try:
        call()
    except Fault as fault:
        return str(fault)
    return "no fault"


def main(words: list[str]) -> None:
    parser = argparse.ArgumentParser(usage=(__doc__ or "").partition("\n\n")[0].removeprefix("usage: "))
    parser.add_argument("--library", default=default_library())
    parser.add_argument("--cases", type=int, default=SESSIONS)
    parser.add_argument("--only", default="")
    parser.add_argument("--made", action="store_true")
    apart = {"python": arm64.PYTHON.check, "node": arm64.NODE.check}
    for name in apart:
        parser.add_argument(f"--{name}", nargs="*", metavar="FILE")
    given, count = parser.parse_args(words), ran.Count()
    for name, check in apart.items():
        if getattr(given, name) is not None:
            check(count, getattr(given, name))
            count.end()
    library = os.path.abspath(given.library)
    if ran.lacks("cc", "it compiles the programs"):
        count.end()
    if given.only in "rpc_tool":
        with tempfile.TemporaryDirectory(prefix="static-") as room:
            static_programs.check_all(count, room)
    if given.only == "rpc_tool":
        count.end()
    if not is_whole(library):
        print(f"SKIPPED: there is no library in {library}: bin/build-library builds it", flush=True)
        count.end()
    scripts = made(given.cases)
    with tempfile.TemporaryDirectory(prefix="ports-") as room:
        refused = Trial(count, library, room, glibc(library)).refusals(scripts)
        count.check("memory is refused", min(refused) > 1_000, f"{refused}")
        platforms = [musl(room, library, f"{library}/{addon.ADDON}")]
        if has_ports(count, given.made):
            check_bad_modules(count, f"{room}/modules")
            platforms += ported(room, ports.BUILT)
        for it in platforms:
            if given.only in it.name:
                check_platform(Trial(count, library, room, it), scripts, refused)
    count.end()


if __name__ == "__main__":
    main(sys.argv[1:])
