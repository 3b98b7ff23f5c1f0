"""The command `python3 -m bullmyrtle.examine`."""
from __future__ import annotations

import argparse
import contextlib
import os
import shlex
import shutil
import signal
import sys
import time
from typing import Any, Dict, Iterator, List, Optional, Sequence, Tuple

from .._system import cant_drive
from ..errors import LibraryError
from ..judge._rules import LEVELS
from ..judge._signals import end_by
from ..judge._versions import NAMES
from . import _files, _lines
from ._cases import Case
from ._process import end_all
from ._random import is_random, random_verdicts
from ._reading import asked, chosen, possible, read_all
from ._runner import Runner
from ._session import NotExamined, Plan
from ._targets import SERVER, Address, CanNotStart, Client, Command, Target, bridge_to, is_url, placed
from ._verdicts import NOT_TRIED, Verdict

#: What it ends with.
FOUND, WRONG, NOT_EXAMINED, NOT_RUN, NOT_FOUND = 1, 2, 3, 126, 127
_NAME, _SCRIPTS = "python3 -m bullmyrtle.examine", ("bullmyrtle-examine", "examine")
_SECONDS = 3.0
_SIGNALS = tuple(getattr(signal, it) for it in ("SIGTERM", "SIGHUP") if hasattr(signal, it))

_ABOUT = """\
Says what a server or a client gets wrong. It starts the command, sends it every edge of JSON-RPC 2.0, of the Language
Server Protocol (LSP) or of the Model Context Protocol (MCP), case by case, and compares what comes back with what the
standard allows. Each conversation is judged as by `python3 -m bullmyrtle.judge`, too."""

_MORE = """\
examples:
  %(prog)s -- clangd
  %(prog)s --rules mcp --junit examined.xml -- ./my_tool_server
  %(prog)s --known known.txt --write-known -- pylsp     then, in CI:  %(prog)s --known known.txt -- pylsp
  %(prog)s --client -- nvim --headless -c "lua vim.lsp.start_client({cmd={'{}'}})"
  %(prog)s --only "the id -3" -- clangd

status:
  0    nothing is found of the level that counts, or all of it is known
  1    something is found
  2    the command line, the library or a file is wrong, and nothing was started
  3    the other side was started, and no session could be agreed on with it
  126  it can't be started or reached; 127  there is no such command
A signal ends this as it would any command, when all that it started has ended."""


def _called() -> str:
    """This command as it can be called again."""
    name = os.path.basename(sys.argv[0])
    if name not in _SCRIPTS:
        return _NAME
    return name if shutil.which(name) == sys.argv[0] else shlex.quote(sys.argv[0])


def _parser() -> argparse.ArgumentParser:
    parser = argparse.ArgumentParser(
        prog=_called(),
        usage="%(prog)s [OPTION ..] -- COMMAND [WORD ..]\n       %(prog)s [OPTION ..] --client -- COMMAND [WORD ..]",
        description=_ABOUT,
        epilog=_MORE,
        formatter_class=argparse.RawDescriptionHelpFormatter,
        allow_abbrev=False,
    )
    add = parser.add_argument
    add(
        "--rules", choices=NAMES, default="lsp", metavar="NAME", help=f"whose rules (lsp): {', '.join(NAMES)}"
    )
    ways = parser.add_mutually_exclusive_group()
    ways.add_argument(
        "--frames", dest="framing", action="store_const", const="frames", help="as LSP has them"
    )
    ways.add_argument("--lines", dest="framing", action="store_const", const="lines", help="as MCP has them")
    add(
        "--client", action="store_true", help=f"examine a client: {SERVER} in its command is that of a server"
    )
    add(
        "--connect",
        metavar="HOST:PORT|PATH|URL",
        help="the server listens there; a command beside starts it, unless it is a tool server at a URL",
    )
    add(
        "--only", metavar="WORD", default="", help="the case of this name, or those whose names hold the word"
    )
    add("--level", choices=LEVELS, default="must", help="the status is 1 from this level on (must)")
    add("--seconds", metavar="N", type=_seconds, default=_SECONDS, help="how long a response may take (3)")
    add("--jobs", metavar="N", type=_count, default=os.cpu_count() or 1, help="how many run side by side")
    add("--random", metavar="N", type=_count, default=0, help="try N random and damaged streams too")
    add("--seed", metavar="S", type=int, default=1, help="with --random: which ones (1)")
    add("--tap", action="store_true", help="write TAP, version 13, to the standard output")
    add("--junit", metavar="FILE", help="write JUnit's XML to a file, for CI")
    add("--report", metavar="FILE", help="write a page of HTML to a file")
    add("--known", metavar="FILE", help="what was found before, which doesn't count")
    add("--write-known", action="store_true", help="write what is found to the file of --known")
    add("--list", action="store_true", help="list the cases, and start nothing")
    add("command", nargs=argparse.REMAINDER, help=argparse.SUPPRESS)
    return parser


def _seconds(text: str) -> float:
    value = float(text)
    if not 0 < value <= 3600:
        raise argparse.ArgumentTypeError(f"must be a number from 0 to 3600, got {text!r}")
    return value


def _count(text: str) -> int:
    if not text.isdigit() or not 0 < int(text) <= 1_000_000:
        raise argparse.ArgumentTypeError(f"must be an integer from 1 to 1000000, got {text!r}")
    return int(text)


class _Interrupted(BaseException):
    """A signal came."""

    def __init__(self, number: int) -> None:
        super().__init__()
        self.number = number


def _interrupt(number: int, frame: Any) -> None:
    raise _Interrupted(number)


def main(words: Optional[Sequence[str]] = None) -> int:
    """Runs the command, and gives its status; below 0, by which signal it is to end."""
    parser = _parser()
    it = parser.parse_args(sys.argv[1:] if words is None else list(words))
    it.command = placed(it.command[1:] if it.command[:1] == ["--"] else it.command)
    it.framing = it.framing or ("lines" if it.rules.startswith("mcp") else "frames")
    side = "client" if it.client else "server"
    every = read_all()
    if not _named(possible(every, it.rules, side, it.framing), it.only):
        parser.error(f"no case has {it.only!r} in its name: --list lists them")
    if it.list:
        return _list(_named(chosen(every, it.rules, side, it.framing), it.only))
    why = cant_drive("the examiner")
    if why:
        parser.error(f"{why}; --list lists its cases")
    _check(parser, it)
    try:
        known = _files.read_known(it.known) if it.known and not it.write_known else {}
    except (OSError, _files.NotKnown) as fault:
        return _said(f"--known: {fault}", WRONG)
    for number in _SIGNALS:
        signal.signal(number, _interrupt)
    try:
        return _Run(it, side, known).run(every)
    except LibraryError as fault:
        return _said(str(fault), WRONG)
    except KeyboardInterrupt:
        end_all()
        return -signal.SIGINT
    except _Interrupted as it_:
        end_all()
        return -it_.number


def _named(cases: List[Case], name: str) -> List[Case]:
    """The case of this name, or else those whose names hold it."""
    return [it for it in cases if it.name == name] or [it for it in cases if name in it.name]


def _check(parser: argparse.ArgumentParser, it: argparse.Namespace) -> None:
    if not it.command and not it.connect:
        parser.error("there is a command behind --, or --connect, or --list")
    if it.client and it.connect:
        parser.error("--client starts a client; --connect is for servers that listen")
    if is_url(it.connect) and (it.command or not it.rules.startswith("mcp")):
        parser.error("a URL is that of a tool server (--rules mcp) which runs already")
    if it.client and not any(SERVER in word for word in it.command):
        parser.error(f"a client's command has {SERVER} where that of its server belongs")
    if it.write_known and not it.known:
        parser.error("--write-known writes to the file that --known names")
    for file in (it.junit, it.report, it.known if it.write_known else None):
        folder = os.path.dirname(os.path.abspath(file)) if file else ""
        if file and (not os.path.isdir(folder) or os.path.isdir(file)):
            parser.error(f"{file} can't be written: it must be a file in a folder that is there")


def _list(cases: List[Case]) -> int:
    for case in cases:
        _print("\n".join(_lines.case_lines(case)))
    return 0


def _print(text: str) -> None:
    """Writes to the standard output, until nobody reads it any more."""
    try:
        print(text.encode("utf-8", "backslashreplace").decode(), flush=True)
    except BrokenPipeError:
        os.dup2(os.open(os.devnull, os.O_WRONLY), 1)


def _said(line: str, status: int) -> int:
    print(f"examine: {line}", file=sys.stderr)
    return status


class _Run:
    """An examination, from its start to what is said at its end."""

    def __init__(self, it: argparse.Namespace, side: str, known: Dict[str, str]) -> None:
        self._it, self._side, self._known = it, side, known
        plan = Plan(it.rules, it.framing, side, it.seconds)
        if is_url(it.connect):  # (there each request goes its own way, and none waits for another)
            plan = plan._replace(settle=it.seconds)
        self._runner = Runner(_target(it), plan, it.jobs)
        self._verdicts: List[Verdict] = []
        self._begun = time.monotonic()

    def run(self, every: List[Case]) -> int:
        """Tries those of the cases that are asked for."""
        status = self._start()
        if status:
            return status
        try:
            if self._it.tap:
                self._say("TAP version 13")
            for verdict in self._all(every):
                self._verdicts.append(verdict)
                self._tell(verdict)
        finally:
            self._runner.stop()
        return self._finish()

    def _start(self) -> int:
        try:
            self._runner.check()
        except CanNotStart as fault:
            return _said(str(fault), NOT_FOUND if fault.is_missing else NOT_RUN)
        except NotExamined as fault:
            for line in fault.found:
                self._say(line)
            return _said(f"no session could be agreed on: {fault}", FOUND if fault.found else NOT_EXAMINED)
        return 0

    def _all(self, every: List[Case]) -> Iterator[Verdict]:
        it, agreed = self._it, self._runner.rules
        cases = _named(asked(every, it.rules, agreed, self._side, it.framing), it.only)
        # (what no version but another has isn't tried, which is said)
        cases = cases or _named(possible(every, it.rules, self._side, it.framing), it.only)
        yield from self._runner.verdicts(cases)
        if it.random:
            own = chosen(every, agreed, self._side, it.framing)
            yield from random_verdicts(self._runner, own, it.random, it.seed)

    def _counts(self, it: Verdict) -> bool:
        is_bad = it.is_finding and LEVELS.index(it.level) <= LEVELS.index(self._it.level)
        return is_bad and not _files.is_known(it, self._known)

    def _tell(self, it: Verdict) -> None:
        if self._it.tap:
            known = _files.is_known(it, self._known)
            for line in _lines.tap_of(it, len(self._verdicts), self._counts(it), known):
                self._say(line)
            return
        if it.is_finding or it.level not in ("ok", NOT_TRIED):
            self._say(_lines.line_of(it) + (" (known)" if _files.is_known(it, self._known) else ""))
        if it.is_finding and not _files.is_known(it, self._known):
            for line in _lines.details_of(it, self._again):
                self._say(line)

    def _again(self, name: str) -> str:
        return _again(self._it, self._runner.rules, name)

    def _say(self, line: str) -> None:
        _print(line)

    def _finish(self) -> int:
        if self._it.tap:
            self._say(f"1..{len(self._verdicts)}")
        else:
            for line in _lines.summary_of(self._verdicts, time.monotonic() - self._begun):
                self._say(line)
            for name in _files.gone_of(self._verdicts, self._known):
                self._say(f"no longer found, and in {self._it.known}: {name}")
        failed = [self._counts(it) for it in self._verdicts]
        title = " ".join(self._it.command or [self._it.connect])
        wanted: List[Tuple[Optional[str], Iterator[str]]] = [
            (self._it.junit, _files.junit_of(self._verdicts, title, failed, self._again)),
            (self._it.report, _files.page_of(self._verdicts, title, self._again)),
            (self._it.known if self._it.write_known else None, _files.known_of(self._verdicts)),
        ]
        for file, parts in wanted:
            try:
                if file:
                    _files.write(file, parts)
            except OSError as fault:
                return _said(f"{file} can't be written: {fault}", WRONG)
        return FOUND if any(failed) and not self._it.write_known else 0


def _target(it: argparse.Namespace) -> Target:
    if is_url(it.connect):
        return Command(bridge_to(it.connect), is_bridge=True)
    if it.connect:
        return Address(it.connect, it.command)
    return Client(it.command) if it.client else Command(it.command)


def _again(it: argparse.Namespace, rules: str, name: str) -> str:
    """The command that repeats a case, or a random stream, by these rules."""
    words = ["--rules", rules, f"--{it.framing}"]
    words += ["--seconds", f"{it.seconds:g}"] if it.seconds != _SECONDS else []
    words += ["--client"] if it.client else []
    words += ["--connect", it.connect] if it.connect else []
    if is_random(name):  # (of the same cases, and none of these is tried)
        words += ["--random", str(it.random), "--seed", str(it.seed), "--only", "a session begins"]
    else:
        words += ["--only", name]
    return f"{_called()} {shlex.join([*words, *(['--', *it.command] if it.command else [])])}"


def run() -> None:
    """Runs the command, and ends this process as it ended."""
    status = main()
    if status < 0:
        with contextlib.suppress(OSError, AttributeError, ValueError):
            sys.stderr.flush()
        end_by(-status)
        status = 128 - status
    sys.exit(status)
