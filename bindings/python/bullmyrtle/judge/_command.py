"""The command `python3 -m bullmyrtle.judge`."""
from __future__ import annotations

import argparse
import contextlib
import functools
import os
import sys
from typing import List, Optional, Sequence

from .._log import shown
from .._system import cant_drive
from ..errors import LibraryError
from ._judging import Judging, Recorded
from ._recording import NoRecording, Recorder, Recording
from ._report import Report
from ._signals import end_by
from ._sinks import Speaker, Waiting
from ._taking import BROKEN as HAS_BROKEN, PARTLY
from ._talk import Talk
from ._versions import NAMES

#: What it ends with: a rule of the level must was broken (--strict), it was called wrong or can't begin, no rule was
#: broken in what was judged, which isn't all (--strict), the server can't be run, or there is no such server.
BROKEN, WRONG, PARTLY_JUDGED, NOT_RUN, NOT_FOUND = 1, 2, 3, 126, 127
_NAME = "python3 -m bullmyrtle.judge"
# The longest time that is counted: a day.
_MOST_SECONDS = 86_400

_ABOUT = """\
Says who broke the protocol: it starts a server, stands between it and its client, passes each byte on as it is, and
tells on standard error each message that breaks a rule of JSON-RPC 2.0, of the Language Server Protocol (LSP) or of the
Model Context Protocol (MCP). In your editor's or host's settings, write it before the command of your server."""

_MORE = """\
examples:
  %(prog)s -- pylsp
  %(prog)s --rules mcp --report talk.html -- ./my_tool_server
  %(prog)s --record talk.record -- clangd --background-index
  %(prog)s --replay talk.record --report talk.html

what is said, on standard error:
  judge: must: server, message 3 at byte 210: not-owed (JSON-RPC 4.1, 5): an answer to what nobody asked, ..
  how bad it is (must, should or note), who broke the rule, in which message of its own (its index, and where it
  begins in all that it wrote), the rule, where that stands, and what the message begins with. At the end, a summary.
  docs/judge.md has all rules.

status:
  the server's own; where a signal ended the server, this ends by the same one. With --replay, 0.
  1    with --strict, where there is a finding of the level must
  2    the command line, the library, a file or the recording is wrong, and nothing was started
  3    with --strict, where there is no such finding, but not everything was judged
  126  the server can't be run; 127  there is no such command"""


def _seconds(word: str) -> float:
    """A time of the command line."""
    with contextlib.suppress(ValueError):
        seconds = float(word)
        if 0 < seconds <= _MOST_SECONDS:  # (what isn't a number is neither)
            return seconds
    raise argparse.ArgumentTypeError(
        f"{shown(word)} isn't a number of seconds from above 0 to {_MOST_SECONDS:,}"
    )


def _parser() -> argparse.ArgumentParser:
    parser = argparse.ArgumentParser(
        prog=_NAME,
        usage="%(prog)s [OPTION ..] -- COMMAND [WORD ..]\n       %(prog)s [OPTION ..] --replay FILE",
        description=_ABOUT,
        epilog=_MORE,
        formatter_class=argparse.RawDescriptionHelpFormatter,
        allow_abbrev=False,
    )
    add = parser.add_argument
    add(
        "--rules",
        choices=NAMES,
        metavar="NAME",
        help=f"whose rules (lsp, or those of the recording): {', '.join(NAMES)}",
    )
    ways = parser.add_mutually_exclusive_group()
    for name, what in (
        ("frames", "each message has a head with its Content-Length, as in LSP"),
        ("lines", "each message is a line, as in MCP"),
        ("contents", "with --replay: each line of the recording is a message"),
    ):
        ways.add_argument(f"--{name}", dest="framing", action="store_const", const=name, help=what)
    add(
        "--without",
        action="append",
        choices=["shape"],
        default=[],
        help="what isn't judged: shape, the types of params and results",
    )
    add(
        "--slow",
        type=_seconds,
        metavar="SECONDS",
        help="say of each request that it is open for so long, while it is",
    )
    add("--record", metavar="FILE", help="write all that both sides write to a file, as text, with its times")
    add("--replay", metavar="FILE", help="judge a recording again, in place of a server")
    add("--report", metavar="FILE", help="write the conversation as a page of HTML, when it is over")
    add(
        "--strict",
        action="store_true",
        help="end with the status 1 where there is a finding of the level must",
    )
    add("command", nargs=argparse.REMAINDER, help=argparse.SUPPRESS)
    return parser


def main(words: Optional[Sequence[str]] = None) -> int:
    """Runs the command, and gives its status; below 0, by which signal it is to end."""
    parser = _parser()
    it = parser.parse_args(sys.argv[1:] if words is None else list(words))
    command: List[str] = it.command[1:] if it.command[:1] == ["--"] else it.command
    if (it.replay is None) == (not command):
        parser.error("there is a server's command, behind --, or --replay with a recording: one of the two")
    if it.replay is None and it.framing == "contents":
        parser.error("--contents is for recordings: a server's stream has frames or lines")
    return _replay(it) if it.replay is not None else _drive(it, command)


class _Wrong(Exception):
    """It can't begin, and why."""


def _say(line: str) -> None:
    speaker = Speaker(2)
    speaker.say(line)
    speaker.finish()


def _made_talk(rules: str, framing: str, without: Sequence[str]) -> Talk:
    try:
        return Talk(rules, framing, shapes="shape" not in without)
    except LibraryError as fault:
        raise _Wrong(str(fault)) from None


def _made_report(file: Optional[str], title: str) -> Optional[Report]:
    try:
        return None if file is None else Report(file, title)
    except OSError as fault:
        raise _Wrong(f"the report can't be written: {fault}") from None


def _made_recorder(file: Optional[str], rules: str, framing: str) -> Optional[Recorder]:
    try:
        return None if file is None else Recorder(file, rules, framing)
    except OSError as fault:
        raise _Wrong(f"the recording can't be written: {fault}") from None


# A recording


def _replay(it: argparse.Namespace) -> int:
    try:
        with open(it.replay, "rb") as file:
            recording = Recording(file)
            rules = it.rules or recording.rules
            talk = _made_talk(rules, it.framing or recording.framing, it.without)
            recorder = _made_recorder(it.record, rules, it.framing or recording.framing)
            judging = Judging(talk, Waiting(2), _made_report(it.report, os.path.basename(it.replay)), it.slow)
            recorded = None if recorder is None else Recorded(recorder, Waiting(2))
            for event in recording:
                if recorded is not None:
                    recorded.take(event)
                judging.take(event)
            judging.finish()
            return _status(it.strict, judging.has_broken, judging.has_failed, 0)
    except OSError as fault:
        _say(f"the recording can't be read: {fault}")
    except NoRecording as fault:
        _say(f"{shown(it.replay)} is no recording: {fault}")
    except _Wrong as fault:
        _say(str(fault))
    except KeyboardInterrupt:
        return -2
    return WRONG


# A server


def _drive(it: argparse.Namespace, command: List[str]) -> int:
    why = cant_drive("the judge's driver")
    if why:
        _say(f"{why}. --replay judges recordings")
        return WRONG
    from ._apart import Processes  # (here, since there are systems that can't load them)
    from ._driver import Driver, own_streams

    rules = it.rules or "lsp"
    framing = it.framing or ("lines" if rules.startswith("mcp") else "frames")
    try:
        talk = _made_talk(rules, framing, it.without)
        report = _made_report(it.report, " ".join(command))
        recorder = _made_recorder(it.record, rules, framing)
    except _Wrong as fault:
        _say(str(fault))
        return WRONG
    source, sink = own_streams()
    speaker = Speaker(2)
    seen = Processes(speaker.say)
    try:
        if recorder is not None:
            record = functools.partial(Recorded, recorder)
            seen.start("records", lambda: record(Speaker(2)), (source, sink))
            recorder.close()
        seen.start("judges", lambda: Judging(talk, Speaker(2), report, it.slow), (source, sink))
        driver = Driver(command, seen, speaker)
    except (OSError, ValueError) as fault:
        seen.finish()
        speaker.say(f"the server can't be started: {shown(str(fault))}")
        speaker.finish()
        return NOT_FOUND if isinstance(fault, FileNotFoundError) else NOT_RUN
    seen.begin()
    status = driver.run(source, sink)
    found = seen.finish(lambda: driver.is_interrupted)
    speaker.finish()
    driver.end()
    return _status(it.strict, bool(found & HAS_BROKEN), bool(found & PARTLY), status)


def _status(is_strict: bool, has_broken: bool, is_partly: bool, status: int) -> int:
    """What this ends with where all is well, or by the option --strict."""
    if not is_strict or not (has_broken or is_partly):
        return status
    return BROKEN if has_broken else PARTLY_JUDGED


def run() -> None:
    """Runs the command, and ends this process as it ended."""
    status = main()
    if status < 0:
        with contextlib.suppress(OSError, AttributeError, ValueError):
            sys.stderr.flush()
        end_by(-status)
        status = 128 - status  # (where the signal doesn't end a process)
    sys.exit(status)
