"""Refuses each request for memory in turn, one alone and then all from it on, until a run meets no refusal: what is
written is then the row's bytes, or a prefix of them with `failed: Memory`; where the table found none, nothing is
written. So it is for `play`, for `serve`, for `check` and for `judge`; and tests that the gate built, run so, pass or
name want of memory, and nothing else. `--program FILE PART..` runs these parts of it with a program that has such a
malloc in it. Why by a script:
docs/decisions/tests_and_releases.md#refused-memory-and-devices-that-fail."""
import sys
from collections.abc import Callable

from support import ran
from support import refusals
from support import rows

# (the test runner's and the program's own requests are few hundreds; a run of them that doesn't end is a fault)
MOST = 20_000
WAYS = ("REFUSE_NTH", "REFUSE_FROM")
NO_MEMORY = b"failed: Memory\n"
NO_TABLE = b"table: Memory, method 0, step 0\n"

# Tests that go on after a refusal, and so pass whichever request is refused: a decoder that is fed a piece again, a
# reader that is asked for a content again, and a session that takes a content and writes what is due again, give the
# row's; a sink whose growth is refused fails as a device and keeps what it had.
GO_ON = (
    "a_piece_is_taken_again_after_memory",
    "a_content_is_read_again_after_memory",
    "a_refused_growth_is_a_failure_of_the_sink",
    "contents_are_taken_and_written_again_after_memory",
)
# Tests that end at a refusal: of templates, of the desk, of handlers and rehearsals, and of job slots.
END = (
    "templates_are_filled_and_missing_places_are_told_by_their_register",
    "first_reply_is_kept_and_answers_wait_for_earlier_units",
    "a_poll_waits_until_its_reply_is_heard",
    "rehearsals_are_run_by_block_on",
    "another_future_polls_an_awaiting_handler",
    "a_job_comes_home_turned_once_and_its_slot_is_filled_again",
)
# How such a test names want of memory. (That a table is refused for nothing else is seen by `check`.)
NAMED = (
    "AllocError",
    "AllocFailed { .. }",
    "Refused",
    "Kind(OutOfMemory)",
    "Error(out of memory)",
    '"a poll found no memory"',
    '"no table"',
    '"a table"',
)
NAMING = [f"error: {it}\nthe test failed: its result gives status 1\n".encode() for it in NAMED]
FAILED = 101


class Refused:
    """Runs that meet refusals, and what they are compared by."""

    def __init__(self, count: ran.Count):
        self.count, self.refusing = count, refusals.Refusals()

    def each(
        self,
        name: str,
        words: list[str],
        given: bytes,
        is_well: Callable[[int, bytes, bytes, bool], bool],
        ways: tuple[str, ...] = WAYS,
    ) -> None:
        """Runs a program until no request is refused, and looks at each run's status, its two outputs, and whether it
        met a refusal."""
        for how in ways:
            for number in range(1, MOST):
                status, wrote, said, was_refused = self.refusing.run(words, given, how, number)
                well = is_well(status, wrote, said, was_refused)
                self.count.check(f"{name}, {how} {number}", well, f"status {status}, {wrote[-300:]!r}, {said[-300:]!r}")
                if not was_refused or not well:
                    break
            else:
                self.count.check(f"{name}, {how}", False, "no run met no refusal")

    def peer(self, name: str, words: list[str], given: bytes, outputs: list[bytes], end: str = "") -> None:
        """The program writes one of these outputs, or a front of one where memory is refused."""
        whole = rows.ended(end)

        def is_well(status: int, wrote: bytes, said: bytes, was_refused: bool) -> bool:
            if (status, said) == whole and wrote in outputs:
                return True
            is_front = (status, said) == (1, NO_MEMORY) and any(it.startswith(wrote) for it in outputs)
            return was_refused and (is_front or "--table" in words and (status, wrote, said) == (2, b"", NO_TABLE))

        self.each(name, [ran.BUILT, *words], given, is_well)

    def test(self, name: str, is_well: Callable[[int, bytes, bytes, bool], bool], ways: tuple[str, ...]) -> None:
        """A test that the gate built."""
        test = self.count.built(f"the test {name}", ran.test_named(name))
        if test:
            self.each(name, list(test), b"", is_well, ways)


def played(refused: Refused) -> None:
    """Rows, and the methods of a table, by `play`."""
    for name, stream, written, end in rows.ROWS:
        refused.peer(name, ["play"], stream, [written], end)
    lines = (rows.REQUEST + "\n[1,2,3]\n").encode()
    answers = f"{rows.NOT_FOUND}\n[{rows.INVALID},{rows.INVALID},{rows.INVALID}]\n".encode()
    refused.peer("two lines", ["play", "--lines"], lines, [answers])
    for name, table, ways, given, output in rows.PLAYS:
        for way in ways:
            words = ["play", "--table", rows.file_of(table), *way]
            refused.peer(f"{name}, {way}", words, rows.frames(*given), [rows.frames(*output)])


def checked(refused: Refused) -> None:
    """Tables by `check`."""
    for table, count in ((rows.METHODS, 6), (rows.OPENING, 0), (rows.EACH, 1)):
        refused.peer(
            f"a table of {count} methods", ["check", "--table", rows.file_of(table)], b"", [b"ok: %d methods\n" % count]
        )


RECORDING = """\
judge 1 jsonrpc lines
> 7b226a736f6e727063223a22322e30222c226964223a372c226d6574686f64223a2261227d0a
< 7b226a736f6e727063223a22322e30222c226964223a2237222c22726573756c74223a317d0a
< closed
"""
FOUND = b"""\
must: server, message 1 at byte 0: not-owed (JSON-RPC 4.1, 5)
must: server, client's message 1 at byte 0: unanswered (JSON-RPC 5; LSP, Cancellation Support)
found: 2 must, 0 should, 0 note
"""


def judged(refused: Refused) -> None:
    """A recording. A finding is written whole, or not at all."""
    fronts = [b"".join(FOUND.splitlines(keepends=True)[:it]) for it in range(4)]

    def is_well(status: int, wrote: bytes, said: bytes, was_refused: bool) -> bool:
        if (status, wrote, said) == (1, FOUND, b"judged: 2 must\n"):
            return True
        return was_refused and (status, said) == (1, NO_MEMORY) and wrote in fronts

    refused.each("a recording", [ran.BUILT, "judge"], RECORDING.encode(), is_well)


PICTURE = b"""\
ok: 0 methods

  |                                     |  opening
  |<- hello ----------------------------|  1 call to r
  |-- reply --------------------------->|
  |<- ready ----------------------------|  2 notify
"""


def drawn(refused: Refused) -> None:
    """A picture is written whole or not at all, and what found no memory is the table's."""
    file = rows.file_of(rows.OPENING)
    missing = f"  file: {file}\n  missing: memory for the table\n".encode()

    def is_well(status: int, wrote: bytes, said: bytes, was_refused: bool) -> bool:
        if (status, wrote, said) == (0, PICTURE, b""):
            return True
        # (before the words are read nothing is explained)
        told = ((1, NO_MEMORY), (1, NO_MEMORY + missing), (2, NO_TABLE + missing))
        return was_refused and wrote == b"" and (status, said) in told

    refused.each("a picture", [ran.BUILT, "check", "--table", file, "--explain"], b"", is_well)


def served(refused: Refused) -> None:
    """Rows by `serve` with two workers. A cancel may find its handler parked, out or not turned yet."""
    asked, cancelled = [rows.called("1.1"), rows.answered("true")], [
        rows.called("1.1"),
        rows.withdrawn("1.1"),
        rows.CANCELLED,
    ]
    two = [rows.TWO_CALLS, rows.answered('["A","B"]', 1)]
    streams: list[tuple[str, str | None, list[str], list[list[str]]]] = [
        ("a call and its reply", rows.METHODS, [rows.ask(), rows.replied("1.1")], [asked]),
        (
            "a cancel",
            rows.METHODS,
            [rows.ask(), rows.cancel(), rows.replied("1.1")],
            [cancelled, [cancelled[0], cancelled[2]], [cancelled[2]]],
        ),
        (
            "two calls",
            rows.METHODS,
            [
                '{"jsonrpc":"2.0","method":"two","id":1}',
                rows.batch(rows.replied("1.2", '"B"'), rows.replied("1.1", '"A"')),
            ],
            [two],
        ),
        ("an opening", rows.OPENING, [], [[rows.HELLO]]),
        ("an unknown method", None, [rows.REQUEST], [[rows.NOT_FOUND]]),
    ]
    for name, table, given, outputs in streams:
        words = ["serve", "--workers", "2", *(["--table", rows.file_of(table)] if table else [])]
        refused.peer(f"{name}, served", words, rows.frames(*given), [rows.frames(*it) for it in outputs])


def explained(refused: Refused) -> None:
    """With `--explain` the first line is one that stands alone without it. Lines that found no memory are left out
    after it; where memory ran out before, what was missing is told, if the words were read."""
    broken = rows.file_of(rows.METHODS + '[[method.step]]\nkind = "nosuch"\n')
    named = ["  method: note", "  kind: nosuch", "  field: kind", "  cause: this version has no such kind of step"]
    refused_table = ["table: Step, method 6, step 2", f"  file: {broken}", *named]
    at_fault = ["input ended: BadHead", "  frame: from byte 63", "  fault: at byte 65"]
    no_word = [
        "error: unexpected argument '--no\\u{1b}such' found",
        "",
        "Usage: rpc_tool play [OPTIONS]",
        "",
        "For more information, try '--help'.",
    ]
    cut, answer = rows.frames(rows.REQUEST) + b"x\r\n", rows.frames(rows.NOT_FOUND)
    for words, given, whole in (
        (["check", "--table", broken, "--explain"], b"", (2, b"", refused_table)),
        (["play", "--explain"], cut, (1, answer, at_fault)),
        (["serve", "--explain", "--workers", "2"], cut, (1, answer, at_fault)),
        (["play", "--no\x1bsuch"], b"", (2, b"", no_word)),
    ):

        def is_well(
            status: int, wrote: bytes, said: bytes, was_refused: bool, whole: tuple[int, bytes, list[str]] = whole
        ) -> bool:
            first, *added = said.decode().splitlines()
            if (status, wrote, first) == (*whole[:2], whole[2][0]):
                return added == whole[2][1:] or was_refused and all(it in whole[2] for it in added)
            is_missing = (status, f"{first}\n".encode()) in ((1, NO_MEMORY), (2, NO_TABLE))
            return (
                was_refused
                and is_missing
                and whole[1].startswith(wrote)
                and (not added or added[-1].startswith("  missing: memory"))
            )

        refused.each(f"{words}", [ran.BUILT, *words], given, is_well)


def check_all(count: ran.Count) -> None:
    if ran.lacks("cc", refusals.WHY):
        return
    refused = Refused(count)
    parts, named = (played, checked, judged, drawn, served, explained), sys.argv[3:]
    for it in parts:
        if not named or it.__name__ in named:
            it(refused)
    if named:
        return
    for name in GO_ON:
        refused.test(name, lambda status, *_: status == 0, WAYS[:1])
    for name in END:
        refused.test(
            name,
            lambda status, _, said, was_refused: status == 0 or was_refused and status == FAILED and said in NAMING,
            WAYS,
        )


ran.script(check_all)
