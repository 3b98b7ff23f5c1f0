"""The library, by the player of scripts in C, gives what the rows of checks/connection_rows have, which are worked out by
hand from docs/connection.md, and what a host without methods gives for the rows of the peer without methods; also where
each feed of frames and lines comes byte by byte, or is cut at any one place."""
import pytest

from support import connection_fuzzing as fuzzing
from support import connection_rows as rows
from support import connection_script as script
from support.c_programs import PLAYER, PLAYER_NEEDS, built_alone
from support.expecting import check, same
from support.naming import named

FEWEST = 60


@pytest.fixture(scope="session")
def program(tmp_path_factory: pytest.TempPathFactory) -> str:
    made = built_alone(PLAYER, str(tmp_path_factory.mktemp("player")), PLAYER_NEEDS)
    if made is None:
        pytest.skip("what needs a C compiler and the library")
    return made


def gives(program: str, row: rows.Row) -> None:
    """The player gives what the row has, a line for each action."""
    found = fuzzing.play_by_program(program, row.actions)
    why = fuzzing.difference(row.actions, row.gives, found)
    if why is None:
        same([], [])
        return
    at = next((at for at, it in enumerate(zip(row.gives, found)) if it[0] != it[1]), min(len(row.gives), len(found)))
    lines = [
        [f"{action.line[:300]} => {it[:600]}" for action, it in zip(row.actions[: at + 1], of)][-10:]
        for of in (found, row.gives)
    ]
    same(lines[0], lines[1], why)
    check(False, why)


@pytest.mark.parametrize("way", ("whole", "byte_by_byte", "cut_once"))
@pytest.mark.parametrize("row", named(rows.all_rows(), lambda it: it.name))
def test_row(program: str, row: rows.Row, way: str) -> None:
    gives(program, row if way == "whole" else getattr(row, way))


def test_there_are_rows() -> None:
    check(len(rows.rows_by_hand()) >= FEWEST, f"{len(rows.rows_by_hand())} rows")


def test_all_rows_one_behind_another(program: str) -> None:
    """Many sessions are one script, so that what one leaves behind would show."""
    found = rows.rows_by_hand()
    together = [action for row in found for action in row.actions]
    gives(program, rows.Row("all rows", tuple(together), tuple(it for row in found for it in row.gives)))


def test_content_of_5_MB(program: str) -> None:
    """In a line of 10 MB it comes whole, and goes out whole."""
    text = b'"' + b"x" * 5_000_000 + b'"'
    line = b'{"jsonrpc":"2.0","method":"m","params":[%s],"id":1}\n' % text
    answer = b'{"id":1,"jsonrpc":"2.0","result":%s}\n' % text
    said = [
        ("settings lines as-answered cancels 16777216 10", "ok"),
        (f"feed {script.hex_of(line)}", "ok"),
        ("next", f"call 1 6d 5b{script.hex_of(text)}5d 31"),
        (f"answer 1 {script.hex_of(text)}", "ok"),
        ("pending", f"pending {len(answer)}"),
        ("take 10000000", f"bytes {script.hex_of(answer)}"),
    ]
    actions = tuple(script.read("".join(f"{it}\n" for it, _ in said)))
    gives(program, rows.Row("a content of 5 MB", actions, tuple(it for _, it in said)))


# Many calls at once: more than any list inside has room for at first.

MANY, PASSING = 5_000, 20_000
# Steps that have no divisor in common with MANY, so that each number comes once.
STEPS = (1, 7, 1_663, 4_999)


def plays(program: str, lines: list[str]) -> None:
    """The player gives what the plain model does."""
    actions = script.read("".join(f"{it}\n" for it in lines))
    why = fuzzing.breaks(lambda given: fuzzing.play_by_program(program, given), actions)
    check(why is None, why or "")


def request(number: int, other: str = "") -> str:
    text = f'{{"jsonrpc":"2.0","method":"m","id":{number}{other}}}\n'
    return f"feed {script.hex_of(text.encode())}"


def settings(order: str, framing: str = "lines") -> str:
    return f"settings {framing} {order} cancels 16777216 1000000"


@pytest.mark.parametrize("order", ("as-answered", "as-came"))
@pytest.mark.parametrize("step", STEPS)
def test_many_requests_answered_in_another_order(program: str, order: str, step: int) -> None:
    """Of each id a third; each is answered once, and no cancel reaches one that is answered."""
    asked = [line for it in range(MANY) for line in (request(it % 3), "next")]
    answered = [line for it in range(MANY) for line in (f"answer {it * step % MANY + 1} 31", "pending")]
    cancel = b'{"jsonrpc":"2.0","method":"$/cancelRequest","params":{"id":1}}\n'
    ended = ["report", f"feed {script.hex_of(cancel)}", "next", "answer 1 31", "take 1000000000", "report"]
    plays(program, [settings(order), *asked, *answered, *ended])


def test_one_request_waits_while_many_pass(program: str) -> None:
    passing = [line for it in range(1, PASSING) for line in (request(it), "next", f"answer {it + 1} 31")]
    cancel = b'{"jsonrpc":"2.0","method":"$/cancelRequest","params":{"id":0}}\n'
    ended = [f"feed {script.hex_of(cancel)}", "next", "report", "answer 1 31", "take 1000000000"]
    plays(program, [settings("as-came"), request(0), "next", *passing, *ended])


def test_few_requests_wait_while_many_pass(program: str) -> None:
    """In the order in which they came, so that all behind one waits for it."""
    waiting = {it for it in range(1, MANY + 1) if it % 1_250 == 17}
    asked = [line for it in range(1, MANY + 1) for line in (request(it), "next")]
    answered = [f"answer {it} 31" for it in range(1, MANY + 1) if it not in waiting]
    last = [line for it in sorted(waiting) for line in (f"answer {it} 32", "pending", "report")]
    plays(program, [settings("as-came"), *asked, *answered, "pending", *last, "take 1000000000"])


@pytest.mark.parametrize("framing", ("frames", "lines", "contents"))
@pytest.mark.parametrize("room", (60, 300_000))
def test_long_texts_between_short_ones(program: str, framing: str, room: int) -> None:
    long = [f"notify 6e {script.hex_of(b'[' + digit * 100_000 + b']')}" for digit in (b"1", b"2")]
    takes = [line for _ in range(6) for line in (f"take {room}", "pending")]
    said = ["notify 61 -", *long, "notify 62 -", *takes, "take 1000000", "take 1000000", "take 1000000", "take 1000000"]
    plays(program, [settings("as-answered", framing), *said, "pending"])
