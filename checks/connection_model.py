"""The plain model of a connection gives what the rows of checks/connection_rows have, which are worked out by hand from
docs/connection.md; also where each feed of frames and lines comes byte by byte, or is cut at any one place. With a host
that has no methods it writes what the peer without methods does. It plays the pictures of that page. And scripts are
read and written as connection_script.py says."""
from support import connection_fuzzing as fuzzing
from support import connection_pictures as pictures
from support import connection_rows as rows
from support import connection_script as script
from support import ran

FEWEST = 40


def check_row(row: rows.Row) -> None:
    why = fuzzing.difference(row.actions, row.gives, list(script.ran(row.actions)))
    count.check(row.name, why is None, why or "")


def check_scripts(found: list[rows.Row]) -> None:
    actions = [it for row in found for it in row.actions]
    count.check("what is written is read again", script.read(script.written(actions)) == actions)
    kinds = {*script.FORMS, "batch"}
    count.check(
        "the rows have each action", {it.name for it in actions} == kinds, f"{kinds - {it.name for it in actions}}"
    )
    for line in rows.UNREADABLE:
        try:
            script.action_of(line)
            count.check(f"refused: {line!r}", False)
        except ValueError:
            count.check(f"refused: {line!r}", True)
    try:
        list(script.ran([script.Action("next")]))
        count.check("refused: an action before the settings", False)
    except ValueError:
        count.check("refused: an action before the settings", True)


count = ran.Count()
found = rows.rows_by_hand()
count.check(f"there are {FEWEST} rows at least", len(found) >= FEWEST, f"{len(found)}")
count.check("each row has a name of its own", len({it.name for it in found}) == len(found))
for row in rows.all_rows():
    check_row(row)
    check_row(row.byte_by_byte)
    check_row(row.cut_once)
for row in pictures.pictures(count):
    check_row(row)
check_scripts(found)
count.end()
