"""What comes and goes through a connection, by the rows of checks/connection_rows: whole, byte by byte, and cut once."""
import os
import sys

from helping import TOP, Case, rows

CHECKS = os.path.join(TOP, "checks")


def plays():
    """Each row in each way, by its name. (What reads them is of the checks, which need a later Python.)"""
    if sys.version_info < (3, 10) or not os.path.isdir(CHECKS):
        return
    sys.path.append(CHECKS)
    from support import connection_rows

    for row in connection_rows.all_rows():
        for way in ("whole", "byte by byte", "cut once"):
            yield f"{row.name} {way}", row if way == "whole" else getattr(row, way.replace(" ", "_"))


class Rows(Case):
    @rows(plays())
    def test_row(self, name, row):
        from support import connection_fuzzing
        from support.package_connection import PackageConnection

        found = connection_fuzzing.play_by_model(PackageConnection, row.actions)
        self.assertIsNone(connection_fuzzing.difference(row.actions, [*row.gives], found), name)
