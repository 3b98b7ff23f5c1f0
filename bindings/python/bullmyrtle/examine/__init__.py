"""The examiner: what a server or a client gets wrong, case by case.

`python3 -m bullmyrtle.examine -- COMMAND` examines a server, and `bullmyrtle.testing.examined` makes a test of each case.
"""
from ._cases import Case
from ._reading import BadCase, read_all
from ._tested import Wrong, examined
from ._verdicts import Verdict

__all__ = ["BadCase", "Case", "Verdict", "Wrong", "examined", "read_all"]
