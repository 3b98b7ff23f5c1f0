"""The judge: who broke the protocol, and in which message.

`python3 -m bullmyrtle.judge -- COMMAND` stands between a client and a server. `Talk` judges bytes that you have, and
`bullmyrtle.testing.judged` fails a test in which a side broke a rule.
"""
from ._judge import Finding, Judge
from ._lines import line_of, summary_of
from ._recording import Event, NoRecording, Recorder, Recording
from ._report import Report
from ._rules import LIFE, PROVED, RULES
from ._talk import Talk

__all__ = [
    "LIFE",
    "PROVED",
    "RULES",
    "Event",
    "Finding",
    "Judge",
    "NoRecording",
    "Recorder",
    "Recording",
    "Report",
    "Talk",
    "line_of",
    "summary_of",
]
