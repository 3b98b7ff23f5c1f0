"""A connection of the Python package in the place of the plain model, so that it is given the same scripts and rows
(connection_script.py). Python's package alone is needed: no compiler and no kit."""
import os
import sys
from typing import Any, Optional

from support import ran
from support.connection_model import Model, Refused, Settings
from support import connection_model as model

sys.path.insert(0, os.path.join(ran.TOP, "bindings", "python"))

from bullmyrtle import Connection, errors, events  # type: ignore[import]  # noqa: E402 (it stands in bindings/)

WHY = {
    errors.NotOpen: "not_open",
    errors.NotWaiting: "not_waiting",
    errors.NotText: "not_text",
    errors.NotJson: "not_json",
    errors.InputOver: "over",
    errors.Empty: "empty",
    errors.Full: "full",
    errors.BadSettings: "settings",
}


def text(data: Optional[bytes]) -> Optional[str]:
    return None if data is None else data.decode()


def event_of(event: "events.Event") -> model.Event:
    """An event of the package as the model has it."""
    if isinstance(event, events.Call):
        return model.Call(event.number, event.method, text(event.params), text(event.id))
    if isinstance(event, events.Cancelled):
        return model.Cancelled(event.number)
    if isinstance(event, events.Replied):
        return model.Replied(event.key, event.result.decode())
    if isinstance(event, events.Failed):
        return model.Failed(event.key, event.code, event.message, text(event.data))
    if isinstance(event, events.Unanswered):
        return model.Unanswered(event.key)
    if isinstance(event, events.Broken):
        return model.Broken(event.offset, event.first, event.entry, event.entries)
    return model.Over(event.how)


class PackageConnection(Model):
    """The model's calls, each handed to the package's connection."""

    def __init__(self, settings: Settings) -> None:  # pylint: disable=super-init-not-called
        try:
            self.one = Connection(
                settings.framing,
                settings.order,
                settings.cancels,
                settings.content,
                settings.calls,
                settings.tells_broken,
                settings.entries,
                settings.null_params,
            )
        except ValueError as fault:  # (the package looks at its settings before the library does)
            raise Refused("settings") from fault

    def refusing(self, name: str, *given: object) -> Any:
        try:
            return getattr(self.one, name)(*given)
        except errors.Refused as fault:
            raise Refused(WHY[type(fault)]) from fault

    def feed(self, piece: bytes) -> None:
        self.refusing("feed", piece)

    def end(self, how: str) -> None:
        self.refusing("end", how == "failed")

    def next(self) -> Optional[model.Event]:
        event = self.one.next_event()
        return None if event is None else event_of(event)

    def call(self, number: int, method: bytes, params: Optional[bytes]) -> int:
        return int(self.refusing("call", number, method, params))

    def batch(self, number: int, calls: list[tuple[bytes, Optional[bytes]]]) -> int:
        return int(self.refusing("call_batch", number, calls))

    def notify(self, method: bytes, params: Optional[bytes]) -> None:
        self.refusing("notify", method, params)

    def withdraw(self, key: int) -> None:
        self.refusing("withdraw", key)

    def answer(self, number: int, result: Optional[bytes]) -> None:
        self.refusing("answer", number, result)

    def fail(self, number: int, code: int, message: bytes, data: Optional[bytes]) -> None:
        self.refusing("fail", number, code, message, data)

    def cancel(self, number: int) -> None:
        self.refusing("cancel", number)

    def pending(self) -> int:
        return int(self.one.pending)

    def take(self, room: int) -> bytes:
        return bytes(self.one.take(room))

    def is_done(self) -> bool:
        return bool(self.one.is_done)

    def fault_place(self) -> Optional[int]:
        place: Optional[int] = self.one.fault_offset
        return place

    def report(self) -> model.Report:
        return model.Report(*self.one.counts())
