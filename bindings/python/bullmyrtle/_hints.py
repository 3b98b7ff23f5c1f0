"""What this package needs of the module `typing` as it runs.

To import that takes longer than to import all that a server needs. So it is imported for type checkers only, and where
a method's annotation is one of its own.
"""
from __future__ import annotations

TYPE_CHECKING = False

if TYPE_CHECKING:
    from typing import NamedTuple as NamedTuple
else:
    from collections import namedtuple

    class _Named(type):
        """Makes of a class with annotations a named tuple, as typing.NamedTuple does."""

        def __new__(kind, name, bases, body):
            if not bases:
                return super().__new__(kind, name, bases, body)
            fields = body["__annotations__"]
            given = [body.pop(it) for it in list(fields) if it in body]
            made = namedtuple(name, fields, defaults=given, module=body["__module__"])
            for it, value in body.items():
                if it not in ("__module__", "__dict__", "__weakref__"):
                    setattr(made, it, value)
            return made

    class NamedTuple(metaclass=_Named):
        pass

    def overload(function):
        return function
