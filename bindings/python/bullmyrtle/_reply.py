"""The reply to an outgoing request, as it is awaited."""
from __future__ import annotations

import asyncio
from typing import TYPE_CHECKING, Any

if TYPE_CHECKING:
    from ._outgoing import Outgoing


class Reply(asyncio.Future):  # type: ignore[type-arg]
    """The reply to an outgoing request. If it is cancelled, the other side is told that it isn't wanted any more.

    Its key is 0 as long as the call waits for what is just being read.
    """

    def __init__(self, outgoing: Outgoing, key: int, method: str) -> None:
        super().__init__(loop=outgoing.transport.loop)
        self._outgoing = outgoing
        self.key = key
        self.method = method

    def cancel(self, *words: Any, **named: Any) -> bool:
        is_cancelled = super().cancel(*words, **named)
        if is_cancelled:
            self._outgoing.withdraw(self)
        return is_cancelled
