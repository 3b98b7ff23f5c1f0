"""What is logged stays in its line, whatever the names are that came from outside."""
from __future__ import annotations

from ._hints import TYPE_CHECKING

if TYPE_CHECKING:
    import logging
    from typing import Any, Optional

# How much of a text goes into a line.
_MOST = 1000


def shown(text: str, most: int = _MOST) -> str:
    """A text in one line: what can't be printed is escaped, and what is too long is cut."""
    if len(text) > most:
        text = text[:most] + ".."
    return text if text.isprintable() else "".join(it if it.isprintable() else repr(it)[1:-1] for it in text)


def _in_one_line(record: logging.LogRecord) -> bool:
    """A filter that shows the texts of a record."""
    given: Any = record.args
    if isinstance(given, tuple):
        record.args = tuple(shown(it) if isinstance(it, str) else it for it in given)
    return True


class _Log:
    """The logger of the package, which is made as something is logged: to import its module takes long."""

    def __getattr__(self, name: str) -> Any:
        import logging

        logger = logging.getLogger("bullmyrtle")
        logger.addFilter(_in_one_line)  # (one that it has isn't added again)
        return getattr(logger, name)


if TYPE_CHECKING:
    log: logging.Logger
else:
    log = _Log()


def log_surely(words: str, *named: str, fault: Optional[BaseException]) -> None:
    """Logs an error, whatever a handler of the log does."""
    try:
        log.error(words, *named, exc_info=fault)
    except (KeyboardInterrupt, SystemExit):
        raise
    except BaseException:
        pass
