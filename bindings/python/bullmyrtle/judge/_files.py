"""Files in which a conversation is kept."""
from __future__ import annotations

import errno
import os
from typing import Union

Name = Union[str, "os.PathLike[str]"]

# Links by which a process names what it has open.
_OWN = ("/dev/std", "/dev/fd/")


def made_file(file: Name) -> int:
    """A descriptor of a file that is written anew. Raises OSError.

    Both sides' messages are in it, and so what the user writes and keeps secret: nobody else may read it. And where
    others may write to its folder, as to /tmp, it isn't written through a link of theirs.
    """
    follows = 0 if os.fspath(file).startswith(_OWN) else os.O_NOFOLLOW
    try:
        return os.open(file, os.O_WRONLY | os.O_CREAT | os.O_TRUNC | os.O_CLOEXEC | follows, 0o600)
    except OSError as fault:
        if fault.errno == errno.ELOOP:
            raise OSError(
                fault.errno, "it is a symbolic link: name the file itself", os.fspath(file)
            ) from None
        raise
