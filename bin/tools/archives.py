"""Archives that are the same byte for byte wherever and whenever they are made: their files stand in the order that is given, with one date,
one owner and the modes that are given."""
import gzip
import io
import tarfile
from typing import Iterable, NamedTuple, Sequence

# The date of each file: 1 January 1980, as the wheel has it.
DATE = 315_532_800


class File(NamedTuple):
    """A file of an archive, or a link to another."""

    name: str
    data: bytes = b""
    mode: int = 0o644
    link: str = ""


def folders_of(files: Iterable[File]) -> list[str]:
    """The folders that the files stand in, each before what it holds."""
    found: dict[str, None] = {}
    for it in files:
        parts = it.name.split("/")[:-1]
        for end in range(1, len(parts) + 1):
            found["/".join(parts[:end])] = None
    return [it for it in found if it not in ("", ".")]


def tar(files: Sequence[File], has_folders: bool = False) -> bytes:
    """A tar archive; with its folders where what unpacks it needs them."""
    room = io.BytesIO()
    with tarfile.open(fileobj=room, mode="w", format=tarfile.GNU_FORMAT) as archive:
        for name in folders_of(files) if has_folders else []:
            archive.addfile(about_tar(tarfile.DIRTYPE, name, 0o755))
        for it in files:
            about = about_tar(tarfile.SYMTYPE if it.link else tarfile.REGTYPE, it.name, 0o777 if it.link else it.mode)
            about.size, about.linkname = len(it.data), it.link
            archive.addfile(about, io.BytesIO(it.data))
    return room.getvalue()


def about_tar(kind: bytes, name: str, mode: int) -> tarfile.TarInfo:
    about = tarfile.TarInfo(name)
    about.type, about.mode, about.mtime, about.uname, about.gname = kind, mode, DATE, "root", "root"
    return about


def packed(data: bytes) -> bytes:
    """The data as gzip has it, without a name and a date."""
    return gzip.compress(data, 9, mtime=0)


def tar_gz(files: Sequence[File]) -> bytes:
    return packed(tar(files))


def ar(files: Iterable[File]) -> bytes:
    """An archive of files in the common form of `ar`, as a Debian package is one."""
    told = [b"!<arch>\n"]
    for it in files:
        told.append(b"%-16s%-12d%-6d%-6d%-8o%-10d`\n" % (it.name.encode(), DATE, 0, 0, 0o100644, len(it.data)))
        told.append(it.data + b"\n" * (len(it.data) % 2))
    return b"".join(told)
