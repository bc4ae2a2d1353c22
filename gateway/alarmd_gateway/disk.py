"""Files as a record wants them: locked, written through to the disk, torn lines cut off."""

from __future__ import annotations

import contextlib
import errno
import fcntl
import os
import stat
from pathlib import Path
from typing import IO, Final

from .model import GatewayFault
from .texts import walk

BY: Final = "# by "
NO_HELP: Final = (
    errno.ENOENT,
    errno.ENOTDIR,
    errno.EISDIR,
    errno.EACCES,
    errno.EPERM,
    errno.EROFS,
    errno.ELOOP,
    errno.ENAMETOOLONG,
)
"""Faults of opening a record that another start doesn't help."""


def ordinary(path: Path) -> None:
    """Raises GatewayFault (status 2) where something else than an ordinary file has this name: a FIFO would be waited for."""
    with contextlib.suppress(OSError):  # whoever opens it says what is wrong
        if not stat.S_ISREG(os.stat(path).st_mode):
            raise GatewayFault(f"{path} is no record of a gateway: it is no ordinary file", 2)


def content(path: Path) -> bytes:
    """What an ordinary file has. Raises OSError, also where it is none: a FIFO would be waited for."""
    with open(path, "rb", opener=lambda name, flags: os.open(name, flags | os.O_NONBLOCK)) as file:
        if not stat.S_ISREG(os.fstat(file.fileno()).st_mode):
            raise OSError(errno.EINVAL, "it is no ordinary file", str(path))
        return file.read()


def locked(path: Path) -> IO[bytes]:
    """The file of this name, locked."""
    ordinary(path)
    while True:
        file = open(path, "a+b", buffering=0)
        try:
            fcntl.flock(file, fcntl.LOCK_EX | fcntl.LOCK_NB)
            if os.path.samestat(os.fstat(file.fileno()), os.stat(path)):
                return file
        except BlockingIOError:
            file.close()
            raise GatewayFault(f"another gateway has the record {path}", 2) from None
        except OSError:
            file.close()
            raise
        file.close()  # a new record has taken the name meanwhile


def astray(file: IO[bytes], path: Path) -> str | None:
    """What is wrong where an open record isn't the file of its name any more."""
    with contextlib.suppress(OSError):
        if os.path.samestat(os.fstat(file.fileno()), os.stat(path)):
            return None
    return f"{path} isn't the record any more, which was moved or deleted: a start wouldn't find what is taken from now on"


def write(file: IO[bytes], data: bytes) -> None:
    """All of it, on the disk."""
    left = memoryview(data)
    while left:
        left = left[file.write(left) :]
    os.fsync(file.fileno())


def sync_folder(path: Path) -> None:
    """The names of the folder are on the disk too."""
    folder = os.open(path.parent, os.O_RDONLY | os.O_DIRECTORY)
    try:
        os.fsync(folder)
    finally:
        os.close(folder)


def cut(path: Path, file: IO[bytes]) -> None:
    """Cuts off a last line without its end, or without all of the texts that it tells of, which was never sent; and a remark whose
    order was never written. Where a line ends can't be told from the end alone: the record is gone through from its beginning.
    """
    size = file.seek(0, os.SEEK_END)
    whole = keep = 0
    with open(path, "rb", buffering=1 << 20) as reading:
        for head, texts in walk(reading):
            whole += len(head) + 1 + len(texts)
            if not head.startswith(BY.encode()):
                keep = whole
    if keep < size:
        file.truncate(keep)
        os.fsync(file.fileno())


def archive(path: Path) -> Path:
    """The old record's further name, the next that is free; one that an earlier attempt gave it is taken again."""
    number = 1
    while True:
        kept = path.with_name(f"{path.name}.{number}")
        if not kept.exists():
            os.link(path, kept)
            return kept
        if kept.samefile(path):
            return kept
        number += 1
