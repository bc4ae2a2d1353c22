"""Lines of standard input by a thread of its own, which waits until each has been taken."""

from __future__ import annotations

import asyncio
import contextlib
import os
import select
import threading
import time
from collections.abc import AsyncIterator
from typing import Final

MOST: Final = 1_048_576
"""Bytes of a line. A longer one comes as None."""

_CHUNK: Final = 65_536
_BACKGROUND_SECONDS: Final = 0.5


class Lines:
    """Cuts what comes into lines. A last line without LF counts too; a CR before an LF is dropped."""

    def __init__(self) -> None:
        self._rest = bytearray()
        self._too_long = False

    def feed(self, data: bytes) -> list[str | None]:
        """The lines that end in what came."""
        *ended, rest = data.split(b"\n")
        lines: list[str | None] = []
        for piece in ended:
            self._add(piece)
            lines.append(self._line())
        self._add(rest)
        return lines

    def end(self) -> list[str | None]:
        """The last line, where it had no end."""
        return [self._line()] if self._rest or self._too_long else []

    def _add(self, piece: bytes) -> None:
        if len(self._rest) + len(piece) > MOST:
            self._too_long = True
            self._rest.clear()
        elif not self._too_long:
            self._rest += piece

    def _line(self) -> str | None:
        line = None if self._too_long else self._rest.removesuffix(b"\r").decode("utf-8", "replace")
        self._rest.clear()
        self._too_long = False
        return line


def _read(descriptor: int) -> bytes:
    """What comes next, where it has to be waited for; nothing at the end, or where it can't be read. A terminal of which another process
    has the foreground is read once that is ours again."""
    while True:
        try:
            return os.read(descriptor, _CHUNK)
        except BlockingIOError:  # whoever shares it has it so that it doesn't wait
            select.select([descriptor], [], [])
        except OSError:
            if not _in_background(descriptor):
                return b""
            time.sleep(_BACKGROUND_SECONDS)


def _in_background(descriptor: int) -> bool:
    with contextlib.suppress(OSError):
        return os.tcgetpgrp(descriptor) != os.getpgrp()
    return False


async def lines(descriptor: int = 0) -> AsyncIterator[str | None]:
    """The lines of a descriptor, as they come; None for one that is too long. Ends where the input ends or can't be read."""
    loop = asyncio.get_running_loop()
    queue: asyncio.Queue[bytes] = asyncio.Queue(1)

    def read() -> None:
        data = b"more"
        while data:
            data = _read(descriptor)
            try:
                asyncio.run_coroutine_threadsafe(queue.put(data), loop).result()
            except (RuntimeError, asyncio.CancelledError):
                return  # the loop has ended

    threading.Thread(target=read, name="input", daemon=True).start()
    cutter = Lines()
    while data := await queue.get():
        for line in cutter.feed(data):
            yield line
    for line in cutter.end():
        yield line
