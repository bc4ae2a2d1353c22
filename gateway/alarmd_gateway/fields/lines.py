"""Lines of a FIFO: samples as `level=250 running=TRUE`, and, where that is let, orders as `ack 1 LAL-101`.

Each order, and each line that is wrong, is answered on standard output."""

from __future__ import annotations

import asyncio
import os
import stat
from collections.abc import Callable
from pathlib import Path
from typing import Final, Protocol

from ..input import MOST, Lines
from ..mapping import LinesSource
from ..model import Sample, Value
from ..typed import Mistake, read
from .source import Intake, Lost, Source

CHUNK: Final = 65_536
LOOK_SECONDS: Final = 1.0  # between two looks whether the FIFO is still there
CLOSE_SECONDS: Final = 5.0
"""For so long, at the most, lines that were read are taken before the end."""


class Answers(Protocol):
    """Who answers lines."""

    def put(self, line: str) -> None:
        """A line for whoever reads the answers."""

    async def order(self, line: str) -> None:
        """Takes an order or a question, and answers it."""


class LineSource(Source):
    """Lines, one after another: the next isn't looked at before the last has been taken."""

    def __init__(self, given: LinesSource, intake: Intake, answers: Answers) -> None:
        super().__init__(given.name, given.retry, intake)
        self._given = given
        self._answers = answers

    async def session(self, current: Callable[[], dict[str, Value]]) -> None:
        """Reads the FIFO until it isn't there any more, or, where it isn't held open, until its last writer closes it."""
        file, lines = open_fifo(self._given.path, self._given.hold), Lines()
        try:
            data = read_now(file)
            while data is None or data:
                if not self.is_up:
                    self.up()
                if data:
                    await self._take_all(lines.feed(data))
                data = await read_ready(file, self._given.path)
                if not data and (rest := lines.end()):
                    await self._take_all(rest)
                    data = read_now(file)  # another writer may have come meanwhile
            raise Lost("nobody writes to it")
        finally:
            os.close(file)

    async def _take_all(self, lines: list[str | None]) -> None:
        """Takes lines that were read, also where the source is closed meanwhile: nobody writes them again."""
        taking = asyncio.create_task(self._take(lines))
        try:
            await asyncio.shield(taking)
        except asyncio.CancelledError:
            await asyncio.wait({taking}, timeout=CLOSE_SECONDS)
            taking.cancel()
            raise

    async def _take(self, lines: list[str | None]) -> None:
        for line in lines:
            if line is None:
                self._answers.put(f"REFUSED L1: a line has at most {MOST} bytes")
                continue
            try:
                found = read(line, self.name)
            except Mistake as mistake:
                self._answers.put(f"REFUSED L1: {mistake}")
                continue
            if isinstance(found, list):
                await self._samples(found)
            elif found is not None and self._given.orders:
                await self._answers.order(line)
            elif found is not None:
                self._answers.put(f"REFUSED L1: {self.name} takes samples alone (its key orders)")

    async def _samples(self, samples: list[Sample]) -> None:
        for sample in samples:
            why = await self.intake.give(self.name, sample.name, sample.value)
            if why is not None:
                self._answers.put(f"REFUSED sample: {why}")


def open_fifo(path: Path, hold: bool) -> int:
    """A FIFO that is read without waiting. Held open for writing too, it never ends. Raises Lost."""
    try:
        if not stat.S_ISFIFO(os.stat(path).st_mode):
            raise Lost(f"{path} is no FIFO")
        return os.open(path, (os.O_RDWR if hold else os.O_RDONLY) | os.O_NONBLOCK)
    except OSError as fault:
        raise Lost(f"{path}: {fault.strerror}") from None


def read_now(file: int) -> bytes | None:
    """The bytes that are there; none where nobody has the FIFO open for writing, None where there is only nothing yet."""
    try:
        return os.read(file, CHUNK)
    except BlockingIOError:
        return None


async def read_ready(file: int, path: Path) -> bytes:
    """The next bytes; none where the last writer has closed. Raises Lost where the FIFO isn't there any more."""
    loop = asyncio.get_running_loop()
    while (data := read_now(file)) is None:
        ready: asyncio.Future[None] = loop.create_future()
        loop.add_reader(file, lambda: None if ready.done() else ready.set_result(None))
        try:
            await asyncio.wait_for(ready, LOOK_SECONDS)
        except asyncio.TimeoutError:
            still_there(file, path)
        finally:
            loop.remove_reader(file)
    return data


def still_there(file: int, path: Path) -> None:
    """Raises Lost where the path is another file by now, or none."""
    try:
        there, ours = os.stat(path), os.fstat(file)
    except OSError as fault:
        raise Lost(f"{path}: {fault.strerror}") from None
    if (there.st_dev, there.st_ino) != (ours.st_dev, ours.st_ino):
        raise Lost(f"{path} was replaced")
