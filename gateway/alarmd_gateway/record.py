"""The record: each scan and each order, in order, on the disk before the server sees it.

`Log` is what the core wants of a record; `FileRecord` keeps it in a file. A line of it is a scan, an order, a reload (whose texts stand
behind its line) or a remark. The first line is a remark with the sums of the files of the plant with which the record begins; a remark
before an order tells who gave it, and why.
"""

from __future__ import annotations

import asyncio
import json
import os
from collections.abc import Iterator, Sequence
from concurrent.futures import ThreadPoolExecutor
from dataclasses import dataclass
from pathlib import Path
from typing import BinaryIO, Final, Protocol

from . import commands
from .disk import BY, NO_HELP, archive, astray, cut, locked, ordinary, sync_folder, write
from .model import GatewayFault, Plant
from .record_head import (
    LONGEST_HEAD,
    compare,
    fields_of,
    head,
    judge_head,
    judge_log,
    log_of,
    sums,
    unbegun,
)
from .texts import walk


@dataclass(frozen=True, slots=True)
class Entry:
    """A command of the record, with the user and the reason of an order, where they are known. A reload has a body."""

    line: str
    user: str | None = None
    reason: str | None = None
    body: bytes = b""

    @property
    def asked(self) -> str | bytes:
        """The command as a server is asked it."""
        return commands.with_body(self.line, self.body) if self.body else self.line

    def recorded(self) -> bytes:
        """The entry as a record has it: its remark, its line and its body, each with an end of line behind it."""
        head = f"{_remark(self)}{self.line}\n".encode("utf-8", "surrogateescape")
        return head + self.body + b"\n" if self.body else head


class Unsure(GatewayFault):
    """A new record has begun, but it may not outlast a loss of power: nothing may go on."""


class Log(Protocol):
    """What the core wants of a record."""

    def replay(self) -> Iterator[Entry]:
        """All commands, in order."""

    async def append(self, entry: Entry) -> None:
        """The command will outlast a loss of power once this has returned. Raises GatewayFault (status 1)."""

    def check(self) -> None:
        """Raises GatewayFault (status 2) where the plant's files are no longer those that the record is of."""

    def moved(self, plant: Plant) -> None:
        """The files of the record's plant, the one with which it begins, lie elsewhere from now on."""

    def astray(self) -> str | None:
        """What is wrong where the record is no longer the file of its name, so that a start wouldn't find it; else None."""

    async def succeed(self, entries: Sequence[Entry], plant: Plant | None = None) -> str:
        """A new record takes the place of this one, at once and whole, with these commands in it; it begins with this plant, or
        with the same. Gives
        the name under which the old one is kept. Raises GatewayFault where the old one goes on, and Unsure where that isn't known.
        """

    def close(self) -> None:
        """No more is appended. Another gateway may have the record."""


def _remark(entry: Entry) -> str:
    fields = {"user": entry.user, "reason": entry.reason}
    known = {key: value for key, value in fields.items() if value is not None}
    return f"{BY}{json.dumps(known)}\n" if known else ""


def entries(file: BinaryIO) -> Iterator[Entry]:
    """The commands of a record from where the file stands. Remarks are taken for the order behind them; other lines are passed over
    by the core."""
    by: dict[str, str] = {}
    for head, body in walk(file):
        line = head.decode("utf-8", "surrogateescape")
        if line.startswith(BY):
            by = fields_of(line.removeprefix(BY))
        elif line and not line.startswith("#"):
            yield Entry(line, by.get("user"), by.get("reason"), body) if by or body else Entry(line)
            by = {}


class FileRecord:
    """A record in a file that one gateway has at a time."""

    def __init__(self, path: Path, plant: Plant, log: str | None = None) -> None:
        """Opens the record, or begins it. A torn last line is cut off. `log` names the shared log of which it is a copy. Raises
        GatewayFault: status 2 where another gateway has it or it is another plant's or log's, 1 where it can't be read or
        written."""
        self.path = path
        self._log = log
        self._plant = plant
        self._sums = sums(plant)
        self._thread = ThreadPoolExecutor(1, "record")
        try:
            self._file = locked(path)
            try:
                self._begin()
                self._size = self._file.seek(0, os.SEEK_END)  # all that was written wholly
            except BaseException:
                self._file.close()
                raise
        except OSError as fault:
            raise self._fault(fault, 2 if fault.errno in NO_HELP else 1) from None

    def _begin(self) -> None:
        """Begins the record, or judges the one that is there; what is none stays as it is."""
        self._file.seek(0)
        line = self._file.readline(LONGEST_HEAD)
        if unbegun(line):
            self._file.truncate(0)
            write(self._file, f"{head(self._sums, log=self._log)}\n".encode())
            sync_folder(self.path)
            return
        first = line.decode("utf-8", "replace").rstrip("\n")
        judge_head(first, self._plant, self.path)
        judge_log(log_of(first) == self._log, self._log is not None, self.path)
        cut(self.path, self._file)

    def _fault(self, fault: OSError, status: int = 1) -> GatewayFault:
        return GatewayFault(f"the record {self.path}: {fault.strerror}", status)

    def replay(self) -> Iterator[Entry]:
        """All commands, in order, read as they are wanted; by the open file, whatever has its name by now."""
        with open(f"/proc/self/fd/{self._file.fileno()}", "rb", buffering=1 << 20) as file:
            yield from entries(file)

    def check(self) -> None:
        """Compares the sums of the plant's files with those at the opening of the record."""
        try:
            compare(self._sums, sums(self._plant))
        except OSError as fault:
            raise GatewayFault(f"FILE {fault.filename}: {fault.strerror}", 2) from None

    async def append(self, entry: Entry) -> None:
        """Appends, flushes and waits for the disk, in a thread of its own: meanwhile displays are served."""
        await self.extend([entry])

    async def extend(self, entries: Sequence[Entry]) -> None:
        """Appends all of them, and waits for the disk once. Raises GatewayFault (status 1); then none of them is in it, once
        something else is."""
        text = b"".join(entry.recorded() for entry in entries)
        loop = asyncio.get_running_loop()
        try:
            await loop.run_in_executor(self._thread, self._extend, text)
        except OSError as fault:
            raise self._fault(fault) from None

    def _extend(self, text: bytes) -> None:
        """What is left of a write that failed is cut off before."""
        if self._file.seek(0, os.SEEK_END) != self._size:
            self._file.truncate(self._size)
        write(self._file, text)
        self._size = self._file.seek(0, os.SEEK_END)

    async def succeed(self, entries: Sequence[Entry], plant: Plant | None = None) -> str:
        """The old record is kept as `record.1` (the next number that is free), and a new one takes its name."""
        loop, plant = asyncio.get_running_loop(), plant or self._plant
        try:
            kept, known = await loop.run_in_executor(self._thread, self._succeed, entries, plant)
        except OSError as fault:
            raise self._fault(fault) from None
        self._plant, self._sums = plant, known
        return kept

    def moved(self, plant: Plant) -> None:
        """See Log."""
        self._plant = plant

    def astray(self) -> str | None:
        """See Log."""
        return astray(self._file, self.path)

    def _succeed(self, entries: Sequence[Entry], plant: Plant) -> tuple[str, dict[str, str]]:
        if (words := self.astray()) is not None:
            raise GatewayFault(words, 1)
        known = self._sums if plant is self._plant else sums(plant)
        kept, fresh = archive(self.path), self.path.with_name(f"{self.path.name}.new")
        fresh.unlink(missing_ok=True)
        file = locked(fresh)
        try:
            text = b"".join(entry.recorded() for entry in entries)
            write(file, f"{head(known, kept.name)}\n".encode() + text)
            os.replace(fresh, self.path)  # at each moment there is one of the two, whole
        except BaseException:
            file.close()
            fresh.unlink(missing_ok=True)
            raise
        old, self._file = self._file, file
        self._size = file.seek(0, os.SEEK_END)
        old.close()
        try:
            sync_folder(self.path)
        except OSError as fault:
            raise Unsure(f"the record {self.path}: {fault.strerror}", 1) from None
        return kept.name, known

    def close(self) -> None:
        """Waits for what is being written, and gives the lock back."""
        self._thread.shutdown()
        self._file.close()


def peek(path: Path, plant: Plant) -> Iterator[Entry]:
    """The commands of a record that another gateway may have, without a lock. Raises GatewayFault (status 2)."""
    ordinary(path)
    try:
        with open(path, "rb", buffering=1 << 20) as file:
            judge_head(
                file.readline(LONGEST_HEAD).decode("utf-8", "replace").rstrip("\n"), plant, path
            )
            yield from entries(file)
    except OSError as fault:
        raise GatewayFault(f"the record {path}: {fault.strerror}", 2) from None
