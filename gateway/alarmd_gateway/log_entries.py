"""The entries of a shared log as they are read and written: a page at a time, and those of reloads with their texts."""

from __future__ import annotations

import dataclasses
from collections.abc import Sequence
from pathlib import Path

from . import etcd, log_texts
from .etcd import Body, Kept
from .log_view import Keys, Marked, marked
from .model import GatewayFault
from .record import Entry
from .transactions import Transactions

PAGE = 500  # entries that are read at once


class Entries:
    """Asks for them."""

    def __init__(self, asks: Transactions, keys: Keys) -> None:
        self._asks = asks
        self._keys = keys

    async def compare(self, path: Path, record: int, count: int, line: str) -> None:
        """Raises GatewayFault where the last line of the copy isn't in the log."""
        if count == 0:
            return
        answer = await self._asks.ask([], [etcd.get(self._keys.entry(record, count))])
        kept = etcd.found(answer, 0)
        if not kept or kept[0].value["line"] != line:
            raise GatewayFault(f"{path} has what isn't in the log: keep it elsewhere", 2)

    async def read(self, record: int, count: int) -> tuple[Marked, ...]:
        """The entries of a record after so many, at most a page."""
        answer = await self._asks.ask([], [self.after(record, count)])
        found = self.next(record, count, etcd.found(answer, 0))
        return tuple([await self.whole(record, one) for one in found])

    def next(self, record: int, count: int, found: Sequence[Kept]) -> tuple[Marked, ...]:
        """Those that come next after so many. An old record may have lost its beginning: then it is none."""
        wanted = enumerate(found, count + 1)
        return tuple(
            marked(kept) for number, kept in wanted if kept.key == self._keys.entry(record, number)
        )

    def after(self, record: int, count: int) -> Body:
        """Reads a page. Its end is named: with a limit alone etcd looks at all entries that are there."""
        begin, end = (self._keys.entry(record, count + 1 + more) for more in (0, PAGE))
        return etcd.get(begin, end, PAGE)

    async def whole(self, record: int, one: Marked) -> Marked:
        """An entry of a record with its texts, where it has some. Raises NoEtcd, GatewayFault where they are gone."""
        return await self._with_texts(self._keys.texts(record, one.mark), one)

    async def asked(self, one: Marked) -> Marked:
        """The same of what another gateway has handed on."""
        return await self._with_texts(self._keys.asked(one.mark), one)

    async def _with_texts(self, prefix: str, one: Marked) -> Marked:
        if not one.parts:
            return one
        body = await log_texts.read(self._asks, prefix, one.parts)
        return dataclasses.replace(one, entry=dataclasses.replace(one.entry, body=body))

    async def write(self, record: int, mark: str, entry: Entry, holds: Sequence[Body]) -> int:
        """Writes the texts of an entry, where it has some, and says in how many parts. Raises Deposed, NoEtcd, EtcdRefused."""
        if not entry.body:
            return 0
        prefix = self._keys.texts(record, mark)
        return await log_texts.write(self._asks, prefix, entry.body, holds)

    async def write_asked(self, mark: str, entry: Entry, lease: str) -> int:
        """The same for an entry that is handed on, while the lease lasts. Raises NoEtcd, EtcdRefused."""
        if not entry.body:
            return 0
        prefix = self._keys.asked(mark)
        return await log_texts.write(self._asks, prefix, entry.body, (), lease)
