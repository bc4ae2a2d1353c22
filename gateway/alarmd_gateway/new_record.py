"""A new record of a shared log: written beside the old one, of which etcd is rid a block at a time once it is older than the last."""

from __future__ import annotations

import uuid
from collections.abc import Sequence

from . import etcd
from .etcd import Body
from .log_view import Keys, value_of
from .record import Entry
from .transactions import Deposed, Transactions

BLOCK = 50  # entries of a new record that are written at once
OLD = 1000  # entries of an old one that are deleted at once; etcd does nothing else meanwhile


class NewRecord:
    """The writer of one, while it leads."""

    def __init__(self, asks: Transactions, keys: Keys, since: int) -> None:
        """`since` is the revision at which this gateway began to lead."""
        self._asks = asks
        self._keys = keys
        self._mark = {"mark": uuid.uuid4().hex}
        self._leads = etcd.created(keys.leader, since)
        self.holds = (
            self._leads,
            etcd.valued(keys.new, self._mark),
        )  # while nobody else writes one

    async def write(self, record: int, entries: Sequence[Entry]) -> None:
        """Writes the entries of a new record, of which nothing is known until the log's end says so. Raises Deposed, NoEtcd,
        EtcdRefused."""
        await self._begin(record)
        for begin in range(0, len(entries), BLOCK):
            puts = [
                etcd.put(self._keys.entry(record, number), value_of(entry, uuid.uuid4().hex))
                for number, entry in enumerate(entries[begin : begin + BLOCK], begin + 1)
            ]
            if not etcd.held(await self._asks.ask(self.holds, puts)):
                raise Deposed("", True)

    async def _begin(self, record: int) -> None:
        """Deletes what an earlier writer may have left. It is done once: a second time, which may come late, it would delete
        what this one has written."""
        prefix, look = self._keys.record(record), [etcd.get(self._keys.new)]
        earlier = etcd.found(await self._asks.ask([], look), 0)
        since = etcd.modified(self._keys.new, earlier[0].modified if earlier else 0)
        clear = [etcd.delete(prefix, etcd.after(prefix)), etcd.put(self._keys.new, self._mark)]
        answer = await self._asks.ask([self._leads, since], clear, look)
        if etcd.held(answer):
            return
        if [kept.value for kept in etcd.found(answer, 0)] != [self._mark]:
            raise Deposed("", True)

    def left(self, record: int, entries: int, gone: int) -> Body:
        """Notes of a record that doesn't go on how many entries it has, and how many of them, from the first one on, are gone."""
        key = self._keys.old(record)
        return etcd.put(key, {"record": record, "entries": entries, "gone": gone})

    async def tidy(self, record: int) -> bool:
        """Deletes a block of the records that are older than the one before this; says whether there was one. What is left is
        noted: to find the first entry that is there etcd would look at all of them. Raises NoEtcd, EtcdRefused.
        """
        olds = etcd.get(self._keys.olds, self._keys.old(record - 1), 1)
        found = etcd.found(await self._asks.ask([], [olds]), 0)
        if not found:
            return False
        key, value = found[0].key, found[0].value
        old, entries, gone = value["record"], value["entries"], value["gone"]
        end = min(entries, gone + OLD)
        block = etcd.delete(self._keys.entry(old, gone + 1), self._keys.entry(old, end + 1))
        note = self.left(old, entries, end) if end < entries else etcd.delete(key)
        texts = self._keys.texts(old)
        gone = [block, note] + ([] if end < entries else [etcd.delete(texts, etcd.after(texts))])
        await self._asks.ask([self._leads, etcd.modified(key, found[0].modified)], gone)
        return True
