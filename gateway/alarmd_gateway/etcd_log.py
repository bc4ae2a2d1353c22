"""The record in etcd: a log that several gateways follow, and to which the one that leads appends.

Keys, below `/alarmd/NAME/`: `last` has the number of the record and of its last entry; `entry/RECORD/NUMBER` each entry; `files` the
sums of the files of the plant with which the record begins, `program` that of alarmd; `leader` who leads; `request/MARK` an order that a gateway hands on to the leader;
`texts/RECORD/MARK/PART` and `asked/MARK/PART` the texts of reloads, and of those that are handed on; `old/RECORD` how many entries
a record has that doesn't go on, and how many of them are gone; `new` who writes a new one. Each gateway has a copy of the log on its own disk, `RECORD.1` and so on, which it plays to its server."""

from __future__ import annotations

import asyncio
import uuid
from collections.abc import Iterator, Sequence
from pathlib import Path

from . import etcd
from .etcd import TXN, Body, Etcd, EtcdRefused, NoEtcd
from .identity import Identity
from .leader import Leader, leader_of
from .log_entries import PAGE, Entries
from .log_view import (
    Keys,
    Last,
    Marked,
    View,
    copy_path,
    last_by,
    last_of,
    marked,
    newest_copy,
    newest_number,
    value_of,
)
from .model import GatewayFault, Plant
from .new_record import NewRecord
from .record import Entry, FileRecord
from .transactions import Deposed, NoCopy, Transactions

TIDY = 60.0  # seconds between two looks for records that are too old


class EtcdLog:
    """The log as one gateway has it. What it knows is on its own disk before its server sees it."""

    def __init__(self, client: Etcd, keys: Keys, record: Path, plant: Plant, program: Path) -> None:
        """`open` makes one that is ready. `program` is the server's. Raises GatewayFault."""
        self.keys = keys
        self.asks = Transactions(client)
        self.entries = Entries(self.asks, keys)
        self.leads_since: int | None = None  # the revision at which this gateway began to lead
        self.uncopied = ""  # why the copy can't be written; empty where it can
        self._path = record
        self._plant = plant
        self._own = Identity(keys, plant, program)
        self._copy: FileRecord | None = None
        self._known = Last(0, "", 0, 0)
        self._tidied = -TIDY

    @property
    def known(self) -> Last:
        """How much of the log this gateway has. The revision is that of the last append that it knows."""
        return self._known

    @property
    def copy(self) -> FileRecord:
        """The copy of the record on the disk."""
        assert self._copy is not None
        return self._copy

    async def open(self, new_program: bool = False) -> None:
        """Begins the log where there is none, opens the copy, and brings it up to the log's end. With `new_program` the log may go on
        with another program still. Raises NoEtcd, and GatewayFault: status 2 where the log or the copy is another plant's, the
        log of another program, or the copy of another log; 1 where the copy can't be written."""
        first = {"record": 1, "log": uuid.uuid4().hex, "entries": 0}
        begin = [etcd.put(self.keys.last, first), *self._own.begin()]
        await self.asks.ask([etcd.absent(self.keys.last)], begin)
        reads = [etcd.get(key) for key in (self.keys.last, self.keys.files, self.keys.program)]
        answer = await self.asks.ask([], reads)
        (last,), (kept,) = etcd.found(answer, 0), etcd.found(answer, 1)
        self._own.judge_files(kept)
        if not new_program:
            self._own.judge_program(etcd.found(answer, 2))
        if newest_number(self._path) > last_by(last).record:  # a later record would find it there
            words = f"{newest_copy(self._path)} is of no record of this log: keep it elsewhere"
            raise GatewayFault(words, 2)
        await self.begin(last_by(last))

    async def go_on(self) -> None:
        """The log goes on with this gateway's program from now on, and with no other one. Raises NoEtcd, EtcdRefused."""
        await self.asks.ask([], [self._own.program()])

    async def begin(self, last: Last) -> None:
        """Goes over to a record: its copy is opened, and brought up to this end. Raises NoEtcd, NoCopy, GatewayFault."""
        path = copy_path(self._path, last.record)
        copy = self._opened(path, last.log)
        try:
            count, line = last_of(path)
            await self.entries.compare(path, last.record, count, line)
            while count < last.entries:
                fresh = await self.entries.read(last.record, count)
                if not fresh:
                    raise NoEtcd("the log has gone on to a newer record")
                await self._extend(copy, [one.entry for one in fresh])
                count += len(fresh)
        except BaseException:
            copy.close()
            raise
        if self._copy is not None:
            self._copy.close()
        self._copy = copy
        self._known = Last(last.record, last.log, count, 0)

    def _opened(self, path: Path, log: str) -> FileRecord:
        """A copy that may be written. Raises NoCopy, and GatewayFault where it isn't of this log."""
        try:
            return FileRecord(path, self._plant, log)
        except GatewayFault as fault:
            if fault.status != 1:
                raise
            self.uncopied = fault.words
            raise NoCopy(fault.words, 1) from None

    async def _extend(self, copy: FileRecord, entries: Sequence[Entry]) -> None:
        """These are in the copy once it has returned. Raises NoCopy, and then none of them is."""
        try:
            await copy.extend(entries)
        except GatewayFault as fault:
            self.uncopied = fault.words
            raise NoCopy(fault.words, 1) from None
        self.uncopied = ""

    async def go_over(self, last: Last, plant: Plant) -> None:
        """The same, to a new record, which begins with this plant. Raises GatewayFault where it begins with another one."""
        answer = await self.asks.ask([], [etcd.get(self.keys.files)])
        self._own.files_of(plant)
        self._own.judge_files(etcd.found(answer, 0)[0])
        self._plant = plant
        await self.begin(last)

    async def look(self) -> View:
        """The log at this moment. Raises NoEtcd where no majority answers, GatewayFault where the log is gone, or goes on with
        another program."""
        requests = etcd.get(self.keys.requests, etcd.after(self.keys.requests), PAGE)
        fresh = self.entries.after(self._known.record, self._known.entries)
        reads = [etcd.get(self.keys.last), etcd.get(self.keys.leader), requests, fresh]
        reads.append(etcd.get(self.keys.program))
        answer = await self.asks.ask([], reads)
        last = etcd.found(answer, 0)
        if not last:
            raise GatewayFault(f"the log {self.keys.prefix} is gone", 2)
        self._own.judge_program(etcd.found(answer, 4))
        waiting = sorted(etcd.found(answer, 2), key=lambda kept: kept.created)
        return View(
            last_by(last[0]),
            leader_of(etcd.found(answer, 1)),
            tuple(marked(kept) for kept in waiting),
            self.entries.next(self._known.record, self._known.entries, etcd.found(answer, 3)),
        )

    async def hear(self) -> None:
        """Asks for the log's end alone. Raises NoEtcd where no majority answers."""
        await self.asks.ask([], [etcd.get(self.keys.last)])

    async def keep(self, one: Marked) -> None:
        """The next entry of the log is in the copy, and known, once this has returned. Raises NoCopy; then it isn't."""
        known = self._known
        await self._extend(self.copy, [one.entry])
        self._known = Last(known.record, known.log, known.entries + 1, 0)

    def has(self, last: Last) -> bool:
        """Whether this gateway has the whole log up to this end."""
        known = self._known
        return (known.record, known.log, known.entries) == (last.record, last.log, last.entries)

    def lead(self, leader: Leader, last: Last) -> bool:
        """Whether this gateway, which leads by `leader`, has the whole log, and so may append to it from now on."""
        if not self.has(last):
            return False
        self.leads_since, self._known = leader.revision, last
        return True

    def follow(self) -> None:
        """Nothing is appended by this gateway any more."""
        self.leads_since = None

    # the Log of the core

    def replay(self) -> Iterator[Entry]:
        """All commands that this gateway knows, in order, from the copy."""
        return self.copy.replay()

    def check(self) -> None:
        """See Log."""
        self.copy.check()
        self._own.check()

    async def append(self, entry: Entry) -> None:
        """Appends where this gateway leads and knows the whole log. Raises Deposed, also where the copy can't be written: then the
        entry is in the log, and isn't known here until it is in the copy."""
        await self.append_as(uuid.uuid4().hex, entry)

    async def append_as(self, mark: str, entry: Entry, request: bool = False) -> None:
        """The same with a mark; that of a request takes the request from those that wait, at the same moment."""
        known, since = self._known, self.leads_since
        if since is None:
            raise Deposed(mark, True)
        key = self.keys.entry(known.record, known.entries + 1)
        fields = {"record": known.record, "log": known.log, "entries": known.entries + 1}
        compare = [
            etcd.created(self.keys.leader, since),
            etcd.modified(self.keys.last, known.revision),
            self._own.holds(),
        ]
        parts = await self._texts(mark, entry, compare[:1])
        success = [etcd.put(key, value_of(entry, mark, parts)), etcd.put(self.keys.last, fields)]
        if request:
            asked = self.keys.asked(mark)
            compare.append(etcd.present(self.keys.requests + mark))
            success += [etcd.delete(self.keys.requests + mark)]
            success += [etcd.delete(asked, etcd.after(asked))] if entry.body else []
        answer = await self._persist(mark, compare, success, key)
        revision = etcd.revision(answer)
        if not etcd.held(answer):  # an earlier try may have been carried out without an answer
            kept = etcd.found(answer, 0)
            if not kept or kept[0].value["mark"] != mark:
                raise Deposed(mark, True)
            revision = kept[0].modified
        try:
            await self._extend(self.copy, [entry])
        except NoCopy:
            self.follow()
            raise Deposed(mark, False) from None
        self._known = Last(known.record, known.log, known.entries + 1, revision)

    async def _texts(self, mark: str, entry: Entry, holds: Sequence[Body]) -> int:
        """Writes the texts of an entry before the entry itself, and says in how many parts. Raises Deposed."""
        try:
            return await self.entries.write(self._known.record, mark, entry, holds)
        except (Deposed, NoEtcd, EtcdRefused):
            self.follow()
            raise Deposed(mark, True) from None

    async def _persist(
        self, mark: str, compare: Sequence[Body], success: Sequence[Body], key: str
    ) -> Body:
        """See Transactions. Nothing more is appended where no answer came."""
        try:
            return await self.asks.persist(mark, compare, success, key)
        except Deposed:
            self.follow()
            raise

    async def request(self, mark: str, entry: Entry, lease: str, seen: int | None = None) -> None:
        """Hands an order on to the leader, with the moment up to which its alarm was read; it is withdrawn where the lease ends.
        Raises NoEtcd where it isn't known whether it is handed on, EtcdRefused where it isn't."""
        parts = await self.entries.write_asked(mark, entry, lease)
        value = etcd.put(self.keys.requests + mark, value_of(entry, mark, parts, seen), lease)
        words = etcd.transaction([], [value])
        await self.asks.etcd.post(TXN, words, once=True)  # never twice

    async def withdraw(self, mark: str) -> bool:
        """Takes a request away that waits for the leader; says whether it did. Raises NoEtcd, EtcdRefused."""
        key, texts = self.keys.requests + mark, self.keys.asked(mark)
        gone = [etcd.delete(key), etcd.delete(texts, etcd.after(texts))]
        return etcd.held(await self.asks.ask([etcd.present(key)], gone))

    async def drop(self, mark: str) -> None:
        """Takes a request away that is no order, or isn't to be given. Raises NoEtcd."""
        await self.asks.ask([], [etcd.delete(self.keys.requests + mark)])

    def astray(self) -> str | None:
        """See Log: of the copy."""
        return self._copy.astray() if self._copy is not None else None

    def moved(self, plant: Plant) -> None:
        """See Log."""
        self._plant = plant
        self.copy.moved(plant)

    async def succeed(self, entries: Sequence[Entry], plant: Plant | None = None) -> str:
        """See Log. The new record is written beside the old one, and one transaction goes over to it. The old one stays in etcd
        until there is another, and on the disk of each gateway that had it. Raises Deposed where this gateway leads no more, or
        can't write the copy: which record goes on is found by following the log."""
        known, since = self._known, self.leads_since
        if since is None:
            raise Deposed("", True)
        fresh, number, log = (
            NewRecord(self.asks, self.keys, since),
            known.record + 1,
            uuid.uuid4().hex,
        )
        try:
            await fresh.write(number, entries)
        except (NoEtcd, EtcdRefused) as fault:
            if self.leads_since is None:
                raise Deposed("", True) from None
            raise GatewayFault(f"etcd: {fault}", 1) from None
        fields = {"record": number, "log": log, "entries": len(entries)}
        compare = [*fresh.holds, etcd.modified(self.keys.last, known.revision)]
        over = [etcd.put(self.keys.last, fields), fresh.left(known.record, known.entries, 0)]
        if plant is not None and plant is not self._plant:
            over.append(self._own.files_of(plant))
            self._plant = plant
        answer = await self._persist("", compare, over, self.keys.last)
        kept = etcd.found(answer, 0) if not etcd.held(answer) else []
        if not etcd.held(answer) and (not kept or kept[0].value != fields):
            raise Deposed("", True)
        revision = kept[0].modified if kept else etcd.revision(answer)
        old = self.copy.path
        try:
            await self.begin(Last(number, log, len(entries), revision))
        except (NoEtcd, NoCopy):
            self.follow()
            raise Deposed("", False) from None
        self._known, self._tidied = Last(number, log, len(entries), revision), -TIDY
        return old.name

    async def tidy(self) -> None:
        """Rids etcd of a block of the records that are older than the one before this, where there is one. Raises NoEtcd,
        EtcdRefused."""
        now = asyncio.get_running_loop().time()
        if self.leads_since is None or now - self._tidied < TIDY:
            return
        if not await NewRecord(self.asks, self.keys, self.leads_since).tidy(self._known.record):
            self._tidied = now

    def close(self) -> None:
        """Waits for what is being written to the copy."""
        if self._copy is not None:
            self._copy.close()
