"""Orders where several gateways share a log: the leader appends them, the others hand them on, and whoever gave one has the answer of
the server behind his own gateway."""

from __future__ import annotations

import contextlib
import uuid
from collections import deque
from collections.abc import Callable

from . import commands
from .away import Away
from .commands import Command, Reload, Scan
from .etcd import EtcdRefused, NoEtcd, NotNow
from .etcd_log import EtcdLog
from .jobs import UNKNOWN, Job, fail, unread
from .link import Link, NoReload, entry_of, prepared
from .log_entries import PAGE
from .log_view import Marked, View
from .model import GatewayFault, Order
from .record import Entry
from .state import Happening
from .transactions import Deposed

Tell = Callable[[Command, list[str], list[Happening]], None]


class SharedOrders:
    """The orders of one gateway. `jobs` are those that wait for their turn, `away` those that may be in the log."""

    def __init__(self, link: Link, log: EtcdLog, jobs: deque[Job], tell: Tell) -> None:
        """`tell` is told of what has happened by an order."""
        self.away = Away()
        self._link = link
        self._log = log
        self._jobs = jobs
        self._tell = tell

    async def append(self, job: Job) -> None:
        """An order that was given here, where this gateway leads. Raises Deposed."""
        if not await self._ready(job) or job.reply.done():  # who gave it was told meanwhile
            return
        if unread(job, self._link.book.state):
            return
        mark = uuid.uuid4().hex
        entry = entry_of(job.command, job.user, job.reason)
        try:
            await self._log.append_as(mark, entry)
        except Deposed as deposed:
            if deposed.sure:
                self._jobs.appendleft(job)  # it is handed on
            else:
                self.away.add(mark, job)
            raise
        self.away.add(mark, job)
        await self._appended(mark, job.command, entry)

    async def _ready(self, job: Job) -> bool:
        """Whether a job may be put into the log. A reload that may not be is told of to whoever asked."""
        if not isinstance(job.command, Reload):
            return True
        try:
            await self._link.ready_for(job.command)
        except NoReload as refused:
            fail(job, refused)
            return False
        return True

    async def append_request(self, request: Marked) -> bool:
        """An order that another gateway has handed on. Says whether this one may go on: else it was withdrawn, or another gateway
        leads. Raises Deposed where it isn't known whether it is in the log."""
        try:
            request = await self._log.entries.asked(request)
        except GatewayFault:  # who gave it has gone meanwhile, and its texts went with the lease
            await self._log.drop(request.mark)
            return True
        plant = self._link.plant
        found = commands.read(plant, request.entry.line, request.entry.body)
        order = await prepared(plant.path, found)
        if isinstance(order, Reload):
            with contextlib.suppress(NoReload):
                await self._link.ready_for(order)
        if order is None or isinstance(order, Scan) or self._came_again(order, request.seen):
            await self._log.drop(request.mark)
            return True
        try:
            await self._log.append_as(request.mark, request.entry, request=True)
        except Deposed as deposed:
            if not deposed.sure:
                raise
            return False
        await self._appended(request.mark, order, request.entry)
        return True

    def _came_again(self, command: Command, seen: int | None) -> bool:
        return isinstance(command, Order) and self._link.book.state.came_again(command, seen)

    def refused(self, view: View) -> None:
        """Tells of the orders whose alarms have come again since they were read, and which the leader hasn't taken: they wait no more,
        and aren't in the log, all of which this gateway has."""
        if self._log.has(view.last) and len(view.requests) < PAGE:
            waiting = {request.mark for request in view.requests}
            for job in self.away.gone(waiting, view.last.record):
                unread(job, self._link.book.state)

    async def _appended(self, mark: str, order: Order | Reload, entry: Entry) -> None:
        try:
            answer, happened = await self._link.take(order, entry.user, entry.reason)
        except GatewayFault as fault:
            self.away.fail_one(mark, f"{fault.words}, so {UNKNOWN}")
            raise
        self.away.answer(mark, answer)
        self._tell(order, answer, happened)

    async def withdraw(self, command: Command) -> bool:
        """Takes back an order that was handed on and that the leader hasn't taken yet. Says whether that is so."""
        mark = self.away.mark_of(command)
        if mark is None:
            return False
        try:
            return await self._log.withdraw(mark)
        except (NoEtcd, EtcdRefused):
            return False

    async def hand_on(self, lease: str | None) -> None:
        """Hands the orders that were given here on to the leader. Raises NoEtcd, EtcdRefused."""
        while self._jobs and lease is not None:
            job, mark = self._jobs.popleft(), uuid.uuid4().hex
            if job.reply.done():
                continue
            if not await self._ready(job) or job.reply.done():
                continue
            if unread(job, self._link.book.state):
                continue
            self.away.add(mark, job)
            entry = entry_of(job.command, job.user, job.reason)
            try:
                await self._log.request(mark, entry, lease, job.seen)
            except (EtcdRefused, NotNow):
                self.away.drop(mark)
                if not job.reply.done():
                    self._jobs.appendleft(job)
                raise
            self.away.handed_on(mark, self._log.known.record)
            if job.reply.done():  # who gave it was told meanwhile, and couldn't take it back yet
                await self.withdraw(job.command)
        self.away.tidy()
