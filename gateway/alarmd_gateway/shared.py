"""The core of a gateway that has its record in etcd together with others.

One of them leads: it scans, takes samples and orders, and appends each command to the log before its server sees it. The others
follow the log with servers of their own, and hand orders on. Whoever gave an order has the answer of the server behind his own
gateway, once the order is in the log."""

from __future__ import annotations

import asyncio
import contextlib
from collections.abc import Iterator

from . import commands, log_watch
from .changes import ChangeKind
from .commands import Command, Reload, Scan
from .config import Config
from .core import Core
from .etcd import Etcd, EtcdRefused, NoEtcd
from .etcd_http import HttpEtcd
from .etcd_log import EtcdLog
from .jobs import UNKNOWN, Job
from .joining import joined, played
from .latest import Latest
from .leader import Candidate
from .link import Link, prepared
from .log_view import Last, View
from .log_watch import LogWatch
from .model import (
    MOST_EVENTS,
    Figure,
    Json,
    Order,
    Reply,
    Sample,
    ServerGone,
)
from .samples import SampleQueue
from .shared_config import SharedConfig, shared_config
from .shared_orders import SharedOrders
from .snapshots import Snapshot
from .state import Happening
from .telling import tell
from .transactions import Deposed, NoCopy
from .troubles import TroubleKind

LOOK = 0.1  # seconds between two looks at the log
ORDER = 15.0  # seconds for which whoever gave an order is let wait
RELOAD = 60.0  # the same of a plant: it is written in many parts, and read by all
OLDER = 60.0  # seconds by which a sample of this gateway may be older than what the log has of its input


class SharedCore(Core):
    """A core that leads, or follows the one that does."""

    look_seconds = LOOK

    def __init__(
        self, config: Config, link: Link, log: EtcdLog, candidate: Candidate, shared: SharedConfig
    ) -> None:
        """`start` makes one."""
        super().__init__(config, link)
        self.leads = False
        self._log = log
        self._candidate = candidate
        self._watching = LogWatch(log, link.troubles, config.period_ms / 1000)
        self._latest = Latest(max(OLDER, 3 * config.period_ms / 1000))
        self._orders = SharedOrders(link, log, self._jobs, self._tell)
        self._lease: str | None = None  # the one by which this gateway leads
        self._leader = ""
        self._end: Last | None = None  # the log's end at the last look
        self._looked = -1.0
        self._name = shared.gateway

    @classmethod
    async def start(cls, config: Config) -> SharedCore:
        """Starts the server, reads the plant, opens the log, waiting for etcd, and plays it. Raises GatewayFault as Core does."""
        shared = shared_config(config)
        client = HttpEtcd(shared.endpoints, shared.seconds, shared.tls)
        return await cls.join(config, shared, client)

    @classmethod
    async def join(cls, config: Config, shared: SharedConfig, client: Etcd) -> SharedCore:
        """The same with this etcd, which is closed where the core is, or can't be."""
        try:
            link, log = await joined(config, shared, client)
        except BaseException:
            await client.close()
            raise
        key, seconds = log.keys.leader, shared.lease
        core = cls(config, link, log, Candidate(client, key, shared.gateway, seconds), shared)
        core._renewal.look_at_history()
        return core

    async def run(self) -> None:
        """See Core."""
        self._log.asks.heard = asyncio.get_running_loop().time()
        works = (self._candidate.run(), self._watch(), self._tidy())
        tasks = [asyncio.create_task(one) for one in works]
        try:
            await super().run()
        finally:
            for task in tasks:
                task.cancel()
            await asyncio.gather(*tasks, return_exceptions=True)
            self._orders.away.fail()
            await self._candidate.resign()
            await self._log.asks.etcd.close()

    # what others ask of the core

    async def _submit(self, job: Job) -> Reply:
        """See Core. ServerGone says whether the order may have been taken."""
        asked = asyncio.ensure_future(super()._submit(job))
        patience = ORDER if isinstance(job.command, Order) else RELOAD
        done, _ = await asyncio.wait({asked}, timeout=patience)
        if done:
            return asked.result()
        taken_back = await self._taken_back(job.command)
        if asked.done():
            return asked.result()
        asked.cancel()
        words = f"the order wasn't taken: {self._watching.words()}"
        raise ServerGone(words if taken_back else UNKNOWN, 1)

    async def _taken_back(self, command: Command) -> bool:
        """Whether an order without an answer is surely not taken, now or later: it waits here, or for the leader, and no longer does."""
        waiting = next((job for job in self._jobs if job.command is command), None)
        if waiting is None:
            return await self._orders.withdraw(command)
        self._jobs.remove(waiting)
        return True

    async def offer(self, sample: Sample) -> None:
        """See Core. While another gateway leads, the last sample of each input is kept, for when this one does, unless the log has a
        newer value."""
        variable, value = commands.fit(self.plant, sample.name, sample.value)
        self._latest.put(variable.name, value)
        if self.leads:
            await super().offer(sample)
        elif self.sampled is not None and sample.fresh:
            self.sampled(variable.name)

    @property
    def may_write(self) -> bool:
        """See Core. Not where the lease may have ended: another gateway may have written something else by then."""
        return self.leads and self._candidate.surely_has(self._lease)

    def snapshot(self, normal: bool = True) -> Snapshot:
        """See Core. `log` has who leads, and how long the log is that this gateway has."""
        whole, known = super().snapshot(normal), self._log.known
        log: dict[str, Json] = {
            "gateway": self._name,
            "leads": self.leads,
            "leader": self._leader,
            "record": known.record,
            "entries": known.entries,
        }
        return Snapshot(whole.number, {**whole.data, "log": log})

    def figures(self) -> Iterator[Figure]:
        """See Core."""
        silent = self._watching.silence(asyncio.get_running_loop().time())
        end = self._end or self._log.known
        return log_watch.figures(self._log.known, end, self.leads, self._leader, silent)

    # the work: one look at the log after another

    async def _watch(self) -> None:
        """Where etcd gives no answer, that is a trouble, and this gateway leads no more."""
        loop = asyncio.get_running_loop()
        while True:
            state = self.state
            if self._watching.look(loop.time(), state.scanned and state.events < MOST_EVENTS):
                self._step_down()
            if self._watching.silence(loop.time()) > 1:
                with contextlib.suppress(NoEtcd, EtcdRefused):
                    await self._log.hear()
            await asyncio.sleep(LOOK)

    async def _tidy(self) -> None:
        """Where this gateway leads it rids etcd of what is too old, and leaves it half of the time for the log."""
        loop = asyncio.get_running_loop()
        while True:
            begin = loop.time()
            with contextlib.suppress(NoEtcd, EtcdRefused):
                await self._log.tidy()
            await asyncio.sleep(max(LOOK, loop.time() - begin))

    async def _step(self) -> None:
        """Looks at the log where that is due, takes what is new in it, and then leads or follows."""
        loop = asyncio.get_running_loop()
        try:
            if not self.leads or loop.time() - self._looked > LOOK:
                view = await self._log.look()
                self._looked, self._end = loop.time(), view.last
                await self._taken_over(view)
                if not await self._may_lead(view):
                    return
            await super()._step()
            if not self.leads:  # what it tried for so long may have ended in a question
                self._ask_no_more()
        except Deposed:
            self._step_down()
        except (NoCopy, NoEtcd, EtcdRefused):
            await self._pause()

    def _own(self, view: View) -> bool:
        """Whether this gateway's is the leader's key."""
        return view.leader is not None and view.leader.mark == self._candidate.mark

    async def _taken_over(self, view: View) -> None:
        """Takes what is new. Where it can't be written to the copy, another gateway may lead at once. Raises NoCopy."""
        try:
            await self._take(view)
        except NoCopy:
            self._step_down()
            if self._own(view):
                await self._candidate.resign()
            raise

    async def _may_lead(self, view: View) -> bool:
        """Whether this gateway leads, and has the whole log. Else it stands where nobody leads and it has that, or waits."""
        leader = view.leader
        self._leader = leader.name if leader else ""
        self._watching.led_by(leader, self._candidate, self._looked)
        if leader is not None and self._own(view) and self._log.lead(leader, view.last):
            self._step_up()
            for request in view.requests:
                if not await self._orders.append_request(request):
                    self._looked = -1.0  # the next look tells
            return True
        if self.leads:
            self._step_down()
        await self._orders.hand_on(self._candidate.lease)
        if leader is None and self._candidate.lease is not None and self._log.has(view.last):
            await self._candidate.stand()
        elif not view.fresh:
            await self._pause()
        return False

    async def _pause(self) -> None:
        self._wake.clear()
        with contextlib.suppress(asyncio.TimeoutError):
            await asyncio.wait_for(self._wake.wait(), LOOK)

    def _step_up(self) -> None:
        """Scans begin, by the time of day or the log's last moment, with the last sample of each input."""
        if self.leads:
            return
        self.leads, self._lease = True, self._candidate.lease
        tell(f"{self._name} leads from now on")
        self._begin()
        self._due = 0.0
        self._queue = SampleQueue()
        for name, value in self._latest.values():
            self._queue.put(name, value)
        self._announcer.board.put(ChangeKind.ANEW, self.state.moment, {})

    def _step_down(self) -> None:
        """Nothing is scanned, nor asked, by this gateway any more."""
        self._log.follow()
        if not self.leads:
            return
        self.leads = False
        tell(f"{self._name} leads no more")
        self._ask_no_more()
        self._queue = SampleQueue()
        self._taken.set()

    def _ask_no_more(self) -> None:
        """Who leads asks, and tells of the clock and of a new record."""
        for subject in ("clock", "record"):
            self._questions.withdraw(subject)
        for kind in (TroubleKind.RECORD, TroubleKind.CLOCK):
            self.troubles.clear(kind, "")

    # what is in the log

    async def _take(self, view: View) -> None:
        """Gives what is new in the log to the server, in order, or goes over to the new record once the old one is whole."""
        for fresh in view.fresh:
            one = await self._log.entries.whole(self._log.known.record, fresh)
            entry = one.entry
            found = commands.read(self.plant, entry.line, entry.body)
            command = await prepared(self.plant.path, found)
            if isinstance(command, Reload):
                await self._link.keep_first_or_tell()
            if isinstance(command, Scan):
                self._latest.overtaken(command.given, self.plant.time(command.moment).timestamp())
            await self._log.keep(one)
            if command is not None:
                answer, happened = await self._link.take(command, entry.user, entry.reason)
                self._tell(command, answer, happened)
                self._orders.away.answer(one.mark, answer)
        if not view.fresh and view.last.log != self._log.known.log:
            await self._go_over(view)
        if view.fresh:
            self._renewal.look_at_history()
        self._orders.refused(view)

    async def _go_over(self, view: View) -> None:
        plant = await self._link.next_plant()
        await self._log.go_over(view.last, plant)
        server, book = await played(self.config, plant, self._log)
        await self._link.replace(server, book, plant)
        self.plant = self._link.plant
        self._latest.refit(self._fitted)
        for name, moment in book.came.items():
            self._latest.overtaken([name], self.plant.time(moment).timestamp())
        self._renewal.look_at_history()

    def _followed(self, command: Command, answer: list[str]) -> None:
        """See Core. So are the samples that wait until this gateway leads."""
        super()._followed(command, answer)
        self._latest.refit(self._fitted)

    def _tell(self, command: Command, answer: list[str], happened: list[Happening]) -> None:
        self._announcer.happened(happened)
        if isinstance(command, Reload):
            self._followed(command, answer)
        if isinstance(command, Scan):
            self._announcer.scanned(answer[-1])
        self._taken.set()

    async def _order(self, job: Job) -> None:
        await self._orders.append(job)
