"""The one owner of the server, the record, the state and the journal.

All that reaches the server goes through `Core`: it is in the record before it is sent, one command after another.
A display begins with a snapshot, and goes on by the changes after it, whose numbers rise by one.
"""

from __future__ import annotations

import asyncio
import contextlib
from collections import deque
from collections.abc import Awaitable, Callable, Iterable

from . import commands, snapshots
from .announcer import Announcer
from .changes import Change, ChangeKind, CutOff, Subscription
from .clock import Clock, clocks
from .commands import Command, Reload, Scan
from .config import Config
from .first_moment import FirstMoment
from .jobs import UNKNOWN, Disturbances, Job, fail, reply, unread
from .journal import Journal
from .link import Link, NoReload, read_reload
from .model import (
    MOST_EVENTS,
    Figure,
    GatewayFault,
    Order,
    Reply,
    Sample,
    ServerGone,
    Texts,
    Value,
)
from .player import RELOADED
from .questions import Answer, Question, Questions
from .renewal import Renewal
from .samples import SampleQueue
from .snapshots import Snapshot
from .state import State

LOOK_SECONDS = 1.0
"""At most so long passes between two looks at the server, the clock and the history."""

__all__ = [
    "Change",
    "ChangeKind",
    "Core",
    "CutOff",
    "Figure",
    "Question",
    "Snapshot",
    "Subscription",
]


class Core:
    """The one owner of server, record, state and journal. `state` and `journal` are new objects after a new record or a new
    start of the server: don't keep them."""

    leads = True  # whether it scans, takes samples and writes outputs; else another gateway does
    ready = True  # whether scans may come: not before the model of a simulation is there
    look_seconds = LOOK_SECONDS
    disturbances: Disturbances | None = None  # of a simulation
    before_scan: Callable[[int], Awaitable[None]] | None = None  # told of its moment
    sampled: Callable[[str], None] | None = None  # told of each input of which a sample has come

    def __init__(self, config: Config, link: Link) -> None:
        """`start` makes one."""
        self.config = config
        self.plant = link.plant
        self.troubles = link.troubles
        self.last = link.last  # the record's last command with its answer
        self._link = link
        self._announcer = Announcer(link)
        self._questions = Questions(self._announcer.asked)
        self._begin()
        self._queue = SampleQueue()
        self._jobs: deque[Job] = deque()
        self._wake = asyncio.Event()
        self._taken = asyncio.Event()
        self._closing = False
        self._draining = False
        self._due = 0.0

    def _begin(self) -> None:
        """The clock, and what goes by it, from the record's last scan on."""
        config, link = self.config, self._link
        last = self.state.moment if self.state.scanned else None
        self._clock = Clock(link.plant, last, config.gap_ms, *clocks(config.speed))
        self._first = FirstMoment(self._clock, self._questions, link.troubles, config.yes)
        self._renewal = Renewal(config, link, self._clock, self._questions)

    @classmethod
    async def start(cls, config: Config) -> Core:
        """Starts the server, reads the plant, and plays the record. Raises GatewayFault: status 3 where the plant is refused, 2
        where words or the record are wrong, 1 where the server or the disk fail."""
        core = cls(config, await Link.start(config))
        core._first.look()
        core._renewal.look_at_history()
        return core

    @property
    def state(self) -> State:
        """The state after the commands so far."""
        return self._link.book.state

    @property
    def journal(self) -> Journal:
        """The journal of the commands so far."""
        return self._link.book.journal

    # what others ask of the core

    async def order(
        self,
        order: Order,
        user: str | None = None,
        reason: str | None = None,
        seen: int | None = None,
    ) -> Reply:
        """Records an order with its user and reason, sends it, and gives the answer (OK, O1 to O5, or E6). `seen` is the moment up to
        which its alarm was read. Raises ServerGone, CameAgain where the alarm was annunciated behind that, or ValueError where a
        word of the order can't stand in a line."""
        commands.check(order)
        return await self._submit(Job(order, user, reason, seen))

    async def reload(
        self, texts: Texts, user: str | None = None, reason: str | None = None
    ) -> Reply:
        """Has a plant served from now on, and gives the answer, a line: `RELOADED ..`, `CONFIG ..` or `REFUSED E6` to `E8`. Raises
        NoReload, ServerGone."""
        try:
            command = await read_reload(self.plant.path, texts)
        except GatewayFault as fault:
            raise NoReload(fault.words) from None
        return await self._submit(Job(command, user, reason))

    async def _submit(self, job: Job) -> Reply:
        if self._closing:
            raise ServerGone("the gateway ends", 1)
        self._jobs.append(job)
        self._wake.set()
        return await job.reply

    async def offer(self, sample: Sample) -> None:
        """Takes a sample of an input; waits while too many wait. Raises BadSample where its name or its value doesn't fit the
        plant; the text says why."""
        variable, value = commands.fit(self.plant, sample.name, sample.value)
        if self.sampled is not None and sample.fresh:
            self.sampled(variable.name)
        while self._queue.full and not self._closing:
            self._taken.clear()
            await self._taken.wait()
            # another plant may have been taken up meanwhile
            variable, value = commands.fit(self.plant, sample.name, sample.value)
        if self._closing:
            return
        self._queue.put(variable.name, value)
        if self._queue.pressed or self._draining:
            self._wake.set()

    @property
    def has_room(self) -> bool:
        """Whether `offer` takes a sample of each input without waiting: they want a scan of their own at most, and room is left."""
        return self._queue.room > 1

    @property
    def may_write(self) -> bool:
        """Whether outputs are written by this gateway now: asked right before each."""
        return self.leads

    def subscribe(self, room: int = 1000) -> Subscription:
        """The changes from now on. Make it before the snapshot, and pass over changes up to the snapshot's number."""
        return self._announcer.board.subscribe(room)

    @property
    def number(self) -> int:
        """The number of the last change."""
        return self._announcer.board.number

    def snapshot(self, normal: bool = True) -> Snapshot:
        """All that a display wants, at one moment; without `normal` alarms that are NORM are left out."""
        return snapshots.take(self.number, self._link.book, self.troubles, self._questions, normal)

    def figures(self) -> Iterable[Figure]:
        """Further figures for `/metrics`."""
        return ()

    @property
    def questions(self) -> tuple[Question, ...]:
        """The questions that wait for an answer."""
        return tuple(self._questions)

    async def answer(
        self, number: int, yes: bool, console: int | None = None, user: str | None = None
    ) -> None:
        """Answers a question. Raises KeyError where none of this number waits, ValueError where the plant has no such console."""
        if console is not None and console not in [row.number for row in self.plant.consoles]:
            raise ValueError(f"the plant has no console {console}")
        self._questions.answer(number, Answer(yes, console, user))
        self._wake.set()

    # the work: one command after another

    async def run(self) -> None:
        """Serves until `stop`. Raises GatewayFault where it can't go on; then nothing is served any more."""
        try:
            while not self._closing:
                await self._step()
        finally:
            self._closing = True
            self._taken.set()
            while self._jobs:
                fail(self._jobs.popleft(), ServerGone("the gateway ends", 1))
            self._announcer.board.close()
            await self._link.close()

    async def drain(self) -> None:
        """Waits until scans have taken all samples that wait, and all orders are answered. Where no scan may come samples are left."""
        self._draining = True
        self._wake.set()
        while self._jobs or (len(self._queue) and self._clock.started):
            if self._closing or self._full:
                break
            self._taken.clear()
            await self._taken.wait()
        self._draining = False

    async def finish(self, seconds: float) -> None:
        """Waits until scans have taken all samples that wait, at most so long. Where no scan may be sent they are left."""
        if self.leads and self._may_scan() and len(self._queue):
            with contextlib.suppress(asyncio.TimeoutError):
                await asyncio.wait_for(self.drain(), seconds)

    def stop(self) -> None:
        """Ends `run` in order, after the command that is under way."""
        self._closing = True
        self._wake.set()

    async def _step(self) -> None:
        """A scan where one is due, then an order where one waits, then what else is due; or waits for the next."""
        self._wake.clear()
        self._first.look()
        if self._first.refused is not None:
            raise self._first.refused
        if (remark := self._first.remark()) is not None:
            await self._link.note(remark)
        if scan := self._scan_is_due():
            await self._scan()
        if job := bool(self._jobs):
            await self._order(self._jobs.popleft())
            self._taken.set()  # whatever came of it
        await self._renewal.look()
        if not scan and not job:
            await self._wait()

    async def _wait(self) -> None:
        await self._link.look()
        loop = asyncio.get_running_loop()
        period = self.config.period_ms / 1000
        left = max(0.0, self._due - loop.time()) if self._may_scan() else period
        try:
            await asyncio.wait_for(self._wake.wait(), min(left, period, self.look_seconds))
        except asyncio.TimeoutError:
            pass

    def _may_scan(self) -> bool:
        """Whether a scan may be sent: the first one of all waits for samples, and no moment is in doubt."""
        if not (self.ready and self._clock.started) or self._full:
            return False
        return self.state.scanned or len(self._queue) > 0

    @property
    def _full(self) -> bool:
        return self.state.events >= MOST_EVENTS

    def _scan_is_due(self) -> bool:
        if not self._may_scan():
            return False
        pressed = self._queue.pressed or (self._draining and len(self._queue) > 0)
        return pressed or asyncio.get_running_loop().time() >= self._due

    async def _scan(self) -> None:
        now, period = asyncio.get_running_loop().time(), self.config.period_ms / 1000
        self._due = (self._due if 0 <= now - self._due < period else now) + period
        moment = self._clock.now()
        if self.before_scan is not None:
            await self.before_scan(moment)
        scan = Scan(moment, self._queue.take())
        answer, happened = await self._link.give(scan)
        self._announcer.happened(happened)
        self._announcer.scanned(answer[-1])
        self._taken.set()

    async def _order(self, job: Job) -> None:
        if unread(job, self.state):
            return
        try:
            if isinstance(job.command, Reload):
                await self._link.ready_for(job.command)
        except NoReload as refused:
            fail(job, refused)
            return
        except GatewayFault as fault:
            fail(job, ServerGone(f"{fault.words}, so the plant wasn't taken up", fault.status))
            raise
        try:
            answer, happened = await self._link.give(job.command, job.user, job.reason)
        except GatewayFault as fault:
            fail(job, ServerGone(f"{fault.words}, so {UNKNOWN}", fault.status))
            raise
        reply(job, answer)
        self._announcer.happened(happened)
        self._followed(job.command, answer)

    def _followed(self, command: Command, answer: list[str]) -> None:
        """Goes on with the plant of a reload that was taken: what waits for a scan is judged anew, and displays begin anew."""
        if not isinstance(command, Reload) or not answer[0].startswith(RELOADED):
            return
        self.plant = self._link.plant
        self._queue = self._queue.refitted(self._fitted)
        self._announcer.reloaded(answer[0])

    def _fitted(self, name: str, value: Value) -> tuple[str, Value] | None:
        return commands.fitted(self.plant, name, value)
