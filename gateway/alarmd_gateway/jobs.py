"""What others ask of the core: orders and reloads that wait for their turn, and what may be disturbed."""

from __future__ import annotations

import asyncio
from dataclasses import dataclass, field
from typing import Protocol

from .commands import Reload
from .link import NoReload
from .model import Order, Reply, ServerGone, Value, Variable
from .state import State


UNKNOWN = "it isn't known whether the order was taken: the journal tells"


class CameAgain(Exception):
    """An order that isn't given: its alarm was annunciated anew, and nobody has read that."""


class Disturbances(Protocol):
    """What a person may set in a simulation, beside the plant."""

    def has(self, name: str) -> bool:
        """Whether there is one of this name, in any letter case."""

    def disturb(self, name: str, value: Value | str) -> None:
        """Sets one. Raises BadSample."""

    def values(self) -> list[tuple[Variable, Value]]:
        """All of them, and what each is."""


@dataclass
class Job:
    """An order or a reload that waits, and whoever waits for its reply. `seen` is the moment up to which an order's alarm was read."""

    command: Order | Reload
    user: str | None
    reason: str | None
    seen: int | None = None
    reply: asyncio.Future[Reply] = field(default_factory=asyncio.Future)


def reply(job: Job, answer: list[str]) -> None:
    """Hands the server's answer to whoever waits for it. Of a reload it is one line: behind that stands a list."""
    if isinstance(job.command, Reload):
        answer = answer[:1]
    if not job.reply.done():  # whoever asked may have gone
        job.reply.set_result(Reply(answer[0].partition(" ")[2], tuple(answer)))


def unread(job: Job, state: State) -> bool:
    """Whether a job is an order whose alarm has come again since it was read. Who gave it is told then: it isn't to be given."""
    if not isinstance(job.command, Order) or not state.came_again(job.command, job.seen):
        return False
    fail(job, CameAgain())
    return True


def fail(job: Job, fault: ServerGone | NoReload | CameAgain) -> None:
    """The order gets no reply."""
    if not job.reply.done():
        job.reply.set_exception(fault)
        job.reply.exception()  # whoever asked may have gone
