"""A new record before the run is full: what is carried into it, and what is lost and has to be announced.

The new run is tried on a second server before anything is lost, so what is announced is what will be.
"""

from __future__ import annotations

import time
from collections.abc import Callable, Iterator
from dataclasses import dataclass
from typing import Final

from .commands import Scan, spelled
from .config import Config
from .link import start_server
from .model import MOST_EVENTS, Code, Order, Plant, Verb
from .player import Book, Taken
from .questions import Answer
from .record import Entry
from .server import Server
from .state import AlarmState, State

AGAIN: Final = 10.0
"""Seconds until a new record is asked for again where the history is full, and so no event comes any more."""


@dataclass(frozen=True)
class Trial:
    """A new run on a server of its own, after all that is carried. `lost` are lines for operators; `grave` those of them that
    an operator has to have seen before, as they are about alarms and programs."""

    server: Server
    book: Book
    entries: list[Entry]
    lost: tuple[str, ...]
    grave: frozenset[str]


def console_for(plant: Plant, area: str) -> int | None:
    """The first console that orders an area's alarms."""
    return next((console.number for console in plant.consoles if area in console.areas), None)


def carried(state: State, moment: int) -> Iterator[tuple[Scan | Order, Entry]]:
    """The commands of the new run: a scan at this moment with the values of all inputs, the alarms out of service, and the
    shelvings with the time that is left."""
    first = Scan(moment, dict(state.inputs))
    yield first, Entry(first.line())
    for alarm in state.alarms:
        order = _carrying(state.plant, alarm, moment)
        if order is not None:
            yield order, Entry(order.line(), alarm.user, alarm.reason)


def _carrying(plant: Plant, alarm: AlarmState, moment: int) -> Order | None:
    console = console_for(plant, alarm.row.area)
    if console is None:
        return None
    if alarm.code is Code.OOS:
        return Order(Verb.REMOVE, console, alarm.row.tag)
    left = (alarm.shelved_until or 0) - moment
    if alarm.code is Code.SHELVED and left > 0:
        return Order(Verb.SHELVE, console, alarm.row.tag, left)
    return None


async def attempt(
    config: Config, plant: Plant, state: State, moment: int, check: Callable[[], None]
) -> Trial:
    """Tries the new run on a server of its own, which the caller takes over or ends; `plant` is the state's, with its files where a
    server reads them. Raises GatewayFault, also what `check` raises once the server has read the plant.
    """
    server = await start_server(config, plant.path)
    try:
        check()
        book, entries = Book(plant), []
        for command, entry in carried(state, moment):
            answer = await server.ask(entry.line)
            book.take(Taken(command, answer, entry.user, entry.reason))
            entries.append(entry)
    except BaseException:
        await server.kill()
        raise
    grave = tuple(_grave(state, book.state))
    return Trial(server, book, entries, (*grave, *_light(state, book.state)), frozenset(grave))


def _grave(old: State, new: State) -> Iterator[str]:
    for before, after in zip(old.alarms, new.alarms, strict=True):
        if before.code is not after.code:
            yield f"alarm {before.row.tag} ({before.row.text}): {before.code.value} becomes {after.code.value}"
    for stopped in old.stopped.values():
        yield f"program {stopped.program} has stopped ({stopped.file}, line {stopped.line}), and runs again"


def _light(old: State, new: State) -> Iterator[str]:
    for name, value in old.outputs.items():
        if new.outputs[name] != value:
            yield f"output {name}: {spelled(value)} becomes {spelled(new.outputs[name])}"
    delayed = [row.tag for row in old.plant.alarms if row.on_delay_ms]
    if delayed:
        more = f" and {len(delayed) - 20} more" if len(delayed) > 20 else ""
        yield f"on-delays run anew, those of {', '.join(delayed[:20])}{more}"
    if old.plant.programs:
        names = ", ".join(program.name for program in old.plant.programs.values())
        yield f"what the programs remember begins anew, also their timers and edges: {names}"


def remark(answer: Answer | None) -> Entry:
    """Who has confirmed the new record, as a remark of it."""
    if answer is None:
        return Entry("# begun by the gateway: nothing was lost")
    return Entry(f"# begun, confirmed by {answer.told()}")


class Due:
    """When a new record is due, and when it is asked for again after an operator has declined it."""

    def __init__(self, rotate_at: int, clock: Callable[[], float] = time.monotonic) -> None:
        """`clock` gives seconds."""
        self._rotate_at = rotate_at
        self._step = max(1, (MOST_EVENTS - rotate_at) // 10)
        self._next = rotate_at
        self._clock = clock
        self._not_before = clock()

    def now(self, events: int) -> bool:
        """Whether it is to be asked for."""
        return events >= self._next and self._clock() >= self._not_before

    def words(self, events: int) -> str | None:
        """The trouble of a history that is nearly full; None where it isn't. Its text changes seldom."""
        if events < self._rotate_at:
            return None
        if events >= MOST_EVENTS:
            return f"the history is full, {MOST_EVENTS:,} events: nothing is taken any more. A new record is due now"
        counted = events - (events - self._rotate_at) % self._step
        return f"the history has {counted:,} of {MOST_EVENTS:,} events: a new record is due"

    def declined(self, events: int) -> None:
        """It is asked for again after a tenth of what was left when it became due, and once the history is full at the latest; where
        it is full, after a while."""
        self._next = min(events + self._step, MOST_EVENTS)
        if events >= MOST_EVENTS:
            self._not_before = self._clock() + AGAIN

    def begun(self) -> None:
        """A new record has begun."""
        self._next = self._rotate_at
