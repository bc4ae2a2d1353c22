"""Changes for displays, in order, each with a number that rises by one; and those who read them, each with a room of its own."""

from __future__ import annotations

import asyncio
import enum
from collections import deque
from collections.abc import AsyncIterator, Mapping
from dataclasses import dataclass

from .model import Json, Plant, exact
from .state import AlarmMoved, Happening, Restarted, Stopped, ValueMoved, time_of


class ChangeKind(enum.Enum):
    """What a change is about, with its fields in `Change.data`."""

    ALARM = "alarm"  # `from`, and the fields of AlarmState.json (a second shelving too, where `from` is SHELVED)
    OUTPUT = "output"  # `name`, `value`
    INPUT = "input"  # `name`, `value`: an input that a scan has set to another value
    STOPPED = "stopped"  # the fields of Stopped.json
    RESTARTED = "restarted"  # `program`
    ROWS = "rows"  # `length`: how many rows the journal has now, where there are new ones; `events_left`
    SCAN = "scan"  # `events_left`: the last change of each scan
    TROUBLE = "trouble"  # the fields of Trouble.json and `stands`, a truth
    QUESTION = "question"  # the fields of Question.json
    ANSWERED = "answered"  # `number`, `yes` (null: withdrawn), `user`, `console`
    RELOADED = "reloaded"  # `answer`: another plant is served. Ask for it, and then take a snapshot
    ANEW = "anew"  # all is to be had anew: a new record has begun, or the server was started again. Take a snapshot


@dataclass(frozen=True)
class Change:
    """A change for displays, with its number, its moment and the civil time of that."""

    number: int
    kind: ChangeKind
    moment: int
    time: str
    data: Mapping[str, Json]

    def json(self) -> dict[str, Json]:
        """`number`, `kind`, `time`, and `data` with the fields of its kind, in which a value stands as `exact` has it."""
        value = self.data.get("value")
        data = {**self.data, "value": exact(value)} if isinstance(value, int) else dict(self.data)
        return {"number": self.number, "kind": self.kind.value, "time": self.time, "data": data}


class CutOff(Exception):
    """A subscriber that didn't read. It takes a snapshot and subscribes anew."""


class Subscription(AsyncIterator[Change]):
    """The changes after the moment at which it was made, in order. One that has more than its room waiting is cut off: after
    the changes that were kept it raises CutOff. It ends (StopAsyncIteration) when the core closes, or it is closed.
    """

    def __init__(self, board: Board, room: int) -> None:
        self._board = board
        self._room = room
        self._waiting: deque[Change] = deque()
        self._came = asyncio.Event()
        self._cut = False
        self._ended = False

    def add(self, change: Change) -> bool:
        """Takes a change; False where there was no room, and the subscriber is cut off."""
        self._came.set()
        if len(self._waiting) >= self._room:
            self._cut = True
        else:
            self._waiting.append(change)
        return not self._cut

    def end(self) -> None:
        """No more changes come."""
        self._ended = True
        self._came.set()

    async def __anext__(self) -> Change:
        while not self._waiting:
            if self._cut:
                raise CutOff
            if self._ended:
                raise StopAsyncIteration
            self._came.clear()
            await self._came.wait()
        return self._waiting.popleft()

    def more(self, most: int) -> list[Change]:
        """Those changes that wait already, at most so many; none where none waits."""
        return [self._waiting.popleft() for _ in range(min(most, len(self._waiting)))]

    def close(self) -> None:
        """No more changes are wanted."""
        self._board.leave(self)
        self.end()


class Board:
    """Numbers the changes and hands them to all subscribers. Nobody is waited for."""

    def __init__(self, plant: Plant) -> None:
        self._plant = plant
        self._subscriptions: set[Subscription] = set()
        self._closed = False
        self.number = 0  # of the last change

    def subscribe(self, room: int) -> Subscription:
        """A new subscriber; `room` is how many changes may wait."""
        subscription = Subscription(self, room)
        if self._closed:
            subscription.end()
        else:
            self._subscriptions.add(subscription)
        return subscription

    def leave(self, subscription: Subscription) -> None:
        """A subscriber wants no more."""
        self._subscriptions.discard(subscription)

    def put(self, kind: ChangeKind, moment: int, data: Mapping[str, Json]) -> None:
        """A change, for all."""
        self.number += 1
        if not self._subscriptions:
            return
        change = Change(self.number, kind, moment, time_of(self._plant, moment) or "", data)
        for subscription in tuple(self._subscriptions):
            if not subscription.add(change):
                self._subscriptions.discard(subscription)

    def happened(self, happening: Happening, moment: int) -> None:
        """What a command has changed, as a change."""
        if isinstance(happening, AlarmMoved):
            alarm = happening.alarm.json(self._plant)
            self.put(ChangeKind.ALARM, moment, {"from": happening.before.value, **alarm})
        elif isinstance(happening, ValueMoved):
            output = happening.variable.region.value == "Q"
            kind = ChangeKind.OUTPUT if output else ChangeKind.INPUT
            self.put(kind, moment, {"name": happening.variable.name, "value": happening.value})
        elif isinstance(happening, Stopped):
            self.put(ChangeKind.STOPPED, moment, happening.json(self._plant))
        elif isinstance(happening, Restarted):
            self.put(ChangeKind.RESTARTED, moment, {"program": happening.program})

    def close(self) -> None:
        """All subscribers have all changes now, and so has whoever subscribes later."""
        self._closed = True
        for subscription in self._subscriptions:
            subscription.end()
        self._subscriptions.clear()
