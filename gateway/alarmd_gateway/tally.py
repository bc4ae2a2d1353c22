"""What the figures of an alarm system are made of: one pass over the rows of a journal. Moments and durations are milliseconds."""

from __future__ import annotations

from collections.abc import Collection, Iterable, Iterator
from dataclasses import dataclass
from typing import TypeAlias

from .journal import Row
from .model import AlarmRow, Code, Plant

STANDING = frozenset({Code.UNACK, Code.ACKED, Code.RTNUN, Code.LATUN, Code.LATAK})
WAITING = frozenset({Code.UNACK, Code.RTNUN, Code.LATUN})
ACKNOWLEDGED = {(Code.UNACK, Code.ACKED), (Code.RTNUN, Code.NORM), (Code.LATUN, Code.LATAK)}


@dataclass(frozen=True)
class Change:
    """A row of the journal: an alarm's code changed."""

    moment: int
    tag: str
    was: Code
    now: Code


@dataclass(frozen=True)
class Shelving:
    """A row of the journal: a `shelve` that was answered OK."""

    moment: int
    tag: str
    console: int
    milliseconds: int


@dataclass(frozen=True)
class Anew:
    """A row of the journal: another plant was taken up, under which these alarms aren't what they were: they are gone, or began as
    NORM, without a row of their own."""

    moment: int
    tags: frozenset[str]


Event: TypeAlias = Change | Shelving | Anew


def anew(old: Plant, new: Plant) -> frozenset[str]:
    """The tags of a plant whose alarms don't go on under the next one: there they are gone, or latch otherwise."""
    kept = ((tag, row, new.by_tag.get(tag)) for tag, row in old.by_tag.items())
    return frozenset(tag for tag, was, now in kept if now is None or now.latch != was.latch)


def events(rows: Iterable[Row]) -> Iterator[Event]:
    """What the figures want of a journal's rows: the changes, the shelvings that were answered OK, and what a reload has ended."""
    before: Plant | None = None
    for row in rows:
        if row.words[0] == "RELOAD" and before is not None and row.plant is not None:
            yield Anew(row.moment, anew(before, row.plant))
        before = row.plant
        match row.words:
            case ("ALARM", tag, was, now):
                yield Change(row.moment, tag, Code(was), Code(now))
            case ("ORDER", console, "shelve", tag, milliseconds, "OK"):
                yield Shelving(row.moment, tag, int(console), int(milliseconds))
            case _:
                pass


class Tally:
    """Goes through a journal once, and keeps what the figures are made of."""

    def __init__(self, tags: Collection[str], begin: int, end: int) -> None:
        self._tags = tags
        self.begin, self.end = begin, end
        self.annunciations: dict[str, list[int]] = {}
        self.codes: dict[str, tuple[Code, int]] = {}  # the code, and the moment of its change
        self.standing: dict[str, int] = {}
        self.waiting: dict[str, int] = {}
        self.waits: list[int] = []
        self.aside = 0
        self.shelvings: dict[str, Shelving] = {}

    def take(self, row: Event) -> None:
        """Takes the next row; one of another alarm, or after the end, is passed over."""
        if isinstance(row, Anew):
            self._begin_anew(row)
            return
        if row.tag not in self._tags or row.moment >= self.end:
            return
        if isinstance(row, Shelving):
            self.shelvings[row.tag] = row
            return
        self.codes[row.tag] = row.now, row.moment
        if row.now is Code.UNACK:
            self.annunciations.setdefault(row.tag, []).append(row.moment)
        if row.now in STANDING:
            self.standing.setdefault(row.tag, row.moment)
        else:
            self.standing.pop(row.tag, None)
        self._wait(row)

    def _begin_anew(self, row: Anew) -> None:
        for tag in row.tags if row.moment < self.end else ():
            self.standing.pop(tag, None)
            self.waiting.pop(tag, None)
            self.shelvings.pop(tag, None)
            if tag in self.codes:
                self.codes[tag] = Code.NORM, row.moment

    def _wait(self, row: Change) -> None:
        if row.now in WAITING:
            self.waiting.setdefault(row.tag, row.moment)
            return
        since = self.waiting.pop(row.tag, None)
        if since is None or row.moment < self.begin:
            return
        if (row.was, row.now) in ACKNOWLEDGED:
            self.waits.append(row.moment - since)
        else:
            self.aside += 1

    def moments(self, alarms: Iterable[AlarmRow], areas: Collection[str]) -> list[int]:
        """The moments of all annunciations of those of the alarms that are in some areas, in order."""
        return sorted(
            moment
            for alarm in alarms
            if alarm.area in areas
            for moment in self.annunciations.get(alarm.tag, ())
        )
