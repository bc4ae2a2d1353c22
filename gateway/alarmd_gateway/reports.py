"""The figures of an alarm system, as ISA-18.2 (clause 16) and EEMUA 191 have them, from the rows of a journal.

An alarm is annunciated where its code becomes UNACK. All times are moments, and all durations milliseconds. A window of ten minutes or of one
minute takes in its first millisecond and not its last: of annunciations at 0, 30,000 and 60,000 no minute has three.

Priorities are 1 to 4 here. The standard's recommendation for four priorities is about 80 % low, 15 % medium, 5 % high and less than 1 % highest:
low is priority 4, medium 3, high 2 and highest 1.
"""

from __future__ import annotations

from collections import Counter
from collections.abc import Collection, Iterable, Sequence
from dataclasses import dataclass
from statistics import fmean, median

from .journal import Row
from .model import Code, Plant, civil
from .tally import Tally, events

MINUTE = 60_000
TEN_MINUTES = 600_000
DAY = 86_400_000
FLOOD = 10  # more than so many annunciations in ten minutes are a flood
CHATTER = 3  # so many in a minute are chattering
MOST_LISTED = 10
MOST_DAYS = 31

PRIORITIES = (
    (1, "highest", "less than 1 %"),
    (2, "high", "5 %"),
    (3, "medium", "15 %"),
    (4, "low", "80 %"),
)


@dataclass(frozen=True)
class Rate:
    """How many annunciations there were for a console; `console` is 0 for all alarms of the report."""

    console: int
    count: int
    per_ten_minutes: float
    per_day: float
    largest: int  # in any ten minutes
    largest_at: int | None  # the first moment of these ten minutes
    flood: float  # the share of time in which the last ten minutes had more than FLOOD


@dataclass(frozen=True)
class Frequent:
    """An alarm, how often it was annunciated, and its share of all annunciations."""

    tag: str
    count: int
    share: float


@dataclass(frozen=True)
class Chattering:
    """An alarm that was annunciated CHATTER times or more in a minute: the most in one, and that minute's first moment."""

    tag: str
    largest: int
    at: int


@dataclass(frozen=True)
class Stale:
    """An alarm that has been standing for more than a day at the report's end."""

    tag: str
    since: int
    code: str


@dataclass(frozen=True)
class PriorityShare:
    """The annunciations of a priority, their share, and the recommended one."""

    priority: int
    name: str
    count: int
    share: float
    recommended: str


@dataclass(frozen=True)
class Acknowledgements:
    """How long alarms waited until they were acknowledged, from the first annunciation of each wait.

    `aside` of them were put aside while they waited; `waiting` wait at the end, the oldest since `longest` ms.
    """

    count: int
    median: float | None
    mean: float | None
    largest: int | None
    aside: int
    waiting: int
    longest: int | None


@dataclass(frozen=True)
class Shelved:
    """An alarm that is shelved at the end of the report: since when, until when, and from which console."""

    tag: str
    since: int
    until: int | None
    console: int | None


@dataclass(frozen=True)
class Day:
    """A day (UTC) of the report, and its annunciations by console, as `rates` has them."""

    day: str
    counts: tuple[int, ...]


@dataclass(frozen=True)
class Report:
    """All figures of the time from `begin` until `end`."""

    begin: int
    end: int
    rates: tuple[Rate, ...]
    days: tuple[Day, ...]
    frequent: tuple[Frequent, ...]
    chattering: tuple[Chattering, ...]
    stale: tuple[Stale, ...]
    priorities: tuple[PriorityShare, ...]
    acknowledgements: Acknowledgements
    shelved: tuple[Shelved, ...]


def largest_window(moments: Sequence[int], length: int) -> tuple[int, int | None]:
    """The most of some moments, in order, that lie in one window, and the first moment of the first such window."""
    most, at, first = 0, None, 0
    for last, moment in enumerate(moments):
        while moment - moments[first] >= length:
            first += 1
        if last - first + 1 > most:
            most, at = last - first + 1, moments[first]
    return most, at


def flooded(moments: Sequence[int], begin: int, end: int) -> int:
    """For how many ms of a time the last ten minutes had more than FLOOD of some moments, which are in order."""
    total, until = 0, begin
    for last in range(FLOOD, len(moments)):
        start = max(moments[last], until)
        stop = min(moments[last - FLOOD] + TEN_MINUTES, end)
        if stop > start:
            total += stop - start
            until = stop
    return total


def rate(console: int, moments: Sequence[int], begin: int, end: int) -> Rate:
    """The rates of annunciations, which are in order. Those before `begin` count for the flood that they began alone.

    Where the time is shorter than ten minutes or a day, the figure is that of the time: nothing is extrapolated.
    """
    counted = [moment for moment in moments if begin <= moment < end]
    span = max(end - begin, 1)
    largest, at = largest_window(counted, TEN_MINUTES)
    return Rate(
        console,
        len(counted),
        len(counted) * TEN_MINUTES / max(span, TEN_MINUTES),
        len(counted) * DAY / max(span, DAY),
        largest,
        at,
        flooded(moments, begin, end) / span,
    )


def report(
    plant: Plant,
    rows: Iterable[Row],
    begin: int,
    end: int,
    consoles: Collection[int] | None = None,
    before: Sequence[Plant] = (),
) -> Report:
    """The figures of the time from `begin` until `end`, which isn't in it, of the alarms of some consoles (None: of all).

    `rows` are those of the journal from its beginning, in order: what stood before `begin` counts for what is stale or waits.
    `before` are plants that were served earlier: their alarms that are gone by now were annunciated all the same.
    """
    shown = [row for row in plant.consoles if consoles is None or row.number in consoles]
    plants = (*before, plant)
    every = {area for one in plants for area in one.areas}
    areas = every if consoles is None else {area for row in shown for area in row.areas}
    known = {alarm.tag: alarm for one in plants for alarm in one.alarms}  # as the last one has it
    alarms = [alarm for alarm in known.values() if alarm.area in areas]
    tally = Tally({alarm.tag for alarm in alarms}, begin, end)
    for event in events(rows):
        tally.take(event)
    groups = [(0, areas), *((row.number, set(row.areas)) for row in shown)]
    moments = [tally.moments(alarms, group) for _, group in groups]
    counts = {
        alarm.tag: sum(begin <= moment for moment in tally.annunciations.get(alarm.tag, ()))
        for alarm in alarms
    }
    order = {alarm.tag: alarm.number for alarm in alarms}
    return Report(
        begin,
        end,
        tuple(rate(group[0], found, begin, end) for group, found in zip(groups, moments)),
        days_of(plant, moments, begin),
        frequent_of(counts, order),
        chattering_of(tally, order),
        stale_of(tally, order),
        priorities_of(counts, {alarm.tag: alarm.priority for alarm in alarms}),
        acknowledgements_of(tally, end),
        shelved_of(tally, order),
    )


def begun(rows: Iterable[Row]) -> int | None:
    """The moment of the first row that a scan has added, or an order or a reload behind a scan; None where there is none. Those before
    the first scan bear the moment 0, which may be years before it."""
    by_order = False
    for row in rows:
        kind = row.words[0]
        if row.moment or not (kind in ("ORDER", "RELOAD") or (by_order and kind == "ALARM")):
            return row.moment
        by_order = kind == "ORDER" and row.words[-1] == "OK"
    return None


def days_of(plant: Plant, moments: Sequence[Sequence[int]], begin: int) -> tuple[Day, ...]:
    """The annunciations of each day (UTC) that has some, the last MOST_DAYS of them."""
    counted: list[Counter[str]] = [
        Counter(civil(plant.time(moment))[:10] for moment in found if moment >= begin)
        for found in moments
    ]
    days = sorted(set().union(*counted))[-MOST_DAYS:]
    return tuple(Day(day, tuple(counter[day] for counter in counted)) for day in days)


def frequent_of(counts: dict[str, int], order: dict[str, int]) -> tuple[Frequent, ...]:
    """The alarms with most annunciations; of equal ones that which stands first in the alarm file."""
    total = sum(counts.values())
    found = sorted(
        (tag for tag in counts if counts[tag]), key=lambda tag: (-counts[tag], order[tag])
    )
    return tuple(Frequent(tag, counts[tag], counts[tag] / total) for tag in found[:MOST_LISTED])


def chattering_of(tally: Tally, order: dict[str, int]) -> tuple[Chattering, ...]:
    """The alarms that chattered, the worst first."""
    found = []
    for tag, moments in tally.annunciations.items():
        counted = [moment for moment in moments if moment >= tally.begin]
        largest, at = largest_window(counted, MINUTE)
        if largest >= CHATTER and at is not None:
            found.append(Chattering(tag, largest, at))
    return tuple(sorted(found, key=lambda row: (-row.largest, order[row.tag])))


def stale_of(tally: Tally, order: dict[str, int]) -> tuple[Stale, ...]:
    """The alarms that stand for more than a day, the oldest first."""
    found = [
        Stale(tag, since, tally.codes[tag][0].value)
        for tag, since in tally.standing.items()
        if tally.end - since > DAY
    ]
    return tuple(sorted(found, key=lambda row: (row.since, order[row.tag])))


def priorities_of(counts: dict[str, int], priority: dict[str, int]) -> tuple[PriorityShare, ...]:
    """The annunciations by priority, from the highest."""
    sums: Counter[int] = Counter()
    for tag, count in counts.items():
        sums[priority[tag]] += count
    total = sum(sums.values()) or 1
    return tuple(
        PriorityShare(number, name, sums[number], sums[number] / total, recommended)
        for number, name, recommended in PRIORITIES
    )


def acknowledgements_of(tally: Tally, end: int) -> Acknowledgements:
    """How long it took until alarms were acknowledged, and which still wait."""
    waits = tally.waits
    return Acknowledgements(
        len(waits),
        median(waits) if waits else None,
        fmean(waits) if waits else None,
        max(waits, default=None),
        tally.aside,
        len(tally.waiting),
        max((end - since for since in tally.waiting.values()), default=None),
    )


def shelved_of(tally: Tally, order: dict[str, int]) -> tuple[Shelved, ...]:
    """What is shelved at the end, in the order of the alarm file."""
    found = []
    for tag, (code, moment) in tally.codes.items():
        if code is Code.SHELVED:
            by = tally.shelvings.get(tag)
            until = by.moment + by.milliseconds if by else None
            found.append(Shelved(tag, moment, until, by.console if by else None))
    return tuple(sorted(found, key=lambda row: order[row.tag]))
