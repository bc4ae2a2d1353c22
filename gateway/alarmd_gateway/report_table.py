"""The figures of an alarm system as a table for CSV, and as JSON: each beside what ISA-18.2 recommends. Times are civil (UTC)."""

from __future__ import annotations

from dataclasses import asdict

from .model import Json, Plant, civil
from .reports import Rate, Report

Line = list[str]

# What the standard calls likely to be acceptable, for one operator.
RECOMMENDED = {
    "per_ten_minutes": "about 1, at most 2",
    "per_day": "about 150, at most 300",
    "largest": "at most 10",
    "flood": "less than 1 %",
    "frequent": "1 to 5 % by all ten",
    "chattering": "none",
    "stale": "fewer than 5 on any day",
}

WAITS = {
    "count": "acknowledgements",
    "median": "median time to acknowledgement, ms",
    "mean": "mean time to acknowledgement, ms",
    "largest": "longest time to acknowledgement, ms",
    "aside": "put aside while they waited",
    "waiting": "waiting at the end",
    "longest": "longest wait until the end, ms",
}


def table(plant: Plant, made: Report) -> list[Line]:
    """The report as rows of four fields, the first a header: the figure, of what, its value, and the recommended one."""
    return [
        ["figure", "of", "value", "recommended"],
        ["from", "", time(plant, made.begin), ""],
        ["until", "", time(plant, made.end), ""],
        *(line for row in made.rates for line in rate_lines(plant, row)),
        *day_lines(made),
        *alarm_lines(plant, made),
        *priority_lines(made),
        *wait_lines(made),
    ]


def time(plant: Plant, moment: int | None) -> str:
    """The civil time of a moment, and nothing where there is none."""
    return "" if moment is None else civil(plant.time(moment))


def percent(share: float) -> str:
    """A share as the table has it."""
    return f"{100 * share:.2f} %"


def name_of(row: Rate) -> str:
    """Of whom a rate is."""
    return f"console {row.console}" if row.console else "all"


def rate_lines(plant: Plant, row: Rate) -> list[Line]:
    """A console's rates."""
    of = name_of(row)
    return [
        ["annunciations", of, str(row.count), ""],
        ["per ten minutes", of, f"{row.per_ten_minutes:.3f}", RECOMMENDED["per_ten_minutes"]],
        ["per day", of, f"{row.per_day:.1f}", RECOMMENDED["per_day"]],
        ["largest in ten minutes", of, str(row.largest), RECOMMENDED["largest"]],
        ["largest from", of, time(plant, row.largest_at), ""],
        ["time in flood", of, percent(row.flood), RECOMMENDED["flood"]],
    ]


def day_lines(made: Report) -> list[Line]:
    """The annunciations of each day and console."""
    return [
        [f"annunciations on {day.day}", name_of(row), str(count), RECOMMENDED["per_day"]]
        for day in made.days
        for row, count in zip(made.rates, day.counts)
    ]


def alarm_lines(plant: Plant, made: Report) -> list[Line]:
    """What is told of single alarms: the most frequent, those that chatter, the stale and the shelved ones."""
    lines: list[Line] = []
    for often in made.frequent:
        lines.append(["most frequent", often.tag, str(often.count), ""])
        lines.append(["share", often.tag, percent(often.share), RECOMMENDED["frequent"]])
    for chatter in made.chattering:
        lines.append(["chattering", chatter.tag, str(chatter.largest), RECOMMENDED["chattering"]])
    for stale in made.stale:
        lines.append(["stale since", stale.tag, time(plant, stale.since), RECOMMENDED["stale"]])
    for shelf in made.shelved:
        lines.append(["shelved until", shelf.tag, time(plant, shelf.until), ""])
    return lines


def priority_lines(made: Report) -> list[Line]:
    """The annunciations by priority."""
    lines: list[Line] = []
    for part in made.priorities:
        of = f"priority {part.priority} ({part.name})"
        lines.append(["annunciations", of, str(part.count), ""])
        lines.append(["share", of, percent(part.share), part.recommended])
    return lines


def wait_lines(made: Report) -> list[Line]:
    """The times to acknowledgement."""
    return [
        [WAITS[name], "", "" if value is None else f"{value:.0f}", ""]
        for name, value in asdict(made.acknowledgements).items()
    ]


def as_json(plant: Plant, made: Report) -> dict[str, Json]:
    """The fields of Report; beside each moment its civil time, and `recommended` by figure."""
    found: dict[str, Json] = timed(plant, asdict(made))
    found["recommended"] = dict(RECOMMENDED)
    return found


MOMENTS = {"begin", "end", "largest_at", "at", "since", "until"}


def timed(plant: Plant, fields: dict[str, object]) -> dict[str, Json]:
    """Fields as JSON; those that are moments have their civil time beside them, as `NAME_time`."""
    found: dict[str, Json] = {}
    for name, value in fields.items():
        found[name] = plain(plant, value)
        if name in MOMENTS:
            found[f"{name}_time"] = time(plant, value) or None if isinstance(value, int) else None
    return found


def plain(plant: Plant, value: object) -> Json:
    """A value of a report as JSON."""
    if isinstance(value, dict):
        return timed(plant, value)
    if isinstance(value, (list, tuple)):
        return [plain(plant, one) for one in value]
    if value is None or isinstance(value, (bool, int, float, str)):
        return value
    raise TypeError(f"no JSON for {value!r}")
