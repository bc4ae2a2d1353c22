"""The figures of the alarm system, worked out by hand on a journal of two days.

The plant has four alarms: A (area north, priority 1), B (north, 2), C (south, 3), D (south, 4). Console 1 has both areas, console 2 south.
Two days are 172,800,000 ms, which is 288 times ten minutes.

- A comes at 0, is acknowledged after 30 s and goes. On the second day it comes at 100,000,000, is shelved for an hour after a minute, comes
  again when the hour is over (103,660,000), and is shelved for ten minutes at 172,700,000, and for ten again 50 s later: until 173,350,000.
  A further shelving is refused.
- B comes at 3,600,000, 3,620,000 and 3,640,000: three times within a minute. It is acknowledged at 3,650,000, 50 s after it came first.
- C comes eleven times, each 30 s from 7,200,000 to 7,500,000, and is acknowledged at 7,520,000, when it has gone: 320 s. Three of these take
  60 s, and that is no minute of three. The eleventh makes the flood, which lasts until ten minutes after the first: 300,000 ms.
- D comes at 10,000,000 and stays: for 162,800,000 ms, which is longer than a day.

18 annunciations: A 3, B 3, C 11, D 1. On the first day 16, of which console 2 has 12; on the second 2, and none."""

from __future__ import annotations

import json
from datetime import datetime, timezone
from pathlib import Path

import pytest

from alarmd_gateway.journal import Row
from alarmd_gateway.model import AlarmRow, ConsoleRow, Plant
from alarmd_gateway.report_table import as_json, table
from alarmd_gateway.reports import (
    Acknowledgements,
    Chattering,
    Day,
    Frequent,
    Rate,
    Shelved,
    Stale,
    begun,
    flooded,
    largest_window,
    report,
)

DAYS = 172_800_000


def plant() -> Plant:
    sites = (("A", "north", 1), ("B", "north", 2), ("C", "south", 3), ("D", "south", 4))
    alarms = tuple(
        AlarmRow(number, tag, area, priority, "c", "", False, 3_600_000, 0, "text")
        for number, (tag, area, priority) in enumerate(sites)
    )
    return Plant(
        path=Path("plant.toml"),
        name="Two areas",
        epoch=datetime(2026, 11, 23, tzinfo=timezone.utc),
        areas=("north", "south"),
        sources=(),
        alarm_file="alarms.csv",
        consoles=(ConsoleRow(1, ("north", "south")), ConsoleRow(2, ("south",))),
        alarms=alarms,
        variables=(),
        inputs={},
        outputs={},
        programs={},
        by_tag={alarm.tag: alarm for alarm in alarms},
    )


def journal(*texts: str) -> list[Row]:
    """Rows by their moments and words."""
    rows = []
    for number, text in enumerate(texts, 1):
        moment, *words = text.split()
        rows.append(Row(number, int(moment), tuple(words), None, None))
    return rows


def two_days() -> list[Row]:
    often = []
    for moment in range(7_200_000, 7_500_001, 30_000):
        was = "NORM" if moment == 7_200_000 else "RTNUN"
        often += [f"{moment} ALARM C {was} UNACK", f"{moment + 15_000} ALARM C UNACK RTNUN"]
    return journal(
        "0 ALARM A NORM UNACK",
        "30000 ORDER 1 ack A OK",
        "30000 ALARM A UNACK ACKED",
        "60000 ALARM A ACKED NORM",
        "3600000 ALARM B NORM UNACK",
        "3610000 ALARM B UNACK RTNUN",
        "3620000 ALARM B RTNUN UNACK",
        "3630000 ALARM B UNACK RTNUN",
        "3640000 ALARM B RTNUN UNACK",
        "3650000 ORDER 1 ack B OK",
        "3650000 ALARM B UNACK ACKED",
        "3700000 ALARM B ACKED NORM",
        "3700000 FAULT dose 1 DIVZERO",
        *often,
        "7520000 ORDER 2 ack C OK",
        "7520000 ALARM C RTNUN NORM",
        "10000000 ALARM D NORM UNACK",
        "10000000 ORDER 2 shelve D 99999999 O4",
        "100000000 ALARM A NORM UNACK",
        "100060000 ORDER 1 shelve A 3600000 OK",
        "100060000 ALARM A UNACK SHELVED",
        "103660000 ALARM A SHELVED UNACK",
        "172700000 ORDER 1 shelve A 600000 OK",
        "172700000 ALARM A UNACK SHELVED",
        "172750000 ORDER 1 shelve A 600000 OK",
        "172760000 ORDER 1 shelve A 3600001 O4",
    )


def test_the_two_days() -> None:
    made = report(plant(), two_days(), 0, DAYS)
    flood = 300_000 / DAYS
    assert made.rates == (
        Rate(0, 18, 18 / 288, 9.0, 11, 7_200_000, flood),
        Rate(1, 18, 18 / 288, 9.0, 11, 7_200_000, flood),
        Rate(2, 12, 12 / 288, 6.0, 11, 7_200_000, flood),
    )
    assert made.days == (Day("2026-11-23", (16, 16, 12)), Day("2026-11-24", (2, 2, 0)))
    assert made.frequent == (
        Frequent("C", 11, 11 / 18),
        Frequent("A", 3, 3 / 18),
        Frequent("B", 3, 3 / 18),
        Frequent("D", 1, 1 / 18),
    )
    assert made.chattering == (Chattering("B", 3, 3_600_000),)
    assert made.stale == (Stale("D", 10_000_000, "UNACK"),)
    assert [(row.priority, row.count, row.share, row.recommended) for row in made.priorities] == [
        (1, 3, 3 / 18, "less than 1 %"),
        (2, 3, 3 / 18, "5 %"),
        (3, 11, 11 / 18, "15 %"),
        (4, 1, 1 / 18, "80 %"),
    ]
    assert made.acknowledgements == Acknowledgements(
        3, 50_000, 400_000 / 3, 320_000, 2, 1, 162_800_000
    )
    assert made.shelved == (Shelved("A", 172_700_000, 173_350_000, 1),)


def test_a_console_sees_its_own_areas_alone() -> None:
    made = report(plant(), two_days(), 0, DAYS, {2})
    assert [(row.console, row.count) for row in made.rates] == [(0, 12), (2, 12)]
    assert [row.tag for row in made.frequent] == ["C", "D"]
    assert made.chattering == () and made.shelved == ()
    assert made.acknowledgements == Acknowledgements(
        1, 320_000, 320_000, 320_000, 0, 1, 162_800_000
    )


def test_the_second_day_counts_what_came_in_it_and_what_stood_before_it() -> None:
    made = report(plant(), two_days(), 86_400_000, DAYS)
    assert made.rates[0] == Rate(0, 2, 2 / 144, 2.0, 1, 100_000_000, 0.0)
    assert made.stale == (Stale("D", 10_000_000, "UNACK"),)
    assert made.acknowledgements == Acknowledgements(0, None, None, None, 2, 1, 162_800_000)


def test_a_flood_that_began_before_the_time_goes_on_in_it() -> None:
    # until 7,800,000: 250,000 of 400,000 ms, though nothing is annunciated in them
    made = report(plant(), two_days(), 7_550_000, 7_950_000)
    assert made.rates[0] == Rate(0, 0, 0.0, 0.0, 0, None, 0.625)


def test_the_end_isnt_in_the_time() -> None:
    rows = two_days()
    assert report(plant(), rows, 0, 100_000_000).rates[0].count == 16
    assert report(plant(), rows, 0, 100_000_001).rates[0].count == 17
    # D stands for a day to the millisecond, and then longer
    assert report(plant(), rows, 0, 96_400_000).stale == ()
    assert report(plant(), rows, 0, 96_400_001).stale == (Stale("D", 10_000_000, "UNACK"),)
    # shelved until its end is seen
    assert report(plant(), rows, 0, 103_660_000).shelved == (
        Shelved("A", 100_060_000, 103_660_000, 1),
    )
    assert report(plant(), rows, 0, 103_660_001).shelved == ()


def test_what_stands_is_stale_whatever_becomes_of_it() -> None:
    rows = journal(
        "0 ALARM A NORM UNACK",
        "50000000 ALARM A UNACK RTNUN",
        "86000000 ALARM A RTNUN UNACK",
        "0 ALARM B NORM UNACK",
        "50000000 ALARM B UNACK SHELVED",
        "86000000 ALARM B SHELVED UNACK",
    )
    assert report(plant(), rows, 0, 86_400_001).stale == (Stale("A", 0, "UNACK"),)


def test_a_short_time_isnt_extrapolated() -> None:
    made = report(plant(), two_days(), 0, 60_000)
    assert made.rates[0] == Rate(0, 1, 1.0, 1.0, 1, 0, 0.0)
    hour = report(plant(), two_days(), 3_600_000, 7_200_000)
    assert hour.rates[0] == Rate(0, 3, 0.5, 3.0, 3, 3_600_000, 0.0)


def test_a_plant_without_alarms_and_a_journal_without_rows() -> None:
    made = report(plant(), [], 0, 0)
    assert made.rates[0] == Rate(0, 0, 0.0, 0.0, 0, None, 0.0)
    assert made.frequent == () and made.days == () and made.priorities[0].share == 0.0


@pytest.mark.parametrize(
    ("moments", "most"),
    [
        ([], (0, None)),
        ([5], (1, 5)),
        ([0, 599_999], (2, 0)),
        ([0, 600_000], (1, 0)),
        ([0, 600_000, 600_001, 1_199_999], (3, 600_000)),
        ([7, 7, 7], (3, 7)),
    ],
)
def test_the_largest_window(moments: list[int], most: tuple[int, int | None]) -> None:
    assert largest_window(moments, 600_000) == most


def test_the_time_in_flood() -> None:
    eleven = list(range(0, 110, 10))  # the eleventh at 100: until 600,000
    assert flooded(eleven[:10], 0, 10**9) == 0
    assert flooded(eleven, 0, 10**9) == 599_900
    assert flooded(eleven, 200, 500_000) == 499_800  # what lies outside isn't counted
    # a twelfth at 500,000 goes on from the second's end: until 600,010
    assert flooded([*eleven, 500_000], 0, 10**9) == 599_910
    # two floods apart
    assert flooded([*eleven, *(moment + 10**7 for moment in eleven)], 0, 10**9) == 2 * 599_900
    # eleven that take ten minutes to the millisecond are none
    assert flooded(list(range(0, 600_001, 60_000)), 0, 10**9) == 0


def test_the_figures_as_a_table() -> None:
    lines = table(plant(), report(plant(), two_days(), 0, DAYS))
    assert lines[0] == ["figure", "of", "value", "recommended"]
    assert ["until", "", "2026-11-25T00:00:00.000Z", ""] in lines
    assert ["annunciations", "console 2", "12", ""] in lines
    assert ["time in flood", "all", "0.17 %", "less than 1 %"] in lines
    assert ["largest from", "all", "2026-11-23T02:00:00.000Z", ""] in lines
    assert ["share", "C", "61.11 %", "1 to 5 % by all ten"] in lines
    assert ["chattering", "B", "3", "none"] in lines
    assert ["share", "priority 4 (low)", "5.56 %", "80 %"] in lines
    assert ["longest time to acknowledgement, ms", "", "320000", ""] in lines
    assert ["shelved until", "A", "2026-11-25T00:09:10.000Z", ""] in lines
    assert all(len(line) == 4 for line in lines)


def test_the_figures_as_json() -> None:
    made = as_json(plant(), report(plant(), two_days(), 0, DAYS))
    assert json.loads(json.dumps(made)) == made
    assert made["end"] == DAYS and made["end_time"] == "2026-11-25T00:00:00.000Z"
    assert made["shelved"] == [
        {
            "tag": "A",
            "since": 172_700_000,
            "since_time": "2026-11-24T23:58:20.000Z",
            "until": 173_350_000,
            "until_time": "2026-11-25T00:09:10.000Z",
            "console": 1,
        }
    ]
    assert as_json(plant(), report(plant(), [], 0, 0))["rates"] == [
        {
            "console": number,
            "count": 0,
            "per_ten_minutes": 0.0,
            "per_day": 0.0,
            "largest": 0,
            "largest_at": None,
            "largest_at_time": None,
            "flood": 0.0,
        }
        for number in (0, 1, 2)
    ]


@pytest.mark.parametrize(
    ("rows", "moment"),
    [
        ([], None),
        (["0 ORDER 1 ack A O3", "0 ORDER 1 remove A OK", "0 ALARM A NORM OOS"], None),
        (["0 ORDER 1 remove A OK", "0 ALARM A NORM OOS", "9 ALARM B NORM UNACK"], 9),
        (["0 RELOAD KEPT 4 NEW 0", "9 ORDER 1 ack A O3"], 9),
        (["0 ORDER 1 remove A OK", "0 ALARM A NORM OOS", "0 ALARM B NORM UNACK"], 0),
        (["0 ORDER 1 ack A O3", "0 ALARM A NORM UNACK", "9 ALARM B NORM UNACK"], 0),
        (["0 ALARM A NORM UNACK", "9 ALARM B NORM UNACK"], 0),
        (["0 FAULT dose 1 DIVZERO", "9 ALARM B NORM UNACK"], 0),
    ],
)
def test_orders_before_the_first_scan_begin_nothing(rows: list[str], moment: int | None) -> None:
    assert begun(journal(*rows)) == moment
