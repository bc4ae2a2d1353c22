"""The moments of scans: by a clock that nobody sets, from the time of day at the start, and never back."""

from __future__ import annotations

import time
from collections.abc import Callable
from datetime import timedelta
from typing import Final, TypeAlias

from .model import LAST_MOMENT, Plant, civil

DRIFT_MS: Final = 10_000
"""By so much the time of day may part from the moments before it is a trouble."""


Seconds: TypeAlias = Callable[[], float]


def clocks(speed: int) -> tuple[Seconds, Seconds]:
    """The time of day and a clock that nobody sets; both go `speed` times as fast from now on."""
    if speed == 1:
        return time.time, time.monotonic
    day, steady = time.time(), time.monotonic()
    gone: Seconds = lambda: (time.monotonic() - steady) * speed
    return lambda: day + gone(), lambda: steady + gone()


class Clock:
    """Gives the moment of each scan. Until `start` the time of day may still be put right."""

    def __init__(
        self,
        plant: Plant,
        last: int | None,
        gap_ms: int,
        day: Seconds = time.time,
        steady: Seconds = time.monotonic,
    ) -> None:
        """`last` is the moment of the record's last scan, None where it has none; `gap_ms` is how far from it the first moment
        may be unasked. `day` gives the seconds since 1970, `steady` those of a clock that nobody sets.
        """
        self._plant = plant
        self._last = last
        self._gap_ms = gap_ms
        self._day = day
        self._steady = steady
        self._start: tuple[int, float] | None = None

    def _by_day(self) -> int:
        """The moment by the time of day."""
        return int((self._day() - self._plant.epoch.timestamp()) * 1000)

    def doubt(self) -> str | None:
        """Why somebody should be asked before the first scan; None where the first moment is as it should be."""
        now, last = self._by_day(), self._last
        if now < 0:
            epoch = civil(self._plant.epoch)
            return f"the plant's epoch, {epoch}, is in the future: moments would begin at 0, and the journal's times be wrong"
        if now > LAST_MOMENT:
            return "the plant's epoch is too long ago: no scan can have the moment that it is now"
        if last is None or abs(now - last) <= self._gap_ms:
            return None
        days = abs(now - last) / 86_400_000
        was, would = civil(self._plant.time(last)), civil(self._plant.time(now))
        if now > last:
            return (
                f"the record's last scan was at {was}, and now it is {would}, {days:.1f} days later: timers will have run out"
                " and shelvings ended, and a moment can't be undone"
            )
        return f"the record's last scan was at {was}, and now it is {would}, {days:.1f} days before: moments would go on from there, and the journal's times be wrong"

    @property
    def started(self) -> bool:
        """Whether moments are given."""
        return self._start is not None

    def start(self) -> None:
        """From now on moments go by the steady clock."""
        moment = max(self._by_day(), self._last or 0, 0)
        self._start = moment, self._steady()

    def now(self) -> int:
        """The moment that it is. Never before one that was given earlier, and never after the last one that a scan may have."""
        if self._start is None:
            self.start()
        assert self._start is not None
        moment, begin = self._start
        found = moment + int((self._steady() - begin) * 1000)
        self._last = min(max(found, self._last or 0), LAST_MOMENT)
        return self._last

    def drift_ms(self) -> int:
        """By how much the time of day is ahead of the moments; below 0 where it is behind."""
        return self._by_day() - self.now()


def span(milliseconds: int) -> str:
    """A duration for a person: `1:30:05`."""
    return str(timedelta(seconds=abs(milliseconds) // 1000))
