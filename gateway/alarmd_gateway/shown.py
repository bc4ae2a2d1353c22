"""Snapshots and the plant's table as JSON. Many displays want the same ones at once, behind a new start, a new record or a reload: with
20,000 alarms each takes a tenth of a second of the one loop, in which no display has a beat. So the last ones are kept."""

from __future__ import annotations

import time
from collections.abc import Callable
from typing import Final

from .core import Core, Snapshot
from .guard import compact
from .model import Plant
from .view import View

FRESH: Final = 0.5  # seconds for which a snapshot is taken again, where no change has come since
MOST: Final = 50  # texts that are kept of one snapshot, and of one plant

Clock = Callable[[], float]  # seconds, of a clock that nobody sets
Which = tuple[tuple[str, ...], bool]  # the areas of a view, and whether it shows everything


class Wholes:
    """The last snapshot of the core, with or without the alarms that are NORM, and its texts for views."""

    def __init__(self, core: Core, normal: bool, clock: Clock) -> None:
        self._core, self._normal, self._clock = core, normal, clock
        self._last: Snapshot | None = None
        self._made = 0.0
        self._texts: dict[Which, str] = {}

    def of(self, view: View) -> tuple[int, str]:
        """The snapshot's number, and it as JSON for a view."""
        last, now = self._last, self._clock()
        if last is None or last.number != self._core.number or now >= self._made + FRESH:
            last = self._last = self._core.snapshot(self._normal)
            self._made = now
            self._texts.clear()
        which = view.areas, view.everything
        text = self._texts.get(which)
        if text is None:
            text = compact(view.snapshot(last, self._normal))
            if len(self._texts) < MOST:
                self._texts[which] = text
        return last.number, text


class Shown:
    """What displays begin with, as JSON."""

    def __init__(self, core: Core, clock: Clock = time.monotonic) -> None:
        self._core = core
        self._wholes = {normal: Wholes(core, normal, clock) for normal in (False, True)}
        self._plant: Plant | None = None
        self._tables: dict[tuple[int, ...], str] = {}

    def snapshot(self, view: View, normal: bool) -> tuple[int, str]:
        """The number of the last change, and all that a view shows after it; without `normal` alarms that are NORM are left out."""
        return self._wholes[normal].of(view)

    def table(self, view: View) -> str:
        """What doesn't change while a plant is served."""
        if self._plant is not view.plant:
            self._plant = view.plant
            self._tables.clear()
        consoles = tuple(row.number for row in view.consoles)
        text = self._tables.get(consoles)
        if text is None:
            text = compact(view.table())
            if len(self._tables) < MOST:
                self._tables[consoles] = text
        return text
