"""The last sample of each input, which a gateway that doesn't lead keeps for when it does."""

from __future__ import annotations

import time
from collections.abc import Callable, Iterable
from dataclasses import dataclass

from .clock import Seconds
from .model import Value


@dataclass(frozen=True)
class Heard:
    """A value of an input, and when its sample came: by the time of day, and by a clock that nobody sets."""

    value: Value
    day: float
    steady: float


class Latest:
    """Those samples that the log has no newer values for. A source that this gateway has lost long ago, or that brings another gateway
    more, tells nothing of what is there now."""

    def __init__(
        self, older: float, day: Seconds = time.time, steady: Seconds = time.monotonic
    ) -> None:
        """A sample that is older than a value of the log by more than `older` seconds counts no more. Not even where the clocks of
        two machines differ, or this gateway is late, does another one: so it has to be older by both clocks.
        """
        self._older = older
        self._day = day
        self._steady = steady
        self._heard: dict[str, Heard] = {}

    def put(self, name: str, value: Value) -> None:
        """A sample of an input, by its name as declared."""
        self._heard[name] = Heard(value, self._day(), self._steady())

    def overtaken(self, names: Iterable[str], day: float) -> None:
        """The log has values of these inputs, as of this time of day, and this gateway has them now."""
        before, now = day - self._older, self._steady() - self._older
        for name in names:
            one = self._heard.get(name)
            if one is not None and one.day < before and one.steady < now:
                del self._heard[name]

    def values(self) -> list[tuple[str, Value]]:
        """What there is, by the inputs' names."""
        return [(name, one.value) for name, one in self._heard.items()]

    def refit(self, fit: Callable[[str, Value], tuple[str, Value] | None]) -> None:
        """The same samples, as they fit another plant; those that don't are left out."""
        heard, self._heard = self._heard, {}
        for old, one in heard.items():
            found = fit(old, one.value)
            if found is not None:
                name, value = found
                self._heard[name] = Heard(value, one.day, one.steady)
