"""Samples that wait for a scan, and how old the last sample of each input is."""

from __future__ import annotations

from collections import deque
from collections.abc import Callable, Iterator, Mapping
from dataclasses import dataclass

from .model import Value


class QueueFull(Exception):
    """So many samples wait that another one has no room."""


class SampleQueue:
    """Samples in the order in which they came, as the scans that take them.

    A sample goes to the scan that is to come last, unless that one has another value of its input already: then it begins a scan after
    it. So each distinct value of an input is taken by some scan, in order, and no scan sees a sample before one that came earlier. A
    sample whose value its input has already waits for nothing."""

    def __init__(self, room: int = 10_000) -> None:
        """`room` is for how many scans samples may wait."""
        self._room = room
        self._last: dict[str, Value] = {}
        self._scans: deque[dict[str, Value]] = deque()
        self._count = 0

    def put(self, name: str, value: Value) -> None:
        """Takes a value of an input, by its name as declared. Raises QueueFull, and then it isn't taken."""
        if name in self._last and self._last[name] == value:
            return
        if not self._scans or name in self._scans[-1]:
            if self.full:
                raise QueueFull(f"samples wait for {self._room} scans")
            self._scans.append({})
        self._scans[-1][name] = value
        self._last[name] = value
        self._count += 1

    def take(self) -> dict[str, Value]:
        """The values for the next scan, which no longer wait; none where nothing waits."""
        values = self._scans.popleft() if self._scans else {}
        self._count -= len(values)
        return values

    def __len__(self) -> int:
        """How many values wait, of all inputs."""
        return self._count

    @property
    def pressed(self) -> bool:
        """Whether one scan can't take all that waits: then a scan is due at once."""
        return len(self._scans) > 1

    @property
    def room(self) -> int:
        """For how many scans more samples may wait."""
        return self._room - len(self._scans)

    @property
    def full(self) -> bool:
        """Whether a value that wants a scan of its own has no room."""
        return self.room <= 0

    def refitted(self, fit: Callable[[str, Value], tuple[str, Value] | None]) -> SampleQueue:
        """The same samples, as they fit another plant; those that don't are left out."""
        new = SampleQueue(self._room)
        for scan in self._scans:
            pairs = [fit(name, value) for name, value in scan.items()]
            values = dict(pair for pair in pairs if pair is not None)
            if values:
                new._scans.append(values)
                new._last.update(values)
                new._count += len(values)
        return new

    def forget(self) -> None:
        """Lets the next sample of each input wait for a scan, whatever its value: for a server that begins anew."""
        self._last.clear()


@dataclass(frozen=True)
class Stale:
    """An input whose last sample is older than its limit. Both are seconds; the age counts from the start where there was none."""

    name: str
    age: float
    limit: float


class Ages:
    """How old the last sample of each input is. Times are seconds of a clock that nobody sets (`time.monotonic`)."""

    def __init__(self, limits: Mapping[str, float], now: float) -> None:
        """`limits` are the seconds after which an input is stale, by its name; one that isn't there never is."""
        self._limits = dict(limits)
        self._seen = {name: now for name in self._limits}

    def saw(self, name: str, now: float) -> None:
        """A sample of the input has come, of whatever value."""
        if name in self._seen:
            self._seen[name] = now

    def stale(self, now: float) -> Iterator[Stale]:
        """The inputs that are stale now, in the order of the limits."""
        for name, limit in self._limits.items():
            age = now - self._seen[name]
            if age > limit:
                yield Stale(name, age, limit)

    def names(self) -> list[str]:
        """The inputs that have a limit."""
        return list(self._limits)
