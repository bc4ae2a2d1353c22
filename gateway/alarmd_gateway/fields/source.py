"""What all sources share: they give samples, tell their troubles, and are read again after a loss, later and later."""

from __future__ import annotations

import abc
import asyncio
import time
from collections.abc import Callable
from typing import Final, Protocol

from ..mapping import Retry
from ..model import BadSample, Plant, Sample, Value
from ..samples import Ages
from ..troubles import TroubleKind, Troubles

BAD_SECONDS: Final = 60.0  # for so long a bad sample is a trouble
UNKNOWN: Final = "?"  # stands for all names that are no input's


class Lost(Exception):
    """A source can't be read now. The text says why."""


class Taker(Protocol):
    """What sources want of the core."""

    @property
    def plant(self) -> Plant:
        """The plant whose inputs they bring."""

    @property
    def troubles(self) -> Troubles:
        """Where troubles are told."""

    async def offer(self, sample: Sample) -> None:
        """Takes a sample; raises BadSample."""


class Intake:
    """Gives samples to the core. A sample that can't be taken is a trouble of its source and its input, until one that can comes,
    or for a minute after the last one."""

    def __init__(self, taker: Taker, ages: Ages, clock: Callable[[], float] = time.monotonic):
        """`clock` gives seconds."""
        self.taker = taker
        self.troubles = taker.troubles
        self._ages = ages
        self._clock = clock
        self._bad: dict[str, float] = {}  # when the last bad sample came, by the trouble's subject

    async def give(
        self, source: str, name: str, value: Value | str, fresh: bool = True
    ) -> str | None:
        """Gives a sample. Returns why it isn't taken, where it isn't."""
        variable = self.taker.plant.inputs.get(name.lower())
        known = (
            UNKNOWN if variable is None else variable.name
        )  # one trouble for all names that are none
        try:
            await self.taker.offer(Sample(name, value, source, fresh))
        except BadSample as fault:
            self.bad(source, known, str(fault))
            return str(fault)
        self.good(source, known)
        return None

    def sampled(self, name: str) -> None:
        """A sample of an input has come to the core, from whatever source."""
        self._ages.saw(name, self._clock())

    def bad(self, source: str, name: str, words: str) -> None:
        """A value of an input can't be taken from this source: a trouble for a minute, unless a good one comes."""
        self.fails(source, name, words)
        self._bad[f"{source} {name}"] = self._clock()

    def fails(self, source: str, name: str, words: str) -> None:
        """An input can't be had from this source, or an output not be written there: a trouble until `good`, also where a bad value
        came before."""
        self._bad.pop(f"{source} {name}", None)
        self.troubles.raises(TroubleKind.SOURCE, f"{source} {name}", f"{source}: {words}")

    def good(self, source: str, name: str) -> None:
        """It can now."""
        self._bad.pop(f"{source} {name}", None)
        self.troubles.clear(TroubleKind.SOURCE, f"{source} {name}")

    def look(self) -> None:
        """Raises and clears the troubles of inputs that are stale, and clears those of bad samples after a while. One that the plant has no
        longer isn't stale."""
        now, inputs = self._clock(), self.taker.plant.inputs
        stale = {it.name: it for it in self._ages.stale(now) if it.name.lower() in inputs}
        for name in self._ages.names():
            if name in stale:
                words = f"no sample of {name} for more than {stale[name].limit:g} s: its last value is used"
                self.troubles.raises(TroubleKind.STALE, name, words)
            else:
                self.troubles.clear(TroubleKind.STALE, name)
        for subject in [it for it, came in self._bad.items() if now - came > BAD_SECONDS]:
            del self._bad[subject]
            self.troubles.clear(TroubleKind.SOURCE, subject)


class Backoff:
    """How long to wait before the next try: twice as long each time, up to the most."""

    def __init__(self, retry: Retry) -> None:
        self._retry = retry
        self._next = retry.first

    def wait(self) -> float:
        """Seconds until the next try."""
        seconds, self._next = self._next, min(self._next * 2, self._retry.most)
        return seconds

    def reset(self) -> None:
        """The source was there: the next loss is tried soon again."""
        self._next = self._retry.first


class Source(abc.ABC):
    """A source of samples, and a place where outputs are written."""

    def __init__(self, name: str, retry: Retry, intake: Intake) -> None:
        self.name = name
        self.intake = intake
        self._backoff = Backoff(retry)
        self._outputs: asyncio.Queue[tuple[str, Value]] = asyncio.Queue()
        self.may_write: Callable[[], bool] = lambda: True  # asked right before each output
        self.is_up = False

    @abc.abstractmethod
    async def session(self, current: Callable[[], dict[str, Value]]) -> None:
        """Reads and writes until the source is lost, and then raises Lost; returns where it has ended for good. Calls `up` once
        it is there, and writes the outputs that it has then: `current` gives all of them, by their names as declared.
        """

    async def run(self, current: Callable[[], dict[str, Value]]) -> None:
        """Sessions, one after another. A loss is a trouble until the source is there again."""
        while True:
            try:
                await self.session(current)
                return
            except Lost as fault:
                words = f"{self.name} is lost: {fault}"
            except (
                Exception
            ) as fault:  # whatever a library raises ends neither the gateway nor another source
                words = f"{self.name} is lost: {type(fault).__name__}: {fault}"
            finally:
                self.is_up = False
            self.intake.troubles.raises(TroubleKind.SOURCE, self.name, words)
            await asyncio.sleep(self._backoff.wait())

    def up(self) -> None:
        """The source is there."""
        self.is_up = True
        self._backoff.reset()
        self._outputs = asyncio.Queue()
        self.intake.troubles.clear(TroubleKind.SOURCE, self.name)

    def put_output(self, name: str, value: Value) -> None:
        """An output has this value now. One that changes while the source is lost is written when that is back, as it is then."""
        if self.is_up:
            self._outputs.put_nowait((name, value))

    async def next_output(self) -> tuple[str, Value]:
        """Waits for an output that is to be written."""
        return await self._outputs.get()

    def waiting_outputs(self) -> list[tuple[str, Value]]:
        """The outputs that are to be written now, in order."""
        waiting = []
        while not self._outputs.empty():
            waiting.append(self._outputs.get_nowait())
        return waiting

    def close(self) -> None:
        """Nothing more is read or written."""
