"""The field: all sources of the map around a core, the outputs that are written back, and inputs that are stale."""

from __future__ import annotations

import asyncio
import contextlib
import time
from collections.abc import AsyncIterator, Callable

from .config import Config
from .console import Console
from .core import ChangeKind, Core, CutOff
from .fields.lines import LineSource
from .fields.modbus import ModbusClient
from .fields.mqtt import MqttClient
from .fields.source import Intake, Source
from .map_file import of_config
from .mapping import Map
from .model import GatewayFault, Plant, Value
from .output import Output
from .samples import Ages
from .troubles import TroubleKind

MAP = "the map"  # the subject of its trouble
LAST_SECONDS = 2.0  # for the answers to lines at the end
CHECK_SECONDS = 0.25  # between two looks at the ages of samples
MAP_SECONDS = 5.0  # between two looks at a map that doesn't fit


class Field:
    """The sources run from the start until `close`."""

    asks = False
    brings = True

    def __init__(self, core: Core, map: Map, fits: Callable[[Plant], object]) -> None:
        """`fits` raises GatewayFault where a start with a plant would be refused for the map as it stands in its file."""
        self._core = core
        self._fits = fits
        self._intake = Intake(core, Ages(dict(map.limits), time.monotonic()))
        self._spelled = {name.lower(): name for name, _ in map.limits}
        self._outputs = {one.name.lower(): one for one in map.outputs()}
        core.sampled = self._sampled
        self._left_out = False  # whether an output wasn't written that is to be, once it may
        self._another = asyncio.Event()  # another plant may have been taken up
        self._operator = Operator(core) if map.lines else None
        self._sources = sources(map, self._intake, self._operator)
        for source in self._sources:
            source.may_write = self._may_write
        running = [source.run(self._current) for source in self._sources]
        watches = [self._watch_outputs(), self._watch_samples(), self._watch_map()]
        self._tasks = [asyncio.create_task(one) for one in (*running, *watches)]

    async def close(self) -> None:
        """Ends all sources."""
        self._core.sampled = None
        for task in self._tasks:
            task.cancel()
        await asyncio.gather(*self._tasks, return_exceptions=True)
        for source in self._sources:
            source.close()
        if self._operator is not None:
            await asyncio.to_thread(self._operator.close)

    def _may_write(self) -> bool:
        """Whether an output may be written now; what is left out is written later, where this gateway leads then."""
        may = self._core.may_write
        self._left_out = self._left_out or not may
        return may

    def _current(self) -> dict[str, Value]:
        """The outputs that a source writes once it is reached: none where another gateway may lead."""
        if not self._may_write():
            return {}
        pairs = (self._mapped(*pair) for pair in self._core.state.outputs.items())
        return dict(pair for pair in pairs if pair is not None)

    def _mapped(self, name: str, value: Value) -> tuple[str, Value] | None:
        """An output as the map names it; None where the map has none of it, or of another kind: the plant may be another one by now."""
        mapped, now = self._outputs.get(name.lower()), self._core.plant.outputs.get(name.lower())
        if mapped is None or now is None or mapped.kind is not now.kind:
            return None
        return mapped.name, value

    def _sampled(self, name: str) -> None:
        """A sample of an input has come, whose name the map may spell otherwise."""
        self._intake.sampled(self._spelled.get(name.lower(), name))

    async def _watch_outputs(self) -> None:
        """Hands each change of an output to the sources, in order."""
        while True:
            changes = self._core.subscribe()
            self._put_all()
            try:
                async for change in changes:
                    if change.kind is ChangeKind.OUTPUT:
                        name, value = str(change.data["name"]), value_of(change.data["value"])
                        if (mapped := self._mapped(name, value)) is not None:
                            self._put(*mapped)
                    elif change.kind in (ChangeKind.ANEW, ChangeKind.RELOADED):
                        if change.kind is ChangeKind.RELOADED:
                            self._another.set()
                        self._put_all()
                return  # the core has closed
            except CutOff:
                self._another.set()
            finally:
                changes.close()

    def _put_all(self) -> None:
        """Hands over all outputs, as they are now."""
        self._left_out = False
        for name, value in self._current().items():
            self._put(name, value)

    async def _watch_map(self) -> None:
        """Judges the map with each plant that is taken up, and one that doesn't fit again and again: somebody may mend it."""
        fits = True
        while True:
            with contextlib.suppress(asyncio.TimeoutError):
                await asyncio.wait_for(self._another.wait(), None if fits else MAP_SECONDS)
            self._another.clear()
            fits = await self._judge()

    async def _judge(self) -> bool:
        """Whether the plant that is served could be started again with the map. Where it couldn't, that is told now, and not after a
        crash. A large map takes a while, in a thread."""
        try:
            await asyncio.to_thread(self._fits, self._core.plant)
        except GatewayFault as fault:
            words = f"the map isn't one of the plant that is served, and the next start is refused: {fault.words}"
            self._core.troubles.raises(TroubleKind.SOURCE, MAP, words)
            return False
        self._core.troubles.clear(TroubleKind.SOURCE, MAP)
        return True

    def _put(self, name: str, value: Value) -> None:
        if not self._may_write():
            return  # the leader writes outputs; all are written where this one leads
        for source in self._sources:
            source.put_output(name, value)

    async def _watch_samples(self) -> None:
        while True:
            self._intake.look()
            if self._left_out and self._core.may_write:
                self._put_all()
            await asyncio.sleep(CHECK_SECONDS)


def value_of(value: object) -> Value:
    """The value of a change, which is a BOOL or a number."""
    assert isinstance(value, int)
    return value


class Operator:
    """Answers lines as the console of standard input does, on standard output."""

    def __init__(self, core: Core) -> None:
        self._output = Output()
        self._console = Console(core, self._output)

    def put(self, line: str) -> None:
        """A line for whoever reads the answers."""
        self._output.put(line)

    async def order(self, line: str) -> None:
        """Takes an order or a question, and answers it."""

        async def alone() -> AsyncIterator[str | None]:
            yield line

        await self._console.serve(alone())

    def close(self) -> None:
        """Waits until the answers are written, at most so long as a reader is given at the end."""
        self._output.close(LAST_SECONDS)


def sources(map: Map, intake: Intake, operator: Operator | None) -> list[Source]:
    """A source for each of the map; `operator` answers lines, where there are some."""
    found: list[Source] = [LineSource(it, intake, operator) for it in map.lines if operator]
    found += [MqttClient(it, intake) for it in map.mqtt]
    found += [ModbusClient(it, intake) for it in map.modbus]
    return found


async def attach(core: Core, config: Config) -> Field | None:
    """Starts the sources of the map that `[fields]` names; None where there is none. Raises GatewayFault (status 2)."""
    map = of_config(config, core.plant)
    return None if map is None else Field(core, map, lambda plant: of_config(config, plant))
