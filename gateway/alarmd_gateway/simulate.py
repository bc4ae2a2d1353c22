"""`gateway simulate PLANT MODEL`: a plant whose field is a model of it, served by a second `alarmd`.

A model is a plant of its own, in the same language. Its outputs that bear the names of the plant's inputs are these inputs; its
inputs that bear the names of the plant's outputs are these outputs. Its input `elapsed_ms`, where it has one, is the time since its
scan before. All its other inputs are disturbances, which a person may set.

Before each scan of the plant the model has one, at the same moment: so the plant sees what its outputs have done."""

from __future__ import annotations

import asyncio
import dataclasses
import tempfile
from collections.abc import Mapping
from pathlib import Path

from . import plant as plants
from . import serve
from .commands import Scan, fit
from .config import WORDS_STATUS, Config
from .core import Core
from .fields.source import Backoff
from .mapping import Retry
from .model import GatewayFault, Kind, Plant, Sample, Value, Variable
from .programs import find_alarmd
from .server import Server
from .state import State
from .troubles import TroubleKind
from .words import Words, called

ELAPSED = "elapsed_ms"
SOURCE = "model"
LONGEST_STEP = 2**31 - 1  # milliseconds that a DINT can tell


class Model:
    """The model's server, and what it was given. It begins anew where that has ended."""

    def __init__(self, plant: Plant, config: Config) -> None:
        self.plant = plant
        self._config = config
        self._server: Server | None = None
        self._state = State(plant)
        self._moment: int | None = None  # of its last scan
        self.given: dict[str, Value] = {}  # what its inputs are to be

    async def step(self, moment: int) -> Mapping[str, Value]:
        """One scan of the model at the moment of a scan of the plant, and what the model's outputs are then. Raises
        GatewayFault."""
        if self._server is None:
            alarmd, patience = self._config.alarmd, self._config.patience_ms
            self._server = await Server.start(alarmd, self.plant.path, patience)
            self._state, self._moment = State(self.plant), None
        elapsed = 0 if self._moment is None else moment - self._moment
        wanted = dict(self.given)
        if (name := self.elapsed) is not None:
            wanted[name] = min(elapsed, LONGEST_STEP)
        inputs = self._state.inputs
        changed = {name: value for name, value in wanted.items() if inputs[name] != value}
        scan = Scan(moment, changed)
        answer = await self._server.ask(scan.line())
        if not answer[-1].startswith("DONE"):
            raise GatewayFault(f"the model's scan was answered {answer[-1]}", 1)
        self._state.scan(scan.moment, scan.given, answer)
        self._moment = moment
        return self._state.outputs

    @property
    def elapsed(self) -> str | None:
        """The name of the input that takes the time since the scan before."""
        variable = self.plant.inputs.get(ELAPSED)
        return None if variable is None else variable.name

    def stopped(self) -> list[str]:
        """The model's programs that have stopped."""
        return [one.program for one in self._state.stopped.values()]

    def value(self, name: str) -> Value:
        """What an input of the model is to be."""
        return self.given.get(name, self._state.inputs[name])

    async def end(self) -> None:
        """Ends the server, where there is one."""
        server, self._server = self._server, None
        if server is not None:
            await server.kill()


class Simulation:
    """The model around a core, as a part of the gateway."""

    asks = False
    brings = False

    def __init__(self, core: Core, config: Config, model: Plant) -> None:
        self._core = core
        self._model = Model(model, config)
        self._share(core.plant)
        self._backoff = Backoff(Retry(0.5, 30.0))
        self._not_before = 0.0  # seconds of the loop's clock

    def has(self, name: str) -> bool:
        """Whether there is a disturbance of this name, in any letter case."""
        return name.lower() in self.disturbances

    def disturb(self, name: str, value: Value | str) -> None:
        """Sets a disturbance, from the next scan on. Raises BadSample where there is none of the name, or the value doesn't fit."""
        free = dataclasses.replace(self._model.plant, inputs=self.disturbances)
        variable, found = fit(free, name, value)
        self._model.given[variable.name] = found

    def values(self) -> list[tuple[Variable, Value]]:
        """The disturbances, and what each is."""
        return [(one, self._model.value(one.name)) for one in self.disturbances.values()]

    async def close(self) -> None:
        """Ends the model."""
        self._core.before_scan = None
        await self._model.end()

    async def begin(self) -> None:
        """A scan of the model, since the plant's first scan waits for samples. The model begins anew with that one: the time until then,
        from the plant's epoch or the record's last scan, is none that its timers may see. Raises GatewayFault.
        """
        outputs = await self._stepped(self._core.state.moment)
        await self._model.end()
        await self._offer(outputs)  # from here on the plant may have its first scan

    async def step(self, moment: int) -> None:
        """The model's scan at a moment, whose outputs become samples. A model whose server has ended is a trouble, until it runs
        again from its beginning; meanwhile the plant's inputs keep their values."""
        now, troubles = asyncio.get_running_loop().time(), self._core.troubles
        if now < self._not_before:
            return
        try:
            await self._offer(await self._stepped(moment))
        except GatewayFault as fault:
            await self._model.end()
            self._not_before = now + self._backoff.wait()
            words = f"the model is lost, and begins anew: {fault.words}"
            troubles.raises(TroubleKind.SOURCE, SOURCE, words)
            return
        self._backoff.reset()
        if stopped := self._model.stopped():
            words = f"programs of the model have stopped: {', '.join(stopped)}"
            troubles.raises(TroubleKind.SOURCE, SOURCE, words)
        else:
            troubles.clear(TroubleKind.SOURCE, SOURCE)

    def _share(self, plant: Plant) -> None:
        """What bears one name in this plant and in the model. Raises GatewayFault (status 2) where it is of two kinds."""
        model = self._model.plant
        outputs, inputs = shared(model.inputs, plant.outputs), shared(plant.inputs, model.outputs)
        self._plant, self._outputs, self._inputs = plant, outputs, inputs
        taken = {*outputs, ELAPSED}
        self.disturbances = {name: one for name, one in model.inputs.items() if name not in taken}

    async def _stepped(self, moment: int) -> Mapping[str, Value]:
        """What the model's outputs are after a scan at this moment. Raises GatewayFault."""
        plant = self._core.plant
        if plant is not self._plant:
            self._share(plant)
        for name, mine in self._outputs.items():
            known = self._core.state.outputs.get(plant.outputs[name].name)
            if known is not None:
                self._model.given[mine.name] = known
        return await self._model.step(moment)

    async def _offer(self, outputs: Mapping[str, Value]) -> None:
        """Gives them to the plant, without a wait."""
        for name in self._inputs if self._core.has_room else ():
            value = outputs[self._model.plant.outputs[name].name]
            await self._core.offer(Sample(name, value, SOURCE))


def shared(mine: Mapping[str, Variable], theirs: Mapping[str, Variable]) -> dict[str, Variable]:
    """Those of `mine` whose name is one of `theirs`. Raises GatewayFault (status 2) where two of a name have two kinds."""
    found = {name: one for name, one in mine.items() if name in theirs}
    for name, one in found.items():
        if one.kind is not theirs[name].kind:
            kinds = f"a {one.kind.value} and a {theirs[name].kind.value}"
            raise GatewayFault(
                f"{one.name} is {kinds}: the plant and its model differ", WORDS_STATUS
            )
    return found


def model_path(config: Config) -> Path | None:
    """The plant file of the model that `[simulate]` names; None where there is none. Raises GatewayFault (status 2)."""
    table = config.table("simulate")
    path = table.path("model") if table.has("model") else None
    table.end()
    return path


def read_model(path: Path, plant: Plant) -> Plant:
    """A model that `alarmd` accepts. Raises GatewayFault: status 3 where it can't be read, 2 where it is no model of the plant."""
    model = plants.read(path)
    if not shared(plant.inputs, model.outputs):
        words = f"no output of the model {path} bears the name of an input of the plant"
        raise GatewayFault(words, WORDS_STATUS)
    shared(model.inputs, plant.outputs)
    elapsed = model.inputs.get(ELAPSED)
    if elapsed is not None and elapsed.kind is Kind.BOOL:
        words = (
            f"{elapsed.name} of the model {path} is a BOOL: it has to be a DINT, for milliseconds"
        )
        raise GatewayFault(words, WORDS_STATUS)
    return model


async def attach(core: Core, config: Config) -> Simulation | None:
    """Starts the model that `[simulate]` names; None where there is none. Raises GatewayFault."""
    path = model_path(config)
    if path is None:
        return None
    model = read_model(path, core.plant)
    simulation = Simulation(core, config, model)
    await simulation.begin()
    core.disturbances, core.before_scan = simulation, simulation.step  # before the first scan
    return simulation


def main(words: list[str]) -> int:
    """`simulate PLANT MODEL`. The status is 0 where it was ended in order."""
    parser = Words(prog=called("simulate"), description="Serves a plant whose field is a model.")
    parser.add_argument("plant", type=Path, metavar="PLANT")
    parser.add_argument("model", type=Path, metavar="MODEL")
    parser.add_argument(
        "--page", nargs="?", const="127.0.0.1:8080", metavar="HOST:PORT", help="serves the page"
    )
    parser.add_argument("--record", type=Path, help="keeps the record in this file")
    parser.add_argument("--period-ms", type=int, default=1000, help="a scan in so long (1000)")
    parser.add_argument("--speed", type=int, default=1, help="time goes so many times as fast (1)")
    parser.add_argument(
        "--alarmd", type=Path, help="the server; else $ALARMD, else where it is built"
    )
    given = parser.parse_args(words[1:])
    if not 1 <= given.period_ms <= 60_000:
        parser.error("--period-ms is 1 to 60000")
    if not 1 <= given.speed <= 1000:
        parser.error("--speed is 1 to 1000")
    with tempfile.TemporaryDirectory(prefix="simulate-") as folder:
        tables: dict[str, dict[str, str]] = {"simulate": {"model": str(given.model.absolute())}}
        if given.page is not None:
            tables["web"] = {"listen": given.page}
        config = Config(
            alarmd=find_alarmd(given.alarmd),
            plant=given.plant.absolute(),  # of a link the folder counts in which it lies
            record=given.record.resolve() if given.record else Path(folder) / "record",
            folder=Path.cwd(),
            period_ms=max(1, given.period_ms // given.speed),
            yes=True,
            speed=given.speed,
            tables=tables,
        )
        asyncio.run(serve.serve(config))
    return 0
