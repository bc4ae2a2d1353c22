"""The tank with its model: an hour and a day of it, disturbances, and models that don't fit."""

from __future__ import annotations

import asyncio
import os
import pty
import shutil
import signal
import subprocess
import time
from collections import Counter
from collections.abc import Callable
from pathlib import Path
from unittest.mock import patch

import pytest

from alarmd_gateway import plant as plants
from alarmd_gateway.config import Config
from alarmd_gateway.core import Core
from alarmd_gateway.model import BadSample, Code, GatewayFault, Sample
from alarmd_gateway.samples import SampleQueue
from alarmd_gateway.simulate import Model, Simulation, attach, main, model_path, read_model
from core_help import Served, by_core, by_record, config_of
from field_help import until

GATEWAY = Path(__file__).resolve().parents[1] / "gateway"


class Steps:
    """A clock that goes on by a second with each scan, however fast the machine is."""

    def __init__(self) -> None:
        self.seconds = 0.0
        self._begin = time.time()

    def clocks(self, speed: int) -> tuple[Callable[[], float], Callable[[], float]]:
        return lambda: self._begin + self.seconds, lambda: self.seconds


class Simulated:
    """A tank that is simulated, by a clock of its own."""

    def __init__(
        self, alarmd: Path, examples: Path, folder: Path, model: Path | None = None
    ) -> None:
        tank = examples / "tank"
        tables = {"simulate": {"model": str(model or tank / "model" / "plant.toml")}}
        plant = tank / "plant.toml"
        self.config = config_of(alarmd, plant, folder, period_ms=1, tables=tables)
        self._steps = Steps()

    async def __aenter__(self) -> Simulated:
        with patch("alarmd_gateway.core.clocks", self._steps.clocks):
            self.core = await Core.start(self.config)
        try:
            simulation = await attach(self.core, self.config)
            assert simulation is not None
            self.simulation: Simulation = simulation
        except BaseException:
            served = Served(self.core)
            await served.close()
            raise
        self.core.before_scan = self._step
        self._served = Served(self.core)
        return self

    async def _step(self, moment: int) -> None:
        await self.simulation.step(moment)
        self._steps.seconds += 1

    async def __aexit__(self, *_: object) -> None:
        await self._served.close()
        await self.simulation.close()

    def code(self, tag: str) -> Code:
        return self.core.state.by_tag[tag].code


async def play(it: Simulated, seconds: int) -> Counter[str]:
    """Lets so much time of the plant pass, and counts the alarms that came."""
    await until(lambda: it.core.state.scanned)
    end = it.core.state.moment + 1000 * seconds
    while (moment := it.core.state.moment) < end:
        await until(lambda: it.core.state.moment > moment)
        assert 297 <= int(it.core.state.inputs["level"]) <= 801
        assert not it.core.state.stopped and not list(it.core.troubles)
    rows = [row.words for row in it.core.journal.rows()]
    return Counter(words[1] for words in rows if words[0] == "ALARM" and words[3] == "UNACK")


# Worked out by hand: 500 mm and 7 mm less each second are 297 mm after 29 seconds, and the pump starts; with 12 mm more each second 801 mm
# come 42 seconds later, for a second, and the high level waits five. From there it is 72 seconds down and 42 up. So low levels begin at
# 29 and each 114 seconds after that, and nothing else comes.


@pytest.mark.server
def test_a_quarter_of_an_hour_of_the_tank(alarmd: Path, examples: Path, tmp_path: Path) -> None:
    async def body() -> None:
        async with Simulated(alarmd, examples, tmp_path) as it:
            came = await play(it, 900)
        assert came == {"LAL-101": 8}  # the ninth at 941 s
        assert by_core(it.core) == by_record(it.config)

    asyncio.run(body())


@pytest.mark.server
@pytest.mark.long
def test_a_day_of_the_tank(alarmd: Path, examples: Path, tmp_path: Path) -> None:
    async def body() -> None:
        async with Simulated(alarmd, examples, tmp_path) as it:
            came = await play(it, 24 * 3600)
        assert came == {"LAL-101": 758}  # the last at 86,327 s, the next at 86,441 s
        assert by_core(it.core) == by_record(it.config)

    asyncio.run(body())


@pytest.mark.server
def test_disturbances_become_alarms(alarmd: Path, examples: Path, tmp_path: Path) -> None:
    async def body() -> None:
        async with Simulated(alarmd, examples, tmp_path) as it:
            names = [variable.name for variable, _ in it.simulation.values()]
            assert names == ["switched", "outlet", "blocked", "stuck", "rich"]
            assert it.core.disturbances is it.simulation
            it.simulation.disturb("RICH", "TRUE")
            await until(lambda: it.code("RAH-104") is Code.UNACK)
            it.simulation.disturb("rich", False)
            await until(lambda: it.code("RAH-104") is Code.RTNUN)
            it.simulation.disturb("stuck", True)
            await until(lambda: it.code("TAHH-102") is Code.UNACK)
            it.simulation.disturb("stuck", False)
            await until(lambda: it.code("TAHH-102") is Code.LATUN)
            it.simulation.disturb("switched", False)
            await until(lambda: it.code("LAL-101") is Code.SUPPR)
            it.simulation.disturb("switched", True)
            it.simulation.disturb("blocked", True)
            await until(lambda: "dose" in it.core.state.stopped)
            await until(lambda: it.code("FAL-103") is Code.UNACK)
            assert it.core.state.inputs["flow"] == 0
            for name in ("pump", "elapsed_ms", "none", "outlet"):
                with pytest.raises(BadSample):
                    it.simulation.disturb(name, "x")

    asyncio.run(body())


@pytest.mark.server
def test_a_model_beside_many_samples_of_another_source(
    alarmd: Path, examples: Path, tmp_path: Path
) -> None:
    async def body() -> None:
        async with Simulated(alarmd, examples, tmp_path) as it:
            await until(lambda: it.core.state.scanned)
            it.core._queue = SampleQueue(3)
            for number in range(40):
                await it.core.offer(Sample("level", number % 2, "test"))
            events = it.core.state.events
            try:
                await until(lambda: it.core.state.events > events + 10, 30)
            finally:
                it.core.stop()
                it.core._taken.set()  # ends it where it waits for itself

    asyncio.run(body())


@pytest.mark.server
def test_a_model_whose_server_ends_begins_anew(
    alarmd: Path, examples: Path, tmp_path: Path
) -> None:
    async def body() -> None:
        async with Simulated(alarmd, examples, tmp_path) as it:
            await until(lambda: it.core.state.scanned)
            seen: list[tuple[str, bool]] = []
            it.core.troubles.listen(lambda trouble, stands: seen.append((trouble.subject, stands)))
            server = it.simulation._model._server
            assert server is not None
            os.kill(server.pid, signal.SIGKILL)
            await until(lambda: seen == [("model", True), ("model", False)])
            moment = it.core.state.moment
            await until(lambda: it.core.state.moment > moment + 5000)

    asyncio.run(body())


def changed(examples: Path, folder: Path, old: str, new: str) -> Path:
    """The model with a change in its source."""
    shutil.copytree(examples / "tank" / "model", folder / "model")
    source = folder / "model" / "model.st"
    text = source.read_text()
    assert old in text
    source.write_text(text.replace(old, new))
    return folder / "model" / "plant.toml"


@pytest.mark.server
@pytest.mark.parametrize(
    ("old", "new", "status", "words"),
    [
        (
            "pump       AT %IX0.0 : BOOL",
            "pump       AT %ID9 : DINT",
            2,
            "pump is a DINT and a BOOL",
        ),
        ("AT %Q", "AT %M", 2, "no output of the model"),
        ("running := switched;", "running := switch;", 3, "alarmd refuses the plant: CONFIG C6"),
    ],
)
def test_a_model_that_does_not_fit(
    alarmd: Path, examples: Path, tmp_path: Path, old: str, new: str, status: int, words: str
) -> None:
    async def body() -> None:
        model = changed(examples, tmp_path, old, new)
        if status == 2:  # what uses the pump is changed with it
            source = model.parent / "model.st"
            source.write_text(source.read_text().replace("ELSIF pump THEN", "ELSIF pump = 0 THEN"))
        with pytest.raises(GatewayFault) as found:
            async with Simulated(alarmd, examples, tmp_path, model):
                pass
        assert found.value.status == status and words in found.value.words

    asyncio.run(body())


@pytest.mark.parametrize(("kind", "fits"), [("DINT", True), ("TIME", True), ("BOOL", False)])
def test_the_time_since_the_scan_before_is_no_truth(
    examples: Path, tmp_path: Path, kind: str, fits: bool
) -> None:
    place = "X9.0" if kind == "BOOL" else "D0"
    model = changed(examples, tmp_path, "%ID0   : DINT", f"%I{place}   : {kind}")
    plant = plants.read(examples / "tank" / "plant.toml")
    if fits:
        assert read_model(model, plant).inputs["elapsed_ms"].kind.value == kind
        return
    with pytest.raises(GatewayFault) as found:
        read_model(model, plant)
    assert found.value.status == 2 and "elapsed_ms" in found.value.words


@pytest.mark.server
def test_no_timer_of_a_model_sees_the_time_before_the_first_scan(
    alarmd: Path, examples: Path, tmp_path: Path
) -> None:
    """This one heats after ten minutes."""
    model = tmp_path / "model" / "plant.toml"
    shutil.copytree(examples / "tank" / "model", model.parent)
    (model.parent / "model.st").write_text(
        """
        VAR_GLOBAL temperature AT %QD0 : DINT := 200; END_VAR
        PROGRAM m
          VAR late : TON; END_VAR
          late(IN := TRUE, PT := T#10m);
          IF late.Q THEN temperature := 990; END_IF;
        END_PROGRAM
        """
    )

    async def body() -> None:
        async with Simulated(alarmd, examples, tmp_path, model) as it:
            await until(lambda: it.code("TAHH-102") is Code.UNACK)
            came = it.core.state.by_tag["TAHH-102"].since
        lines = it.config.record.read_text().splitlines()
        begun = next(int(line.split()[1]) for line in lines if line.startswith("scan "))
        assert came == begun + 600_000

    asyncio.run(body())


@pytest.mark.server
def test_no_scan_of_the_plant_is_before_those_of_the_model(
    alarmd: Path, examples: Path, tmp_path: Path, monkeypatch: pytest.MonkeyPatch
) -> None:
    """Also where the end of the model's first server takes long."""
    end = Model.end

    async def slow(self: Model) -> None:
        await end(self)
        await asyncio.sleep(0.2)

    monkeypatch.setattr(Model, "end", slow)
    model = examples / "tank" / "model" / "plant.toml"

    async def body() -> None:
        tables = {"simulate": {"model": str(model)}}
        plant = examples / "tank" / "plant.toml"
        core = await Core.start(config_of(alarmd, plant, tmp_path, period_ms=1, tables=tables))
        serving = Served(core)
        simulation = None
        try:
            simulation = await attach(core, core.config)
            assert simulation is not None and not core.state.scanned
            await until(lambda: core.state.scanned)
            assert simulation._model._moment is not None
        finally:
            await serving.close()
            if simulation is not None:
                await simulation.close()

    asyncio.run(body())


@pytest.mark.server
def test_a_later_start_scans_after_the_model_too(
    alarmd: Path, examples: Path, tmp_path: Path
) -> None:
    """With a record that has scans the plant waits for no samples."""
    plant, model = examples / "tank" / "plant.toml", examples / "tank" / "model" / "plant.toml"
    record = tmp_path / "record"
    words = [str(GATEWAY), "simulate", str(plant), str(model), "--alarmd", str(alarmd)]

    def run(scans: int) -> list[str]:
        """All scans, once there are so many."""
        more = ["--speed", "1000", "--record", str(record)]
        process = subprocess.Popen([*words, *more], stdin=subprocess.DEVNULL)
        try:
            while not record.exists() or record.read_text().count("scan ") < scans:
                assert process.poll() is None
                time.sleep(0.02)
            process.send_signal(signal.SIGTERM)
            assert process.wait(600) == 0
        finally:
            process.kill()
        return [line for line in record.read_text().splitlines() if line.startswith("scan ")]

    before = run(5)
    assert "level=500" in before[0]
    assert "level=500" in run(len(before) + 5)[len(before)]  # as the model begins anew


@pytest.mark.server
def test_disturbances_are_those_beside_the_plant_that_is_served(
    alarmd: Path, examples: Path, tmp_path: Path
) -> None:
    """Here the model's input `stuck` becomes an output of the plant."""
    shutil.copytree(examples / "tank", tmp_path / "plant")
    points = tmp_path / "plant" / "points.st"

    async def body() -> None:
        async with Simulated(alarmd, examples, tmp_path) as it:
            await until(lambda: it.core.state.scanned)
            assert it.simulation.has("stuck") and not it.simulation.has("pump")
            text = points.read_text().replace(
                "END_VAR", "stuck AT %QX9.0 : BOOL := TRUE; END_VAR", 1
            )
            points.write_text(text)
            texts = plants.texts_of(tmp_path / "plant" / "plant.toml")
            assert (await it.core.reload(texts)).lines[0].startswith("RELOADED")
            await until(lambda: not it.simulation.has("stuck"))
            with pytest.raises(BadSample):
                it.simulation.disturb("stuck", False)
            await until(lambda: it.simulation._model.value("stuck") is True)

    asyncio.run(body())


@pytest.mark.server
def test_the_command_takes_disturbances_and_ends_in_order(alarmd: Path, examples: Path) -> None:
    ours, theirs = pty.openpty()
    tank = examples / "tank"
    words = [str(GATEWAY), "simulate", str(tank / "plant.toml"), str(tank / "model" / "plant.toml")]
    process = subprocess.Popen(
        [*words, "--alarmd", str(alarmd), "--speed", "50"],
        stdin=theirs,
        stdout=subprocess.PIPE,
        stderr=subprocess.PIPE,
        text=True,
    )
    try:
        assert process.stdout is not None
        assert process.stdout.readline().startswith("OUT ")
        os.write(ours, b"rich=TRUE\nlevel=5x\n")
        lines: list[str] = []
        while not any("RAH-104 NORM UNACK" in line for line in lines):
            lines.append(process.stdout.readline())
            assert lines[-1]
        assert "# rich is TRUE from the next scan on\n" in lines
        process.send_signal(signal.SIGTERM)
        assert process.wait(60) == 0
    finally:
        process.kill()
        process.communicate()
        os.close(ours)
        os.close(theirs)


def test_of_a_link_the_folder_counts_in_which_it_lies(
    alarmd: Path, examples: Path, tmp_path: Path, monkeypatch: pytest.MonkeyPatch
) -> None:
    for name in ("tank", "tank/model"):
        folder = tmp_path / name
        shutil.copytree(examples / name, folder, dirs_exist_ok=True)
        (folder / "plant.toml").unlink()
        (folder / "plant.toml").symlink_to(examples / name / "plant.toml")
    served: list[Config] = []

    async def serve(config: Config) -> None:
        served.append(config)

    monkeypatch.setattr("alarmd_gateway.serve.serve", serve)
    monkeypatch.chdir(tmp_path)
    words = ["tank/plant.toml", "tank/model/plant.toml", "--alarmd", str(alarmd)]
    assert main(["simulate", *words]) == 0
    (config,) = served
    assert config.plant == tmp_path / "tank" / "plant.toml"
    assert model_path(config) == tmp_path / "tank" / "model" / "plant.toml"


@pytest.mark.parametrize("more", [["--speed", "0"], ["--period-ms", "0"], ["--what"], []])
def test_wrong_words_are_status_2(more: list[str]) -> None:
    done = subprocess.run([str(GATEWAY), "simulate", *more], capture_output=True, text=True)
    assert done.returncode == 2
    assert done.stderr.startswith("SERVER gateway simulate: ")
