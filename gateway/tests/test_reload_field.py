"""The field of a plant that is changed while it is served: what the map names, and what the plant has by then."""

from __future__ import annotations

import asyncio
import dataclasses
from pathlib import Path

import pytest
from around import config_for, until
from reload_help import READING, Small
from test_core import give, served

from alarmd_gateway import field, simulate
from alarmd_gateway.config import Config
from alarmd_gateway.core import Core
from alarmd_gateway.model import GatewayFault, Value
from alarmd_gateway.troubles import TroubleKind

MAP = """
[[mqtt]]
name = "broker"
host = "127.0.0.1"
port = 1
retry_ms = 3600000
retry_most_ms = 3600000
[[mqtt.output]]
output = "y"
topic = "y"
[[mqtt.output]]
output = "z"
topic = "z"
[stale_ms]
a = 1
"""
BOTH = "a AT %ID0 : DINT; y AT %QD0 : DINT := 7; z AT %QX0 : BOOL; c : BOOL;"


@pytest.fixture
def config(tmp_path: Path) -> Config:
    plant = Small(variables=BOTH, body="y := y + 1; z := NOT z; c := a > 1;").write(
        tmp_path / "plant"
    )
    (tmp_path / "map.toml").write_text(MAP)
    tables = {"fields": {"map": "map.toml"}}
    return dataclasses.replace(config_for(READING, plant, yes=True), tables=tables)


async def taken_up(core: Core, variables: str, body: str) -> None:
    texts = Small(variables=variables, body=body).texts(core.config.plant.parent)
    assert (await core.reload(texts)).lines[0].startswith("RELOADED")


def test_outputs_that_were_left_out_are_written_once_they_may(
    config: Config, monkeypatch: pytest.MonkeyPatch
) -> None:
    """As where this gateway leads, and wasn't sure of that for a while."""
    sure = True
    monkeypatch.setattr(Core, "may_write", property(lambda core: sure))

    async def work() -> None:
        nonlocal sure
        async with served(config) as core:
            part = await field.attach(core, config)
            assert part is not None
            put: list[tuple[str, Value]] = []
            source = part._sources[0]
            source.put_output = lambda name, value: put.append((name, value))  # type: ignore[assignment]
            await give(core, a=5)
            await until(lambda: {name for name, _ in put} == {"y", "z"})
            sure, at, events = False, len(put), core.state.events
            assert not source.may_write() and part._current() == {}
            await until(lambda: core.state.events > events + 3)
            assert len(put) == at
            sure = True
            await taken_up(core, BOTH, "c := a > 1;")  # so nothing changes any more
            at = len(put)
            sure = False
            assert not source.may_write()
            sure = True
            await until(lambda: len(put) == at + 2)
            assert dict(put[-2:]) == {"y": core.state.outputs["y"], "z": core.state.outputs["z"]}
            await part.close()

    asyncio.run(asyncio.wait_for(work(), 400))


def test_outputs_are_written_by_the_names_and_kinds_of_the_map(config: Config) -> None:
    async def work() -> None:
        async with served(config) as core:
            part = await field.attach(core, config)
            assert part is not None
            put: list[tuple[str, Value]] = []
            source = part._sources[0]
            source.put_output = lambda name, value: put.append((name, value))  # type: ignore[assignment]
            await give(core, a=5)
            await until(lambda: {name for name, _ in put} == {"y", "z"})
            await taken_up(
                core,
                "A AT %ID0 : DINT; Y AT %QD0 : DINT; z AT %QD1 : DINT; c : BOOL;",
                "y := y + 1; z := 5;",
            )
            at = len(put)
            await until(lambda: len(put) > at + 5)
            assert {name for name, _ in put[at:]} == {"y"}
            assert part._current() == {"y": core.state.outputs["Y"]}
            await taken_up(core, "a AT %ID0 : DINT; c : BOOL;", "c := a > 1;")
            await until(lambda: core.state.events > 3)
            assert part._current() == {}
            await give(core, a=6)
            await part.close()

    asyncio.run(asyncio.wait_for(work(), 400))


def test_a_plant_that_the_map_does_not_fit_is_told_before_the_next_start(config: Config) -> None:
    """Which would be refused, as after a loss of power."""

    async def work() -> None:
        async with served(config) as core:

            def told() -> list[str]:
                return [one.text for one in core.troubles if one.subject == "the map"]

            part = await field.attach(core, config)
            assert part is not None
            await give(core, a=5)
            await taken_up(core, "a AT %ID0 : DINT; y AT %QD0 : DINT; c : BOOL;", "c := a > 1;")
            await until(lambda: len(told()) == 1)
            assert "the next start is refused" in told()[0] and "mqtt[1].output[2]" in told()[0]
            with pytest.raises(GatewayFault):
                await field.attach(core, config)
            await taken_up(core, BOTH, "y := y + 1; z := NOT z; c := a > 1;")
            await until(lambda: not told())
            await part.close()

    asyncio.run(asyncio.wait_for(work(), 400))


def test_a_map_that_is_mended_is_no_trouble_any_more(
    config: Config, monkeypatch: pytest.MonkeyPatch
) -> None:
    """Nor is one that was just being written when a plant was taken up."""
    monkeypatch.setattr(field, "MAP_SECONDS", 0.05)

    async def work() -> None:
        async with served(config) as core:

            def told() -> list[str]:
                return [one.text for one in core.troubles if one.subject == "the map"]

            part = await field.attach(core, config)
            assert part is not None
            await give(core, a=5)
            map_file = config.folder / "map.toml"
            for wrong in (MAP.replace('output = "z"', 'output = "nowhere"'), "[[mqtt"):
                map_file.write_text(wrong)
                await taken_up(core, BOTH, "y := y + 1; z := NOT z; c := a > 1;")
                await until(told)
                map_file.write_text(MAP)
                await until(lambda: not told())
            await part.close()

    asyncio.run(asyncio.wait_for(work(), 400))


def test_an_input_that_is_gone_is_not_stale(config: Config) -> None:
    async def work() -> None:
        async with served(config) as core:

            def stale() -> list[str]:
                return [one.subject for one in core.troubles if one.kind is TroubleKind.STALE]

            part = await field.attach(core, config)
            assert part is not None
            await give(core, a=5)
            await until(lambda: stale() == ["a"])
            await taken_up(core, "b AT %ID0 : DINT; y AT %QD0 : DINT; c : BOOL;", "c := b > 1;")
            await until(lambda: not stale())
            await part.close()

    asyncio.run(asyncio.wait_for(work(), 400))


MODEL = """VAR_GLOBAL y AT %ID0 : DINT; a AT %QD0 : DINT; END_VAR
PROGRAM m
a := y + 1;
END_PROGRAM
"""


def test_a_model_goes_on_with_what_the_plant_has(tmp_path: Path) -> None:
    folder = tmp_path / "model"
    Small(rows=()).write(folder)
    (folder / "p.st").write_text(MODEL)
    plant = Small(body="y := a + 1; c := FALSE;").write(tmp_path / "plant")
    tables = {"simulate": {"model": str(folder / "plant.toml")}}
    config = dataclasses.replace(config_for(READING, plant, yes=True), tables=tables)

    async def work() -> None:
        async with served(config) as core:
            part = await simulate.attach(core, config)
            assert part is not None
            await until(lambda: core.state.inputs["a"] != 0)
            await taken_up(core, "a AT %ID0 : DINT; n AT %ID1 : DINT; c : BOOL;", "c := a > 1;")
            events = core.state.events
            await until(lambda: core.state.events > events + 3)
            assert not [one for one in core.troubles if one.kind is TroubleKind.SOURCE]
            await taken_up(core, "a AT %IX0 : BOOL; y AT %QD0 : DINT; c : BOOL;", "c := a;")
            await until(lambda: [one for one in core.troubles if one.kind is TroubleKind.SOURCE])
            await taken_up(core, "a AT %ID0 : DINT; y AT %QD0 : DINT; c : BOOL;", "c := a > 1;")
            await until(
                lambda: not [one for one in core.troubles if one.kind is TroubleKind.SOURCE]
            )
            await part.close()

    asyncio.run(asyncio.wait_for(work(), 400))
