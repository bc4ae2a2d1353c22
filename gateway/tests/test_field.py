"""Sources around a core with a real server: samples become alarms, outputs are written, stale inputs and lost sources are troubles."""

from __future__ import annotations

import asyncio
import os
import signal
import subprocess
from pathlib import Path

import pytest

from alarmd_gateway import plant as plants
from alarmd_gateway.changes import Board
from alarmd_gateway.config import Config
from alarmd_gateway.core import Core
from alarmd_gateway.field import attach
from alarmd_gateway.model import Code, GatewayFault, Sample
from core_help import Served, by_core, by_record, config_of
from field_help import free_port, until
from test_modbus import Device
from test_mqtt import Broker, Field

GATEWAY = Path(__file__).resolve().parents[1] / "gateway"

MAP = """
[[lines]]
name = "fifo"
path = "commands"
orders = true

[[mqtt]]
name = "broker"
host = "127.0.0.1"
port = {broker}
retry_ms = 50
retry_most_ms = 200
[[mqtt.input]]
input = "level"
topic = "tank/level"
[[mqtt.output]]
output = "pump"
topic = "tank/pump/set"

[[modbus]]
name = "plc"
host = "127.0.0.1"
port = {device}
poll_ms = 20
retry_ms = 50
retry_most_ms = 200
[[modbus.input]]
input = "flow"
area = "holding"
address = 0
[[modbus.output]]
output = "heater"
area = "coil"
address = 1

[stale_ms]
level = 1000
flow = 5000
"""


def configured(alarmd: Path, examples: Path, folder: Path, text: str) -> Config:
    (folder / "map.toml").write_text(text)
    tables = {"fields": {"map": "map.toml"}}
    return config_of(alarmd, examples / "tank" / "plant.toml", folder, tables=tables)


@pytest.mark.server
def test_samples_become_alarms_and_outputs_are_written(
    alarmd: Path, examples: Path, tmp_path: Path
) -> None:
    broker, device = Broker(tmp_path), Device()
    broker.start()
    device.start()
    text = MAP.format(broker=broker.port, device=device.port)
    config = configured(alarmd, examples, tmp_path, text)

    async def body() -> None:
        await device.there()
        device.client.write_register(0, 100)
        core = await Core.start(config)
        served, field = Served(core), Field(broker.port)
        part = await attach(core, config)
        assert part is not None

        def code(tag: str) -> Code:
            return core.state.by_tag[tag].code

        def troubles() -> set[tuple[str, str]]:
            return {(one.kind.value, one.subject) for one in core.troubles}

        try:
            await until(lambda: core.state.scanned and ("source", "fifo") in troubles())
            os.mkfifo(tmp_path / "commands")
            await until(lambda: not {it for it in troubles() if it[0] == "source"})
            (tmp_path / "commands").write_text("running=TRUE temperature=300\n")
            await field.publish(("tank/level", "250"))
            await until(lambda: code("LAL-101") is Code.UNACK)
            await until(lambda: field.heard[-1:] == [("tank/pump/set", "TRUE")])
            (tmp_path / "commands").write_text("ack 1 LAL-101\n")
            await until(lambda: code("LAL-101") is Code.ACKED)
            await field.publish(("tank/level", "400"))
            await until(lambda: device.client.read_coils(1, 1).bits[0])  # the heater
            await until(lambda: ("stale", "level") in troubles())
            assert ("stale", "flow") not in troubles()  # read again and again
            await field.publish(("tank/level", "400"))  # an equal value will do
            await until(lambda: ("stale", "level") not in troubles())
            await until(lambda: ("stale", "level") in troubles())
            await core.offer(Sample("level", 400, "somebody"))  # whoever brings it
            await until(lambda: ("stale", "level") not in troubles())
            # a pulse between two scans, and a hundred values at once: each is in some scan
            values = [str(401 + number % 7) for number in range(100)]
            await field.publish(*[("tank/level", value) for value in values])
            await until(lambda: core.state.inputs["level"] == int(values[-1]))
            device.stop()
            await until(lambda: ("source", "plc") in troubles())
            await until(lambda: ("stale", "flow") in troubles())
            device.start()
            await device.there()
            device.client.write_register(0, 77)
            await until(lambda: core.state.inputs["flow"] == 77)
            await until(lambda: not {it for it in troubles() if it[1] in ("plc", "flow")})
            await until(lambda: device.client.read_coils(1, 1).bits[0])  # written anew
        finally:
            await served.close()
            await part.close()
            await field.close()
        scans = [line.split() for line in config.record.read_text().splitlines()]
        levels = [
            pair.removeprefix("level=") for words in scans for pair in words if "level=" in pair
        ]
        assert levels[-100:] == values
        assert by_core(core) == by_record(config)

    try:
        asyncio.run(body())
    finally:
        broker.stop()
        device.stop()


@pytest.mark.server
def test_without_a_table_there_is_no_field(alarmd: Path, examples: Path, tmp_path: Path) -> None:
    config = config_of(alarmd, examples / "tank" / "plant.toml", tmp_path)

    async def body() -> None:
        core = await Core.start(config)
        served = Served(core)
        assert await attach(core, config) is None
        await served.close()

    asyncio.run(body())


def run(folder: Path, alarmd: Path, examples: Path, text: str) -> subprocess.Popen[str]:
    (folder / "map.toml").write_text(text)
    (folder / "gateway.toml").write_text(
        f"""alarmd = "{alarmd}"
plant = "{examples / 'tank' / 'plant.toml'}"
record = "record"
[fields]
map = "map.toml"
"""
    )
    return subprocess.Popen(
        [str(GATEWAY), "serve", str(folder / "gateway.toml")],
        stdin=subprocess.DEVNULL,
        stdout=subprocess.PIPE,
        stderr=subprocess.PIPE,
        text=True,
    )


@pytest.mark.server
def test_what_is_not_there_is_a_line_and_no_end(
    alarmd: Path, examples: Path, tmp_path: Path
) -> None:
    text = MAP.format(broker=free_port(), device=free_port())
    process = run(tmp_path, alarmd, examples, text)
    try:
        assert process.stderr is not None
        wanted = {"fifo is lost", "broker is lost", "plc is lost"}
        while wanted:  # on a slow machine an input may be stale before
            line = process.stderr.readline()
            assert line.startswith("SERVER ")
            wanted = {name for name in wanted if name not in line}
        assert process.poll() is None
        process.send_signal(signal.SIGTERM)
        assert process.wait(60) == 0
    finally:
        process.kill()
        rest = process.communicate()
    assert "Traceback" not in rest[1]


@pytest.mark.server
def test_a_wrong_map_is_one_line_and_status_2(alarmd: Path, examples: Path, tmp_path: Path) -> None:
    process = run(tmp_path, alarmd, examples, MAP.format(broker=1883, device=0))
    _, told = process.communicate(timeout=60)
    assert process.returncode == 2
    assert told.startswith("SERVER ") and told.count("\n") == 1 and "'port' of [modbus[1]]" in told


@pytest.mark.server
def test_a_map_that_is_not_there_is_status_2(alarmd: Path, examples: Path, tmp_path: Path) -> None:
    config = configured(alarmd, examples, tmp_path, "")
    (tmp_path / "map.toml").unlink()

    async def body() -> None:
        core = await Core.start(config)
        served = Served(core)
        with pytest.raises(GatewayFault) as found:
            await attach(core, config)
        assert found.value.status == 2
        await served.close()

    asyncio.run(body())


def test_who_subscribes_after_the_end_has_all_changes(examples: Path) -> None:
    async def body() -> None:
        board = Board(plants.read(examples / "tank" / "plant.toml"))
        board.close()
        assert [change async for change in board.subscribe(10)] == []

    asyncio.run(asyncio.wait_for(body(), 60))
