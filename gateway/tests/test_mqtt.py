"""MQTT with a real broker: samples, outputs, its loss and its return."""

from __future__ import annotations

import asyncio
import contextlib
import os
import signal
import subprocess
from collections.abc import Iterator
from dataclasses import replace
from fractions import Fraction
from pathlib import Path
from typing import Any

import paho.mqtt.client as paho
import pytest

from alarmd_gateway import config as configs
from alarmd_gateway import core, serve
from alarmd_gateway import plant as plants
from alarmd_gateway.fields import mqtt
from alarmd_gateway.fields.mqtt import MqttClient, value_of
from alarmd_gateway.mapping import BadRaw, MqttSource, Retry, Scale, Topic
from alarmd_gateway.model import Plant, Value
from alarmd_gateway.samples import SampleQueue
from around import config_file, plant_copy
from field_help import Kept, Running, free_port, until


class Broker:
    """A mosquitto of this test's own, on a port of the loopback address."""

    def __init__(self, folder: Path) -> None:
        self.port = free_port()
        self._config = folder / "mosquitto.conf"
        self._config.write_text(f"listener {self.port} 127.0.0.1\nallow_anonymous true\n")
        self._process: subprocess.Popen[bytes] | None = None

    def start(self) -> None:
        self._process = subprocess.Popen(
            ["/usr/sbin/mosquitto", "-c", str(self._config)],
            stdin=subprocess.DEVNULL,
            stdout=subprocess.DEVNULL,
            stderr=subprocess.DEVNULL,
        )

    def stop(self) -> None:
        if self._process is not None:
            self._process.kill()
            self._process.wait()
            self._process = None


@pytest.fixture
def broker(tmp_path: Path) -> Iterator[Broker]:
    found = Broker(tmp_path)
    found.start()
    yield found
    found.stop()


class Field:
    """Something in the field that publishes, and hears what is published to it."""

    def __init__(self, port: int) -> None:
        self.heard: list[tuple[str, str]] = []
        self.qualities: set[int] = set()
        self.kept: set[str] = set()  # topics of which the broker has kept a message
        self._client = paho.Client()
        self._client.on_connect = lambda client, *_: client.subscribe("tank/+/set", 1)
        self._client.on_message = self._hear
        self._client.reconnect_delay_set(1, 1)
        self._client.connect_async("127.0.0.1", port)
        self._client.loop_start()

    def _hear(self, client: Any, _: Any, message: Any) -> None:
        self.heard.append((message.topic, message.payload.decode()))
        self.qualities.add(message.qos)
        if message.retain:
            self.kept.add(message.topic)

    async def publish(self, *messages: tuple[str, str]) -> None:
        await until(self._client.is_connected)
        for topic, payload in messages:
            info = self._client.publish(topic, payload, 1)
            await until(info.is_published)

    async def close(self) -> None:
        self._client.disconnect()
        await asyncio.to_thread(self._client.loop_stop)


def tank(examples: Path) -> Plant:
    return plants.read(examples / "tank" / "plant.toml")


def source(plant: Plant, port: int) -> MqttSource:
    inputs = (
        Topic(plant.inputs["level"], "tank/level", (), Scale(Fraction(10)), False),
        Topic(plant.inputs["running"], "tank/running", ("value",), Scale(), False),
    )
    outputs = (
        Topic(plant.outputs["pump"], "tank/pump/set", (), Scale(), True),
        Topic(plant.outputs["ratio"], "tank/ratio/set", (), Scale(Fraction(1, 10)), True),
    )
    retry = Retry(0.05, 0.2)
    return MqttSource(
        "broker", "127.0.0.1", port, "tank", None, None, None, 1, retry, inputs, outputs
    )


def test_samples_outputs_loss_and_return(examples: Path, broker: Broker) -> None:
    async def body() -> None:
        kept = Kept(tank(examples), outputs={"pump": False, "ratio": 30, "heater": True})
        client = MqttClient(source(kept.plant, broker.port), kept.intake())
        running, field = Running(client, kept), Field(broker.port)
        try:
            await until(lambda: client.is_up)
            await field.publish(
                ("tank/level", "25.04"), ("tank/level", "25"), ("tank/running", '{"value": true}')
            )
            await until(lambda: len(kept.samples) == 3)
            assert kept.samples == [("level", 250), ("level", 250), ("running", True)]
            client.put_output("pump", True)
            client.put_output("ratio", 55)
            client.put_output("pump", False)
            first = [("tank/pump/set", "FALSE"), ("tank/ratio/set", "3")]
            wanted = first + [
                ("tank/pump/set", "TRUE"),
                ("tank/ratio/set", "6"),
                ("tank/pump/set", "FALSE"),
            ]
            await until(lambda: field.heard[-3:] == wanted[-3:])
            assert field.heard == wanted[-len(field.heard) :]
            assert field.qualities == {1}
            late = Field(broker.port)
            await until(lambda: late.kept == {"tank/pump/set", "tank/ratio/set"})
            await late.close()
            broker.stop()
            await until(lambda: kept.standing() == [("source", "broker")])
            client.put_output("pump", True)  # it is written when the broker is back, as it is then
            kept.outputs.update(pump=True, ratio=40)
            field.heard.clear()
            broker.start()
            await until(lambda: not kept.standing())
            back = [("tank/pump/set", "TRUE"), ("tank/ratio/set", "4")]
            await until(lambda: field.heard[-2:] == back)
            await field.publish(("tank/level", "26"))
            await until(lambda: kept.samples[-1] == ("level", 260))
        finally:
            await field.close()
            await running.close()

    asyncio.run(body())


def test_a_document_may_have_several_inputs_and_an_output_several_topics(
    examples: Path, broker: Broker
) -> None:
    async def body() -> None:
        kept = Kept(tank(examples), outputs={"pump": True})
        given, inputs = source(kept.plant, broker.port), kept.plant.inputs
        level = Topic(inputs["level"], "tank/all", ("level",), Scale(), False)
        flow = Topic(inputs["flow"], "tank/all", ("flows", "1"), Scale(), False)
        pump, other = given.outputs[0], replace(given.outputs[0], topic="tank/other/set")
        given = replace(given, inputs=(level, flow), outputs=(pump, other))
        client = MqttClient(given, kept.intake())
        running, field = Running(client, kept), Field(broker.port)
        try:
            await until(lambda: client.is_up)
            await field.publish(("tank/all", '{"level": 5, "flows": [1, 2]}'))
            await until(lambda: kept.samples == [("level", 5), ("flow", 2)])
            await field.publish(("tank/all", '{"level": 6}'))
            await until(lambda: kept.standing() == [("source", "broker flow")])
            assert kept.samples[-1] == ("level", 6)
            await until(lambda: {"tank/pump/set", "tank/other/set"} <= dict(field.heard).keys())
        finally:
            await field.close()
            await running.close()

    asyncio.run(body())


def test_what_is_published_while_the_gateway_is_away_comes_later(
    examples: Path, broker: Broker
) -> None:
    async def body() -> None:
        kept = Kept(tank(examples))
        given = source(kept.plant, broker.port)
        client = MqttClient(given, kept.intake())
        running, field = Running(client, kept), Field(broker.port)
        try:
            await field.publish(("tank/level", "1"))
            await until(lambda: client.is_up)
            await field.publish(("tank/level", "2"))
            await until(lambda: kept.samples and kept.samples[-1] == ("level", 20))
            await running.close()
            kept.samples.clear()
            await field.publish(*[("tank/level", str(number)) for number in range(3, 9)])
            running = Running(MqttClient(given, kept.intake()), kept)
            await until(lambda: kept.samples and kept.samples[-1] == ("level", 80))
            values = [value for _, value in kept.samples]
            if values[0] == 20:  # it was taken, and the connection ended before that was said
                del values[0]
            assert values == [30, 40, 50, 60, 70, 80]
        finally:
            await field.close()
            await running.close()

    asyncio.run(body())


class Torn:
    """A broker that sends something that is no message behind its first SUBACK, and a sample behind the others."""

    def __init__(self, torn: bytes) -> None:
        self.port = 0
        self.subscribed = 0
        self._torn = torn
        self._server: asyncio.Server | None = None

    async def start(self) -> None:
        self._server = await asyncio.start_server(self._serve, "127.0.0.1", 0)
        self.port = self._server.sockets[0].getsockname()[1]

    async def _serve(self, reader: asyncio.StreamReader, writer: asyncio.StreamWriter) -> None:
        with contextlib.suppress(EOFError, OSError):
            while True:
                kind, size = await reader.readexactly(2)
                body = await reader.readexactly(size)
                if kind >> 4 == 1:  # CONNECT: CONNACK
                    writer.write(b"\x20\x02\x00\x00")
                elif kind >> 4 == 8:  # SUBSCRIBE: SUBACK, and a PUBLISH
                    self.subscribed += 1
                    writer.write(b"\x90\x04" + body[:2] + b"\x01\x01")
                    sample = b"\x30\x0e\x00\x0atank/level31"
                    writer.write(self._torn if self.subscribed == 1 else sample)
        writer.close()

    async def close(self) -> None:
        assert self._server is not None
        self._server.close()
        await self._server.wait_closed()


@pytest.mark.parametrize("torn", [b"\x30\x01\x00", b"\x30\x04\x00\x02\xff\xfe", b"\x90\x01\x00"])
def test_a_message_that_the_library_cannot_read_ends_the_connection(
    examples: Path, torn: bytes
) -> None:
    """And not the thread in which messages are read, of whose end nobody would hear."""

    async def body() -> None:
        broker = Torn(torn)
        await broker.start()
        kept = Kept(tank(examples))
        told: list[str] = []
        kept.troubles.listen(lambda trouble, stands: told.append(trouble.text))
        running = Running(MqttClient(source(kept.plant, broker.port), kept.intake()), kept)
        try:
            await until(lambda: kept.samples == [("level", 310)])
            assert "broker is lost: the library fails: " in told[0]
        finally:
            await running.close()
            await broker.close()

    asyncio.run(body())


class Breaking:
    """A broker that publishes one sample with as much quality as it is asked for, and breaks the connection at the first answer."""

    def __init__(self) -> None:
        self.port = 0
        self.connections = 0
        self._server: asyncio.Server | None = None

    async def start(self) -> None:
        self._server = await asyncio.start_server(self._serve, "127.0.0.1", 0)
        self.port = self._server.sockets[0].getsockname()[1]

    async def _serve(self, reader: asyncio.StreamReader, writer: asyncio.StreamWriter) -> None:
        self.connections += 1
        first = self.connections == 1
        with contextlib.suppress(EOFError, OSError):
            while True:
                kind, size = await reader.readexactly(2)
                body = await reader.readexactly(size)
                if kind >> 4 == 1:  # CONNECT: CONNACK, and later the PUBREL that had no answer
                    writer.write(b"\x20\x02\x00\x00" + (b"" if first else b"\x62\x02\x00\x07"))
                elif kind >> 4 == 8:  # SUBSCRIBE: SUBACK, and a PUBLISH
                    quality = body[-1]
                    writer.write(b"\x90\x04" + body[:2] + bytes([quality] * 2))
                    message = b"\x00\x0atank/level\x00\x0731"
                    if first:
                        writer.write(bytes([0x30 + 2 * quality, len(message)]) + message)
                elif first and kind >> 4 in (4, 5):  # PUBACK, PUBREC
                    break
        writer.close()

    async def close(self) -> None:
        assert self._server is not None
        self._server.close()
        await self._server.wait_closed()


def test_a_sample_with_the_highest_quality_outlasts_a_loss(examples: Path) -> None:
    async def body() -> None:
        broker = Breaking()
        await broker.start()
        kept = Kept(tank(examples))
        client = MqttClient(replace(source(kept.plant, broker.port), quality=2), kept.intake())
        running = Running(client, kept)
        try:
            await until(lambda: broker.connections == 2 and client.is_up)
            await until(lambda: kept.samples == [("level", 310)], 10)
        finally:
            await running.close()
            await broker.close()

    asyncio.run(body())


@pytest.mark.server
def test_the_end_does_not_wait_for_room(
    alarmd: Path, tmp_path: Path, broker: Broker, monkeypatch: pytest.MonkeyPatch
) -> None:
    """Where nothing is scanned, as before an answer to the question of the first moment, and samples wait for as many scans as may be."""
    monkeypatch.setattr(core, "SampleQueue", lambda: SampleQueue(3))
    monkeypatch.setattr(serve, "LAST_SECONDS", 0.5)
    path = config_file(alarmd, plant_copy("tank", tmp_path, "2090-01-01T00:00:00Z"))
    table = f'name = "broker"\nhost = "127.0.0.1"\nport = {broker.port}\n'
    one = '[[mqtt.input]]\ninput = "level"\ntopic = "tank/level"\n'
    (tmp_path / "map.toml").write_text(f"[[mqtt]]\n{table}{one}")
    tables = f'[fields]\nmap = "map.toml"\n[web]\nlisten = "127.0.0.1:{free_port()}"\n'
    path.write_text(path.read_text() + tables)

    async def body() -> None:
        taken: list[bytes] = []

        def noted(topic: Topic, payload: bytes) -> Value:
            taken.append(payload)
            return value_of(topic, payload)

        monkeypatch.setattr(mqtt, "value_of", noted)
        serving, field = asyncio.create_task(serve.serve(configs.read(path))), Field(broker.port)
        try:
            for number in range(10_000):
                await field.publish(("tank/level", str(number)))
                if len(taken) == 4:
                    break
                await asyncio.sleep(0.01)
            os.kill(os.getpid(), signal.SIGTERM)
            done, _ = await asyncio.wait({serving}, timeout=30)
            assert done
        finally:
            await field.close()

    asyncio.run(body())


def test_what_the_broker_has_kept_is_no_fresh_sample(examples: Path, broker: Broker) -> None:
    async def body() -> None:
        kept = Kept(tank(examples))
        field = Field(broker.port)
        await until(field._client.is_connected)
        info = field._client.publish("tank/level", "1", 1, retain=True)
        await until(info.is_published)
        client = MqttClient(source(kept.plant, broker.port), kept.intake())
        running = Running(client, kept)
        try:
            await until(lambda: kept.samples == [("level", 10)])
            await field.publish(("tank/level", "2"))
            await until(lambda: kept.samples[-1] == ("level", 20))
            assert kept.kept == [("level", 10)]
        finally:
            await field.close()
            await running.close()

    asyncio.run(body())


def test_a_broker_that_is_not_there_is_a_trouble(examples: Path) -> None:
    async def body() -> None:
        kept = Kept(tank(examples))
        running = Running(MqttClient(source(kept.plant, free_port()), kept.intake()), kept)
        await until(kept.standing)
        assert kept.standing() == [("source", "broker")] and "refused" in kept.texts()
        nowhere = replace(source(kept.plant, 1883), name="nowhere", host="no.such.host.invalid")
        other = Running(MqttClient(nowhere, kept.intake()), kept)
        await until(lambda: ("source", "nowhere") in kept.standing())
        await running.close()
        await other.close()

    asyncio.run(body())


def test_a_topic_that_may_not_be_read_is_a_trouble(examples: Path) -> None:
    kept = Kept(tank(examples))
    client = MqttClient(source(kept.plant, 1883), kept.intake())
    client._subscribed((1, 128))  # what a broker answers: mosquitto's own lists of rules never do
    assert kept.standing() == [("source", "broker running")]
    assert "lets nobody of this name read tank/running" in kept.texts()
    client._subscribed((1, 1))
    assert not kept.standing()


def test_a_payload_that_is_no_value_is_a_trouble_until_one_comes(
    examples: Path, broker: Broker
) -> None:
    async def body() -> None:
        kept = Kept(tank(examples))
        client = MqttClient(source(kept.plant, broker.port), kept.intake())
        running, field = Running(client, kept), Field(broker.port)
        try:
            await until(lambda: client.is_up)
            await field.publish(("tank/level", "high"), ("tank/running", "{}"))
            await until(lambda: len(kept.standing()) == 2)
            assert kept.standing() == [("source", "broker level"), ("source", "broker running")]
            await field.publish(("tank/level", "300000000"))  # times 10: no DINT
            await until(lambda: "level takes a whole number" in kept.texts())
            await field.publish(("tank/level", "30"), ("tank/running", '{"value": 0}'))
            await until(lambda: not kept.standing())
            assert kept.samples == [("level", 300), ("running", False)]
        finally:
            await field.close()
            await running.close()

    asyncio.run(body())


@pytest.mark.parametrize(
    ("path", "payload", "wanted"),
    [
        ((), b" 25 ", 250),
        ((), b"-0.05", -1),
        ((), b"+3", 30),
        (("a", "1"), b'{"a": [1, 2.5]}', 25),
        (("a",), b'{"a": "7"}', 70),
        (("a",), b'{"a": 1.25}', 13),
        (("a",), b'{"a": 1.5E1}', 150),
        (("a",), b'{"a": -5.551115123125783e-17}', 0),  # what is left of 0.1 + 0.2 - 0.3
        (("a",), b'{"a": 2.2250738585072014e-308}', 0),
    ],
)
def test_payloads_are_numbers(
    examples: Path, path: tuple[str, ...], payload: bytes, wanted: int
) -> None:
    topic = Topic(tank(examples).inputs["level"], "t", path, Scale(Fraction(10)), False)
    assert value_of(topic, payload) == wanted


@pytest.mark.parametrize(
    ("path", "payload"),
    [
        ((), b""),
        ((), b"1e3"),
        ((), b"nan"),
        ((), b"\xff"),
        ((), b"1" * 31),
        ((), b"1" * 5000),
        ((), b"true"),
        (("a",), b"5"),
        (("a",), b'{"b": 5}'),
        (("a",), b'{"a": null}'),
        (("a",), b'{"a": 1e999}'),
        (("a",), b'{"a": 1e999999999}'),
        (("a",), b'{"a": 1e999999999999999999}'),
        (("a",), b'{"a": 1e-999999999999999999}'),
        (("a",), b'{"a": 1e99999999999999999999}'),
        (("a",), b'{"a": true}'),
        (("5",), b"[1]"),
        (("a",), b"[1]"),
        (("a",), b"[" * 4000),
    ],
)
def test_other_payloads_are_none(examples: Path, path: tuple[str, ...], payload: bytes) -> None:
    topic = Topic(tank(examples).inputs["level"], "t", path, Scale(), False)
    with pytest.raises(BadRaw):
        value_of(topic, payload)


def test_a_number_beyond_all_measure_costs_no_other_input_its_samples(
    examples: Path, broker: Broker
) -> None:
    async def body() -> None:
        kept = Kept(tank(examples))
        client = MqttClient(source(kept.plant, broker.port), kept.intake())
        running, field = Running(client, kept), Field(broker.port)
        try:
            await until(lambda: client.is_up)
            await field.publish(("tank/running", '{"value": 1e99999999999999999999}'))
            await field.publish(("tank/level", "30"))
            await until(lambda: kept.samples == [("level", 300)])
            assert kept.standing() == [("source", "broker running")]
        finally:
            await field.close()
            await running.close()

    asyncio.run(body())


def test_payloads_are_truths(examples: Path) -> None:
    topic = Topic(tank(examples).inputs["running"], "t", (), Scale(invert=True), False)
    assert value_of(topic, b"off") is True and value_of(topic, b"TRUE") is False
    with pytest.raises(BadRaw):
        value_of(topic, b"2")
