"""Modbus TCP with a real server: registers and coils, outputs, its loss and its return."""

from __future__ import annotations

import asyncio
import contextlib
import socket
import struct
import subprocess
import sys
from collections.abc import Callable, Iterator
from dataclasses import replace
from fractions import Fraction
from pathlib import Path

import pytest
from pymodbus.client import ModbusTcpClient

from alarmd_gateway import plant as plants
from alarmd_gateway.fields import modbus
from alarmd_gateway.fields.modbus import ModbusClient, blocks
from alarmd_gateway.mapping import Area, Form, ModbusSource, Point, Retry, Scale
from alarmd_gateway.model import Plant, Value, Variable
from field_help import Kept, Running, free_port, until

DEVICE = Path(__file__).with_name("modbus_device.py")


class Device:
    """A server in a process of its own, and a client that plays the field."""

    def __init__(self) -> None:
        self.port = free_port()
        self._process: subprocess.Popen[bytes] | None = None
        self.client = ModbusTcpClient("127.0.0.1", port=self.port)

    def start(self) -> None:
        self._process = subprocess.Popen(
            [sys.executable, str(DEVICE), str(self.port)],
            stdin=subprocess.DEVNULL,
            stdout=subprocess.DEVNULL,
            stderr=subprocess.DEVNULL,
        )

    async def there(self) -> None:
        await until(self.client.connect)

    def stop(self) -> None:
        self.client.close()
        if self._process is not None:
            self._process.kill()
            self._process.wait()
            self._process = None


@pytest.fixture
def device() -> Iterator[Device]:
    found = Device()
    found.start()
    yield found
    found.stop()


def point(variable: Variable, area: Area, address: int, form: Form = Form.INT16) -> Point:
    bit = 4 if variable.kind.value == "BOOL" and not area.bits else None
    return Point(variable, area, address, form, False, bit, Scale())


def source(plant: Plant, port: int) -> ModbusSource:
    inputs, outputs = plant.inputs, plant.outputs
    tenth = Scale(Fraction(1, 10))
    return ModbusSource(
        name="plc",
        host="127.0.0.1",
        port=port,
        unit=1,
        poll=0.02,
        timeout=2.0,
        retry=Retry(0.05, 0.2),
        inputs=(
            replace(point(inputs["level"], Area.HOLDING, 0, Form.INT32), scale=tenth),
            point(inputs["flow"], Area.HOLDING, 2),
            point(inputs["temperature"], Area.INPUT, 7, Form.UINT16),
            point(inputs["running"], Area.COIL, 3),
        ),
        outputs=(
            point(outputs["pump"], Area.COIL, 10),
            point(outputs["ratio"], Area.HOLDING, 20, Form.INT32),
            replace(point(outputs["heater"], Area.HOLDING, 30), bit=None),
        ),
    )


def tank(examples: Path) -> Plant:
    return plants.read(examples / "tank" / "plant.toml")


def test_inputs_outputs_loss_and_return(examples: Path, device: Device) -> None:
    async def body() -> None:
        outputs = {"pump": True, "ratio": 70_000, "heater": False}
        kept = Kept(tank(examples), outputs=outputs)
        plc = ModbusClient(source(kept.plant, device.port), kept.intake())
        running, field = Running(plc, kept), device.client

        def now() -> dict[str, Value]:
            return dict(kept.samples)

        try:
            await device.there()
            await until(lambda: plc.is_up and len(now()) == 4)
            assert now() == {"level": 0, "flow": 0, "temperature": 1007, "running": False}
            await until(lambda: field.read_coils(10, 1).bits[0])
            await until(lambda: field.read_holding_registers(20, 2).registers == [1, 4464])
            field.write_registers(0, [1, 4, 0xFFFE])  # 65,540 and -2
            field.write_coil(3, True)
            await until(lambda: now()["running"] is True and now()["flow"] == -2)
            assert now()["level"] == 6554
            plc.put_output("pump", False)
            plc.put_output("heater", True)
            plc.put_output("ratio", -1)
            await until(lambda: not field.read_coils(10, 1).bits[0])
            await until(lambda: field.read_holding_registers(30, 1).registers == [1])
            await until(lambda: field.read_holding_registers(20, 2).registers == [65535, 65535])
            device.stop()
            await until(lambda: kept.standing() == [("source", "plc")])
            kept.outputs.update(pump=True, ratio=5)
            kept.samples.clear()
            device.start()
            await device.there()
            await until(lambda: not kept.standing() and len(now()) == 4)
            await until(lambda: field.read_coils(10, 1).bits[0])
            await until(lambda: field.read_holding_registers(20, 2).registers == [0, 5])
        finally:
            await running.close()

    asyncio.run(body())


def test_what_waits_is_not_written_where_another_gateway_may_lead_by_then(
    examples: Path, device: Device, monkeypatch: pytest.MonkeyPatch
) -> None:
    """As behind a reading that takes long."""

    async def body() -> None:
        kept = Kept(tank(examples), outputs={"pump": True})
        plc = ModbusClient(source(kept.plant, device.port), kept.intake())
        running, field, read = Running(plc, kept), device.client, plc._read
        reading, gate, reads = asyncio.Event(), asyncio.Event(), 0

        async def slow(given: modbus.Device) -> None:
            nonlocal reads
            reading.set()
            await gate.wait()
            reads += 1
            await read(given)

        try:
            await device.there()
            await until(lambda: plc.is_up and field.read_coils(10, 1).bits[0])
            monkeypatch.setattr(plc, "_read", slow)
            await reading.wait()
            plc.put_output("pump", False)
            plc.may_write = lambda: False
            gate.set()
            await until(lambda: reads > 3)
            assert field.read_coils(10, 1).bits[0]
            plc.may_write = lambda: True
            plc.put_output("pump", False)
            await until(lambda: not field.read_coils(10, 1).bits[0])
        finally:
            await running.close()

    asyncio.run(body())


def test_what_the_device_refuses_is_a_trouble_of_its_input(examples: Path, device: Device) -> None:
    async def body() -> None:
        kept = Kept(tank(examples), outputs={"pump": True, "ratio": 2**31 - 1})
        given = source(kept.plant, device.port)
        far = replace(given.inputs[1], address=500)
        low = replace(given.outputs[1], form=Form.INT16)
        away = replace(given.outputs[0], address=500)
        given = replace(given, inputs=(given.inputs[0], far), outputs=(low, away))
        running = Running(ModbusClient(given, kept.intake()), kept)
        try:
            await until(lambda: len(kept.standing()) == 3 and kept.samples)
            assert {subject for _, subject in kept.standing()} == {
                "plc flow",
                "plc ratio",
                "plc pump",
            }
            assert "exception 2" in kept.texts() and "doesn't fit int16" in kept.texts()
            assert {name for name, _ in kept.samples} == {"level"}
            running.source.put_output("ratio", 7)
            await until(lambda: ("source", "plc ratio") not in kept.standing())
        finally:
            await running.close()

    asyncio.run(body())


def test_a_device_that_is_not_there_is_a_trouble(examples: Path) -> None:
    async def body() -> None:
        kept = Kept(tank(examples))
        running = Running(ModbusClient(source(kept.plant, free_port()), kept.intake()), kept)
        await until(kept.standing)
        assert kept.standing() == [("source", "plc")]
        await running.close()

    asyncio.run(body())


def test_a_device_that_answers_nothing_is_lost(examples: Path) -> None:
    async def body() -> None:
        kept = Kept(tank(examples))
        deaf = await asyncio.start_server(lambda *_: asyncio.sleep(3600), "127.0.0.1", 0)
        port = deaf.sockets[0].getsockname()[1]
        given = replace(source(kept.plant, port), timeout=0.1)
        running = Running(ModbusClient(given, kept.intake()), kept)
        await until(kept.standing)
        assert kept.standing() == [("source", "plc")] and not kept.samples
        await running.close()
        deaf.close()

    asyncio.run(body())


def test_the_end_does_not_wait_for_an_answer(examples: Path) -> None:
    """Of which the whole process would wait for so long as that may take, since a thread does."""

    async def body() -> None:
        asked = asyncio.Event()

        async def deaf(reader: asyncio.StreamReader, writer: asyncio.StreamWriter) -> None:
            await reader.readexactly(12)
            asked.set()
            await reader.read()
            writer.close()

        server = await asyncio.start_server(deaf, "127.0.0.1", 0)
        kept = Kept(tank(examples))
        port = server.sockets[0].getsockname()[1]
        client = ModbusClient(replace(source(kept.plant, port), timeout=600.0), kept.intake())
        running = Running(client, kept)
        await asked.wait()
        threads = set(client._thread._threads)
        assert threads
        await running.close()
        await until(lambda: not any(thread.is_alive() for thread in threads))
        server.close()

    asyncio.run(body())


def test_the_end_does_not_wait_for_a_connection(examples: Path) -> None:
    """With a device that is there, and takes none."""
    with contextlib.ExitStack() as stack:
        deaf, *others = (stack.enter_context(socket.socket()) for _ in range(5))
        deaf.bind(("127.0.0.1", 0))
        deaf.listen(0)
        for one in others:  # until no more find room
            one.setblocking(False)
            one.connect_ex(deaf.getsockname())
        kept = Kept(tank(examples))
        given = replace(source(kept.plant, deaf.getsockname()[1]), timeout=600.0)

        async def body() -> None:
            client = ModbusClient(given, kept.intake())
            running = Running(client, kept)
            await until(lambda: connecting(given.port) > len(others))
            await running.close()
            threads = set(client._thread._threads)
            await until(lambda: not any(thread.is_alive() for thread in threads))

        asyncio.run(body())


def connecting(port: int) -> int:
    """How many connections to a port there are, or are begun, as the kernel tells."""
    rows = [line.split() for line in Path("/proc/net/tcp").read_text().splitlines()]
    return sum(row[2].endswith(f":{port:04X}") for row in rows)


def test_points_beside_each_other_are_one_request(examples: Path) -> None:
    level = tank(examples).inputs["level"]
    places = [(Area.HOLDING, 5), (Area.HOLDING, 0), (Area.HOLDING, 1), (Area.INPUT, 2)]
    points = [point(level, area, address) for area, address in places]
    points.append(point(level, Area.HOLDING, 2, Form.INT32))
    found = [(it.area, it.address, it.length, len(it.points)) for it in blocks(points)]
    assert found == [
        (Area.HOLDING, 0, 4, 3),
        (Area.HOLDING, 5, 1, 1),
        (Area.INPUT, 2, 1, 1),
    ]


def test_a_request_has_at_most_125_registers_and_2000_bits(examples: Path) -> None:
    plant = tank(examples)
    words = [point(plant.inputs["level"], Area.INPUT, at, Form.INT32) for at in range(0, 300, 2)]
    assert [(it.address, it.length) for it in blocks(words)] == [(0, 124), (124, 124), (248, 52)]
    bits = [point(plant.inputs["running"], Area.COIL, at) for at in range(2001)]
    assert [(it.address, it.length) for it in blocks(bits)] == [(0, 2000), (2000, 1)]


class Late:
    """A device behind a gateway of a serial line, which once says that it has no answer (exception 11), and has it a little later. What
    stands in a register is its address."""

    def __init__(self) -> None:
        self.port = 0
        self.requests = 0
        self._server: asyncio.Server | None = None

    async def start(self) -> None:
        self._server = await asyncio.start_server(self._serve, "127.0.0.1", 0)
        self.port = self._server.sockets[0].getsockname()[1]

    async def _serve(self, reader: asyncio.StreamReader, writer: asyncio.StreamWriter) -> None:
        with contextlib.suppress(EOFError, OSError):
            while True:
                number, _, size, unit = struct.unpack(">HHHB", await reader.readexactly(7))
                function, address, count = struct.unpack(">BHH", await reader.readexactly(size - 1))
                self.requests += 1
                values = struct.pack(f">{count}H", *range(address, address + count))
                answers = [bytes([function, len(values)]) + values]
                if self.requests == 5:
                    answers.insert(0, bytes([function | 0x80, 11]))
                for answer in answers:
                    head = struct.pack(">HHHB", number, 0, len(answer) + 1, unit)
                    writer.write(head + answer)
                    await writer.drain()
        writer.close()

    async def close(self) -> None:
        assert self._server is not None
        self._server.close()
        await self._server.wait_closed()


def test_an_answer_that_comes_late_is_taken_for_no_other(examples: Path) -> None:
    async def body() -> None:
        device = Late()
        await device.start()
        plant = plants.read(examples / "tank" / "plant.toml")
        kept = Kept(plant)
        level, flow = (
            point(plant.inputs[name], Area.HOLDING, at)
            for name, at in (("level", 10), ("flow", 50))
        )
        given = replace(source(plant, device.port), inputs=(level, flow), outputs=())
        running = Running(ModbusClient(given, kept.intake()), kept)
        try:
            await until(lambda: device.requests > 20 and not kept.standing())
            assert set(kept.samples) == {("level", 10), ("flow", 50)}
        finally:
            await running.close()
            await device.close()

    asyncio.run(body())


class Odd:
    """A device that answers each request by a number and a body, which a test makes of those that were asked."""

    def __init__(self, answer: Callable[[int, bytes], tuple[int, bytes]]) -> None:
        self.port = 0
        self._answer = answer
        self._server: asyncio.Server | None = None

    async def start(self) -> None:
        self._server = await asyncio.start_server(self._serve, "127.0.0.1", 0)
        self.port = self._server.sockets[0].getsockname()[1]

    async def _serve(self, reader: asyncio.StreamReader, writer: asyncio.StreamWriter) -> None:
        with contextlib.suppress(EOFError, OSError):
            while True:
                asked, _, size, unit = struct.unpack(">HHHB", await reader.readexactly(7))
                number, body = self._answer(asked, await reader.readexactly(size - 1))
                if not body:
                    break
                writer.write(struct.pack(">HHHB", number, 0, len(body) + 1, unit) + body)
                await writer.drain()
        writer.close()

    async def close(self) -> None:
        assert self._server is not None
        self._server.close()
        await self._server.wait_closed()


@pytest.mark.parametrize(
    ("answer", "words"),
    [
        (lambda asked, body: (asked, b"\x04\x02\x00\x09"), "answers function 4, and was asked 3"),
        (lambda asked, body: (asked, b"\x01\x01\x01"), "answers function 1, and was asked 3"),
        (lambda asked, body: (asked, b"\x84\x02"), "answers function 4, and was asked 3"),
        (lambda asked, body: (asked, b"\x03\x04\x00\x09\x00\x08"), "the answer is too long"),
        (lambda asked, body: (asked, b"\x03\x00"), "the answer is too short"),
        (lambda asked, body: (0, b"\x03\x02\x00\x09"), "bears the number 0, and the request 1"),
        (lambda asked, body: (asked, b""), "the device has ended the connection"),
    ],
)
def test_an_answer_to_something_else_is_no_value(
    examples: Path, answer: Callable[[int, bytes], tuple[int, bytes]], words: str
) -> None:
    async def body() -> None:
        device = Odd(answer)
        await device.start()
        kept = Kept(tank(examples))
        level = point(kept.plant.inputs["level"], Area.HOLDING, 0)
        given = replace(source(kept.plant, device.port), inputs=(level,), outputs=())
        running = Running(ModbusClient(given, kept.intake()), kept)
        try:
            await until(kept.standing)
            assert kept.standing() == [("source", "plc")] and not kept.samples
            assert words in kept.texts()
        finally:
            await running.close()
            await device.close()

    asyncio.run(body())


class Busy:
    """A device with one coil, which is busy (exception 6) for some of its writes."""

    def __init__(self, busy: range) -> None:
        self.port = 0
        self.written: list[bool] = []
        self._busy = busy
        self._server: asyncio.Server | None = None

    async def start(self) -> None:
        self._server = await asyncio.start_server(self._serve, "127.0.0.1", 0)
        self.port = self._server.sockets[0].getsockname()[1]

    async def _serve(self, reader: asyncio.StreamReader, writer: asyncio.StreamWriter) -> None:
        with contextlib.suppress(EOFError, OSError):
            while True:
                number, _, size, unit = struct.unpack(">HHHB", await reader.readexactly(7))
                body = await reader.readexactly(size - 1)
                self.written.append(body[3] == 0xFF)
                answer = bytes([body[0] | 0x80, 6]) if len(self.written) in self._busy else body
                writer.write(struct.pack(">HHHB", number, 0, len(answer) + 1, unit) + answer)
                await writer.drain()
        writer.close()

    async def close(self) -> None:
        assert self._server is not None
        self._server.close()
        await self._server.wait_closed()


def test_an_output_that_is_refused_is_written_again(examples: Path) -> None:
    async def body() -> None:
        device = Busy(range(2, 5))
        await device.start()
        kept = Kept(plants.read(examples / "tank" / "plant.toml"), outputs={"pump": True})
        pump = point(kept.plant.outputs["pump"], Area.COIL, 1)
        client = ModbusClient(
            replace(source(kept.plant, device.port), inputs=(), outputs=(pump,)), kept.intake()
        )
        running = Running(client, kept)
        try:
            await until(lambda: device.written == [True])
            kept.outputs["pump"] = False
            client.put_output("pump", False)
            await until(kept.standing)
            assert "the device answers exception 6" in kept.texts()
            await until(lambda: not kept.standing())
            assert device.written == [True, False, False, False, False]
            await asyncio.sleep(0.2)
            assert len(device.written) == 5  # it is taken
        finally:
            await running.close()
            await device.close()

    asyncio.run(body())


def test_an_output_that_one_of_its_two_places_refuses_is_one_steady_trouble(
    examples: Path, device: Device
) -> None:
    """Whichever of the two is written last."""

    async def body() -> None:
        kept = Kept(tank(examples), outputs={"pump": True})
        told: list[bool] = []
        kept.troubles.listen(lambda trouble, stands: told.append(stands))
        there, away = (point(kept.plant.outputs["pump"], Area.COIL, at) for at in (10, 500))
        given = replace(source(kept.plant, device.port), inputs=(), outputs=(away, there))
        client = ModbusClient(given, kept.intake())
        await device.there()
        running = Running(client, kept)
        try:
            await until(lambda: ("source", "plc pump") in kept.standing())
            told.clear()
            for value in (False, True, False):
                kept.outputs["pump"] = value
                client.put_output("pump", value)
                await until(lambda: device.client.read_coils(10, 1).bits[0] == value)
            assert kept.standing() == [("source", "plc pump")] and told == []
        finally:
            await running.close()

    asyncio.run(body())


def test_a_refused_output_that_is_not_to_be_written_any_more(examples: Path) -> None:
    """As where another gateway leads by now, or a plant without it is served."""

    async def body() -> None:
        device = Busy(range(1, 1000))
        await device.start()
        kept = Kept(plants.read(examples / "tank" / "plant.toml"), outputs={"pump": True})
        pump = point(kept.plant.outputs["pump"], Area.COIL, 1)
        given = replace(source(kept.plant, device.port), inputs=(), outputs=(pump,))
        running = Running(ModbusClient(given, kept.intake()), kept)
        try:
            await until(lambda: len(device.written) > 2)
            kept.outputs.clear()
            await until(lambda: not kept.standing())
            await asyncio.sleep(0.2)
            count = len(device.written)
            await asyncio.sleep(0.2)
            assert len(device.written) == count and not kept.standing()
        finally:
            await running.close()
            await device.close()

    asyncio.run(body())


def test_what_was_refused_is_not_written_again_where_another_gateway_may_lead_by_then(
    examples: Path,
) -> None:
    """The lease may end between two writes of one round."""

    async def body() -> None:
        device = Busy(range(1, 1000))
        await device.start()
        kept = Kept(plants.read(examples / "tank" / "plant.toml"), outputs={"pump": True})
        pumps = tuple(point(kept.plant.outputs["pump"], Area.COIL, at) for at in (1, 2))
        given = replace(source(kept.plant, device.port), inputs=(), outputs=pumps)
        client, polls = ModbusClient(given, kept.intake()), 0

        def current() -> dict[str, Value]:
            nonlocal polls
            polls += 1
            return kept.outputs

        client.may_write = lambda: len(device.written) < 5
        working = asyncio.create_task(client.run(current))
        try:
            await until(
                lambda: len(device.written) >= 5
            )  # the first of the two, for the third time
            asked = polls
            await until(lambda: polls > asked + 3)
            assert len(device.written) == 5
        finally:
            working.cancel()
            await asyncio.gather(working, return_exceptions=True)
            client.close()
            await device.close()

    asyncio.run(body())
