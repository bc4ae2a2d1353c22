"""A Modbus TCP device: its registers and coils are read each period, and outputs are written.

Between two readings the device isn't seen: what was there only meanwhile is no sample."""

from __future__ import annotations

import asyncio
import contextlib
import logging
import socket
from collections.abc import Callable, Iterable, Iterator
from concurrent.futures import ThreadPoolExecutor
from dataclasses import dataclass
from typing import Any, Final

from pymodbus.client import ModbusTcpClient
from pymodbus.exceptions import ConnectionException, ModbusException

from ..mapping import Area, BadRaw, ModbusSource, Point
from ..model import Value
from .source import Intake, Lost, Source

MOST_REGISTERS: Final = 125  # that one request may read
MOST_BITS: Final = 2000
READ: Final = {Area.COIL: 1, Area.DISCRETE: 2, Area.HOLDING: 3, Area.INPUT: 4}
"""The function codes by which the areas are read."""

WRITE_COIL: Final = 5
WRITE_REGISTER: Final = 6
WRITE_REGISTERS: Final = 16

logging.getLogger("pymodbus").addHandler(logging.NullHandler())
logging.getLogger("pymodbus").propagate = False  # what is lost is a trouble


@dataclass(frozen=True)
class Block:
    """Registers or bits that are read by one request, and the points that lie in them."""

    area: Area
    address: int
    length: int
    points: tuple[Point, ...]


def blocks(points: Iterable[Point]) -> Iterator[Block]:
    """The fewest requests that read the points, and nothing beside them: a device may refuse what it hasn't."""
    for area in Area:
        most = MOST_BITS if area.bits else MOST_REGISTERS
        begun: list[Point] = []
        start = end = 0
        for point in sorted((it for it in points if it.area is area), key=lambda it: it.address):
            last = max(end, point.address + point.length)
            if begun and (point.address > end or last - start > most):
                yield Block(area, start, end - start, tuple(begun))
                begun = []
            if not begun:
                start, last = point.address, point.address + point.length
            begun.append(point)
            end = last
        if begun:
            yield Block(area, start, end - start, tuple(begun))


class Refusal(Exception):
    """The device answers a request with an exception: it is there, but doesn't do this."""


async def connected(host: str, port: int) -> socket.socket:
    """A connection to the first address that takes one. Raises OSError, or UnicodeError where the name is none."""
    loop, last = asyncio.get_running_loop(), OSError("there is no address")
    for family, kind, number, _, address in await loop.getaddrinfo(
        host, port, type=socket.SOCK_STREAM
    ):
        one = socket.socket(family, kind, number)
        one.setblocking(False)
        try:
            await loop.sock_connect(one, address)
            return one
        except OSError as fault:
            one.close()
            last = fault
        except BaseException:
            one.close()
            raise
    raise last


class Device:
    """The device, as it is spoken to in a thread: each call waits for the answer. Raises Lost and Refusal."""

    def __init__(self, given: ModbusSource) -> None:
        self._given = given
        self._client = ModbusTcpClient(given.host, port=given.port, retries=0)
        self._client.params.timeout = given.timeout

    async def connect(self) -> None:
        """Connects, and not in the thread, which would wait to the end. Raises Lost."""
        host, port = self._given.host, self._given.port
        try:
            self._client.socket = await asyncio.wait_for(connected(host, port), self._given.timeout)
        except (OSError, UnicodeError, asyncio.TimeoutError):
            raise Lost(f"{host}:{port} doesn't take a connection") from None

    def close(self) -> None:
        """Ends the connection."""
        self._client.close()

    def interrupt(self) -> None:
        """Ends a request that is under way in the thread: it would wait for its answer, and the end of the process for it."""
        connection = self._client.socket
        if connection is not None:
            with contextlib.suppress(OSError):
                connection.shutdown(socket.SHUT_RDWR)

    def read(self, block: Block) -> list[int]:
        """The registers or bits of a block."""
        ask = {
            Area.HOLDING: self._client.read_holding_registers,
            Area.INPUT: self._client.read_input_registers,
            Area.COIL: self._client.read_coils,
            Area.DISCRETE: self._client.read_discrete_inputs,
        }[block.area]
        what = f"{block.area.value} {block.address}, {block.length} long"
        answer = self._ask(what, READ[block.area], ask, block.address, block.length)
        found = answer.bits if block.area.bits else answer.registers
        if len(found) < block.length:
            raise Lost(f"{what}: the answer is too short")
        if not block.area.bits and len(found) > block.length:  # bits fill bytes, or more of them
            raise Lost(f"{what}: the answer is too long")
        return [int(one) for one in found[: block.length]]

    def write(self, point: Point, words: list[int]) -> None:
        """Writes a coil or registers."""
        what = f"{point.area.value} {point.address}"
        if point.area is Area.COIL:
            truth = bool(words[0])
            self._ask(what, WRITE_COIL, self._client.write_coil, point.address, truth)
        elif len(words) == 1:
            write = self._client.write_register
            self._ask(what, WRITE_REGISTER, write, point.address, words[0])
        else:
            self._ask(what, WRITE_REGISTERS, self._client.write_registers, point.address, words)

    def _ask(self, what: str, function: int, ask: Callable[..., Any], *words: Any) -> Any:
        """Asks by a function code. An answer with another number or function is that of another request: it came late, and so would all
        that follow; the library takes each for what was asked last."""
        try:
            answer = ask(*words, slave=self._given.unit)
        except ConnectionException:  # its words are others each time
            raise Lost(f"{what}: the device has ended the connection") from None
        except (ModbusException, OSError) as fault:
            raise Lost(f"{what}: {fault}") from None
        if isinstance(answer, Exception):
            raise Lost(f"{what}: {answer}")
        number, asked = answer.transaction_id, self._client.transaction.tid
        if number != asked:
            raise Lost(f"{what}: the answer bears the number {number}, and the request {asked}")
        if answer.function_code & 0x7F != function:
            told = f"function {answer.function_code & 0x7F}, and was asked {function}"
            raise Lost(f"{what}: the device answers {told}")
        if answer.isError():
            raise Refusal(f"{what}: the device answers exception {answer.exception_code}")
        return answer


class ModbusClient(Source):
    """A session is a connection: a request that isn't answered ends it."""

    def __init__(self, given: ModbusSource, intake: Intake) -> None:
        super().__init__(given.name, given.retry, intake)
        self._given = given
        self._blocks = list(blocks(given.inputs))
        self._thread = ThreadPoolExecutor(1, given.name)
        self._refused: set[Point] = set()  # outputs that couldn't be written: each is a trouble

    async def session(self, current: Callable[[], dict[str, Value]]) -> None:
        """Connects, and reads and writes each period until the device doesn't answer."""
        loop = asyncio.get_running_loop()
        device = Device(self._given)
        try:
            await device.connect()
            due = loop.time()
            await self._read(device)
            self.up()
            for name, value in current().items():
                await self._write(device, name, value)
            while True:
                due = max(due + self._given.poll, loop.time())
                await self._writes(device, due)
                await self._write_again(device, current())
                await self._read(device)
        finally:
            device.interrupt()
            self._thread.submit(device.close)

    async def _read(self, device: Device) -> None:
        """Reads all blocks, and gives what is in them. What the device refuses is a trouble of its inputs."""
        loop = asyncio.get_running_loop()
        for block in self._blocks:
            try:
                raw = await loop.run_in_executor(self._thread, device.read, block)
            except Refusal as fault:
                for point in block.points:
                    self.intake.fails(self.name, point.variable.name, str(fault))
                continue
            for point in block.points:
                await self._give(point, raw[point.address - block.address :][: point.length])

    async def _give(self, point: Point, raw: list[int]) -> None:
        try:
            value = point.read(raw)
        except BadRaw as fault:
            self.intake.bad(self.name, point.variable.name, str(fault))
            return
        await self.intake.give(self.name, point.variable.name, value)

    async def _writes(self, device: Device, due: float) -> None:
        """Writes outputs as they change, until the next reading is due."""
        loop = asyncio.get_running_loop()
        while (left := due - loop.time()) > 0:
            try:
                name, value = await asyncio.wait_for(self.next_output(), left)
            except asyncio.TimeoutError:
                return
            await self._write(device, name, value)
        for name, value in self.waiting_outputs():
            await self._write(device, name, value)

    async def _write_again(self, device: Device, values: dict[str, Value]) -> None:
        """Writes what couldn't be written before, as it is now; what isn't to be written by now is no trouble any more."""
        for point in tuple(self._refused):
            if point.variable.name not in values:
                self._refused.discard(point)
                self.intake.good(self.name, point.variable.name)
            elif self.may_write():
                await self._write_point(device, point, values[point.variable.name])

    async def _write(self, device: Device, name: str, value: Value) -> None:
        """Writes an output wherever the map has it."""
        for point in self._given.outputs:
            if point.variable.name == name and self.may_write():
                await self._write_point(device, point, value)

    async def _write_point(self, device: Device, point: Point, value: Value) -> None:
        loop, name = asyncio.get_running_loop(), point.variable.name
        try:
            await loop.run_in_executor(self._thread, device.write, point, point.write(value))
        except (Refusal, BadRaw) as fault:
            self._refused.add(point)
            self.intake.fails(self.name, name, str(fault))
        else:
            self._refused.discard(point)
            if all(other.variable.name != name for other in self._refused):
                self.intake.good(self.name, name)

    def close(self) -> None:
        """The thread ends once its last request is done."""
        self._thread.shutdown(wait=False)
