"""The map: which topic, register or coil is which input, where outputs are written, and how raw values are spelled.

Raw values become those of inputs by `raw * scale + offset`, and outputs become raw values by `output * scale + offset`. Both are
exact until they are rounded to the nearest whole number, halves away from zero. A BOOL isn't scaled: `invert` turns it over."""

from __future__ import annotations

import enum
import struct
from collections.abc import Iterator, Sequence
from dataclasses import dataclass
from fractions import Fraction
from pathlib import Path

from .model import Kind, Value, Variable


class Area(enum.Enum):
    """The four tables of a Modbus device. Of `holding` and `coil` may be written."""

    HOLDING = "holding"
    INPUT = "input"
    COIL = "coil"
    DISCRETE = "discrete"

    @property
    def bits(self) -> bool:
        """Whether it has single bits, and no registers of 16."""
        return self in (Area.COIL, Area.DISCRETE)


class Form(enum.Enum):
    """How registers spell a number; the value is that of the module struct, high byte first."""

    INT16 = ">h"
    UINT16 = ">H"
    INT32 = ">i"
    UINT32 = ">I"
    FLOAT32 = ">f"

    @property
    def registers(self) -> int:
        """How many registers it has."""
        return struct.calcsize(self.value) // 2


class BadRaw(ValueError):
    """A raw value that is none of its input's, or an output that its registers can't hold. The text says why."""


def whole(number: Fraction) -> int:
    """The nearest whole number, halves away from zero."""
    size = int(abs(number) + Fraction(1, 2))
    return size if number >= 0 else -size


@dataclass(frozen=True)
class Scale:
    """`raw * factor + offset`, and whether a BOOL is turned over."""

    factor: Fraction = Fraction(1)
    offset: Fraction = Fraction(0)
    invert: bool = False

    def number(self, raw: int | Fraction) -> int:
        """The scaled number, rounded."""
        return whole(raw * self.factor + self.offset)

    def truth(self, raw: bool) -> bool:
        """The BOOL, turned over where that is set."""
        return raw != self.invert


@dataclass(frozen=True)
class Point:
    """A variable of the plant at a place of a Modbus device. `address` counts from 0; `bit` is that of a register for a BOOL."""

    variable: Variable
    area: Area
    address: int
    form: Form
    low_word_first: bool
    bit: int | None
    scale: Scale

    @property
    def length(self) -> int:
        """How many registers or bits it has."""
        return 1 if self.area.bits or self.bit is not None else self.form.registers

    def read(self, raw: Sequence[int | bool]) -> Value:
        """The variable's value by its registers or bits. Raises BadRaw where they spell no number."""
        if self.area.bits or self.bit is not None:
            return self.scale.truth(bool(raw[0] >> (self.bit or 0) & 1))
        return self.scale.number(self._number([int(word) for word in raw]))

    def _number(self, words: list[int]) -> Fraction:
        high_first = words[::-1] if self.low_word_first else words
        (number,) = struct.unpack(
            self.form.value, b"".join(word.to_bytes(2, "big") for word in high_first)
        )
        try:
            return Fraction(number)
        except (ValueError, OverflowError):
            raise BadRaw(f"{self.variable.name}: the registers spell no number") from None

    def write(self, value: Value) -> list[int]:
        """The registers for an output's value. Raises BadRaw where they can't hold it."""
        if self.variable.kind is Kind.BOOL:
            return [int(self.scale.truth(bool(value)))]
        raw = self.scale.number(value)
        try:
            data = struct.pack(self.form.value, raw)
        except (struct.error, OverflowError):
            raise BadRaw(
                f"{self.variable.name}: {raw} doesn't fit {self.form.name.lower()}"
            ) from None
        words = [int.from_bytes(data[at : at + 2], "big") for at in range(0, len(data), 2)]
        return words[::-1] if self.low_word_first else words


@dataclass(frozen=True)
class Topic:
    """A variable of the plant under an MQTT topic. `path` leads to its value in a JSON document, and is empty where the payload
    is the value."""

    variable: Variable
    topic: str
    path: tuple[str, ...]
    scale: Scale
    retain: bool


@dataclass(frozen=True)
class Retry:
    """How long a lost source is left alone: `first` seconds, and twice as long each time, up to `most`."""

    first: float
    most: float


@dataclass(frozen=True)
class LinesSource:
    """Lines of a FIFO. `orders`: whether lines may be orders. `hold`: whether the FIFO is held open, so that it doesn't end
    with its last writer."""

    name: str
    path: Path
    orders: bool
    hold: bool
    retry: Retry


@dataclass(frozen=True)
class MqttSource:
    """An MQTT broker. The password is read from a file, `ca` is the certificate by which a broker with TLS is known."""

    name: str
    host: str
    port: int
    client: str
    username: str | None
    password: str | None
    ca: Path | None
    quality: int
    retry: Retry
    inputs: tuple[Topic, ...]
    outputs: tuple[Topic, ...]


@dataclass(frozen=True)
class ModbusSource:
    """A Modbus TCP device. Times are seconds."""

    name: str
    host: str
    port: int
    unit: int
    poll: float
    timeout: float
    retry: Retry
    inputs: tuple[Point, ...]
    outputs: tuple[Point, ...]


@dataclass(frozen=True)
class Map:
    """All sources, and the seconds after which an input is stale, by its name as declared."""

    lines: tuple[LinesSource, ...] = ()
    mqtt: tuple[MqttSource, ...] = ()
    modbus: tuple[ModbusSource, ...] = ()
    limits: tuple[tuple[str, float], ...] = ()

    def outputs(self) -> Iterator[Variable]:
        """The outputs of all sources."""
        for broker in self.mqtt:
            yield from (topic.variable for topic in broker.outputs)
        for device in self.modbus:
            yield from (point.variable for point in device.outputs)
