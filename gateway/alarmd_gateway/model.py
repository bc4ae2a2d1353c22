"""What the modules of the gateway share: kinds, values, the plant's parts, orders, replies and samples.

Moments and durations are milliseconds. A moment counts from the plant's epoch. Nothing here does anything.
"""

from __future__ import annotations

import enum
from collections.abc import Mapping
from dataclasses import dataclass, field
from datetime import datetime, timedelta
from pathlib import Path
from typing import Final, TypeAlias

Value: TypeAlias = bool | int
"""A BOOL is a bool; a DINT and a TIME are an int, a TIME in milliseconds."""

Json: TypeAlias = "None | bool | int | float | str | list[Json] | dict[str, Json]"

LAST_MOMENT: Final = 4_000_000_000_000
"""The last moment that a scan may have; a later one is refused (E2)."""

MOST_EVENTS: Final = 1_000_000
"""How many events a run takes."""

EXACT: Final = 2**53 - 1
"""The largest number that every reader of JSON takes exactly: a browser rounds what is beyond."""


class Kind(enum.Enum):
    """The kind of a variable."""

    BOOL = "BOOL"
    DINT = "DINT"
    TIME = "TIME"


class Region(enum.Enum):
    """Where a global lies: an input is set by scans, an output is printed by scans."""

    INPUT = "I"
    OUTPUT = "Q"
    MEMORY = "M"


class Code(enum.Enum):
    """The nine states of an alarm, by the codes that the server prints."""

    NORM = "NORM"
    UNACK = "UNACK"
    ACKED = "ACKED"
    RTNUN = "RTNUN"
    LATUN = "LATUN"
    LATAK = "LATAK"
    SHELVED = "SHELVED"
    SUPPR = "SUPPR"
    OOS = "OOS"


class Verb(enum.Enum):
    """What an order asks."""

    ACK = "ack"
    RESET = "reset"
    SHELVE = "shelve"
    UNSHELVE = "unshelve"
    REMOVE = "remove"
    RETURN = "return"
    RESTART = "restart"


@dataclass(frozen=True)
class Variable:
    """A global of the plant, with its name as it was declared."""

    name: str
    kind: Kind
    region: Region
    initial: Value
    source: str
    line: int


@dataclass(frozen=True)
class AlarmRow:
    """A row of the alarm file. `number` counts from 0; 0 in `max_shelve_ms` means never, in `on_delay_ms` at once."""

    number: int
    tag: str
    area: str
    priority: int
    condition: str
    suppress: str
    latch: bool
    max_shelve_ms: int
    on_delay_ms: int
    text: str


@dataclass(frozen=True)
class ConsoleRow:
    """A console of the plant file: its number, and of which areas it orders the alarms."""

    number: int
    areas: tuple[str, ...]


@dataclass(frozen=True)
class Program:
    """A program of a source, with its name as it was declared and the line of its name."""

    name: str
    source: str
    line: int


@dataclass(frozen=True)
class Texts:
    """The bytes of a plant's files: the plant file, the alarm file, and the sources as the plant file lists them."""

    plant: bytes
    alarms: bytes
    sources: tuple[bytes, ...]


@dataclass(frozen=True)
class Plant:
    """A plant by its files. Inputs, outputs and programs are found by their names in small letters."""

    path: Path
    name: str
    epoch: datetime
    areas: tuple[str, ...]
    sources: tuple[str, ...]
    alarm_file: str
    consoles: tuple[ConsoleRow, ...]
    alarms: tuple[AlarmRow, ...]
    variables: tuple[Variable, ...]
    inputs: Mapping[str, Variable]
    outputs: Mapping[str, Variable]
    programs: Mapping[str, Program]
    by_tag: Mapping[str, AlarmRow]
    texts: Texts | None = field(default=None, repr=False, compare=False)  # as they were read

    def time(self, moment: int) -> datetime:
        """The civil time (UTC) of a moment."""
        return self.epoch + timedelta(milliseconds=moment)

    def moment(self, time: datetime) -> int:
        """The moment of a civil time with its zone; below 0 where it is before the epoch."""
        return (time - self.epoch) // timedelta(milliseconds=1)


def exact(value: Value) -> Json:
    """A value for JSON: one that readers may round, as a TIME can be, is a text."""
    return value if abs(value) <= EXACT else str(value)


def civil(time: datetime) -> str:
    """A time in UTC as the server's journal writes it: `2026-11-23T06:00:00.000Z`."""
    return time.strftime("%Y-%m-%dT%H:%M:%S.") + f"{time.microsecond // 1000:03}Z"


@dataclass(frozen=True)
class Order:
    """What an operator asks from a console. The target is a tag, or a program of `restart`; only `shelve` has milliseconds."""

    verb: Verb
    console: int
    target: str
    milliseconds: int | None = None

    def line(self) -> str:
        """The order as the server's protocol spells it."""
        tail = "" if self.milliseconds is None else f" {self.milliseconds}"
        return f"{self.verb.value} {self.console} {self.target}{tail}"


@dataclass(frozen=True)
class Reply:
    """The server's answer to an order: `OK`, `O1` to `O5`, or `E6` where the history is full."""

    code: str
    lines: tuple[str, ...]

    @property
    def taken(self) -> bool:
        """Whether the order was carried out."""
        return self.code == "OK"

    @property
    def why(self) -> str:
        """What the code means, as a sentence for an operator."""
        return REPLIES.get(self.code, self.code)


REPLIES: Final = {
    "OK": "done",
    "O1": "there is no alarm of this tag, or no program of this name",
    "O2": "there is no console of this number, or it isn't for the alarm's area",
    "O3": "the alarm's state doesn't take this order",
    "O4": "the alarm may not be shelved for so long",
    "O5": "the program hasn't stopped",
    "E6": "the history is full: a new record is due",
}


@dataclass(frozen=True)
class Sample:
    """A value of an input, as a source brings it. `source` names who brought it, for troubles. One that isn't `fresh` was kept
    somewhere: it doesn't show that more come."""

    name: str
    value: Value | str
    source: str
    fresh: bool = True


class BadSample(ValueError):
    """A sample that doesn't fit the plant. The text says why, and names the input."""


class GatewayFault(Exception):
    """What ends the gateway, or keeps it from starting: one line for `SERVER`, and the status of the process. `details` are
    further lines for a person, as `alarmd` has written them."""

    def __init__(self, words: str, status: int, details: str = "") -> None:
        super().__init__(words)
        self.words = words
        self.status = status
        self.details = details


class ServerGone(GatewayFault):
    """`alarmd` has ended, or was silent for too long."""


@dataclass(frozen=True)
class Figure:
    """A figure for `/metrics`: its name, what it is, its value, and a label where it has one."""

    name: str
    what: str
    value: float
    label: tuple[str, str] | None = None
