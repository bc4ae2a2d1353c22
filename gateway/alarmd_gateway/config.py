"""The configuration `gateway.toml`: where everything lies, and a typed reader of its tables."""

from __future__ import annotations

import os
import tomllib
from dataclasses import dataclass, field
from pathlib import Path
from typing import Any

from .model import GatewayFault

TABLES = ("etcd", "fields", "simulate", "web")
"""The tables of other modules."""

LONGEST_NAME = 80
"""Bytes of the name of a record's file."""

WORDS_STATUS = 2
"""The status of the process where words, a configuration or a record are wrong."""

NO_TOML = (ValueError, ArithmeticError, RecursionError)
"""What a text may raise that is read as TOML: it is none, or no UTF-8, or has a number or a depth that can't be read."""


class Table:
    """A table of the configuration, read key by key. What is missing, of another kind or left over is a GatewayFault (status
    2) whose words name the table and the key."""

    def __init__(self, name: str, values: dict[str, Any], folder: Path) -> None:
        self.name = name
        self.folder = folder
        self._values = dict(values)

    def text(self, key: str, default: str | None = None) -> str:
        """A text; without a default it has to be there."""
        value = self._take(key, default)
        if not isinstance(value, str):
            raise self.wrong(key, "a text in quotes")
        return value

    def path(self, key: str, default: str | None = None) -> Path:
        """A path; one that doesn't begin with `/` counts from the configuration's folder."""
        text = self.text(key, default)
        if not text or "\0" in text:
            raise self.wrong(key, "a path, and no path has a byte 0")
        return self.folder / text

    def number(
        self, key: str, default: int | None = None, least: int = 0, most: int = 2**53
    ) -> int:
        """A whole number from `least` to `most`."""
        value = self._take(key, default)
        if type(value) is not int or not least <= value <= most:
            raise self.wrong(key, f"a whole number from {least} to {most}")
        return value

    def truth(self, key: str, default: bool | None = None) -> bool:
        """`true` or `false`."""
        value = self._take(key, default)
        if type(value) is not bool:
            raise self.wrong(key, "true or false")
        return value

    def texts(self, key: str, default: list[str] | None = None) -> list[str]:
        """A list of texts."""
        value = self._take(key, default)
        if not isinstance(value, list) or not all(isinstance(text, str) for text in value):
            raise self.wrong(key, "a list of texts in quotes")
        return value

    def table(self, key: str) -> Table:
        """A table inside, empty where there is none."""
        value = self._take(key, {})
        if not isinstance(value, dict):
            raise self.wrong(key, "a table")
        return Table(f"{self.name}.{key}" if self.name else key, value, self.folder)

    def tables(self, key: str) -> list[Table]:
        """A list of tables (`[[key]]`), empty where there is none."""
        value = self._take(key, [])
        if not isinstance(value, list) or not all(isinstance(one, dict) for one in value):
            raise self.wrong(key, "a list of tables")
        name = f"{self.name}.{key}" if self.name else key
        return [Table(f"{name}[{at}]", one, self.folder) for at, one in enumerate(value, 1)]

    def anything(self, key: str) -> Any:
        """Whatever stands there; it has to be there."""
        return self._take(key, None)

    def has(self, key: str) -> bool:
        """Whether the key is there and wasn't taken yet."""
        return key in self._values

    def keys(self) -> list[str]:
        """The keys that weren't taken yet."""
        return list(self._values)

    def end(self) -> None:
        """All keys that may be there were taken: one that is left is wrong."""
        for key in self._values:
            raise GatewayFault(f"the configuration has {self._name(key)}, unknown", WORDS_STATUS)

    def wrong(self, key: str, wanted: str) -> GatewayFault:
        """The fault of a key whose value isn't what is wanted."""
        return GatewayFault(
            f"the configuration's {self._name(key)} has to be {wanted}", WORDS_STATUS
        )

    def _name(self, key: str) -> str:
        return f"{key!r} of [{self.name}]" if self.name else repr(key)

    def _take(self, key: str, default: Any) -> Any:
        if key not in self._values and default is None:
            raise GatewayFault(f"the configuration lacks {self._name(key)}", WORDS_STATUS)
        return self._values.pop(key, default)


@dataclass(frozen=True)
class Config:
    """What `serve` goes by. Times end in their unit; `tables` are those of the other modules, as they stand in the file."""

    alarmd: Path
    plant: Path
    record: Path
    folder: Path
    period_ms: int = 1000  # at most one scan in so long, unless samples press
    patience_ms: int = 10_000  # for so long an answer may take
    workers: int = 1
    rotate_at: int = 900_000  # events at which a new record is due
    gap_ms: int = (
        86_400_000  # the first moment may be so far from the record's last one without a question
    )
    console: bool | None = None  # standard input is read; None: where nothing else brings anything
    yes: bool = False  # questions at the start are answered with yes
    restarts: int = 3  # so often in a row alarmd is started again, without a scan between
    speed: int = 1  # moments go so many times as fast as the time of day: for simulations alone
    tables: dict[str, Any] = field(default_factory=dict)
    new_alarmd: bool = False  # a shared log goes on with this program

    def table(self, name: str) -> Table:
        """A table of another module, `[name]`, empty where there is none."""
        return Table("", self.tables, self.folder).table(name)


def _record(table: Table) -> Path:
    """Where the record lies, and not a link to it: a new record takes its name there, and by whatever link a gateway comes, one has
    it at a time. Its name is short enough for the names beside it, of which one is a socket's."""
    try:
        path = Path(os.path.realpath(table.path("record")))
        name = os.fsencode(path.name)
    except (OSError, UnicodeEncodeError):
        raise table.wrong("record", "a path") from None
    if not 0 < len(name) <= LONGEST_NAME:
        raise table.wrong("record", f"a path whose last part has 1 to {LONGEST_NAME} bytes")
    return path


def read(path: Path) -> Config:
    """Reads a configuration. Raises GatewayFault (status 2) with what is wrong in it."""
    try:
        with open(path, "rb") as file:
            values = tomllib.load(file)
    except OSError as fault:
        raise GatewayFault(f"{path}: {fault.strerror}", WORDS_STATUS) from None
    except NO_TOML as fault:
        raise GatewayFault(f"{path}: no TOML: {fault}", WORDS_STATUS) from None
    folder = path.resolve().parent
    others = {key: value for key, value in values.items() if isinstance(value, dict | list)}
    own = {key: value for key, value in values.items() if key not in others}
    Table("", {key: value for key, value in others.items() if key not in TABLES}, folder).end()
    table = Table("", own, folder)
    config = Config(
        alarmd=table.path("alarmd"),
        plant=table.path("plant"),
        record=_record(table),
        folder=folder,
        period_ms=table.number("period_ms", 1000, 1, 3_600_000),
        patience_ms=table.number("patience_ms", 10_000, 100, 3_600_000),
        workers=table.number("workers", 1, 1, 64),
        rotate_at=table.number("rotate_at", 900_000, 10, 999_000),
        gap_ms=table.number("gap_ms", 86_400_000, 0, 4_000_000_000_000),
        console=table.truth("console") if table.has("console") else None,
        yes=table.truth("yes", False),
        restarts=table.number("restarts", 3, 0, 1000),
        tables=others,
    )
    table.end()
    return config
