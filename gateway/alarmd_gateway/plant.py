"""Reads a plant's files: the plant file, the globals and programs of its sources, the table of its alarms.

It takes a plant that `alarmd` accepts; another one is refused by `alarmd`, and nothing here judges it.
"""

from __future__ import annotations

import contextlib
import csv
import io
import tomllib
from collections.abc import Iterator
from datetime import datetime
from pathlib import Path
from typing import Any, Final

from .constants import value
from .disk import content
from .model import (
    AlarmRow,
    ConsoleRow,
    GatewayFault,
    Kind,
    Plant,
    Program,
    Region,
    Texts,
    Value,
    Variable,
)
from .tokens import BadSource, Token, cut

REFUSED_STATUS: Final = 3
"""The status of the process where the plant is refused."""

_NO_PLANT: Final = (
    BadSource,
    csv.Error,
    LookupError,
    ValueError,
    TypeError,
    AttributeError,
    RuntimeError,  # a generator's, whose text has ended too early
)
"""What a plant may raise that `alarmd` refuses."""

_BOM: Final = b"\xef\xbb\xbf"
_REGIONS: Final = {"I": Region.INPUT, "Q": Region.OUTPUT, "M": Region.MEMORY}


def read(path: Path) -> Plant:
    """The plant of a plant file. Raises GatewayFault (status 3) where a file can't be read, or isn't as `alarmd` wants it."""
    return of_texts(path, texts_of(path))


def texts_of(path: Path) -> Texts:
    """The texts of all files of a plant, as they are now. Raises GatewayFault as `read` does."""
    with _judged(path):
        plant = content(path)
        table, folder = _table(plant), path.parent
        sources = tuple(content(folder / name) for name in table["sources"])
        return Texts(plant, content(folder / table["alarms"]), sources)


def of_texts(path: Path, texts: Texts) -> Plant:
    """The plant of these texts, whose plant file is called so. Raises GatewayFault as `read` does."""
    with _judged(path):
        return _plant(path, texts)


@contextlib.contextmanager
def _judged(path: Path) -> Iterator[None]:
    try:
        yield
    except OSError as fault:
        words = f"FILE {fault.filename or path}: {fault.strerror}"
    except tomllib.TOMLDecodeError as fault:
        words = f"{path} is no TOML 1.0: {fault}"
    except _NO_PLANT as fault:
        words = f"the gateway can't read the plant {path}: {fault}"
    else:
        return
    raise GatewayFault(words, REFUSED_STATUS)


def files(plant: Plant) -> list[Path]:
    """Exactly the files that make the plant: the plant file, its sources as it lists them, its alarms. Wherever they lie."""
    names = (*plant.sources, plant.alarm_file)
    return [plant.path, *(plant.path.parent / name for name in names)]


def source_file(plant: Plant, source: str) -> Path:
    """Where a source lies."""
    return plant.path.parent / source


def source_text(plant: Plant, number: int) -> bytes:
    """A source of a plant, counted from 0. Raises OSError where it can't be read."""
    if plant.texts is not None:
        return plant.texts.sources[number]
    return content(source_file(plant, plant.sources[number]))


def _table(plant: bytes) -> dict[str, Any]:
    return tomllib.loads(plant.removeprefix(_BOM).decode())


def _plant(path: Path, texts: Texts) -> Plant:
    table = _table(texts.plant)
    sources = tuple(table["sources"])
    variables: list[Variable] = []
    programs: list[Program] = []
    for source, text in zip(sources, texts.sources, strict=True):
        tokens = cut(text)
        variables += _globals(source, tokens)
        programs += _programs(source, tokens)
    alarms = tuple(_alarms(texts.alarms))
    return Plant(
        path=path,
        name=table["name"],
        epoch=datetime.strptime(table["epoch"], "%Y-%m-%dT%H:%M:%S%z"),
        areas=tuple(table["areas"]),
        sources=sources,
        alarm_file=table["alarms"],
        consoles=tuple(_console(row) for row in table.get("console", [])),
        alarms=alarms,
        variables=tuple(variables),
        inputs=_named(variables, Region.INPUT),
        outputs=_named(variables, Region.OUTPUT),
        programs={program.name.lower(): program for program in programs},
        by_tag={alarm.tag: alarm for alarm in alarms},
        texts=texts,
    )


def _console(row: dict[str, Any]) -> ConsoleRow:
    return ConsoleRow(row["number"], tuple(row["areas"]))


def _named(variables: list[Variable], region: Region) -> dict[str, Variable]:
    return {one.name.lower(): one for one in variables if one.region is region}


def _programs(source: str, tokens: list[Token]) -> Iterator[Program]:
    for at, token in enumerate(tokens):
        if token.word == "PROGRAM" and token.kind == "word":
            yield Program(tokens[at + 1].text, source, tokens[at + 1].line)


def _globals(source: str, tokens: list[Token]) -> Iterator[Variable]:
    """The variables of the VAR_GLOBAL sections, in order of text."""
    at = 0
    while at < len(tokens):
        if tokens[at].word != "VAR_GLOBAL":
            at += 1
            continue
        at += 1
        while tokens[at].word != "END_VAR":
            end = next(i for i in range(at, len(tokens)) if tokens[i].text == ";")
            yield from _declared(source, tokens[at:end])
            at = end + 1


def _declared(source: str, tokens: list[Token]) -> Iterator[Variable]:
    """The variables of one declaration: `a, b : BOOL := TRUE`, `level AT %ID0 : DINT`. An array isn't seen from outside."""
    colon = next(i for i, token in enumerate(tokens) if token.text == ":")
    if tokens[colon + 1].word == "ARRAY":
        return
    kind = Kind(tokens[colon + 1].word)
    given = tokens[colon + 3 :]
    initial = _of_kind(kind, value(given) if given else 0)
    region, names = Region.MEMORY, tokens[:colon]
    if len(names) == 3 and names[1].word == "AT":
        region, names = _REGIONS[names[2].word[1]], names[:1]
    for name in names[::2]:
        yield Variable(name.text, kind, region, initial, source, name.line)


def _of_kind(kind: Kind, found: Value) -> Value:
    return bool(found) if kind is Kind.BOOL else int(found)


def _alarms(table: bytes) -> Iterator[AlarmRow]:
    """The rows of the alarm file, by the names of its header; a column that isn't there counts as 0 or empty."""
    text = io.StringIO(table.removeprefix(_BOM).decode(), newline="")
    rows = (row for row in csv.reader(text) if row)
    header = next(rows)
    for number, row in enumerate(rows):
        cell = dict(zip(header, row, strict=True))
        yield AlarmRow(
            number=number,
            tag=cell["tag"],
            area=cell["area"],
            priority=int(cell["priority"]),
            condition=cell["condition"],
            suppress=cell.get("suppress", ""),
            latch=cell["latch"].upper() in ("TRUE", "1"),
            max_shelve_ms=int(cell["max_shelve_ms"]),
            on_delay_ms=int(cell.get("on_delay_ms") or 0),
            text=cell["text"],
        )
