"""Copies of a plant's files beside the record. A record is played with the plant with which it begins: once another plant has been taken
up, the files of the first one may be changed, so they are kept."""

from __future__ import annotations

import dataclasses
import hashlib
import json
import os
import shutil
from collections.abc import Mapping
from pathlib import Path, PurePath

from .disk import sync_folder, write
from .model import GatewayFault, Plant
from .plant import read
from .record_head import head_sums, sums


def named(plant: Plant) -> list[tuple[str, bytes]]:
    """The files of a plant that was read, by their names."""
    assert plant.texts is not None
    names = (plant.path.name, *plant.sources, plant.alarm_file)
    texts = (plant.texts.plant, *plant.texts.sources, plant.texts.alarms)
    return list(zip(names, texts, strict=True))


def place(record: Path, known: Mapping[str, str]) -> Path:
    """Where the plant file is kept of a plant whose files have these sums, the plant file the first."""
    whole = hashlib.sha256(json.dumps(known, sort_keys=True).encode()).hexdigest()
    return record.with_name(f"{record.name}.plants") / whole[:16] / next(iter(known))


def beginning(plant: Path, record: Path, beside: Path) -> Path:
    """The plant file of the plant with which a record begins: `plant`, or where its files are others by now, the copy beside the
    configured record, if there is one."""
    known = head_sums(record)
    copy = place(beside, known) if known else None
    if copy is None or not copy.exists():
        return plant
    try:
        own = sums_at(plant)
    except (OSError, GatewayFault):
        return copy
    return plant if own == known else copy


def sums_at(plant: Path) -> dict[str, str]:
    """The sums of the files of a plant as they lie there. Raises OSError, GatewayFault."""
    return sums(read(plant))


def keep(record: Path, plant: Plant) -> Plant:
    """Writes the files of a plant beside the record, through to the disk, and gives the plant as it lies there. Raises GatewayFault
    (status 2) where a file lies outside of the plant's folder, OSError where they can't be written.
    """
    pairs = named(plant)
    for name, _ in pairs:
        if PurePath(name).is_absolute() or ".." in PurePath(name).parts:
            words = (
                f"the plant names {name}, outside of its folder: it can't be kept beside the record"
            )
            raise GatewayFault(words, 2)
    known = {name: hashlib.sha256(text).hexdigest() for name, text in pairs}
    path = place(record, known)
    if not path.exists():
        _write(path, pairs)
    return relocated(plant, path)


def relocated(plant: Plant, path: Path) -> Plant:
    """A plant whose files lie elsewhere."""
    return dataclasses.replace(plant, path=path)


def _write(path: Path, pairs: list[tuple[str, bytes]]) -> None:
    """All files, at once: until they are whole they have another name."""
    fresh = path.parent.with_name(f"{path.parent.name}.new")
    shutil.rmtree(fresh, ignore_errors=True)
    fresh.mkdir(parents=True)
    for name, text in pairs:
        at = fresh / name
        at.parent.mkdir(parents=True, exist_ok=True)
        with open(at, "wb", buffering=0) as file:
            write(file, text)
        sync_folder(at)
    shutil.rmtree(path.parent, ignore_errors=True)
    os.rename(fresh, path.parent)
    sync_folder(path.parent)
    sync_folder(path.parent.parent)


def differs(served: Plant, plant: Path) -> str | None:
    """The first file of the plant on the disk that isn't what is served; None where all are, or they can't be read."""
    try:
        there = read(plant)
    except GatewayFault:
        return plant.name
    own, other = dict(named(served)), dict(named(there))
    if there.path.name != served.path.name:
        own[there.path.name] = own.pop(served.path.name)
    return next((name for name in {**other, **own} if own.get(name) != other.get(name)), None)
