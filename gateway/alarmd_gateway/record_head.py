"""The first line of a record: a remark with the sums of the files of the plant with which it begins, and the shared log of which it is a
copy."""

from __future__ import annotations

import hashlib
import json
from pathlib import Path
from typing import Final

from .disk import content, ordinary
from .model import GatewayFault, Plant
from .plant import files

_HEAD: Final = "# gateway record "
_OLD_HEAD: Final = "# plant "
LONGEST_HEAD: Final = 1 << 20  # bytes


def sums(plant: Plant) -> dict[str, str]:
    """Of each file that the plant names, and of the plant file: its SHA-256 in hexadecimal digits."""
    names = (plant.path.name, *plant.sources, plant.alarm_file)
    return {
        name: hashlib.sha256(content(path)).hexdigest()
        for name, path in zip(names, files(plant), strict=True)
    }


def head(files: dict[str, str], follows: str | None = None, log: str | None = None) -> str:
    """The first line of a record of a plant whose files have these sums. `follows` names the record before it, `log` the shared
    log of which it is a copy."""
    known = {"files": files, "follows": follows, "log": log}
    fields = {key: value for key, value in known.items() if value is not None}
    return f"{_HEAD}{json.dumps(fields)}"


def head_sums(path: Path) -> dict[str, str]:
    """The sums that the first line of a record has; none where there is no record, or it can't be read. Raises GatewayFault (status 2)
    where it is no ordinary file."""
    ordinary(path)
    try:
        with open(path, "rb") as file:
            line = file.readline(LONGEST_HEAD).decode("utf-8", "replace").rstrip("\n")
    except OSError:
        return {}
    kept: object = (
        fields_of(line.removeprefix(_HEAD)).get("files") if line.startswith(_HEAD) else None
    )
    return kept if isinstance(kept, dict) else {}


def unbegun(line: bytes) -> bool:
    """Whether the first line of a file is that of a record which is still to be begun: there is none, or it wasn't written wholly."""
    known, torn = _HEAD.encode(), not line.endswith(b"\n") and len(line) < LONGEST_HEAD
    return torn and (known.startswith(line) or line.startswith(known))


def judge_head(line: str, plant: Plant, path: Path) -> None:
    """Raises GatewayFault (status 2) where the first line of a record isn't that of this plant, with what differs."""
    if line.startswith(_OLD_HEAD):
        raise GatewayFault(
            f"{path} is a record of the example gateway, whose sums are of another form: keep it, and begin a new record",
            2,
        )
    kept = fields_of(line.removeprefix(_HEAD)).get("files") if line.startswith(_HEAD) else None
    if not isinstance(kept, dict):
        raise GatewayFault(f"{path} is no record of a gateway", 2)
    compare(kept, sums(plant))


def log_of(line: str) -> str | None:
    """The shared log of which a record is a copy, by its first line; None where it is none."""
    return fields_of(line.removeprefix(_HEAD)).get("log")


def judge_log(fits: bool, shared: bool, path: Path) -> None:
    """Raises GatewayFault (status 2) where a record doesn't fit what is shared, or isn't."""
    if not fits:
        words = "is no copy of this log" if shared else "is a copy of a log that gateways share"
        raise GatewayFault(f"{path} {words}: keep it elsewhere", 2)


def compare(kept: dict[str, str], now: dict[str, str]) -> None:
    """Raises GatewayFault (status 2) where the sums of the record's files aren't those of the plant's, with what differs."""
    for name in (*now, *kept):
        if name not in kept:
            raise GatewayFault(f"the record is of another plant: it knows no file {name}", 2)
        if name not in now:
            raise GatewayFault(f"the record is of another plant: the plant names no {name}", 2)
        if now[name] != kept[name]:
            words = f"the record is of another plant: {name} has changed since it began"
            raise GatewayFault(words, 2)


def fields_of(text: str) -> dict[str, str]:
    """The fields of a remark, as JSON; none where it is no object."""
    try:
        found = json.loads(text)
    except ValueError:
        return {}
    return found if isinstance(found, dict) else {}
