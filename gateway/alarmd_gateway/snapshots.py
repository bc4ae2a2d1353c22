"""All that a display begins with."""

from __future__ import annotations

from collections.abc import Iterable, Mapping
from dataclasses import dataclass
from datetime import datetime, timezone

from .model import Json, Plant, civil
from .player import Book
from .questions import Question
from .troubles import Trouble


@dataclass(frozen=True)
class Snapshot:
    """All that a display wants, at one moment. The next change has the number `number` + 1."""

    number: int
    data: Mapping[str, Json]

    def json(self) -> dict[str, Json]:
        """`number`, `plant` (`name`, `epoch`, `areas`, `consoles`, `sources`), `now` (civil), the fields of State.json,
        `journal` (how many rows), `troubles`, `questions`."""
        return {"number": self.number, **self.data}


def take(
    number: int,
    book: Book,
    troubles: Iterable[Trouble],
    questions: Iterable[Question],
    normal: bool = True,
) -> Snapshot:
    """What stands now, after the change of this number; without `normal` alarms that are NORM are left out."""
    data: dict[str, Json] = {
        "plant": _about(book.plant),
        "now": civil(datetime.now(timezone.utc)),
        **book.state.json(normal),
        "journal": len(book.journal),
        "troubles": [trouble.json() for trouble in troubles],
        "questions": [question.json() for question in questions],
    }
    return Snapshot(number, data)


def _about(plant: Plant) -> dict[str, Json]:
    consoles: list[Json] = [
        {"number": row.number, "areas": list(row.areas)} for row in plant.consoles
    ]
    return {
        "name": plant.name,
        "epoch": civil(plant.epoch),
        "areas": list(plant.areas),
        "sources": list(plant.sources),
        "consoles": consoles,
    }
