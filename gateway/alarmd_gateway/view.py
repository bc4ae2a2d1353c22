"""What a user sees of the plant: the alarms, rows and changes of the areas of the user's consoles. Programs, inputs and outputs have no area."""

from __future__ import annotations

import json
from collections import OrderedDict
from collections.abc import Iterator

from .core import Change, ChangeKind, Core, Snapshot
from .journal import Journal, Row
from .model import AlarmRow, ConsoleRow, Json, Order, Plant, Verb

NORMAL = "NORM"


class View:
    """The plant as some consoles have it."""

    def __init__(self, plant: Plant, consoles: tuple[int, ...]) -> None:
        self.plant = plant
        self.consoles = tuple(row for row in plant.consoles if row.number in consoles)
        self.everything = len(self.consoles) == len(plant.consoles)  # also areas of no console
        areas = {area for row in self.consoles for area in row.areas}
        self.areas = tuple(area for area in plant.areas if self.everything or area in areas)

    def sees(self, tag: str) -> bool:
        """Whether the alarm of this tag is one of these areas."""
        return self._sees(self.plant, tag)

    def _sees(self, plant: Plant, tag: str) -> bool:
        row = plant.by_tag.get(tag)
        return row is not None and row.area in self.areas

    def console_for(self, order: Order) -> ConsoleRow | None:
        """The first of the consoles that may give an order, whatever the console in it; None where none may."""
        row = self.plant.by_tag.get(order.target)
        for console in self.consoles:
            if order.verb is Verb.RESTART or (row is not None and row.area in console.areas):
                return console
        return None

    def shows(self, change: Change) -> bool:
        """Whether a change is one to be shown."""
        if self.everything or change.kind is not ChangeKind.ALARM:
            return True
        return self.sees(str(change.data.get("tag")))

    def shows_row(self, row: Row) -> bool:
        """Whether a row of the journal is one to be shown. An order without a target is its console's."""
        if self.everything:
            return True
        plant = row.plant or self.plant  # the alarm may be gone by now
        match row.words:
            case ("ALARM", tag, *_):
                return self._sees(plant, tag)
            case ("ORDER", console, verb, target, *_) if verb != Verb.RESTART.value:
                own = any(int(console) == mine.number for mine in self.consoles)
                return self._sees(plant, target) or (target == "?" and own)
        return True

    def rows(self, journal: Journal, first: int, count: int) -> Iterator[Row]:
        """The rows to be shown from a number on, at most so many."""
        for row in journal.rows(first):
            if count <= 0:
                return
            if self.shows_row(row):
                count -= 1
                yield row

    def snapshot(self, whole: Snapshot, normal: bool) -> dict[str, Json]:
        """A snapshot with the alarms to be shown; without `normal` those that are NORM are left out."""
        data = dict(whole.json())
        alarms = data["alarms"]
        assert isinstance(alarms, list)
        data["alarms"] = [alarm for alarm in alarms if self._shown(alarm, normal)]
        return data

    def _shown(self, alarm: Json, normal: bool) -> bool:
        assert isinstance(alarm, dict)
        return (normal or alarm["code"] != NORMAL) and (
            self.everything or alarm["area"] in self.areas
        )

    def table(self) -> dict[str, Json]:
        """What doesn't change while a plant is served: alarms, areas, consoles, programs, inputs and outputs."""
        plant = self.plant
        return {
            "name": plant.name,
            "areas": list(self.areas),
            "consoles": [{"number": row.number, "areas": list(row.areas)} for row in self.consoles],
            "alarms": [alarm_json(row) for row in plant.alarms if row.area in self.areas],
            "programs": [
                {"name": row.name, "file": row.source, "line": row.line}
                for row in plant.programs.values()
            ],
            "inputs": [{"name": row.name, "kind": row.kind.value} for row in plant.inputs.values()],
            "outputs": [
                {"name": row.name, "kind": row.kind.value} for row in plant.outputs.values()
            ],
        }


def alarm_json(row: AlarmRow) -> list[Json]:
    """An alarm as the table has it: tag, area, priority, text, for how many ms it may be shelved, and its on-delay in ms."""
    return [row.tag, row.area, row.priority, row.text, row.max_shelve_ms, row.on_delay_ms]


class Texts:
    """Changes as JSON. Many displays want the same one, so the last ones are kept."""

    def __init__(self, room: int = 2000) -> None:
        self._room = room
        self._kept: OrderedDict[int, str] = OrderedDict()

    def of(self, change: Change) -> str:
        """A change as JSON; by its number it is known again."""
        kept = self._kept.get(change.number)
        if kept is not None:
            return kept
        text = json.dumps(change.json(), separators=(",", ":"))
        self._kept[change.number] = text
        while len(self._kept) > self._room:
            self._kept.popitem(last=False)
        return text
