"""The state of a plant by the server's answers alone: what a display wants to know."""

from __future__ import annotations

from collections import Counter
from collections.abc import Mapping, Sequence
from dataclasses import dataclass
from typing import Final, TypeAlias

from . import statements
from .model import (
    MOST_EVENTS,
    AlarmRow,
    Code,
    Json,
    Order,
    Plant,
    Value,
    Variable,
    Verb,
    civil,
    exact,
)
from .tokens import BadSource

_CODES: Final = {code.value: code for code in Code}
_ASIDE: Final = (Code.SHELVED, Code.OOS)


def time_of(plant: Plant, moment: int | None) -> str | None:
    """The civil time of a moment, None where there is none."""
    return None if moment is None else civil(plant.time(moment))


@dataclass
class AlarmState:
    """An alarm with its code. `since` is the moment of the last change, None where there was none yet.

    `shelved_until` is the moment at which a shelving ends (a scan sees it), None where the alarm isn't shelved.
    `user` and `reason` are those of the order that shelved it or took it out of service, as the record has them. `came` is the moment
    at which it was annunciated last, None where it wasn't.
    """

    row: AlarmRow
    code: Code = Code.NORM
    since: int | None = None
    shelved_until: int | None = None
    user: str | None = None
    reason: str | None = None
    came: int | None = None

    def json(self, plant: Plant) -> dict[str, Json]:
        """`tag`, `area`, `priority`, `text`, `code`, `since`, `since_time`, `shelved_until`, `shelved_until_time`, `user`,
        `reason`, `max_shelve_ms`; moments in milliseconds, times civil, null where there is none.
        """
        return {
            "tag": self.row.tag,
            "area": self.row.area,
            "priority": self.row.priority,
            "text": self.row.text,
            "code": self.code.value,
            "since": self.since,
            "since_time": time_of(plant, self.since),
            "shelved_until": self.shelved_until,
            "shelved_until_time": time_of(plant, self.shelved_until),
            "user": self.user,
            "reason": self.reason,
            "max_shelve_ms": self.row.max_shelve_ms,
        }


@dataclass(frozen=True)
class Stopped:
    """A program that has stopped: where by the `FAULT` line, and the place in its source (empty and 0 where it isn't known)."""

    program: str
    moment: int
    path: str
    statement: int
    kind: str
    file: str
    line: int

    def json(self, plant: Plant) -> dict[str, Json]:
        """`program`, `moment`, `time`, `path`, `statement`, `kind`, `file`, `line`."""
        return {
            "program": self.program,
            "moment": self.moment,
            "time": time_of(plant, self.moment),
            "path": self.path,
            "statement": self.statement,
            "kind": self.kind,
            "file": self.file,
            "line": self.line,
        }


@dataclass(frozen=True)
class AlarmMoved:
    """An alarm has another code than `before`, or a shelving another end."""

    alarm: AlarmState
    before: Code


@dataclass(frozen=True)
class ValueMoved:
    """An input or an output has another value."""

    variable: Variable
    value: Value


@dataclass(frozen=True)
class Restarted:
    """A stopped program runs again from the next scan on."""

    program: str


Happening: TypeAlias = AlarmMoved | ValueMoved | Stopped | Restarted


class State:
    """Fed with each command and its answer, in order."""

    def __init__(self, plant: Plant) -> None:
        self.plant = plant
        self.alarms = [AlarmState(row) for row in plant.alarms]  # in the order of the alarm file
        self.by_tag: Mapping[str, AlarmState] = {alarm.row.tag: alarm for alarm in self.alarms}
        self.stopped: dict[str, Stopped] = {}  # by the program's name in small letters
        self.inputs: dict[str, Value] = {one.name: one.initial for one in plant.inputs.values()}
        self.outputs: dict[str, Value] = {one.name: one.initial for one in plant.outputs.values()}
        self.events = 0  # of the 1,000,000 that a run takes
        self.moment = 0  # of the last scan, 0 before the first
        self.scanned = False  # whether there was a scan
        self._statements: statements.Statements | None = None

    @property
    def events_left(self) -> int:
        """How many events the run still takes."""
        return MOST_EVENTS - self.events

    def scan(
        self, moment: int, given: Mapping[str, Value], answer: Sequence[str]
    ) -> list[Happening]:
        """Takes a scan (its inputs by their names as declared) and the lines of its answer, and tells what has happened."""
        if not answer[-1].startswith("DONE"):
            return []  # refused: nothing changed
        self.events += 1
        self.moment = moment
        self.scanned = True
        happened: list[Happening] = []
        for name, value in given.items():
            if self.inputs.get(name) != value:
                self.inputs[name] = value
                happened.append(ValueMoved(self.plant.inputs[name.lower()], value))
        if len(answer) > 1:
            happened += [self._line(moment, line) for line in answer[:-1]]
        return happened

    def _line(self, moment: int, line: str) -> Happening:
        words = line.split(" ")
        if words[0] == "ALARM":
            return self._moved(moment, self.by_tag[words[2]], _CODES[words[4]])
        if words[0] == "OUT":
            variable = self.plant.outputs[words[2].lower()]
            value = words[3] == "TRUE" if words[3] in ("TRUE", "FALSE") else int(words[3])
            self.outputs[variable.name] = value
            return ValueMoved(variable, value)
        return self._stop(moment, words[2], int(words[3]), words[4])

    def _stop(self, moment: int, path: str, statement: int, kind: str) -> Stopped:
        program = path.partition(".")[0]
        place = self._place(path, statement)
        stopped = Stopped(program, moment, path, statement, kind, place.file, place.line)
        self.stopped[program.lower()] = stopped
        return stopped

    def _place(self, path: str, statement: int) -> statements.Place:
        if self._statements is None:
            try:
                self._statements = statements.read(self.plant)
            except (OSError, BadSource):  # the sources aren't what they were
                self._statements = statements.Statements({})
        return self._statements.place(path, statement) or statements.Place("", 0)

    def _moved(self, moment: int, alarm: AlarmState, code: Code) -> AlarmMoved:
        before, alarm.code, alarm.since = alarm.code, code, moment
        if code is Code.UNACK:
            alarm.came = moment
        if code is not Code.SHELVED:
            alarm.shelved_until = None
        if code not in _ASIDE:
            alarm.user = alarm.reason = None
        return AlarmMoved(alarm, before)

    def order(
        self,
        order: Order,
        answer: Sequence[str],
        user: str | None = None,
        reason: str | None = None,
    ) -> list[Happening]:
        """Takes an order and the lines of its answer, and tells what has happened."""
        if not answer or not answer[0].startswith("REPLY"):
            return []  # the history is full: nothing changed
        self.events += 1
        if answer[0] != "REPLY OK":
            return []
        if order.verb is Verb.RESTART:
            stopped = self.stopped.pop(order.target.lower(), None)
            return [] if stopped is None else [Restarted(stopped.program)]
        alarm = self.by_tag[order.target]
        moved = AlarmMoved(alarm, alarm.code)
        for line in answer[1:]:
            words = line.split(" ")
            moved = self._moved(self.moment, alarm, _CODES[words[4]])
        if order.milliseconds is not None:
            alarm.shelved_until = self.moment + order.milliseconds
        if alarm.code in _ASIDE:
            alarm.user, alarm.reason = user, reason
        return [moved]

    def came_again(self, order: Order, seen: int | None) -> bool:
        """Whether the alarm of an order has been annunciated anew behind the moment up to which whoever gives it has read it."""
        alarm = self.by_tag.get(order.target)
        return seen is not None and alarm is not None and (alarm.came or 0) > seen

    def reloaded(self, plant: Plant, listing: Sequence[str]) -> State:
        """The state after a reload of this plant, with what the server has answered to `list` then. What is told of an alarm stays where
        its tag and its latch are the same; the server tells the codes. An input or an output keeps its value where its name, in any
        letter case, and its kind are the same. Of one that was neither before, nothing is known until it is told: it may be that the
        logic had it under this name already."""
        new = State(plant)
        new.events, new.moment, new.scanned = self.events + 1, self.moment, self.scanned
        codes = {
            words[1]: _CODES[words[2]] for words in map(str.split, listing) if words[0] == "STATE"
        }
        for alarm in new.alarms:
            old = self.by_tag.get(alarm.row.tag)
            if old is not None and old.row.latch == alarm.row.latch:
                alarm.since, alarm.shelved_until = old.since, old.shelved_until
                alarm.user, alarm.reason, alarm.came = old.user, old.reason, old.came
            alarm.code = codes.get(alarm.row.tag, Code.NORM)
        new._keep_values(self)
        return new

    def _keep_values(self, old: State) -> None:
        known = {name.lower(): value for name, value in (*old.inputs.items(), *old.outputs.items())}
        kinds = {one.name.lower(): one.kind for one in old.plant.variables}
        sides = ((self.plant.inputs, self.inputs), (self.plant.outputs, self.outputs))
        for variables, values in sides:
            for key, variable in variables.items():
                if kinds.get(key) is not variable.kind:
                    continue  # it has its initial value
                if key in known:
                    values[variable.name] = known[key]
                else:
                    del values[variable.name]

    def listing(self) -> list[str]:
        """The lines that the server would answer to `list`."""
        lines = [
            f"STATE {alarm.row.tag} {alarm.code.value} {alarm.row.priority}"
            for alarm in self.alarms
            if alarm.code is not Code.NORM
        ]
        count = Counter((one.row.area, one.row.priority, one.code) for one in self.alarms)
        for area in self.plant.areas:
            for priority in range(1, 5):
                for code in Code:
                    if number := count[area, priority, code]:
                        lines.append(f"COUNT {area} {priority} {code.value} {number}")
        return [*lines, f"END {len(lines)}"]

    def json(self, normal: bool = True) -> dict[str, Json]:
        """`alarms`, `stopped`, `inputs`, `outputs` (as `exact` has them), `events`, `events_left`, `moment`, `time`; the last is null
        before the first scan. Without `normal` alarms that are NORM are left out."""
        shown = (alarm for alarm in self.alarms if normal or alarm.code is not Code.NORM)
        return {
            "alarms": [alarm.json(self.plant) for alarm in shown],
            "stopped": [stopped.json(self.plant) for stopped in self.stopped.values()],
            "inputs": {name: exact(value) for name, value in self.inputs.items()},
            "outputs": {name: exact(value) for name, value in self.outputs.items()},
            "events": self.events,
            "events_left": self.events_left,
            "moment": self.moment,
            "time": time_of(self.plant, self.moment if self.scanned else None),
        }
