"""A core without a server, for tests of the page: the test says which codes alarms take, and orders follow the rules' main lines."""

from __future__ import annotations

from collections.abc import Mapping
from datetime import datetime, timezone
from pathlib import Path

from alarmd_gateway.changes import Board, ChangeKind, Subscription
from alarmd_gateway.core import Core, Question, Snapshot
from alarmd_gateway.jobs import CameAgain
from alarmd_gateway.journal import Journal
from alarmd_gateway.model import (
    AlarmRow,
    Code,
    ConsoleRow,
    Json,
    Kind,
    Order,
    Plant,
    Program,
    Region,
    Reply,
    Sample,
    Variable,
    Verb,
    civil,
)
from alarmd_gateway.state import Happening, State, Stopped
from alarmd_gateway.troubles import Trouble, Troubles

AFTER = {  # where an order leads, by its verb and the code before it
    (Verb.ACK, Code.UNACK): Code.ACKED,
    (Verb.ACK, Code.RTNUN): Code.NORM,
    (Verb.ACK, Code.LATUN): Code.LATAK,
    (Verb.RESET, Code.LATAK): Code.NORM,
    (Verb.UNSHELVE, Code.SHELVED): Code.UNACK,
    (Verb.RETURN, Code.OOS): Code.NORM,
    **{(Verb.SHELVE, code): Code.SHELVED for code in Code if code not in (Code.SUPPR, Code.OOS)},
    **{(Verb.REMOVE, code): Code.OOS for code in Code if code is not Code.OOS},
}


def fake_plant(alarms: int = 8, name: str = "Buffer tank") -> Plant:
    """A plant of two areas, whose alarms are A0, A1 and so on, of priorities 1 to 4 in turn."""
    texts = (
        "Tank level high",
        "Tank level low",
        "Tank too hot, look at the heater",
        "Pump on and no flow",
    )
    rows = tuple(
        AlarmRow(
            number,
            f"A{number}",
            "tank" if number % 4 else "dosing",
            number % 4 + 1,
            "c",
            "",
            number % 2 == 0,
            0 if number == 1 else 3_600_000,
            0,
            texts[number % 4],
        )
        for number in range(alarms)
    )
    level = Variable("level", Kind.DINT, Region.INPUT, 0, "points.st", 2)
    pump = Variable("pump", Kind.BOOL, Region.OUTPUT, False, "points.st", 3)
    return Plant(
        path=Path("plant.toml"),
        name=name,
        epoch=datetime(2026, 11, 23, 6, tzinfo=timezone.utc),
        areas=("tank", "dosing"),
        sources=("points.st",),
        alarm_file="alarms.csv",
        consoles=(ConsoleRow(1, ("tank", "dosing")), ConsoleRow(2, ("dosing",))),
        alarms=rows,
        variables=(level, pump),
        inputs={"level": level},
        outputs={"pump": pump},
        programs={
            "fill": Program("fill", "control.st", 3),
            "dose": Program("dose", "control.st", 30),
        },
        by_tag={row.tag: row for row in rows},
    )


class FakeCore(Core):
    """Answers by the interface of Core, without a server."""

    def __init__(self, plant: Plant | None = None) -> None:
        self.plant = plant or fake_plant()
        self.troubles = Troubles()
        self.board = Board(self.plant)
        self.orders: list[tuple[Order, str | None, str | None]] = []
        self.answers: list[tuple[int, bool, int | None, str | None]] = []
        self.asked: dict[int, Question] = {}
        self._made = State(self.plant), Journal(self.plant)
        self.troubles.listen(self._trouble)

    @property
    def state(self) -> State:
        return self._made[0]

    @property
    def journal(self) -> Journal:
        return self._made[1]

    def anew(self) -> None:
        """A new record begins: nothing stands, and the journal is empty."""
        self._made = State(self.plant), Journal(self.plant)
        self._tell(ChangeKind.ANEW, {})

    def reload(self, plant: Plant) -> None:  # type: ignore[override]
        """Another plant is served from now on; its alarms are normal."""
        self.plant = plant
        state = State(plant)
        state.moment, state.scanned = self.state.moment, self.state.scanned
        self.journal.reload(plant, state.moment, "RELOAD KEPT 0 NEW 1", "anna", None)
        self._made = state, self.journal
        self._tell(ChangeKind.RELOADED, {"answer": "RELOADED KEPT 0 NEW 1"})

    def _tell(self, kind: ChangeKind, data: Mapping[str, Json]) -> None:
        self.board.put(kind, self.state.moment, data)

    def _trouble(self, trouble: Trouble, stands: bool) -> None:
        self._tell(ChangeKind.TROUBLE, {**trouble.json(), "stands": stands})

    def _happened(self, happened: list[Happening]) -> None:
        for happening in happened:
            self.board.happened(happening, self.state.moment)
        left = self.state.events_left
        self._tell(ChangeKind.ROWS, {"length": len(self.journal), "events_left": left})

    def scan(self, moment: int, codes: Mapping[str, Code] = {}, **outputs: bool | int) -> None:
        """A scan after which some alarms have other codes, and some outputs other values."""
        before = {tag: self.state.by_tag[tag].code for tag in codes}
        lines = [f"ALARM {moment} {tag} {before[tag].value} {codes[tag].value}" for tag in codes]
        lines += [f"OUT {moment} {name} {str(given).upper()}" for name, given in outputs.items()]
        lines.append(f"DONE {moment} {len(lines)}")
        happened = self.state.scan(moment, {}, lines)
        self.journal.scan(lines)
        self._happened(happened)
        self._tell(ChangeKind.SCAN, {"events_left": self.state.events_left})

    def stops(self, program: str) -> None:
        """A program stops."""
        stopped = Stopped(program, self.state.moment, program, 1, "DIVZERO", "control.st", 34)
        self.state.stopped[program.lower()] = stopped
        self._tell(ChangeKind.STOPPED, stopped.json(self.plant))

    def ask(self, question: Question) -> None:
        """A question waits."""
        self.asked[question.number] = question
        self._tell(ChangeKind.QUESTION, question.json())

    async def order(
        self,
        order: Order,
        user: str | None = None,
        reason: str | None = None,
        seen: int | None = None,
    ) -> Reply:
        if self.state.came_again(order, seen):
            raise CameAgain
        self.orders.append((order, user, reason))
        lines = self._answer(order)
        happened = self.state.order(order, lines, user, reason)
        self.journal.order(order, self.state.moment, lines, user, reason)
        self._happened(happened)
        return Reply(lines[0].partition(" ")[2], tuple(lines))

    def _answer(self, order: Order) -> list[str]:
        if order.verb is Verb.RESTART:
            return ["REPLY OK" if order.target.lower() in self.state.stopped else "REPLY O5"]
        alarm = self.state.by_tag[order.target]
        if (order.verb, alarm.code) not in AFTER:
            return ["REPLY O3"]
        if (
            order.verb is Verb.SHELVE
            and not 0 < (order.milliseconds or 0) <= alarm.row.max_shelve_ms
        ):
            return ["REPLY O4"]
        after = AFTER[order.verb, alarm.code]
        if after is alarm.code:
            return ["REPLY OK"]
        change = f"{order.target} {alarm.code.value} {after.value}"
        return ["REPLY OK", f"ALARM {self.state.moment} {change}"]

    async def offer(self, sample: Sample) -> None:
        raise NotImplementedError

    def subscribe(self, room: int = 1000) -> Subscription:
        return self.board.subscribe(room)

    @property
    def number(self) -> int:
        return self.board.number

    def snapshot(self, normal: bool = True) -> Snapshot:
        data: dict[str, Json] = {
            "plant": {"name": self.plant.name},
            "now": civil(datetime.now(timezone.utc)),
            **self.state.json(normal),
            "journal": len(self.journal),
            "troubles": [trouble.json() for trouble in self.troubles],
            "questions": [question.json() for question in self.asked.values()],
        }
        return Snapshot(self.board.number, data)

    @property
    def questions(self) -> tuple[Question, ...]:
        return tuple(self.asked.values())

    async def answer(
        self, number: int, yes: bool, console: int | None = None, user: str | None = None
    ) -> None:
        del self.asked[number]
        self.answers.append((number, yes, console, user))
        self._tell(ChangeKind.ANSWERED, {"number": number, "yes": yes})
