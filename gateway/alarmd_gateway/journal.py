"""The journal by the server's answers alone: the same rows, byte for byte, as the server's own `journal`."""

from __future__ import annotations

import bisect
import csv
import io
from array import array
from collections.abc import Iterator, Sequence
from dataclasses import dataclass
from typing import Final

from . import statements
from .cells import guarded
from .model import Json, Order, Plant, civil
from .tokens import BadSource

CSV_COLUMNS: Final = (
    "number",
    "time",
    "kind",
    "tag",
    "from",
    "to",
    "area",
    "priority",
    "text",
    "path",
    "statement",
    "fault",
    "file",
    "line",
    "console",
    "command",
    "target",
    "milliseconds",
    "reply",
    "user",
    "reason",
    "kept",
    "new",
)


@dataclass(frozen=True)
class Row:
    """A row of the journal. `words` are those after the civil time: `ALARM TAG FROM TO`, `FAULT PATH STATEMENT KIND`,
    `ORDER CONSOLE COMMAND TARGET [MS] REPLY`, or `RELOAD KEPT N NEW N`. `user` and `reason` are an order's or a reload's, as the record
    has them. `plant` is the one under which the row was added.
    """

    number: int
    moment: int
    words: tuple[str, ...]
    user: str | None = None
    reason: str | None = None
    plant: Plant | None = None

    def line(self, plant: Plant) -> str:
        """The row as the server writes it."""
        return f"{self.number} {civil(plant.time(self.moment))} {' '.join(self.words)}"

    def json(self, plant: Plant, places: statements.Statements | None = None) -> dict[str, Json]:
        """`number`, `moment`, `time`, `kind` (`alarm`, `fault`, `order`, `reload`) and, by the kind: `tag`, `from`, `to`, `area`,
        `priority`, `text`; `path`, `statement`, `fault`, `file`, `line` (the last two where `places` are given); `console`,
        `command`, `target`, `milliseconds`, `reply`, `user`, `reason`; `kept`, `new`, `user`, `reason`.
        """
        fields: dict[str, Json] = {
            "number": self.number,
            "moment": self.moment,
            "time": civil(plant.time(self.moment)),
            "kind": self.words[0].lower(),
        }
        if self.words[0] == "ALARM":
            return {**fields, **self._alarm(plant)}
        if self.words[0] == "RELOAD":
            return {**fields, **self._reload()}
        more = self._order() if self.words[0] == "ORDER" else self._fault(places)
        return {**fields, **more}

    def _reload(self) -> dict[str, Json]:
        _, _, kept, _, new = self.words
        return {"kept": int(kept), "new": int(new), "user": self.user, "reason": self.reason}

    def _alarm(self, plant: Plant) -> dict[str, Json]:
        _, tag, before, after = self.words
        row = plant.by_tag[tag]
        return {
            "tag": tag,
            "from": before,
            "to": after,
            "area": row.area,
            "priority": row.priority,
            "text": row.text,
        }

    def _fault(self, places: statements.Statements | None) -> dict[str, Json]:
        _, path, statement, kind = self.words
        fields: dict[str, Json] = {"path": path, "statement": int(statement), "fault": kind}
        place = None if places is None else places.place(path, int(statement))
        if place is not None:
            fields["file"], fields["line"] = place.file, place.line
        return fields

    def _order(self) -> dict[str, Json]:
        _, console, command, target, *milliseconds, reply = self.words
        return {
            "console": int(console),
            "command": command,
            "target": target,
            "milliseconds": int(milliseconds[0]) if milliseconds else None,
            "reply": reply,
            "user": self.user,
            "reason": self.reason,
        }


class Served:
    """A plant that was served from a row on, with the places of its statements."""

    def __init__(self, first: int, plant: Plant) -> None:
        self.first = first
        self.plant = plant
        self._places: statements.Statements | None = None

    def statements(self) -> statements.Statements:
        """The places of its statements; none where its sources can't be read."""
        if self._places is None:
            try:
                self._places = statements.read(self.plant)
            except (OSError, BadSource):  # the sources aren't what they were
                self._places = statements.Statements({})
        return self._places


class Journal:
    """All rows of the run, numbered from 1. A row takes some 40 bytes of memory."""

    def __init__(self, plant: Plant) -> None:
        self._served = [Served(1, plant)]
        self._text = bytearray()  # the rows' words, one row after another
        self._ends = array("Q", [0])  # where each ends in it
        self._moments = array("q")
        self._by: dict[int, tuple[str | None, str | None]] = {}  # user and reason, by the row

    def __len__(self) -> int:
        return len(self._moments)

    def row(self, number: int) -> Row:
        """One row. Raises IndexError where there is none of this number."""
        if not 1 <= number <= len(self):
            raise IndexError(number)
        text = self._text[self._ends[number - 1] : self._ends[number]].decode()
        user, reason = self._by.get(number, (None, None))
        words, plant = tuple(text.split(" ")), self._at(number).plant
        return Row(number, self._moments[number - 1], words, user, reason, plant)

    @property
    def _plant(self) -> Plant:
        """The plant that is served now."""
        return self._served[-1].plant

    @property
    def plants(self) -> tuple[Plant, ...]:
        """The plants under which rows were added, in order; the last one is served now."""
        return tuple(one.plant for one in self._served)

    def _at(self, number: int) -> Served:
        """The plant under which a row was added."""
        place = bisect.bisect_right(self._served, number, key=lambda one: one.first) - 1
        return self._served[max(place, 0)]

    def rows(self, first: int = 1, count: int | None = None) -> Iterator[Row]:
        """The rows from a number on, at most so many. Numbers outside are passed over."""
        last = len(self) if count is None else min(len(self), first + count - 1)
        return (self.row(number) for number in range(max(first, 1), last + 1))

    def lines(self, first: int = 1, count: int | None = None) -> Iterator[str]:
        """The same as the server writes them."""
        return (row.line(self._plant) for row in self.rows(first, count))

    def json(self, first: int = 1, count: int | None = None) -> Iterator[dict[str, Json]]:
        """The same as displays have them, with the places of faults in the sources."""
        for row in self.rows(first, count):
            served = self._at(row.number)
            yield row.json(served.plant, served.statements() if row.words[0] == "FAULT" else None)

    def csv(self, first: int = 1, count: int | None = None) -> Iterator[str]:
        """A header, then the same rows as CSV, each with its line end. Texts that look like formulas are guarded."""
        line = io.StringIO(newline="")
        writer = csv.DictWriter(line, CSV_COLUMNS, extrasaction="ignore")
        writer.writeheader()
        yield line.getvalue()
        for row in self.json(first, count):
            line.seek(0)
            line.truncate()
            writer.writerow({name: guarded(cell) for name, cell in row.items()})
            yield line.getvalue()

    def scan(self, answer: Sequence[str]) -> None:
        """Takes the lines of a scan's answer."""
        if len(answer) == 1:
            return  # it changed nothing, or was refused
        for line in answer:
            if line.startswith(("FAULT ", "ALARM ")):
                self._changed(line)

    def order(
        self,
        order: Order,
        moment: int,
        answer: Sequence[str],
        user: str | None = None,
        reason: str | None = None,
    ) -> None:
        """Takes an order, the moment of the last scan, and the lines of its answer."""
        if not answer or not answer[0].startswith("REPLY "):
            return  # the history is full: it is no event
        reply = answer[0].partition(" ")[2]
        target = "?" if reply == "O1" else self._declared(order)
        tail = "" if order.milliseconds is None else f" {order.milliseconds}"
        self._add(moment, f"ORDER {order.console} {order.verb.value} {target}{tail} {reply}")
        if user is not None or reason is not None:
            self._by[len(self)] = user, reason
        for line in answer[1:]:
            self._changed(line)

    def reload(
        self, plant: Plant, moment: int, words: str, user: str | None, reason: str | None
    ) -> None:
        """Takes a reload, the moment of the last scan, and the words of its row. From this row on the plant is this one."""
        self._served.append(Served(len(self) + 1, plant))
        self._add(moment, words)
        if user is not None or reason is not None:
            self._by[len(self)] = user, reason

    def plant_before(self, number: int) -> Plant:
        """The plant that was served before the row of this number was added."""
        return self._at(number - 1).plant

    def _declared(self, order: Order) -> str:
        program = self._plant.programs.get(order.target.lower())
        return program.name if order.verb.value == "restart" and program else order.target

    def _changed(self, line: str) -> None:
        """A row of a line of an answer, whose second word is its moment."""
        kind, moment, rest = line.split(" ", 2)
        self._add(int(moment), f"{kind} {rest}")

    def _add(self, moment: int, words: str) -> None:
        self._text += words.encode()
        self._ends.append(len(self._text))
        self._moments.append(moment)
