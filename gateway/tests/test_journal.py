"""Rows of the journal as displays and tables have them. The rows are those of the page on the protocol."""

from __future__ import annotations

import csv
import io
from pathlib import Path

import pytest

from alarmd_gateway import commands, plant as plants
from alarmd_gateway.commands import Scan
from alarmd_gateway.model import Order
from alarmd_gateway.player import Book, Taken


@pytest.fixture
def book(examples: Path) -> Book:
    """The tank after the session with every command."""
    folder = examples / "tank"
    book = Book(plants.read(folder / "plant.toml"))
    answers = iter((folder / "all_answers").read_text().splitlines())
    for line in (folder / "all_commands").read_text().splitlines()[1:]:
        answer = [next(answers)]
        while not ends(line, answer):
            answer.append(next(answers))
        command = commands.read(book.plant, line)
        if isinstance(command, Scan | Order):
            by = ("anna", "seen") if line.startswith("ack") else (None, None)
            book.take(Taken(command, answer, *by))
    return book


def ends(line: str, answer: list[str]) -> bool:
    """By the table of OPERATION."""
    word = answer[-1].split()[0]
    if answer == ["REPLY OK"]:
        return line.startswith("restart")
    return word in ("DONE", "REFUSED", "END", "REPLY") or answer[0] == "REPLY OK"


def test_the_rows_are_those_of_the_protocol(book: Book, examples: Path) -> None:
    text = (examples / "tank" / "all_answers").read_text().splitlines()
    wanted = [line for line in text if line[0].isdigit()]
    assert list(book.journal.lines()) == wanted
    assert len(book.journal) == 22
    assert list(book.journal.lines(21)) == wanted[20:]
    assert list(book.journal.lines(3, 2)) == wanted[2:4]
    assert list(book.journal.lines(23)) == list(book.journal.lines(5, 0)) == []
    assert list(book.journal.lines(-5, 7)) == wanted[:1]


def test_rows_as_json(book: Book) -> None:
    rows = list(book.journal.json())
    time = "2026-11-23T06:00:00.000Z"
    assert rows[0] == {
        "number": 1,
        "moment": 0,
        "time": time,
        "kind": "fault",
        "path": "dose",
        "statement": 1,
        "fault": "DIVZERO",
        "file": "control.st",
        "line": 21,
    }
    assert rows[4] == {
        "number": 5,
        "moment": 0,
        "time": time,
        "kind": "alarm",
        "tag": "LAL-101",
        "from": "UNACK",
        "to": "ACKED",
        "area": "tank",
        "priority": 3,
        "text": "Tank level low",
    }
    assert (rows[3]["user"], rows[3]["reason"]) == ("anna", "seen")
    assert rows[7] == {
        "number": 8,
        "moment": 1000,
        "time": "2026-11-23T06:00:01.000Z",
        "kind": "order",
        "console": 2,
        "command": "shelve",
        "target": "RAH-104",
        "milliseconds": 60000,
        "reply": "OK",
        "user": None,
        "reason": None,
    }


def test_rows_as_csv(book: Book) -> None:
    rows = list(csv.DictReader(book.journal.csv(6, 3)))
    assert [row["number"] for row in rows] == ["6", "7", "8"]
    assert rows[0]["text"] == "Tank too hot, look at the heater"
    assert (rows[2]["milliseconds"], rows[2]["tag"]) == ("60000", "")


FORMULAS = (
    '=HYPERLINK("http://x")',
    "+1",
    "-1",
    "@SUM(A1)",
    "\t=1",
    "\r=1",
    "\n=1",
    "＝1",
    "＋1",
    "－1",
    "＠A1",
)
PLAIN = ("seen", "", " =1", "level = 3", "'=1", "1-2")


@pytest.mark.parametrize("reason", (*FORMULAS, *PLAIN))
def test_a_text_that_a_spreadsheet_would_compute_has_an_apostrophe(book: Book, reason: str) -> None:
    order = commands.read(book.plant, "remove 1 LAL-101")
    assert isinstance(order, Order)
    book.take(Taken(order, ["REPLY OK", "ALARM 3000 LAL-101 NORM OOS"], "-anna", reason))
    (row,) = csv.DictReader(io.StringIO("".join(book.journal.csv(23, 1)), newline=""))
    assert row["reason"] == (f"'{reason}" if reason in FORMULAS else reason)
    assert (row["user"], row["target"], row["number"]) == ("'-anna", "LAL-101", "23")
    assert next(book.journal.json(23, 1))["reason"] == reason  # JSON has it as it is


def test_the_state_after_it(book: Book) -> None:
    state = book.state
    assert state.listing()[-1] == "END 4"
    assert (state.events, state.moment, state.stopped) == (13, 3000, {})
    assert state.outputs == {"pump": True, "heater": False, "ratio": 5}
    assert state.inputs == {
        "running": True,
        "level": 400,
        "temperature": 700,
        "flow": 100,
        "additive": 500,
    }
    assert state.by_tag["RAH-104"].since == 3000
    assert state.by_tag["LAH-101"].since is None


def test_who_put_an_alarm_aside_is_told_while_it_is_aside(book: Book) -> None:
    alarm = book.state.by_tag["LAL-101"]

    def give(line: str, change: str, user: str) -> None:
        command = commands.read(book.plant, line)
        assert isinstance(command, Order)
        answer = ["REPLY OK", f"ALARM 3000 LAL-101 {change}"] if change else ["REPLY OK"]
        book.take(Taken(command, answer, user, f"why {user}"))

    give("shelve 1 LAL-101 500", "NORM SHELVED", "anna")
    assert (alarm.user, alarm.reason, alarm.shelved_until) == ("anna", "why anna", 3500)
    give("shelve 1 LAL-101 900", "", "bob")
    assert (alarm.user, alarm.shelved_until, alarm.since) == ("bob", 3900, 3000)
    give("remove 1 LAL-101", "SHELVED OOS", "carla")
    assert (alarm.user, alarm.shelved_until) == ("carla", None)
    give("return 1 LAL-101", "OOS NORM", "dora")
    assert (alarm.user, alarm.reason) == (None, None)
    give("shelve 1 LAL-101 500", "NORM SHELVED", "anna")
    book.take(Taken(Scan(3500, {}), ["ALARM 3500 LAL-101 SHELVED NORM", "DONE 3500 1"]))
    assert (alarm.user, alarm.reason, alarm.shelved_until) == (None, None, None)
