"""The checker of histories: what it finds in those that no one server could have given."""

from __future__ import annotations

from typing import Any

import pytest
from history import ENDLESS, Given, faults

ROWS: list[dict[str, Any]] = [
    {"reason": "a-1", "reply": "OK"},
    {"reason": "b-1", "reply": "O3"},
    {"reason": "a-2", "reply": "OK"},
]


def history() -> list[Given]:
    return [Given("a-1", 1, 2, "OK"), Given("b-1", 1.5, 3, "O3"), Given("a-2", 4, 5, "OK")]


def test_a_history_as_one_server_gives_it() -> None:
    unknown = [Given("c-1", 2), Given("c-2", 2, ENDLESS, "-")]
    assert faults([*history(), *unknown], ROWS) == []
    assert faults([*history(), *unknown], [*ROWS, {"reason": "c-1", "reply": "OK"}]) == []


@pytest.mark.parametrize(
    ("rows", "words"),
    [
        (ROWS[:2], "a-2 was answered OK"),
        ([*ROWS, ROWS[0]], "a-1 was taken 2 times"),
        ([ROWS[2], ROWS[0], ROWS[1]], "a-1 stands after"),
        ([{"reason": "a-1", "reply": "O1"}, *ROWS[1:]], "a-1 was answered OK"),
        ([*ROWS, {"reason": "c-2", "reply": "OK"}], "c-2 was taken, and answered as not taken"),
        ([*ROWS, {"reason": None, "reply": "OK"}], "nobody gave"),
    ],
)
def test_histories_that_are_wrong(rows: list[dict[str, Any]], words: str) -> None:
    wrong = faults([*history(), Given("c-2", 6, ENDLESS, "-")], rows)
    assert wrong and any(one.startswith(words) for one in wrong), wrong
