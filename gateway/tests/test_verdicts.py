"""Verdicts on faults: one is given whatever ends a fault, and what didn't come in time is neither right nor wrong."""

from __future__ import annotations

import subprocess
from collections.abc import Sequence

import pytest
from cluster import wait
from verdicts import Said, Tally, Verdict, verdict
from whole_help import NoVerdict


def test_nothing_wrong_is_right() -> None:
    assert verdict(lambda: []) == Verdict(Said.RIGHT)


def test_what_is_wrong_is_told() -> None:
    assert str(verdict(lambda: ["a-1 was taken 2 times", "b"])) == (
        "wrong: a-1 was taken 2 times; b"
    )


@pytest.mark.parametrize(
    ("fault", "said"),
    [
        (AssertionError("states differ"), Said.WRONG),
        (AssertionError(), Said.WRONG),
        (NoVerdict("nobody leads"), Said.NONE),
        (ConnectionRefusedError("refused"), Said.NONE),
        (ValueError("I/O operation on closed file"), Said.NONE),
        (subprocess.TimeoutExpired("alarmd", 1), Said.NONE),
    ],
)
def test_whatever_ends_a_fault_has_a_verdict(fault: Exception, said: Said) -> None:
    def work() -> Sequence[str]:
        raise fault

    given = verdict(work)
    assert (given.said, bool(given.words)) == (said, True)


def test_what_does_not_come_in_time_is_no_verdict() -> None:
    def work() -> Sequence[str]:
        wait(lambda: False, "it doesn't come", 0.1)
        return []

    assert str(verdict(work)) == "no verdict: it doesn't come"


def test_verdicts_are_counted_apart() -> None:
    tally = Tally()
    for fault, said in (("b", Said.RIGHT), ("a", Said.NONE), ("b", Said.NONE), ("a", Said.WRONG)):
        tally.add(fault, Verdict(said, "words"))
    assert tally.lines() == [
        "a: 0 right, 1 wrong, 1 no verdict",
        "b: 1 right, 0 wrong, 1 no verdict",
        "all: 1 right, 1 wrong, 2 no verdict",
    ]
