"""The moments of scans, by clocks that the test sets."""

from __future__ import annotations

from pathlib import Path

import pytest

from alarmd_gateway import plant as plants
from alarmd_gateway.clock import Clock
from alarmd_gateway.first_moment import FirstMoment
from alarmd_gateway.model import LAST_MOMENT, Plant
from alarmd_gateway.questions import Answer, Questions
from alarmd_gateway.troubles import TroubleKind, Troubles

DAY = 86_400_000


class Times:
    """A time of day (seconds since 1970) and a steady clock (seconds)."""

    def __init__(self, day: float) -> None:
        self.day = day
        self.steady = 77.0

    def clock(self, plant: Plant, last: int | None) -> Clock:
        return Clock(plant, last, DAY, lambda: self.day, lambda: self.steady)


@pytest.fixture
def plant(examples: Path) -> Plant:
    """Its epoch is 2024-01-01T00:00:00Z."""
    return plants.read(examples / "built_in" / "plant.toml")


EPOCH = 1_704_067_200


def test_moments_go_by_the_steady_clock(plant: Plant) -> None:
    times = Times(EPOCH + 1000)
    clock = times.clock(plant, None)
    clock.start()
    assert clock.now() == 1_000_000
    times.steady += 1.5
    times.day -= 500
    assert clock.now() == 1_001_500
    assert clock.drift_ms() == -501_500
    times.steady -= 1  # no steady clock does that; even so
    assert clock.now() == 1_001_500


def test_the_first_moment_is_never_before_the_records_last(plant: Plant) -> None:
    times = Times(EPOCH + 1000)
    clock = times.clock(plant, 1_003_000)
    assert clock.doubt() is None
    clock.start()
    assert clock.now() == 1_003_000
    times.steady += 2
    assert clock.now() == 1_005_000


@pytest.mark.parametrize(
    ("day", "last", "words"),
    [
        (EPOCH - 1, None, "is in the future"),
        (EPOCH, None, None),
        (EPOCH + DAY / 1000, 0, None),
        (EPOCH + DAY / 1000 + 1, 0, "1.0 days later"),
        (EPOCH + 5, DAY + 5000, None),
        (EPOCH + 5, DAY + 6000, "1.0 days before"),
        (EPOCH + LAST_MOMENT / 1000 + 1, None, "too long ago"),
    ],
)
def test_when_the_first_moment_is_in_doubt(
    plant: Plant, day: float, last: int | None, words: str | None
) -> None:
    doubt = Times(day).clock(plant, last).doubt()
    assert (words in doubt) if words and doubt else doubt is None and words is None


def asking(clock: Clock, yes: bool = False) -> tuple[FirstMoment, Questions, Troubles]:
    questions, troubles = Questions(lambda *_: None), Troubles()
    return FirstMoment(clock, questions, troubles, yes), questions, troubles


def test_the_question_and_its_answers(plant: Plant) -> None:
    times = Times(EPOCH - 5)
    clock = times.clock(plant, None)
    first, questions, troubles = asking(clock)
    first.look()
    first.look()
    (question,) = questions
    assert (question.subject, clock.started) == ("clock", False)
    questions.answer(question.number, Answer(True))
    assert (clock.started, clock.now(), len(questions)) == (True, 0, 0)
    first.look()
    assert len(troubles) == 0
    times.steady += 3600
    first.look()
    assert [trouble.kind for trouble in troubles] == [TroubleKind.CLOCK]
    times.day += 3605
    first.look()
    assert len(troubles) == 0


def test_no_ends_the_gateway(plant: Plant) -> None:
    clock = Times(EPOCH - 5).clock(plant, None)
    first, questions, _ = asking(clock)
    first.look()
    questions.answer(1, Answer(False))
    assert not clock.started
    assert first.refused is not None
    assert first.refused.status == 2


def test_a_time_of_day_that_is_put_right_ends_the_question(plant: Plant) -> None:
    times = Times(EPOCH - 5)
    clock = times.clock(plant, None)
    first, questions, _ = asking(clock)
    first.look()
    assert len(questions) == 1
    times.day = EPOCH + 100
    first.look()
    assert (len(questions), clock.started, clock.now()) == (0, True, 100_000)


def test_yes_by_the_configuration(plant: Plant) -> None:
    clock = Times(EPOCH - 5).clock(plant, None)
    first, questions, _ = asking(clock, yes=True)
    first.look()
    assert (len(questions), clock.started) == (0, True)


def test_no_moment_is_after_the_last_one(plant: Plant) -> None:
    times = Times(EPOCH + LAST_MOMENT / 1000 - 1)
    clock = times.clock(plant, None)
    clock.start()
    times.steady += 10
    assert clock.now() == LAST_MOMENT
