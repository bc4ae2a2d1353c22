"""Samples: each distinct value is taken by some scan, in order; ages against limits."""

from __future__ import annotations

import random

import pytest

from alarmd_gateway.model import Value
from alarmd_gateway.samples import Ages, QueueFull, SampleQueue


def all_scans(queue: SampleQueue) -> list[dict[str, Value]]:
    scans = []
    while len(queue):
        scans.append(queue.take())
    return scans


def scans_of(samples: list[tuple[str, Value]]) -> list[dict[str, Value]]:
    queue = SampleQueue()
    for name, value in samples:
        queue.put(name, value)
    return all_scans(queue)


def test_a_pulse_between_two_scans_is_two_scans() -> None:
    assert scans_of([("door", True), ("door", False)]) == [{"door": True}, {"door": False}]


def test_samples_of_several_inputs_share_a_scan() -> None:
    assert scans_of([("level", 250), ("flow", 7)]) == [{"level": 250, "flow": 7}]


def test_no_scan_sees_a_sample_before_an_earlier_one() -> None:
    assert scans_of([("a", 1), ("a", 0), ("b", 1)]) == [{"a": 1}, {"a": 0, "b": 1}]


def test_an_equal_value_waits_for_nothing() -> None:
    queue = SampleQueue()
    queue.put("level", 5)
    queue.put("level", 5)
    assert all_scans(queue) == [{"level": 5}]
    queue.put("level", 5)
    assert len(queue) == 0 and queue.take() == {}


def test_a_scan_is_due_at_once_where_one_cannot_take_all() -> None:
    queue = SampleQueue()
    queue.put("a", 1)
    queue.put("b", 1)
    assert len(queue) == 2 and not queue.pressed
    queue.put("a", 2)
    assert len(queue) == 3 and queue.pressed
    queue.take()
    assert len(queue) == 1 and not queue.pressed


def test_after_forget_an_equal_value_waits() -> None:
    queue = SampleQueue()
    queue.put("level", 5)
    queue.take()
    queue.forget()
    queue.put("level", 5)
    assert all_scans(queue) == [{"level": 5}]


def test_a_full_queue_refuses_and_keeps_what_it_has() -> None:
    queue = SampleQueue(room=2)
    queue.put("n", 1)
    queue.put("n", 2)
    assert queue.full
    with pytest.raises(QueueFull):
        queue.put("n", 3)
    queue.put("m", 3)  # has room in the last scan
    assert all_scans(queue) == [{"n": 1}, {"n": 2, "m": 3}]
    queue.put("n", 3)
    assert all_scans(queue) == [{"n": 3}]


def test_random_samples_are_all_taken_in_order() -> None:
    chance = random.Random(66)
    for _ in range(200):
        samples: list[tuple[str, Value]] = [
            (chance.choice("abc"), chance.randrange(3)) for _ in range(chance.randrange(40))
        ]
        scans = scans_of(samples)
        pictures = []  # what the inputs were after each sample
        now: dict[str, Value] = {}
        for name, value in samples:
            now = {**now, name: value}
            pictures.append(now)
        for name in "abc":
            given = [value for one, value in samples if one == name]
            distinct = [v for i, v in enumerate(given) if i == 0 or given[i - 1] != v]
            assert [scan[name] for scan in scans if name in scan] == distinct
        seen: dict[str, Value] = {}
        at = 0
        for (
            scan
        ) in scans:  # each scan shows a picture that was there, and none shows an earlier one
            seen = {**seen, **scan}
            at = next(i for i in range(at, len(pictures)) if pictures[i] == seen)


def test_an_input_is_stale_past_its_limit() -> None:
    ages = Ages({"level": 10.0, "flow": 2.5}, 100.0)
    assert not list(ages.stale(102.5))
    assert [it.name for it in ages.stale(102.6)] == ["flow"]
    ages.saw("flow", 110.0)
    ages.saw("additive", 110.0)  # has no limit
    (found,) = ages.stale(112.0)
    assert (found.name, found.age, found.limit) == ("level", 12.0, 10.0)
    ages.saw("level", 112.0)
    ages.saw("flow", 112.0)
    assert not list(ages.stale(114.0))


def test_what_waits_is_judged_anew_for_another_plant() -> None:
    queue = SampleQueue()
    for name, value in [("a", True), ("b", 5), ("c", 7), ("a", False), ("b", 6)]:
        queue.put(name, value)

    def fit(name: str, value: Value) -> tuple[str, Value] | None:
        """`a` is gone, and `b` is spelled otherwise."""
        return {"b": ("B", value), "c": ("c", value)}.get(name)

    new = queue.refitted(fit)
    assert (len(new), new.pressed) == (3, True)
    new.put("B", 6)  # its last value
    assert len(new) == 3
    assert all_scans(new) == [{"B": 5, "c": 7}, {"B": 6}]
    assert len(SampleQueue().refitted(fit)) == 0
