"""The last samples of a gateway that doesn't lead, and which of them the log has newer values for."""

from __future__ import annotations

from alarmd_gateway.latest import Latest

now = [0.0, 0.0]  # the time of day, and the clock that nobody sets


def heard() -> Latest:
    """Those of a gateway that had one sample at the beginning."""
    now[:] = 1000.0, 0.0
    latest = Latest(60, lambda: now[0], lambda: now[1])
    latest.put("level", 250)
    return latest


def test_a_newer_value_of_the_log_counts() -> None:
    latest = heard()
    latest.put("flow", 3)
    now[:] = 1061.0, 61.0
    latest.overtaken(["level", "running"], 1061.0)
    assert latest.values() == [("flow", 3)]


def test_what_both_have_had_at_about_the_same_time_stays() -> None:
    latest = heard()
    now[:] = 1059.0, 59.0
    latest.overtaken(["level"], 1059.0)
    assert latest.values() == [("level", 250)]


def test_what_is_older_in_the_log_but_came_late_stays() -> None:
    latest = heard()
    now[:] = 2000.0, 1000.0
    latest.overtaken(["level"], 1001.0)
    assert latest.values() == [("level", 250)]


def test_what_another_clock_says_is_newer_stays() -> None:
    latest = heard()
    now[:] = 1001.0, 1.0
    latest.overtaken(["level"], 90_000.0)
    assert latest.values() == [("level", 250)]


def test_another_plant() -> None:
    latest = heard()
    latest.put("gone", 1)
    latest.refit(lambda name, value: ("Level", value) if name == "level" else None)
    assert latest.values() == [("Level", 250)]
    now[:] = 1061.0, 61.0
    latest.overtaken(["Level"], 1061.0)
    assert latest.values() == []
