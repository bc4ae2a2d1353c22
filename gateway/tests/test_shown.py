"""What displays begin with is made once for all that begin at the same moment, and never old."""

from __future__ import annotations

import json
from typing import Any

import pytest
from fake_core import FakeCore, fake_plant

from alarmd_gateway.core import Snapshot
from alarmd_gateway.model import Code
from alarmd_gateway.shown import FRESH, Shown
from alarmd_gateway.troubles import TroubleKind
from alarmd_gateway.view import View


class Counting(FakeCore):
    """A core that counts its snapshots, and a clock that stands until it is moved."""

    def __init__(self) -> None:
        super().__init__()
        self.taken = 0
        self.clock = 1000.0

    def snapshot(self, normal: bool = True) -> Snapshot:
        self.taken += 1
        return super().snapshot(normal)


@pytest.fixture
def core() -> Counting:
    found = Counting()
    found.scan(1000, {"A0": Code.UNACK, "A1": Code.UNACK})
    return found


@pytest.fixture
def shown(core: Counting) -> Shown:
    return Shown(core, lambda: core.clock)


def tags(core: Counting, shown: Shown, *consoles: int, normal: bool = False) -> list[str]:
    """The alarms of a snapshot for these consoles."""
    number, text = shown.snapshot(View(core.plant, consoles), normal)
    found: dict[str, Any] = json.loads(text)
    assert number == found["number"] == core.number
    return [alarm["tag"] for alarm in found["alarms"]]


def test_displays_that_begin_at_once_share_a_snapshot(core: Counting, shown: Shown) -> None:
    for _ in range(5):
        assert tags(core, shown, 1, 2) == ["A0", "A1"]
        assert tags(core, shown, 2) == ["A0"]  # of another user's areas
    assert core.taken == 1
    assert tags(core, shown, 2, normal=True) == ["A0", "A4"]
    assert core.taken == 2


def test_a_change_is_in_the_next_snapshot(core: Counting, shown: Shown) -> None:
    tags(core, shown, 1, 2)
    core.scan(2000, {"A2": Code.UNACK, "A0": Code.NORM})
    assert tags(core, shown, 1, 2) == ["A1", "A2"]
    core.troubles.raises(TroubleKind.SILENCE, "", "silent")
    assert "silent" in shown.snapshot(View(core.plant, (1, 2)), False)[1]
    core.anew()
    assert tags(core, shown, 1, 2) == []


def test_a_snapshot_isnt_kept_for_long(core: Counting, shown: Shown) -> None:
    tags(core, shown, 1, 2)
    core.clock += FRESH
    tags(core, shown, 1, 2)
    assert core.taken == 2


def test_the_table_is_that_of_the_plant_and_the_consoles(core: Counting, shown: Shown) -> None:
    def alarms(*consoles: int) -> list[str]:
        found: dict[str, Any] = json.loads(shown.table(View(core.plant, consoles)))
        assert [one["number"] for one in found["consoles"]] == list(consoles)
        return [alarm[0] for alarm in found["alarms"]]

    for _ in range(2):
        assert alarms(2) == ["A0", "A4"] and len(alarms(1)) == len(alarms(1, 2)) == 8
    core.reload(fake_plant(3))
    assert alarms(2) == ["A0"] and len(alarms(1, 2)) == 3
