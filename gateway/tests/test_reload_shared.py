"""Gateways that share a log, and a plant that is changed while they serve it: with an etcd in memory."""

from __future__ import annotations

import random
from pathlib import Path

import pytest
from around import until
from core_help import by_core
from fake_etcd import FakeEtcd
from reload_help import READING, WITHOUT, Small, latched, reloads
from test_shared import Pair, give, same, trial

from alarmd_gateway import etcd_log, log_texts, shared
from alarmd_gateway.etcd import NoEtcd
from alarmd_gateway.link import NoReload
from alarmd_gateway.log_view import Marked, View
from alarmd_gateway.model import GatewayFault, ServerGone, Texts
from alarmd_gateway.shared import SharedCore
from alarmd_gateway.shared_config import SharedConfig
from alarmd_gateway.troubles import TroubleKind

__all__ = ["reloads"]


def small(folder: Path) -> Path:
    return Small().write(folder / "plant")


@pytest.fixture
def pair(reloads: Path, tmp_path: Path) -> Pair:
    return Pair(reloads, tmp_path, small)


@pytest.fixture
def reading(tmp_path: Path) -> Pair:
    return Pair(READING, tmp_path, small)


async def two(pair: Pair) -> tuple[SharedCore, SharedCore]:
    """A leader whose T1 is an alarm, and one that follows."""
    left = await pair.join("left")
    await until(lambda: left.leads)
    right = await pair.join("right")
    await give(left, a=5)
    await until(lambda: code(left) == code(right) == "UNACK")
    return left, right


def code(core: SharedCore) -> str:
    return core.state.by_tag["T1"].code.value


def texts(core: SharedCore, plant: Small) -> Texts:
    """The files of this gateway are these from now on."""
    return plant.texts(core.config.plant.parent)


def long(plant: Small) -> Small:
    """The same with a source that is packed into some parts of a log."""
    some = random.Random(5)
    words = "".join(some.choice("abcdefghijklmnop") for _ in range(1_500_000))
    return Small(plant.limit, rows=plant.rows, body=f"(* {words} *) c := 100 / a > {plant.limit};")


@pytest.mark.parametrize("giver", [0, 1])
def test_all_take_it_up_whoever_was_asked(pair: Pair, giver: int) -> None:
    async def work(pair: Pair) -> None:
        cores = await two(pair)
        given = texts(cores[giver], long(Small(30, rows=latched())))
        told = await cores[giver].reload(given, "anna", "a larger pump")
        assert told.lines == ("RELOADED KEPT 0 NEW 1",)
        await until(lambda: all(code(core) == "NORM" for core in cores))
        await until(lambda: same(*cores))
        assert all(core.plant.by_tag["T1"].latch for core in cores)
        parts = [key for key in pair.etcd.keys if b"/texts/" in key]
        assert len(parts) > 1
        assert not [key for key in pair.etcd.keys if b"/asked/" in key or b"/request/" in key]
        late = await pair.join("late")
        await until(lambda: same(cores[0], late))
        row = next(row for row in late.journal.rows() if row.words[0] == "RELOAD")
        assert (row.user, row.reason) == ("anna", "a larger pump")

    trial(pair, work)


def test_one_whose_giver_is_gone_meanwhile_ends_no_leader(
    pair: Pair, monkeypatch: pytest.MonkeyPatch
) -> None:
    monkeypatch.setattr(shared, "RELOAD", 1.0)

    async def work(pair: Pair) -> None:
        left, right = await two(pair)
        read, tries = left._log.entries.asked, 0

        async def late(request: Marked) -> Marked:
            nonlocal tries
            tries += 1
            assert right._candidate.lease is not None
            pair.etcd.end(right._candidate.lease)  # the request goes with it, and its texts
            return await read(request)

        monkeypatch.setattr(left._log.entries, "asked", late)
        with pytest.raises(ServerGone, match="it isn't known"):
            await right.reload(texts(right, Small(30)))
        assert tries == 1
        events = left.state.events
        await until(lambda: left._closing or left.state.events > events + 3)
        assert not left._closing and code(left) == "UNACK"

    trial(pair, work)


def test_old_samples_fit_a_plant_that_the_next_record_has_taken_up(
    pair: Pair, monkeypatch: pytest.MonkeyPatch
) -> None:
    """Where a gateway that was cut off meanwhile goes over to that record at once, and leads then."""

    async def work(pair: Pair) -> None:
        left, right = await two(pair)
        await give(right, a=5)
        look, known = right._log.look, left._log.known.record

        async def cut_off() -> View:
            raise NoEtcd("cut off")

        monkeypatch.setattr(right._log, "look", cut_off)
        left._renewal._due._next = 1
        await until(lambda: left.questions)
        left._renewal._due._next = 1000
        await left.answer(left.questions[0].number, True)
        await until(lambda: left._log.known.record > known)
        other = Small(
            10, "b AT %ID0 : DINT; y AT %QD0 : DINT := 7; c : BOOL;", "c := 100 / b > 10;"
        )
        assert (await left.reload(texts(left, other))).lines[0].startswith("RELOADED")
        monkeypatch.setattr(right._log, "look", look)
        await until(lambda: "b" in right.plant.inputs)
        await give(right, b=20)
        await pair.served[0].close()
        await until(lambda: right.leads)
        await until(lambda: right.state.inputs["b"] == 20)
        assert not any(one.kind is TroubleKind.REFUSED for one in right.troubles)

    trial(pair, work)


def test_a_refused_one_is_told(pair: Pair) -> None:
    async def work(pair: Pair) -> None:
        left, right = await two(pair)
        for core in (left, right):
            told = await core.reload(texts(core, Small(consoles=((1, "north"),))))
            assert told.lines == ("REFUSED E7",)
            with pytest.raises(NoReload):
                await core.reload(Texts(b"[", b"", ()))
        await until(lambda: same(left, right))
        assert code(left) == "UNACK"

    trial(pair, work)


def test_without_the_command_nothing_is_in_the_log(
    reading: Pair, monkeypatch: pytest.MonkeyPatch
) -> None:
    monkeypatch.setenv(WITHOUT, "1")

    async def work(pair: Pair) -> None:
        left, right = await two(pair)
        for core in (left, right):
            with pytest.raises(NoReload, match="knows no `reload`"):
                await core.reload(texts(core, Small(30)))
        assert not [key for key in pair.etcd.keys if b"/texts/" in key or b"/asked/" in key]
        await until(lambda: same(left, right))

    trial(reading, work)


def test_a_new_record_begins_with_the_plant_that_is_served(pair: Pair) -> None:
    pair._more["rotate_at"] = 60

    async def work(pair: Pair) -> None:
        left, right = await two(pair)
        await left.reload(texts(left, Small(rows=latched())))
        await until(lambda: left.questions)
        await left.answer(left.questions[0].number, True, 1, "carla")
        await until(lambda: left._log.known.record == 2 and right._log.known.record == 2)
        await until(lambda: same(left, right))
        assert right.plant.by_tag["T1"].latch
        assert not (right.config.plant.parent / "alarms.csv").read_text().count("TRUE")
        told = await right.reload(texts(right, Small(30, rows=latched())))
        assert told.lines == ("RELOADED KEPT 1 NEW 0",)
        await until(lambda: same(left, right))
        await pair.served[1].close()
        again = await SharedCore.join(
            right.config, SharedConfig((), "trial", "right", 3, 1.0), pair.etcd
        )
        assert by_core(again)[:2] == by_core(left)[:2]
        await again._link.close()
        # one that was never there has another plant than the log goes on with
        with pytest.raises(GatewayFault, match="of another plant") as fault:
            await pair.join("stranger")
        assert fault.value.status == 2

    trial(pair, work)


def test_who_follows_begins_again_with_other_files(reading: Pair) -> None:
    async def work(pair: Pair) -> None:
        left, right = await two(pair)
        await left.reload(texts(left, Small(30, rows=latched())))
        await until(lambda: same(left, right))
        await pair.served[1].close()
        Small(31, rows=latched()).write(right.config.plant.parent)
        told = SharedConfig((), "trial", "right", 3, 1.0)
        again = await SharedCore.join(right.config, told, pair.etcd)
        assert again.plant.by_tag["T1"].latch
        assert len(again.journal) == len(left.journal)
        await again._link.close()

    trial(reading, work)


@pytest.mark.parametrize("seed", range(6))
def test_faults_of_etcd_while_a_plant_is_handed_over(reading: Pair, seed: int) -> None:
    """Whatever fails on the way, all gateways have one log, and the plant is served by all or by none."""
    some = random.Random(seed)

    async def work(pair: Pair) -> None:
        cores = await two(pair)
        etcd = pair.etcd
        for at in range(4):
            core = some.choice(cores)
            fault = some.choice(["deaf", "dumb", "late"])
            after = some.randrange(1, 12)
            etcd.before[after] = lambda: setattr(etcd, fault, some.choice([1, 2]))
            given = texts(core, Small(10 + at, rows=some.choice([latched(), Small().rows])))
            try:
                await core.reload(given)
            except GatewayFault:
                pass  # it isn't known whether it is in the log
            etcd.arrive()
        await until(lambda: same(*cores), "one log")
        late = await pair.join("late")
        await until(lambda: same(cores[0], late) and same(cores[1], late))

    trial(reading, work)


def test_texts_of_old_records_go_with_them(reading: Pair, monkeypatch: pytest.MonkeyPatch) -> None:
    monkeypatch.setattr(etcd_log, "TIDY", 0.0)
    monkeypatch.setattr(log_texts, "PART", 100)
    reading._more["rotate_at"] = 40

    def texts_of(etcd: FakeEtcd, record: int) -> int:
        return sum(f"/texts/{record:06}/".encode() in key for key in etcd.keys)

    async def work(pair: Pair) -> None:
        left = await pair.join("left")
        await until(lambda: left.leads)
        await give(left, a=100)
        for record in (1, 2, 3):
            await until(lambda: left._log.known.record == record)
            await until(lambda: left.state.scanned)
            await left.reload(texts(left, Small(30 + record)))
            assert texts_of(pair.etcd, record) > 2
            await until(lambda: left.questions, "a question")
            await left.answer(left.questions[0].number, True, 1, "carla")
        await until(lambda: left._log.known.record == 4)
        await until(lambda: not texts_of(pair.etcd, 1) and not texts_of(pair.etcd, 2))
        assert texts_of(pair.etcd, 3)

    trial(reading, work)


def test_a_part_that_is_gone_is_a_fault(reading: Pair) -> None:
    async def work(pair: Pair) -> None:
        left = await pair.join("left")
        await until(lambda: left.leads)
        await left.reload(texts(left, Small(30)))
        for key in [key for key in pair.etcd.keys if b"/texts/" in key]:
            del pair.etcd.keys[key]
        with pytest.raises(GatewayFault, match="lacks a part"):
            await pair.join("late")

    trial(reading, work)
