"""Two gateways that share a log, with an etcd in memory and servers of their own: who leads, orders, samples, a new record."""

from __future__ import annotations

import asyncio
import contextlib
import os
import signal
from collections.abc import Awaitable, Callable, Sequence
from pathlib import Path
from typing import Any, cast

import pytest
from around import config_for, plant_copy, until, without_programs
from core_help import Served
from fake_etcd import FakeEtcd

from alarmd_gateway import (
    etcd_log,
    log_entries,
    log_watch,
    new_record,
    rotation,
    shared,
    transactions,
)
from alarmd_gateway.etcd import NoEtcd
from alarmd_gateway.etcd_log import EtcdLog
from alarmd_gateway.jobs import CameAgain, Job
from alarmd_gateway.leader import Candidate, Leader
from alarmd_gateway.log_view import Last, Marked, View
from alarmd_gateway.metrics import Metrics
from alarmd_gateway.model import Code, Order, Plant, Sample, ServerGone, Verb
from alarmd_gateway.record import Entry
from alarmd_gateway.shared import SharedCore
from alarmd_gateway.shared_config import SharedConfig
from alarmd_gateway.troubles import TroubleKind, Troubles

pytestmark = pytest.mark.server

PlantMaker = Callable[[Path], Path]


class Pair:
    """An etcd, and gateways around it."""

    def __init__(self, alarmd: Path, folder: Path, plant: PlantMaker, **more: int | bool) -> None:
        self.etcd = FakeEtcd()
        self._alarmd, self._folder, self._plant, self._more = alarmd, folder, plant, more
        self.served: list[Served] = []

    async def join(self, place: str, name: str = "", **more: int | bool | Path) -> SharedCore:
        """A gateway in a folder of this name, and of the same or another name, which is at work."""
        (self._folder / place).mkdir()
        keys: dict[str, int | bool | Path] = {**self._more, **more}
        keys["yes"] = True
        program = keys.pop("alarmd", self._alarmd)
        assert isinstance(program, Path)
        config = config_for(program, self._plant(self._folder / place), **keys)
        told = SharedConfig((), "trial", name or place, 3, 1.0, config.new_alarmd)
        core = await SharedCore.join(config, told, self.etcd)
        self.served.append(Served(core))
        return core

    async def close(self) -> None:
        for served in self.served:
            with contextlib.suppress(ServerGone):
                await served.close()


def trial(pair: Pair, work: Callable[[Pair], Awaitable[None]]) -> None:
    async def run() -> None:
        try:
            await asyncio.wait_for(work(pair), 400)
        finally:
            await pair.close()

    asyncio.run(run())


def tank(folder: Path) -> Path:
    return plant_copy("tank", folder)


async def give(core: SharedCore, **values: int | bool) -> None:
    for name, value in values.items():
        await core.offer(Sample(name, value, "test"))


def same(one: SharedCore, other: SharedCore) -> bool:
    """Whether both say the same, byte for byte."""
    pairs = [(list(core.journal.lines()), core.state.json()) for core in (one, other)]
    return pairs[0] == pairs[1]


def told_of_log(core: SharedCore) -> bool:
    return any(one.kind is TroubleKind.LOG for one in core.troubles)


def test_one_leads_and_the_other_takes_over(alarmd: Path, tmp_path: Path) -> None:
    async def work(pair: Pair) -> None:
        a = await pair.join("a")
        await until(lambda: a.leads, "a leads")
        b = await pair.join("b")
        await give(b, level=999)  # of this gateway's field: it doesn't lead
        await give(a, running=True, level=250, flow=100)
        await until(lambda: b.state.by_tag["LAL-101"].code is Code.UNACK, "the alarm, by the log")
        assert not b.leads and b.snapshot().data["log"] == {
            "gateway": "b",
            "leads": False,
            "leader": "a",
            "record": 1,
            "entries": b._log.known.entries,
        }
        reply = await b.order(Order(Verb.ACK, 1, "LAL-101"), "bert", "seen")
        assert reply.code == "OK" and b.state.by_tag["LAL-101"].code is Code.ACKED
        assert (await a.order(Order(Verb.ACK, 1, "LAL-101"))).code == "O3"
        lease = a._candidate.lease
        assert lease is not None
        pair.etcd.end(lease)
        await until(lambda: b.leads or a.leads and a._candidate.lease != lease, "one leads")
        await until(lambda: a.leads != b.leads, "one leads, and the other doesn't")
        reply = await a.order(Order(Verb.REMOVE, 1, "LAL-101"), "anna", "pump")
        assert reply.code == "OK"
        await pair.served[1 if b.leads else 0].close()
        rest = a if b._closing else b
        await until(lambda: rest.leads, "the other leads, as one has ended in order")
        rows = [row.words for row in rest.journal.rows() if row.words[0] == "ORDER"]
        assert [row[2] for row in rows] == ["ack", "ack", "remove"]

    trial(Pair(alarmd, tmp_path, tank), work)


def test_both_say_the_same(alarmd: Path, tmp_path: Path) -> None:
    async def work(pair: Pair) -> None:
        a, b = await pair.join("a"), await pair.join("b")
        await until(lambda: a.leads != b.leads, "one leads")
        for level in (250, 950, 500, 250):
            for core in (a, b):
                await give(core, running=True, level=level, flow=0)
            await a.order(Order(Verb.ACK, 1, "LAL-101"), "anna", str(level))
            await b.order(Order(Verb.SHELVE, 1, "FAL-103", 500), "bert", str(level))
        await until(lambda: same(a, b), "both say the same")
        late = await pair.join("c")
        await until(lambda: same(a, late), "who comes late says the same")

    trial(Pair(alarmd, tmp_path, tank), work)


def test_who_takes_over_goes_on_from_there(alarmd: Path, tmp_path: Path) -> None:
    """By the log's last moment, which is ahead of its own clock, and with its own last samples."""

    async def work(pair: Pair) -> None:
        a = await pair.join("a", speed=100_000)
        await until(lambda: a.leads, "a leads")
        b = await pair.join("b")
        await give(b, level=400)
        await give(a, running=True, level=500, flow=100)
        began = 0

        def ahead() -> bool:
            nonlocal began
            began = began or a.state.moment
            return began > 0 and a.state.moment > began + 100_000_000

        await until(ahead, "a clock that is a day ahead")
        assert b.state.inputs["level"] != 400
        await pair.served[0].close()
        await until(lambda: b.leads, "b leads")
        await until(lambda: b.state.inputs["level"] == 400, "its own sample")
        events = b.state.events
        await until(lambda: b.state.events > events + 2, "scans are taken")
        assert not any(one.kind is TroubleKind.REFUSED for one in b.troubles)

    trial(Pair(alarmd, tmp_path, tank), work)


def test_an_old_sample_is_none_where_the_log_has_a_newer_one(
    alarmd: Path, tmp_path: Path, monkeypatch: pytest.MonkeyPatch
) -> None:
    monkeypatch.setattr(shared, "OLDER", 0.5)

    async def work(pair: Pair) -> None:
        a = await pair.join("a")
        await until(lambda: a.leads, "a leads")
        b = await pair.join("b")
        for core in (a, b):
            await give(core, running=True, level=250, flow=100)
        await until(lambda: b.state.inputs["level"] == 250, "the sample of both")
        await asyncio.sleep(1)
        await give(a, level=950)  # of its own field alone
        await until(lambda: b.state.inputs["level"] == 950, "the sample, by the log")
        await give(b, flow=90)
        await pair.served[0].close()
        await until(lambda: b.leads, "b leads")
        await until(lambda: b.state.inputs["flow"] == 90, "its own sample, which is newer")
        assert b.state.inputs["level"] == 950

    trial(Pair(alarmd, tmp_path, tank), work)


def test_an_old_sample_is_none_where_the_next_record_has_a_newer_one(
    alarmd: Path, tmp_path: Path, monkeypatch: pytest.MonkeyPatch
) -> None:
    """Which a gateway that was cut off meanwhile goes over to at once."""
    monkeypatch.setattr(shared, "OLDER", 0.5)

    async def work(pair: Pair) -> None:
        a = await pair.join("a")
        await until(lambda: a.leads, "a leads")
        b = await pair.join("b")
        for core in (a, b):
            await give(core, a=5, c=False)
        await until(lambda: b.state.inputs["a"] == 5, "the sample of both")
        look, known = b._log.look, a._log.known.record

        async def cut_off() -> View:
            raise NoEtcd("cut off")

        monkeypatch.setattr(b._log, "look", cut_off)
        a._renewal._due._next = 1
        await until(lambda: a._log.known.record > known, "a new record")
        await asyncio.sleep(1)
        await give(a, a=7)  # of its own field alone
        await until(lambda: a.state.inputs["a"] == 7, "the sample")
        await give(b, c=True)
        monkeypatch.setattr(b._log, "look", look)
        await until(lambda: b.state.inputs["a"] == 7, "the sample, by the log")
        await pair.served[0].close()
        await until(lambda: b.leads, "b leads")
        await until(lambda: b.state.inputs["c"] is True, "its own sample, which is newer")
        assert b.state.inputs["a"] == 7

    trial(Pair(alarmd, tmp_path, without_programs), work)


def test_no_answer_of_etcd(alarmd: Path, tmp_path: Path, monkeypatch: pytest.MonkeyPatch) -> None:
    monkeypatch.setattr(shared, "ORDER", 1.0)
    monkeypatch.setattr(log_watch, "SILENT", 0.5)

    async def work(pair: Pair) -> None:
        a = await pair.join("a")
        await until(lambda: a.leads, "a leads")
        await give(a, running=True, level=250, flow=100)
        await until(lambda: a.state.scanned, "a scan")
        pair.etcd.deaf = 10**9
        await until(lambda: not a.leads, "it leads no more")
        assert told_of_log(a)
        events = a.state.events
        with pytest.raises(ServerGone, match="wasn't taken"):
            await a.order(Order(Verb.ACK, 1, "LAL-101"))
        assert a.state.events == events
        pair.etcd.deaf = 0
        await until(lambda: a.leads, "it leads again")
        await until(lambda: not told_of_log(a), "the trouble ends")
        await until(lambda: a.state.events > events, "scans go on")
        await a.order(Order(Verb.REMOVE, 1, "FAL-103"))
        rows = [row.words for row in a.journal.rows() if row.words[0] == "ORDER"]
        assert [row[2] for row in rows] == ["remove"]  # the one that wasn't taken isn't taken later

    trial(Pair(alarmd, tmp_path, tank), work)


def test_who_may_lead_no_more_writes_no_outputs(
    alarmd: Path, tmp_path: Path, monkeypatch: pytest.MonkeyPatch
) -> None:
    """From the end of its lease on, by its own clock, which is before any other gateway may lead."""
    monkeypatch.setattr(log_watch, "SILENT", 60.0)
    monkeypatch.setattr(transactions, "PATIENCE", 60.0)

    async def work(pair: Pair) -> None:
        a = await pair.join("a")
        await until(lambda: a.leads and a.may_write, "a leads")
        b = await pair.join("b")
        assert not b.may_write
        lease = a._candidate.lease
        pair.etcd.deaf = 10**9
        await until(lambda: not a.may_write, "it isn't sure any more")
        assert a.leads and a._candidate.lease == lease
        pair.etcd.deaf = 0
        await until(lambda: a.may_write, "it is again")
        assert a.leads and lease is not None
        pair.etcd.end(lease)
        await until(lambda: a._candidate.lease not in (None, lease), "another lease")
        assert not (a.leads and a.may_write) or a._lease == a._candidate.lease

    trial(Pair(alarmd, tmp_path, tank), work)


def test_a_leader_that_has_nothing_to_append(
    alarmd: Path, tmp_path: Path, monkeypatch: pytest.MonkeyPatch
) -> None:
    """As of a plant that waits for its first samples: where etcd is silent it leads no more either."""
    monkeypatch.setattr(log_watch, "SILENT", 0.5)

    async def work(pair: Pair) -> None:
        a = await pair.join("a")
        await until(lambda: a.leads, "a leads")
        a._questions.ask("record", "A new record?", (), lambda answer: None)
        pair.etcd.deaf = 10**9
        await until(lambda: not a.leads, "it leads no more")
        assert a.questions == ()  # who leads asks
        pair.etcd.deaf = 0
        await until(lambda: a.leads, "it leads again")
        assert not a.state.scanned

    trial(Pair(alarmd, tmp_path, tank), work)


def test_etcd_is_heard_while_a_scan_waits(alarmd: Path, tmp_path: Path) -> None:
    async def work(pair: Pair) -> None:
        a = await pair.join("a")
        gate, waiting = asyncio.Event(), asyncio.Event()

        async def held(moment: int) -> None:
            waiting.set()
            await gate.wait()

        await until(lambda: a.leads, "a leads")
        a.before_scan = held
        await give(a, running=True, level=250, flow=100)
        await waiting.wait()
        heard = a._log.asks.heard
        await until(lambda: a._log.asks.heard > heard + 2, "etcd is asked meanwhile")
        assert not a.state.scanned
        gate.set()
        await until(lambda: a.state.scanned, "the scan")

    trial(Pair(alarmd, tmp_path, tank), work)


def test_a_new_record_for_both(alarmd: Path, tmp_path: Path) -> None:
    async def work(pair: Pair) -> None:
        a, b = await pair.join("a"), await pair.join("b")
        await until(lambda: a.leads != b.leads, "one leads")
        leader = a if a.leads else b
        await give(leader, a=5)
        await until(lambda: leader.state.scanned, "a scan")
        await a.order(Order(Verb.REMOVE, 1, "T1"), "anna", "mended")
        records = [core._log for core in (a, b)]
        await until(lambda: all(log.known.record > 1 for log in records), "a new record")
        await until(lambda: same(a, b), "both say the same")
        assert b.state.by_tag["T1"].code is Code.OOS and b.state.by_tag["T1"].reason == "mended"
        first = [(tmp_path / name / "record.1").read_bytes() for name in "ab"]
        assert first[0] == first[1]

    trial(Pair(alarmd, tmp_path, without_programs, rotate_at=20), work)


def test_a_new_record_that_a_silent_etcd_has_ended_is_no_trouble_of_who_follows(
    alarmd: Path, tmp_path: Path, monkeypatch: pytest.MonkeyPatch
) -> None:
    monkeypatch.setattr(log_watch, "SILENT", 0.5)
    monkeypatch.setattr(transactions, "PATIENCE", 1.5)

    async def work(pair: Pair) -> None:
        a = await pair.join("a")
        await until(lambda: a.leads, "a leads")
        succeed = a._log.succeed

        async def silent(entries: Sequence[Entry], plant: Plant | None = None) -> str:
            pair.etcd.before = {len(entries) // new_record.BLOCK + 4: deafen}
            return await succeed(entries, plant)

        def deafen() -> None:
            pair.etcd.deaf = 10**9

        monkeypatch.setattr(a._log, "succeed", silent)
        await give(a, a=5)
        await until(lambda: pair.etcd.deaf, "silence while a new record is begun")
        await until(lambda: not a.leads, "it leads no more")
        await asyncio.sleep(2)
        assert [one.kind for one in a.troubles if one.kind is TroubleKind.RECORD] == []

    trial(Pair(alarmd, tmp_path, without_programs, rotate_at=20), work)


def test_a_new_record_that_was_tried_for_too_long_is_no_question_of_who_follows(
    alarmd: Path, tmp_path: Path, monkeypatch: pytest.MonkeyPatch
) -> None:
    monkeypatch.setattr(log_watch, "SILENT", 0.5)
    attempt, tried = rotation.attempt, asyncio.Event()

    async def work(pair: Pair) -> None:
        a = await pair.join("a")
        await until(lambda: a.leads, "a leads")

        async def long(*words: Any) -> rotation.Trial:
            found = await attempt(*words)
            assert found.lost
            pair.etcd.deaf = 10**9
            await until(lambda: not a.leads, "it leads no more")
            tried.set()
            return found

        monkeypatch.setattr(rotation, "attempt", long)
        await give(a, running=True, level=250, flow=100)
        await tried.wait()
        await asyncio.sleep(0.5)
        assert not a.questions

    trial(Pair(alarmd, tmp_path, tank, rotate_at=5), work)


def test_a_clock_that_differs_is_no_trouble_of_who_leads_no_more(
    alarmd: Path, tmp_path: Path, monkeypatch: pytest.MonkeyPatch
) -> None:
    def clock(core: SharedCore) -> bool:
        return any(one.kind is TroubleKind.CLOCK for one in core.troubles)

    async def work(pair: Pair) -> None:
        a = await pair.join("a")
        await until(lambda: a.leads, "a leads")
        b = await pair.join("b")
        await give(a, running=True, level=250, flow=100)
        await until(lambda: a.state.scanned, "a scan")
        monkeypatch.setattr(a._clock, "drift_ms", lambda: 20_000)
        await until(lambda: clock(a), "the trouble")
        a._candidate.lease, lease = None, a._candidate.lease
        assert lease is not None
        monkeypatch.setattr(a._candidate, "stand", no_stand)
        pair.etcd.end(lease)
        await until(lambda: b.leads and not a.leads, "b leads")
        assert not clock(a)

    async def no_stand() -> None:
        """It doesn't lead again."""

    trial(Pair(alarmd, tmp_path, tank), work)


def test_what_is_too_old_goes_beside_the_work(
    alarmd: Path, tmp_path: Path, monkeypatch: pytest.MonkeyPatch
) -> None:
    """The leader goes on while etcd takes its time for it, and tries again where it came to nothing."""
    gate, tidy, faults = asyncio.Event(), etcd_log.EtcdLog.tidy, [NoEtcd("busy")]

    async def slow(log: etcd_log.EtcdLog) -> None:
        if log.leads_since is None or log.known.record < 3:
            return
        await gate.wait()
        if faults:
            raise faults.pop()
        await tidy(log)

    async def work(pair: Pair) -> None:
        a = await pair.join("a")
        await until(lambda: a.leads, "a leads")
        await give(a, a=5)
        await until(lambda: a._log.known.record > 3, "new records")
        assert any(b"/entry/000001/" in key for key in pair.etcd.keys)
        gate.set()
        await until(lambda: old_ones(pair.etcd) == [], "the first ones are gone")

    def old_ones(kept: FakeEtcd) -> list[bytes]:
        begins = (b"/alarmd/trial/entry/000001/", b"/alarmd/trial/entry/000002/")
        return [key for key in kept.keys if key.startswith(begins)]

    monkeypatch.setattr(etcd_log.EtcdLog, "tidy", slow)
    trial(Pair(alarmd, tmp_path, without_programs, rotate_at=20), work)


def test_half_of_the_time_is_the_logs(
    alarmd: Path, tmp_path: Path, monkeypatch: pytest.MonkeyPatch
) -> None:
    """What is too old is deleted no sooner again than it took etcd the last time."""
    took: list[tuple[float, float]] = []

    async def slow(log: etcd_log.EtcdLog) -> None:
        begin = asyncio.get_running_loop().time()
        await asyncio.sleep(0.3)
        took.append((begin, asyncio.get_running_loop().time()))

    async def work(pair: Pair) -> None:
        await pair.join("a")
        await until(lambda: len(took) > 3, "some deletions")

    monkeypatch.setattr(etcd_log.EtcdLog, "tidy", slow)
    trial(Pair(alarmd, tmp_path, tank), work)
    for (begin, end), (again, _) in zip(took, took[1:]):
        assert again - end > 0.9 * (end - begin)


def test_the_old_record_is_whole_before_the_new_one_is_followed(
    alarmd: Path, tmp_path: Path, monkeypatch: pytest.MonkeyPatch
) -> None:
    monkeypatch.setattr(etcd_log, "PAGE", 2)

    async def work(pair: Pair) -> None:
        a = await pair.join("a")
        await until(lambda: a.leads, "a leads")
        b = await pair.join("b")
        gate, keep = asyncio.Event(), b._log.keep

        async def held(one: Marked) -> None:
            await gate.wait()
            await keep(one)

        monkeypatch.setattr(b._log, "keep", held)
        await give(a, a=5)
        await until(lambda: a._log.known.record > 1, "a new record")
        gate.set()
        await until(lambda: b._log.known.record > 1, "the other one has it")
        first = [(tmp_path / name / "record.1").read_bytes() for name in "ab"]
        assert first[0] == first[1]

    trial(Pair(alarmd, tmp_path, without_programs, rotate_at=20), work)


def test_two_gateways_of_one_name_are_told_of(
    alarmd: Path, tmp_path: Path, monkeypatch: pytest.MonkeyPatch, capfd: pytest.CaptureFixture[str]
) -> None:
    monkeypatch.setattr(log_watch, "ALIKE", 0.3)
    told = "another gateway leads that is called 'a' too"

    async def work(pair: Pair) -> None:
        a = await pair.join("a")
        await until(lambda: a.leads, "a leads")
        await pair.join("b")
        b = await pair.join("other", name="a")
        lines: list[str] = []

        def said() -> bool:
            lines.extend(line for line in capfd.readouterr().err.splitlines() if told in line)
            return bool(lines)

        await until(said, "it is told")
        looked = b._looked
        await until(lambda: b._looked > looked + 1, "a second")
        said()
        assert len(lines) == 1

    trial(Pair(alarmd, tmp_path, tank), work)


def test_what_is_left_of_a_gateways_own_process_is_no_other_gateway(
    capfd: pytest.CaptureFixture[str],
) -> None:
    """One that was killed while it led, and was started again at once: its key goes with its lease."""
    own, before = Candidate(FakeEtcd(), "leader", "left", 60), Leader("left", "before", 1)
    watch = log_watch.LogWatch(cast(EtcdLog, None), Troubles(), 1.0)
    for now in range(0, 61):
        watch.led_by(before, own, now)
    assert capfd.readouterr().err == ""
    for now in range(61, 80):
        watch.led_by(before, own, now)
    assert capfd.readouterr().err.count("another gateway leads that is called 'left' too") == 1


def test_who_lacks_a_part_of_the_log_does_not_stand(
    alarmd: Path, tmp_path: Path, monkeypatch: pytest.MonkeyPatch
) -> None:
    """As one that was cut off for an hour: while it reads what it lacks nobody would scan, though another one could."""
    monkeypatch.setattr(log_entries, "PAGE", 2)

    async def work(pair: Pair) -> None:
        a = await pair.join("a")
        await until(lambda: a.leads, "a leads")
        b = await pair.join("b")
        gate, keep, stand = asyncio.Event(), b._log.keep, b._candidate.stand
        stood: list[int] = []

        async def held(one: Marked) -> None:
            await gate.wait()
            await keep(one)

        async def stands() -> None:
            stood.append(b._log.known.entries)
            await stand()

        monkeypatch.setattr(b._log, "keep", held)
        monkeypatch.setattr(b._candidate, "stand", stands)
        await give(a, running=True, level=250, flow=100)
        await until(lambda: a.state.events > 12, "scans")
        await pair.served.pop(0).close()
        gate.set()
        await until(lambda: b.leads, "b leads")
        assert set(stood) == {a._log.known.entries}

    trial(Pair(alarmd, tmp_path, tank), work)


def test_a_request_that_is_no_order_goes(alarmd: Path, tmp_path: Path) -> None:
    async def work(pair: Pair) -> None:
        a, b = await pair.join("a"), await pair.join("b")
        await until(lambda: a.leads != b.leads, "one leads")
        follower = b if a.leads else a
        await until(lambda: follower._candidate.lease is not None, "a lease")
        lease = follower._candidate.lease
        assert lease is not None
        await follower._log.request("m1", Entry("scan 5 level=5"), lease)
        key = (follower._log.keys.requests + "m1").encode()
        await until(lambda: key not in pair.etcd.keys, "it goes")
        assert not a.state.scanned

    trial(Pair(alarmd, tmp_path, tank), work)


def test_an_order_whose_lease_has_ended_is_handed_on_with_the_next(
    alarmd: Path, tmp_path: Path, monkeypatch: pytest.MonkeyPatch
) -> None:
    async def work(pair: Pair) -> None:
        a, b = await pair.join("a"), await pair.join("b")
        await until(lambda: a.leads != b.leads, "one leads")
        follower = b if a.leads else a
        await until(lambda: follower._candidate.lease is not None, "a lease")
        hold, beat, request = asyncio.Event(), follower._candidate.beat, follower._log.request
        tries: list[str] = []

        async def late() -> None:
            await hold.wait()
            await beat()

        async def tried(mark: str, entry: Entry, lease: str, seen: int | None = None) -> None:
            tries.append(lease)
            await request(mark, entry, lease, seen)

        monkeypatch.setattr(follower._candidate, "beat", late)
        monkeypatch.setattr(follower._log, "request", tried)
        old = follower._candidate.lease
        assert old is not None
        pair.etcd.end(old)
        asked = asyncio.create_task(follower.order(Order(Verb.REMOVE, 1, "LAL-101")))
        await until(lambda: tries, "it is handed on with the old lease")
        hold.set()
        assert (await asked).code == "OK"
        assert tries[0] == old != tries[-1]

    trial(Pair(alarmd, tmp_path, tank), work)


@pytest.mark.parametrize("here", [True, False])
def test_an_alarm_that_has_come_again_since_it_was_read_is_not_acknowledged(
    alarmd: Path, tmp_path: Path, monkeypatch: pytest.MonkeyPatch, here: bool
) -> None:
    """By an order at the leader, or at the other gateway, which hasn't seen it yet when it hands the order on."""

    async def work(pair: Pair) -> None:
        a = await pair.join("a")
        await until(lambda: a.leads, "a leads")
        b = await pair.join("b")
        request = b._log.request
        await give(a, running=True, level=250, flow=100)
        await give(a, level=500)
        await until(lambda: b.state.by_tag["LAL-101"].code is Code.RTNUN, "the alarm, and its end")
        seen, handed = b.state.by_tag["LAL-101"].since, list[int | None]()

        async def comes_again(mark: str, entry: Entry, lease: str, seen: int | None = None) -> None:
            handed.append(seen)
            await give(a, level=250)
            await until(lambda: a.state.by_tag["LAL-101"].code is Code.UNACK, "it comes again")
            await request(mark, entry, lease, seen)

        monkeypatch.setattr(b._log, "request", comes_again)
        core = a if here else b
        if here:
            await give(a, level=250)
            await until(lambda: a.state.by_tag["LAL-101"].code is Code.UNACK, "it comes again")
        with pytest.raises(CameAgain):
            await core.order(Order(Verb.ACK, 1, "LAL-101"), "anna", None, seen)
        assert handed == ([] if here else [seen])
        await until(lambda: b.state.by_tag["LAL-101"].code is Code.UNACK, "it waits")
        monkeypatch.setattr(b._log, "request", request)
        seen = b.state.by_tag["LAL-101"].since
        assert (await core.order(Order(Verb.ACK, 1, "LAL-101"), "anna", None, seen)).taken
        rows = [row for row in a.journal.rows() if row.words[0] == "ORDER"]
        assert len(rows) == 1 and not b._orders.away._jobs

    trial(Pair(alarmd, tmp_path, tank), work)


def test_an_order_without_an_answer_is_not_taken_later(
    alarmd: Path, tmp_path: Path, monkeypatch: pytest.MonkeyPatch
) -> None:
    """As where the leader's server plays the record anew, for longer than somebody waits."""
    monkeypatch.setattr(shared, "ORDER", 1.0)

    async def work(pair: Pair) -> None:
        a = await pair.join("a")
        await until(lambda: a.leads, "a leads")
        b = await pair.join("b")
        await give(a, running=True, level=250, flow=100)
        await until(lambda: b.state.by_tag["LAL-101"].code is Code.UNACK, "the alarm")
        gate, waiting = asyncio.Event(), asyncio.Event()

        async def held(moment: int) -> None:
            waiting.set()
            await gate.wait()

        a.before_scan = held
        await waiting.wait()
        try:
            with pytest.raises(ServerGone) as told:
                await b.order(Order(Verb.ACK, 1, "LAL-101"), "bert", "seen")
        finally:
            a.before_scan = None
            gate.set()
        assert "wasn't taken" in told.value.words
        events = b.state.events
        await until(lambda: b.state.events > events + 3, "scans go on")
        assert b.state.by_tag["LAL-101"].code is Code.UNACK
        assert (await b.order(Order(Verb.ACK, 1, "LAL-101"), "bert", "seen")).code == "OK"

    trial(Pair(alarmd, tmp_path, tank), work)


def test_an_order_that_was_told_of_while_it_was_handed_on_is_not_taken_later(
    alarmd: Path, tmp_path: Path, monkeypatch: pytest.MonkeyPatch
) -> None:
    """As where etcd takes its time, and then the leader doesn't look."""
    monkeypatch.setattr(shared, "ORDER", 0.5)

    async def work(pair: Pair) -> None:
        a = await pair.join("a")
        await until(lambda: a.leads, "a leads")
        b = await pair.join("b")
        await give(a, running=True, level=250, flow=100)
        await until(lambda: b.state.by_tag["LAL-101"].code is Code.UNACK, "the alarm")
        request, told = b._log.request, asyncio.Event()
        waiting, gate = asyncio.Event(), asyncio.Event()

        async def held(moment: int) -> None:
            waiting.set()
            await gate.wait()

        async def slow(mark: str, entry: Entry, lease: str, seen: int | None = None) -> None:
            await told.wait()
            await request(mark, entry, lease, seen)

        monkeypatch.setattr(b._log, "request", slow)
        a.before_scan = held
        await waiting.wait()
        with pytest.raises(ServerGone):
            await b.order(Order(Verb.ACK, 1, "LAL-101"), "bert", "seen")
        told.set()
        await asyncio.sleep(0.5)
        a.before_scan = None
        gate.set()
        events = b.state.events
        await until(lambda: b.state.events > events + 3, "scans go on")
        assert b.state.by_tag["LAL-101"].code is Code.UNACK

    trial(Pair(alarmd, tmp_path, tank), work)


def test_a_reload_that_was_told_of_while_it_was_looked_at_is_not_taken_later(
    alarmd: Path, tmp_path: Path, monkeypatch: pytest.MonkeyPatch
) -> None:
    """As where the server behind this gateway plays a long record anew. An order stands for it here: both go one way."""
    monkeypatch.setattr(shared, "ORDER", 0.5)

    async def work(pair: Pair) -> None:
        a = await pair.join("a")
        await until(lambda: a.leads, "a leads")
        await give(a, running=True, level=250, flow=100)
        await until(lambda: a.state.by_tag["LAL-101"].code is Code.UNACK, "the alarm")
        told = asyncio.Event()

        async def slow(job: Job) -> bool:
            await told.wait()
            return True

        monkeypatch.setattr(a._orders, "_ready", slow)
        with pytest.raises(ServerGone):
            await a.order(Order(Verb.ACK, 1, "LAL-101"), "anna", "seen")
        told.set()
        events = a.state.events
        await until(lambda: a.state.events > events + 3, "scans go on")
        assert a.state.by_tag["LAL-101"].code is Code.UNACK

    trial(Pair(alarmd, tmp_path, tank), work)


def test_who_waits_for_an_order_is_told_where_the_gateway_ends(
    alarmd: Path, tmp_path: Path, monkeypatch: pytest.MonkeyPatch
) -> None:
    monkeypatch.setattr(shared, "ORDER", 3600.0)

    async def work(pair: Pair) -> None:
        a, b = await pair.join("a"), await pair.join("b")
        await until(lambda: a.leads != b.leads, "one leads")
        leader, follower = (a, b) if a.leads else (b, a)

        async def held(request: Marked) -> bool:
            await asyncio.sleep(0.1)
            return True

        monkeypatch.setattr(leader._orders, "append_request", held)
        asked = asyncio.create_task(follower.order(Order(Verb.REMOVE, 1, "LAL-101")))
        requests = follower._log.keys.requests.encode()
        await until(lambda: any(key.startswith(requests) for key in pair.etcd.keys), "a request")
        await pair.served[0 if follower is a else 1].close()
        with pytest.raises(ServerGone, match="it isn't known"):
            await asked

    trial(Pair(alarmd, tmp_path, tank), work)


def test_of_an_order_in_the_log_it_isnt_said_that_it_wasnt_taken(
    alarmd: Path, tmp_path: Path
) -> None:
    """The leader's server ends for good behind it: the next leader takes it."""

    async def work(pair: Pair) -> None:
        a = await pair.join("a", restarts=0, period_ms=3_600_000)
        await until(lambda: a.leads, "a leads")
        await give(a, running=True, level=250, flow=100)
        await until(lambda: a.state.scanned, "a scan")
        entries, server = a._log.known.entries, a._link._server.pid
        os.kill(server, signal.SIGSTOP)
        asked = asyncio.create_task(a.order(Order(Verb.ACK, 1, "LAL-101")))
        await until(lambda: a._log.known.entries > entries, "the order is in the log")
        os.kill(server, signal.SIGKILL)
        with pytest.raises(ServerGone, match="SIGKILL, so it isn't known whether the order"):
            await asked

    trial(Pair(alarmd, tmp_path, tank), work)


def test_figures_for_prometheus(alarmd: Path, tmp_path: Path) -> None:
    def lines(core: SharedCore) -> list[str]:
        return Metrics(core, {}, {}).text().decode().splitlines()

    async def work(pair: Pair) -> None:
        a = await pair.join("a")
        await until(lambda: a.leads, "a leads")
        b = await pair.join("b")
        await give(a, running=True, level=250, flow=100)
        await until(lambda: b.state.scanned and b.snapshot().data["log"] is not None, "a scan")
        assert "alarmd_log_leads 1.0" in lines(a) and "alarmd_log_leads 0.0" in lines(b)
        for core in (a, b):
            assert 'alarmd_log_leader{gateway="a"} 1.0' in lines(core)
            assert "alarmd_log_record 1.0" in lines(core)
            entries, end = core._log.known.entries, core._end
            assert f"alarmd_log_entries {float(entries)}" in lines(core)
            assert end is not None
            assert f"alarmd_log_behind {float(max(0, end.entries - entries))}" in lines(core)
            assert f"alarmd_log_revision {float(end.revision)}" in lines(core)
        b._end = Last(1, b._log.known.log, b._log.known.entries + 7, 99)
        assert "alarmd_log_behind 7.0" in lines(b) and "alarmd_log_revision 99.0" in lines(b)
        b._end = Last(2, "another", 3, 99)  # of the new record it has nothing yet
        assert "alarmd_log_behind 3.0" in lines(b)
        pair.etcd.deaf = 10**9
        await until(lambda: silence(lines(b)) > 0.5, "silence")
        pair.etcd.deaf = 0
        await until(lambda: silence(lines(b)) < 0.5, "an answer")

    trial(Pair(alarmd, tmp_path, tank), work)


def silence(lines: list[str]) -> float:
    """For how long etcd has given no answer."""
    return next(
        float(line.split()[1]) for line in lines if line.startswith("alarmd_log_silent_seconds ")
    )
