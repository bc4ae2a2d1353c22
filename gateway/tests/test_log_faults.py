"""What befalls a shared log beside its leases: a copy that can't be written, another program, records that are too old, an etcd
that takes no command. With an etcd in memory."""

from __future__ import annotations

import errno
import os
from collections.abc import Iterator
from pathlib import Path
from typing import IO

import pytest
from around import until
from fake_etcd import FakeEtcd
from test_etcd_log import Side, Sides, plant, trial
from test_shared import Pair, give, same, tank
from test_shared import trial as pair_trial

from alarmd_gateway import disk, log_watch, new_record, record, serve, shared, transactions
from alarmd_gateway.model import Code, GatewayFault, Order, Plant, ServerGone, Verb
from alarmd_gateway.record import Entry, FileRecord
from alarmd_gateway.shared import SharedCore
from alarmd_gateway.transactions import Deposed, NoCopy
from alarmd_gateway.troubles import TroubleKind

__all__ = ["plant"]


class Full:
    """A disk below a folder that has no room while `folder` is one."""

    def __init__(self) -> None:
        self.folder: Path | None = None

    def write(self, file: IO[bytes], text: bytes) -> None:
        """Half of it is written where there is no room."""
        if self.folder is not None and str(file.name).startswith(f"{self.folder}/"):
            file.write(text[: len(text) // 2])
            raise OSError(errno.ENOSPC, os.strerror(errno.ENOSPC))
        disk.write(file, text)


@pytest.fixture
def full(monkeypatch: pytest.MonkeyPatch) -> Iterator[Full]:
    found = Full()
    monkeypatch.setattr(record, "write", found.write)
    yield found


def told(core: SharedCore, subject: str) -> bool:
    """Whether a trouble with the log stands."""
    return any((one.kind, one.subject) == (TroubleKind.LOG, subject) for one in core.troubles)


def test_what_a_full_disk_leaves_is_cut_off(tmp_path: Path, plant: Plant, full: Full) -> None:
    async def work(etcd: FakeEtcd, side: Sides) -> None:
        one = FileRecord(tmp_path / "record", plant)
        await one.append(Entry("scan 0"))
        full.folder = tmp_path
        for _ in range(3):
            with pytest.raises(GatewayFault, match="No space left"):
                await one.append(Entry("ack 1 LAL-101", "anna", "why"))
        full.folder = None
        await one.append(Entry("scan 1"))
        assert [entry.line for entry in one.replay()] == ["scan 0", "scan 1"]
        assert len((tmp_path / "record").read_text().splitlines()) == 3
        one.close()

    trial(work, tmp_path, plant)


def test_a_leader_whose_copy_is_full(tmp_path: Path, plant: Plant, full: Full) -> None:
    """Its command is in the log, and it appends no further one; it knows the command once it is in its copy."""

    async def work(etcd: FakeEtcd, side: Sides) -> None:
        a, b = await side("a"), await side("b")
        await a.lead()
        await a.log.append(Entry("scan 0"))
        full.folder = tmp_path / "a"
        with pytest.raises(Deposed) as deposed:
            await a.log.append_as("m", Entry("scan 1"))
        assert not deposed.value.sure and "No space left" in a.log.uncopied
        with pytest.raises(Deposed):
            await a.log.append(Entry("scan 2"))
        (fresh,) = (await a.log.look()).fresh
        with pytest.raises(NoCopy):
            await a.log.keep(fresh)
        assert (fresh.mark, a.log.known.entries) == ("m", 1)
        full.folder = None
        assert await a.look() and a.log.uncopied == ""
        await b.look()
        assert a.lines() == b.lines() == ["scan 0", "scan 1"]

    trial(work, tmp_path, plant)


def test_no_room_for_the_copy_of_a_new_record(tmp_path: Path, plant: Plant, full: Full) -> None:
    async def work(etcd: FakeEtcd, side: Sides) -> None:
        a, b = await side("a"), await side("b")
        await a.lead()
        await a.log.append(Entry("scan 0"))
        full.folder = tmp_path / "a"
        with pytest.raises(Deposed):
            await a.log.succeed([Entry("scan 5")])
        await b.look()
        await b.look()
        assert b.lines() == ["scan 5"]
        with pytest.raises(NoCopy):
            await a.look()
        full.folder = None
        await a.look()
        assert a.log.known.record == 2 and a.lines() == ["scan 5"]

    trial(work, tmp_path, plant)


def test_old_records_go_block_by_block(
    tmp_path: Path, plant: Plant, monkeypatch: pytest.MonkeyPatch
) -> None:
    """Who is so far behind that its record has lost its beginning takes none of the rest of it."""

    async def work(etcd: FakeEtcd, side: Sides) -> None:
        a, b = await side("a"), await side("b")
        await a.lead()
        for moment in range(7):
            await a.log.append(Entry(f"scan {moment}"))
        for moment in (10, 20):
            await a.log.succeed([Entry(f"scan {moment}")])
        left = []
        for _ in range(5):
            left.append(sum(b"/entry/000001/" in key for key in etcd.keys))
            await a.log.tidy()
        assert left == [7, 4, 1, 0, 0]
        await b.log.look()
        assert not (await b.log.look()).fresh
        await b.look()
        assert b.log.known.record == 3 and b.lines() == ["scan 20"]

    async def behind(etcd: FakeEtcd, side: Sides) -> None:
        a, b = await side("c"), await side("d")
        await a.lead()
        for moment in range(7):
            await a.log.append(Entry(f"scan {moment}"))
        for moment in (10, 20):
            await a.log.succeed([Entry(f"scan {moment}")])
        await a.log.tidy()
        assert (await b.log.look()).fresh == ()

    monkeypatch.setattr(new_record, "OLD", 3)
    trial(work, tmp_path, plant)
    trial(behind, tmp_path, plant)


def records(etcd: FakeEtcd) -> set[bytes]:
    """The numbers of the records of which etcd has an entry."""
    return {key.split(b"/")[4] for key in etcd.keys if b"/entry/" in key}


def test_all_old_records_go(tmp_path: Path, plant: Plant, monkeypatch: pytest.MonkeyPatch) -> None:
    """Also where several have become too old before one was deleted; then nothing is asked of etcd for a while."""

    async def work(etcd: FakeEtcd, side: Sides) -> None:
        a = await side("a")
        await a.lead()
        for moment in range(5):
            await a.log.succeed([Entry(f"scan {moment}"), Entry(f"scan {moment}")])
        for _ in range(9):
            await a.log.tidy()
        assert records(etcd) == {b"000005", b"000006"}
        asked: list[str] = []
        with monkeypatch.context() as quiet:
            quiet.setattr(a.log.asks, "ask", lambda *words: asked.append("ask"))
            await a.log.tidy()
        assert asked == []
        await a.log.succeed([Entry("scan 6")])  # from then on there is another one
        await a.log.tidy()
        assert records(etcd) == {b"000006", b"000007"}

    trial(work, tmp_path, plant)


def test_nothing_is_rid_of_by_one_that_follows(tmp_path: Path, plant: Plant) -> None:
    async def work(etcd: FakeEtcd, side: Sides) -> None:
        a, b = await side("a"), await side("b")
        await a.lead()
        await a.log.append(Entry("scan 0"))
        for moment in (10, 20):
            await a.log.succeed([Entry(f"scan {moment}")])
        while b.log.known.record < 3:
            await b.look()
        await b.log.tidy()
        assert any(b"/entry/000001/" in key for key in etcd.keys)

    trial(work, tmp_path, plant)


def test_another_program(tmp_path: Path, plant: Plant) -> None:
    """It isn't followed, until somebody says that the log goes on with it; then the first one appends nothing."""

    async def work(etcd: FakeEtcd, side: Sides) -> None:
        a = await side("a")
        await a.lead()
        await a.log.append(Entry("scan 0"))
        other = tmp_path / "other"
        other.write_text("another program")
        b = Side(etcd, tmp_path / "b", plant, "b", other)
        with pytest.raises(GatewayFault, match="another alarmd") as fault:
            await b.log.open()
        assert fault.value.status == 2
        await b.log.open(new_program=True)
        await a.log.look()
        await b.log.go_on()
        with pytest.raises(Deposed) as deposed:
            await a.log.append(Entry("scan 1"))
        assert deposed.value.sure
        with pytest.raises(GatewayFault, match="another alarmd"):
            await a.log.look()
        assert b.lines() == ["scan 0"]
        b.log.check()
        other.write_text("a third one")
        with pytest.raises(GatewayFault, match="has changed since this gateway began"):
            b.log.check()
        b.log.close()

    trial(work, tmp_path, plant)


def test_a_program_that_is_not_there(tmp_path: Path, plant: Plant) -> None:
    with pytest.raises(GatewayFault, match="No such file") as fault:
        Side(FakeEtcd(), tmp_path / "a", plant, "a", tmp_path / "none")
    assert fault.value.status == 2


def test_a_new_alarmd_wants_a_shared_log(tmp_path: Path) -> None:
    path = tmp_path / "gateway.toml"
    path.write_text('alarmd = "a"\nplant = "p"\nrecord = "r"\n')
    with pytest.raises(GatewayFault, match="there is no .etcd.") as fault:
        serve.main(["serve", str(path), "--new-alarmd"])
    assert fault.value.status == 2


@pytest.mark.server
def test_the_leaders_disk_is_full(alarmd: Path, tmp_path: Path, full: Full) -> None:
    """Another one leads, the page says why, nothing that was answered is lost; with room it follows again."""

    async def work(pair: Pair) -> None:
        a, b = await pair.join("a"), await pair.join("b")
        await until(lambda: a.leads != b.leads, "one leads")
        first, second = (a, b) if a.leads else (b, a)
        await give(first, running=True, level=250, flow=100)
        await until(lambda: second.state.by_tag["LAL-101"].code is Code.UNACK, "the alarm")
        assert (await first.order(Order(Verb.ACK, 1, "LAL-101"))).code == "OK"
        full.folder = tmp_path / ("a" if a.leads else "b")
        await until(lambda: second.leads and not first.leads, "another one leads")
        await until(lambda: told(first, "copy"), "the page says so")
        assert not told(second, "copy")
        events = first.state.events
        assert (await second.order(Order(Verb.REMOVE, 1, "FAL-103"))).code == "OK"
        await until(lambda: second.state.events > events + 9, "scans go on")
        assert first.state.events == events and not first.leads
        full.folder = None
        await until(lambda: not told(first, "copy"), "the trouble ends")
        await until(lambda: same(a, b), "both say the same")
        words = [row.words[3] for row in first.journal.rows() if row.words[0] == "ORDER"]
        assert words == ["LAL-101", "FAL-103"]

    pair_trial(Pair(alarmd, tmp_path, tank), work)


@pytest.mark.server
def test_orders_while_the_copy_is_full(
    alarmd: Path, tmp_path: Path, full: Full, monkeypatch: pytest.MonkeyPatch
) -> None:
    """One that is in the log already isn't known to be taken until there is room; a later one isn't taken."""

    async def work(pair: Pair) -> None:
        a = await pair.join("a", period_ms=3_600_000)
        await until(lambda: a.leads, "a leads")
        await give(a, running=True, level=250, flow=100)
        await until(lambda: a.state.scanned, "a scan")
        full.folder = tmp_path / "a"
        with pytest.raises(ServerGone, match="it isn't known"):
            await a.order(Order(Verb.REMOVE, 1, "LAL-101"))
        await until(lambda: told(a, "copy"), "the trouble")
        with pytest.raises(ServerGone, match="wasn't taken: the copy of the log can't be written"):
            await a.order(Order(Verb.REMOVE, 1, "FAL-103"))
        full.folder = None
        await until(lambda: a.state.by_tag["LAL-101"].code is Code.OOS, "it was taken")
        assert a.state.by_tag["FAL-103"].code is not Code.OOS

    monkeypatch.setattr(shared, "ORDER", 1.0)
    pair_trial(Pair(alarmd, tmp_path, tank), work)


@pytest.mark.server
def test_etcd_takes_no_command(
    alarmd: Path, tmp_path: Path, monkeypatch: pytest.MonkeyPatch
) -> None:
    """It answers reads, and refuses whatever writes, as where its space is exceeded: each page says that nobody scans."""

    async def work(pair: Pair) -> None:
        a, b = await pair.join("a"), await pair.join("b")
        await until(lambda: a.leads != b.leads, "one leads")
        first, second = (a, b) if a.leads else (b, a)
        await give(first, running=True, level=250, flow=100)
        await until(lambda: second.state.scanned, "a scan")
        pair.etcd.refusal = "etcdserver: mvcc: database space exceeded"
        await until(lambda: told(first, "scans") and told(second, "scans"), "both say so")
        texts = [one.text for one in first.troubles if one.subject == "scans"]
        assert texts == ["etcd takes no command: etcdserver: mvcc: database space exceeded"]
        for core in (first, second):
            with pytest.raises(ServerGone, match="the order wasn't taken"):
                await core.order(Order(Verb.REMOVE, 1, "LAL-101"))
        pair.etcd.refusal = ""
        await until(lambda: not told(first, "scans") and not told(second, "scans"), "it ends")
        assert (await second.order(Order(Verb.ACK, 1, "LAL-101"))).code == "OK"
        rows = [row.words[2] for row in second.journal.rows() if row.words[0] == "ORDER"]
        assert rows == ["ack"]

    monkeypatch.setattr(shared, "ORDER", 1.0)
    monkeypatch.setattr(log_watch, "GROWS", 0.5)
    monkeypatch.setattr(transactions, "PATIENCE", 0.5)
    pair_trial(Pair(alarmd, tmp_path, tank), work)


@pytest.mark.server
def test_a_plant_that_waits_for_its_first_samples_is_scanned_by_nobody(
    alarmd: Path, tmp_path: Path, monkeypatch: pytest.MonkeyPatch
) -> None:
    """And that is no trouble."""

    async def work(pair: Pair) -> None:
        a = await pair.join("a")
        await until(lambda: a.leads, "a leads")
        end = a._watching.silence(0.0)
        await until(lambda: a._watching.silence(0.0) < end - 1.0, "a second")
        assert not told(a, "scans")

    monkeypatch.setattr(log_watch, "GROWS", 0.3)
    pair_trial(Pair(alarmd, tmp_path, tank), work)


@pytest.mark.server
def test_another_program_joins(alarmd: Path, tmp_path: Path) -> None:
    async def work(pair: Pair) -> None:
        await pair.join("a")
        other = tmp_path / "alarmd"
        other.write_text(f'#!/bin/sh\nexec {alarmd} "$@"\n')
        other.chmod(0o755)
        with pytest.raises(GatewayFault, match="another alarmd"):
            await pair.join("b", alarmd=other)

    pair_trial(Pair(alarmd, tmp_path, tank), work)


@pytest.mark.server
def test_another_program_that_can_not_play_the_log_ends_no_other_gateway(
    alarmd: Path, tmp_path: Path
) -> None:
    """As one that is older than a command in it."""

    async def work(pair: Pair) -> None:
        a = await pair.join("a")
        await until(lambda: a.leads, "a leads")
        await give(a, running=True, level=250, flow=100)
        await until(lambda: a.state.events > 5, "scans")
        other = tmp_path / "alarmd"
        three = 'for line in 1 2 3; do read -r line; echo "$line"; done'
        other.write_text(f'#!/bin/sh\n{three} | {alarmd} "$@"\n')
        other.chmod(0o755)
        with pytest.raises(GatewayFault, match="alarmd has ended"):
            await pair.join("b", alarmd=other, new_alarmd=True)
        events = a.state.events
        await until(lambda: a._closing or a.state.events > events + 3, "it goes on")
        assert not a._closing
        other.write_text(f'#!/bin/sh\nexec {alarmd} "$@"\n')
        c = await pair.join("c", alarmd=other, new_alarmd=True)
        await until(lambda: c.leads, "the log goes on with the other one")
        with pytest.raises(GatewayFault, match="another alarmd"):
            await pair.served.pop(0).close()

    pair_trial(Pair(alarmd, tmp_path, tank), work)
