"""The shared log before an etcd in memory: who may append, what an answer that is lost leaves, copies, a new record."""

from __future__ import annotations

import asyncio
import shutil
from collections.abc import Awaitable, Callable
from functools import partial
from pathlib import Path

import pytest
from fake_etcd import FakeEtcd, Twice

from alarmd_gateway import transactions
from alarmd_gateway import plant as plants
from alarmd_gateway.config import Config
from alarmd_gateway.etcd import Etcd, EtcdRefused, NoEtcd, after, coded, plain
from alarmd_gateway.etcd_log import EtcdLog
from alarmd_gateway.leader import Candidate
from alarmd_gateway.log_view import Keys, newest_copy
from alarmd_gateway.model import GatewayFault, Plant
from alarmd_gateway.record import Entry
from alarmd_gateway.shared_config import shared_config
from alarmd_gateway.transactions import Deposed


class Side:
    """A gateway's side of the log, without a server."""

    def __init__(
        self, etcd: Etcd, folder: Path, plant: Plant, name: str, program: Path | None = None
    ) -> None:
        folder.mkdir(exist_ok=True)
        keys = Keys("trial")
        self.log = EtcdLog(etcd, keys, folder / "record", plant, program or plant.path)
        self.candidate = Candidate(etcd, keys.leader, name, 3)

    async def look(self) -> bool:
        """Takes what is new, and says whether this side leads then."""
        view = await self.log.look()
        for one in view.fresh:
            await self.log.keep(one)
        if not view.fresh and view.last.log != self.log.known.log:
            await self.log.begin(view.last)
        if view.leader is None:
            await self.candidate.stand()
            return False
        return view.leader.mark == self.candidate.mark and self.log.lead(view.leader, view.last)

    async def lead(self) -> None:
        await self.candidate.beat()
        for _ in range(9):
            if await self.look():
                return
        raise AssertionError("it doesn't lead")

    def lines(self) -> list[str]:
        return [entry.line for entry in self.log.replay()]


Sides = Callable[[str], Awaitable[Side]]


@pytest.fixture
def plant(tmp_path: Path, examples: Path) -> Plant:
    shutil.copytree(examples / "tank", tmp_path / "plant")
    return plants.read(tmp_path / "plant" / "plant.toml")


def trial(
    work: Callable[[FakeEtcd, Sides], Awaitable[None]],
    folder: Path,
    plant: Plant,
    kind: type[FakeEtcd] = FakeEtcd,
) -> None:
    """Runs a trial with sides that are open, and closed at its end."""

    async def run() -> None:
        etcd, made = kind(), []

        async def side(name: str) -> Side:
            one = Side(etcd, folder / name, plant, name)
            made.append(one)
            await one.log.open()
            return one

        try:
            await work(etcd, side)
        finally:
            for one in made:
                one.log.close()

    asyncio.run(run())


def test_the_leader_appends_and_the_others_follow(tmp_path: Path, plant: Plant) -> None:
    async def work(etcd: FakeEtcd, side: Sides) -> None:
        a, b = await side("a"), await side("b")
        with pytest.raises(Deposed):
            await a.log.append(Entry("scan 0"))
        await a.lead()
        await a.log.append(Entry("scan 0 level=5"))
        await a.log.append(Entry("ack 1 LAL-101", "anna", 'seen "ü"'))
        await b.candidate.beat()
        assert not await b.look() and not await b.look()
        with pytest.raises(Deposed):
            await b.log.append(Entry("scan 1"))
        assert list(b.log.replay())[1] == Entry("ack 1 LAL-101", "anna", 'seen "ü"')
        assert a.log.copy.path.read_bytes() == b.log.copy.path.read_bytes()

    trial(work, tmp_path, plant)


def test_a_leader_whose_lease_has_ended_writes_nothing(tmp_path: Path, plant: Plant) -> None:
    async def work(etcd: FakeEtcd, side: Sides) -> None:
        a, b = await side("a"), await side("b")
        await a.lead()
        await a.log.append(Entry("scan 0"))
        assert a.candidate.lease is not None
        etcd.end(a.candidate.lease)  # it sleeps, and knows nothing of it
        with pytest.raises(Deposed) as alone:
            await a.log.append(Entry("scan 1"))
        await b.lead()
        with pytest.raises(Deposed):
            await a.log.append(Entry("scan 1"))
        await b.log.append(Entry("scan 2"))
        with pytest.raises(Deposed):
            await a.log.append(Entry("scan 3"))
        assert alone.value.sure and a.lines() == ["scan 0"]
        assert not await a.look()
        assert a.lines() == b.lines() == ["scan 0", "scan 2"]
        await a.candidate.beat()
        assert a.candidate.lease is None  # the next beat asks for another one

    trial(work, tmp_path, plant)


def test_one_that_leads_again_has_to_know_all_of_the_log(tmp_path: Path, plant: Plant) -> None:
    async def work(etcd: FakeEtcd, side: Sides) -> None:
        a, b = await side("a"), await side("b")
        await a.lead()
        view = await a.log.look()
        await b.log.look()
        await a.log.append(Entry("scan 0"))
        assert view.leader is not None
        assert not b.log.lead(view.leader, (await a.log.look()).last)

    trial(work, tmp_path, plant)


@pytest.mark.parametrize(("deaf", "dumb"), [(0, 1), (1, 0), (2, 0), (0, 2), (1, 1)])
def test_an_answer_that_is_lost(tmp_path: Path, plant: Plant, deaf: int, dumb: int) -> None:
    """It is tried again, and is in the log once."""

    async def work(etcd: FakeEtcd, side: Sides) -> None:
        a = await side("a")
        await a.lead()
        etcd.deaf, etcd.dumb = deaf, dumb
        await a.log.append(Entry("ack 1 LAL-101"))
        await a.log.append(Entry("scan 1"))
        b = await side("b")
        assert a.lines() == b.lines() == ["ack 1 LAL-101", "scan 1"]

    trial(work, tmp_path, plant)


@pytest.mark.parametrize("carried_out", [True, False])
def test_no_answer_for_long(
    tmp_path: Path, plant: Plant, monkeypatch: pytest.MonkeyPatch, carried_out: bool
) -> None:
    """The leader leads no more, and finds by the log whether its command is in it."""

    async def work(etcd: FakeEtcd, side: Sides) -> None:
        a = await side("a")
        await a.lead()
        etcd.dumb, etcd.deaf = (10**9, 0) if carried_out else (0, 10**9)
        with pytest.raises(Deposed) as deposed:
            await a.log.append_as("mark", Entry("scan 0"))
        assert not deposed.value.sure
        with pytest.raises(NoEtcd):
            await a.log.look()
        etcd.deaf = etcd.dumb = 0
        with pytest.raises(Deposed):
            await a.log.append(Entry("scan 1"))
        view = await a.log.look()
        assert [one.mark for one in view.fresh] == (["mark"] if carried_out else [])

    monkeypatch.setattr(transactions, "PATIENCE", 0.0)
    monkeypatch.setattr(transactions, "AGAIN", 0.0)
    trial(work, tmp_path, plant)


def test_a_command_that_comes_late(
    tmp_path: Path, plant: Plant, monkeypatch: pytest.MonkeyPatch
) -> None:
    """What was sent without an answer arrives after another command, or after another leader: it is not written."""

    async def work(etcd: FakeEtcd, side: Sides) -> None:
        a, b = await side("a"), await side("b")
        await a.lead()
        etcd.late = 1
        with pytest.raises(Deposed) as deposed:
            await a.log.append(Entry("scan 7"))
        assert not deposed.value.sure
        await a.lead()
        await a.log.append(Entry("scan 8"))
        etcd.arrive()
        etcd.late = 1
        with pytest.raises(Deposed):
            await a.log.append(Entry("scan 9"))
        assert a.candidate.lease is not None
        etcd.end(a.candidate.lease)
        etcd.arrive()
        await b.lead()
        assert b.lines() == ["scan 8"]

    monkeypatch.setattr(transactions, "PATIENCE", -1.0)
    trial(work, tmp_path, plant)


def test_a_command_that_comes_late_and_first(
    tmp_path: Path, plant: Plant, monkeypatch: pytest.MonkeyPatch
) -> None:
    """It is in the log, and what the leader appends without knowing of it isn't."""

    async def work(etcd: FakeEtcd, side: Sides) -> None:
        a = await side("a")
        await a.lead()
        etcd.late = 1
        with pytest.raises(Deposed):
            await a.log.append(Entry("scan 7"))
        assert await a.look()
        etcd.arrive()
        with pytest.raises(Deposed) as deposed:
            await a.log.append(Entry("scan 8"))
        assert deposed.value.sure
        await a.lead()
        assert a.lines() == ["scan 7"]

    monkeypatch.setattr(transactions, "PATIENCE", -1.0)
    trial(work, tmp_path, plant)


def test_an_order_that_is_handed_on_is_taken_once(tmp_path: Path, plant: Plant) -> None:
    async def work(etcd: FakeEtcd, side: Sides) -> None:
        a, b = await side("a"), await side("b")
        await a.lead()
        await b.candidate.beat()
        assert b.candidate.lease is not None
        entry = Entry("ack 1 LAL-101", "bert", "why")
        await b.log.request("m1", entry, b.candidate.lease)
        assert etcd.once == 1  # a second time it might be taken again
        (request,) = (await a.log.look()).requests
        assert (request.mark, request.entry) == ("m1", entry)
        await a.log.append_as("m1", entry, request=True)
        with pytest.raises(Deposed):
            await a.log.append_as("m1", entry, request=True)
        assert (await a.log.look()).requests == () and etcd.once == 1
        assert [one.mark for one in (await b.log.look()).fresh] == ["m1"]

    trial(work, tmp_path, plant)


def test_orders_that_are_handed_on_wait_in_their_order(tmp_path: Path, plant: Plant) -> None:
    async def work(etcd: FakeEtcd, side: Sides) -> None:
        a, b = await side("a"), await side("b")
        await a.lead()
        await b.candidate.beat()
        assert b.candidate.lease is not None
        marks = ["m2", "m3", "m1"]
        for mark in marks:
            await b.log.request(mark, Entry("ack 1 LAL-101"), b.candidate.lease)
        assert [one.mark for one in (await a.log.look()).requests] == marks

    trial(work, tmp_path, plant)


def test_a_request_ends_with_its_lease(tmp_path: Path, plant: Plant) -> None:
    async def work(etcd: FakeEtcd, side: Sides) -> None:
        a, b = await side("a"), await side("b")
        await a.lead()
        await b.candidate.beat()
        lease = b.candidate.lease
        assert lease is not None
        await b.log.request("m1", Entry("ack 1 LAL-101"), lease)
        etcd.end(lease)
        assert (await a.log.look()).requests == ()
        with pytest.raises(EtcdRefused):
            await b.log.request("m2", Entry("ack 1 LAL-101"), lease)
        with pytest.raises(Deposed):
            await a.log.append_as("m1", Entry("ack 1 LAL-101"), request=True)

    trial(work, tmp_path, plant)


def test_a_new_record(tmp_path: Path, plant: Plant) -> None:
    async def work(etcd: FakeEtcd, side: Sides) -> None:
        a, b = await side("a"), await side("b")
        await a.lead()
        for moment in range(3):
            await a.log.append(Entry(f"scan {moment}"))
        fresh = [Entry("# why"), *(Entry(f"remove 1 T{number}") for number in range(120))]
        assert await a.log.succeed(fresh) == "record.1"
        await a.log.append(Entry("scan 9"))
        assert len(a.lines()) == 121
        await b.look()
        assert b.lines() == ["scan 0", "scan 1", "scan 2"]  # the old one is whole first
        await b.look()
        assert b.log.copy.path.name == "record.2" and b.lines() == a.lines()
        assert (tmp_path / "b" / "record.1").read_bytes() == (
            tmp_path / "a" / "record.1"
        ).read_bytes()
        assert await a.log.succeed([Entry("scan 10")]) == "record.2"
        for _ in range(5):
            await a.log.tidy()
        kept = {key.split(b"/")[4] for key in etcd.keys if b"/entry/" in key}
        assert kept == {b"000002", b"000003"}
        assert newest_copy(tmp_path / "a" / "record").name == "record.3"

    trial(work, tmp_path, plant)


def test_what_two_nodes_carry_out(tmp_path: Path, plant: Plant) -> None:
    """Each request that may be asked of two nodes is carried out by both, and by one of them late: all comes into the log once."""

    async def work(etcd: FakeEtcd, side: Sides) -> None:
        a, b = await side("a"), await side("b")
        await a.lead()
        for moment in range(3):
            await a.log.append(Entry(f"scan {moment}"))
        await b.candidate.beat()
        assert b.candidate.lease is not None
        await b.log.request("m1", Entry("ack 1 LAL-101"), b.candidate.lease)
        await a.log.append_as("m1", Entry("ack 1 LAL-101"), request=True)
        fresh = [Entry(f"remove 1 T{number}") for number in range(120)]
        for _ in range(2):
            await a.log.succeed(fresh)
            await a.log.append(Entry("scan 9"))
            await b.look()
            await b.look()
            assert len(a.lines()) == 121 and b.lines() == a.lines()
        for _ in range(5):
            await a.log.tidy()
        counts = [
            sum(f"/{number:06}/".encode() in key for key in etcd.keys) for number in (1, 2, 3)
        ]
        assert counts == [0, 121, 121]
        assert len((tmp_path / "a" / "record.1").read_text().splitlines()) == 5
        assert not any(b"/old/000001" in key for key in etcd.keys)

    trial(work, tmp_path, plant, Twice)


@pytest.mark.parametrize("late", [2, 3])
def test_a_new_record_that_comes_late(tmp_path: Path, plant: Plant, late: int) -> None:
    """What was to make room for one, or its entries, comes when the next one is written: that is whole."""

    async def work(etcd: FakeEtcd, side: Sides) -> None:
        a, b = await side("a"), await side("b")
        await a.lead()
        await a.log.append(Entry("scan 0"))
        etcd.before[late] = partial(setattr, etcd, "late", 1)
        with pytest.raises(GatewayFault, match="late"):
            await a.log.succeed([Entry("scan 1")])
        etcd.before[4] = etcd.arrive
        await a.log.succeed([Entry("scan 2"), Entry("scan 3")])
        await b.look()
        await b.look()
        assert a.lines() == b.lines() == ["scan 2", "scan 3"]

    trial(work, tmp_path, plant)


def test_no_new_record_by_one_that_leads_no_more(tmp_path: Path, plant: Plant) -> None:
    async def work(etcd: FakeEtcd, side: Sides) -> None:
        a, b = await side("a"), await side("b")
        await a.lead()
        await a.log.append(Entry("scan 0"))
        assert a.candidate.lease is not None
        etcd.end(a.candidate.lease)
        with pytest.raises(Deposed):
            await a.log.succeed([Entry("scan 1")])
        assert a.log.keys.entry(2, 1).encode() not in etcd.keys  # nor a beginning of one
        await b.lead()
        assert b.log.known.record == 1

    trial(work, tmp_path, plant)


def test_a_new_record_of_another_leader_stays(tmp_path: Path, plant: Plant) -> None:
    """One that leads no more, and doesn't know it, makes no room for its own where the other one's is."""

    async def work(etcd: FakeEtcd, side: Sides) -> None:
        a, b = await side("a"), await side("b")
        await a.lead()
        await a.log.append(Entry("scan 0"))
        assert a.candidate.lease is not None
        etcd.end(a.candidate.lease)
        await b.lead()
        await b.log.succeed([Entry("scan 5"), Entry("scan 6")])
        with pytest.raises(Deposed):
            await a.log.succeed([Entry("scan 1")])
        await a.look()
        await a.look()
        assert a.lines() == b.lines() == ["scan 5", "scan 6"]

    trial(work, tmp_path, plant)


def test_a_new_record_after_a_longer_one_that_came_to_nothing(tmp_path: Path, plant: Plant) -> None:
    """Nothing of that one is in the log: it was written, and then the lease ended."""

    async def work(etcd: FakeEtcd, side: Sides) -> None:
        a, b = await side("a"), await side("b")
        await a.lead()
        lease = a.candidate.lease
        assert lease is not None
        etcd.before[4] = partial(etcd.end, lease)
        with pytest.raises(Deposed):
            await a.log.succeed([Entry(f"scan {moment}") for moment in range(60)])
        await a.candidate.beat()  # it finds that the lease is lost
        await a.lead()
        await a.log.succeed([Entry("scan 7")])
        for _ in range(3):
            await b.look()
        await a.log.append(Entry("scan 8"))
        await b.look()
        assert a.lines() == b.lines() == ["scan 7", "scan 8"]

    trial(work, tmp_path, plant)


@pytest.mark.parametrize("lease_ends", [True, False])
def test_no_new_record_over_what_came_meanwhile(
    tmp_path: Path, plant: Plant, monkeypatch: pytest.MonkeyPatch, lease_ends: bool
) -> None:
    """The lease ends, or a command comes late, when the new record is written and only has to take the old one's place."""

    async def work(etcd: FakeEtcd, side: Sides) -> None:
        a, b = await side("a"), await side("b")
        await a.lead()
        etcd.late = 1
        with pytest.raises(Deposed):
            await a.log.append(Entry("scan 7"))
        await a.lead()
        lease = a.candidate.lease
        assert lease is not None
        if lease_ends:
            etcd.before[4] = partial(etcd.end, lease)
        else:
            etcd.before[4] = etcd.arrive
        with pytest.raises(Deposed):
            await a.log.succeed([Entry("scan 8")])
        await (b if lease_ends else a).lead()
        await b.look()
        assert b.log.known.record == 1 and b.lines() == ([] if lease_ends else ["scan 7"])

    monkeypatch.setattr(transactions, "PATIENCE", -1.0)
    trial(work, tmp_path, plant)


def test_a_copy_goes_on(tmp_path: Path, plant: Plant) -> None:
    """A gateway that was away reads what it lacks; one whose copy isn't of this log is refused."""

    async def work(etcd: FakeEtcd, side: Sides) -> None:
        a, b = await side("a"), await side("b")
        await a.lead()
        await a.log.append(Entry("ack 1 LAL-101", "anna", "seen"))  # with a remark in the copy
        await b.look()
        assert b.log.known.entries == 1
        b.log.close()
        for moment in range(1, 1200):
            await a.log.append(Entry(f"scan {moment}"))
        again = await side("b")
        assert again.log.copy.path.read_bytes() == a.log.copy.path.read_bytes()
        again.log.close()
        path = tmp_path / "b" / "record.1"
        whole = path.read_bytes()
        path.write_bytes(
            whole.replace(b"scan 1199\n", b"scan 1198\n")
        )  # as many, and another last one
        with pytest.raises(GatewayFault, match="what isn't in the log"):
            await side("b")
        path.write_bytes(whole + b"scan 5000\n")
        with pytest.raises(GatewayFault, match="what isn't in the log") as fault:
            await side("b")
        assert fault.value.status == 2
        path.write_bytes(path.read_bytes().replace(b'"log": "', b'"log": "0'))
        with pytest.raises(GatewayFault, match="no copy of this log"):
            await side("b")

    trial(work, tmp_path, plant)


def test_what_else_lies_beside_a_copy_is_none(tmp_path: Path, plant: Plant) -> None:
    """As a folder of a year."""

    async def work(etcd: FakeEtcd, side: Sides) -> None:
        for name in ("2026", "other.7", "record.old", "record.plants"):
            (tmp_path / "a" / name).mkdir(parents=True)
        await (await side("a")).lead()
        assert newest_copy(tmp_path / "a" / "record").name == "record.1"

    trial(work, tmp_path, plant)


def test_a_copy_of_a_record_that_is_still_to_come_is_refused(tmp_path: Path, plant: Plant) -> None:
    """As those of a log whose etcd was lost: else all gateways would end at a new record, months later."""

    async def work(etcd: FakeEtcd, side: Sides) -> None:
        (tmp_path / "a").mkdir()
        old = tmp_path / "a" / "record.2"
        old.write_text("# of a log that was there before\n")
        with pytest.raises(GatewayFault, match="record.2 is of no record of this log") as fault:
            await side("a")
        assert fault.value.status == 2
        old.unlink()
        a = await side("a")
        await a.lead()
        await a.log.succeed([Entry("scan 1")])
        assert a.log.known.record == 2
        a.log.close()
        await side("a")

    trial(work, tmp_path, plant)


def test_another_plant_is_refused(tmp_path: Path, plant: Plant) -> None:
    async def work(etcd: FakeEtcd, side: Sides) -> None:
        await side("a")
        path = tmp_path / "plant" / "alarms.csv"
        path.write_text(path.read_text() + "\n")
        with pytest.raises(GatewayFault, match="another plant: alarms.csv differs") as fault:
            await side("b")
        assert fault.value.status == 2

    trial(work, tmp_path, plant)


def test_who_stands_while_another_leads(tmp_path: Path, plant: Plant) -> None:
    async def work(etcd: FakeEtcd, side: Sides) -> None:
        a, b = await side("a"), await side("b")
        await a.lead()
        await b.candidate.beat()
        await b.candidate.stand()
        view = await b.log.look()
        assert view.leader is not None and view.leader.name == "a"
        await a.candidate.resign()
        assert (await b.log.look()).leader is None
        await b.lead()

    trial(work, tmp_path, plant)


@pytest.mark.parametrize("strict", [False, True])
def test_another_lease_is_asked_for_where_one_has_ended(
    tmp_path: Path, plant: Plant, strict: bool
) -> None:
    async def work(etcd: FakeEtcd, side: Sides) -> None:
        etcd.strict = strict
        a = await side("a")
        for notice in (a.candidate.beat, a.candidate.stand):
            await a.candidate.beat()
            assert a.candidate.lease is not None
            etcd.end(a.candidate.lease)
            await notice()
            assert a.candidate.lease is None
        await a.lead()

    trial(work, tmp_path, plant)


def test_a_beat_without_an_answer_leaves_the_lease(tmp_path: Path, plant: Plant) -> None:
    """It may still be kept in time: who leads goes on to lead by it."""

    async def work(etcd: FakeEtcd, side: Sides) -> None:
        a = await side("a")
        await a.lead()
        lease = a.candidate.lease
        etcd.deaf = 2
        for _ in range(2):
            assert not await a.candidate.beat()
        assert await a.candidate.beat() and a.candidate.lease == lease
        assert etcd.leases == {lease}
        await a.log.append(Entry("scan 0"))

    trial(work, tmp_path, plant)


def test_a_beat_that_comes_to_nothing_is_soon_followed_by_another() -> None:
    """One that wasn't answered, and one of a lease that has been found out to be lost."""

    async def lost(candidate: Candidate) -> None:
        while candidate.lease is not None:
            await asyncio.sleep(0.01)

    async def work() -> None:
        etcd = FakeEtcd()
        candidate = Candidate(etcd, "leader", "a", 600)
        assert await candidate.beat() and candidate.lease is not None
        etcd.end(candidate.lease)
        etcd.deaf = 1
        beats = asyncio.create_task(candidate.run())
        await asyncio.wait_for(lost(candidate), 60)
        while candidate.lease is None:
            await asyncio.sleep(0.01)
        etcd.end(candidate.lease)
        await candidate.stand()
        assert candidate.lease is None
        while candidate.lease is None:
            await asyncio.sleep(0.01)
        beats.cancel()

    asyncio.run(asyncio.wait_for(work(), 120))


def test_keys_and_values() -> None:
    assert plain(coded("ü\udcff")) == "ü\udcff"
    assert after("/alarmd/tank/request/") == "/alarmd/tank/request0"
    assert Keys("tank").entry(1, 20) < Keys("tank").entry(1, 100) < Keys("tank").entry(2, 1)


NODE = "http://127.0.0.1:2379"
NO_NODES = [
    "",
    "127.0.0.1:2379",
    "https://127.0.0.1:2380",  # the other one has http
    "http://",
    "http:///",
    "http://:2379",
    "http://127.0.0.1:",
    "http://127.0.0.1:0",
    "http://127.0.0.1:65536",
    "http://127.0.0.1:2379x",
    "http://127.0.0.300:2379",
    "http://[::1:2379",
    "http://[::x]:2379",
    "http://::1:2379",
    "http://a..b:2379",
    "http://a b:2379",
    " http://a:2379",
    "http://a:2379 ",
    "http://a:2379\n",
    "http://a,http://b",
    "http://anna:secret@a:2379",
    "http://a:2379/etcd",
    "http://a:2379?b",
    "http://a:2379#b",
    "http://127.0.0.1:2379/",  # it is there already
    "http://127.0.0.1:02379",
]


@pytest.mark.parametrize(
    ("change", "words"),
    [
        ({"log": "a/b"}, "'log'"),
        ({"gateway": ""}, "'gateway'"),
        ({"endpoints": []}, "'endpoints'"),
        ({"endpoints": ["ftp://x"]}, "'endpoints'"),
        *(({"endpoints": [NODE, bad]}, "'endpoints'") for bad in NO_NODES),
        ({"lease_s": 1}, "'lease_s'"),
        ({"more": 1}, "'more'"),
    ],
)
def test_a_table_that_is_wrong(tmp_path: Path, change: dict[str, object], words: str) -> None:
    table = {"endpoints": ["http://127.0.0.1:2379"], "log": "tank", "gateway": "a"}
    good = Config(tmp_path, tmp_path, tmp_path, tmp_path, tables={"etcd": table})
    assert shared_config(good).lease == 2
    bad = Config(tmp_path, tmp_path, tmp_path, tmp_path, tables={"etcd": {**table, **change}})
    with pytest.raises(GatewayFault, match=words) as fault:
        shared_config(bad)
    assert fault.value.status == 2


def test_addresses_of_nodes(tmp_path: Path) -> None:
    ends = ["http://127.0.0.1:2379/", "http://127.0.0.1:2380", "http://[::1]:2379", "http://N1.a.b"]
    table = {"endpoints": ends, "log": "tank", "gateway": "a"}
    found = shared_config(Config(tmp_path, tmp_path, tmp_path, tmp_path, tables={"etcd": table}))
    assert found.endpoints == ("http://127.0.0.1:2379", *ends[1:])
