"""A log of a million commands in etcd, and what a new record leaves of it: how long it is read and deleted, how large etcd's files are,
and how long the leader's next commands take meanwhile.

    PYTHONPATH=gateway /usr/bin/python3 gateway/tests/million.py [--commands N] [--nodes 1 or 3]

The log is filled by a writer of its own, a hundred commands in each transaction; then a gateway's side of it, without a server, reads
all of it into its copy, leads, begins two new records, and rids etcd of the first, while it appends twenty commands a second."""

from __future__ import annotations

import argparse
import asyncio
import contextlib
import statistics
import tempfile
import time
import uuid
from pathlib import Path

from around import ROOT
from cluster import Node, free_ports, wait
from test_etcd_log import Side

from alarmd_gateway import etcd
from alarmd_gateway import plant as plants
from alarmd_gateway.etcd_http import HttpEtcd
from alarmd_gateway.log_view import value_of
from alarmd_gateway.record import Entry
from alarmd_gateway.shared import LOOK
from alarmd_gateway.transactions import Deposed

TOGETHER = 100  # commands of one transaction
EACH = 0.05  # seconds between two commands of the leader
ALONE = 20.0  # seconds in which the leader does nothing else


class Stopwatch:
    """Tells how long what was done took, how large the files of the nodes are, and how long the leader's commands took."""

    def __init__(self, folder: Path) -> None:
        self.appended: list[float] = []
        self.lost = 0  # so often the leader has lost the lead, and led again
        self._folder = folder
        self._begin = time.monotonic()

    def tell(self, what: str) -> None:
        seconds, self._begin = time.monotonic() - self._begin, time.monotonic()
        files = sorted(self._folder.glob("n*/data/member/snap/db"))
        sizes = ", ".join(f"{path.stat().st_size / 1e6:.0f} MB" for path in files)
        print(f"{what}: {seconds:.1f} s; files of the nodes: {sizes}", flush=True)
        times, self.appended = sorted(self.appended), []
        if times:
            middle, most = statistics.median(times) * 1000, times[-1] * 1000
            of_100 = times[len(times) * 95 // 100] * 1000
            words = f"middle {middle:.0f} ms, 95 of 100 {of_100:.0f} ms, longest {most:.0f} ms"
            rate = len(times) / seconds
            print(f"  {len(times)} commands meanwhile, {rate:.1f} a second: {words}", flush=True)
        if self.lost:
            print(f"  the lead was lost {self.lost} times", flush=True)
        self.lost = 0


async def fill(side: Side, count: int) -> None:
    """Appends so many commands as one that leads would, a hundred at a time."""
    log, keys = side.log, side.log.keys
    known = log.known
    for begin in range(0, count, TOGETHER):
        puts = [
            etcd.put(keys.entry(1, number), value_of(command(number), uuid.uuid4().hex))
            for number in range(begin + 1, begin + TOGETHER + 1)
        ]
        fields = {"record": 1, "log": known.log, "entries": begin + TOGETHER}
        await written(side, [*puts, etcd.put(keys.last, fields)])


async def written(side: Side, puts: list[etcd.Body]) -> None:
    """These are in the log once it has returned. What a busy node may have carried out without an answer is carried out again."""
    while True:
        try:
            await side.log.asks.ask([], puts)
            return
        except etcd.NoEtcd as fault:
            print(f"asked again: {fault}", flush=True)
        await asyncio.sleep(1)


def command(number: int) -> Entry:
    """Scans, and an order after each ninety-nine."""
    if number % TOGETHER == 0:
        return Entry("ack 1 LAL-101", "anna", "seen")
    return Entry(f"scan {number * 1000} level={number % 1000}")


async def appends(side: Side, watch: Stopwatch, moment: int) -> None:
    """Twenty commands a second, for ever; where the lead is lost it is waited for."""
    due = time.monotonic()
    while True:
        begin = time.monotonic()
        try:
            await side.log.append(Entry(f"scan {moment}"))
        except Deposed:
            watch.lost += 1
            await led(side)
        watch.appended.append(time.monotonic() - begin)
        due = max(due + EACH, time.monotonic() - 1)
        await asyncio.sleep(max(0.0, due - time.monotonic()))


async def led(side: Side) -> None:
    """It leads again once this has returned."""
    while True:
        with contextlib.suppress(etcd.NoEtcd):
            if await side.look():
                return
        await asyncio.sleep(LOOK)


async def emptied(side: Side) -> tuple[int, float]:
    """Rids etcd of what is too old, as a gateway does. Gives how many blocks that took, and the longest."""
    blocks, longest = 0, 0.0
    while True:
        side.log._tidied = -1e9
        begin = time.monotonic()
        with contextlib.suppress(etcd.NoEtcd):
            await side.log.tidy()
        took = time.monotonic() - begin
        if side.log._tidied > 0:
            return blocks, longest
        blocks, longest = blocks + 1, max(longest, took)
        await asyncio.sleep(max(LOOK, took))


async def cleared(side: Side, client: HttpEtcd, watch: Stopwatch, moment: int) -> None:
    """All that has to be done about the first record, while the leader goes on."""
    works = [side.candidate.run(), appends(side, watch, moment)]
    tasks = [asyncio.create_task(work) for work in works]
    await asyncio.sleep(ALONE)
    watch.tell("nothing else done")
    blocks, longest = await emptied(side)
    watch.tell(f"the first one deleted, {blocks} blocks, the longest {longest * 1000:.0f} ms")
    answer = await client.post(etcd.TXN, etcd.transaction([], [etcd.get(side.log.keys.last)]))
    revision = str(etcd.revision(answer))
    await client.post("/v3/kv/compaction", {"revision": revision, "physical": True})
    watch.tell("compacted")
    await client.post("/v3/maintenance/defragment", {})
    watch.tell("one node defragmented")
    for task in tasks:
        task.cancel()
    await asyncio.gather(*tasks, return_exceptions=True)


async def tried(folder: Path, ends: list[str], commands: int) -> None:
    client, own = HttpEtcd(ends, 600.0), HttpEtcd(ends, 1.0)
    plant = plants.read(ROOT / "examples" / "tank" / "plant.toml")
    first, second = (Side(client, folder / name, plant, name) for name in "ab")
    watch = Stopwatch(folder)
    await first.log.open()
    await fill(first, commands)
    watch.tell(f"{commands:,} commands written")
    await second.log.open()
    assert second.log.known.entries == commands
    size = (folder / "b" / "record.1").stat().st_size / 1e6
    watch.tell(f"all of it read into a copy of {size:.0f} MB")
    second.log.close()
    leader = Side(own, folder / "b", plant, "b")
    await leader.log.open()
    watch.tell("opened again with its copy")
    await leader.lead()
    for record in (2, 3):
        await leader.log.succeed([Entry(f"scan {commands * 1000 + record}")])
    watch.tell("two new records begun")
    await cleared(leader, client, watch, commands * 1000 + 3)
    for side in (first, leader):
        side.log.close()
    for one in (client, own):
        await one.close()


def main() -> None:
    parser = argparse.ArgumentParser(description=__doc__)
    parser.add_argument("--commands", type=int, default=1_000_000)
    parser.add_argument("--nodes", type=int, default=3, choices=(1, 3))
    words = parser.parse_args()
    with tempfile.TemporaryDirectory(prefix="million-") as room:
        folder, ports = Path(room), free_ports(2 * words.nodes)
        peers = ports[words.nodes :]
        nodes = [Node(folder, at, ports[at], peers) for at in range(words.nodes)]
        try:
            for node in nodes:
                node.start()
            for node in nodes:
                wait(node.healthy, "etcd doesn't start")
            ends = [f"http://127.0.0.1:{node.client}" for node in nodes]
            asyncio.run(tried(folder, ends, words.commands))
        finally:
            for node in nodes:
                node.close()


if __name__ == "__main__":
    main()
