"""Gateways that share a log in etcd, and what befalls them: each fault by itself, and what has to hold after it.

Runs with `--faults` alone, and wants etcd (`gateway/setup --etcd`). `--rounds N` tries each fault so often; `-s` shows the verdict on each
fault as it is given, the times, and the verdict on the whole."""

from __future__ import annotations

import asyncio
import shutil
import statistics
import time
from collections.abc import Iterator
from pathlib import Path

import pytest
from alike import alike, copies_agree, orders
from certificates import papers
from cluster import LIMIT, Cluster, wait
from full_disk import may_mount
from history import Load, faults
from test_etcd_log import Side
from trial import FAULTS, FULL_DISKS, Trial
from verdicts import Said, Verdict, verdict
from whole_help import Gateway

from alarmd_gateway import plant as plants
from alarmd_gateway.etcd import TXN, NoEtcd
from alarmd_gateway.etcd_http import HttpEtcd
from alarmd_gateway.record import Entry
from alarmd_gateway.shared_config import client_tls
from alarmd_gateway.transactions import Deposed

pytestmark = [pytest.mark.server, pytest.mark.etcd]

LEADS_AFTER = 5.0  # seconds, where there is a majority


def tried(trial: Trial, alarmd: Path, rounds: int, minutes: float) -> None:
    """Each fault so often, in an order by chance; after each the gateways are compared, and after each round a server with
    them. No round begins after so many minutes. Ends early where something is wrong, or can't be mended.
    """
    end = time.monotonic() + 60 * minutes
    faults = FAULTS + (FULL_DISKS if trial.cluster.disks else ())
    for _ in range(rounds):
        if time.monotonic() > end:
            return
        for number, fault in enumerate(trial.chance.sample(faults, len(faults)), 1):
            begin = time.monotonic()
            given = trial.tried(fault, alarmd if number == len(faults) else None)
            print(f"{fault.__name__}: {given}, {time.monotonic() - begin:.1f} s", flush=True)
            if given.said is Said.RIGHT:
                continue
            stands(trial.cluster)
            if given.said is Said.WRONG or not mended(trial.cluster):
                return


def stands(cluster: Cluster) -> None:
    """Shows what each gateway says."""
    for name, gateway in cluster.gateways.items():
        state = cluster.state(name) or {}
        print(name, state.get("log"), state.get("troubles"), gateway.told[-5:], flush=True)


def mended(cluster: Cluster) -> bool:
    """Whether what a fault without a verdict has left can be mended, so that others may be tried."""

    def mend() -> list[str]:
        cluster.mend()
        return []

    given = verdict(mend)
    if given.said is not Said.RIGHT:
        print(f"it can't be mended: {given}", flush=True)
    return given.said is Said.RIGHT


@pytest.fixture
def cluster(alarmd: Path, examples: Path, tmp_path: Path) -> Iterator[Cluster]:
    if shutil.which("etcd") is None:
        pytest.skip("no etcd: gateway/setup --etcd")
    found = Cluster(tmp_path, alarmd, examples / "tank", disks=may_mount(tmp_path / "small"))
    try:
        found.start()
        yield found
    finally:
        found.close()


def told(trial: Trial) -> None:
    """What has been tried so far, and how long it took."""
    for name, times in trial.times.items():
        middle, most = statistics.median(times), max(times)
        each = " ".join(f"{one:.1f}" for one in sorted(times))
        print(f"{name}: {len(times)} times, middle {middle:.1f} s, longest {most:.1f} s ({each})")
    if not trial.cluster.disks:
        print("no full disks were tried: only root can mount small ones")
    print(f"{trial.compared} times list, journal and state of all gateways were the same bytes")
    history = tuple(trial.load.history)
    print(f"{len(history)} orders, {trial.load.answered()} answered")
    print("\n".join(trial.tally.lines()), flush=True)


def judged(trial: Trial, alarmd: Path) -> list[str]:
    """What is wrong in the end, once nothing is given any more: by the whole journal, the copies, and a fresh server."""
    cluster = trial.cluster
    alike(cluster)
    rows = orders(cluster)
    wrong = faults(trial.load.history, rows)
    for gateway in cluster.gateways.values():
        assert gateway.end() == 0, gateway.told[-5:]
    print(f"{copies_agree(cluster, alarmd, rows)} commands in the log")
    return wrong


def test_faults(cluster: Cluster, alarmd: Path, pytestconfig: pytest.Config) -> None:
    seed = int(pytestconfig.getoption("--seed"))
    load = Load(cluster, seed)
    trial = Trial(cluster, load, seed)
    try:
        rounds, minutes = (pytestconfig.getoption(name) for name in ("--rounds", "--minutes"))
        tried(trial, alarmd, int(rounds), float(minutes))
    finally:
        load.close()
        told(trial)
    whole = verdict(lambda: judged(trial, alarmd))
    print(f"the whole: {whole}", flush=True)
    assert whole == Verdict(Said.RIGHT)
    assert trial.tally.count(Said.WRONG) == 0
    assert trial.tally.count(Said.NONE) == 0, "not each fault has a verdict"
    late = [
        (name, one) for name, times in trial.times.items() for one in times if one > LEADS_AFTER
    ]
    assert not [pair for pair in late if pair[0].startswith("leader")], late


def test_a_leader_that_slept_appends_nothing(alarmd: Path, examples: Path, tmp_path: Path) -> None:
    """Its next command comes before it has looked at the log: etcd itself refuses it."""
    if shutil.which("etcd") is None:
        pytest.skip("no etcd: gateway/setup --etcd")
    found = Cluster(tmp_path, alarmd, examples / "tank", 0)

    async def work() -> None:
        etcd = HttpEtcd([f"http://127.0.0.1:{node.client}" for node in found.nodes], 5.0)
        plant = plants.read(examples / "tank" / "plant.toml")
        a, b = (Side(etcd, tmp_path / name, plant, name) for name in "ab")
        for side in (a, b):
            await side.log.open()
        await a.lead()
        await a.log.append(Entry("scan 0"))
        end = time.monotonic() + LIMIT
        while not (b.candidate.lease and await b.look()):  # nobody keeps the lease of a
            assert time.monotonic() < end
            await b.candidate.beat()
        with pytest.raises(Deposed):
            await a.log.append(Entry("scan 1"))
        await b.log.append(Entry("scan 2"))
        with pytest.raises(Deposed):
            await a.log.append(Entry("scan 3"))
        await a.look()
        assert a.lines() == b.lines() == ["scan 0", "scan 2"]
        for side in (a, b):
            side.log.close()
        await etcd.close()

    try:
        for node in found.nodes:
            node.start()
        for node in found.nodes:
            wait(node.healthy, "etcd doesn't start")
        asyncio.run(work())
    finally:
        found.close()


def test_nodes_with_certificates(alarmd: Path, examples: Path, tmp_path: Path) -> None:
    """Clients and other nodes without one are refused; the gateways have theirs, and another one leads where the leader is gone."""
    if shutil.which("etcd") is None:
        pytest.skip("no etcd: gateway/setup --etcd")
    made = papers(tmp_path / "papers")
    found = Cluster(tmp_path, alarmd, examples / "tank", 2, tls=made)
    try:
        found.start()
        old = found.leader()
        found.gateways[old].process.kill()
        found.gateways[old].process.wait()
        assert found.leader(but=old) != old
        ends = [f"https://127.0.0.1:{node.client}" for node in found.nodes]
        bare = client_tls(made.ca.certificate, None, None)

        async def refused() -> None:
            client = HttpEtcd(ends, 5.0, bare)
            with pytest.raises(NoEtcd):
                await client.post(TXN, {})
            await client.close()

        asyncio.run(refused())
    finally:
        found.close()


def test_another_program_and_plant(alarmd: Path, examples: Path, tmp_path: Path) -> None:
    """They say so, and don't follow; told to go on with the other program, the first ones end."""
    if shutil.which("etcd") is None:
        pytest.skip("no etcd: gateway/setup --etcd")
    found = Cluster(tmp_path, alarmd, examples / "tank", 3)
    other = tmp_path / "alarmd"
    other.write_text(f'#!/bin/sh\nexec {alarmd} "$@"\n')
    other.chmod(0o755)
    a, b, c = found.gateways.values()
    try:
        for node in found.nodes:
            node.start()
        a.start()
        found.leader()
        b.alarmd = other
        assert "goes on with another alarmd" in refusal(b)
        table = c.folder / "plant" / "alarms.csv"
        table.write_text(table.read_text() + "\n")
        assert "another plant: alarms.csv differs" in refusal(c)
        b.more_words = ["--new-alarmd"]
        b.start()
        assert a.process.wait(LIMIT) == 2
        wait(lambda: "goes on with another alarmd" in a.told[-1], "it doesn't say why")
        assert found.leader(but="a") == "b"
    finally:
        found.close()


def refusal(gateway: Gateway) -> str:
    """What a gateway says that ends at its start with status 2."""
    with pytest.raises(AssertionError):
        gateway.start()
    assert gateway.process.wait(LIMIT) == 2
    wait(lambda: gateway.told, "it says nothing")
    return gateway.told[-1]
