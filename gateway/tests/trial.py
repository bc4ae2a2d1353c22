"""What befalls gateways that share a log in etcd, each fault by itself, under load."""

from __future__ import annotations

import random
import signal
import time
from collections.abc import Callable
from functools import partial
from pathlib import Path
from typing import Any

from alike import alike, orders, plays_again
from cluster import Cluster, wait
from history import Load, faults
from verdicts import Tally, Verdict, verdict

LEASE = 2.0  # seconds, as the configuration has it without a word


class Trial:
    """A cluster under load, and the times after which another gateway led."""

    def __init__(self, cluster: Cluster, load: Load, seed: int) -> None:
        self.cluster = cluster
        self.load = load
        self.times: dict[str, list[float]] = {}
        self.compared = 0
        self.chance = random.Random(seed)
        self.tally = Tally()
        self._rows: list[
            dict[str, Any]
        ] = []  # of orders in the journal, as far as it was looked at

    def tried(self, fault: Callable[[Trial], None], alarmd: Path | None) -> Verdict:
        """Tries a fault, and looks at what has to hold after it, where there is a program with a server beside the gateways."""

        def looked_at() -> list[str]:
            fault(self)
            return self.compare(alarmd)

        given = verdict(looked_at)
        self.tally.add(fault.__name__, given)
        return given

    def goes_on(self) -> None:
        """Orders are answered again, by each gateway."""
        before = self.load.answered()
        wait(lambda: self.load.answered() > before + 5, "no order is answered")

    def answered_by_each(self, names: list[str]) -> None:
        """Orders are answered again, by each of these gateways."""
        before = [self.load.answered_by(name) for name in names]
        for name, count in zip(names, before):
            wait(partial(self._answered_more, name, count + 3), f"{name} answers nothing")

    def _answered_more(self, name: str, count: int) -> bool:
        return self.load.answered_by(name) >= count

    def grows(self, name: str, entries: int) -> bool:
        """Whether this gateway has more of the log."""
        return int(log_of(self.cluster, name)["entries"]) > entries + 3

    def note(self, fault: str, begin: float) -> None:
        """How long something took."""
        self.times.setdefault(fault, []).append(time.monotonic() - begin)

    def another(self, fault: str, old: str) -> str:
        """Another gateway leads; how long that took since the fault is noted."""
        begin = time.monotonic()
        new = self.cluster.leader(but=old)
        self.note(fault, begin)
        return new

    def compare(self, alarmd: Path | None) -> list[str]:
        """Once nothing is given any more, all gateways have the same; and so has a server that is given their copies, where there
        is a program for it. Gives what is wrong with the history so far."""
        self.load.pause()
        try:
            listing = alike(self.cluster)
            self.compared += 1
            if alarmd is not None:
                played = partial(plays, self.cluster, alarmd, listing)
                wait(played, "a server beside them is never seen after as many rows")
            begin = int(self._rows[-1]["number"]) + 1 if self._rows else 1
            self._rows += orders(self.cluster, begin)
            return faults(self.load.history, self._rows)
        finally:
            self.load.go_on()


def leader_killed(trial: Trial) -> None:
    cluster, old = trial.cluster, trial.cluster.leader()
    cluster.gateways[old].process.kill()
    cluster.gateways[old].process.wait()
    trial.another("leader killed", old)
    trial.goes_on()
    cluster.gateways[old].start()


def leader_ended(trial: Trial) -> None:
    cluster, old = trial.cluster, trial.cluster.leader()
    assert cluster.gateways[old].end() == 0
    trial.another("leader ended in order", old)
    cluster.gateways[old].start()


def leader_halted(trial: Trial) -> None:
    cluster, old = trial.cluster, trial.cluster.leader()
    cluster.gateways[old].signal(signal.SIGSTOP)
    new = trial.another("leader halted", old)
    time.sleep(LEASE)
    cluster.gateways[old].signal(signal.SIGCONT)
    wait(lambda: knows(cluster, old, lambda log: not log["leads"] and log["leader"] == new), old)
    trial.goes_on()


def leader_halted_about_its_lease(trial: Trial) -> None:
    """It goes on just before another one may lead, or just behind that, with what it was about to do."""
    cluster, old = trial.cluster, trial.cluster.leader()
    cluster.gateways[old].signal(signal.SIGSTOP)
    time.sleep(LEASE + trial.chance.uniform(-0.4, 0.8))
    cluster.gateways[old].signal(signal.SIGCONT)
    cluster.leader()
    trial.answered_by_each(list(cluster.gateways))


def leader_cut_off(trial: Trial) -> None:
    cluster, old = trial.cluster, trial.cluster.leader()
    cluster.cut(old, True)
    trial.another("leader cut off", old)
    wait(lambda: is_told(cluster, old, ""), "the page says nothing")
    trial.goes_on()
    cluster.cut(old, False)
    wait(lambda: not is_told(cluster, old), "the page still says that etcd isn't reached")


def leader_cut_from_others(trial: Trial) -> None:
    """Its machine is: it reaches the node beside it, which reaches no other one."""
    machine_cut_off(trial, "leader and the node beside it cut off from the others", own=False)


def leader_cut_from_both(trial: Trial) -> None:
    """From the others, and from the node beside it too."""
    machine_cut_off(trial, "leader cut off from the others and from the node beside it", own=True)


def machine_cut_off(trial: Trial, fault: str, own: bool) -> None:
    cluster, old = trial.cluster, trial.cluster.leader()
    cluster.cut_machine(old, True, own)
    trial.another(fault, old)
    wait(lambda: is_told(cluster, old, ""), "the page says nothing")
    had = trial.load.answered_by(old)
    trial.answered_by_each([name for name in cluster.gateways if name != old])
    assert trial.load.answered_by(old) == had, f"{old} answers though it is cut off"
    cluster.cut_machine(old, False, own)
    wait(lambda: not is_told(cluster, old), "the page still says that etcd isn't reached")
    trial.answered_by_each([old])


def follower_cut_off(trial: Trial) -> None:
    cluster, leader = trial.cluster, trial.cluster.leader()
    name = next(name for name in cluster.gateways if name != leader)
    cluster.cut(name, True)
    wait(lambda: is_told(cluster, name, ""), "the page says nothing")
    trial.goes_on()
    cluster.cut(name, False)
    wait(lambda: not is_told(cluster, name), "the page still says that etcd isn't reached")


def node_killed(trial: Trial) -> None:
    node = trial.chance.choice(trial.cluster.nodes)
    node.kill()
    begin = time.monotonic()
    trial.cluster.leader()
    trial.goes_on()
    trial.note("one node of etcd killed, orders answered", begin)
    node.start()
    wait(node.healthy, "the node doesn't come back")


def machine_gone(trial: Trial) -> None:
    """The leader, and the node of etcd beside it, which leads the nodes."""
    cluster, old = trial.cluster, trial.cluster.leader()
    node = cluster.first_node()
    cluster.gateways[old].process.kill()
    node.kill()
    trial.another("leader and a node killed", old)
    cluster.gateways[old].process.wait()
    others = [name for name in cluster.gateways if name != old]
    trial.answered_by_each(others)
    node.start()
    cluster.gateways[old].start()
    wait(node.healthy, "the node doesn't come back")


def node_halted(trial: Trial) -> None:
    """The one that leads the nodes: it takes connections, and answers nothing."""
    cluster = trial.cluster
    node = cluster.first_node()
    node.signal(signal.SIGSTOP)
    begin = time.monotonic()
    for name in cluster.gateways:
        wait(partial(trial.grows, name, log_of(cluster, name)["entries"]), f"{name} hears nothing")
    trial.note("one node of etcd halted, each goes on", begin)
    trial.answered_by_each(list(cluster.gateways))
    node.signal(signal.SIGCONT)
    wait(node.healthy, "the node doesn't come back")


def nodes_silent(trial: Trial) -> None:
    """Two of the nodes take what the leader's gateway sends, and answer nothing: it goes on by the third one."""
    cluster, leader = trial.cluster, trial.cluster.leader()
    silent = trial.chance.sample(range(3), 2)
    entries = log_of(cluster, leader)["entries"]
    for number in silent:
        cluster.cut_one(leader, number, True)
    begin = time.monotonic()
    wait(partial(trial.grows, leader, entries), f"{leader} hears nothing")
    trial.note("two nodes silent to the leader's gateway, it goes on", begin)
    trial.answered_by_each(list(cluster.gateways))
    for number in silent:
        cluster.cut_one(leader, number, False)


def majority_killed(trial: Trial) -> None:
    cluster = trial.cluster
    down = trial.chance.sample(cluster.nodes, 2)
    for node in down:
        node.kill()
    for name in cluster.gateways:
        wait(lambda: is_told(cluster, name, ""), f"the page of {name} says nothing")
    wait(lambda: settled(cluster), "entries are taken still")
    before = [log_of(cluster, name)["entries"] for name in cluster.gateways]
    answered = trial.load.answered()
    time.sleep(4)
    assert [log_of(cluster, name)["entries"] for name in cluster.gateways] == before
    assert trial.load.answered() == answered
    for node in down:
        node.start()
    begin = time.monotonic()
    wait(lambda: any(cluster.leads(name) for name in cluster.gateways), "nobody leads")
    trial.note("majority is back, a leader", begin)
    for node in down:
        wait(node.healthy, "the node doesn't come back")
    trial.goes_on()


def leader_disk_full(trial: Trial) -> None:
    cluster, old = trial.cluster, trial.cluster.leader()
    disk = cluster.disks[old]
    disk.fill()
    wait(lambda: is_told(cluster, old, "copy"), "the page says nothing")
    trial.another("leader's disk full", old)
    trial.goes_on()
    disk.room()
    wait(lambda: not is_told(cluster, old), "the page still says that the copy can't be written")


def follower_disk_full(trial: Trial) -> None:
    cluster, leader = trial.cluster, trial.cluster.leader()
    name = trial.chance.choice([name for name in cluster.gateways if name != leader])
    cluster.disks[name].fill()
    wait(lambda: is_told(cluster, name, "copy"), "the page says nothing")
    before = log_of(cluster, name)["entries"]
    others = [given for given in cluster.gateways if given != name]
    trial.answered_by_each(others)
    assert log_of(cluster, name)["entries"] <= before + 5
    cluster.disks[name].room()
    wait(lambda: not is_told(cluster, name), "the page still says that the copy can't be written")


def node_disk_full(trial: Trial) -> None:
    """etcd ends by itself where it can't write."""
    cluster = trial.cluster
    node, disk = cluster.nodes[0], cluster.disks["n0"]
    disk.fill()

    def ended() -> bool:
        cluster.swell()
        return node.ended

    wait(ended, "the node goes on")
    begin = time.monotonic()
    cluster.leader()
    trial.goes_on()
    trial.note("disk of one node full, orders answered", begin)
    disk.room()
    cluster.compact()
    node.start()
    wait(node.healthy, "the node doesn't come back")


FAULTS: tuple[Callable[[Trial], None], ...] = (
    leader_killed,
    leader_halted,
    leader_halted_about_its_lease,
    leader_cut_off,
    leader_cut_from_others,
    leader_cut_from_both,
    follower_cut_off,
    leader_ended,
    node_killed,
    node_halted,
    nodes_silent,
    machine_gone,
    majority_killed,
)
FULL_DISKS: tuple[Callable[[Trial], None], ...] = (
    leader_disk_full,
    follower_disk_full,
    node_disk_full,
)


def log_of(cluster: Cluster, name: str) -> dict[str, Any]:
    """What a gateway knows of the log."""
    log = cluster.says(name)["log"]
    assert isinstance(log, dict)
    return log


def settled(cluster: Cluster) -> bool:
    """Whether no gateway takes an entry in two seconds: each has taken what it had read before."""
    before = [log_of(cluster, name)["entries"] for name in cluster.gateways]
    time.sleep(2)
    return before == [log_of(cluster, name)["entries"] for name in cluster.gateways]


def knows(cluster: Cluster, name: str, holds: Callable[[dict[str, Any]], bool]) -> bool:
    state = cluster.state(name)
    return state is not None and holds(state["log"])


def is_told(cluster: Cluster, name: str, subject: str | None = None) -> bool:
    """Whether the page of a gateway says that something is wrong with the log."""
    state = cluster.state(name)
    return state is not None and any(
        one["kind"] == "log" and subject in (None, one["subject"]) for one in state["troubles"]
    )


def plays(cluster: Cluster, alarmd: Path, listing: list[str]) -> bool:
    """Whether a server that is given the copies lists this; where more has come since, it is listed anew."""
    if plays_again(cluster, alarmd, listing):
        return True
    listing[:] = alike(cluster)
    return False
