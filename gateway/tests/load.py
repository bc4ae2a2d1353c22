"""How fast a log that three gateways share takes commands, beside a record in a file: three nodes of etcd and three gateways on this
machine, with the tank.

    PYTHONPATH=gateway /usr/bin/python3 gateway/tests/load.py ALARMD [--minutes 10] [--rate 20]"""

from __future__ import annotations

import argparse
import statistics
import tempfile
import threading
import time
from collections.abc import Callable
from pathlib import Path

from alike import alike, copies_agree, orders
from around import ROOT
from cluster import Cluster, wait
from history import Given, faults
from http_help import Client
from whole_help import Gateway, gateway

TAGS = ("LAH-101", "LAL-101", "FAL-103", "RAH-104")
MOST = 3000  # commands that are given at once, to see how many a second are taken
PERIOD = 1000  # milliseconds between two scans
EACH = 5.0  # orders a second of one session, which may give ten


class Session(threading.Thread):
    """A session that gives an order each so many seconds, and notes how long each took."""

    def __init__(self, url: str, name: str, every: float, end: float) -> None:
        super().__init__()
        self.history: list[Given] = []
        self._url, self._name, self._every, self._end = url, name, every, end
        self.late = 0.0  # the most by which an order was given late

    def run(self) -> None:
        client = Client(self._url)
        client.enter()
        begin = due = time.monotonic()
        while due < self._end:
            time.sleep(max(0.0, due - time.monotonic()))
            self.late = max(self.late, time.monotonic() - due)
            number = len(self.history)
            given = Given(f"{self._name}-{number}", time.monotonic())
            self.history.append(given)
            word, tag = ("ack", "unshelve", "reset")[number % 3], TAGS[number // 3 % 4]
            answer = client.order(word, tag, reason=given.mark, console=1)
            if answer.status == 200:
                given.reply, given.end = str(answer.json["reply"]), time.monotonic()
            due = begin + (number + 1) * self._every


def told(what: str, history: list[Given]) -> None:
    """How long orders took."""
    times = sorted(given.end - given.begin for given in history if given.reply is not None)
    middle, most = statistics.median(times) * 1000, times[-1] * 1000
    of_100 = times[len(times) * 95 // 100] * 1000
    words = f"middle {middle:.0f} ms, 95 of 100 {of_100:.0f} ms, longest {most:.0f} ms"
    print(f"{what}: {len(history)} orders, {len(times)} answered, {words}", flush=True)


def given(urls: list[str], rate: float, seconds: float, prefix: str) -> list[Session]:
    """Orders of so many a second, by sessions in turn at these gateways."""
    count = max(len(urls), -(-int(rate) // int(EACH)))
    end = time.monotonic() + seconds
    clients = [
        Session(urls[at % len(urls)], f"{prefix}{at}", count / rate, end) for at in range(count)
    ]
    for client in clients:
        client.start()
        time.sleep(1 / rate)
    for client in clients:
        client.join()
    return clients


def pressed(gateway: Gateway, events: Callable[[], int]) -> float:
    """How many scans a second are taken where samples press, one new value each."""
    before, begin = events(), time.monotonic()
    for number in range(MOST):
        gateway.give(f"temperature={number % 2 + 100}")
    wait(lambda: events() >= before + MOST, "not all are taken", 1200)
    return MOST / (time.monotonic() - begin)


def shared(folder: Path, alarmd: Path, rate: float, minutes: float) -> None:
    """The log of three gateways."""
    cluster = Cluster(folder, alarmd, ROOT / "examples" / "tank", period=PERIOD, proxied=False)
    try:
        cluster.start()
        leader = cluster.leader()
        first = cluster.gateways[leader]
        first.give("running=TRUE level=500 flow=100 temperature=1")
        names = sorted(cluster.gateways, key=lambda name: name != leader)
        urls = [cluster.gateways[name].url for name in names]
        begin, before = time.monotonic(), events_of(cluster, leader)
        clients = given(urls, rate, 60 * minutes, "o")
        took = time.monotonic() - begin
        taken = events_of(cluster, leader) - before
        print(f"{taken} commands in {took:.0f} s: {taken / took:.1f} a second", flush=True)
        history = [one for client in clients for one in client.history]
        at_leader = [one for client in clients[::3] for one in client.history]
        told("at the leader's page", at_leader)
        told("at the others'", [one for one in history if one not in at_leader])
        print(f"given at most {max(client.late for client in clients) * 1000:.0f} ms late")
        print(f"leader still {leader}: {cluster.leader() == leader}")
        most = pressed(first, lambda: events_of(cluster, leader))
        print(f"at most, where samples press: {most:.0f} commands a second", flush=True)
        alike(cluster)
        rows = orders(cluster)
        print(f"wrong: {faults(history, rows)}; the same bytes in all gateways")
        memory = [f"{one.memory() / 1e6:.0f} MB" for one in cluster.gateways.values()]
        print(f"memory of the gateways: {', '.join(memory)}")
        for one in cluster.gateways.values():
            one.end()
        print(f"{copies_agree(cluster, alarmd, rows)} commands in the log", flush=True)
    finally:
        cluster.close()


def events_of(cluster: Cluster, name: str) -> int:
    state = cluster.state(name)
    return 0 if state is None else int(state["events"])


def alone(folder: Path, alarmd: Path, rate: float, minutes: float) -> None:
    """A record in a file."""
    with gateway(folder, alarmd, ROOT / "examples" / "tank", PERIOD) as one:
        one.give("running=TRUE level=500 flow=100 temperature=1")
        clients = given([one.url], rate, 60 * minutes, "f")
        told("with a file", [each for client in clients for each in client.history])

        def events() -> int:
            return int(Client(one.url).ask("/api/state").json["events"])

        print(f"at most, with a file: {pressed(one, events):.0f} commands a second", flush=True)


def main() -> None:
    parser = argparse.ArgumentParser(description=__doc__)
    parser.add_argument("alarmd", type=Path)
    parser.add_argument("--minutes", type=float, default=10)
    parser.add_argument("--rate", type=float, default=20)
    words = parser.parse_args()
    with tempfile.TemporaryDirectory(prefix="load-") as room:
        for name in ("shared", "alone"):
            (Path(room) / name).mkdir()
        alarmd = words.alarmd.resolve()
        shared(Path(room) / "shared", alarmd, words.rate, words.minutes)
        alone(Path(room) / "alone", alarmd, words.rate, min(2.0, words.minutes))


if __name__ == "__main__":
    main()
