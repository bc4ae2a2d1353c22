"""What clients saw of a cluster, and whether one server could have given it.

The journal is the one order of all commands. So a history is right where each order that was answered is in it once, with its
answer, where none is in it twice, and where of two orders the one that was answered before the other was given stands first."""

from __future__ import annotations

import http.client
import random
import threading
import time
from collections.abc import Sequence
from dataclasses import dataclass
from functools import partial
from typing import Any

from cluster import LIMIT, Cluster
from http_help import Client
from whole_help import NoVerdict

ENDLESS = float("inf")
NOT_ANSWERED = (OSError, ValueError, http.client.HTTPException)
UNREAD = 409  # of an alarm that has come again since it was read
TAGS = ("LAH-101", "LAL-101", "FAL-103", "RAH-104")


@dataclass
class Given:
    """An order: its mark (the reason), when it was given and answered, and the reply; None where none came, and `-` where it
    was told that the order wasn't taken."""

    mark: str
    begin: float
    end: float = ENDLESS
    reply: str | None = None


def faults(history: Sequence[Given], rows: Sequence[dict[str, Any]]) -> list[str]:
    """What is wrong with a history, by the rows of orders in the journal."""
    wrong: list[str] = []
    by_mark: dict[str, list[dict[str, Any]]] = {}
    for row in rows:
        by_mark.setdefault(str(row["reason"]), []).append(row)
    known = {given.mark: given for given in history}
    for given in history:
        found = by_mark.get(given.mark, [])
        if len(found) > 1:
            wrong.append(f"{given.mark} was taken {len(found)} times")
        elif given.reply == "-" and found:
            wrong.append(f"{given.mark} was taken, and answered as not taken")
        elif given.reply not in (None, "-") and [row["reply"] for row in found] != [given.reply]:
            wrong.append(f"{given.mark} was answered {given.reply}, and the journal has {found}")
    latest = 0.0
    for row in rows:
        one = known.get(str(row["reason"]))
        if one is None:
            wrong.append(f"nobody gave {row}")
            continue
        if one.end < latest:
            wrong.append(f"{one.mark} stands after an order that was given when it was answered")
        latest = max(latest, one.begin)
    return wrong


def since(client: Client, tag: str) -> int | None:
    """Since when an alarm stands as it does, on this page."""
    alarms = client.ask("/api/state").json["alarms"]
    found = next(one["since"] for one in alarms if one["tag"] == tag)
    return found if isinstance(found, int) else None


class Load:
    """Samples to all gateways, and to each of them orders of a client of its own, until `close`."""

    def __init__(self, cluster: Cluster, seed: int) -> None:
        self.history: list[Given] = []
        self._cluster = cluster
        self._ended = False
        self._going = threading.Event()  # unset while nothing is to be given
        self._going.set()
        self._idle = [threading.Event() for _ in range(len(cluster.gateways) + 1)]
        works = [partial(self._sample, self._idle[0], random.Random(seed))]
        for number, name in enumerate(cluster.gateways):
            chance = random.Random(seed * 10 + number)
            works.append(partial(self._order, self._idle[number + 1], name, chance))
        self._threads = [threading.Thread(target=work, daemon=True) for work in works]
        for thread in self._threads:
            thread.start()

    def answered(self) -> int:
        """How many orders have been answered."""
        return sum(given.reply not in (None, "-") for given in tuple(self.history))

    def pause(self) -> None:
        """Nothing is given any more once this has returned, and all is answered, or has waited long enough. Raises NoVerdict where
        somebody who gives doesn't rest."""
        self._going.clear()
        for idle, thread in zip(self._idle, self._threads):
            if not (idle.wait(LIMIT) and thread.is_alive()):
                raise NoVerdict("somebody who gives orders or samples has ended, or doesn't rest")

    def go_on(self) -> None:
        """Samples and orders are given again."""
        self._going.set()

    def _rest(self, idle: threading.Event) -> None:
        """Waits while nothing is to be given."""
        if not self._going.is_set():
            idle.set()
            self._going.wait()
            idle.clear()

    def answered_by(self, name: str) -> int:
        """How many of them by this gateway."""
        given = (one for one in tuple(self.history) if one.mark.startswith(f"{name}-"))
        return sum(one.reply not in (None, "-") for one in given)

    def _sample(self, idle: threading.Event, chance: random.Random) -> None:
        while not self._ended:
            self._rest(idle)
            level, flow = chance.choice((100, 250, 500, 950)), chance.choice((0, 100))
            for gateway in self._cluster.gateways.values():
                try:
                    gateway.give(f"running=TRUE level={level} flow={flow}")
                except (OSError, ValueError):
                    pass  # it was killed
            time.sleep(0.3)

    def _order(self, idle: threading.Event, name: str, chance: random.Random) -> None:
        client: Client | None = None
        number = 0
        while not self._ended:
            self._rest(idle)
            time.sleep(chance.uniform(0.05, 0.4))
            try:
                if client is None:
                    client = Client(self._cluster.gateways[name].url)
                    client.patience = 30.0
                    if client.enter().status != 200:
                        raise OSError
            except NOT_ANSWERED:
                client = None
                continue
            number += 1
            if not self._give(client, f"{name}-{number}", chance):
                client = None

    def _give(self, client: Client, mark: str, chance: random.Random) -> bool:
        """Gives one order; says whether the session goes on."""
        word = chance.choice(("ack", "ack", "shelve", "unshelve", "remove", "return", "reset"))
        tag = chance.choice(TAGS)
        more: dict[str, int | None] = {"milliseconds": 2000} if word == "shelve" else {}
        try:
            more = {"seen": since(client, tag)} if word == "ack" else more
            given = Given(mark, time.monotonic())
            self.history.append(given)
            answer = client.order(word, tag, reason=mark, console=1, **more)
            found = answer.json
        except NOT_ANSWERED:
            return False
        if answer.status == 200:
            given.reply, given.end = str(found["reply"]), time.monotonic()
        elif answer.status != 503 or "wasn't taken" in str(found):
            given.reply = "-"
        return answer.status in (200, UNREAD, 503)

    def close(self) -> None:
        """Nothing is given any more. Who waits for a gateway that does nothing is left alone."""
        self._ended = True
        self._going.set()
        for thread in self._threads:
            thread.join(LIMIT)
