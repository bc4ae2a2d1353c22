"""Who leads: a lease of etcd's, and a key that lives as long as the lease of the gateway that made it.

Nothing here decides whether a command is written: each transaction that writes one asks etcd for the key itself."""

from __future__ import annotations

import asyncio
import contextlib
import uuid
from dataclasses import dataclass

from .etcd import (
    GRANT,
    KEEP,
    REVOKE,
    TXN,
    Etcd,
    EtcdRefused,
    Kept,
    NoEtcd,
    absent,
    put,
    transaction,
)

BEATS = 3  # of the keeping alive, in the time of a lease
AGAIN = 0.2  # seconds until the next beat where this one came to nothing


@dataclass(frozen=True)
class Leader:
    """The gateway that leads: its name, the mark of its process, and the revision at which it began."""

    name: str
    mark: str
    revision: int


def leader_of(kept: list[Kept]) -> Leader | None:
    """The leader by its key; None where nobody leads."""
    if not kept:
        return None
    value = kept[0].value
    return Leader(str(value.get("name")), str(value.get("mark")), kept[0].created)


class Candidate:
    """This gateway's lease. It is kept alive by `run`; where it was lost, another one takes its place."""

    def __init__(self, etcd: Etcd, key: str, name: str, lease_seconds: int) -> None:
        self.name = name
        self.seconds = lease_seconds
        self.mark = uuid.uuid4().hex
        self.lease: str | None = None
        self._lasts = 0.0  # by the loop's clock: until then the lease hasn't ended
        self._etcd = etcd
        self._key = key
        self._lost = asyncio.Event()  # another lease is wanted at once

    async def run(self) -> None:
        """Keeps the lease, for ever."""
        while True:
            self._lost.clear()
            limit = self.seconds / BEATS if await self.beat() else AGAIN
            with contextlib.suppress(asyncio.TimeoutError):
                await asyncio.wait_for(self._lost.wait(), limit)

    async def beat(self) -> bool:
        """Asks for a lease where there is none, else for its whole time anew. Says whether it was given."""
        begin = asyncio.get_running_loop().time()
        try:
            if self.lease is None:
                answer = await self._etcd.post(GRANT, {"TTL": str(self.seconds)})
                self.lease, self._lasts = str(answer["ID"]), begin + self.seconds
                return True
            answer = await self._etcd.post(KEEP, {"ID": self.lease})
            if int(answer.get("result", {}).get("TTL", "0")) <= 0:
                self.lease = None
            else:
                self._lasts = begin + self.seconds
        except EtcdRefused:
            self.lease = None
        except NoEtcd:
            return False  # it may still be kept in time
        return self.lease is not None

    def surely_has(self, lease: str | None) -> bool:
        """Whether this is its lease, and can't have ended, however late this is asked: etcd has counted its time from later on."""
        now = asyncio.get_running_loop().time()
        return lease is not None and lease == self.lease and now < self._lasts

    async def stand(self) -> None:
        """Leads from now on where nobody does. Whether it does is seen by the key."""
        if self.lease is None:
            return
        value = {"name": self.name, "mark": self.mark}
        words = transaction([absent(self._key)], [put(self._key, value, self.lease)])
        try:
            await self._etcd.post(TXN, words)
        except EtcdRefused:
            self.lease = None
            self._lost.set()
        except NoEtcd:
            pass

    async def resign(self) -> None:
        """Gives the lease back, so that another one may lead at once."""
        if self.lease is None:
            return
        try:
            await self._etcd.post(REVOKE, {"ID": self.lease})
        except (NoEtcd, EtcdRefused):
            pass
        self.lease = None
