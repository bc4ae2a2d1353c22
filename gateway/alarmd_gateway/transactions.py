"""Transactions of a shared log, tried until they are answered, and what is known of etcd by their answers."""

from __future__ import annotations

import asyncio
from collections.abc import Sequence

from .etcd import TXN, Body, Etcd, NoEtcd, NotNow, get, transaction
from .model import GatewayFault

AGAIN = 0.1  # seconds between two tries
PATIENCE = 5.0  # seconds for which an append is tried


class Deposed(GatewayFault):
    """The entry of this mark wasn't appended, as another gateway leads or the log has gone on. Where it isn't `sure`, it may be in
    the log: that is found by following it."""

    def __init__(self, mark: str, sure: bool) -> None:
        super().__init__("this gateway leads no more", 1)
        self.mark = mark
        self.sure = sure


class NoCopy(GatewayFault):
    """The copy of the log can't be written."""


class Transactions:
    """Asks etcd."""

    def __init__(self, etcd: Etcd) -> None:
        self.etcd = etcd
        self.heard = 0.0  # when a transaction was answered last, by the loop's clock
        # what etcd says to all that is asked of it; empty where it answers, or says nothing
        self.refusal = ""
        self.fault = ""  # why the last one that had to hold at most once got no answer; empty where it got one

    async def ask(
        self, compare: Sequence[Body], success: Sequence[Body], failure: Sequence[Body] = ()
    ) -> Body:
        """A transaction that may be carried out twice. Raises NoEtcd, EtcdRefused."""
        try:
            answer = await self.etcd.post(TXN, transaction(compare, success, failure))
        except NoEtcd as fault:
            self.refusal = str(fault) if isinstance(fault, NotNow) else self.refusal
            raise
        self.refusal = ""
        self.heard = asyncio.get_running_loop().time()
        return answer

    async def persist(
        self, mark: str, compare: Sequence[Body], success: Sequence[Body], key: str
    ) -> Body:
        """A transaction that at most once holds, tried until it is answered. Where it doesn't hold, `key` is read. Raises Deposed
        where no answer came."""
        loop = asyncio.get_running_loop()
        end = loop.time() + PATIENCE
        while True:
            try:
                answer = await self.ask(compare, success, [get(key)])
                self.fault = ""
                return answer
            except NoEtcd as fault:
                self.fault = str(fault)
                if loop.time() > end:
                    raise Deposed(mark, False) from None
            await asyncio.sleep(AGAIN)
