"""The nodes of etcd over HTTP."""

from __future__ import annotations

import asyncio
import json
import ssl
from collections.abc import Sequence

import aiohttp

from .etcd import Body, EtcdRefused, NoEtcd, NotNow

REFUSALS = (3, 7, 8, 16)  # by gRPC: an argument is wrong, not permitted, no room, nobody is known
BESIDE = 4  # a node that is silent for this part of its time isn't waited for alone


class NotSent(NoEtcd):
    """The node wasn't reached: it surely hasn't done what was asked."""


class HttpEtcd:
    """The nodes of a cluster. The one that has answered without fail for longest is asked; where it is silent the next one is
    asked beside it."""

    def __init__(
        self, endpoints: Sequence[str], seconds: float, tls: ssl.SSLContext | None = None
    ) -> None:
        """`endpoints` as `http://127.0.0.1:2379`, or with `https` and `tls`; a node may take so many seconds for an answer."""
        self._endpoints = [endpoint.rstrip("/") for endpoint in endpoints]
        self._failed = [0 for _ in endpoints]  # the number of its last failure, of each node
        self._failures = 0
        self._alone = seconds / BESIDE
        self._limit = aiohttp.ClientTimeout(total=seconds)
        self._limit_once = aiohttp.ClientTimeout(total=seconds, connect=seconds / 2)
        self._tls = tls
        self._session: aiohttp.ClientSession | None = None

    async def post(self, path: str, body: Body, once: bool = False) -> Body:
        """See Etcd."""
        numbers = sorted(range(len(self._endpoints)), key=self._failed.__getitem__)
        return await (self._in_turn if once else self._beside)(numbers, path, body)

    async def _in_turn(self, numbers: Sequence[int], path: str, body: Body) -> Body:
        """Asks the next node where one surely wasn't reached."""
        fault = NotSent("no node of etcd")
        for number in numbers:
            try:
                return await self._ask(number, path, body, self._limit_once)
            except NotSent as unreached:
                fault = unreached
        raise fault

    async def _beside(self, numbers: Sequence[int], path: str, body: Body) -> Body:
        """Asks the next node too where those that are asked don't answer, or not yet. The first answer counts."""
        left = list(numbers)
        fault: NoEtcd = NotSent("no node of etcd")
        asked: set[asyncio.Task[Body]] = set()
        try:
            while left or asked:
                if left:
                    number = left.pop(0)
                    work = self._ask(number, path, body, self._limit)
                    asked.add(asyncio.create_task(work))
                limit = self._alone if left else None
                done, asked = await asyncio.wait(
                    asked, timeout=limit, return_when=asyncio.FIRST_COMPLETED
                )
                if not done:
                    self._note(number)
                faults = {one: one.exception() for one in done}
                for one, bad in faults.items():
                    if not isinstance(bad, NoEtcd):
                        return one.result()
                    if not isinstance(bad, NotSent) or isinstance(fault, NotSent):
                        fault = bad  # what one says tells more than that another one is gone
            raise fault
        finally:
            for one in asked:
                one.cancel()
            await asyncio.gather(*asked, return_exceptions=True)

    def _note(self, number: int) -> None:
        """A node has failed, or is silent: the others are asked before it from now on."""
        self._failures += 1
        self._failed[number] = self._failures

    async def _ask(self, number: int, path: str, body: Body, limit: aiohttp.ClientTimeout) -> Body:
        """Asks one node."""
        try:
            return await self._answer(self._endpoints[number] + path, json.dumps(body), limit)
        except NoEtcd:
            self._note(number)
            raise

    async def _answer(self, url: str, data: str, limit: aiohttp.ClientTimeout) -> Body:
        if self._session is None:
            self._session = aiohttp.ClientSession()
        try:
            async with self._session.post(url, data=data, ssl=self._tls, timeout=limit) as response:
                found = json.loads(await response.text())
                status = response.status
        except (aiohttp.ClientConnectorError, aiohttp.ServerTimeoutError) as fault:
            raise NotSent(str(fault)) from None
        except (aiohttp.ClientError, asyncio.TimeoutError, OSError, ValueError) as fault:
            raise NoEtcd(str(fault) or f"{url} gives no answer") from None
        if not isinstance(found, dict):
            raise NoEtcd("the answer is no object")
        if status == 200:
            return found
        words = str(found.get("message") or found.get("error") or status)
        if "lease not found" in words:
            raise EtcdRefused(words)
        raise NotNow(words) if found.get("code") in REFUSALS else NoEtcd(words)

    async def close(self) -> None:
        """See Etcd."""
        if self._session is not None:
            await self._session.close()
