"""The texts of reloads in a shared log. etcd takes no request of many megabytes, so they are cut into parts, each with a key of its own, which are
written before the entry that tells how many there are."""

from __future__ import annotations

import asyncio
import base64
import zlib
from collections.abc import Sequence

from . import etcd
from .etcd import Body, NoEtcd
from .model import GatewayFault
from .transactions import AGAIN, PATIENCE, Deposed, Transactions

PART = 65_536  # bytes of a part
AT_ONCE = 8  # parts that are read at once


def parts_of(body: bytes) -> list[str]:
    """A body, packed and cut, as keys have it."""
    packed = zlib.compress(body)
    cuts = range(0, len(packed), PART)
    return [base64.b64encode(packed[at : at + PART]).decode() for at in cuts]


async def write(
    asks: Transactions,
    prefix: str,
    body: bytes,
    holds: Sequence[Body] = (),
    lease: str | None = None,
) -> int:
    """Writes a body below a prefix, while something holds, and says in how many parts. Raises Deposed where it doesn't hold, NoEtcd,
    EtcdRefused."""
    parts = await asyncio.to_thread(parts_of, body)
    for number, part in enumerate(parts, 1):
        put = etcd.put(key_of(prefix, number), {"part": part}, lease)
        if not etcd.held(await _persist(asks, holds, put)):
            raise Deposed("", True)
    return len(parts)


async def _persist(asks: Transactions, holds: Sequence[Body], put: Body) -> Body:
    """Writes a part, which may be done twice, until that is answered. Raises NoEtcd where it isn't for too long."""
    loop = asyncio.get_running_loop()
    end = loop.time() + PATIENCE
    while True:
        try:
            return await asks.ask(holds, [put])
        except NoEtcd:
            if loop.time() > end:
                raise
        await asyncio.sleep(AGAIN)


async def read(asks: Transactions, prefix: str, count: int) -> bytes:
    """A body of so many parts. Raises NoEtcd, and GatewayFault (status 2) where a part is gone."""
    packed = b""
    for first in range(1, count + 1, AT_ONCE):
        numbers = range(first, min(first + AT_ONCE, count + 1))
        answer = await asks.ask([], [etcd.get(key_of(prefix, number)) for number in numbers])
        for at, _ in enumerate(numbers):
            found = etcd.found(answer, at)
            if not found:
                raise GatewayFault(f"the log lacks a part of a reload's texts, below {prefix}", 2)
            packed += base64.b64decode(found[0].value["part"])
    return await asyncio.to_thread(zlib.decompress, packed)


def key_of(prefix: str, number: int) -> str:
    """The key of a part, counted from 1."""
    return f"{prefix}{number:06}"
