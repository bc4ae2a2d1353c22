"""How a gateway joins a shared log: a server, the log opened, and what is in it played."""

from __future__ import annotations

import asyncio
from collections.abc import Awaitable, Callable
from pathlib import Path

from . import kept
from . import plant as plants
from .config import Config
from .etcd import Etcd, EtcdRefused, NoEtcd
from .etcd_log import EtcdLog
from .identity import OtherPlant
from .link import Link, start_server
from .log_view import Keys
from .model import Plant
from .player import Book, play
from .server import Server
from .shared_config import SharedConfig
from .telling import tell


async def joined(config: Config, shared: SharedConfig, client: Etcd) -> tuple[Link, EtcdLog]:
    """The server of this gateway with all that is in the log. Raises GatewayFault as Link does."""
    try:
        server, plant, log = await _begun(config, shared, client, config.plant)
    except OtherPlant as other:  # it may be one that was taken up, or that was there before
        copy = kept.place(config.record, other.known)
        if not copy.exists():
            raise
        server, plant, log = await _begun(config, shared, client, copy)
    link = Link(config, plant, server, log)
    try:
        link.book = await replayed(server, plant, log)
        if shared.new_alarmd:  # it can play the log: those with the old one end
            await answered(log.go_on)
    except BaseException:
        await server.kill()
        log.close()
        raise
    link.compare()
    return link, log


async def replayed(server: Server, plant: Plant, log: EtcdLog) -> Book:
    """What comes of all that is in a log, played to a server. Raises GatewayFault."""
    book, held = await play(server, plant, log.replay())
    if held is not None:
        book.take(held)
    return book


async def played(config: Config, plant: Plant, log: EtcdLog) -> tuple[Server, Book]:
    """A new server of the plant with which a log's record begins, and what comes of the record. Raises GatewayFault."""
    server = await start_server(config, plant.path)
    try:
        return server, await replayed(server, plant, log)
    except BaseException:
        await server.kill()
        raise


async def _begun(
    config: Config, shared: SharedConfig, client: Etcd, first: Path
) -> tuple[Server, Plant, EtcdLog]:
    """A server of the plant with which the log's record begins, if it is this one, and the log opened. Raises OtherPlant where it
    isn't."""
    server = await start_server(config, first)
    try:
        plant = plants.read(first)
        log = EtcdLog(client, Keys(shared.log), config.record, plant, config.alarmd)
        await answered(lambda: log.open(shared.new_alarmd))
    except BaseException:
        await server.kill()
        raise
    return server, plant, log


async def answered(ask: Callable[[], Awaitable[None]]) -> None:
    """Asks the log for something; while etcd gives no answer it is tried again. Raises GatewayFault."""
    told = ""
    while True:
        try:
            await ask()
            return
        except (NoEtcd, EtcdRefused) as fault:
            if told != str(fault):
                tell(f"etcd gives no answer: it is waited for ({fault})")
            told = str(fault)
            await asyncio.sleep(0.5)
