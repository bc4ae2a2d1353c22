"""The live connection of a page: a snapshot, then each change, and a beat each second, over a WebSocket.

Messages to the page are JSON, by their `type`:

- `snapshot`: `snapshot`, as /api/state has it, without alarms that are NORM
- `changes`: `changes`, a list, each with `number`, `kind`, `time` and, by the kind, its fields in `data`; `upto` is the last number. Numbers
  rise by one, but those of changes that the user doesn't see are left out
- `beat`: `time`, the civil time of the gateway

What a page sends is read and thrown away, and a frame of more than LARGEST_FRAME bytes ends the connection."""

from __future__ import annotations

import asyncio
import json
import logging
from contextlib import suppress
from datetime import datetime, timezone

from aiohttp import WSCloseCode, WSMsgType, web

from .core import Change, ChangeKind, Core, CutOff, Subscription
from .guard import Guard
from .model import Json, civil
from .sessions import Session
from .shown import Shown
from .view import Texts, View

LARGEST_FRAME = 4096  # bytes
EXPECTED = (ConnectionError, asyncio.TimeoutError)  # a page that has gone, or doesn't read
BEAT = 0.8  # seconds
MOST_AT_ONCE = 500  # changes in a message
ROOM = 60_000  # changes that may wait for a page: three of each alarm of the largest plant
SLOWEST = 15.0  # seconds in which a message has to leave
PING = 20.0  # seconds between two pings of the WebSocket's own
log = logging.getLogger(__name__)


class Live:
    """All live connections."""

    def __init__(self, core: Core, guard: Guard) -> None:
        self._core = core
        self._guard = guard
        self._open: set[web.WebSocketResponse] = set()
        self._texts = Texts()
        self._shown = Shown(core)

    def __len__(self) -> int:
        return len(self._open)

    async def handle(self, request: web.Request) -> web.WebSocketResponse:
        """Serves a page until it, its session or the gateway ends."""
        session = self._guard.session(request)
        socket = web.WebSocketResponse(
            max_msg_size=LARGEST_FRAME + 1, heartbeat=PING, compress=False
        )
        await socket.prepare(request)
        self._open.add(socket)
        reader = asyncio.create_task(drain(socket))
        writer = asyncio.create_task(self._write(socket, session))
        try:
            await asyncio.wait({reader, writer}, return_when=asyncio.FIRST_COMPLETED)
        finally:
            for task in (reader, writer):
                task.cancel()
            for ended in await asyncio.gather(reader, writer, return_exceptions=True):
                if isinstance(ended, Exception) and not isinstance(ended, EXPECTED):
                    log.error("a live connection has failed", exc_info=ended)
            self._open.discard(socket)
            with suppress(ConnectionError, asyncio.TimeoutError):
                await asyncio.wait_for(socket.close(), 2)
        return socket

    async def close(self) -> None:
        """Ends all connections."""
        goodbyes = (
            asyncio.wait_for(socket.close(code=WSCloseCode.GOING_AWAY), 2)
            for socket in tuple(self._open)
        )
        await asyncio.gather(*goodbyes, return_exceptions=True)

    async def _write(self, socket: web.WebSocketResponse, session: Session) -> None:
        """Sends snapshots and what changes after them, until the core closes, the session ends, or another plant is served: it may be
        that the page was cut off, or began anew, before it heard of that one."""
        plant = self._core.plant
        while self._guard.sessions.lasts(session) and self._core.plant is plant:
            subscription = self._core.subscribe(ROOM)
            try:
                if not await self._follow(socket, session, subscription):
                    return
            finally:
                subscription.close()

    async def _follow(
        self, socket: web.WebSocketResponse, session: Session, subscription: Subscription
    ) -> bool:
        """One snapshot and the changes after it; says whether another snapshot is wanted. After a reload none is: the connection ends."""
        view = View(self._core.plant, session.consoles)
        number, whole = self._shown.snapshot(view, normal=False)
        await say_text(socket, f'{{"type":"snapshot","snapshot":{whole}}}')
        feed = Feed(subscription, number)
        try:
            while self._guard.sessions.lasts(session):
                changes = await feed.next(BEAT)
                if changes is None:
                    return False
                if any(change.kind is ChangeKind.RELOADED for change in changes):
                    return False  # the page connects again, and asks for the plant anew
                if any(change.kind is ChangeKind.ANEW for change in changes):
                    return True
                if changes:
                    await say_text(socket, message(changes, view, self._texts))
                if feed.beat_is_due():
                    await say(socket, {"type": "beat", "time": now()})
        except CutOff:
            return True
        finally:
            await feed.close()
        return False


class Feed:
    """Takes changes from a subscription as they come, many at once where many are there, and says when a beat is due."""

    def __init__(self, subscription: Subscription, number: int) -> None:
        self._subscription = subscription
        self._number = number
        self._waiting: asyncio.Task[Change] | None = None
        self._beat = 0.0

    async def next(self, patience: float) -> list[Change] | None:
        """The changes that are there, none after so many seconds, None at the core's end. Raises CutOff."""
        if self._waiting is None:
            self._waiting = asyncio.ensure_future(anext(self._subscription))
        done, _ = await asyncio.wait({self._waiting}, timeout=patience)
        if not done:
            return []
        task, self._waiting = self._waiting, None
        try:
            first = task.result()
        except StopAsyncIteration:
            return None
        found = [first, *self._subscription.more(MOST_AT_ONCE - 1)]
        return [change for change in found if change.number > self._number]

    def beat_is_due(self) -> bool:
        """Whether the last beat is so long ago that another one is due; it counts as sent then."""
        time = asyncio.get_running_loop().time()
        if time < self._beat + BEAT:
            return False
        self._beat = time
        return True

    async def close(self) -> None:
        """Takes nothing any more."""
        if self._waiting is not None:
            self._waiting.cancel()
            await asyncio.gather(self._waiting, return_exceptions=True)


def message(changes: list[Change], view: View, texts: Texts) -> str:
    """The changes that a view shows, as the page takes them."""
    shown = ",".join(texts.of(change) for change in changes if view.shows(change))
    return f'{{"type":"changes","upto":{changes[-1].number},"changes":[{shown}]}}'


def now() -> str:
    """The civil time."""
    return civil(datetime.now(timezone.utc))


async def say(socket: web.WebSocketResponse, data: dict[str, Json]) -> None:
    """Sends an object. Raises ConnectionError or TimeoutError where the page doesn't take it."""
    await say_text(socket, json.dumps(data, separators=(",", ":")))


async def say_text(socket: web.WebSocketResponse, text: str) -> None:
    """Sends a text; a page that doesn't read for too long is given up."""
    await asyncio.wait_for(socket.send_str(text), SLOWEST)


async def drain(socket: web.WebSocketResponse) -> None:
    """Reads what a page sends, until it closes; aiohttp answers its pings."""
    async for received in socket:
        if received.type is WSMsgType.ERROR:
            return
