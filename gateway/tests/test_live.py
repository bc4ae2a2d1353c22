"""The live connection: a snapshot, changes in order, beats; and that no page, however it behaves, holds up another."""

from __future__ import annotations

import asyncio
import json
import time
from collections.abc import AsyncIterator, Callable, Coroutine
from contextlib import AsyncExitStack, asynccontextmanager
from typing import Any

import aiohttp
import pytest
from fake_core import FakeCore, fake_plant
from http_help import Client, two_users
from served import Served, served

from alarmd_gateway import live, sessions, shown
from alarmd_gateway.core import Snapshot
from alarmd_gateway.model import Code
from alarmd_gateway.troubles import TroubleKind

PATIENCE = 180.0  # seconds


class Page:
    """What a page makes of its live connection."""

    def __init__(self, socket: aiohttp.ClientWebSocketResponse) -> None:
        self.socket = socket
        self.snapshot: dict[str, Any] = {}
        self.snapshots = 0
        self.number = 0
        self.codes: dict[str, str] = {}
        self.kinds: list[str] = []
        self.beats = 0

    async def read(self) -> bool:
        """Takes the next message; False at the end."""
        message = await asyncio.wait_for(self.socket.receive(), PATIENCE)
        if message.type is not aiohttp.WSMsgType.TEXT:
            return False
        data = json.loads(message.data)
        if data["type"] == "snapshot":
            self.snapshot = data["snapshot"]
            self.snapshots += 1
            self.number = self.snapshot["number"]
            self.codes = {one["tag"]: one["code"] for one in self.snapshot["alarms"]}
        elif data["type"] == "changes":
            for change in data["changes"]:
                assert change["number"] > self.number
                self.number = change["number"]
                self.kinds.append(change["kind"])
                if change["kind"] == "alarm":
                    self.codes[change["data"]["tag"]] = change["data"]["code"]
            assert data["upto"] >= self.number
            self.number = data["upto"]
        else:
            self.beats += 1
        return True

    async def until(self, holds: Callable[[], bool]) -> None:
        """Reads until something holds."""
        while not holds():
            assert await self.read(), "the connection has ended"


@asynccontextmanager
async def opened(client: Client, **more: Any) -> AsyncIterator[Page]:
    headers = {"Cookie": client.cookie, "Origin": f"http://{client.host}"}
    async with aiohttp.ClientSession() as session:
        url = f"http://{client.host}/api/live"
        async with session.ws_connect(url, headers=headers, max_msg_size=0, **more) as socket:
            yield Page(socket)


def entered(site: Served, name: str | None = None) -> Client:
    client = Client(site.url)
    assert (client.login(name) if name else client.enter()).status == 200
    return client


def play(work: Coroutine[Any, Any, None]) -> None:
    asyncio.run(asyncio.wait_for(work, 5 * PATIENCE))


def test_a_snapshot_then_changes_in_order_and_beats() -> None:
    with served() as site:
        core, client = site.core, entered(site)
        site.do(lambda: core.scan(1000, {"A0": Code.UNACK}))

        async def work() -> None:
            async with opened(client) as page:
                await page.until(lambda: page.snapshots == 1)
                assert page.codes == {"A0": "UNACK"}  # those that are NORM aren't told
                site.do(lambda: core.scan(2000, {"A1": Code.UNACK}, pump=True))
                await page.until(lambda: page.kinds[-1:] == ["scan"])
                assert page.kinds == ["alarm", "output", "rows", "scan"]
                site.do(lambda: core.troubles.raises(TroubleKind.SILENCE, "", "silent"))
                site.do(lambda: core.stops("dose"))
                await page.until(lambda: page.kinds[-2:] == ["trouble", "stopped"])
                await page.until(lambda: page.beats >= 3)
                site.do(core.anew)
                await page.until(lambda: page.snapshots == 2)
                assert page.codes == {}

        play(work())


def test_pages_that_begin_anew_share_a_snapshot(monkeypatch: pytest.MonkeyPatch) -> None:
    """Else those of a large plant would have no beat meanwhile, and begin again."""
    monkeypatch.setattr(shown, "FRESH", 1000.0)
    with served() as site:
        core, client, taken = site.core, entered(site), [0]
        site.do(lambda: core.scan(1000, {"A0": Code.UNACK}))
        whole = core.snapshot

        def counted(normal: bool = True) -> Snapshot:
            taken[0] += 1
            return whole(normal)

        monkeypatch.setattr(core, "snapshot", counted)

        async def work() -> None:
            async with AsyncExitStack() as stack:
                pages = [await stack.enter_async_context(opened(client)) for _ in range(5)]
                for page in pages:
                    await page.until(lambda page=page: page.snapshots == 1)  # type: ignore[misc]
                site.do(core.anew)
                for page in pages:
                    await page.until(lambda page=page: page.snapshots == 2)  # type: ignore[misc]
                    assert page.codes == {}

        play(work())
        assert taken == [2]


def test_a_page_asks_for_a_plant_that_was_taken_up() -> None:
    """The connection ends, since a page asks for the plant whenever it connects again."""
    with served() as site:
        core, client = site.core, entered(site)
        site.do(lambda: core.scan(1000, {"A0": Code.UNACK}))

        async def work() -> None:
            async with opened(client) as page:
                await page.until(lambda: page.snapshots == 1)
                site.do(lambda: core.reload(fake_plant(3, "Another tank")))
                while await page.read():
                    assert page.kinds == []
            table = client.ask("/api/plant").json
            assert (table["name"], len(table["alarms"])) == ("Another tank", 3)
            async with opened(client) as page:
                await page.until(lambda: page.snapshots == 1)
                assert page.codes == {}
                rows = client.ask("/api/journal").json["rows"]
                assert [row["kind"] for row in rows] == ["alarm", "reload"]
                assert (rows[1]["kept"], rows[1]["new"], rows[1]["user"]) == (0, 1, "anna")

        play(work())


@pytest.mark.parametrize("anew", [False, True])
def test_who_hears_nothing_of_another_plant_connects_anew_all_the_same(
    monkeypatch: pytest.MonkeyPatch, anew: bool
) -> None:
    """By a snapshot of that plant alone a page would never show an alarm that is new in it."""
    if not anew:
        monkeypatch.setattr(live, "ROOM", 5)
    with served() as site:
        core, client = site.core, entered(site)

        def much() -> None:
            if anew:
                core.anew()
            for number in range(live.MOST_AT_ONCE):
                core.scan(1000 + number)  # more than wait for the page, or go into its next message
            core.reload(fake_plant(12, "Another tank"))
            core.scan(5000, {"A11": Code.UNACK})

        async def work() -> None:
            async with opened(client) as page:
                await page.until(lambda: page.snapshots == 1)
                site.do(much)
                while await page.read():
                    assert "A11" not in page.codes

        play(work())


def test_a_user_hears_of_the_users_own_areas_alone() -> None:
    with served(users=two_users()) as site:
        client = entered(site, "bert")

        async def work() -> None:
            async with opened(client) as page:
                await page.until(lambda: page.snapshots == 1)
                codes = {f"A{number}": Code.UNACK for number in range(8)}
                site.do(lambda: site.core.scan(1000, codes))
                await page.until(lambda: page.kinds[-1:] == ["scan"])
                assert page.codes == {"A0": "UNACK", "A4": "UNACK"}

        play(work())


def test_ten_thousand_changes_come_whole_and_in_order() -> None:
    with served(FakeCore(fake_plant(100))) as site:
        client = entered(site)

        async def work() -> None:
            async with opened(client) as page:
                await page.until(lambda: page.snapshots == 1)
                codes = [Code.UNACK, Code.RTNUN]
                for scan in range(1, 101):
                    given = {f"A{number}": codes[scan % 2] for number in range(100)}
                    site.do(lambda scan=scan, given=given: site.core.scan(scan * 1000, given))  # type: ignore[misc]
                last = site.do(lambda: site.core.board.number)
                await page.until(lambda: page.number == last)
                assert set(page.codes.values()) == {"UNACK"} and len(page.codes) == 100

        play(work())


def test_who_doesnt_read_is_given_up_and_nobody_waits(monkeypatch: pytest.MonkeyPatch) -> None:
    monkeypatch.setattr(live, "SLOWEST", 20.0)  # on a busy machine who reads is slow too
    with served(FakeCore(fake_plant(1000))) as site:
        client = entered(site)

        def scan(number: int) -> None:
            code = Code.UNACK if number % 2 else Code.RTNUN
            site.core.scan(number * 1000, {f"A{tag}": code for tag in range(1000)})

        async def work() -> None:
            async with opened(client) as deaf, opened(client) as page:
                await page.until(lambda: page.snapshots == 1)
                await deaf.until(lambda: deaf.snapshots == 1)
                number = 0
                while site.do(lambda: len(site.web.live)) == 2:  # until the deaf one is given up
                    assert number < 50_000
                    begun = time.monotonic()
                    for _ in range(3):  # so few that the page is read in time, however busy
                        number += 1
                        site.do(lambda: scan(number))
                    assert time.monotonic() - begun < PATIENCE
                    before = page.beats
                    await page.until(lambda: page.beats > before)
                last = site.do(lambda: site.core.board.number)
                await page.until(lambda: page.number == last)

        play(work())


@pytest.mark.parametrize("size", [live.LARGEST_FRAME + 1, 10_000_000])
def test_a_huge_frame_ends_its_connection_and_nothing_else(size: int) -> None:
    with served() as site:
        client = entered(site)

        async def work() -> None:
            async with opened(client) as page, opened(client) as other:
                await page.until(lambda: page.snapshots == 1)
                await page.socket.send_str("hello")  # thrown away
                await page.socket.send_str("x" * live.LARGEST_FRAME)
                await page.until(lambda: page.beats >= 2)
                try:
                    await page.socket.send_str("x" * size)
                    while await page.read():
                        pass
                except (ConnectionError, aiohttp.ClientError):
                    pass
                before = other.beats
                await other.until(lambda: other.beats >= before + 2)

        play(work())
        assert site.core.orders == []


def test_the_connection_ends_with_its_session() -> None:
    with served(users=two_users()) as site:
        client = entered(site, "anna")

        async def work() -> None:
            async with opened(client) as page:
                await page.until(lambda: page.beats >= 1)
                await asyncio.to_thread(client.post, "/api/logout", {})
                while await page.read():
                    pass
            with pytest.raises(aiohttp.WSServerHandshakeError) as refused:
                async with opened(client):
                    pass
            assert refused.value.status == 401

        play(work())


def test_a_session_that_is_too_old(monkeypatch: pytest.MonkeyPatch) -> None:
    monkeypatch.setattr(sessions, "LIFE", 2.0)
    with served(users=two_users()) as site:
        site.web.guard.sessions._life = 2.0
        client = entered(site, "anna")

        async def work() -> None:
            async with opened(client) as page:
                while await page.read():
                    pass
                assert page.beats >= 1

        play(work())
        assert client.ask("/api/state").status == 401


def test_a_thousand_live_connections_are_as_many_as_may(monkeypatch: pytest.MonkeyPatch) -> None:
    monkeypatch.setattr(live, "PING", 3600.0)  # nobody answers pings here, and slots would be free
    with served(connections=60) as site:
        client = entered(site)

        async def attempt() -> Page | None:
            headers = {"Cookie": client.cookie}
            session = aiohttp.ClientSession()
            held.append(session)
            try:
                return Page(await session.ws_connect(f"{site.url}api/live", headers=headers))
            except (aiohttp.ClientError, ConnectionError):
                return None

        held: list[aiohttp.ClientSession] = []

        async def work() -> None:
            async with opened(client) as page:
                await page.until(lambda: page.beats >= 1)
                pages = []
                for _ in range(20):
                    pages += await asyncio.gather(*(attempt() for _ in range(50)))
                assert 20 <= sum(one is not None for one in pages) <= 30
                site.do(lambda: site.core.scan(1000, {"A1": Code.UNACK}))
                await page.until(lambda: page.codes.get("A1") == "UNACK")
                await asyncio.gather(*(session.close() for session in held))

        play(work())


def test_the_gateways_end_is_told() -> None:
    pages: list[Page] = []
    with served() as site:
        client = entered(site)
        loop = asyncio.new_event_loop()

        async def begin() -> Any:
            context = opened(client)
            pages.append(await context.__aenter__())
            await pages[0].until(lambda: pages[0].beats >= 1)
            return context

        context = loop.run_until_complete(begin())

    async def end() -> None:
        while await pages[0].read():
            pass
        assert pages[0].socket.close_code == aiohttp.WSCloseCode.GOING_AWAY
        await context.__aexit__(None, None, None)

    loop.run_until_complete(end())
    loop.close()
