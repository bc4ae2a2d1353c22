"""A record played: quickly, in bounded memory, with answers of any length; and what it has that isn't a command."""

from __future__ import annotations

import asyncio
import tracemalloc
from collections.abc import Iterator
from pathlib import Path

import pytest
from around import plant_copy

from alarmd_gateway import plant as plants
from alarmd_gateway.model import GatewayFault, Order, Plant, ServerGone, Verb
from alarmd_gateway.player import Book, Taken, play
from alarmd_gateway.record import Entry
from alarmd_gateway.server import Server

QUICK = Path(__file__).with_name("quick_alarmd.py")


@pytest.fixture
def plant(tmp_path: Path) -> Plant:
    return plants.read(plant_copy("tank", tmp_path))


def played(alarmd: Path, plant: Plant, entries: Iterator[Entry]) -> tuple[Book, Taken | None]:
    async def work() -> tuple[Book, Taken | None]:
        server = await Server.start(alarmd, plant.path, 60_000)
        try:
            return await play(server, plant, entries)
        finally:
            await server.kill()

    return asyncio.run(asyncio.wait_for(work(), 1500))


def many(count: int) -> Iterator[Entry]:
    for number in range(count):
        if number % 10 == 9:
            yield Entry("ack 1 LAL-101", "anna", "why")
        else:
            yield Entry(f"scan {number} level={number % 3}")


def test_many_commands_in_bounded_memory(plant: Plant) -> None:
    played(QUICK, plant, many(10))
    tracemalloc.start()
    book, last = played(QUICK, plant, many(20_000))
    _, peak = tracemalloc.get_traced_memory()
    tracemalloc.stop()
    assert peak < 8_000_000
    assert (book.state.events, len(book.journal)) == (19_999, 1_999)
    assert last is not None
    assert (last.answer, last.user) == (["REPLY O3"], "anna")


def test_few_commands_are_on_their_way_where_no_answer_comes(
    plant: Plant, monkeypatch: pytest.MonkeyPatch
) -> None:
    async def work() -> int:
        server = await Server.start(QUICK, plant.path, 60_000)
        given = 0

        def entries() -> Iterator[Entry]:
            nonlocal given
            for entry in many(100_000):
                given += 1
                yield entry

        async def nothing(_: str) -> None:
            """The server never sees what is written."""

        monkeypatch.setattr(server, "_write", nothing)
        playing = asyncio.create_task(play(server, plant, entries()))
        for _ in range(200):
            await asyncio.sleep(0.001)
        playing.cancel()
        await asyncio.gather(playing, return_exceptions=True)
        await server.kill()
        return given

    assert 1000 < asyncio.run(asyncio.wait_for(work(), 400)) < 6000


@pytest.mark.long
def test_a_million_commands(plant: Plant) -> None:
    book, _ = played(QUICK, plant, many(1_000_000))
    assert book.state.events == 999_999


def test_answers_that_are_longer_than_a_pipe_holds(plant: Plant) -> None:
    entries = (Entry(f"scan {number} level=5000") for number in range(40))
    book, last = played(QUICK, plant, entries)
    assert last is not None
    assert len(last.answer) == 5001
    assert book.state.outputs["ratio"] == 4999


def test_an_empty_record(plant: Plant) -> None:
    book, last = played(QUICK, plant, iter(()))
    assert (book.state.events, last) == (0, None)


@pytest.mark.server
def test_lines_that_are_no_commands_have_no_effect(alarmd: Path, plant: Plant) -> None:
    lines = ["scan 5 level=100 running=1", "scan 5 levl=5", "scan 1", "foo", "ack 1", "list"]
    lines += ["scan 4000000000002", "ack 1 LAL-101", "journal", "scan 9 level=2147483648"]
    book, last = played(alarmd, plant, map(Entry, lines))
    assert last is not None
    assert book.state.events == 1
    assert last.command == Order(Verb.ACK, 1, "LAL-101")
    assert last.answer == ["REPLY OK", "ALARM 5 LAL-101 UNACK ACKED"]


@pytest.mark.server
def test_a_command_that_only_the_server_knows_is_a_fault(alarmd: Path, plant: Plant) -> None:
    # the gateway cuts words at blanks as the server does; a line that it took otherwise would be missed in the state
    with pytest.raises(GatewayFault, match="doesn't know"):
        played(QUICK, plant, iter([Entry("scan 5 level=1"), Entry("nonsense 1 2")]))


@pytest.mark.server
def test_a_server_that_ends_while_a_record_is_played(alarmd: Path, plant: Plant) -> None:
    async def work() -> None:
        server = await Server.start(alarmd, plant.path, 60_000)

        def entries() -> Iterator[Entry]:
            for number in range(30_000):
                if number == 20_000:
                    server._process.kill()
                yield Entry(f"scan {number}")

        with pytest.raises(ServerGone, match="SIGKILL"):
            await play(server, plant, entries())
        await server.kill()

    asyncio.run(asyncio.wait_for(work(), 400))
