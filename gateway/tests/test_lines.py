"""Lines of a FIFO: samples, orders, mistakes, the loss of the FIFO and its return."""

from __future__ import annotations

import asyncio
import os
from collections.abc import Callable
from pathlib import Path

import pytest

from alarmd_gateway import plant as plants
from alarmd_gateway.fields import lines
from alarmd_gateway.fields.lines import LineSource
from alarmd_gateway.fields.source import Backoff, Intake, Lost, Source
from alarmd_gateway.mapping import LinesSource, Retry
from alarmd_gateway.model import Value
from alarmd_gateway.samples import Ages
from field_help import Kept, Running, until

SOON = Retry(0.02, 0.1)


class Page:
    """Keeps what would be printed, and the orders."""

    def __init__(self) -> None:
        self.lines: list[str] = []
        self.orders: list[str] = []

    def put(self, line: str) -> None:
        self.lines.append(line)

    async def order(self, line: str) -> None:
        self.orders.append(line)


def write(path: Path, text: str) -> None:
    """As `echo .. > FIFO` does: opens it, writes, and closes it."""
    file = os.open(path, os.O_WRONLY | os.O_NONBLOCK)
    os.write(file, text.encode())
    os.close(file)


class Fifo:
    """A source on a FIFO of a tank."""

    def __init__(self, examples: Path, folder: Path, orders: bool = True, hold: bool = True):
        self.path = folder / "commands"
        self.kept = Kept(plants.read(examples / "tank" / "plant.toml"))
        self.page = Page()
        self.given = LinesSource("fifo", self.path, orders, hold, SOON)
        self.source = LineSource(self.given, self.kept.intake(), self.page)

    async def __aenter__(self) -> Fifo:
        self.running = Running(self.source, self.kept)
        return self

    async def __aexit__(self, *_: object) -> None:
        await self.running.close()


def test_samples_and_orders(examples: Path, tmp_path: Path) -> None:
    async def body() -> None:
        async with Fifo(examples, tmp_path) as it:
            os.mkfifo(it.path)
            await until(lambda: it.source.is_up)
            write(it.path, "level=250 RUNNING=true\n# a remark\n\n")
            write(it.path, "ack 1 LAL-101\r\nshelve 2 RAH-104 60000\nlevel=2")
            write(it.path, "60\n")  # a line may come in pieces
            await until(lambda: len(it.kept.samples) == 3)
            assert it.kept.samples == [("level", 250), ("running", True), ("level", 260)]
            assert it.page.orders == ["ack 1 LAL-101", "shelve 2 RAH-104 60000"]
            assert not it.page.lines and not it.kept.standing()

    asyncio.run(body())


def test_mistakes_are_answered(examples: Path, tmp_path: Path) -> None:
    mistaken = ["akc 1 LAL-101", "hepl", "ack LAL-101", "ack 1 LAL-101 now", "level = 5"]
    wrong = ["levl=5", "level=high", "pump=TRUE", "level=2147483648"]

    async def body() -> None:
        async with Fifo(examples, tmp_path) as it:
            os.mkfifo(it.path)
            await until(lambda: it.source.is_up)
            write(it.path, "\n".join([*mistaken, *wrong, "running=TRUE"]) + "\n")
            await until(lambda: it.kept.samples)
            assert it.kept.samples == [("running", True)] and not it.page.orders
            assert len(it.page.lines) == 9
            assert all(line.startswith("REFUSED L1") for line in it.page.lines[:5])
            assert "level takes a whole number" in it.page.lines[6]
            subjects = [subject for _, subject in it.kept.standing()]
            assert subjects == ["fifo ?", "fifo level"]  # "?" stands for all names that are none
            write(it.path, "level=5\n")
            await until(lambda: len(it.kept.samples) == 2)
            assert it.kept.standing() == [("source", "fifo ?")]

    asyncio.run(body())


def test_without_leave_no_order_is_taken(examples: Path, tmp_path: Path) -> None:
    async def body() -> None:
        async with Fifo(examples, tmp_path, orders=False) as it:
            os.mkfifo(it.path)
            await until(lambda: it.source.is_up)
            write(it.path, "ack 1 LAL-101\nlevel=1\n")
            await until(lambda: it.kept.samples)
            assert not it.page.orders
            assert it.page.lines == ["REFUSED L1: fifo takes samples alone (its key orders)"]

    asyncio.run(body())


def test_a_fifo_that_goes_and_comes_back(examples: Path, tmp_path: Path) -> None:
    async def body() -> None:
        async with Fifo(examples, tmp_path) as it:
            await until(it.kept.standing)  # it isn't there
            assert it.kept.standing() == [("source", "fifo")]
            assert "No such file" in it.kept.texts()
            os.mkfifo(it.path)
            await until(lambda: not it.kept.standing())
            write(it.path, "level=1\n")
            await until(lambda: it.kept.samples)
            it.path.unlink()
            await until(it.kept.standing)
            os.mkfifo(it.path)
            await until(lambda: not it.kept.standing())
            write(it.path, "level=2\n")
            await until(lambda: len(it.kept.samples) == 2)
            it.path.unlink()
            it.path.write_text("level=3\n")  # a file, and no FIFO
            await until(it.kept.standing)
            await until(lambda: "is no FIFO" in it.kept.texts())

    asyncio.run(body())


def test_where_it_is_not_held_the_last_writer_is_the_source(examples: Path, tmp_path: Path) -> None:
    async def body() -> None:
        async with Fifo(examples, tmp_path, hold=False) as it:
            os.mkfifo(it.path)
            await until(it.kept.standing)
            await until(lambda: "nobody writes" in it.kept.texts())
            loop = asyncio.get_running_loop()
            for number in (1, 2):
                file = await loop.run_in_executor(None, os.open, it.path, os.O_WRONLY)
                await until(lambda: not it.kept.standing())
                os.write(file, f"level={number}\nflow={number}".encode())
                os.close(file)
                await until(it.kept.standing)
                # what stands before the end of input counts, with its line's end or without
                assert it.kept.samples[-2:] == [("level", number), ("flow", number)]

    asyncio.run(body())


def test_who_writes_while_a_last_order_is_taken_is_heard(examples: Path, tmp_path: Path) -> None:
    async def body() -> None:
        it = Fifo(examples, tmp_path, hold=False)

        async def slow(line: str) -> None:
            it.page.orders.append(line)
            write(it.path, "level=7\n")

        setattr(it.page, "order", slow)
        os.mkfifo(it.path)
        async with it:
            await until(it.kept.standing)
            loop = asyncio.get_running_loop()
            file = await loop.run_in_executor(None, os.open, it.path, os.O_WRONLY)
            os.write(file, b"ack 1 LAL-101")
            os.close(file)
            await until(lambda: it.page.orders)
            await until(it.kept.standing)
            assert it.kept.samples == [("level", 7)]

    asyncio.run(body())


class Slow(Page):
    """Answers an order only once it may."""

    def __init__(self) -> None:
        super().__init__()
        self.begun, self.gate = asyncio.Event(), asyncio.Event()

    async def order(self, line: str) -> None:
        self.begun.set()
        await self.gate.wait()
        self.orders.append(line)


async def ends(it: Fifo, page: Slow) -> None:
    """The source is closed while an order is taken, and a sample waits behind it."""
    it.page = page
    os.mkfifo(it.path)
    it.source = LineSource(it.given, it.kept.intake(), page)
    async with it:
        await until(lambda: it.source.is_up)
        write(it.path, "ack 1 LAL-101\nlevel=7\n")
        await page.begun.wait()
        asyncio.get_running_loop().call_later(0.2, page.gate.set)


def test_lines_that_were_read_are_taken_before_the_end(examples: Path, tmp_path: Path) -> None:
    async def body() -> None:
        it = Fifo(examples, tmp_path)
        await ends(it, Slow())
        assert it.page.orders == ["ack 1 LAL-101"] and it.kept.samples == [("level", 7)]

    asyncio.run(body())


def test_the_end_does_not_wait_for_a_line_for_ever(
    examples: Path, tmp_path: Path, monkeypatch: pytest.MonkeyPatch
) -> None:
    monkeypatch.setattr(lines, "CLOSE_SECONDS", 0.05)

    async def body() -> None:
        it = Fifo(examples, tmp_path)
        await ends(it, Slow())
        assert not it.page.orders and not it.kept.samples

    asyncio.run(body())


def test_a_bad_sample_is_a_trouble_for_a_minute(examples: Path) -> None:
    now = 0.0
    kept = Kept(plants.read(examples / "tank" / "plant.toml"))
    intake = Intake(kept, Ages({}, 0.0), lambda: now)

    async def body() -> None:
        nonlocal now
        await intake.give("fifo", "levl", "5")
        await intake.give("fifo", "level", "x")
        intake.fails("fifo", "pump", "it can't be written")
        assert len(kept.standing()) == 3
        now = 59.0
        await intake.give("fifo", "LEVEL", "x")
        now = 61.0
        intake.look()
        assert kept.standing() == [("source", "fifo level"), ("source", "fifo pump")]
        now = 120.0
        intake.look()
        assert kept.standing() == [("source", "fifo pump")]
        intake.good("fifo", "pump")
        assert not kept.standing()

    asyncio.run(body())


def test_an_input_that_cannot_be_had_is_a_trouble_for_longer_than_a_bad_sample(
    examples: Path,
) -> None:
    now = 0.0
    kept = Kept(plants.read(examples / "tank" / "plant.toml"))
    intake = Intake(kept, Ages({}, 0.0), lambda: now)
    intake.bad("broker", "level", "it is no number")
    intake.fails("broker", "level", "the broker lets nobody read it")
    now = 61.0
    intake.look()
    assert kept.standing() == [("source", "broker level")]
    intake.bad("broker", "level", "it is no number")
    now = 122.0
    intake.look()
    assert not kept.standing()


def test_tries_come_later_and_later() -> None:
    backoff = Backoff(Retry(0.5, 3.0))
    assert [backoff.wait() for _ in range(5)] == [0.5, 1.0, 2.0, 3.0, 3.0]
    backoff.reset()
    assert backoff.wait() == 0.5


def test_a_source_that_was_there_is_tried_again_soon(
    examples: Path, monkeypatch: pytest.MonkeyPatch
) -> None:
    kept = Kept(plants.read(examples / "tank" / "plant.toml"))
    waits: list[float] = []

    async def sleep(seconds: float) -> None:
        waits.append(seconds)

    class Scripted(Source):
        """Comes and goes as it is told: `up` before it is lost, or not."""

        script = ["", "", "up", "", ""]

        async def session(self, current: Callable[[], dict[str, Value]]) -> None:
            self.put_output("pump", True)
            assert not self.waiting_outputs()  # while it is lost nothing is kept for it
            if not self.script:
                return
            if self.script.pop(0) == "up":
                self.up()
                self.put_output("pump", False)
                assert self.waiting_outputs() == [("pump", False)]
            raise Lost("away")

    monkeypatch.setattr(asyncio, "sleep", sleep)
    asyncio.run(Scripted("it", Retry(0.5, 60.0), kept.intake()).run(dict))
    assert waits == [0.5, 1.0, 0.5, 1.0, 2.0]


def test_whatever_a_source_raises_is_a_loss(examples: Path) -> None:
    kept = Kept(plants.read(examples / "tank" / "plant.toml"))

    class Wrong(Source):
        """A library that raises what nobody expects."""

        async def session(self, current: Callable[[], dict[str, Value]]) -> None:
            raise ZeroDivisionError("by a library")

    async def body() -> None:
        running = Running(Wrong("it", SOON, kept.intake()), kept)
        await until(kept.standing)
        assert kept.texts() == "it is lost: ZeroDivisionError: by a library"
        await running.close()

    asyncio.run(body())
