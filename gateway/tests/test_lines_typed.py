"""What is typed or written to standard input, and where it goes: words, values, lines, output."""

from __future__ import annotations

import os
import threading
import time
from pathlib import Path
from types import SimpleNamespace

import pytest

from alarmd_gateway import commands, plant as plants, typed
from alarmd_gateway.commands import Scan
from alarmd_gateway.input import MOST, Lines
from alarmd_gateway.model import BadSample, Order, Plant, Sample, Value, Verb
from alarmd_gateway import output as outputs
from alarmd_gateway.output import Output


@pytest.fixture(scope="module")
def tank(examples: Path) -> Plant:
    return plants.read(examples / "tank" / "plant.toml")


@pytest.fixture(scope="module")
def boilers(examples: Path) -> Plant:
    return plants.read(examples / "boilers" / "plant.toml")


@pytest.mark.parametrize(
    ("name", "value", "wanted"),
    [
        ("RUNNING", "tRuE", True),
        ("running", "1", True),
        ("running", "0", False),
        ("running", 0, False),
        ("running", False, False),
        ("level", "-2147483648", -(2**31)),
        ("level", "007", 7),
        ("level", 2**31 - 1, 2**31 - 1),
        ("level", " 5 ", 5),
    ],
)
def test_values_that_fit(tank: Plant, name: str, value: Value | str, wanted: Value) -> None:
    variable, found = commands.fit(tank, name, value)
    assert (variable.name, found, type(found)) == (name.lower(), wanted, type(wanted))


@pytest.mark.parametrize(
    ("name", "value"),
    [
        ("running", 2),
        ("running", "yes"),
        ("running", "2"),
        ("level", True),
        ("level", "TRUE"),
        ("level", 2**31),
        ("level", "2147483648"),
        ("level", "1.0"),
        ("level", 1.0),
        ("level", ""),
        ("level", "+5"),
        ("level", "5\n"[:1] + "\x005"),
        ("level", "1" * 20),
        ("level", "٥"),
        ("level", None),
        ("pump", 1),
        ("levеl", 1),
        ("", 1),
    ],
)
def test_values_that_do_not_fit(tank: Plant, name: str, value: Value | str) -> None:
    with pytest.raises(BadSample):
        commands.fit(tank, name, value)


def test_a_time_takes_its_milliseconds(boilers: Plant) -> None:
    assert commands.fit(boilers, "cycle", -(2**63))[1] == -(2**63)
    with pytest.raises(BadSample):
        commands.fit(boilers, "cycle", 2**63)


@pytest.mark.parametrize(
    ("line", "wanted"),
    [
        ("scan 5", Scan(5, {})),
        (" scan\t005  LEVEL=5 running=1", Scan(5, {"level": 5, "running": True})),
        ("ack 01 LAL-101", Order(Verb.ACK, 1, "LAL-101")),
        ("shelve 1 X 9999999999999999999", Order(Verb.SHELVE, 1, "X", 10**19 - 1)),
        ("restart 1 dose", Order(Verb.RESTART, 1, "dose")),
        ("ack 1 a\u00a0b", Order(Verb.ACK, 1, "a\u00a0b")),
        ("scan 5 levl=5", None),
        ("scan x", None),
        ("scan", None),
        ("ack 1", None),
        ("ack 1234567890 X", None),
        ("ack -1 X", None),
        ("shelve 1 X", None),
        ("list", None),
        ("", None),
    ],
)
def test_lines_of_a_record(tank: Plant, line: str, wanted: Scan | Order | None) -> None:
    assert commands.read(tank, line) == wanted


@pytest.mark.parametrize(
    "order",
    [
        Order(Verb.ACK, 1, "a b"),
        Order(Verb.ACK, 1, ""),
        Order(Verb.ACK, 1, "a\nscan 1"),
        Order(Verb.ACK, 1, "ä"),
        Order(Verb.ACK, 1, "a\u00a0b"),
        Order(Verb.ACK, 1, "a" * 1001),
        Order(Verb.ACK, -1, "a"),
        Order(Verb.ACK, 10**9, "a"),
        Order(Verb.ACK, 1, "a", 5),
        Order(Verb.SHELVE, 1, "a"),
        Order(Verb.SHELVE, 1, "a", -1),
        Order(Verb.SHELVE, 1, "a", 10**19),
    ],
)
def test_orders_that_cannot_stand_in_a_line(order: Order) -> None:
    with pytest.raises(ValueError):
        commands.check(order)


def test_what_is_typed() -> None:
    assert typed.read("", "x") is None
    assert typed.read(" # ack 1 X", "x") is None
    assert typed.read("ack 1 X", "x") == Order(Verb.ACK, 1, "X")
    assert typed.read("journal 5 6", "x") == typed.Ask("journal", (5, 6))
    assert typed.read("a=1 b==2 c=", "x") == [
        Sample("a", "1", "x"),
        Sample("b", "=2", "x"),
        Sample("c", "", "x"),
    ]
    for line in ("ack 1 ä", "journal -1", "journal 1 2 3", "confirm 1", "a=1 b", "Ack 1 X"):
        with pytest.raises(typed.Mistake):
            typed.read(line, "x")


def test_lines_are_cut() -> None:
    cutter = Lines()
    assert cutter.feed(b"a\r\nb") == ["a"]
    assert cutter.feed(b"c\n\n\xff\n") == ["bc", "", "\ufffd"]
    assert cutter.feed(b"x" * MOST) == []
    assert cutter.feed(b"\nx") == ["x" * MOST]
    assert cutter.feed(b"x" * MOST) == []
    assert cutter.feed(b"more\nnext") == [None]
    assert cutter.end() == ["next"]
    assert cutter.end() == []


def test_output_leaves_out_what_nobody_reads() -> None:
    reading, writing = os.pipe()
    output = Output(writing, room=100_000)
    line = "x" * 99
    for _ in range(5000):
        output.put(line)
    got: list[bytes] = []

    def read() -> None:
        while data := os.read(reading, 65_536):
            got.append(data)

    reader = threading.Thread(target=read, daemon=True)
    reader.start()
    end = time.monotonic() + 30
    while b"".join(got).count(b"\n") < 1000 and time.monotonic() < end:
        time.sleep(0.01)
    time.sleep(0.2)
    output.put("last")
    output.close(30)
    os.close(writing)
    reader.join(30)
    lines = b"".join(got).decode().splitlines()
    assert lines[-1] == "last"
    left_out = int(lines[-2].split()[1])
    assert lines[-2] == f"# {left_out} lines were left out: nobody read them"
    assert lines[:-2] == [line] * (5000 - left_out)
    os.close(reading)


def test_lines_of_two_that_write_to_one_reader_stay_whole() -> None:
    """As those of the console and the answers to a FIFO: a pipe takes a part of what it is given."""
    reading, writing = os.pipe()
    both = [Output(writing), Output(writing)]
    for number in range(10_000):
        for sign, output in zip("ab", both):
            output.put(f"{sign * 60} {number}")
    got: list[bytes] = []

    def read() -> None:
        while data := os.read(reading, 5000):
            got.append(data)

    reader = threading.Thread(target=read, daemon=True)
    reader.start()
    for output in both:
        output.close(60)
    os.close(writing)
    reader.join(60)
    lines = b"".join(got).decode().splitlines()
    for sign in "ab":
        own = [line for line in lines if line.startswith(sign)]
        assert own == [f"{sign * 60} {number}" for number in range(10_000)]
    os.close(reading)


def test_a_reader_that_is_slow_does_not_sleep(monkeypatch: pytest.MonkeyPatch) -> None:
    """Also for who waits until another one's lines are written."""
    now = 0.0
    monkeypatch.setattr(outputs, "time", SimpleNamespace(monotonic=lambda: now))
    reading, writing = os.pipe()
    both = [Output(writing), Output(writing)]
    for output in both:
        for _ in range(3000):
            output.put("x" * 999)
    got = 0
    for second in range(20):  # of which five are sleep
        now = float(second)
        while got < outputs.PIECE * (second + 1):
            got += len(os.read(reading, outputs.PIECE * (second + 1) - got))
        end = time.monotonic() + 60
        while not all(output.crowded for output in both):
            assert time.monotonic() < end
            time.sleep(0.001)
    while got < 6_000_000:
        got += len(os.read(reading, 1 << 20))
    for output in both:
        output.close(60)
    os.close(reading)
    os.close(writing)


def test_nobody_waits_for_a_reader_that_sleeps(monkeypatch: pytest.MonkeyPatch) -> None:
    monkeypatch.setattr(outputs, "ASLEEP_SECONDS", 100.0)
    reading, writing = os.pipe()
    output = Output(writing, room=1_000_000)
    assert not output.crowded
    for _ in range(6):
        output.put("x" * 100_000)
    assert output.crowded
    monkeypatch.setattr(outputs, "ASLEEP_SECONDS", 0.0)
    assert not output.crowded
    os.close(reading)
    output.close(60)
    os.close(writing)


def test_output_tells_what_keeps_it_from_writing() -> None:
    broken = threading.Event()
    with open("/dev/full", "wb") as full:
        output = Output(full.fileno(), broken=broken.set)
        output.put("x")
        assert broken.wait(30)
        output.close(30)
    assert output.fault is not None
