"""The texts of reloads: their sizes, and records whose lines have texts behind them."""

from __future__ import annotations

import asyncio
import os
from pathlib import Path

import pytest
from reload_help import Small

from alarmd_gateway import texts
from alarmd_gateway import plant as plants
from alarmd_gateway.commands import Reload
from alarmd_gateway.link import entry_of
from alarmd_gateway.log_view import last_of
from alarmd_gateway.model import GatewayFault, Plant, Texts
from alarmd_gateway.record import Entry, FileRecord, peek

ODD = Texts(
    b'name = "\xff"\nscan 5\n', b"# by {}\nack 1 T1\n\n", (b"", b"(* reload 5 5 *)\r\n", b"x")
)
"""Texts that look like lines of a record, and end in no LF."""


@pytest.mark.parametrize(
    ("line", "wanted"),
    [
        (b"reload 0 0", [0, 0]),
        (b"reload 1048576 16777216 4194304", [1_048_576, 16_777_216, 4_194_304]),
        (b"reload 1048577 0", None),
        (b"reload 0 16777217", None),
        (b"reload 0 0 4194304 1", None),
        (b"reload 0 0" + b" 0" * 64, [0] * 66),
        (b"reload 0 0" + b" 0" * 65, None),
        (b"reload 00000005 0", [5, 0]),
        (b"reload 000000005 0", None),
        (b" \treload\t1  2 ", [1, 2]),
        (b"reload 5", None),
        (b"reload", None),
        (b"reloads 5 5", None),
        (b"RELOAD 5 5", None),
        (b"reload 5 -5", None),
        (b"reload 5 5\r", None),
        (b"# reload 5 5", None),
        (b"scan 5", None),
        (b"", None),
    ],
)
def test_sizes(line: bytes, wanted: list[int] | None) -> None:
    assert texts.sizes(line) == wanted


def test_texts_come_back_by_their_line_and_body() -> None:
    line, body = texts.line(ODD), texts.body(ODD)
    assert texts.of(line, body) == ODD
    assert texts.of(line, body[:-1]) is None
    assert texts.of(line, body + b"x") is None
    assert texts.of("scan 5", b"") is None


@pytest.mark.parametrize(
    ("given", "words"),
    [
        (Texts(b"x" * 1_048_577, b"", ()), "plant file"),
        (Texts(b"", b"x" * 16_777_217, ()), "alarm file"),
        (Texts(b"", b"", (b"x" * 4_194_304, b"x")), "sources together"),
        (Texts(b"", b"", (b"",) * 65), "65 sources"),
    ],
)
def test_too_much_is_no_reload(given: Texts, words: str) -> None:
    with pytest.raises(GatewayFault, match=words):
        texts.check(given)


def test_as_much_as_may_be_is_one() -> None:
    most = Texts(b"x" * 1_048_576, b"x" * 16_777_216, (b"x" * 4_194_304,) + (b"",) * 63)
    texts.check(most)
    assert texts.sizes(texts.line(most).encode()) is not None


@pytest.fixture
def plant(tmp_path: Path) -> Plant:
    return plants.read(Small().write(tmp_path / "plant"))


def add(record: FileRecord, *entries: Entry) -> None:
    asyncio.run(record.extend(entries))


RELOAD = entry_of(Reload(ODD), "anna", "a larger pump")


def test_a_reload_comes_back_with_its_texts(tmp_path: Path, plant: Plant) -> None:
    path = tmp_path / "record"
    record = FileRecord(path, plant)
    entries = [Entry("scan 0"), RELOAD, Entry("ack 1 T1", "bob"), RELOAD]
    add(record, *entries)
    record.close()
    assert list(peek(path, plant)) == entries
    record = FileRecord(path, plant)
    assert list(record.replay()) == entries
    record.close()
    assert last_of(path) == (4, RELOAD.line)


def test_a_reload_torn_after_any_byte_is_cut(tmp_path: Path, plant: Plant) -> None:
    path = tmp_path / "record"
    record = FileRecord(path, plant)
    add(record, Entry("scan 0"), Entry("ack 1 T1", "bob"))
    record.close()
    before, torn = path.read_bytes(), RELOAD.recorded()
    whole = len(torn) - 1  # the end of line behind the texts is no part of them
    for at in range(len(torn)):
        path.write_bytes(before + torn[:at])
        record = FileRecord(path, plant)
        add(record, Entry("scan 1"))
        record.close()
        lines = [entry.line for entry in peek(path, plant)]
        wanted = ["scan 0", "ack 1 T1", *([RELOAD.line] if at >= whole else []), "scan 1"]
        assert lines == wanted, at
        if at < whole:
            assert path.read_bytes() == before + b"scan 1\n"


def test_a_reload_is_one_write_and_one_wait_for_the_disk(
    tmp_path: Path, plant: Plant, monkeypatch: pytest.MonkeyPatch
) -> None:
    record = FileRecord(tmp_path / "record", plant)
    calls: list[int] = []
    fsync = os.fsync

    def synced(file: int) -> None:
        calls.append(os.fstat(file).st_size)
        fsync(file)

    monkeypatch.setattr(os, "fsync", synced)
    size = os.stat(tmp_path / "record").st_size
    add(record, RELOAD)
    record.close()
    assert calls == [size + len(RELOAD.recorded())]


def test_lines_behind_a_carriage_return_have_their_texts(tmp_path: Path, plant: Plant) -> None:
    """As somebody else may have written them."""
    path = tmp_path / "record"
    FileRecord(path, plant).close()
    with open(path, "ab") as file:
        file.write(b"reload 3 2\r\nx\ny\nz" + b"scan 5\n")
    lines = [entry.line for entry in peek(path, plant)]
    assert lines == ["reload 3 2\r", "scan 5"]
