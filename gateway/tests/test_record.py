"""The record in a file: its first line, torn lines, the lock, remarks, a record that follows."""

from __future__ import annotations

import asyncio
import json
import shutil
from pathlib import Path

import pytest

from alarmd_gateway import plant as plants
from alarmd_gateway.model import GatewayFault, Plant
from alarmd_gateway.record import Entry, FileRecord, peek
from alarmd_gateway.record_head import LONGEST_HEAD, unbegun


@pytest.fixture
def plant(tmp_path: Path, examples: Path) -> Plant:
    """The tank, with a source in a folder below."""
    shutil.copytree(examples / "tank", tmp_path / "plant")
    path = tmp_path / "plant" / "plant.toml"
    (tmp_path / "plant" / "logic").mkdir()
    (tmp_path / "plant" / "control.st").rename(tmp_path / "plant" / "logic" / "control.st")
    path.write_text(path.read_text().replace('"control.st"', '"logic/control.st"'))
    return plants.read(path)


def kept(path: Path, plant: Plant) -> list[Entry]:
    return list(peek(path, plant))


def test_a_first_line_that_is_too_long_is_not_begun_anew(tmp_path: Path, plant: Plant) -> None:
    """Of which only the beginning is read: whether it has an end isn't known."""
    path, text = tmp_path / "record", "# gateway record " + "x" * LONGEST_HEAD + "\nscan 5\n"
    path.write_text(text)
    assert not unbegun(path.read_bytes()[:LONGEST_HEAD])
    with pytest.raises(GatewayFault) as found:
        FileRecord(path, plant)
    assert found.value.status == 2 and path.read_text() == text


def add(record: FileRecord, *entries: Entry) -> None:
    async def all_of_them() -> None:
        for entry in entries:
            await record.append(entry)

    asyncio.run(all_of_them())


def test_commands_come_back_with_user_and_reason(tmp_path: Path, plant: Plant) -> None:
    path = tmp_path / "record"
    record = FileRecord(path, plant)
    entries = [
        Entry("scan 0 level=5"),
        Entry("ack 1 LAL-101", "anna", 'seen\n"ü"'),
        Entry("# a remark"),
        Entry("ack 1 LAL-101", "bob"),
        Entry("scan 1"),
    ]
    add(record, *entries)
    wanted = [entry for entry in entries if not entry.line.startswith("#")]
    assert list(record.replay()) == wanted
    record.close()
    again = FileRecord(path, plant)
    assert list(again.replay()) == wanted
    again.close()
    assert path.read_bytes().count(b"\n") == 8


@pytest.mark.parametrize("text", ["what is no record", "nor\nis this", "\n", "# gate\n", "# plant"])
def test_what_is_no_record_stays_as_it_is(tmp_path: Path, plant: Plant, text: str) -> None:
    path = tmp_path / "notes"
    path.write_text(text)
    with pytest.raises(GatewayFault) as found:
        FileRecord(path, plant)
    assert found.value.status == 2
    assert path.read_text() == text


@pytest.mark.parametrize(
    ("torn", "left"),
    [
        (b"scan 7 level=50", 2),
        (b'# by {"user": "an', 2),
        (b'# by {"user": "anna"}\n', 2),
        (b'# by {"user": "anna"}\nack 1 LAL', 2),
        (b"ack 1 X\nsc", 3),
        (b"x" * 200_000, 2),
        (b"\xff\x00", 2),
    ],
)
def test_a_torn_last_line_is_cut(tmp_path: Path, plant: Plant, torn: bytes, left: int) -> None:
    path = tmp_path / "record"
    record = FileRecord(path, plant)
    add(record, Entry("scan 0"), Entry("scan 1"))
    record.close()
    with open(path, "ab") as file:
        file.write(torn)
    record = FileRecord(path, plant)
    add(record, Entry("ack 1 Y"))
    entries = list(record.replay())
    record.close()
    assert len(entries) == left + 1
    assert entries[-1] == Entry("ack 1 Y")


def test_a_torn_first_line_begins_anew(tmp_path: Path, plant: Plant) -> None:
    path = tmp_path / "record"
    path.write_text('# gateway record {"fil')
    record = FileRecord(path, plant)
    assert list(record.replay()) == []
    record.close()
    assert path.read_text().endswith("}}\n")


@pytest.mark.parametrize(
    ("name", "words"),
    [
        ("logic/control.st", "logic/control.st has changed"),
        ("plant.toml", "plant.toml has changed"),
        ("alarms.csv", "alarms.csv has changed"),
    ],
)
def test_another_plant_is_refused(tmp_path: Path, plant: Plant, name: str, words: str) -> None:
    path = tmp_path / "record"
    FileRecord(path, plant).close()
    with open(plant.path.parent / name, "a") as file:
        file.write("\n")
    with pytest.raises(GatewayFault, match=words) as fault:
        FileRecord(path, plant)
    assert fault.value.status == 2


def test_files_that_the_plant_does_not_name_do_not_count(tmp_path: Path, plant: Plant) -> None:
    path = tmp_path / "record"
    FileRecord(path, plant).close()
    (plant.path.parent / "notes.csv").write_text("x")
    (plant.path.parent / "other.st").write_text("x")
    FileRecord(path, plant).close()


@pytest.mark.parametrize(
    ("head", "words"),
    [
        ("# plant 0123\n", "example gateway"),
        ("scan 0\n", "no record of a gateway"),
        ("# gateway record []\n", "no record of a gateway"),
        ('# gateway record {"files": {"plant.toml": "x"}}\n', "another plant"),
    ],
)
def test_other_files_are_refused(tmp_path: Path, plant: Plant, head: str, words: str) -> None:
    path = tmp_path / "record"
    path.write_text(head)
    with pytest.raises(GatewayFault, match=words) as fault:
        FileRecord(path, plant)
    assert fault.value.status == 2
    assert path.read_text() == head


def test_one_gateway_has_a_record(tmp_path: Path, plant: Plant) -> None:
    path = tmp_path / "record"
    record = FileRecord(path, plant)
    with pytest.raises(GatewayFault, match="another gateway") as fault:
        FileRecord(path, plant)
    assert fault.value.status == 2
    record.close()
    FileRecord(path, plant).close()


def test_a_record_without_its_folder(tmp_path: Path, plant: Plant) -> None:
    with pytest.raises(GatewayFault, match="No such file") as fault:
        FileRecord(tmp_path / "nowhere" / "record", plant)
    assert fault.value.status == 2


def test_a_new_record_follows(tmp_path: Path, plant: Plant) -> None:
    path = tmp_path / "record"
    record = FileRecord(path, plant)
    add(record, Entry("scan 0"))
    fresh = [Entry("# why"), Entry("scan 9 level=1"), Entry("shelve 1 LAL-101 5", "anna", "pump")]
    assert asyncio.run(record.succeed(fresh)) == "record.1"
    add(record, Entry("scan 10"))
    assert list(record.replay()) == [*fresh[1:], Entry("scan 10")]
    with pytest.raises(GatewayFault, match="another gateway"):
        FileRecord(path, plant)
    assert kept(tmp_path / "record.1", plant) == [Entry("scan 0")]
    head = json.loads(path.read_text().splitlines()[0].removeprefix("# gateway record "))
    assert head["follows"] == "record.1"
    assert asyncio.run(record.succeed([])) == "record.2"
    record.close()
    assert kept(tmp_path / "record.2", plant)[-1] == Entry("scan 10")
    assert kept(path, plant) == []
