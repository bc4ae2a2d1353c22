"""The server or the gateway killed at random under load, on one record, with torn lines: nothing that was answered is lost."""

from __future__ import annotations

import contextlib
import os
import random
import signal
import subprocess
import time
from pathlib import Path

import pytest
from around import LIMIT, Gateway, config_file, plant_copy, without_programs

pytestmark = pytest.mark.server

TAGS = ("LAH-101", "LAL-101", "TAHH-102", "FAL-103", "RAH-104")
TORN = ("sca", "scan 99 level=5", "ack 1 LA", '# by {"user": "x"}\nack 1 LAL-101', "\xff")


def line(chance: random.Random) -> str:
    """Samples, or an order."""
    if chance.random() < 0.6:
        level, heat = chance.choice((100, 400, 900)), chance.choice((500, 700, 850))
        flow, additive = chance.choice((0, 10, 100)), chance.choice((0, 500, 5000))
        values = f"level={level} temperature={heat} flow={flow} additive={additive}"
        return f"running={chance.choice(('TRUE', 'FALSE'))} {values}"
    tag = chance.choice(TAGS)
    order = chance.choice(("ack", "ack", "reset", "unshelve", "remove", "return", "shelve"))
    if chance.random() < 0.1:
        return "restart 1 dose"
    return f"{order} 1 {tag}" + (" 60000" if order == "shelve" else "")


def by_the_record(alarmd: Path, plant: Path, record: Path) -> list[str]:
    """What a server lists that was given the record whole."""
    whole = record.read_bytes()
    assert whole.endswith(b"\n")
    done = subprocess.run(
        [alarmd, "run", plant],
        input=whole + b"scan 4000000000001\nlist\njournal\n",
        capture_output=True,
        timeout=LIMIT,
        check=True,
    )
    lines = done.stdout.decode().splitlines()
    mark = len(lines) - 1 - lines[::-1].index("REFUSED E2")
    return lines[mark + 1 :]


def listed(gateway: Gateway) -> list[str]:
    """What the gateway lists, with nothing before and between."""
    begin = len(gateway.out)
    gateway.give("list\njournal\n")
    end = time.monotonic() + LIMIT
    while sum(line.startswith("END ") for line in gateway.out[begin:]) < 2:
        assert time.monotonic() < end, gateway.err
        time.sleep(0.01)
    words = ("STATE ", "COUNT ", "END ")
    return [line for line in gateway.out[begin:] if line.startswith(words) or line[0].isdigit()]


def compare(gateway: Gateway, alarmd: Path, plant: Path, record: Path) -> None:
    """Once nothing is written any more, the gateway lists what a server lists that was given the record. A scan comes by samples
    alone, as the period is long; until the last one is answered the two may differ."""
    end = time.monotonic() + LIMIT
    while True:
        size = record.stat().st_size
        ours, wanted = listed(gateway), by_the_record(alarmd, plant, record)
        if ours == wanted and size == record.stat().st_size:
            return
        assert time.monotonic() < end, (ours, wanted)
        time.sleep(0.2)


class Load:
    """Lines that are given to a gateway, by chance."""

    one_server = True

    def __init__(self, chance: random.Random) -> None:
        self.chance = chance

    def line(self) -> str:
        """Samples, or an order."""
        return line(self.chance)

    def pressing(self) -> str:
        """Samples that make a scan come at once."""
        return "running=TRUE\nrunning=FALSE\nrunning=TRUE\n"


class NoPrograms(Load):
    """Lines for a plant without programs, whose new records begin by themselves, each with a server of its own."""

    one_server = False

    def line(self) -> str:
        return f"a={self.chance.randint(0, 9)} c={self.chance.choice(('TRUE', 'FALSE'))}"

    def pressing(self) -> str:
        return "a=1\na=2\na=3\n"


def trial(alarmd: Path, config: Path, plant: Path, load: Load, kills: int) -> Gateway:
    """So many kills on one record, of the server and the gateway in turn."""
    chance, record = load.chance, config.parent / "record"
    gateway = Gateway(config, "--yes")
    listed(gateway)
    for number in range(kills):
        end = time.monotonic() + chance.uniform(0.2, 0.8)
        while time.monotonic() < end:
            gateway.give(load.line() + "\n")
            time.sleep(0.004)
        if number % 2 == 0:
            with contextlib.suppress(ProcessLookupError):  # a new record has its server anew
                os.kill(gateway.server_pid(), signal.SIGKILL)
            gateway.give(load.pressing())
            if load.one_server:
                gateway.wait_for("started again", gateway.err)
        else:
            gateway.kill()
            if chance.random() < 0.5:
                with open(record, "ab") as file:
                    file.write(chance.choice(TORN).encode("latin-1"))
            gateway = Gateway(config, "--yes")
        compare(gateway, alarmd, plant, record)
        assert gateway.process.poll() is None
        del gateway.err[:]
    return gateway


def on_the_tank(alarmd: Path, folder: Path, kills: int, seed: int) -> int:
    """Gives how many commands the record has at the end."""
    plant = plant_copy("tank", folder)
    config = config_file(alarmd, plant, period_ms=3_600_000)
    gateway = trial(alarmd, config, plant, Load(random.Random(seed)), kills)
    gateway.process.terminate()
    assert gateway.wait() == 0
    lines = (folder / "record").read_text().splitlines()
    return len([line for line in lines if not line.startswith("#")])


def test_six_kills_on_one_record(alarmd: Path, tmp_path: Path) -> None:
    assert on_the_tank(alarmd, tmp_path, 6, 66) > 50


@pytest.mark.long
def test_sixty_kills_on_one_record(alarmd: Path, tmp_path: Path) -> None:
    assert on_the_tank(alarmd, tmp_path, 60, 6600) > 500


def with_new_records(alarmd: Path, folder: Path, kills: int, seed: int) -> None:
    """The same while new records begin: what was carried into each is there still."""
    plant = without_programs(folder)
    config = config_file(alarmd, plant, period_ms=3_600_000, rotate_at=20)
    first = Gateway(config, "--yes")
    first.give("a=5\na=6\na=7\nremove 1 T1\n")
    first.wait_for("REPLY OK")
    first.kill()
    gateway = trial(alarmd, config, plant, NoPrograms(random.Random(seed)), kills)
    assert "STATE T1 OOS 2" in listed(gateway)
    gateway.process.terminate()
    assert gateway.wait() == 0
    old = sorted(path.name for path in folder.iterdir() if path.name.startswith("record."))
    assert len(old) > 3
    for number in range(1, len(old) + 1):
        whole = (folder / f"record.{number}").read_bytes()
        assert whole.endswith(b"\n")
        follows = f'"follows": "record.{number - 1}"'.encode()
        assert number == 1 or follows in whole.splitlines()[0]


def test_six_kills_while_new_records_begin(alarmd: Path, tmp_path: Path) -> None:
    with_new_records(alarmd, tmp_path, 6, 77)


@pytest.mark.long
def test_forty_kills_while_new_records_begin(alarmd: Path, tmp_path: Path) -> None:
    with_new_records(alarmd, tmp_path, 40, 7700)
