"""Measures the gateway, with a server and a page of its own:

    PYTHONPATH=gateway /usr/bin/python3 gateway/tests/measure.py [--alarms N] [--folder FOLDER]

Prints scans a second, the time from a sample to the page, and memory, for the tank and for a plant of N alarms (20,000). The record lies in
FOLDER (a temporary one), whose disk is what `fsync` waits for. The server is $ALARMD, else crates/alarmd/out/alarmd."""

from __future__ import annotations

import argparse
import asyncio
import multiprocessing
import os
import statistics
import tempfile
import time
from pathlib import Path

import aiohttp

from alarmd_gateway.config import Config
from alarmd_gateway.core import Core
from alarmd_gateway.model import Sample
from alarmd_gateway.programs import find_alarmd
from alarmd_gateway.web import attach

TANK = Path(__file__).resolve().parents[2] / "examples" / "tank" / "plant.toml"
SCANS, SAMPLES = 3000, 200


def megabytes(pid: int) -> float:
    """Memory of a process that is its own or shared, in MB (VmRSS)."""
    status = Path(f"/proc/{pid}/status").read_text()
    return int(status.split("VmRSS:")[1].split()[0]) / 1000


def large_plant(folder: Path, alarms: int) -> Path:
    """A plant of so many alarms; an input raises two thousand of them, and another one all."""
    folder.mkdir()
    few = min(2000, alarms)
    (folder / "plant.toml").write_text(
        'name = "Large"\nepoch = "2026-11-23T06:00:00Z"\nareas = ["a"]\nsources = ["p.st"]\nalarms = "alarms.csv"\n'
        '[[console]]\nnumber = 1\nareas = ["a"]\n'
    )
    (folder / "p.st").write_text(
        "VAR_GLOBAL\n  level AT %ID0 : DINT;\n  few, all : BOOL;\nEND_VAR\n"
        "PROGRAM p\n  few := level MOD 2 = 1;\n  all := level < 0;\nEND_PROGRAM\n"
    )
    rows = [
        f"T{at},a,{at % 4 + 1},{'few' if at < few else 'all'},,FALSE,0,Alarm {at}"
        for at in range(alarms)
    ]
    head = "tag,area,priority,condition,suppress,latch,max_shelve_ms,text"
    (folder / "alarms.csv").write_text("\n".join([head, *rows]) + "\n")
    return folder / "plant.toml"


async def scans(core: Core, count: int) -> float:
    """Scans a second, where samples press: each scan takes one new value, by which no alarm of the large plant changes."""
    await core.offer(Sample("level", 0, "measure"))
    await core.drain()
    begin, first = time.monotonic(), core.state.events
    for number in range(1, count + 1):
        await core.offer(Sample("level", 2 * number, "measure"))
    await core.drain()
    return (core.state.events - first) / (time.monotonic() - begin)


async def until_page(core: Core, url: str, count: int) -> list[float]:
    """Milliseconds from a sample that raises or ends an alarm to the page's message, a sample at a time."""
    times = []
    jar = aiohttp.CookieJar(unsafe=True)
    async with aiohttp.ClientSession(url, cookie_jar=jar) as client:
        async with client.get("/api/session") as got:
            await got.json()
        async with client.ws_connect("/api/live", max_msg_size=0) as page:
            await page.receive()  # the snapshot
            for number in range(count):
                begin = time.monotonic()
                await core.offer(Sample("level", 5000 * (number % 2) + 1 - number % 2, "measure"))
                await core.drain()
                while '"alarm"' not in (await page.receive()).data:
                    pass
                times.append(1000 * (time.monotonic() - begin))
    return times


async def measure(plant: Path, folder: Path, name: str) -> None:
    """All figures of a plant."""
    config = Config(
        find_alarmd(None),
        plant,
        folder / "record",
        folder,
        yes=True,
        tables={"web": {"listen": "127.0.0.1:0"}},
    )
    begin = time.monotonic()
    core = await Core.start(config)
    started = time.monotonic() - begin
    work = asyncio.create_task(core.run())
    page = await attach(core, config)
    assert page is not None
    if "flow" in core.plant.inputs:
        await core.offer(Sample("flow", 100, "measure"))
        await core.offer(Sample("running", True, "measure"))
    rate = await scans(core, SCANS)
    times = await until_page(core, page.url, SAMPLES)
    print(f"{name}: start in {started:.2f} s; {rate:.0f} scans a second")
    print(
        f"{name}: from a sample to the page {statistics.median(times):.1f} ms in the middle, "
        f"{sorted(times)[len(times) * 95 // 100]:.1f} ms for 95 of 100, {max(times):.1f} ms at most"
    )
    print(
        f"{name}: memory of the gateway {megabytes(os.getpid()):.0f} MB, after {core.state.events:,} events"
    )
    core.stop()
    await work
    await page.close()


def run(plant: Path, folder: Path, name: str) -> None:
    """A plant in a process of its own, so that its memory is its own."""
    asyncio.run(measure(plant, folder, name))


def main() -> None:
    """For the tank and for a large plant."""
    parser = argparse.ArgumentParser(description=__doc__)
    parser.add_argument("--alarms", type=int, default=20_000)
    parser.add_argument("--folder", type=Path, default=None)
    given = parser.parse_args()
    for name in ("tank", f"{given.alarms:,} alarms"):
        with tempfile.TemporaryDirectory(prefix="measure-", dir=given.folder) as made:
            folder = Path(made)
            plant = TANK if name == "tank" else large_plant(folder / "plant", given.alarms)
            one = multiprocessing.Process(target=run, args=(plant, folder, name))
            one.start()
            one.join()


if __name__ == "__main__":
    main()
