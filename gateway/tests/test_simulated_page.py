"""README's two commands: the tank, simulated, on a page in a browser; an alarm is acknowledged, the servers are killed, and the page goes on."""

from __future__ import annotations

import os
import signal
import subprocess
from pathlib import Path

import pytest

from browser_help import browser, until

GATEWAY = Path(__file__).resolve().parents[1]


def children(process: int) -> list[int]:
    """The processes that a process has started."""
    text = Path(f"/proc/{process}/task/{process}/children").read_text()
    return [int(word) for word in text.split()]


def test_what_is_needed_is_there() -> None:
    subprocess.run([str(GATEWAY / "setup"), "--serving", "--check"], check=True)


@pytest.mark.server
@pytest.mark.browser
def test_the_tank_in_a_browser(alarmd: Path, examples: Path) -> None:
    tank = examples / "tank"
    words = [str(GATEWAY / "gateway"), "simulate", str(tank / "plant.toml")]
    words += [str(tank / "model" / "plant.toml"), "--page", "127.0.0.1:0", "--speed", "10"]
    process = subprocess.Popen(
        [*words, "--alarmd", str(alarmd)],
        stdin=subprocess.DEVNULL,
        stdout=subprocess.DEVNULL,
        stderr=subprocess.PIPE,
        text=True,
    )
    try:
        assert process.stderr is not None
        lines = iter(process.stderr.readline, "")
        url = next(line.split()[1] for line in lines if line.startswith("PAGE "))
        with browser() as page:
            page.open(url)
            page.until_live()
            assert page.text("#plant-name") == "Buffer tank"
            until(lambda: ("LAL-101", "RTNUN") in page.rows(), "the level is low, and rises again")
            page.choose("LAL-101")
            page.keys("a")
            until(lambda: "LAL-101" not in dict(page.rows()), "it is acknowledged")
            both = children(process.pid)
            assert len(both) == 2
            for one in both:
                os.kill(one, signal.SIGKILL)
            until(lambda: page.live() and len(set(children(process.pid)) - set(both)) == 2)
            seen = page.text("#scan-time")
            until(lambda: page.live() and page.text("#scan-time") > seen, "scans go on")
            page.keys("4")
            page.click("[data-disturbance=rich]")
            page.keys("1")
            until(lambda: ("RAH-104", "UNACK") in page.rows(), "too much additive")
            assert not page.faults()
        process.send_signal(signal.SIGTERM)
        assert process.wait(60) == 0
    finally:
        process.kill()
        process.communicate()
