"""Takes the pictures of docs/pictures from the page itself, with what the tests need:

    PYTHONPATH=gateway /usr/bin/python3 gateway/tests/pictures.py ALARMD
"""

from __future__ import annotations

import sys
import tempfile
import time
from pathlib import Path

from browser_help import Keys, Page, browser, until
from small_png import shrink
from whole_help import Gateway, gateway, large_plant

ROOT = Path(__file__).resolve().parents[2]
FOLDER = ROOT / "docs" / "pictures"
LARGEST = 150_000  # bytes


def take(page: Page, name: str) -> None:
    """A picture, once the page has been still for a while."""
    time.sleep(0.7)
    path = FOLDER / f"{name}.png"
    page.driver.save_screenshot(str(path))
    shrink(path)
    size = path.stat().st_size
    print(f"{path.relative_to(ROOT)} {size} bytes")
    assert size <= LARGEST, size


def tank(page: Page, served: Gateway) -> None:
    """The screens, by a session at the tank."""
    page.open(served.url)
    until(lambda: page.text("#login"))
    take(page, "login")
    page.login("anna")
    page.until_live()
    served.give("level=500 flow=100 temperature=600 running=TRUE additive=500")
    until(lambda: page.text("#scan-time") != "no scan yet")
    for line in ("level=200", "temperature=900", "temperature=600", "level=850"):
        served.give(line)
        time.sleep(1.2)
    for line in ("additive=3000", "additive=500", "additive=3000", "additive=500", "additive=3000"):
        served.give(line)
        time.sleep(0.6)
    wanted = {("TAHH-102", "LATUN"), ("LAH-101", "UNACK"), ("RAH-104", "UNACK")}
    until(lambda: wanted <= set(page.rows()))
    page.choose("RAH-104")
    page.keys("a")
    until(lambda: ("RAH-104", "ACKED") in page.rows())
    page.keys(Keys.HOME)
    take(page, "alarms")
    page.choose("LAL-101")
    page.keys("s")
    page.keys("30", Keys.TAB, Keys.TAB, Keys.TAB, Keys.TAB, "the sensor is being cleaned")
    take(page, "shelve")
    page.keys(Keys.ENTER)
    until(lambda: "LAL-101" not in dict(page.rows()))
    page.keys("3")
    page.choose("FAL-103", "#all")
    page.keys("o")
    page.keys("pump is taken out for repair", Keys.ENTER)
    until(lambda: ("FAL-103", "OOS") in page.rows("#all"))
    page.keys(Keys.HOME)
    take(page, "all")
    page.keys("2", Keys.HOME)
    take(page, "aside")
    served.give("flow=0")
    until(lambda: page.text("#troubles"))
    page.keys("1", Keys.HOME)
    take(page, "troubles")
    page.keys("4")
    take(page, "plant")
    page.keys("5")
    until(lambda: "rows 1 to" in page.text("#journal .where"))
    take(page, "journal")
    page.keys("6")
    until(lambda: "Console 1" in page.text("#figures"))
    take(page, "figures")
    page.keys("?")
    take(page, "keys")
    page.keys(Keys.ESCAPE, "1")
    served.end()
    until(lambda: "CONNECTION LOST" in page.text("#lost"))
    take(page, "lost")


def flood(page: Page, served: Gateway) -> None:
    """2,000 of 20,000 alarms."""
    page.open(served.url)
    page.until_live()
    served.give("trip=TRUE")
    until(lambda: page.run("return document.title").startswith("(2000)"))
    page.keys(Keys.ARROW_DOWN)
    take(page, "flood")


def main(alarmd: Path) -> None:
    """All pictures."""
    FOLDER.mkdir(parents=True, exist_ok=True)
    with tempfile.TemporaryDirectory() as room, browser() as page:
        still = {"features": [{"name": "prefers-reduced-motion", "value": "reduce"}]}
        page.driver.execute_cdp_cmd("Emulation.setEmulatedMedia", still)  # so that nothing flashes
        folder = Path(room)
        with gateway(folder / "tank", alarmd, ROOT / "examples" / "tank", users=True) as served:
            tank(page, served)
        plant = large_plant(folder / "large", 20_000, 2_000)
        with gateway(folder / "flood", alarmd, plant, settings="patience_ms = 120000") as served:
            flood(page, served)


if __name__ == "__main__":
    main(Path(sys.argv[1]))
