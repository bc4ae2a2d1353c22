"""The whole: samples, a real alarmd, the gateway as a process, and the page in a real browser."""

from __future__ import annotations

import json
import os
import shutil
import signal
import socket
import statistics
import time
from collections.abc import Iterator
from pathlib import Path
from typing import Any

import pytest
from browser_help import Keys, Page, browser, until
from http_help import Client
from whole_help import Gateway, gateway, large_plant

pytestmark = [pytest.mark.browser, pytest.mark.server]

QUIET = "level=500 flow=100 temperature=600 running=TRUE"
HEARD = """
const lost = document.getElementById("lost");
window.lostAt = null;
new MutationObserver(() => { if (!lost.hidden && window.lostAt === null) window.lostAt = Date.now(); })
  .observe(lost, { attributes: true, childList: true });
"""


@pytest.fixture(scope="module")
def page() -> Iterator[Page]:
    with browser() as found:
        yield found


@pytest.fixture
def tank(tmp_path: Path, alarmd: Path, examples: Path) -> Iterator[Gateway]:
    """The tank, with Anna and Bert, and nothing wrong in it."""
    with gateway(tmp_path, alarmd, examples / "tank", users=True) as found:
        found.give(QUIET)
        found.wait(lambda: len(found.record()) >= 1)
        yield found


def enter(page: Page, tank: Gateway, name: str = "anna") -> None:
    page.open(tank.url)
    page.login(name)
    page.until_live()


def test_an_alarm_from_its_sample_to_its_shelving(tank: Gateway, page: Page) -> None:
    enter(page, tank)
    until(lambda: page.text("#scan-time") != "no scan yet")
    assert page.rows() == []
    tank.give("level=200")
    until(lambda: page.rows() == [("LAL-101", "UNACK")])
    page.choose("LAL-101")
    page.keys("a")
    until(lambda: page.rows() == [("LAL-101", "ACKED")])
    page.keys("s")
    until(lambda: "LAL-101" in page.text("#shelve .subject"))
    page.keys(
        "30", Keys.TAB, Keys.TAB, Keys.TAB, Keys.TAB, "the level's sensor is cleaned", Keys.ENTER
    )
    until(lambda: page.rows() == [])
    page.keys("2")
    until(lambda: page.rows("#aside") == [("LAL-101", "SHELVED")])
    assert "anna: the level's sensor is cleaned" in page.text("#aside .rows .row")
    orders = [line for line in tank.record() if not line.startswith("scan")]
    remarks = [json.loads(line.removeprefix("# by ")) for line in orders[::2]]
    assert remarks == [
        {"user": "anna"},
        {"user": "anna", "reason": "the level's sensor is cleaned"},
    ]
    assert orders[1::2] == ["ack 1 LAL-101", "shelve 1 LAL-101 1800000"]
    page.keys("3", Keys.HOME)
    page.choose("LAL-101", "#all")
    page.keys("u")
    until(lambda: ("LAL-101", "UNACK") in page.rows("#all"))


def test_within_a_second_of_its_sample(tank: Gateway, page: Page) -> None:
    enter(page, tank)
    until(lambda: page.text("#scan-time") != "no scan yet")
    page.run(
        "window.seen = {};"
        "new MutationObserver(() => { for (const row of document.querySelectorAll('#alarms .rows .row'))"
        " { const key = `${row.dataset.tag} ${row.dataset.code}`; window.seen[key] ??= Date.now(); } })"
        ".observe(document.querySelector('#alarms .rows'), { subtree: true, childList: true, attributes: true })"
    )
    for _ in range(5):  # a machine that is busy elsewhere may hold all of it up, but not always
        took = [seen_after(page, tank, turn) for turn in range(10)]
        print("from a sample to the page:", [f"{1000 * one:.0f} ms" for one in sorted(took)])
        if statistics.median(took) <= 1.0:
            break
    assert statistics.median(took) <= 1.0, took


def seen_after(page: Page, tank: Gateway, turn: int) -> float:
    """Seconds from a sample to its alarm's row."""
    code = "UNACK" if turn % 2 == 0 else "RTNUN"
    page.run("delete window.seen[arguments[0]]", f"LAL-101 {code}")
    sent = time.time()
    tank.give(f"level={200 if turn % 2 == 0 else 500}")
    until(lambda: page.run("return window.seen[arguments[0]]", f"LAL-101 {code}"))
    time.sleep(0.05)
    return float(page.run("return window.seen[arguments[0]]", f"LAL-101 {code}") / 1000 - sent)


def test_the_page_says_within_three_seconds_that_nothing_is_live(tank: Gateway, page: Page) -> None:
    enter(page, tank)
    took = []
    for _ in range(8):  # a machine that is busy elsewhere may hold the browser up, but not always
        page.run(HEARD)
        tank.signal(signal.SIGSTOP)
        halted = time.time()
        until(lambda: page.run("return window.lostAt"))
        took.append(page.run("return window.lostAt") / 1000 - halted)
        assert page.text("#lost").startswith("CONNECTION LOST since")
        tank.signal(signal.SIGCONT)
        page.until_live()
        if took[-1] <= 3.0:
            break
    print("until the page says that nothing is live:", [f"{one:.2f} s" for one in took])
    assert took[-1] <= 3.0, took
    tank.give("level=200")
    until(lambda: page.rows() == [("LAL-101", "UNACK")])


def test_the_server_is_killed_and_the_page_goes_on(tank: Gateway, page: Page) -> None:
    enter(page, tank)
    tank.give("level=200")
    until(lambda: page.rows() == [("LAL-101", "UNACK")])
    page.choose("LAL-101")
    page.keys("a")
    until(lambda: page.rows() == [("LAL-101", "ACKED")])
    os.kill(tank.server(), signal.SIGKILL)
    tank.wait(lambda: any("alarmd" in line for line in tank.told))
    tank.give("temperature=900")
    until(lambda: page.rows() == [("TAHH-102", "UNACK"), ("LAL-101", "ACKED")])
    until(lambda: page.live() and page.text("#troubles") == "")


def test_the_gateway_is_killed_and_the_page_comes_back(tank: Gateway, page: Page) -> None:
    enter(page, tank)
    tank.give("level=200")
    until(lambda: page.rows() == [("LAL-101", "UNACK")])
    tank.process.kill()
    tank.process.wait()
    until(lambda: "CONNECTION LOST" in page.text("#lost"))
    tank.start()
    until(lambda: page.text("#login-message") == "The session has ended.")
    page.login("bert")  # who has the other area
    page.until_live()
    assert page.rows() == []
    page.click("#log-out")
    page.login("anna")
    page.until_live()
    until(lambda: page.rows() == [("LAL-101", "UNACK")])


def test_a_stopped_program_is_shown_with_file_and_line(tank: Gateway, page: Page) -> None:
    enter(page, tank)
    tank.give("flow=0")
    told = until(lambda: page.text("#troubles"))
    assert "control.st line" in told and "division by zero" in told
    line = int(told.split("control.st line ")[1].split(" ")[0])
    source = (tank.folder / "plant" / "control.st").read_text().splitlines()
    assert "/" in source[line - 1]
    tank.give("flow=100")
    page.click("[data-restart=dose]")
    page.click("#confirm-yes")
    until(lambda: page.text("#troubles") == "")


def test_a_question_at_the_start_is_answered_on_the_page(
    tmp_path: Path, alarmd: Path, examples: Path, page: Page
) -> None:
    plant = tmp_path / "later"
    shutil.copytree(examples / "tank", plant)
    text = (plant / "plant.toml").read_text()
    (plant / "plant.toml").write_text(text.replace("2026-11-23", "2399-11-23"))
    with gateway(tmp_path / "served", alarmd, plant, users=True) as served:
        served.give("level=200 running=TRUE flow=100")  # without a flow FAL-103 comes too
        page.open(served.url)
        page.login("anna")
        until(lambda: page.text("#troubles"))
        until(lambda: page.text("#link") == "✕ no scans")
        assert served.record() == []
        page.click("#troubles [data-question]")
        page.click("#confirm-yes")
        page.until_live()
        until(lambda: page.rows() == [("LAL-101", "UNACK")])


def test_a_new_record_is_confirmed_on_the_page(
    tmp_path: Path, alarmd: Path, examples: Path, page: Page
) -> None:
    more: dict[str, Any] = {
        "period": 1000,
        "settings": "rotate_at = 400",
    }  # so that it isn't due by scans alone
    with gateway(tmp_path, alarmd, examples / "tank", users=True, **more) as served:
        served.give(QUIET)
        enter(page, served)
        served.give("level=200")
        until(lambda: page.rows() == [("LAL-101", "UNACK")])
        served.give("temperature=900")
        until(lambda: page.rows()[0] == ("TAHH-102", "UNACK"))
        served.give("temperature=600")
        until(lambda: page.rows()[0] == ("TAHH-102", "LATUN"))  # no order makes it wait again
        for _ in range(400):
            served.give("ack 1 NONE")  # an event each
        until(lambda: "a new record is due" in page.text("#troubles"))
        page.click("#troubles [data-question]")
        until(lambda: "TAHH-102" in page.text("#confirm .subject"))
        page.click("#confirm-yes")
        until(lambda: page.rows() == [("LAL-101", "UNACK")])
        served.wait(lambda: len(list(served.folder.glob("record*"))) >= 2)
        until(lambda: page.live() and "a new record is due" not in page.text("#troubles"))


def test_two_thousand_of_twenty_thousand_alarms_at_once(
    tmp_path: Path, alarmd: Path, page: Page
) -> None:
    plant = large_plant(tmp_path / "large", 20_000, 2_000)
    slow = "patience_ms = 120000"  # a program with checks of memory on a busy machine reads long
    with gateway(tmp_path / "served", alarmd, plant, users=True, settings=slow) as served:
        served.give("trip=FALSE")
        served.wait(lambda: len(served.record()) >= 1)
        enter(page, served)
        until(lambda: page.text("#scan-time") != "no scan yet")
        sent = time.time()
        served.give("trip=TRUE")
        until(lambda: page.run("return document.title").startswith("(2000)"))
        print(f"2,000 alarms on the page after {1000 * (time.time() - sent):.0f} ms")
        print(f"memory of the gateway: {served.memory() / 1e6:.0f} MB")
        assert page.run("return document.querySelectorAll('#alarms .rows .row').length") <= 40
        first = page.rows()[0][0]
        page.keys(Keys.HOME, "a")
        until(lambda: page.run("return document.title").startswith("(1999)"))
        assert page.rows()[0][0] != first
        served.give("trip=FALSE")
        until(lambda: {code for _, code in page.rows()[:5]} == {"RTNUN"})
        # the page comes back with all of them
        page.driver.refresh()
        page.until_live()
        until(lambda: page.run("return document.title").startswith("(1999)"))
        assert not [line for line in served.told if "arning" in line or "Traceback" in line]


def test_what_is_wrong_or_too_much_changes_nothing(tank: Gateway, page: Page) -> None:
    enter(page, tank)
    tank.give("level=200")
    until(lambda: page.rows() == [("LAL-101", "UNACK")])
    client = Client(tank.url)
    assert client.login("anna").status == 200
    token = client.token
    for body in (
        b"{",
        b"[]",
        b"\xff",
        b'{"order":"ack","target":"LAL-101\\nack 1 LAL-101"}',
        b"[" * 9000,
    ):
        headers = {"Content-Type": "application/json", "X-Alarmd-Token": token}
        assert client.ask("/api/order", body, headers).status == 400
    client.token = "x"
    assert client.order("ack", "LAL-101").status == 403
    client.token = token
    assert client.ask("/api/order", b"x" * 10_000_000, headers).status == 413
    channels = []
    for _ in range(1000):
        try:
            channels.append(socket.create_connection(("127.0.0.1", tank.port), 60))
        except OSError:
            pass
    tank.give("temperature=900")
    until(lambda: page.rows() == [("TAHH-102", "UNACK"), ("LAL-101", "UNACK")])
    assert page.live()
    for channel in channels:
        channel.close()
    orders = [line for line in tank.record() if not line.startswith("scan")]
    assert orders == []
    until(lambda: answers(client))
    assert client.order("ack", "LAL-101").json["taken"]
    until(lambda: page.rows() == [("TAHH-102", "UNACK"), ("LAL-101", "ACKED")])


def answers(client: Client) -> bool:
    try:
        return client.ask("/api/state").status == 200
    except OSError:
        return False
