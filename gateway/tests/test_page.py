"""The operators' page in a browser, before a core without a server: what is shown, what orders do, and the keyboard alone."""

from __future__ import annotations

import asyncio
import threading
import time
from collections.abc import Iterator
from dataclasses import replace
from datetime import datetime, timezone
from typing import Any

import pytest
from aiohttp import web
from browser_help import Keys, Page, browser, until
from fake_core import FakeCore, fake_plant
from http_help import two_users
from served import Served, served

from alarmd_gateway.api import Api
from alarmd_gateway.core import Question
from alarmd_gateway.jobs import UNKNOWN
from alarmd_gateway.live import Live
from alarmd_gateway.model import (
    MOST_EVENTS,
    Code,
    Json,
    Kind,
    Order,
    Region,
    Reply,
    ServerGone,
    Variable,
    Verb,
)
from alarmd_gateway.troubles import TroubleKind
from alarmd_gateway.view import View

pytestmark = pytest.mark.browser


@pytest.fixture(scope="module")
def page() -> Iterator[Page]:
    """One browser for all tests of this file; each opens the page anew."""
    with browser() as found:
        yield found


@pytest.fixture
def site(page: Page) -> Iterator[Served]:
    """A plant of 24 alarms without users, opened in the browser. A2, A1 and A5 are unacknowledged, A0 is acknowledged."""
    with served(FakeCore(fake_plant(24))) as found:
        core = found.core
        found.do(lambda: core.scan(1000, {"A0": Code.UNACK, "A2": Code.UNACK, "A1": Code.UNACK}))
        found.run(core.order(Order(Verb.ACK, 1, "A0"), None, None))
        found.do(lambda: core.scan(61_000, {"A5": Code.UNACK}))
        core.orders.clear()
        page.faults()  # of the test before
        page.open(found.url)
        page.until_live()
        until(lambda: len(page.rows()) == 4)
        yield found
        faults = page.faults()
        page.open("about:blank")
        assert faults == []


def test_unacknowledged_first_then_by_priority_then_the_newest(site: Served, page: Page) -> None:
    # A1 and A5 have priority 2, A2 has 3, A0 has 1 and is acknowledged
    assert page.rows() == [("A5", "UNACK"), ("A1", "UNACK"), ("A2", "UNACK"), ("A0", "ACKED")]
    assert "Unacknowledged" in page.text("#alarms .row[data-tag='A5'] .state")
    assert page.text("#alarms .row[data-tag='A5'] .since") == "06:01:01"
    assert page.text("#alarms .row[data-tag='A5'] .text") == "Tank level low"
    shapes = page.run(
        "return ['A5', 'A2', 'A0'].map((tag) => {"
        "const sign = document.querySelector(`#alarms .row[data-tag='${tag}'] svg`);"
        "return [sign.firstChild.tagName, sign.textContent]})"
    )
    assert shapes == [["polygon", "2"], ["polygon", "3"], ["rect", "1"]]
    assert page.text("#counts").split() == [
        "1",
        "0",
        "/1",
        "2",
        "2",
        "/2",
        "3",
        "1",
        "/1",
        "4",
        "0",
        "/0",
    ]
    assert page.run("return document.title") == "(3) Buffer tank"


def test_only_what_waits_flashes(site: Served, page: Page) -> None:
    def fills() -> list[str]:
        return [
            str(fill)
            for fill in page.run(
                "return ['A5', 'A0'].map((tag) => getComputedStyle("
                "document.querySelector(`#alarms .row[data-tag='${tag}'] svg > *`)).fill)"
            )
        ]

    seen: list[list[str]] = []

    def changed() -> bool:
        seen.append(fills())
        return len({fill for fill, _ in seen}) == 2

    until(changed)
    assert len({fill for _, fill in seen}) == 1


def test_acknowledge_one(site: Served, page: Page) -> None:
    page.choose("A1")
    page.click("#alarms [data-order=ack]")
    until(lambda: ("A1", "ACKED") in page.rows())
    assert site.core.orders == [(Order(Verb.ACK, 1, "A1"), None, None)]
    until(lambda: page.text("#message") == "A1: acknowledged")
    # the chosen alarm stays chosen, and no other one is acknowledged by a second press
    page.keys("a")
    until(lambda: "acknowledged: the order isn't for that" in page.text("#message"))
    assert len(site.core.orders) == 1


def test_an_order_that_is_under_way_isnt_given_again(site: Served, page: Page) -> None:
    core, door = site.core, threading.Event()

    async def slow(
        order: Order, user: str | None, reason: str | None, seen: int | None = None
    ) -> Reply:
        core.orders.append((order, user, reason))
        await asyncio.to_thread(door.wait, 60)
        return Reply("OK", ())

    site.do(lambda: setattr(core, "order", slow))
    page.choose("A1")
    page.keys("a", "a", "a")
    until(lambda: "this order is under way" in page.text("#message"))
    time.sleep(0.5)  # until the rows have been there for long enough
    page.keys("v")  # A5, A1 and A2, one after another
    until(lambda: len(core.orders) == 2)
    door.set()
    until(lambda: page.text("#message").startswith("2 acknowledged, 1 not: A1"))
    assert [order.target for order, _, _ in core.orders] == ["A1", "A5", "A2"]


def test_of_an_order_without_an_answer_it_isnt_said_that_it_wasnt_taken(
    site: Served, page: Page
) -> None:
    """The connection of an order ends, as by a cable that is pulled, while the order waits for its turn."""
    core, take, door = site.core, site.core.order, threading.Event()
    gone = f"alarmd has ended, so {UNKNOWN}"

    async def slow(
        order: Order, user: str | None, reason: str | None, seen: int | None = None
    ) -> Reply:
        await asyncio.to_thread(door.wait, 60)
        await take(order, user, reason)
        raise ServerGone(gone, 1)

    site.do(lambda: setattr(core, "order", slow))
    page.run(
        "const ask = window.fetch;"
        "window.fetch = (path, options) => path === '/api/order' ?"
        "  ask(path, { ...options, signal: AbortSignal.timeout(300) }) : ask(path, options)"
    )
    page.choose("A1")
    page.keys("a")
    until(lambda: page.text("#message") == f"A1: the gateway doesn't answer, so {UNKNOWN}")
    time.sleep(0.5)  # until the rows have been there for long enough
    page.keys("v")
    told = f"0 acknowledged, 3 perhaps not: A5: the gateway doesn't answer, so {UNKNOWN}"
    until(lambda: page.text("#message") == told)
    door.set()
    until(lambda: ("A1", "ACKED") in page.rows() and len(core.orders) == 4)  # all were taken
    site.do(lambda: core.scan(62_000, {"A2": Code.RTNUN}))
    until(lambda: ("A2", "RTNUN") in page.rows() and not page.run(AWAY))
    page.choose("A2")
    page.keys("a")
    until(lambda: page.text("#message") == f"A2: {gone}")
    gone = "the order wasn't taken: nobody scans"  # this is known
    page.choose("A5")
    page.keys("o")
    page.keys("broken wire", Keys.ENTER)
    until(lambda: page.text("#message") == f"A5: not out of service, {gone}")
    page.faults()


def test_what_a_proxy_answers_tells_nothing_of_an_order(site: Served, page: Page) -> None:
    """As where it has waited long enough, or the gateway ended behind an order."""
    page.run(
        "const ask = window.fetch;"
        "window.fetch = async (path, options) => { const answer = await ask(path, options);"
        "  return path === '/api/order' ? new Response('<html>', { status: 504 }) : answer }"
    )
    page.choose("A1")
    page.keys("a")
    told = f"A1: the answer couldn't be read (504), so {UNKNOWN}"
    until(lambda: page.text("#message") == told)
    assert [order.target for order, _, _ in site.core.orders] == ["A1"]


def test_a_page_that_comes_by_plain_http_orders(site: Served, page: Page) -> None:
    """As behind a proxy in the plant's own network: there a browser has less of `crypto`."""
    page.run("delete Crypto.prototype.randomUUID")
    page.choose("A1")
    page.keys("a")
    until(lambda: page.text("#message") == "A1: acknowledged")


AWAY = "return document.querySelectorAll('#alarms .row.away').length"


def test_an_order_that_the_browser_sends_again_is_given_once(
    page: Page, monkeypatch: pytest.MonkeyPatch
) -> None:
    """It does so by itself where a connection that was used before ends without an answer."""
    order, came = Api.order, []

    async def cut(api: Api, request: web.Request) -> web.Response:
        answer = await order(api, request)
        came.append(answer.status)
        if len(came) == 1:
            assert request.transport is not None
            request.transport.close()
        return answer

    monkeypatch.setattr(Api, "order", cut)
    with served() as site:
        site.do(lambda: site.core.scan(1000, {"A2": Code.UNACK}))
        page.open(site.url)
        page.until_live()
        until(page.rows)
        page.choose("A2")
        page.keys("a")
        until(lambda: page.text("#message") == "A2: acknowledged")
        assert came == [200, 200] and len(site.core.orders) == 1
    page.faults()


def test_shelve_with_a_time_and_a_reason(site: Served, page: Page) -> None:
    page.choose("A2")
    page.click("#alarms [data-order=shelve]")
    until(lambda: page.text("#shelve .subject").startswith("A2"))
    page.keys("61", Keys.ENTER)  # longer than an hour: the form doesn't take it
    assert page.run("return document.querySelector('#shelve').open")
    page.run("document.querySelector('#shelve-minutes').select()")
    page.keys("2.5", Keys.ENTER)
    assert page.run("return document.querySelector('#shelve').open")  # a reason is wanted
    page.run("document.querySelector('#shelve-reason').focus()")
    page.keys("  ", Keys.ENTER)
    assert page.text("#shelve .fault") == "A reason is wanted."
    page.keys("sensor <b>cleaned</b>", Keys.ENTER)
    until(lambda: ("A2", "UNACK") not in page.rows())
    reason = "sensor <b>cleaned</b>"
    assert site.core.orders == [(Order(Verb.SHELVE, 1, "A2", 150_000), None, reason)]
    page.click("#tab-aside")
    assert page.rows("#aside") == [("A2", "SHELVED")]
    assert page.text("#aside .row[data-tag='A2'] .until") == "06:03:31"
    short = "const w = await import('/page/words.js'); return arguments[0].map((time) => w.shortTime(time, '2026-11-23T06:00'))"
    times = [
        "2026-11-23T05:59:59.999Z",
        "2026-11-24T00:16:00.000Z",
        "2027-01-01T00:00:00.000Z",
        "2027-11-25T00:00:00.000Z",
        None,
    ]
    wanted = ["05:59:59", "11-24 00:16", "01-01 00:00", "2027-11-25", ""]
    assert page.run(short, times) == wanted
    assert page.text("#aside .row[data-tag='A2'] .why") == reason
    page.choose("A2", "#aside")
    page.click("#aside [data-order=unshelve]")
    until(lambda: page.rows("#aside") == [])


def test_an_alarm_that_may_be_shelved_for_seconds_alone(page: Page) -> None:
    plant = fake_plant(4)
    rows = tuple(replace(row, max_shelve_ms=5000) for row in plant.alarms)
    short = replace(plant, alarms=rows, by_tag={row.tag: row for row in rows})
    with served(FakeCore(short)) as site:
        site.do(lambda: site.core.scan(1000, {"A2": Code.UNACK}))
        page.open(site.url)
        page.until_live()
        until(page.rows)
        page.choose("A2")
        page.keys("s")
        until(lambda: "at most 5 s" in page.text("#shelve .subject"))
        page.run("document.querySelector('#shelve-reason').focus()")
        page.keys("cleaned", Keys.ENTER)
        until(lambda: site.core.orders)
        assert site.core.orders == [(Order(Verb.SHELVE, 1, "A2", 5000), None, "cleaned")]
    page.faults()


def test_an_alarm_that_may_not_be_shelved(site: Served, page: Page) -> None:
    page.choose("A1")
    assert page.run("return document.querySelector('#alarms [data-order=shelve]').disabled")
    page.keys("s")
    until(lambda: page.text("#message") == "A1 is unacknowledged: it may not be shelved.")
    assert site.core.orders == []


def test_out_of_service_return_and_the_lists(site: Served, page: Page) -> None:
    site.do(lambda: site.core.scan(62_000, {"A7": Code.SUPPR, "A4": Code.LATAK}))
    page.choose("A1")
    page.click("#alarms [data-order=remove]")
    page.keys("broken wire", Keys.ENTER)
    until(lambda: "A1" not in dict(page.rows()))
    page.choose("A4")
    page.click("#alarms [data-order=reset]")
    until(lambda: "A4" not in dict(page.rows()))
    page.click("#tab-aside")
    until(lambda: page.rows("#aside") == [("A1", "OOS"), ("A7", "SUPPR")])
    assert page.text("#aside .choice").split("\n") == [
        "All 2",
        "Shelved 0",
        "Suppressed 1",
        "Out of service 1",
    ]
    page.click("#aside [data-code=SUPPR]")
    until(lambda: page.rows("#aside") == [("A7", "SUPPR")])
    page.click("#aside [data-code=OOS]")
    until(lambda: page.rows("#aside") == [("A1", "OOS")])
    assert "broken wire" in page.text("#aside .row[data-tag='A1'] .why")
    page.choose("A1", "#aside")
    page.click("#aside [data-order=return]")
    until(lambda: page.rows("#aside") == [])
    assert [order.verb.value for order, _, _ in site.core.orders] == ["remove", "reset", "return"]


def test_a_new_record_is_shown_as_it_is(site: Served, page: Page) -> None:
    site.do(site.core.anew)
    until(lambda: page.rows() == [])
    site.do(lambda: site.core.scan(1000, {"A3": Code.UNACK}))
    until(lambda: page.rows() == [("A3", "UNACK")])
    assert page.live()


def test_a_plant_that_was_taken_up_is_shown(site: Served, page: Page) -> None:
    site.do(lambda: site.core.reload(fake_plant(3, "Another tank")))
    until(lambda: page.text("#plant-name") == "Another tank")
    page.until_live()
    until(lambda: page.rows() == [])
    page.click("#tab-all")
    until(lambda: [tag for tag, _ in page.rows("#all")] == ["A0", "A1", "A2"])
    page.click("#tab-journal")
    until(lambda: "0 alarms go on, 1 begin anew · anna" in page.text("#journal .rows"))
    site.do(lambda: site.core.scan(70_000, {"A2": Code.UNACK}))
    page.click("#tab-alarms")
    until(lambda: page.rows() == [("A2", "UNACK")])


def test_a_plant_that_is_taken_up_while_a_page_begins(
    page: Page, monkeypatch: pytest.MonkeyPatch
) -> None:
    """The page has the plant of its snapshot, also where another one is taken up right after it was asked for the first one."""
    core, table = FakeCore(fake_plant(3)), View.table
    asked: list[str] = []

    def once(view: View) -> dict[str, Json]:
        found = table(view)
        asked.append(core.plant.name)
        if len(asked) == 1:
            core.reload(fake_plant(6, "Another tank"))
        return found

    monkeypatch.setattr(View, "table", once)
    with served(core) as site:
        page.open(site.url)
        until(lambda: asked)
        site.do(lambda: core.scan(2000, {"A5": Code.UNACK}))
        page.until_live()
        until(lambda: page.rows() == [("A5", "UNACK")])
        assert page.text("#plant-name") == "Another tank"
    page.faults()


def test_the_area_filter_says_what_it_hides(site: Served, page: Page) -> None:
    page.keys("f")
    page.keys("d", Keys.ENTER)  # dosing
    until(lambda: page.rows() == [("A0", "ACKED")])
    until(lambda: "3 unacknowledged in other areas" in page.text("#counts"))
    page.run(
        "const a = document.querySelector('#area'); a.value = ''; a.dispatchEvent(new Event('change'))"
    )
    until(lambda: len(page.rows()) == 4)


def test_a_stopped_program_is_told_above_all_alarms_and_restarted(site: Served, page: Page) -> None:
    site.do(lambda: site.core.stops("dose"))
    told = until(lambda: page.text("#troubles"))
    assert "Program stopped" in told and "control.st line 34 (division by zero)" in told
    above = "return document.querySelector(arguments[0]).getBoundingClientRect().bottom"
    assert page.run(above, "#troubles") <= page.run(above, "#tabs")
    page.click("#troubles [data-restart=dose]")
    page.click("#confirm-yes")
    until(lambda: page.text("#troubles") == "")
    assert site.core.orders == [(Order(Verb.RESTART, 1, "dose"), None, None)]


def test_troubles_stand_above_and_the_worst_first(site: Served, page: Page) -> None:
    troubles = site.core.troubles
    for number in range(50):
        site.do(lambda: troubles.raises(TroubleKind.STALE, f"in{number}", f"in{number} is stale"))
    site.do(lambda: troubles.raises(TroubleKind.SOURCE, "broker", "the broker is lost"))
    until(lambda: "48 more" in page.text("#troubles"))
    kinds = (
        "return [...document.querySelectorAll('#troubles .trouble')].map((one) => one.dataset.kind)"
    )
    assert page.run(kinds) == ["source", "stale", "stale"]
    assert len(page.rows()) >= 4 and page.live()
    page.choose("A5")
    # the server is silent: then nothing that is shown is live
    site.do(lambda: troubles.raises(TroubleKind.SILENCE, "", "no answer for 10 s"))
    until(lambda: page.text("#link") == "✕ no scans")
    assert page.run(kinds)[0] == "silence"
    assert page.run("return document.body.classList.contains('lost')")
    page.keys("a", "v", "o")
    assert not page.run("return document.querySelector('dialog[open]')")
    site.do(lambda: troubles.clear(TroubleKind.SILENCE, ""))
    page.until_live()
    assert site.core.orders == []
    page.keys("a")  # and now it is taken
    until(lambda: ("A5", "ACKED") in page.rows())


def test_a_dialog_that_is_open_orders_nothing_by_what_isnt_live(site: Served, page: Page) -> None:
    core = site.core
    site.do(lambda: core.stops("dose"))
    page.choose("A5")
    page.keys("o")
    until(lambda: page.text("#remove .subject"))
    site.do(lambda: core.troubles.raises(TroubleKind.SERVER, "", "alarmd has ended"))
    until(lambda: page.text("#link") == "✕ no scans")
    page.keys("broken wire", Keys.ENTER)
    told = "A5: not out of service, nothing on this page is live"
    until(lambda: page.text("#message") == told)
    site.do(lambda: core.troubles.clear(TroubleKind.SERVER, ""))
    page.until_live()
    page.click("#troubles [data-restart=dose]")
    site.do(lambda: core.troubles.raises(TroubleKind.SERVER, "", "alarmd has ended"))
    until(lambda: page.text("#link") == "✕ no scans")
    page.click("#confirm-yes")
    until(lambda: page.text("#message") == "dose: not restarted, nothing on this page is live")
    assert core.orders == []


def test_with_a_full_history_nothing_is_live(site: Served, page: Page) -> None:
    """No scan is taken any more, whether a scan or an order was the last event."""
    core = site.core

    def to_the_last_but_one() -> None:
        core.state.events = MOST_EVENTS - 2
        core.scan(62_000, {"A2": Code.RTNUN})

    site.do(to_the_last_but_one)
    until(lambda: ("A2", "RTNUN") in page.rows())
    assert page.live()
    page.choose("A1")
    page.keys("a")
    until(lambda: page.text("#link") == "✕ no scans")
    assert page.run("return document.body.classList.contains('lost')")
    page.choose("A5")
    page.keys("a")
    site.do(core.anew)
    page.until_live()
    assert [order.target for order, _, _ in core.orders] == ["A1"]


def test_a_trouble_of_another_day_has_its_date(site: Served, page: Page) -> None:
    site.do(lambda: site.core.stops("dose"))
    until(lambda: page.text("#troubles .since") == "06:01:01")
    site.do(lambda: site.core.scan(86_400_000, {}))
    until(lambda: page.text("#troubles .since") == "11-23 06:01")


def test_a_question_is_shown_and_answered(site: Served, page: Page) -> None:
    now = datetime.now(timezone.utc)
    asked = (
        Question(3, "record", "A new record is due.", ("A1 will be forgotten",), now),
        Question(4, "clock", "The epoch is in the future. Go on?", (), now),
    )
    for question in asked:
        site.do(lambda question=question: site.core.ask(question))  # type: ignore[misc]
    until(lambda: "A new record is due." in page.text("#troubles"))
    until(lambda: page.text("#link") == "✕ no scans")  # with the clock in doubt there are none
    page.click("#troubles [data-question='4']")
    until(lambda: "in the future" in page.text("#confirm .subject"))
    page.click("#confirm-cancel")
    page.click("#troubles [data-question='4']")
    page.click("#confirm-yes")
    page.until_live()
    page.click("#troubles [data-question='3']")
    until(lambda: "A1 will be forgotten" in page.text("#confirm .subject"))
    assert page.text("#confirm-no") == "No: ask again later"
    page.click("#confirm-no")
    until(lambda: page.text("#troubles") == "")
    assert site.core.answers == [(4, True, 1, None), (3, False, 1, None)]


def test_texts_of_the_plant_are_texts(page: Page) -> None:
    bad = "<img src=x onerror=alert(1)>"
    plant = fake_plant(4, name=f"{bad}tank")
    with served(FakeCore(plant)) as site:
        site.do(lambda: site.core.scan(1000, {"A1": Code.UNACK}))
        site.do(lambda: site.core.troubles.raises(TroubleKind.SOURCE, bad, f"{bad} is lost"))
        reason = f"{bad}<script>alert(2)</script>"
        site.run(site.core.order(Order(Verb.REMOVE, 1, "A2"), bad, reason))
        page.open(site.url)
        page.until_live()
        for key in "123456":
            page.keys(key)
        page.keys("2")
        until(lambda: reason in page.text("#aside .row[data-tag='A2'] .why"))
        assert page.text("#plant-name") == f"{bad}tank" and bad in page.text("#troubles")
        assert (
            page.run("return document.querySelectorAll('img, main script, header script').length")
            == 0
        )
        assert page.faults() == []


def test_the_plant_the_journal_and_the_figures(site: Served, page: Page) -> None:
    site.do(lambda: site.core.scan(63_000, {}, pump=True))
    page.click("#tab-plant")
    until(lambda: page.text("#plant .outputs .row[data-name=pump] .value") == "TRUE")
    assert page.text("#plant .inputs .row[data-name=level] .value") == "0"
    site.do(lambda: site.core.stops("dose"))
    until(lambda: "STOPPED" in page.text("#plant .programs"))
    page.click("#tab-journal")
    until(lambda: "rows 1 to 6 of 6" in page.text("#journal .where"))
    numbers = "return [...document.querySelectorAll('#journal .rows .row')].map((row) => row.innerText.split('\\n')[0])"
    assert sorted(page.run(numbers), key=int) == ["1", "2", "3", "4", "5", "6"]
    site.do(lambda: site.core.scan(64_000, {"A8": Code.UNACK}))  # a new row comes by itself
    until(lambda: "rows 1 to 7 of 7" in page.text("#journal .where"))
    assert page.run("return document.querySelector('#journal-csv').href").endswith(
        "/api/journal.csv?spreadsheet=1"
    )
    page.click("#tab-figures")
    until(lambda: "Console 2" in page.text("#figures"))
    told = page.text("#figures")
    for title in (
        "Annunciated alarms",
        "By priority",
        "Ten most frequent",
        "Chattering",
        "Stale",
        "Shelved now",
    ):
        assert title in told
    assert "80 %" in told and "less than 1 %" in told
    assert "all of these\t5\t▲ 100.0 %" in told  # the recommendation is for all ten


def test_a_time_is_shown_to_its_last_digit(page: Page) -> None:
    """A browser's numbers are exact up to 2^53 alone."""
    ran = Variable("ran", Kind.TIME, Region.OUTPUT, 0, "points.st", 4)
    plant = fake_plant()
    with served(FakeCore(replace(plant, outputs={**plant.outputs, "ran": ran}))) as site:
        site.do(lambda: site.core.scan(1000, ran=2**63 - 1))
        page.open(site.url)
        page.until_live()
        page.keys("4")
        shown = "#plant .outputs .row[data-name=ran] .value"
        until(lambda: page.text(shown) == "9223372036854775807")
        site.do(lambda: site.core.scan(2000, ran=-(2**53) - 1))
        until(lambda: page.text(shown) == "-9007199254740993")
        site.do(lambda: site.core.scan(3000, ran=2**53 - 1))
        until(lambda: page.text(shown) == "9007199254740991")
    page.faults()


def test_a_journal_of_many_pages(site: Served, page: Page) -> None:
    def fill() -> None:
        for scan in range(1, 501):
            site.core.scan(70_000 + scan, {"A9": Code.UNACK if scan % 2 else Code.RTNUN})

    site.do(fill)
    page.click("#tab-journal")
    until(lambda: "rows 307 to 506 of 506" in page.text("#journal .where"))
    page.click("#journal-oldest")
    until(lambda: page.text("#journal .where") == "rows 1 to 200 of 506")
    page.click("#journal-later")
    until(lambda: page.text("#journal .where") == "rows 201 to 400 of 506")
    page.click("#journal-later")
    until(lambda: page.text("#journal .where") == "rows 401 to 506 of 506")
    assert page.run("return document.querySelector('#journal-later').disabled")
    page.run("document.querySelector('#journal-from').focus()")
    page.keys("250", Keys.ENTER)
    until(lambda: page.text("#journal .where") == "rows 250 to 449 of 506")


def test_a_page_of_the_journal_begins_with_its_first_row_and_goes_on(
    site: Served, page: Page
) -> None:
    core = site.core

    def fill(first: int) -> None:
        for scan in range(first, first + 300):
            core.scan(70_000 + scan, {"A9": Code.UNACK if scan % 2 else Code.RTNUN})

    where = "#journal .where"
    site.do(lambda: fill(1))
    page.click("#tab-journal")
    until(lambda: page.text(where) == "rows 107 to 306 of 306, the newest first")
    page.run("document.querySelector('#journal .rows').scrollTop = 3000")
    page.run(
        "for (const id of ['newest', 'oldest']) document.getElementById(`journal-${id}`).click()"
    )
    until(lambda: page.text(where) == "rows 1 to 200 of 306")
    assert page.run("return document.querySelector('#journal .rows').scrollTop") == 0
    page.click("#journal-later")
    until(lambda: page.text(where) == "rows 201 to 306 of 306")
    site.do(lambda: fill(301))  # the page isn't full: it goes on
    until(lambda: page.text(where) == "rows 201 to 400 of 606")
    page.click("#journal-later")
    until(lambda: page.text(where) == "rows 401 to 600 of 606")
    page.run("const from = document.getElementById('journal-from'); from.value = -5; from.focus()")
    page.keys(Keys.ENTER)
    until(lambda: page.text(where) == "rows 1 to 200 of 606")
    site.do(core.anew)  # nothing of the record before is shown as one of the new one
    until(lambda: page.text(where) == "no rows of 0")


def test_times_of_another_year_are_told_with_their_hour(site: Served, page: Page) -> None:
    since = "#alarms .row[data-tag='A5'] .since"
    year = 365 * 86_400_000
    for moment, wanted in ((year, "11-23 06:01"), (year + 61_000, "2026-11-23")):
        site.do(lambda: site.core.scan(moment, {}))
        until(lambda: page.text(since) == wanted, wanted)


def test_a_search_finds_a_letter_however_its_mark_is_written(page: Page) -> None:
    plant = fake_plant()
    texts = {"A0": "Za\u0308hler zu hoch", "A1": "Z\u00e4hler zu tief"}
    rows = tuple(replace(row, text=texts.get(row.tag, row.text)) for row in plant.alarms)
    with served(
        FakeCore(replace(plant, alarms=rows, by_tag={row.tag: row for row in rows}))
    ) as site:
        page.open(site.url)
        page.until_live()
        page.keys("3")
        for word in ("Z\u00c4HLER", "Za\u0308hler"):
            page.run(
                "const search = document.getElementById('search'); search.value = arguments[0];"
                "search.dispatchEvent(new Event('input'))",
                word,
            )
            until(lambda: page.rows("#all") == [("A0", "NORM"), ("A1", "NORM")], word)
    page.faults()


def test_a_journal_whose_newest_rows_are_of_others(page: Page) -> None:
    """What Bert may not see doesn't look as if there were no rows."""
    with served(users=two_users()) as site:
        core = site.core

        def fill() -> None:
            core.scan(1000, {"A0": Code.UNACK})
            for scan in range(2, 252):
                core.scan(1000 * scan, {"A1": Code.RTNUN if scan % 2 else Code.UNACK})

        site.do(fill)
        page.open(site.url)
        page.login("bert")
        page.until_live()
        page.keys("5")
        until(
            lambda: page.text("#journal .where") == "rows 52 to 251 of 251: none is of your areas"
        )
        page.click("#journal-earlier")
        until(lambda: page.text("#journal .where") == "rows 1 to 1 of 251")
    page.faults()


def test_twenty_thousand_alarms_of_which_two_thousand_come_at_once(page: Page) -> None:
    with served(FakeCore(fake_plant(20_000))) as site:
        page.open(site.url)
        page.until_live()
        begun = time.monotonic()
        site.do(
            lambda: site.core.scan(1000, {f"A{10 * number}": Code.UNACK for number in range(2000)})
        )
        until(lambda: page.run("return document.title").startswith("(2000)"))
        took = time.monotonic() - begun
        assert took < 30, took
        drawn = page.run("return document.querySelectorAll('#alarms .rows .row').length")
        assert 10 <= drawn <= 40
        height = page.run("return document.querySelector('#alarms .spacer').offsetHeight")
        assert height == 2000 * 40
        time.sleep(0.5)  # rows that nobody can have read aren't acknowledged
        seen = page.run(
            "const box = document.querySelector('#alarms .rows').getBoundingClientRect();"
            "return [...document.querySelectorAll('#alarms .rows .row')].filter((row) => {"
            "const r = row.getBoundingClientRect(); return r.top >= box.top - 1 && r.bottom <= box.bottom + 1})"
            ".map((row) => row.dataset.tag).sort()"
        )
        page.keys("v")
        until(lambda: page.text("#message") == f"{len(seen)} acknowledged")
        assert sorted(order.target for order, _, _ in site.core.orders) == seen
        until(lambda: page.run("return document.title").startswith(f"({2000 - len(seen)})"))
        page.keys(Keys.END)
        until(lambda: page.rows()[-1][1] == "ACKED")
        until(lambda: "unacknowledged above" in page.text("#alarms .above"))
        page.keys("3")  # all of them
        until(
            lambda: page.run("return document.querySelector('#all .spacer').offsetHeight")
            == 800_000
        )
        page.keys("/", "a19999")
        until(lambda: page.rows("#all") == [("A19999", "NORM")])
        assert page.faults() == []


def test_before_all_that_stands_is_there_nothing_looks_live(
    page: Page, monkeypatch: pytest.MonkeyPatch
) -> None:
    """A page without a snapshot has an empty list, which would look like a plant without alarms."""
    handle, door = Live.handle, threading.Event()

    async def late(live: Live, request: web.Request) -> web.WebSocketResponse:
        await asyncio.to_thread(door.wait, 60)
        return await handle(live, request)

    monkeypatch.setattr(Live, "handle", late)
    with served() as site:
        site.do(lambda: site.core.scan(1000, {"A1": Code.UNACK}))
        page.open(site.url)
        until(lambda: page.text("#link"))
        assert page.text("#link") == "✕ not live yet"
        assert page.run("return document.body.classList.contains('lost')")
        door.set()
        page.until_live()
        assert page.rows() == [("A1", "UNACK")]
        assert not page.run("return document.body.classList.contains('lost')")
    page.faults()


WHOLE: dict[str, Any] = {"width": 1280, "height": 800, "deviceScaleFactor": 1}
COME_AGAIN = "A1: not acknowledged, it has come again since it was read"
PRESS = "document.dispatchEvent(new KeyboardEvent('keydown', { key: 'v', bubbles: true }))"


def test_what_nobody_can_have_read_isnt_acknowledged_with_the_others(page: Page) -> None:
    with served(FakeCore(fake_plant(60))) as site:
        core = site.core
        site.do(lambda: core.scan(1000, {f"A{number}": Code.UNACK for number in range(60)}))
        page.open(site.url)
        page.until_live()
        until(lambda: len(page.rows()) > 10)
        time.sleep(0.5)  # until those that are seen can have been read
        before = page.run(
            "const box = document.querySelector('#alarms .rows'), end = box.getBoundingClientRect().bottom + 1;"
            "const seen = [...box.querySelectorAll('.row')].filter((row) => row.getBoundingClientRect().bottom <= end);"
            f"box.scrollTop = 80; await new Promise(requestAnimationFrame); {PRESS};"
            "return seen.map((row) => row.dataset.tag)"
        )
        until(lambda: page.text("#message").endswith("acknowledged"))
        tags = [order.target for order, _, _ in core.orders]
        assert tags and set(tags) < set(before)  # and not those that have come into sight
    page.faults()


def seen(page: Page, screen: str = "#alarms") -> list[str]:
    """The tags of the rows that are wholly seen, from above."""
    found = page.run(
        "const box = document.querySelector(`${arguments[0]} .rows`), place = box.getBoundingClientRect();"
        "return [...box.querySelectorAll('.row')].map((row) => [row.getBoundingClientRect(), row.dataset.tag])"
        ".filter(([at]) => at.top >= place.top - 1 && at.bottom <= place.bottom + 1)"
        ".sort((a, b) => a[0].top - b[0].top).map(([, tag]) => tag)",
        screen,
    )
    return [str(tag) for tag in found]


def test_what_is_read_stays_in_its_place_where_the_row_above_goes_elsewhere(page: Page) -> None:
    with served(FakeCore(fake_plant(60))) as site:
        core = site.core
        site.do(lambda: core.scan(1000, {f"A{number}": Code.UNACK for number in range(60)}))
        page.open(site.url)
        page.until_live()
        until(lambda: len(page.rows()) > 10)
        page.run("document.querySelector('#alarms .rows').scrollTop = 200")
        until(lambda: seen(page)[0] == "A20")
        before = seen(page)
        site.run(core.order(Order(Verb.ACK, 1, "A20"), None, None))  # by somebody else
        until(lambda: seen(page)[0] != "A20")
        assert seen(page)[1:] == before[1:]  # one from above has taken its place
        assert page.text("#alarms .above") == "▲ 4 unacknowledged above"
    page.faults()


def test_at_twice_the_size_rows_are_seen_and_no_other_one_is_acknowledged(page: Page) -> None:
    """At 1280 x 800 that is a page of 640 x 400, of which a part is seen."""
    command = page.driver.execute_cdp_cmd
    half = {"width": 640, "height": 400, "deviceScaleFactor": 2, "mobile": False}
    with served(FakeCore(fake_plant(60))) as site:
        core = site.core
        site.do(lambda: core.scan(1000, {f"A{number}": Code.UNACK for number in range(60)}))
        page.open(site.url)
        page.until_live()
        button = "#alarms [data-order=ack-seen]"
        until(lambda: "(" in page.text(button))
        try:
            command("Emulation.setDeviceMetricsOverride", half)
            on_screen = (
                "return [...document.querySelectorAll('#alarms .rows .row')].filter((row) => "
                "row.getBoundingClientRect().bottom <= innerHeight + 1).length"
            )
            until(lambda: 1 <= page.run(on_screen) < 6)
            count = page.run(on_screen)
            until(lambda: page.text(button).endswith(f"({count})"))  # without a scan
            assert page.run("return link.getBoundingClientRect().right <= innerWidth")
            time.sleep(0.5)
            page.keys("v")
            until(lambda: page.text("#message") == f"{count} acknowledged")
            page.run("scrollTo(0, 10000)")
            until(lambda: int(page.text(button).split("(")[1].rstrip(")")) > count)
        finally:
            command("Emulation.setDeviceMetricsOverride", {**WHOLE, "mobile": False})
    page.faults()


def test_with_colours_of_the_system_the_chosen_one_is_seen(site: Served, page: Page) -> None:
    def ground(css: str) -> str:
        return str(
            page.run(
                "return getComputedStyle(document.querySelector(arguments[0])).backgroundColor", css
            )
        )

    try:
        media = [{"name": "forced-colors", "value": "active"}]
        page.driver.execute_cdp_cmd("Emulation.setEmulatedMedia", {"features": media})
        page.choose("A1")
        until(lambda: ground("#alarms .row[data-tag=A1]") != ground("#alarms .row[data-tag=A2]"))
        assert ground("#tab-alarms") != ground("#tab-aside")
        page.keys("2")
        until(lambda: ground("#aside [data-code='']") != ground("#aside [data-code=OOS]"))
        site.do(lambda: site.core.troubles.raises(TroubleKind.SERVER, "", "it has ended"))
        stripes = (
            "return getComputedStyle(document.querySelector('main'), '::after').backgroundImage"
        )
        until(lambda: "gradient" in str(page.run(stripes)))
    finally:
        page.driver.execute_cdp_cmd("Emulation.setEmulatedMedia", {"features": []})


def test_an_alarm_that_comes_again_is_to_be_read_anew(site: Served, page: Page) -> None:
    site.do(lambda: site.core.scan(62_000, {"A4": Code.LATAK}))
    until(lambda: ("A4", "LATAK") in page.rows())
    time.sleep(0.5)  # until its row has been there for long enough
    page.run(
        "const row = document.querySelector('#alarms .row[data-tag=A4]');"
        "const watch = new MutationObserver(() => {"
        f"if (row.dataset.code === 'UNACK') {{ watch.disconnect(); {PRESS}; }} }});"
        "watch.observe(row, { attributes: true });"
    )
    site.do(lambda: site.core.scan(63_000, {"A4": Code.UNACK}))
    until(lambda: page.text("#message") == "3 acknowledged")
    assert ("A4", "UNACK") in page.rows()
    time.sleep(0.5)
    page.keys("v")
    until(lambda: ("A4", "ACKED") in page.rows())


@pytest.mark.parametrize("key, told", [("v", "2 acknowledged"), ("a", COME_AGAIN)])
def test_what_has_come_and_isnt_drawn_yet_isnt_read(
    site: Served, page: Page, key: str, told: str
) -> None:
    """As where the browser has much to do. No frame comes here at all."""
    page.choose("A1")
    time.sleep(0.5)  # until the rows have been there for long enough
    page.run(
        "const { setTimeout, JSON: { parse } } = window;"
        "window.requestAnimationFrame = () => 0;"
        "window.setTimeout = (act, ms) => (ms === 250 ? 0 : setTimeout(act, ms));"
        "window.heard = [];"
        "JSON.parse = (text) => { window.heard.push(text); return parse(text); }"
    )
    site.do(lambda: site.core.scan(62_000, {"A1": Code.RTNUN}))
    site.do(lambda: site.core.scan(63_000, {"A1": Code.UNACK}))
    until(lambda: page.run("return window.heard.some((one) => one.includes('\"since\":63000'))"))
    page.keys(key)
    until(lambda: page.text("#message") == told)
    assert site.do(lambda: site.core.state.by_tag["A1"].code) is Code.UNACK
    page.faults()  # the browser tells of a 409


def test_what_comes_again_while_others_are_acknowledged_is_to_be_read(
    site: Served, page: Page, monkeypatch: pytest.MonkeyPatch
) -> None:
    core, door, give = site.core, threading.Event(), site.core.order
    since = {alarm.row.tag: alarm.since for alarm in core.state.alarms}
    read: list[int | None] = []

    async def slow(
        order: Order, user: str | None, reason: str | None, seen: int | None = None
    ) -> Reply:
        while not door.is_set():
            await asyncio.sleep(0.01)
        read.append(seen)
        return await give(order, user, reason, seen)

    monkeypatch.setattr(core, "order", slow)
    time.sleep(0.5)  # until the rows have been there for long enough
    page.keys("v")
    until(lambda: page.text("#alarms .row.away .tag") == "A5")
    site.do(lambda: core.scan(62_000, {"A1": Code.RTNUN, "A2": Code.RTNUN}))
    site.do(lambda: core.scan(63_000, {"A2": Code.UNACK}))
    until(lambda: page.text("#alarms .row[data-tag='A2'] .since") == "06:01:03")
    door.set()
    told = "2 acknowledged, 1 not: A2: it has come again since it was read"
    until(lambda: page.text("#message") == told)
    assert [order.target for order, _, _ in core.orders] == ["A5", "A1"]
    assert read == [since["A5"], since["A1"]]
    time.sleep(0.5)
    page.keys("v")
    until(lambda: page.text("#message") == "1 acknowledged")


def test_what_came_while_the_tab_wasnt_shown_is_to_be_read_first(site: Served, page: Page) -> None:
    show = "Object.defineProperty(document, 'hidden', { value: arguments[0], configurable: true });"
    show += "document.dispatchEvent(new Event('visibilitychange'));"
    page.run(show, True)
    site.do(lambda: site.core.scan(62_000, {"A3": Code.UNACK}))
    until(lambda: ("A3", "UNACK") in page.rows())
    time.sleep(0.8)
    page.run(f"{show} {PRESS}", False)
    time.sleep(0.8)
    assert site.core.orders == []
    page.keys("v")
    until(lambda: page.text("#message") == "4 acknowledged")


def test_the_keys_are_where_they_are_with_letters_that_arent_latin(
    site: Served, page: Page
) -> None:
    def press(key: str, code: str) -> None:
        given = {"key": key, "code": code, "text": key}
        for kind in ("keyDown", "keyUp"):
            page.driver.execute_cdp_cmd("Input.dispatchKeyEvent", {"type": kind, **given})

    page.choose("A5")
    press("\u00e6", "KeyQ")  # Q isn't among the keys
    press("\u0444", "KeyA")  # Cyrillic
    until(lambda: page.text("#message") == "A5: acknowledged")
    page.choose("A2")
    page.run(
        "document.dispatchEvent(new KeyboardEvent('keydown', "
        "{ key: '\\u00e6', code: 'KeyA', modifierAltGraph: true, bubbles: true }))"
    )
    press("\u03c3", "KeyS")  # Greek
    until(lambda: page.text("#shelve .subject").startswith("A2"))
    page.keys(Keys.ESCAPE)
    until(lambda: not page.text("#shelve"))
    assert [order.target for order, _, _ in site.core.orders] == ["A5"]
    press("a", "KeyQ")  # what is written on the keys counts where it is Latin
    until(lambda: page.text("#message") == "A2: acknowledged")


def test_a_stuck_key_acknowledges_once(site: Served, page: Page) -> None:
    time.sleep(0.5)  # until the rows have been there for long enough
    key: dict[str, Any] = {"type": "keyDown", "key": "v", "code": "KeyV", "text": "v"}
    page.driver.execute_cdp_cmd("Input.dispatchKeyEvent", key)
    until(lambda: page.text("#message") == "3 acknowledged")
    site.do(lambda: site.core.scan(62_000, {"A3": Code.UNACK}))
    until(lambda: ("A3", "UNACK") in page.rows())
    for _ in range(10):
        time.sleep(0.1)
        page.driver.execute_cdp_cmd("Input.dispatchKeyEvent", {**key, "autoRepeat": True})
    page.driver.execute_cdp_cmd("Input.dispatchKeyEvent", {**key, "type": "keyUp"})
    assert ("A3", "UNACK") in page.rows() and len(site.core.orders) == 3
    page.keys("v")  # pressed anew
    until(lambda: ("A3", "ACKED") in page.rows())


def test_a_stuck_enter_presses_a_button_once(site: Served, page: Page) -> None:
    time.sleep(0.5)  # until the rows have been there for long enough
    page.run(
        "const button = document.querySelector('#alarms [data-order=ack-seen]');"
        "window.presses = 0; button.addEventListener('click', () => { window.presses += 1 }); button.focus()"
    )
    key: dict[str, Any] = {"type": "keyDown", "key": "Enter", "code": "Enter", "text": "\r"}
    key["windowsVirtualKeyCode"] = 13
    page.driver.execute_cdp_cmd("Input.dispatchKeyEvent", key)
    for _ in range(10):
        page.driver.execute_cdp_cmd("Input.dispatchKeyEvent", {**key, "autoRepeat": True})
    page.driver.execute_cdp_cmd("Input.dispatchKeyEvent", {**key, "type": "keyUp"})
    until(lambda: page.text("#message") == "3 acknowledged")
    assert page.run("return window.presses") == 1 and len(site.core.orders) == 3


def test_a_lost_connection_is_told_and_comes_back(page: Page) -> None:
    with served() as site:
        port = site.web.port
        site.do(lambda: site.core.scan(1000, {"A1": Code.UNACK}))
        page.open(site.url)
        page.until_live()
        until(lambda: page.rows() == [("A1", "UNACK")])
        page.choose("A1")
        page.keys("o")
        until(lambda: page.text("#remove .subject"))
    until(lambda: "CONNECTION LOST" in page.text("#lost"))
    assert not page.run("return document.querySelector('dialog[open]')")  # it would hide that
    assert page.text("#link") == "✕ not live"
    assert page.run("return document.title") == "✕ not live: (1) Buffer tank"
    assert "NOT LIVE" in page.run(
        "return getComputedStyle(document.querySelector('main'), '::after').content"
    )
    assert page.run(
        "return [...document.querySelectorAll('[data-order]')].every((one) => one.disabled)"
    )
    page.keys(Keys.ARROW_DOWN, "a", "v", "s")
    assert not page.run("return document.querySelector('dialog[open]')")
    with served(port=port) as site:
        site.do(lambda: site.core.scan(5000, {"A3": Code.UNACK}))
        page.until_live()
        until(lambda: page.rows() == [("A3", "UNACK")])
        assert page.text("#lost") == ""
        page.choose("A3")
        page.keys("a")  # by a session of the new server
        until(lambda: page.rows() == [("A3", "ACKED")])
    page.faults()


def test_after_a_sleep_of_the_machine_nothing_looks_live(site: Served, page: Page) -> None:
    """Its clocks may stand still meanwhile, but for the time of day; and that may be wrong."""
    page.run(
        "window.told = []; const lost = document.getElementById('lost');"
        "new MutationObserver(() => { if (!lost.hidden) window.told.push(lost.textContent) })"
        ".observe(lost, { attributes: true, childList: true });"
        "const now = Date.now; Date.now = () => now() + 7 * 3600000"
    )
    before = datetime.now(timezone.utc)
    told = until(lambda: page.run("return window.told"))[-1]
    assert told.startswith("CONNECTION LOST since ")
    since = datetime.strptime(told[22:30], "%H:%M:%S").replace(tzinfo=timezone.utc)
    since = since.replace(year=before.year, month=before.month, day=before.day)
    assert abs((since - before).total_seconds()) % 86_400 < 3600  # the gateway's time
    page.until_live()


def test_a_session_that_has_ended_asks_for_the_password(page: Page) -> None:
    with served(users=two_users()) as site:
        page.open(site.url)
        page.login("anna")
        page.until_live()
        site.do(site.web.guard.sessions._sessions.clear)
        until(lambda: page.text("#login-message") == "The session has ended.")
        assert page.text("#screens") == ""
        page.login("bert")
        page.until_live()
        assert page.text("#user-name") == "bert"
    page.faults()


def test_who_has_logged_out_leaves_nothing_of_the_plant_behind(page: Page) -> None:
    with served(users=two_users()) as site:
        page.open(site.url)
        page.login("anna")
        page.until_live()
        site.do(lambda: site.core.stops("fill"))
        until(lambda: page.text("#troubles"))
        page.click("#log-out")
        until(lambda: page.text("#login-message") == "Logged out.")
        page.run("document.dispatchEvent(new Event('visibilitychange'))")  # of another tab
        time.sleep(0.5)
        shown = page.run(
            "return [...document.body.children].filter((e) => e.getClientRects().length)"
        )
        assert [one.get_attribute("id") for one in shown] == ["login"]
        assert page.driver.title == "Alarms"
        page.login("anna")
        page.until_live()
        until(lambda: page.text("#troubles"))
    page.faults()


def test_who_couldnt_log_out_is_told(page: Page) -> None:
    """As where the cable is out: the session lasts, and whoever opens the page next would have it."""
    cut: dict[str, Any] = {
        "offline": True,
        "latency": 0,
        "downloadThroughput": -1,
        "uploadThroughput": -1,
    }
    with served(users=two_users()) as site:
        page.open(site.url)
        page.login("anna")
        page.until_live()
        page.driver.execute_cdp_cmd("Network.enable", {})
        page.driver.execute_cdp_cmd("Network.emulateNetworkConditions", cut)
        page.click("#log-out")
        until(lambda: page.text("#message") == "Not logged out: the gateway doesn't answer.")
        assert page.text("#login") == "" and page.text("#user-name") == "anna"
        page.driver.execute_cdp_cmd("Network.emulateNetworkConditions", {**cut, "offline": False})
        page.until_live()
        page.click("#log-out")
        until(lambda: page.text("#login-message") == "Logged out.")
        assert site.do(lambda: len(site.web.guard.sessions)) == 0
    page.faults()


@pytest.mark.parametrize("users", [False, True])
def test_a_browser_that_takes_no_cookies_is_told_so(users: bool) -> None:
    words = "this browser takes no cookies"
    with browser(cookies=False) as page, served(users=two_users() if users else None) as site:
        page.open(site.url)
        if users:
            page.login("anna")
        until(lambda: words in page.text("#login-message" if users else "#lost"))
        begun = len(site.web.guard.sessions)
        time.sleep(3)
        assert len(site.web.guard.sessions) == begun  # it begins no other ones


def test_a_page_names_who_its_orders_are_of(page: Page) -> None:
    """Pages of one browser have one session: where Bert logs in by another one, this one is his too."""
    with served(users=two_users()) as site:
        site.do(lambda: site.core.scan(1000, {"A0": Code.UNACK, "A1": Code.UNACK}))
        page.open(site.url)
        page.login("anna")
        page.until_live()
        until(lambda: len(page.rows()) == 2)
        page.run(
            "const { post } = await import('/page/http.js');"
            "await post('/api/login', { name: 'bert', password: 'bertbert' })"
        )
        until(lambda: page.rows() == [("A0", "UNACK")])
        assert page.text("#user-name") == "bert"
        page.choose("A0")
        page.keys("a")
        until(lambda: page.rows() == [("A0", "ACKED")])
        assert site.core.orders == [(Order(Verb.ACK, 2, "A0"), "bert", None)]
    page.faults()


def test_what_was_asked_for_somebody_before_isnt_shown(page: Page) -> None:
    """Anna's table comes once she is logged out and Bert is there: her snapshot would be shown for his."""
    with served(users=two_users()) as site:
        site.do(lambda: site.core.scan(1000, {"A0": Code.UNACK, "A1": Code.UNACK}))
        page.open(site.url)
        until(lambda: page.run("return document.activeElement.id === 'login-name'"))
        page.run(
            "const ask = window.fetch, door = new Promise((resolve) => { window.release = resolve });"
            "window.fetch = async (path, options) => { const answer = await ask(path, options);"
            "  if (path === '/api/plant' && !window.held) { window.held = true; await door }"
            "  return answer }"
        )
        page.login("anna")
        until(lambda: page.run("return window.held"))
        page.click("#log-out")
        until(lambda: page.text("#login-message") == "Logged out.")
        page.run("document.querySelector('#login-name').value = ''")
        page.login("bert")
        page.until_live()
        until(lambda: page.rows() == [("A0", "UNACK")])
        page.run("window.release()")
        site.do(lambda: site.core.scan(2000, {"A0": Code.RTNUN}))
        until(lambda: ("A0", "RTNUN") in page.rows())
        assert page.rows() == [("A0", "RTNUN")]
    page.faults()


def test_by_keyboard_alone(page: Page) -> None:
    with served(FakeCore(fake_plant(24)), users=two_users()) as site:
        core = site.core
        site.do(lambda: core.scan(1000, {f"A{number}": Code.UNACK for number in range(10)}))
        page.open(site.url)
        until(lambda: page.run("return document.activeElement.id === 'login-name'"))
        page.keys("anna", Keys.TAB, "wrong", Keys.ENTER)
        until(lambda: page.text("#login-message") == "the name or the password is wrong")
        page.keys("annaanna", Keys.ENTER)
        page.until_live()
        until(lambda: len(page.rows()) == 10)
        first = page.rows()[0][0]
        page.keys(Keys.ARROW_DOWN, "a")
        until(lambda: (first, "ACKED") in page.rows())
        page.keys(Keys.HOME, "s")
        tag = page.rows()[0][0]
        until(lambda: page.text("#shelve .subject").startswith(tag))
        page.keys("5", Keys.TAB, Keys.TAB, Keys.TAB, Keys.TAB, "pump is repaired", Keys.ENTER)
        until(lambda: tag not in dict(page.rows()))
        assert core.orders[-1] == (Order(Verb.SHELVE, 1, tag, 300_000), "anna", "pump is repaired")
        page.keys("2", Keys.ARROW_DOWN, "u")
        until(lambda: page.rows("#aside") == [])
        page.keys("1", Keys.END, "o")
        tag = until(lambda: page.text("#remove .subject").split(" ")[0])
        page.keys("worn out", Keys.ENTER)
        until(lambda: core.orders[-1][0] == Order(Verb.REMOVE, 1, tag))
        page.keys("3", "/", tag, Keys.ENTER, Keys.ARROW_DOWN)
        until(lambda: page.rows("#all")[0] == (tag, "OOS"))
        page.keys("t")
        until(lambda: core.orders[-1][0] == Order(Verb.RETURN, 1, tag))
        page.keys("?")
        until(lambda: "acknowledge the chosen alarm" in page.text("#help"))
        page.keys(Keys.ESCAPE, "1")
        site.do(lambda: core.stops("dose"))
        until(lambda: page.text("#troubles"))
        page.keys("b")
        site.do(lambda: core.troubles.raises(TroubleKind.CLOCK, "", "the clock"))
        until(lambda: "the clock" in page.text("#troubles"))  # drawn anew, and the focus stays
        page.keys(Keys.ENTER)
        until(lambda: page.text("#confirm-title") == "Restart dose?")
        page.back()  # from Cancel, which has the focus at first
        page.keys(Keys.ENTER)
        site.do(lambda: core.troubles.clear(TroubleKind.CLOCK, ""))
        until(lambda: page.text("#troubles") == "")
        assert core.orders[-1] == (Order(Verb.RESTART, 1, "dose"), "anna", None)
        # every screen can be reached and left, and nothing holds the focus
        for key, screen in zip("123456", ("alarms", "aside", "all", "plant", "journal", "figures")):
            page.keys(key)
            until(lambda: page.text(f"#{screen}"))
            assert page.run("return document.activeElement.closest('main') !== null")
    page.faults()


def test_who_reads_it_to_others_is_told_what_it_is(site: Served, page: Page) -> None:
    site.do(lambda: site.core.stops("dose"))
    until(lambda: page.text("#troubles"))
    page.keys(Keys.ARROW_DOWN)
    roles = page.run(
        "return ['#troubles', '#tabs', '#tab-alarms', '#alarms', '#alarms .grid', '#alarms .rows .row',"
        "'#alarms .rows .row > div', '#message'].map((css) => document.querySelector(css).getAttribute('role'))"
    )
    assert roles == ["alert", "tablist", "tab", "tabpanel", "grid", "row", "gridcell", "status"]
    active = page.run(
        "const body = document.querySelector('#alarms .rows');"
        "return document.getElementById(body.getAttribute('aria-activedescendant')).dataset.tag"
    )
    assert active == page.rows()[0][0]
    assert (
        page.run("return document.querySelector('#alarms .grid').getAttribute('aria-rowcount')")
        == "5"
    )
    assert (
        page.run("return document.querySelector('#tab-alarms').getAttribute('aria-selected')")
        == "true"
    )
    assert "priority 2" in page.run(
        "return document.querySelector('#alarms .row[data-tag=A5]').textContent"
    )


def test_nothing_comes_from_another_host(site: Served, page: Page) -> None:
    names = page.run("return performance.getEntriesByType('resource').map((entry) => entry.name)")
    assert names and all(
        name.startswith((site.url, site.url.replace("http", "ws"))) for name in names
    )


def test_at_1280_by_800_nothing_is_cut_off(site: Served, page: Page) -> None:
    for key in "123456":
        page.keys(key)
        wide = "return [document.documentElement.scrollWidth, document.documentElement.scrollHeight, innerWidth, innerHeight]"
        assert page.run(wide) == [1280, 800, 1280, 800]
        outside = page.run(
            "return [...document.querySelectorAll('main section:not([hidden]) button, #top *, #tabs button')]"
            ".filter((one) => one.getClientRects().length && one.getBoundingClientRect().right > 1280).length"
        )
        assert outside == 0
    page.keys("1")
