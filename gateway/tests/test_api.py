"""JSON over HTTP: who may do what, what a user sees, and that nothing wrong changes anything."""

from __future__ import annotations

import asyncio
import csv
import gzip
import http.client
import io
import socket
import threading
import time
from collections.abc import Callable, Iterator
from concurrent.futures import ThreadPoolExecutor
from datetime import datetime, timezone
from typing import cast

import pytest
from fake_core import FakeCore, fake_plant
from http_help import Answer, Client, two_users
from served import Served, served

from alarmd_gateway import connections, sessions
from alarmd_gateway.core import Question
from alarmd_gateway.guard import HEADERS
from alarmd_gateway.journal import Journal
from alarmd_gateway.model import Code, Order, Verb
from alarmd_gateway.sessions import Pace

SHELVE = {"milliseconds": 60_000, "reason": "the sensor is cleaned"}


@pytest.fixture
def open_plant() -> Iterator[Served]:
    """A plant without users, in which A0 (dosing) and A1 (tank) are unacknowledged."""
    with served() as site:
        site.do(lambda: site.core.scan(1000, {"A0": Code.UNACK, "A1": Code.UNACK}))
        yield site


@pytest.fixture
def guarded_plant() -> Iterator[Served]:
    """The same with Anna and Bert."""
    with served(users=two_users()) as site:
        site.do(lambda: site.core.scan(1000, {"A0": Code.UNACK, "A1": Code.UNACK}))
        yield site


def as_user(site: Served, name: str) -> Client:
    client = Client(site.url)
    assert client.login(name).status == 200
    return client


def error(answer: Answer) -> tuple[int, str]:
    return answer.status, answer.json["error"]


def test_without_users_a_session_begins_by_itself(open_plant: Served) -> None:
    client = Client(open_plant.url)
    answer = client.enter()
    assert answer.json["user"] is None and answer.json["consoles"] == [1, 2]
    cookie = answer.headers["Set-Cookie"]
    assert "HttpOnly" in cookie and "SameSite=Strict" in cookie and "Path=/" in cookie
    assert client.order("ack", "A1").json == {"reply": "OK", "taken": True, "why": "done"}
    assert open_plant.core.orders == [(Order(Verb.ACK, 1, "A1"), None, None)]
    assert client.enter().json["token"] == client.token  # the same session
    stranger = Client(open_plant.url)
    assert stranger.post("/api/login", {"name": "a", "password": "b"}).status == 400
    # who only reads needs no session, who orders does
    for path in ("plant", "state", "journal", "journal.csv", "report", "report.csv"):
        assert stranger.ask(f"/api/{path}").status == 200, path
    assert stranger.order("ack", "A0").status == 401 and stranger.ask("/api/live").status == 401
    assert len(open_plant.core.orders) == 1


def test_with_users_nothing_is_told_to_who_isnt_logged_in(guarded_plant: Served) -> None:
    client = Client(guarded_plant.url)
    for path in (
        "session",
        "plant",
        "state",
        "journal",
        "journal.csv",
        "report",
        "report.csv",
        "live",
    ):
        assert client.ask(f"/api/{path}").status == 401, path
    assert client.ask("/metrics").status == 401
    assert client.order("ack", "A1").status == 401
    assert client.post("/api/answer", {"number": 1, "yes": True}).status == 401
    assert client.post("/api/logout", {}).status == 401
    client.cookie = f"alarmd_{guarded_plant.web.port}=guessed"
    assert client.ask("/api/state").status == 401
    assert guarded_plant.core.orders == []


def test_logging_in_and_out(guarded_plant: Served) -> None:
    client = Client(guarded_plant.url)
    assert error(client.login("anna", "wrong")) == (403, "the name or the password is wrong")
    assert error(client.login("nobody", "wrong")) == (403, "the name or the password is wrong")
    answer = client.login("anna")
    assert answer.json["user"] == "anna" and answer.json["areas"] == ["tank", "dosing"]
    assert client.ask("/api/state").status == 200
    assert client.post("/api/logout", {}).status == 200
    assert client.ask("/api/state").status == 401
    for wrong in (
        {},
        {"name": "anna"},
        {"name": 1, "password": 2},
        {"name": "x" * 65, "password": ""},
    ):
        assert client.post("/api/login", wrong).status == 400


def test_a_password_that_is_no_text_is_a_wrong_one(
    guarded_plant: Served, caplog: pytest.LogCaptureFixture
) -> None:
    client = Client(guarded_plant.url)
    for name, password in (("anna", "\ud800"), ("nobody", "\ud800"), ("\ud800", "x")):
        assert error(client.login(name, password)) == (403, "the name or the password is wrong")
    assert caplog.records == []  # who isn't logged in writes no log


def test_after_five_wrong_passwords_the_right_one_waits_too(guarded_plant: Served) -> None:
    client = Client(guarded_plant.url)
    for _ in range(5):
        assert client.login("anna", "wrong").status == 403
    answer = client.login("anna")
    assert answer.status == 429 and 0 < int(answer.headers["Retry-After"]) <= 301
    assert Client(guarded_plant.url).login("bert").status == 200


def test_a_whole_shift_may_log_in_from_one_address(guarded_plant: Served) -> None:
    for number in range(30):
        assert Client(guarded_plant.url).login(("anna", "bert")[number % 2]).status == 200


COOKIES = [
    'state={"open":true}',
    "name=a b",
    "path=/x",
    "version=1",
    "a,b=c",
    "a@b=1",
    "list[0]=1",
    "größe=1",
    'x="unclosed',
    "=nothing",
    "nothing",
]


@pytest.mark.parametrize("other", COOKIES)
def test_a_cookie_of_another_program_on_this_host_hides_no_session(
    guarded_plant: Served, caplog: pytest.LogCaptureFixture, other: str
) -> None:
    """A browser brings the cookies of all ports of a host."""
    anna = as_user(guarded_plant, "anna")
    own = anna.cookie
    for anna.cookie in (f"{other}; {own}", f"{own}; {other}", f"{own};{other};{own}"):
        sent = {"Cookie": anna.cookie.encode().decode("latin-1")}
        assert anna.ask("/api/state", headers=sent).status == 200
        order = {"order": "ack", "target": "A99"}
        assert error(anna.post("/api/order", order, **sent))[0] == 404
    assert anna.post("/api/logout", {}, **sent).status == 200
    anna.cookie = own
    assert anna.ask("/api/state").status == 401
    assert caplog.records == []


def test_a_cookie_of_the_same_name_that_is_no_session_hides_none(guarded_plant: Served) -> None:
    anna = as_user(guarded_plant, "anna")
    own = anna.cookie
    foreign = f"{own.partition('=')[0]}=guessed"
    for anna.cookie in (f"{foreign}; {own}", f"{own}; {foreign}"):
        assert anna.ask("/api/session").json["user"] == "anna"


def test_an_order_wants_the_sessions_own_token(guarded_plant: Served) -> None:
    anna, bert = as_user(guarded_plant, "anna"), as_user(guarded_plant, "bert")
    right = anna.token
    for token in ("", "x", "ä", bert.token, right[:-1], right + "x"):
        anna.token = token
        assert anna.order("ack", "A1").status == 403, token
        assert anna.post("/api/answer", {"number": 1, "yes": True}).status == 403
        assert anna.post("/api/logout", {}).status == 403
    assert guarded_plant.core.orders == []
    anna.token = right
    assert anna.order("ack", "A1").status == 200


def test_other_sites_are_refused(open_plant: Served) -> None:
    client = Client(open_plant.url)
    client.enter()
    own = open_plant.url.rstrip("/")
    assert client.order("ack", "A1").status == 200
    for origin in (
        "http://evil.example",
        "null",
        own.replace("http", "https") + ".evil",
        own + "0",
    ):
        assert (
            client.post("/api/order", {"order": "ack", "target": "A0"}, Origin=origin).status == 403
        )
        assert client.ask("/api/live", headers={"Origin": origin}).status == 403
    for host in ("evil.example", f"evil.example:{open_plant.web.port}", "127.0.0.1.evil", ""):
        assert client.ask("/api/state", headers={"Host": host}).status == 421, host
    port = open_plant.web.port
    for host in ("localhost", "127.0.0.1", "[::1]", "127.0.0.2"):  # each may stand in `listen`
        for one in (host, f"{host}:{port}"):
            assert client.ask("/api/state", headers={"Host": one}).status == 200, one
    assert client.ask("/api/state", headers={"Origin": own}).status == 200
    assert len(open_plant.core.orders) == 1


BAD_BODIES = [
    b"",
    b"{",
    b"null",
    b"[]",
    b'"ack"',
    b"\xff\xfe",
    b"[" * 15_000,
    b'{"a":' * 3000,
    b'{"order":"ack"}',
    b'{"target":"A1"}',
    b'{"order":"ack","target":1}',
    b'{"order":"ack","target":""}',
    b'{"order":"ack","target":"A1 B"}\n{"order":"ack","target":"A1"}',
    b'{"order":"ack","target":"A1\\nack 1 A0"}',
    b'{"order":"ack","target":"A1","console":"1"}',
    b'{"order":"ack","target":"A1","console":-1}',
    b'{"order":"ack","target":"A1","console":1.5}',
    b'{"order":"ack","target":"A1","console":true}',
    b'{"order":"ack","target":"A1","milliseconds":5}',
    b'{"order":"ack","target":"A1","user":"bert"}',
    b'{"order":"scan","target":"A1"}',
    b'{"order":["ack"],"target":"A1"}',
    b'{"order":"shelve","target":"A1"}',
    b'{"order":"shelve","target":"A1","milliseconds":60000}',
    b'{"order":"shelve","target":"A1","milliseconds":60000,"reason":"  "}',
    b'{"order":"shelve","target":"A1","milliseconds":-1,"reason":"r"}',
    b'{"order":"shelve","target":"A1","milliseconds":1e3,"reason":"r"}',
    b'{"order":"shelve","target":"A1","milliseconds":99999999999,"reason":"r"}',
    b'{"order":"shelve","target":"A1","milliseconds":' + b"9" * 5000 + b',"reason":"r"}',
    b'{"order":"shelve","target":"A1","milliseconds":5,"reason":7}',
    b'{"order":"shelve","target":"A1","milliseconds":5,"reason":"a\\u0000b"}',
    b'{"order":"shelve","target":"A1","milliseconds":5,"reason":"\\ud800"}',
    b'{"order":"shelve","target":"A1","milliseconds":5,"reason":"a\\u202eb"}',
    b'{"order":"shelve","target":"A1","milliseconds":5,"reason":"' + b"x" * 201 + b'"}',
    b'{"order":"remove","target":"A1"}',
]


@pytest.mark.parametrize("body", BAD_BODIES, ids=range(len(BAD_BODIES)))
def test_a_bad_body_changes_nothing(open_plant: Served, body: bytes) -> None:
    client = Client(open_plant.url)
    client.enter()
    headers = {"Content-Type": "application/json", "X-Alarmd-Token": client.token}
    answer = client.ask("/api/order", body, headers)
    assert answer.status == 400 and answer.json["error"]
    for path in ("/api/answer", "/api/login"):
        assert client.ask(path, body, headers).status == 400
    assert open_plant.core.orders == [] and open_plant.core.answers == []


def test_a_large_body_and_another_kind_of_body(open_plant: Served) -> None:
    client = Client(open_plant.url)
    client.enter()
    headers = {"Content-Type": "application/json", "X-Alarmd-Token": client.token}
    large = b'{"order":"ack","target":"A1"' + b" " * 20_000 + b"}"
    assert client.ask("/api/order", large, headers).status == 413
    packed = gzip.compress(b'{"order":"ack","target":"A1"' + b" " * 10_000_000 + b"}")
    assert len(packed) < 16_384
    packed_headers = {**headers, "Content-Encoding": "gzip"}
    assert client.ask("/api/order", packed, packed_headers).status == 400
    headers["Content-Type"] = "text/plain"
    assert client.ask("/api/order", b'{"order":"ack","target":"A1"}', headers).status == 415
    assert client.ask("/api/order", headers=headers).status == 405
    assert open_plant.core.orders == []


def test_an_order_whose_body_comes_after_the_logout_isnt_taken(guarded_plant: Served) -> None:
    anna = as_user(guarded_plant, "anna")
    body = b'{"order":"ack","target":"A1"}'
    head = (
        "POST /api/order HTTP/1.1",
        "Host: localhost",
        f"Cookie: {anna.cookie}",
        f"X-Alarmd-Token: {anna.token}",
        "Content-Type: application/json",
        f"Content-Length: {len(body)}",
        "Connection: close",
    )
    with socket.create_connection(("127.0.0.1", guarded_plant.web.port), 60) as channel:
        tasks = count_tasks(guarded_plant)
        channel.sendall("\r\n".join((*head, "", "")).encode())
        wait_until(lambda: count_tasks(guarded_plant) > tasks)  # it waits for its body
        assert anna.post("/api/logout", {}).status == 200
        channel.sendall(body)
        told = b"".join(iter(lambda: channel.recv(65536), b""))
    assert told.split()[1] == b"401" and guarded_plant.core.orders == []


def test_an_order_has_its_user_and_reason_and_a_console_that_may(guarded_plant: Served) -> None:
    anna, bert = as_user(guarded_plant, "anna"), as_user(guarded_plant, "bert")
    assert anna.order("shelve", "A0", **SHELVE).json["taken"]
    assert bert.order("unshelve", "A0").json["taken"]
    reason = {"reason": " out for\nrepair "}
    assert anna.order("remove", "A1", console=1, **reason).json["taken"]
    assert anna.order("ack", "A1").json["reply"] == "O3"
    assert guarded_plant.core.orders == [
        (Order(Verb.SHELVE, 1, "A0", 60_000), "anna", "the sensor is cleaned"),
        (Order(Verb.UNSHELVE, 2, "A0"), "bert", None),
        (Order(Verb.REMOVE, 1, "A1"), "anna", "out for repair"),
        (Order(Verb.ACK, 1, "A1"), "anna", None),
    ]


def test_an_order_that_comes_again_is_given_once(guarded_plant: Served) -> None:
    anna, bert = as_user(guarded_plant, "anna"), as_user(guarded_plant, "bert")
    for _ in range(3):
        assert anna.order("shelve", "A0", mark="one", **SHELVE).json["taken"]
    assert len(guarded_plant.core.orders) == 1
    assert bert.order("shelve", "A0", mark="one", **SHELVE).json["taken"]  # another session's mark
    assert anna.order("shelve", "A0", mark="two", **SHELVE).json["taken"]
    assert anna.order("shelve", "A0", **SHELVE).json["taken"]
    assert len(guarded_plant.core.orders) == 4
    for _ in range(2):
        assert error(bert.order("ack", "A99", mark="no")) == (404, "there is no alarm of this tag")
    for mark in ("", "x" * 65, 1, ["x"]):
        assert anna.order("ack", "A1", mark=mark).status == 400
    assert len(guarded_plant.core.orders) == 4


def test_a_mark_is_of_one_order(guarded_plant: Served) -> None:
    """As by a script that has one mark for all: it isn't told that an order was taken which wasn't given."""
    anna = as_user(guarded_plant, "anna")
    assert anna.order("shelve", "A0", mark="one", **SHELVE).json["taken"]
    wrong = (400, "the mark is that of another order")
    assert error(anna.order("ack", "A1", mark="one")) == wrong
    assert error(anna.order("unshelve", "A0", mark="one")) == wrong
    assert len(guarded_plant.core.orders) == 1


def test_an_order_that_was_refused_may_come_again_with_its_mark(
    guarded_plant: Served, monkeypatch: pytest.MonkeyPatch
) -> None:
    """It wasn't given, and whoever was told to wait has to be heard then."""
    anna, takes = as_user(guarded_plant, "anna"), iter((False, True))
    monkeypatch.setattr(Pace, "take", lambda pace, token: next(takes))
    assert error(anna.order("shelve", "A0", mark="one", **SHELVE))[0] == 429
    for _ in range(2):
        assert anna.order("shelve", "A0", mark="one", **SHELVE).json["taken"]
    assert len(guarded_plant.core.orders) == 1


def test_what_has_come_again_since_it_was_read_is_not_acknowledged(guarded_plant: Served) -> None:
    anna, core = as_user(guarded_plant, "anna"), guarded_plant.core
    came = core.state.by_tag["A1"].since or 0
    guarded_plant.do(lambda: core.scan(came + 1000, {"A1": Code.RTNUN}))
    guarded_plant.do(lambda: core.scan(came + 2000, {"A1": Code.UNACK}))
    for _ in range(2):  # an order that wasn't given may come again with its mark
        unread = anna.order("ack", "A1", seen=came + 1000, mark="one")
        assert error(unread) == (409, "it has come again since it was read")
    assert core.orders == []
    for seen in (-1, 1.5, "1", True, 4_000_000_000_001):
        assert anna.order("ack", "A1", seen=seen).status == 400
    assert error(anna.order("shelve", "A1", seen=1, **SHELVE)) == (400, "only ack has seen")
    assert anna.order("ack", "A1", seen=came + 2000).json["taken"]


def test_a_user_orders_from_the_users_own_consoles_alone(guarded_plant: Served) -> None:
    bert = as_user(guarded_plant, "bert")
    assert error(bert.order("ack", "A1")) == (403, "none of your consoles is for this alarm's area")
    assert error(bert.order("ack", "A1", console=1)) == (403, "console 1 isn't yours")
    assert error(bert.order("ack", "A99")) == (404, "there is no alarm of this tag")
    assert bert.order("restart", "dose", console=3).status == 403
    assert guarded_plant.core.orders == []
    guarded_plant.do(lambda: guarded_plant.core.stops("dose"))
    assert bert.order("restart", "dose").json["taken"]
    assert guarded_plant.core.orders == [(Order(Verb.RESTART, 2, "dose"), "bert", None)]


def test_a_user_sees_the_users_own_areas_alone(guarded_plant: Served) -> None:
    anna, bert = as_user(guarded_plant, "anna"), as_user(guarded_plant, "bert")
    for tag in ("A0", "A1"):
        assert anna.order("ack", tag).json["taken"]
    tags = [alarm["tag"] for alarm in bert.ask("/api/state").json["alarms"]]
    assert tags == ["A0", "A4"]
    assert [alarm[0] for alarm in bert.ask("/api/plant").json["alarms"]] == ["A0", "A4"]
    assert len(anna.ask("/api/state").json["alarms"]) == 8
    rows = bert.ask("/api/journal").json["rows"]
    assert [(row["number"], row.get("tag", row.get("target"))) for row in rows] == [
        (1, "A0"),
        (3, "A0"),
        (4, "A0"),
    ]
    assert len(anna.ask("/api/journal").json["rows"]) == 6
    numbers = [row["number"] for row in csv.DictReader(io.StringIO(text(bert, "journal.csv")))]
    assert numbers == ["1", "3", "4"]
    whole = list(csv.DictReader(io.StringIO(text(anna, "journal.csv"))))
    assert [row["number"] for row in whole] == ["1", "2", "3", "4", "5", "6"]
    assert whole[4]["user"] == "anna"
    assert [row["count"] for row in bert.ask("/api/report").json["rates"]] == [1, 1]
    assert [row["console"] for row in anna.ask("/api/report").json["rates"]] == [0, 1]


def text(client: Client, name: str) -> str:
    answer = client.ask(f"/api/{name}")
    assert answer.status == 200 and answer.headers["Content-Type"].startswith("text/csv")
    assert "attachment" in answer.headers["Content-Disposition"]
    return answer.body.decode()


def come_and_go(core: FakeCore, scans: int) -> None:
    """A2 comes and goes, a scan each second from 2000 on."""
    for moment in range(2, 2 + scans):
        core.scan(moment * 1000, {"A2": Code.RTNUN if moment % 2 == 0 else Code.UNACK})


def test_the_journal_by_pages(open_plant: Served) -> None:
    core = open_plant.core
    open_plant.do(lambda: come_and_go(core, 10))
    client = Client(open_plant.url)
    client.enter()
    page = client.ask("/api/journal?from=3&count=4").json
    assert [row["number"] for row in page["rows"]] == [3, 4, 5, 6]
    assert page["next"] == 7 and page["length"] == 12
    assert client.ask("/api/journal?from=9&count=4").json["next"] is None
    assert client.ask("/api/journal?from=13").json["rows"] == []
    assert len(text(client, "journal.csv?from=12").splitlines()) == 2
    assert len(text(client, "journal.csv?from=2&count=3").splitlines()) == 4
    for wrong in (
        "from=0",
        "from=-1",
        "from=x",
        "from=1e3",
        "count=0",
        "count=1001",
        "from=" + "9" * 400,
    ):
        assert client.ask(f"/api/journal?{wrong}").status == 400, wrong


def test_a_table_for_a_spreadsheet_begins_with_its_mark(open_plant: Served) -> None:
    client = Client(open_plant.url)
    for path in ("journal.csv?", "journal.csv?from=2&count=3&", "report.csv?hours=0&"):
        assert text(client, f"{path}spreadsheet=1") == "\ufeff" + text(
            client, f"{path}spreadsheet=0"
        )
        assert not text(client, path).startswith("\ufeff")
    assert client.ask("/api/journal.csv?spreadsheet=2").status == 400
    assert client.ask("/api/report.csv?spreadsheet=x").status == 400


def test_a_long_journal_as_csv(open_plant: Served) -> None:
    open_plant.do(lambda: come_and_go(open_plant.core, 2000))
    client = Client(open_plant.url)
    client.enter()
    rows = list(csv.DictReader(io.StringIO(text(client, "journal.csv"))))
    assert [int(row["number"]) for row in rows] == list(range(1, 2003))
    some = list(csv.DictReader(io.StringIO(text(client, "journal.csv?from=100&count=1100"))))
    assert [int(row["number"]) for row in some] == list(range(100, 1200))
    assert text(client, "report.csv?hours=0").startswith("figure,of,value,recommended\r\n")
    assert client.ask("/api/report?hours=0").json["rates"][0]["count"] == 1002


def test_a_table_holds_up_nobody(open_plant: Served, monkeypatch: pytest.MonkeyPatch) -> None:
    """Scans, orders and beats go on while the rows of a long journal become text."""
    open_plant.do(lambda: come_and_go(open_plant.core, 2000))
    goes_on, begun, whole = threading.Event(), threading.Event(), Journal.csv

    def slow(journal: Journal, first: int = 1, count: int | None = None) -> Iterator[str]:
        if count is None or count > 1:
            begun.set()
            assert goes_on.wait(60)
        return whole(journal, first, count)

    monkeypatch.setattr(Journal, "csv", slow)
    with ThreadPoolExecutor(1) as pool:
        try:
            table = pool.submit(text, Client(open_plant.url), "journal.csv")
            assert begun.wait(60)
            other = Client(open_plant.url)
            other.patience = 30.0
            other.enter()
            assert other.order("ack", "A1").json["taken"]
        finally:
            goes_on.set()
        assert len(table.result(60).splitlines()) == 2003


def test_a_table_that_is_given_up_is_no_fault(
    open_plant: Served, monkeypatch: pytest.MonkeyPatch, caplog: pytest.LogCaptureFixture
) -> None:
    open_plant.do(lambda: come_and_go(open_plant.core, 2000))
    tasks, goes_on, whole = count_tasks(open_plant), threading.Event(), Journal.csv

    def slow(journal: Journal, first: int = 1, count: int | None = None) -> Iterator[str]:
        assert first == 1 or goes_on.wait(60)
        return whole(journal, first, count)

    monkeypatch.setattr(Journal, "csv", slow)
    with socket.create_connection(("127.0.0.1", open_plant.web.port), 60) as channel:
        channel.sendall(b"GET /api/journal.csv HTTP/1.1\r\nHost: localhost\r\n\r\n")
        assert channel.recv(65536)
    wait_until(lambda: len(open_plant.web.limit) == 0)
    goes_on.set()
    wait_until(lambda: count_tasks(open_plant) == tasks)
    assert caplog.records == []


def count_tasks(site: Served) -> int:
    return site.do(lambda: len(asyncio.all_tasks(site.loop)))


def wait_until(holds: Callable[[], bool]) -> None:
    """Waits for something for a minute."""
    end = time.monotonic() + 60
    while not holds():
        assert time.monotonic() < end, "what is waited for doesn't come"
        time.sleep(0.01)


def test_who_asks_for_a_head_alone_gets_no_body(open_plant: Served) -> None:
    """What stood behind it would be taken for the next answer of the connection."""
    connection = http.client.HTTPConnection("127.0.0.1", open_plant.web.port, timeout=60)
    for path in ("journal.csv", "report.csv", "journal", "state"):
        connection.request("HEAD", f"/api/{path}")
        head = connection.getresponse()
        assert (head.status, head.read()) == (200, b""), path
        connection.request("GET", "/api/session")
        answer = connection.getresponse()
        assert answer.status == 200 and b"token" in answer.read(), path
    connection.close()


def test_what_was_annunciated_by_an_alarm_that_is_gone_counts(open_plant: Served) -> None:
    core, client = open_plant.core, Client(open_plant.url)
    open_plant.do(lambda: come_and_go(core, 20))
    open_plant.do(lambda: core.reload(fake_plant(2)))
    found = client.ask("/api/report").json
    assert [row["count"] for row in found["rates"]] == [12, 12, 1]
    assert [(row["tag"], row["count"]) for row in found["frequent"]] == [
        ("A2", 10),
        ("A0", 1),
        ("A1", 1),
    ]
    assert [row["tag"] for row in found["chattering"]] == ["A2"]
    assert found["acknowledgements"]["waiting"] == 2  # and not A2


def test_an_order_before_the_first_scan_draws_out_no_figures() -> None:
    core, now = FakeCore(), 200_000_000_000  # years after the epoch
    with served(core) as opened:
        opened.run(core.order(Order(Verb.ACK, 1, "A0")))
        opened.do(lambda: core.scan(now, {"A0": Code.UNACK, "A1": Code.UNACK}))
        opened.do(lambda: core.scan(now + 1_200_000 - 1))
        client = Client(opened.url)
        for hours in (0, 24):
            found = client.ask(f"/api/report?hours={hours}").json
            assert (found["begin"], found["end"]) == (now, now + 1_200_000)
            assert found["rates"][0]["per_ten_minutes"] == 1


def test_figures_as_csv_have_no_formulas(
    open_plant: Served, monkeypatch: pytest.MonkeyPatch
) -> None:
    lines = [["figure", "of"], ["most frequent", "-T1"]]
    monkeypatch.setattr("alarmd_gateway.api.table", lambda plant, report: lines)
    assert text(Client(open_plant.url), "report.csv") == "figure,of\r\nmost frequent,'-T1\r\n"


def test_a_reason_in_a_table_is_no_formula_whatever_separates_its_cells(open_plant: Served) -> None:
    """A spreadsheet goes by semicolons where numbers have a comma."""
    client = Client(open_plant.url)
    client.enter()
    reasons = (
        "=1+1",
        "a;=1+1;b",
        'a;"=1+1;b',
        'a;""=1+1',
        "a, b;@SUM(1)",
        "a;-1",
        "a;＝1",
        "a; b;c",
    )
    for reason in reasons:
        assert client.order("shelve", "A0", milliseconds=1000, reason=reason).json["taken"]
    told = text(client, "journal.csv")
    for delimiter in ",;":
        cells = [cell for row in csv.reader(io.StringIO(told), delimiter=delimiter) for cell in row]
        assert not [cell for cell in cells if cell.startswith(tuple("=+-@＝＋－＠"))], delimiter
    rows = list(csv.DictReader(io.StringIO(told)))
    assert [row["reason"] for row in rows if row["kind"] == "order"][-1] == "a; b;c"


def test_what_every_answer_brings(open_plant: Served) -> None:
    client = Client(open_plant.url)
    for path in (
        "/",
        "/page/main.js",
        "/page/none",
        "/none",
        "/api/session",
        "/api/order",
        "/metrics",
    ):
        answer = client.ask(path)
        for name, wanted in HEADERS.items():
            assert answer.headers[name] == wanted, (path, name)
        assert "aiohttp" not in answer.headers["Server"].lower()
    for sent in (b"nothing\r\n\r\n", b"GET / HTTP/1.1\r\nHost: a\r\nHost: b\r\n\r\n"):
        with socket.create_connection(("127.0.0.1", open_plant.web.port), 60) as channel:
            channel.sendall(sent)
            told = b"".join(iter(lambda: channel.recv(65536), b""))
        head = told.decode().partition("\r\n\r\n")[0].split("\r\n")
        assert head[0].split()[1] == "400" and "Server: alarmd" in head
        assert {f"{name}: {wanted}" for name, wanted in HEADERS.items()} <= set(head)
    assert "unsafe" not in HEADERS["Content-Security-Policy"]
    assert client.ask("/api/session").headers["Cache-Control"] == "no-store"


def test_the_page_is_its_files_alone_and_names_no_other_host(open_plant: Served) -> None:
    client = Client(open_plant.url)
    for path in (
        "/page/../web.py",
        "/page/%2e%2e/web.py",
        "/page/..%2fweb.py",
        "/page//etc/passwd",
        "/page/%2fetc%2fpasswd",
        "/page/",
        "/web.py",
    ):
        assert client.ask(path).status in (403, 404), path
    index = client.ask("/")
    assert index.headers["Content-Type"].startswith("text/html")
    tag = index.headers["ETag"]
    assert client.ask("/", headers={"If-None-Match": tag}).status == 304
    for name in ("index.html", "style.css", "main.js", "rows.js", "live.js"):
        body = client.ask(f"/page/{name}").body.decode()
        for foreign in ("http://", "https://", "innerHTML", "eval(", "@import", "//cdn"):
            found = body.replace("http://www.w3.org/2000/svg", "")
            assert foreign not in found, (name, foreign)


def test_metrics(guarded_plant: Served) -> None:
    anna = as_user(guarded_plant, "anna")
    anna.order("ack", "A1")
    lines = anna.ask("/metrics").body.decode().splitlines()
    assert 'alarmd_alarms{code="UNACK",priority="1"} 1.0' in lines
    assert 'alarmd_alarms{code="ACKED",priority="2"} 1.0' in lines
    assert 'alarmd_unacknowledged{priority="1"} 1.0' in lines
    assert 'alarmd_annunciations_total{priority="2"} 1.0' in lines
    assert 'alarmd_orders_total{order="ack",reply="OK"} 1.0' in lines
    assert "alarmd_events 2.0" in lines
    assert any(line.startswith("process_resident_memory_bytes") for line in lines)
    again = anna.ask("/metrics").body.decode()
    assert 'alarmd_annunciations_total{priority="2"} 1.0' in again  # counted once
    # a new record begins: what was annunciated stays counted
    guarded_plant.do(guarded_plant.core.anew)
    guarded_plant.do(lambda: guarded_plant.core.scan(9000, {"A1": Code.UNACK}))
    assert 'alarmd_annunciations_total{priority="2"} 2.0' in anna.ask("/metrics").body.decode()


def test_metrics_by_a_token() -> None:
    with served(users=two_users(), metrics_token="prometheus") as site:
        client = Client(site.url)
        bearer = {"Authorization": "Bearer prometheus"}
        assert client.ask("/metrics", headers=bearer).status == 200
        for wrong in ("Bearer prometheu", "Bearer ", "", "Bearer ä"):
            headers = {"Authorization": wrong.encode("latin-1").decode("latin-1")}
            assert client.ask("/metrics", headers=headers).status == 401
        assert client.ask("/api/state", headers=bearer).status == 401


def test_a_question_is_answered_once(guarded_plant: Served) -> None:
    question = Question(7, "clock", "Is it 2031?", ("a line",), datetime.now(timezone.utc))
    guarded_plant.do(lambda: guarded_plant.core.ask(question))
    bert = as_user(guarded_plant, "bert")
    assert bert.ask("/api/state").json["questions"][0]["text"] == "Is it 2031?"
    assert bert.post("/api/answer", {"number": 8, "yes": True}).status == 404
    assert bert.post("/api/answer", {"number": 7, "yes": True, "console": 1}).status == 403
    assert bert.post("/api/answer", {"number": 7, "yes": 1}).status == 400
    for console in ("2", 2.0, True, None, [2]):
        given = {"number": 7, "yes": True, "console": console}
        assert error(bert.post("/api/answer", given)) == (400, "console has to be a number")
    assert bert.post("/api/answer", {"number": 7, "yes": True}).status == 200
    assert bert.post("/api/answer", {"number": 7, "yes": True}).status == 404
    assert guarded_plant.core.answers == [(7, True, 2, "bert")]


def test_a_stuck_key_doesnt_fill_the_history(
    open_plant: Served, monkeypatch: pytest.MonkeyPatch
) -> None:
    monkeypatch.setattr(sessions, "ORDERS_PER_SECOND", 0.0)  # as by a machine with no time to lose
    client = Client(open_plant.url)
    client.enter()
    statuses = [client.order("reset", "A1").status for _ in range(160)]
    assert statuses == [200] * 100 + [429] * 60
    assert len(open_plant.core.orders) == 100


def test_what_is_no_http(open_plant: Served, caplog: pytest.LogCaptureFixture) -> None:
    for sent in (
        b"\x00" * 1000,
        b"GET / HTTP/9.9\r\n\r\n",
        b"GET " + b"x" * 100_000,
        b"\x16\x03\x01\x02",
        b"GET http://[::1 HTTP/1.1\r\nHost: localhost\r\n\r\n",
        b"A: b\r\n" * 50_000,
    ):
        with socket.create_connection(("127.0.0.1", open_plant.web.port), 60) as channel:
            try:
                channel.sendall(sent)
                channel.shutdown(socket.SHUT_WR)
                while channel.recv(65536):
                    pass
            except ConnectionError:
                pass
    client = Client(open_plant.url)
    assert client.ask("/api/session", headers={"X-Long": "x" * 9000}).status == 400
    client.enter()
    assert client.order("ack", "A1").json["taken"]
    assert caplog.records == []


def test_who_asks_far_ahead_and_reads_nothing_is_closed(open_plant: Served) -> None:
    """Requests that wait for those before them would take memory without an end."""
    asked = b"GET /page/style.css HTTP/1.1\r\nHost: localhost\r\n\r\n" * 200
    with socket.create_connection(("127.0.0.1", open_plant.web.port), 60) as channel:
        with pytest.raises(ConnectionError):
            for _ in range(500):
                channel.sendall(asked)
    client = Client(open_plant.url)
    client.enter()
    assert client.order("ack", "A1").json["taken"]


def test_who_brings_no_request_is_closed(monkeypatch: pytest.MonkeyPatch) -> None:
    monkeypatch.setattr(connections, "FIRST_REQUEST", 0.3)
    with served() as site:
        for sent in (b"", b"GET /api/session HT", b"GET / HTTP/1.1\r\nHost: x\r\n"):
            with socket.create_connection(("127.0.0.1", site.web.port), 60) as channel:
                channel.sendall(sent)
                channel.settimeout(60)
                try:
                    assert channel.recv(100) == b""
                except ConnectionError:
                    pass
        assert Client(site.url).enter().status == 200


def test_who_reads_no_answer_is_closed(monkeypatch: pytest.MonkeyPatch) -> None:
    """It would keep its place among the connections, and its answer in memory."""
    monkeypatch.setattr(connections, "STUCK", 0.3)
    asked = b"GET /api/plant HTTP/1.1\r\nHost: localhost\r\n\r\n"
    with served(FakeCore(fake_plant(20_000))) as site, socket.socket() as channel:
        channel.setsockopt(socket.SOL_SOCKET, socket.SO_RCVBUF, 4096)
        channel.connect(("127.0.0.1", site.web.port))
        channel.sendall(asked * 20)
        assert channel.recv(100)
        wait_until(lambda: len(site.web.limit) == 0)
        assert Client(site.url).ask("/api/plant").status == 200


def test_who_reads_slowly_isnt_closed(monkeypatch: pytest.MonkeyPatch) -> None:
    """What waits in the gateway stays the same for long: the kernel takes more only once it is rid of a third of what it has."""
    monkeypatch.setattr(connections, "STUCK", 1000.0)
    asked = b"GET /api/plant HTTP/1.1\r\nHost: localhost\r\n\r\n"
    with served(FakeCore(fake_plant(20_000))) as site, socket.socket() as channel:
        channel.setsockopt(socket.SOL_SOCKET, socket.SO_RCVBUF, 65_536)
        channel.connect(("127.0.0.1", site.web.port))
        channel.sendall(asked * 20)
        assert site.web._runner is not None and site.web._runner.server is not None
        wait_until(lambda: len(site.web.limit) == 1)
        one = cast(connections.Connection, site.web._runner.server.connections[0])

        def taken() -> int:
            assert one.transport is not None
            return connections.taken_of(one.transport)

        def later() -> bool:
            """What is looked at when the time is over; says whether the connection stands still."""
            assert one._stuck is not None
            one._look(*one._stuck._args)
            return one.transport is not None and not one.transport.is_closing()

        wait_until(lambda: one._stuck is not None)
        for _ in range(5):
            before = site.do(taken)
            while site.do(taken) == before:
                assert channel.recv(4096)
            assert site.do(later)
        wait_until(lambda: not site.do(later))  # who reads no more
        wait_until(lambda: len(site.web.limit) == 0)


def test_the_limit_of_connections() -> None:
    limit = connections.Limit(4)
    assert [limit.enter(address) for address in "aaabbbc"] == [
        True,
        True,
        False,
        True,
        True,
        False,
        False,
    ]
    assert len(limit) == 4 and limit.refused == 3
    limit.leave("a")
    assert limit.enter("c") and not limit.enter("a")


def test_a_thousand_connections(open_plant: Served) -> None:
    client = Client(open_plant.url)
    client.enter()
    channels = []
    try:
        for _ in range(1000):
            channels.append(socket.create_connection(("127.0.0.1", open_plant.web.port), 60))
        assert open_plant.do(lambda: len(open_plant.web.limit)) <= 100
        open_plant.do(lambda: open_plant.core.scan(5000, {"A2": Code.UNACK}))
    finally:
        for channel in channels:
            channel.close()
    assert ask_until_served(client).status == 200
    assert client.order("ack", "A1").json["taken"]
    assert open_plant.web.limit.refused >= 800


def ask_until_served(client: Client) -> Answer:
    """The closed connections are taken off in a moment."""
    for _ in range(100):
        try:
            return client.ask("/api/state")
        except (ConnectionError, OSError):
            continue
    return client.ask("/api/state")
