"""Sessions, their ends, and the limit of tries, by a clock of the test's own."""

from __future__ import annotations

from alarmd_gateway.sessions import MOST_SESSIONS, Pace, Sessions, Tries


class Hand:
    """A clock that stands until it is moved."""

    def __init__(self) -> None:
        self.now = 1000.0

    def __call__(self) -> float:
        return self.now


def test_a_session_is_found_by_its_cookie_alone_until_it_ends() -> None:
    clock = Hand()
    sessions = Sessions(clock, 60.0)
    cookie, session = sessions.begin("anna", (1, 2))
    other, another = sessions.begin("bert", (2,))
    assert sessions.find(cookie) is session and sessions.find(other) is another
    for wrong in (None, "", "x", cookie + "x", cookie[:-1], session.token, "x" * 5000, "\ud800"):
        assert sessions.find(wrong) is None
    clock.now += 59.9
    assert sessions.find(cookie) is session and sessions.lasts(session)
    clock.now += 0.1
    assert not sessions.lasts(session) and sessions.find(cookie) is None
    assert len(sessions) == 1


def test_who_logs_out_is_out_at_once() -> None:
    sessions = Sessions(Hand())
    cookie, session = sessions.begin("anna", (1,))
    sessions.end(cookie)
    sessions.end(None)
    sessions.end("none")
    assert sessions.find(cookie) is None and not sessions.lasts(session)


def test_a_token_is_the_sessions_own() -> None:
    sessions = Sessions(Hand())
    _, first = sessions.begin("anna", (1,))
    _, second = sessions.begin("anna", (1,))
    assert first.owns(first.token) and not first.owns(second.token)
    assert not first.owns(None) and not first.owns("") and not first.owns("ä")
    assert first.token not in repr(first)


def test_there_are_so_many_sessions_and_the_oldest_goes() -> None:
    sessions = Sessions(Hand())
    cookies = [sessions.begin(None, ())[0] for _ in range(MOST_SESSIONS)]
    assert sessions.find(cookies[0]) is not None  # used, so not the oldest any more
    sessions.begin(None, ())
    assert len(sessions) == MOST_SESSIONS
    assert sessions.find(cookies[0]) is not None and sessions.find(cookies[1]) is None


def test_the_session_of_a_live_page_isnt_the_oldest() -> None:
    sessions = Sessions(Hand())
    _, watched = sessions.begin("anna", (1,))
    for _ in range(
        3 * MOST_SESSIONS
    ):  # as of who asks for a session again and again, without a cookie
        sessions.begin(None, ())
        assert sessions.lasts(watched)
    assert len(sessions) == MOST_SESSIONS


def test_after_five_wrong_passwords_none_is_taken_for_five_minutes() -> None:
    clock = Hand()
    tries = Tries(clock)
    for _ in range(4):
        tries.failed("10.0.0.1", "anna")
    assert tries.wait("10.0.0.1", "anna") == 0
    clock.now += 100
    tries.failed("10.0.0.1", "anna")
    assert tries.wait("10.0.0.1", "anna") == 200
    assert tries.wait("10.0.0.1", "bert") == 0  # another name
    assert tries.wait("10.0.0.2", "anna") == 0  # another address
    clock.now += 200
    assert tries.wait("10.0.0.1", "anna") == 0


def test_an_address_has_twenty_tries_for_all_names() -> None:
    tries = Tries(Hand())
    for number in range(20):
        assert tries.wait("10.0.0.1", f"name{number}") == 0
        tries.failed("10.0.0.1", f"name{number}")
    assert tries.wait("10.0.0.1", "new") == 300
    assert tries.wait("10.0.0.2", "new") == 0


def test_a_right_password_forgets_the_wrong_ones() -> None:
    tries = Tries(Hand())
    for _ in range(5):
        tries.failed("10.0.0.1", "anna")
    tries.succeeded("10.0.0.1", "anna")
    assert tries.wait("10.0.0.1", "anna") == 0


def test_right_passwords_are_no_tries() -> None:
    tries = Tries(Hand())
    for _ in range(19):
        tries.failed("10.0.0.1", "bert")
    for _ in range(50):
        assert tries.wait("10.0.0.1", "anna") == 0
        tries.failed("10.0.0.1", "anna")  # each counts until it is known to be right
        tries.succeeded("10.0.0.1", "anna")
    tries.failed("10.0.0.1", "anna")
    assert tries.wait("10.0.0.1", "anna") == 300  # nineteen of Bert's, and this one
    tries.succeeded("10.0.0.2", "anna")  # of which nothing was counted


def test_orders_that_a_session_may_give_come_back() -> None:
    clock = Hand()
    pace = Pace(clock)
    taken: list[int] = []
    for seconds in (0.0, 0.05, 0.06, 1.0, 1000.0):
        clock.now += seconds
        taken.append(sum(pace.take("anna") for _ in range(200)))
    assert taken == [100, 0, 1, 10, 100]
    assert pace.take("bert") and not pace.take("anna")
