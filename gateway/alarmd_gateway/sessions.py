"""Who is logged in: sessions by a cookie, a token against forged requests, and a limit of tries."""

from __future__ import annotations

import hashlib
import hmac
import secrets
import time
from collections import OrderedDict, deque
from collections.abc import Callable, Collection
from dataclasses import dataclass, field

LIFE = 12 * 3600.0  # seconds that a session lasts, whatever happens in it: a shift
MOST_SESSIONS = 500  # the one that was used longest ago goes first
TRIES = 5  # wrong passwords in WINDOW seconds, of one name from one address
TRIES_OF_ADDRESS = 20  # and of all names from one address
WINDOW = 300.0
MOST_COUNTED = 10_000  # names and addresses whose tries are counted; the oldest goes first

BURST = 100.0  # orders that a session may give at once
ORDERS_PER_SECOND = 10.0  # and then

Clock = Callable[[], float]  # seconds, of a clock that nobody sets


def same(given: str, secret: str) -> bool:
    """Whether a text is a secret, in a time that tells nothing of it. A header may have bytes that are no UTF-8."""
    return hmac.compare_digest(given.encode(errors="surrogateescape"), secret.encode())


@dataclass(frozen=True)
class Session:
    """Somebody at a browser. `user` is None where the plant has no users."""

    user: str | None
    consoles: tuple[int, ...]
    token: str = field(repr=False)  # what each request that changes something has to bring
    ends: float  # by the sessions' clock
    key: bytes = field(default=b"", repr=False)  # by which the sessions find it

    def owns(self, token: str | None) -> bool:
        """Whether this is the session's token."""
        return token is not None and same(token, self.token)


class Sessions:
    """The sessions that last. What is kept of a cookie is its SHA-256 alone."""

    def __init__(self, clock: Clock = time.monotonic, life: float = LIFE) -> None:
        self._clock = clock
        self._life = life
        self._sessions: OrderedDict[bytes, Session] = OrderedDict()

    def __len__(self) -> int:
        return len(self._sessions)

    def begin(self, user: str | None, consoles: tuple[int, ...]) -> tuple[str, Session]:
        """A new session, and the value of its cookie."""
        cookie = secrets.token_urlsafe(32)
        token, ends = secrets.token_urlsafe(32), self._clock() + self._life
        session = Session(user, consoles, token, ends, _kept(cookie))
        self._sessions[session.key] = session
        while len(self._sessions) > MOST_SESSIONS:
            self._sessions.popitem(last=False)
        return cookie, session

    def find(self, cookie: str | None) -> Session | None:
        """The session of a cookie, unless it has ended."""
        if not cookie or len(cookie) > 128:
            return None
        key = _kept(cookie)
        session = self._sessions.get(key)
        if session is None:
            return None
        if self._clock() >= session.ends:
            del self._sessions[key]
            return None
        self._sessions.move_to_end(key)
        return session

    def lasts(self, session: Session) -> bool:
        """Whether a session that somebody has is still one of these. To be asked so is to be used, as by a page that is live."""
        if self._clock() >= session.ends or self._sessions.get(session.key) is not session:
            return False
        self._sessions.move_to_end(session.key)
        return True

    def end(self, cookie: str | None) -> None:
        """Ends the session of a cookie; one that is none is fine."""
        if cookie:
            self._sessions.pop(_kept(cookie), None)

    def end_of(self, users: Collection[str]) -> None:
        """Ends the sessions of some users."""
        for key in [key for key, one in self._sessions.items() if one.user in users]:
            del self._sessions[key]


def _kept(cookie: str) -> bytes:
    return hashlib.sha256(cookie.encode(errors="replace")).digest()


class Tries:
    """Counts wrong passwords, so that nobody can guess for long.

    A name is counted together with the address, so that nobody can lock another one out from elsewhere.
    """

    def __init__(self, clock: Clock = time.monotonic) -> None:
        self._clock = clock
        self._wrong: OrderedDict[tuple[str, str | None], deque[float]] = OrderedDict()

    def wait(self, address: str, name: str) -> float:
        """For how many seconds no try is taken from this address under this name; 0 where one is."""
        now = self._clock()
        return max(
            self._until((address, name), TRIES, now) - now,
            self._until((address, None), TRIES_OF_ADDRESS, now) - now,
            0.0,
        )

    def failed(self, address: str, name: str) -> None:
        """Counts a wrong password."""
        now = self._clock()
        for key, most in (((address, name), TRIES), ((address, None), TRIES_OF_ADDRESS)):
            times = self._wrong.setdefault(key, deque(maxlen=most))
            times.append(now)
            self._wrong.move_to_end(key)
        while len(self._wrong) > MOST_COUNTED:
            self._wrong.popitem(last=False)

    def succeeded(self, address: str, name: str) -> None:
        """Forgets the wrong passwords of this name from this address, and the try that was counted before it was known to be right."""
        self._wrong.pop((address, name), None)
        times = self._wrong.get((address, None))
        if times:
            times.pop()

    def _until(self, key: tuple[str, str | None], most: int, now: float) -> float:
        times = self._wrong.get(key)
        if times is None or len(times) < most or now >= times[0] + WINDOW:
            return now
        return times[0] + WINDOW


class Pace:
    """How fast a session may order: each order is one of the events that a run takes, and a key may be stuck."""

    def __init__(self, clock: Clock = time.monotonic) -> None:
        self._clock = clock
        self._left: OrderedDict[str, tuple[float, float]] = OrderedDict()

    def take(self, token: str) -> bool:
        """Takes one order of BURST, which come back at ORDERS_PER_SECOND; says whether there was one."""
        now = self._clock()
        left, since = self._left.get(token, (BURST, now))
        left = min(BURST, left + (now - since) * ORDERS_PER_SECOND)
        taken = left >= 1
        self._left[token] = left - taken, now
        self._left.move_to_end(token)
        while len(self._left) > MOST_SESSIONS:
            self._left.popitem(last=False)
        return taken
