"""What is wrong with a shared log, as troubles: that etcd is silent, the copy can't be written, or nothing is scanned."""

from __future__ import annotations

import math
from collections.abc import Iterator

from .etcd_log import EtcdLog
from .leader import Candidate, Leader
from .log_view import Last
from .model import Figure
from .telling import tell
from .troubles import TroubleKind, Troubles

SILENT = 3.0  # seconds without an answer of etcd before that is a trouble
GROWS = 6.0  # seconds in which the log of a plant that is scanned grows, where scans aren't fewer
ALIKE = 10.0
"""Seconds beyond a lease, for which the key of this gateway's own process before may last."""
LOST = "etcd gives no answer: nothing is taken, and what is shown may be old"
NOBODY = "no gateway scans: nothing comes into the log, and what is shown may be old"
UNCOPIED = (
    "the copy of the log can't be written, so what is shown here is old: use another gateway's page"
)


class LogWatch:
    """Looked at some times a second."""

    def __init__(self, log: EtcdLog, troubles: Troubles, period: float) -> None:
        """`period` is the seconds between two scans."""
        self._log = log
        self._troubles = troubles
        self._grows = max(GROWS, 3 * period)
        self._known: Last | None = None
        self._grown = 0.0
        self._alike: tuple[str, float] | None = None  # the mark of another that leads by this name

    def silence(self, now: float) -> float:
        """For how many seconds etcd has been silent."""
        return now - self._log.asks.heard

    def look(self, now: float, scans: bool) -> bool:
        """Raises and clears the troubles; says whether etcd has been silent too long. `scans` says whether the plant is to be
        scanned: it has been before, and its history isn't full."""
        if self._log.known != self._known or not scans:
            self._known, self._grown = self._log.known, now
        silent = self.silence(now) > SILENT
        still = now - self._grown > self._grows
        fault = self._log.asks.fault
        words = f"etcd takes no command: {fault}" if fault else NOBODY
        uncopied = self._log.uncopied
        refusal = self._log.asks.refusal
        self._set("", (f"{LOST} ({refusal})" if refusal else LOST) if silent else "")
        self._set("scans", words if still and not silent and not uncopied else "")
        self._set("copy", f"{UNCOPIED} ({uncopied})" if uncopied else "")
        return silent

    def led_by(self, leader: Leader | None, own: Candidate, now: float) -> None:
        """Tells where another gateway leads under this one's name: nobody could say which of them it is."""
        if leader is None or leader.name != own.name or leader.mark == own.mark:
            self._alike = None
        elif self._alike is None or self._alike[0] != leader.mark:
            self._alike = leader.mark, now
        elif now - self._alike[1] > ALIKE + own.seconds:
            self._alike = leader.mark, math.inf
            tell(f"another gateway leads that is called {own.name!r} too: each wants its own name")

    def words(self) -> str:
        """Why nothing is taken."""
        return next((one.text for one in self._troubles if one.kind is TroubleKind.LOG), LOST)

    def _set(self, subject: str, words: str) -> None:
        if words:
            self._troubles.raises(TroubleKind.LOG, subject, words)
        else:
            self._troubles.clear(TroubleKind.LOG, subject)


def figures(known: Last, end: Last, leads: bool, leader: str, silent: float) -> Iterator[Figure]:
    """Figures of a log for `/metrics`: what this gateway has of it, its end at the last look, and who leads."""
    behind = end.entries - known.entries if end.log == known.log else end.entries
    yield Figure("alarmd_log_leads", "1 where this gateway leads, else 0", leads)
    words = "1 for the gateway that leads, by its name"
    yield Figure("alarmd_log_leader", words, bool(leader), ("gateway", leader))
    yield Figure("alarmd_log_record", "Number of the log's record", known.record)
    yield Figure("alarmd_log_entries", "Entries that this gateway has", known.entries)
    words = "Entries that it lacked at its last look at the log"
    yield Figure("alarmd_log_behind", words, max(0, behind))
    yield Figure("alarmd_log_revision", "Revision of the log's end in etcd", end.revision)
    yield Figure("alarmd_log_silent_seconds", "Since the last answer of etcd", silent)
