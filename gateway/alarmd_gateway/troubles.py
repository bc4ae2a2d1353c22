"""Alarms of the gateway and the server themselves: what a display shows above all alarms of the plant."""

from __future__ import annotations

import enum
from collections.abc import Callable, Iterator
from dataclasses import dataclass
from datetime import datetime, timezone

from .model import Json, civil


class TroubleKind(enum.Enum):
    """What a trouble is about."""

    SERVER = "server"  # alarmd has ended, or starts again
    SILENCE = "silence"  # the record's disk or alarmd hasn't answered for too long
    STOPPED = "stopped"  # a program has stopped: its subject is the program's name
    REFUSED = "refused"  # a scan was refused
    STALE = "stale"  # an input's samples have stopped coming: its subject is the input's name
    SOURCE = "source"  # a source (broker, controller) is lost: its subject is the source's name
    HISTORY = "history"  # the history is nearly full, or full
    CLOCK = "clock"  # the time of day and the moments part
    RECORD = "record"  # what a new record couldn't carry
    LOG = "log"  # the shared log isn't reached: nothing is taken, and what is shown may be old
    PAGE = "page"  # the users or the certificate can't be taken up again, or the certificate ends
    QUESTION = "question"  # the gateway waits for an answer: its subject is the question's number


@dataclass(frozen=True)
class Trouble:
    """One trouble that stands, since when (UTC), and what it means for the operator."""

    kind: TroubleKind
    subject: str
    text: str
    since: datetime

    def json(self) -> dict[str, Json]:
        """The trouble as a display has it."""
        return {
            "kind": self.kind.value,
            "subject": self.subject,
            "text": self.text,
            "since": civil(self.since),
        }


Listener = Callable[[Trouble, bool], None]
"""Told of a trouble and whether it stands now."""


class Troubles:
    """The troubles that stand, by kind and subject, in the order in which they were raised."""

    def __init__(self) -> None:
        self._standing: dict[tuple[TroubleKind, str], Trouble] = {}
        self._listeners: list[Listener] = []

    def __iter__(self) -> Iterator[Trouble]:
        return iter(tuple(self._standing.values()))

    def __len__(self) -> int:
        return len(self._standing)

    def raises(self, kind: TroubleKind, subject: str, text: str) -> None:
        """A trouble stands from now on. One that stands keeps its time; another text replaces the old one."""
        old = self._standing.get((kind, subject))
        if old is not None and old.text == text:
            return
        since = old.since if old is not None else datetime.now(timezone.utc)
        self._standing[kind, subject] = trouble = Trouble(kind, subject, text, since)
        self._tell(trouble, True)

    def clear(self, kind: TroubleKind, subject: str) -> None:
        """A trouble has ended. One that doesn't stand is passed over."""
        trouble = self._standing.pop((kind, subject), None)
        if trouble is not None:
            self._tell(trouble, False)

    def listen(self, listener: Listener) -> None:
        """From now on the listener is told of each trouble that comes, changes or ends."""
        self._listeners.append(listener)

    def _tell(self, trouble: Trouble, stands: bool) -> None:
        for listener in self._listeners:
            listener(trouble, stands)
