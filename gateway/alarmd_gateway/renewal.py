"""Asks the operators for a new record when it is due, and begins it once one of them has confirmed what is lost by it."""

from __future__ import annotations

from . import rotation
from .clock import Clock
from .config import Config
from .link import Link
from .model import GatewayFault
from .questions import Answer, Questions
from .record import Unsure
from .telling import tell
from .transactions import Deposed
from .troubles import TroubleKind

_SUBJECT = "record"


class Renewal:
    """Looked at after each command."""

    def __init__(self, config: Config, link: Link, clock: Clock, questions: Questions) -> None:
        self._config = config
        self._link = link
        self._clock = clock
        self._questions = questions
        self._due = rotation.Due(config.rotate_at)
        self._confirmed: Answer | None = None
        self._announced: frozenset[str] = frozenset()

    def look_at_history(self) -> None:
        """Whether the history is nearly full is a trouble."""
        words = self._due.words(self._link.book.state.events)
        if words is None:
            self._link.troubles.clear(TroubleKind.HISTORY, "")
        else:
            self._link.troubles.raises(TroubleKind.HISTORY, "", words)

    async def look(self) -> None:
        """Asks where a new record is due, and begins it where that was confirmed. Raises GatewayFault."""
        self.look_at_history()
        state = self._link.book.state
        if not self._clock.started or not state.scanned:
            return
        if self._confirmed is not None:
            answer, self._confirmed = self._confirmed, None
            await self._begin(answer)
        elif self._due.now(state.events) and self._questions.about(_SUBJECT) is None:
            await self._begin(None)

    async def _begin(self, answer: Answer | None) -> None:
        """Tries the new run. It becomes the run where it loses nothing grave that wasn't announced and confirmed; else that is
        asked. Where it can't be tried or recorded, the old run goes on, and that is a trouble. Raises Unsure, and Deposed where another
        gateway may lead by now: which run goes on is seen by the log.
        """
        state, now = self._link.book.state, self._clock.now()
        try:
            plant = await self._link.next_plant()
            trial = await rotation.attempt(self._config, plant, state, now, self._link.check)
        except GatewayFault as fault:
            self._failed(fault)
            return
        if trial.lost if answer is None else trial.grave - self._announced:
            await trial.server.kill()
            self._ask(trial)
            return
        entries = [rotation.remark(answer), *trial.entries]
        try:
            kept = await self._link.renew(trial.server, trial.book, entries, plant)
        except GatewayFault as fault:
            await trial.server.kill()
            if isinstance(fault, Unsure | Deposed):
                raise
            self._failed(fault)
            return
        self._due.begun()
        self._link.troubles.clear(TroubleKind.RECORD, "")
        who = "" if answer is None else f", confirmed by {answer.user or 'an operator'}"
        tell(f"a new record has begun{who}; the old one is kept as {kept}")
        self.look_at_history()

    def _failed(self, fault: GatewayFault) -> None:
        self._due.declined(self._link.book.state.events)
        words = f"a new record couldn't be begun: {fault.words}"
        self._link.troubles.raises(TroubleKind.RECORD, "", words)

    def _ask(self, trial: rotation.Trial) -> None:
        self._announced = trial.grave
        events = self._link.book.state.events
        text = f"a new record is due, after {events:,} events. What stands below is lost by it. Begin it now?"
        tell(f"{text} {'; '.join(trial.lost)}")
        self._questions.ask(_SUBJECT, text, trial.lost, self._answered)

    def _answered(self, answer: Answer) -> None:
        if answer.yes:
            self._confirmed = answer
        else:
            self._due.declined(self._link.book.state.events)
