"""The question of the first moment, and whether the time of day and the moments part later."""

from __future__ import annotations

from .clock import DRIFT_MS, Clock, span
from .model import GatewayFault
from .questions import Answer, Questions
from .telling import tell
from .troubles import TroubleKind, Troubles

_SUBJECT = "clock"


class FirstMoment:
    """Starts the clock where nothing is in doubt, or somebody has said yes. Where somebody said no, `refused` ends the gateway."""

    def __init__(self, clock: Clock, questions: Questions, troubles: Troubles, yes: bool) -> None:
        """`yes` answers each question at once."""
        self._clock = clock
        self._questions = questions
        self._troubles = troubles
        self._yes = yes
        self._asked = ""
        self._confirmed: Answer | None = None
        self.refused: GatewayFault | None = None

    def look(self) -> None:
        """Asks, or starts the clock, or looks whether the time of day still goes with it. A doubt that has ended is withdrawn."""
        if self._clock.started:
            self._look_at_drift()
            return
        doubt = self._clock.doubt()
        if doubt is None or self._yes:
            if doubt is not None:
                tell(f"{doubt}. The configuration says yes")
            self._questions.withdraw(_SUBJECT)
            self._clock.start()
        elif self._questions.about(_SUBJECT) is None:
            self._asked = doubt
            self._questions.ask(
                _SUBJECT, f"{doubt}. Go on with the time of day?", (), self._answered
            )

    def _answered(self, answer: Answer) -> None:
        if answer.yes:
            self._clock.start()
            self._confirmed = answer
        else:
            self.refused = GatewayFault(f"{self._asked}. The answer was no", 2)

    def remark(self) -> str | None:
        """Who has confirmed the first moment, once after that has been done: a remark for the record."""
        answer, self._confirmed = self._confirmed, None
        return None if answer is None else f"the first moment, confirmed by {answer.told()}"

    def _look_at_drift(self) -> None:
        drift = self._clock.drift_ms()
        if abs(drift) <= DRIFT_MS:
            self._troubles.clear(TroubleKind.CLOCK, "")
        elif not any(trouble.kind is TroubleKind.CLOCK for trouble in self._troubles):
            where = "ahead of" if drift > 0 else "behind"
            self._troubles.raises(
                TroubleKind.CLOCK,
                "",
                f"the time of day is {span(drift)} {where} the moments of scans: the journal's times are wrong by that",
            )
