"""What the gateway asks before it goes on, and the answers of operators."""

from __future__ import annotations

import json
from collections.abc import Callable, Iterator
from dataclasses import dataclass
from datetime import datetime, timezone

from .model import Json, civil


@dataclass(frozen=True)
class Question:
    """What the gateway asks before it goes on."""

    number: int
    subject: str  # `clock` or `record`
    text: str
    details: tuple[str, ...]  # a line each
    since: datetime

    def json(self) -> dict[str, Json]:
        """`number`, `subject`, `text`, `details`, `since`."""
        return {
            "number": self.number,
            "subject": self.subject,
            "text": self.text,
            "details": list(self.details),
            "since": civil(self.since),
        }


@dataclass(frozen=True)
class Answer:
    """An operator's answer: from which console, and which user, where that is known."""

    yes: bool
    console: int | None = None
    user: str | None = None

    def told(self) -> str:
        """Who has answered, as JSON, for a remark."""
        return json.dumps({"console": self.console, "user": self.user})


class Questions:
    """The questions that wait. `told` hears of each that comes, and of each that ends (with None where it is withdrawn)."""

    def __init__(self, told: Callable[[Question, bool, Answer | None], None]) -> None:
        self._waiting: dict[int, tuple[Question, Callable[[Answer], None]]] = {}
        self._told = told
        self._count = 0

    def __iter__(self) -> Iterator[Question]:
        return iter([question for question, _ in self._waiting.values()])

    def __len__(self) -> int:
        return len(self._waiting)

    def about(self, subject: str) -> Question | None:
        """The question about a subject that waits, of which there is one at most."""
        return next((question for question in self if question.subject == subject), None)

    def ask(
        self, subject: str, text: str, details: tuple[str, ...], then: Callable[[Answer], None]
    ) -> Question:
        """Asks; `then` has the answer. A question about the same subject that waits is withdrawn."""
        self.withdraw(subject)
        self._count += 1
        question = Question(self._count, subject, text, details, datetime.now(timezone.utc))
        self._waiting[question.number] = question, then
        self._told(question, True, None)
        return question

    def answer(self, number: int, answer: Answer) -> None:
        """Answers a question. Raises KeyError where none of this number waits."""
        question, then = self._waiting.pop(number)
        self._told(question, False, answer)
        then(answer)

    def withdraw(self, subject: str) -> None:
        """The question about a subject needs no answer any more."""
        question = self.about(subject)
        if question is not None:
            del self._waiting[question.number]
            self._told(question, False, None)
