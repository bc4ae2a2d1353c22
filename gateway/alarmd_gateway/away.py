"""Orders that may be found in the shared log, and those who wait for their answers."""

from __future__ import annotations

from collections.abc import Container

from .commands import Command
from .jobs import UNKNOWN, Job, reply
from .model import ServerGone


class Away:
    """Orders by the marks that their entries in the log have."""

    def __init__(self) -> None:
        self._jobs: dict[str, Job] = {}
        self._handed: dict[str, int] = {}  # the log's record when it was handed on, by the mark

    def add(self, mark: str, job: Job) -> None:
        """This order may be in the log from now on."""
        self._jobs[mark] = job

    def handed_on(self, mark: str, record: int) -> None:
        """This order waits for the leader from now on, as long as the log goes on with this record."""
        self._handed[mark] = record

    def gone(self, waiting: Container[str], record: int) -> list[Job]:
        """Those that were handed on and wait no more, as of this record of the log, all of which is known: they are surely not taken."""
        return [
            job
            for mark, job in self._jobs.items()
            if self._handed.get(mark) == record and mark not in waiting
        ]

    def mark_of(self, command: Command) -> str | None:
        """The mark of the order that is this very one; None where it is none of these."""
        return next((mark for mark, job in self._jobs.items() if job.command is command), None)

    def drop(self, mark: str) -> None:
        """It is known that it isn't."""
        del self._jobs[mark]

    def answer(self, mark: str, answer: list[str]) -> None:
        """Whoever gave the order of this mark here has the server's answer. Orders of others are passed over."""
        job = self._jobs.pop(mark, None)
        if job is not None:
            reply(job, answer)

    def fail_one(self, mark: str, words: str) -> None:
        """The order of this mark gets no reply."""
        job = self._jobs.pop(mark, None)
        if job is not None and not job.reply.done():
            job.reply.set_exception(ServerGone(words, 1))
            job.reply.exception()  # whoever asked may have gone

    def fail(self) -> None:
        """None of them gets a reply."""
        for mark in tuple(self._jobs):
            self.fail_one(mark, UNKNOWN)

    def tidy(self) -> None:
        """Those for which nobody waits any more are forgotten."""
        self._jobs = {mark: job for mark, job in self._jobs.items() if not job.reply.done()}
        self._handed = {mark: one for mark, one in self._handed.items() if mark in self._jobs}
