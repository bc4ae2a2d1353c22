"""What has happened, told to displays as changes, and as troubles where it is about the server itself."""

from __future__ import annotations

from collections.abc import Mapping

from .changes import Board, ChangeKind
from .link import Link
from .model import Json
from .questions import Answer, Question
from .state import Happening, Restarted, Stopped
from .telling import tell
from .troubles import Trouble, TroubleKind


class Announcer:
    """Puts changes on the board, in order."""

    def __init__(self, link: Link) -> None:
        self.board = Board(link.plant)
        self._link = link
        self._rows = len(link.book.journal)
        link.anew = self.anew
        link.troubles.listen(self._troubled)
        self._stopped_programs()

    @property
    def _moment(self) -> int:
        return self._link.book.state.moment

    def happened(self, happened: list[Happening]) -> None:
        """What a command has changed, and how many rows the journal has now."""
        for happening in happened:
            self.board.happened(happening, self._moment)
            if isinstance(happening, Stopped):
                self._stopped(happening)
            elif isinstance(happening, Restarted):
                self._link.troubles.clear(TroubleKind.STOPPED, happening.program)
        rows = len(self._link.book.journal)
        if rows != self._rows:
            self._rows = rows
            left = self._link.book.state.events_left  # an order may have been the last event
            self.board.put(ChangeKind.ROWS, self._moment, {"length": rows, "events_left": left})

    def scanned(self, answer: str) -> None:
        """The last line of a scan's answer. A scan that is refused is a trouble until one is taken."""
        if answer.startswith("REFUSED"):
            self._link.troubles.raises(TroubleKind.REFUSED, "", f"a scan was refused: {answer}")
            return
        self._link.troubles.clear(TroubleKind.REFUSED, "")
        left = self._link.book.state.events_left
        self.board.put(ChangeKind.SCAN, self._moment, {"events_left": left})

    def anew(self) -> None:
        """The state and the journal are others: displays begin with a new snapshot."""
        self._begin(ChangeKind.ANEW, {})

    def reloaded(self, answer: str) -> None:
        """Another plant is served from now on: displays ask for it, and begin with a new snapshot."""
        tell(f"another plant is served from now on: {answer}")
        self._begin(ChangeKind.RELOADED, {"answer": answer})

    def _begin(self, kind: ChangeKind, data: Mapping[str, Json]) -> None:
        self._rows = len(self._link.book.journal)
        self._stopped_programs()
        self.board.put(kind, self._moment, data)

    def asked(self, question: Question, waits: bool, answer: Answer | None) -> None:
        """A question that waits, or its end, with the answer or without one where it was withdrawn."""
        subject = str(question.number)
        if waits:
            self._link.troubles.raises(TroubleKind.QUESTION, subject, question.text)
            self.board.put(ChangeKind.QUESTION, self._moment, question.json())
            return
        self._link.troubles.clear(TroubleKind.QUESTION, subject)
        given = answer or Answer(False)
        self.board.put(
            ChangeKind.ANSWERED,
            self._moment,
            {
                "number": question.number,
                "yes": given.yes if answer else None,
                "user": given.user,
                "console": given.console,
            },
        )

    def _stopped_programs(self) -> None:
        """The troubles of stopped programs are those of the state as it is."""
        stopped = self._link.book.state.stopped
        for trouble in self._link.troubles:
            if trouble.kind is TroubleKind.STOPPED and trouble.subject.lower() not in stopped:
                self._link.troubles.clear(trouble.kind, trouble.subject)
        for one in stopped.values():
            self._stopped(one)

    def _stopped(self, stopped: Stopped) -> None:
        place = f"{stopped.file}, line {stopped.line}" if stopped.file else stopped.path
        words = f"program {stopped.program} has stopped: {stopped.kind} in {place} (statement {stopped.statement} of {stopped.path})"
        self._link.troubles.raises(TroubleKind.STOPPED, stopped.program, words)

    def _troubled(self, trouble: Trouble, stands: bool) -> None:
        self.board.put(ChangeKind.TROUBLE, self._moment, {**trouble.json(), "stands": stands})
        if trouble.kind not in (
            TroubleKind.SERVER,
            TroubleKind.QUESTION,
        ):  # these are told where they arise
            tell(trouble.text if stands else f"ended: {trouble.text}")
