"""A record played to a server: the state and the journal that come of it."""

from __future__ import annotations

from collections.abc import Iterable
from dataclasses import dataclass

from . import plant as plants
from .commands import CUT, NO_COMMAND, Command, Reload, Scan, read
from .journal import Journal
from .model import GatewayFault, Plant
from .record import Entry
from .server import Server
from .state import Happening, State

RELOADED = "RELOADED "


@dataclass(frozen=True, slots=True)
class Taken:
    """A command with its answer, and the user and the reason of an order. Behind the answer to a reload stands that to `list`."""

    command: Command
    answer: list[str]
    user: str | None = None
    reason: str | None = None


class Book:
    """The state and the journal of one run, kept by its answers. `plant` is the one that is served now. `came` are the moments at
    which inputs had their last samples; those of the first scan may be carried there, as old as they are.
    """

    def __init__(self, plant: Plant) -> None:
        self.plant = plant
        self.state = State(plant)
        self.journal = Journal(plant)
        self.came: dict[str, int] = {}

    def take(self, taken: Taken) -> list[Happening]:
        """A command with its answer, and what has happened by it."""
        command = taken.command
        if isinstance(command, Reload):
            self._reload(command, taken)
            return []
        if isinstance(command, Scan):
            if self.state.scanned:
                self.came.update(dict.fromkeys(command.given, command.moment))
            self.journal.scan(taken.answer)
            return self.state.scan(command.moment, command.given, taken.answer)
        moment, by = self.state.moment, (taken.user, taken.reason)
        self.journal.order(command, moment, taken.answer, *by)
        return self.state.order(command, taken.answer, *by)

    def _reload(self, command: Reload, taken: Taken) -> None:
        """Another plant is served from now on, where the server has taken it. Raises GatewayFault (status 3) where the gateway can't
        read it."""
        told, *listing = taken.answer
        if not told.startswith(RELOADED):
            return
        self.plant = command.plant or plants.of_texts(self.plant.path, command.texts)
        self.state = self.state.reloaded(self.plant, listing)
        words = f"RELOAD {told.removeprefix(RELOADED)}"
        self.journal.reload(self.plant, self.state.moment, words, taken.user, taken.reason)


async def play(server: Server, plant: Plant, entries: Iterable[Entry]) -> tuple[Book, Taken | None]:
    """Gives a record to a server. The last command is handed back with its answer, and not yet taken into the book, as nobody
    may have seen its answer. Raises ServerGone, and GatewayFault (status 2) where the server takes a line that the gateway
    doesn't know."""
    book = Book(plant)
    held: Taken | None = None

    def took(entry: Entry, answer: list[str]) -> None:
        nonlocal held
        if held is not None and isinstance(held.command, Reload):
            book.take(held)  # what follows is read by that plant
            held = None
        command = read(book.plant, entry.line, entry.body)
        if command is None:
            _without_effect(entry, answer)
            return
        if isinstance(command, Reload):
            judge_reload(answer)
        if held is not None:
            book.take(held)
        held = Taken(command, answer, entry.user, entry.reason)

    await server.play(((entry.asked, entry) for entry in entries), took)
    return book, held


def judge_reload(answer: list[str]) -> None:
    """Raises GatewayFault (status 2) where the server has no reload. It has taken the texts of it as lines then, and whatever of them
    looked like a command: nothing more may be asked of it."""
    if answer and answer[0] == CUT:
        raise GatewayFault("alarmd says that a reload's texts were cut: nothing more is asked", 2)
    if not answer or answer[0] == NO_COMMAND:
        raise GatewayFault(
            "alarmd knows no `reload`, and the record has one: the texts behind it were read as lines, so this server is given up."
            " Serve this record with an alarmd that knows it",
            2,
        )


def _without_effect(entry: Entry, answer: list[str]) -> None:
    """What isn't known as a command is answered with nothing, with a refusal, or with a listing: it is no event."""
    if answer and answer[-1].split(" ")[0] not in ("REFUSED", "END", "CONFIG"):
        raise GatewayFault(
            f"the record has a line that the gateway doesn't know: {entry.line[:80]!r}", 2
        )
