"""The server with its record, and the state and the journal that come of both. Commands go through here, one after another."""

from __future__ import annotations

import asyncio
import contextlib
from collections.abc import Callable, Iterator
from pathlib import Path
from typing import Final

from . import kept
from . import plant as plants
from . import texts as sized
from .commands import NO_COMMAND, NO_RELOAD, Command, Reload
from .config import Config
from .model import GatewayFault, Plant, ServerGone, Texts
from .player import Book, Taken, judge_reload, play
from .record import Entry, FileRecord, Log
from .server import Server
from .state import Happening
from .telling import tell
from .troubles import TroubleKind, Troubles

LATE: Final = 0.3
"""Of the patience: when it is over, nothing that is shown is live."""

_NAME: Final = "name"
"""The subject of the trouble that the record has lost its name."""


def entry_of(command: Command, user: str | None = None, reason: str | None = None) -> Entry:
    """A command as an entry of a record."""
    body = command.body() if isinstance(command, Reload) else b""
    return Entry(command.line(), user, reason, body)


async def read_reload(path: Path, texts: Texts) -> Reload:
    """A reload of these texts, read in a thread. Raises GatewayFault where they are too long, or the gateway can't read them."""
    sized.check(texts)
    return Reload(texts, await asyncio.to_thread(plants.of_texts, path, texts))


async def start_server(config: Config, plant: Path) -> Server:
    """A server of the plant of this plant file. Raises GatewayFault."""
    return await Server.start(config.alarmd, plant, config.patience_ms, config.workers)


async def prepared(path: Path, command: Command | None) -> Command | None:
    """The same command, with its plant read where it is a reload that the gateway can read: the server may refuse the others."""
    if not isinstance(command, Reload):
        return command
    try:
        return await read_reload(path, command.texts)
    except GatewayFault:
        return command


class NoReload(Exception):
    """A plant that isn't asked to be taken up; nothing is recorded. The text says why."""


class Link:
    """What is recorded before it is sent. A server that ends is started again from the record, some times in a row."""

    def __init__(self, config: Config, plant: Plant, server: Server, log: Log) -> None:
        """`start` makes one. The plant is the one with which the record begins."""
        self._first = plant
        self.book = Book(plant)
        self.last: Taken | None = (
            None  # the record's last command, whose answer nobody may have seen
        )
        self.troubles = Troubles()
        self.anew: Callable[[], None] = lambda: None  # called when the book is another one
        self._config = config
        self._server = server
        self._log = log
        self._starts = 0  # of the server, with no answer between

    @classmethod
    async def start(cls, config: Config) -> Link:
        """Starts the server, reads the plant, opens the record and plays it. Raises GatewayFault: status 3 where the plant is
        refused, 2 where words or the record are wrong, 1 where the server or the disk fail."""
        first = kept.beginning(config.plant, config.record, config.record)
        server = await start_server(config, first)
        try:
            plant = plants.read(first)
            log = FileRecord(config.record, plant)
        except BaseException:
            await server.kill()
            raise
        link = cls(config, plant, server, log)
        try:
            link.book, link.last = await play(server, plant, log.replay())
            if link.last is not None:
                link.book.take(link.last)
        except BaseException:
            await server.kill()  # it may wait for a reader of its answers
            log.close()
            raise
        link.compare()
        return link

    def compare(self) -> None:
        """Tells where the plant's files on the disk aren't what is served, as they may be where a plant was taken up while it ran."""
        if (name := kept.differs(self.plant, self._config.plant)) is not None:
            tell(f"{name} isn't what is served: `gateway reload` takes the plant's files up")

    @property
    def plant(self) -> Plant:
        """The plant that is served now."""
        return self.book.plant

    async def give(
        self, command: Command, user: str | None = None, reason: str | None = None
    ) -> tuple[list[str], list[Happening]]:
        """Records a command, sends it, and gives its answer and what has happened by it. Raises GatewayFault where the record
        can't be written, ServerGone where the server ends again and again."""
        with self._writing():
            await self._log.append(entry_of(command, user, reason))
        return await self.take(command, user, reason)

    @contextlib.contextmanager
    def _writing(self) -> Iterator[None]:
        """While the record is written. A disk that hangs is a trouble: displays are served meanwhile, and nothing that they show is live."""
        seconds = self._config.patience_ms / 1000 * LATE
        late = asyncio.get_running_loop().call_later(seconds, self._late, seconds)
        try:
            yield
        finally:
            late.cancel()
            self.troubles.clear(TroubleKind.SILENCE, "")

    def _late(self, seconds: float) -> None:
        words = (
            f"the record hasn't been on its disk for {seconds:g} s: nothing is scanned until it is"
        )
        self.troubles.raises(TroubleKind.SILENCE, "", words)

    @contextlib.contextmanager
    def _asking(self) -> Iterator[None]:
        """While the server is asked. One that is silent is a trouble, until it has answered or is started again."""
        self._server.late = self._silent
        try:
            yield
        finally:
            self.troubles.clear(TroubleKind.SILENCE, "")

    def _silent(self, seconds: float) -> None:
        words = f"alarmd hasn't answered for {seconds:g} s: nothing is scanned until it does"
        self.troubles.raises(TroubleKind.SILENCE, "", words)

    async def take(
        self, command: Command, user: str | None = None, reason: str | None = None
    ) -> tuple[list[str], list[Happening]]:
        """The same for a command that is the last one of the record already."""
        with self._asking():
            try:
                answer = await self._server.ask(entry_of(command).asked)
                taken = Taken(command, answer, user, reason)
            except ServerGone as gone:
                played = await self._again(gone)
                assert played is not None  # the record has the command at least
                taken = played
        if isinstance(command, Reload):
            await self._judge_reload(taken.answer)
        self._starts = 0
        return taken.answer, self.book.take(taken)

    async def _judge_reload(self, answer: list[str]) -> None:
        """Ends a server that knows no reload at once. Raises GatewayFault."""
        try:
            judge_reload(answer)
        except GatewayFault:
            await self._server.kill()
            raise

    async def ready_for(self, command: Reload) -> None:
        """Whether a reload may be recorded: the gateway can read its texts, the server knows the command, and the plant with which the
        record begins is kept beside it. Raises NoReload where it may not be, ServerGone as `give` does.
        """
        await self.look()
        try:
            if command.plant is None:
                await read_reload(self.plant.path, command.texts)
            with self._asking():
                knows = await self._knows_reload()
            if not knows:
                raise NoReload("this alarmd knows no `reload`: it wants a newer one")
            await self.keep_first()
        except ServerGone:
            raise
        except GatewayFault as fault:
            raise NoReload(fault.words) from None

    async def _knows_reload(self) -> bool:
        try:
            answer = await self._server.ask(NO_RELOAD)
        except ServerGone:
            await self.look()
            answer = await self._server.ask(NO_RELOAD)
        return answer[0] != NO_COMMAND

    async def keep_first(self) -> None:
        """Keeps the plant with which the record begins beside it, unless it is there. Raises GatewayFault where it can't be."""
        if self._first.path != self._config.plant:
            return
        try:
            self._first = await asyncio.to_thread(kept.keep, self._config.record, self._first)
        except OSError as fault:
            words = f"the plant can't be kept beside the record: {fault.strerror}"
            raise GatewayFault(words, 1) from None
        self._log.moved(self._first)

    async def _stand(self) -> None:
        """Has the plant with which the record begins where a server can read it: beside the record, once its own files are others. Raises
        GatewayFault where it can't be kept there."""
        if self._first.path != self._config.plant:
            return  # it is kept already
        name = await asyncio.to_thread(kept.differs, self._first, self._first.path)
        if name is None:
            return
        try:
            await self.keep_first()
        except GatewayFault as fault:
            words = f"{name} has changed since the record began, and {fault.words}"
            raise GatewayFault(words, fault.status) from None
        tell(f"{name} has changed: the plant that is served is kept beside the record")

    async def keep_first_or_tell(self) -> None:
        """The same; where it can't be kept, that is told, and a later start may lack it."""
        try:
            await self.keep_first()
        except GatewayFault as fault:
            tell(f"{fault.words}. Without it the record can't be played once the files change")

    async def next_plant(self) -> Plant:
        """The plant with which a new record begins, the one that is served now, with its files where a server can read them. Raises
        GatewayFault."""
        if self.plant.texts == self._first.texts:
            await self._stand()
            return self._first
        try:
            return await asyncio.to_thread(kept.keep, self._config.record, self.plant)
        except OSError as fault:
            raise GatewayFault(f"the plant can't be kept: {fault.strerror}", 1) from None

    async def look(self) -> None:
        """Where the server has ended while nothing was asked of it, it is started again, and where the record has lost its name, that is
        told. Raises ServerGone as `give` does."""
        if (words := self._log.astray()) is not None:
            self.troubles.raises(TroubleKind.RECORD, _NAME, words)
        else:
            self.troubles.clear(TroubleKind.RECORD, _NAME)
        if not self._server.ended:
            return
        held = await self._again(ServerGone("alarmd has ended", 1))
        if held is not None:
            self.book.take(held)
        self.anew()

    async def _again(self, gone: ServerGone) -> Taken | None:
        """Starts the server again, and plays the record; its last command is handed back. Raises ServerGone when that was tried
        as often in a row as is set, and GatewayFault where another start can't help: the plant's files have changed, and can't be kept.
        """
        while True:
            self._starts += 1
            if self._starts > self._config.restarts:
                raise gone
            words = f"{gone.words}: it is started again from the record"
            tell(words)
            self.troubles.raises(TroubleKind.SERVER, "", words)
            await self._server.kill()
            try:
                await self._stand()
                self._server = await start_server(self._config, self._first.path)
                self._log.check()
                self.book, held = await play(self._server, self._first, self._log.replay())
            except ServerGone as again:
                gone = again
                continue
            self.troubles.clear(TroubleKind.SERVER, "")
            self.anew()
            return held

    def check(self) -> None:
        """Raises GatewayFault (status 2) where the plant's files are no longer those that the record is of."""
        self._log.check()

    async def note(self, remark: str) -> None:
        """A remark in the record, which no server sees."""
        with self._writing():
            await self._log.append(Entry(f"# {remark}"))

    async def renew(self, server: Server, book: Book, entries: list[Entry], plant: Plant) -> str:
        """A new record with these commands, which begins with this plant, takes the old one's place, and the server and the book that
        have them already those of the old one. Gives the name under which the old record is kept. Raises GatewayFault.
        """
        with self._writing():
            name = await self._log.succeed(entries, plant)
        await self.replace(server, book, plant)
        return name

    async def replace(self, server: Server, book: Book, plant: Plant) -> None:
        """A server and a book that have another record already, which begins with this plant, take the old ones' place."""
        self._first = plant
        old, self._server, self.book = self._server, server, book
        await old.close()
        self.anew()

    async def close(self) -> int:
        """Ends the server in order, and gives its status."""
        status = await self._server.close()
        self._log.close()
        return status
