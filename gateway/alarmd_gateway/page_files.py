"""The page's files: its users and its certificate are taken up again where they have changed, while the page is served."""

from __future__ import annotations

import asyncio
from datetime import datetime, timezone
from pathlib import Path

from .certificate import Certificate
from .core import Core
from .guard import Guard
from .model import GatewayFault
from .troubles import TroubleKind
from .users import BadUsers, read_users
from .watched import Watched

LOOK = 5.0  # seconds between two looks; a change is taken up by the second look that sees it


class UsersFile:
    """The file of users of a page."""

    def __init__(self, core: Core, guard: Guard, path: Path) -> None:
        self._core, self._guard, self._path = core, guard, path
        self._watched = Watched(path)

    async def look(self) -> None:
        """Takes the file up where it has changed. Where it is wrong the users stay, and that is a trouble."""
        if not await asyncio.to_thread(self._watched.changed):
            return
        consoles = {row.number for row in self._core.plant.consoles}
        try:
            users = await asyncio.to_thread(read_users, self._path, consoles)
        except BadUsers as bad:
            words = f"{bad}. Until it is right, the users are those that it had"
            self._core.troubles.raises(TroubleKind.PAGE, "users", words)
        else:
            self._guard.take_users(users)
            self._core.troubles.clear(TroubleKind.PAGE, "users")


class CertificateFiles:
    """The files of a page's certificate and its key."""

    def __init__(self, core: Core, certificate: Certificate) -> None:
        self._core, self._certificate = core, certificate
        self._watched = Watched(*certificate.files)
        self._unfit: str | None = None

    async def look(self) -> None:
        """Takes the certificate up where it has changed. Where it can't be taken, or ends soon, that is a trouble."""
        if await asyncio.to_thread(self._watched.changed):
            try:
                await asyncio.to_thread(self._certificate.renew)
                self._unfit = None
            except GatewayFault as fault:
                self._unfit = f"{fault.words}. The page goes on with the one before"
        words = self._unfit or self._certificate.trouble(datetime.now(timezone.utc))
        if words is None:
            self._core.troubles.clear(TroubleKind.PAGE, "certificate")
        else:
            self._core.troubles.raises(TroubleKind.PAGE, "certificate", words)


Files = UsersFile | CertificateFiles


async def watch(files: list[Files]) -> None:
    """Looks at files until it is cancelled."""
    while True:
        for one in files:
            await one.look()
        await asyncio.sleep(LOOK)
