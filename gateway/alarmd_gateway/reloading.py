"""Where a gateway that serves is asked to take up the plant's files: a socket beside the record.

Whoever connects gives a line of JSON, who asks and why, and a `reload` as a server is given it: a line with sizes, and the texts. One line
comes back, and the connection ends."""

from __future__ import annotations

import asyncio
import contextlib
import json
import os
import socket
import stat
from collections.abc import Iterator
from pathlib import Path
from typing import Final

from . import texts as sized
from .config import WORDS_STATUS, Config
from .core import Core
from .link import NoReload
from .model import GatewayFault, ServerGone, Texts

LONGEST_LINE: Final = 65_536  # bytes
SLOW: Final = 60.0  # seconds in which all texts have to have come
NOT_ASKED: Final = "NOT ASKED "
NO_ANSWER: Final = "NO ANSWER "


def socket_path(config: Config) -> Path:
    """Where the gateway that serves a configuration listens."""
    return config.record.with_name(f"{config.record.name}.socket")


def judge_place(path: Path) -> None:
    """Raises GatewayFault (status 2) where something else than a socket that was left there has the name."""
    with contextlib.suppress(OSError):
        if not stat.S_ISSOCK(os.lstat(path).st_mode):
            raise GatewayFault(f"{path} is no socket: the gateway wants this name", WORDS_STATUS)


@contextlib.contextmanager
def short(path: Path) -> Iterator[str]:
    """A path as a socket's address, which may have 107 bytes alone."""
    if len(os.fsencode(path)) < 100:
        yield str(path)
        return
    folder = os.open(path.parent, os.O_PATH | os.O_DIRECTORY)
    try:
        yield f"/proc/self/fd/{folder}/{path.name}"
    finally:
        os.close(folder)


class Reloading:
    """The socket of a gateway that serves. Only its own user, and root, may connect."""

    asks = False

    def __init__(self, core: Core, config: Config) -> None:
        """`start` makes it ready."""
        self._core = core
        self._path = socket_path(config)
        self._server: asyncio.Server | None = None
        self._mine: os.stat_result | None = None  # the socket, once it is there

    async def start(self) -> None:
        """Listens. Raises GatewayFault (status 2)."""
        judge_place(self._path)
        listening = socket.socket(socket.AF_UNIX)
        try:
            self._path.unlink(missing_ok=True)
            with short(self._path) as path:
                before = os.umask(0o177)
                try:
                    listening.bind(path)
                finally:
                    os.umask(before)
            self._mine = os.lstat(self._path)
            self._server = await asyncio.start_unix_server(
                self._serve, sock=listening, limit=LONGEST_LINE
            )
        except OSError as fault:
            listening.close()
            raise GatewayFault(f"{self._path}: {fault.strerror}", WORDS_STATUS) from None

    async def close(self) -> None:
        """Nobody can ask any more. What has the socket's name by now, as that of another gateway, stays."""
        if self._server is not None and self._mine is not None:
            self._server.close()
            with contextlib.suppress(OSError):
                if os.path.samestat(self._mine, os.lstat(self._path)):
                    self._path.unlink()

    async def _serve(self, reader: asyncio.StreamReader, writer: asyncio.StreamWriter) -> None:
        with contextlib.suppress(OSError, ValueError, asyncio.TimeoutError, EOFError):
            user, reason, texts = await asyncio.wait_for(read(reader), SLOW)
            writer.write(f"{await self._answer(texts, user, reason)}\n".encode())
            await writer.drain()
        writer.close()

    async def _answer(self, texts: Texts, user: str | None, reason: str | None) -> str:
        try:
            return (await self._core.reload(texts, user, reason)).lines[0]
        except NoReload as refused:
            return f"{NOT_ASKED}{refused}"
        except ServerGone as gone:
            return f"{NO_ANSWER}{gone.words}"


async def read(reader: asyncio.StreamReader) -> tuple[str | None, str | None, Texts]:
    """Who asks, why, and the texts. Raises ValueError where it isn't that, EOFError where it ends too early."""
    fields = json.loads(await reader.readline())
    head = (await reader.readline()).removesuffix(b"\n")
    lengths = sized.sizes(head)
    if not isinstance(fields, dict) or lengths is None:
        raise ValueError("no reload")
    body = await reader.readexactly(sum(lengths))
    texts = sized.of(head.decode(), body)
    if texts is None:
        raise ValueError("no reload")
    found = (fields.get("user"), fields.get("reason"))
    user, reason = (one if isinstance(one, str) else None for one in found)
    return user, reason, texts
