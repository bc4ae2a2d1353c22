"""An `alarmd` process: started, given commands, its answers read whole, its end told with its status and its own words."""

from __future__ import annotations

import asyncio
import contextlib
import errno
import os
import signal
from collections import deque
from collections.abc import Callable, Iterable
from pathlib import Path
from typing import Final, TypeVar

from .commands import END_ANSWER, END_MARK, wire
from .model import GatewayFault, ServerGone

Payload = TypeVar("Payload")

_NO_PROGRAM: Final = (errno.ENOENT, errno.ENOTDIR, errno.EACCES, errno.EISDIR, errno.ENOEXEC)
_SLICES: Final = 10  # patience is counted in so many parts, of which one counts however long our own loop was held up
_LATE: Final = 3  # after so many of them `late` is called
_BLOCK: Final = 512  # commands that are written at once
_AHEAD: Final = 4096  # commands that may be on their way, so that memory is bounded
_CHUNK: Final = 65_536  # bytes that are read at once
_WORDS: Final = 4096  # bytes of standard error that are kept


class Server:
    """One process. After ServerGone nothing more can be asked of it. `late` is called with the seconds for which an answer hasn't come,
    once three tenths of the patience are over.
    """

    late: Callable[[float], object] = staticmethod(lambda _: None)

    def __init__(self, process: asyncio.subprocess.Process, patience_ms: int) -> None:
        self._process = process
        self._slice = patience_ms / 1000 / _SLICES
        self._patience_ms = patience_ms
        self._left = _SLICES
        self._ready: deque[str] = deque()
        self._rest = b""
        self._words = b""
        self._errors = asyncio.create_task(self._keep_errors())

    @classmethod
    async def start(
        cls, alarmd: Path, plant: Path, patience_ms: int = 10_000, workers: int = 1
    ) -> Server:
        """Starts a server, and waits until its plant is accepted. Raises GatewayFault with alarmd's own words and its status: 3
        where the plant is refused, 2 where there is no alarmd; and ServerGone where it ends."""
        words = [str(alarmd), "run", str(plant)]
        words += ["--workers", str(workers)] if workers > 1 else []
        pipe = asyncio.subprocess.PIPE
        try:
            process = await asyncio.create_subprocess_exec(
                *words, stdin=pipe, stdout=pipe, stderr=pipe, process_group=0
            )
        except OSError as fault:
            told = f"alarmd can't be started: {alarmd}: {fault.strerror}"
            if fault.errno in _NO_PROGRAM:
                raise GatewayFault(told, 2) from None
            raise ServerGone(told, 1) from None
        server = cls(process, patience_ms)
        try:
            await server._accepted()
        except BaseException:
            await server.kill()
            raise
        return server

    @property
    def pid(self) -> int:
        """The process's number."""
        return self._process.pid

    @property
    def ended(self) -> bool:
        """Whether the process is known to have ended."""
        return self._process.returncode is not None

    async def ask(self, command: str | bytes) -> list[str]:
        """Gives one command, and its whole answer as lines without their ends. A reload comes as bytes, with its texts; behind its own
        answer stands what `list` is answered then. Raises ServerGone."""
        self._left = _SLICES
        text, alone = wire(command)
        await self._write(text)
        answer: list[str] = []
        while True:
            line = await self._line()
            if not alone and line == END_ANSWER:
                return answer
            answer.append(line)
            if alone and line.startswith(("DONE", "REFUSED")):
                return answer

    async def play(
        self,
        commands: Iterable[tuple[str | bytes, Payload]],
        took: Callable[[Payload, list[str]], None],
    ) -> None:
        """Gives scans and orders one after another while the answers are read, some thousands ahead. `took` has each command's
        payload and answer, in order. Raises ServerGone."""
        away: deque[tuple[Payload, bool]] = deque()
        room = asyncio.Event()
        feeder = asyncio.create_task(self._feed(commands, away, room))
        try:
            while away or not feeder.done():
                if not away:
                    await asyncio.sleep(0)  # the feeder goes on
                    continue
                await self._answers(away, took)
                room.set()
            await feeder
        finally:
            feeder.cancel()

    async def _answers(
        self, away: deque[tuple[Payload, bool]], took: Callable[[Payload, list[str]], None]
    ) -> None:
        """Takes at least one answer, and those that are there already."""
        self._left = _SLICES
        answer: list[str] = []
        while away:
            if not self._ready:
                await self._fill()
            payload, alone = away[0]
            line = self._ready.popleft()
            if alone or line != END_ANSWER:
                answer.append(line)
                if not alone or not line.startswith(("DONE", "REFUSED")):
                    continue
            away.popleft()
            took(payload, answer)
            answer = []
            self._left = _SLICES
            if not self._ready:
                return

    async def _feed(
        self,
        commands: Iterable[tuple[str | bytes, Payload]],
        away: deque[tuple[Payload, bool]],
        room: asyncio.Event,
    ) -> None:
        block: list[bytes] = []
        try:
            for command, payload in commands:
                text, alone = wire(command)
                away.append((payload, alone))
                block.append(text)
                if len(block) == _BLOCK or isinstance(command, bytes):
                    await self._write(b"".join(block))
                    block.clear()
                    while len(away) > _AHEAD:
                        room.clear()
                        await room.wait()
        finally:
            await self._write(b"".join(block))

    async def _write(self, text: bytes) -> None:
        """Writes while the answers may be read. An end of the process shows where they are read."""
        stdin = self._process.stdin
        assert stdin is not None
        try:
            stdin.write(text)
            await stdin.drain()
        except (BrokenPipeError, ConnectionResetError):
            pass

    async def _line(self) -> str:
        while not self._ready:
            await self._fill()
        return self._ready.popleft()

    async def _fill(self) -> None:
        """Reads what is there, or waits for it as long as the patience for this answer lasts."""
        chunk = await self._chunk()
        if not chunk:
            raise await self._gone()
        *lines, self._rest = (self._rest + chunk).split(b"\n")
        self._ready.extend(line.decode("utf-8", "surrogateescape") for line in lines)

    async def _chunk(self) -> bytes:
        stdout = self._process.stdout
        assert stdout is not None
        reading = asyncio.ensure_future(stdout.read(_CHUNK))
        try:
            while self._left > 0:
                done, _ = await asyncio.wait({reading}, timeout=self._slice)
                if done:
                    return reading.result()
                self._left -= 1
                if self._left == _SLICES - _LATE:
                    self.late(_LATE * self._slice)
        finally:
            reading.cancel()
        await self.kill()
        raise ServerGone(f"alarmd gave no answer in {self._patience_ms / 1000:g} s", 1)

    async def _accepted(self) -> None:
        await self._write(f"{END_MARK}\n".encode())
        line = ""
        try:
            line = await self._line()
            if line != END_ANSWER:
                await self._line()  # there is none: the process ends
        except ServerGone as gone:
            if line and gone.status == 3:
                words = self._told().removeprefix(line).strip("\n")
                raise GatewayFault(f"alarmd refuses the plant: {line}", 3, words) from None
            raise

    async def _gone(self) -> ServerGone:
        """How the process has ended: its status, or the signal, and its own words."""
        status = await self._process.wait()
        await self._errors
        told = " ".join(self._told().split())
        if status < 0:
            return ServerGone(f"alarmd was ended by signal {signal.Signals(-status).name}", 1)
        words = f"alarmd has ended, status {status}" + (f": {told}" if told else "")
        return ServerGone(words, status or 1)

    def _told(self) -> str:
        return self._words.decode("utf-8", "replace")

    async def _keep_errors(self) -> None:
        stderr = self._process.stderr
        assert stderr is not None
        while chunk := await stderr.read(_CHUNK):
            self._words = (self._words + chunk)[-_WORDS:]

    async def close(self) -> int:
        """Ends the process in order: its input ends, and its status is given; one that doesn't end is killed."""
        if self._process.stdin is not None:
            self._process.stdin.close()
        try:
            status = await asyncio.wait_for(self._process.wait(), self._slice * _SLICES)
        except asyncio.TimeoutError:
            status = -signal.SIGKILL
        await self.kill()
        return status

    async def kill(self) -> None:
        """Ends the process at once, whatever it does, with those that it has started. One that has ended is left."""
        if self._process.returncode is None:
            with contextlib.suppress(ProcessLookupError):
                os.killpg(self._process.pid, signal.SIGKILL)
        await self._process.wait()
        self._errors.cancel()
        stdin = self._process.stdin
        if stdin is not None:  # what wasn't written is left, and its fault with it
            stdin.close()
            with contextlib.suppress(OSError, asyncio.TimeoutError):
                await asyncio.wait_for(stdin.wait_closed(), 1)
