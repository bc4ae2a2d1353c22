"""`gateway serve CONFIG`: a plant served, with all parts of the gateway around it."""

from __future__ import annotations

import asyncio
import contextlib
import dataclasses
import importlib
import os
import signal
from pathlib import Path
from typing import Any, Final, Protocol

from . import config as configs
from .config import Config
from .console import Console, told
from .core import Core
from .input import lines
from .model import GatewayFault
from .output import Output
from .reloading import Reloading
from .telling import tell, tell_of_libraries
from .troubles import TroubleKind
from .words import Words, called

PARTS: tuple[str, ...] = ("field", "simulate", "web")
"""The modules of the parts. Each has `async attach(core, config) -> Part | None`, None where its table isn't there."""

LAST_SECONDS: Final = 10.0
"""For so long, at the most, sources end, and scans take what they have brought, before the end."""


class Part(Protocol):
    """A part of the gateway that stands around the core while it serves: a web server, the sources of samples."""

    asks: bool  # whether an operator sees questions by it, and can answer them
    brings: bool  # whether samples come by it that whoever sent them counts as delivered

    async def close(self) -> None:
        """Ends the part, in at most some seconds. Raises nothing."""


def main(words: list[str]) -> int:
    """`serve CONFIG [--yes] [--check] [--new-alarmd]`. The status is 0 where it was ended in order."""
    parser = Words(prog=called("serve"), description="Serves a plant.")
    parser.add_argument("config", type=Path, help="the configuration, gateway.toml")
    parser.add_argument("--yes", action="store_true", help="answers questions at the start by yes")
    parser.add_argument("--check", action="store_true", help="first does what `check` does")
    parser.add_argument("--new-alarmd", action="store_true", help="a shared log goes on with it")
    given = parser.parse_args(words[1:])
    config = configs.read(given.config)
    if given.new_alarmd and "etcd" not in config.tables:
        raise GatewayFault("--new-alarmd is for a shared log, and there is no [etcd]", 2)
    config = dataclasses.replace(config, yes=config.yes or given.yes, new_alarmd=given.new_alarmd)
    if given.check:
        importlib.import_module(".check", __package__).check(config)
    tell_of_libraries()
    asyncio.run(serve(config))
    return 0


async def serve(config: Config) -> None:
    """Serves until a signal, or the end of the input where nothing else brings anything. Raises GatewayFault."""
    stop = asyncio.Event()
    loop = asyncio.get_running_loop()
    for number in (signal.SIGTERM, signal.SIGINT, signal.SIGHUP):
        if number != signal.SIGHUP or signal.getsignal(number) != signal.SIG_IGN:  # as by nohup
            loop.add_signal_handler(number, stop.set)
    for number in (signal.SIGTTIN, signal.SIGTTOU):
        signal.signal(number, signal.SIG_IGN)  # a terminal stops nothing that is in its background
    starting = asyncio.create_task(_core(config))
    if not await _first(starting, stop):  # the record is still played
        starting.cancel()
        await asyncio.gather(starting, return_exceptions=True)
        return
    output = Output(broken=lambda: loop.call_soon_threadsafe(stop.set))
    await _Serving(config, starting.result(), output).run(stop)
    output.close(2)
    if output.fault is not None:
        raise GatewayFault(f"standard output: {output.fault.strerror}", 1)


async def _core(config: Config) -> Core:
    """The core, of its own or with others; the second wants a library that the first doesn't."""
    if "etcd" not in config.tables:
        return await Core.start(config)
    core: Core = await importlib.import_module(".shared", __package__).SharedCore.start(config)
    return core


async def _first(task: asyncio.Task[Core], stop: asyncio.Event) -> bool:
    """Whether a task has ended, before it was to stop."""
    stopping = asyncio.create_task(stop.wait())
    await asyncio.wait({task, stopping}, return_when=asyncio.FIRST_COMPLETED)
    stopping.cancel()
    return task.done()


class _Serving:
    """The core with its parts and its console, from the played record to the end."""

    def __init__(self, config: Config, core: Core, output: Output) -> None:
        self._config = config
        self._core = core
        self._console = Console(core, output)
        self._reloading = Reloading(core, config)
        self._output = output
        self._parts: list[Part] = []

    async def run(self, stop: asyncio.Event) -> None:
        """Serves until the core ends, or it is to stop."""
        self._core.ready = "simulate" not in self._config.tables
        working = asyncio.create_task(self._core.run())
        showing = asyncio.create_task(self._console.show())
        self._console.show_last(self._core.last)
        tasks: list[asyncio.Task[Any]] = [showing]
        try:
            await self._attach()
            self._core.ready = True
            await self._reloading.start()
            self._ask()
            if self._reads_input():
                tasks.append(asyncio.create_task(self._read(stop)))
            stopping = asyncio.create_task(stop.wait())
            tasks.append(stopping)
            await asyncio.wait({working, stopping}, return_when=asyncio.FIRST_COMPLETED)
        finally:
            ending = asyncio.create_task(self._end_sources())
            await asyncio.wait({ending}, timeout=LAST_SECONDS)
            self._core.stop()
            await self._reloading.close()
            await asyncio.wait({working})
            await ending  # a source that waited for room does so no more
            for part in self._parts:
                await part.close()
            await asyncio.wait({showing}, timeout=2)
            for task in tasks:
                task.cancel()
            await asyncio.gather(working, *tasks, return_exceptions=True)
        working.result()

    async def _attach(self) -> None:
        """Starts the parts that the configuration names."""
        for name in PARTS:
            module = importlib.import_module(f".{name}", __package__)
            part: Part | None = await module.attach(self._core, self._config)
            if part is not None:
                self._parts.append(part)

    async def _end_sources(self) -> None:
        """Nothing more is read, and scans take what was: it doesn't come a second time."""
        sources = [part for part in self._parts if part.brings]
        self._parts = [part for part in self._parts if not part.brings]
        for part in sources:
            await part.close()
        if sources:
            await self._core.finish(LAST_SECONDS)

    def _reads_input(self) -> bool:
        """Whether standard input is read: as the configuration says, else where nothing but it brings anything."""
        if self._config.console is not None:
            return self._config.console
        return not self._parts or _terminal()

    def _ask(self) -> None:
        """Shows the questions of the start. Raises GatewayFault (status 2) where nobody is there to answer them."""
        questions = self._core.questions
        if questions and not any(part.asks for part in self._parts):
            if not (_terminal() and self._reads_input()):
                words = "there is nobody to ask, and neither --yes nor `yes = true` says so"
                raise GatewayFault(f"{questions[0].text} {words}", 2)
        for question in questions:
            tell(question.text)
            for line in told(question):
                self._output.put(line)

    async def _read(self, stop: asyncio.Event) -> None:
        """Takes the lines of standard input. Its end is the end of all where nothing else brings anything."""
        await self._console.serve(lines())
        if not self._parts:
            await self._core.drain()
            stop.set()
        elif not _terminal():
            words = "standard input has ended: it brings nothing any more"
            self._core.troubles.raises(TroubleKind.SOURCE, "standard input", words)


def _terminal() -> bool:
    with contextlib.suppress(OSError):
        return os.isatty(0)
    return False
