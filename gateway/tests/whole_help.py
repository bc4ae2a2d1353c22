"""The whole gateway as a process of its own before a real alarmd, with samples from its standard input."""

from __future__ import annotations

import os
import shutil
import signal
import subprocess
import sys
import threading
import time
from collections.abc import Callable, Iterator
from contextlib import contextmanager, suppress
from pathlib import Path
from typing import IO

from http_help import two_users

GATEWAY = Path(__file__).resolve().parents[1]
PATIENCE = 240.0  # seconds
SERVE = [sys.executable, "-B", "-m", "alarmd_gateway", "serve"]

CONFIG = """
alarmd = "{alarmd}"
plant = "plant/plant.toml"
record = "record"
period_ms = {period}
console = true
{settings}
[web]
listen = "127.0.0.1:{port}"
{more}
"""


class NoVerdict(AssertionError):
    """What would show whether all is right didn't come."""


class Gateway:
    """A folder with a plant, a record and users, and the process that serves it."""

    def __init__(
        self, folder: Path, alarmd: Path, plant: Path, period: int = 200, settings: str = ""
    ) -> None:
        self.folder = folder
        self.settings = settings
        self.alarmd = alarmd
        self.more_words: list[str] = []
        self.period = period
        self.port = 0
        self.url = ""
        self.told: list[str] = []  # its standard error
        self.said: list[str] | None = None  # its standard output, where somebody wants it
        self._process: subprocess.Popen[str] | None = None
        shutil.copytree(plant, folder / "plant")

    def users(self) -> None:
        """Anna and Bert may log in."""
        lines = []
        for name, consoles in (("anna", [1]), ("bert", [2])):
            user = two_users().named(name)
            assert user is not None
            lines.append(f'[[user]]\nname = "{name}"\nconsoles = {consoles}\n')
            lines.append(f'password = "{user.password.text()}"\n')
        (self.folder / "users.toml").write_text("".join(lines))

    def start(self) -> None:
        """Starts it, on the port of the last start, and waits until the page is there."""
        more = 'users = "users.toml"' if (self.folder / "users.toml").exists() else ""
        text = CONFIG.format(
            alarmd=self.alarmd,
            period=self.period,
            settings=self.settings,
            port=self.port,
            more=more,
        )
        (self.folder / "gateway.toml").write_text(text)
        self._process = subprocess.Popen(
            [*SERVE, "gateway.toml", *self.more_words],
            cwd=self.folder,
            env={**os.environ, "PYTHONPATH": str(GATEWAY)},
            stdin=subprocess.PIPE,
            stdout=subprocess.DEVNULL if self.said is None else subprocess.PIPE,
            stderr=subprocess.PIPE,
            text=True,
        )
        self.told.clear()
        self._listen(self._process.stderr, self.told)
        if self.said is not None:
            self._listen(self._process.stdout, self.said)
        self.wait(lambda: any(line.startswith("PAGE ") for line in self.told))
        self.url = next(line for line in self.told if line.startswith("PAGE ")).split()[1]
        self.port = int(self.url.rstrip("/").rpartition(":")[2])

    def _listen(self, stream: IO[str] | None, lines: list[str]) -> None:
        """Gathers the lines of a stream from now on."""
        source = stream or ()

        def gather() -> None:
            for line in source:
                lines.append(line.strip())

        threading.Thread(target=gather, daemon=True).start()

    def wait(self, holds: Callable[[], object]) -> None:
        """Waits until something holds."""
        end = time.monotonic() + PATIENCE
        while not holds():
            assert self.process.poll() is None, self.told
            if time.monotonic() > end:
                raise NoVerdict(f"what is waited for doesn't come: {self.told}")
            time.sleep(0.01)

    @property
    def started(self) -> bool:
        return self._process is not None

    @property
    def process(self) -> subprocess.Popen[str]:
        assert self._process is not None
        return self._process

    def give(self, line: str) -> None:
        """A line of samples or an order."""
        assert self.process.stdin is not None
        self.process.stdin.write(line + "\n")
        self.process.stdin.flush()

    def signal(self, number: signal.Signals) -> None:
        """Sends a signal to the gateway."""
        self.process.send_signal(number)

    def server(self) -> int:
        """The process id of its alarmd."""
        path = Path(f"/proc/{self.process.pid}/task/{self.process.pid}/children")
        self.wait(lambda: path.read_text().split())
        return int(path.read_text().split()[0])

    def record(self) -> list[str]:
        """The lines of the record but its first one."""
        return (self.folder / "record").read_text().splitlines()[1:]

    def memory(self) -> int:
        """Bytes of memory that the gateway has resident."""
        status = Path(f"/proc/{self.process.pid}/status").read_text()
        line = next(line for line in status.splitlines() if line.startswith("VmRSS"))
        return int(line.split()[1]) * 1024

    def end(self) -> int:
        """Ends it in order, and gives its status."""
        if self.process.poll() is None:
            self.signal(signal.SIGCONT)
            self.signal(signal.SIGTERM)
        try:
            status = self.process.wait(PATIENCE)
        except subprocess.TimeoutExpired:
            self.process.kill()
            status = self.process.wait()
        for stream in (self.process.stdin, self.process.stderr):
            if stream is not None:
                with suppress(OSError):  # a line that nobody took
                    stream.close()
        return status


@contextmanager
def gateway(
    folder: Path,
    alarmd: Path,
    plant: Path,
    period: int = 200,
    users: bool = False,
    settings: str = "",
) -> Iterator[Gateway]:
    """Serves a plant, and ends."""
    found = Gateway(folder, alarmd, plant, period, settings)
    if users:
        found.users()
    found.start()
    try:
        yield found
    finally:
        found.end()


def large_plant(folder: Path, alarms: int, together: int) -> Path:
    """A plant of so many alarms, of which so many come with the input `trip`; its other input is `beat`."""
    folder.mkdir(parents=True)
    (folder / "plant.toml").write_text(
        'name = "Refinery"\nepoch = "2026-11-23T06:00:00Z"\nareas = ["north", "south"]\n'
        'sources = ["points.st"]\nalarms = "alarms.csv"\n'
        '[[console]]\nnumber = 1\nareas = ["north", "south"]\n'
        '[[console]]\nnumber = 2\nareas = ["south"]\n'
    )
    (folder / "points.st").write_text(
        "VAR_GLOBAL\n  trip AT %IX0.0 : BOOL;\n  beat AT %ID1 : DINT;\n  never : BOOL;\nEND_VAR\n"
        "PROGRAM nothing\n  never := FALSE;\nEND_PROGRAM\n"
    )
    rows = ["tag,area,priority,condition,suppress,latch,max_shelve_ms,text"]
    step = alarms // together
    for number in range(alarms):
        area = "north" if number % 3 else "south"
        condition = "trip" if number % step == 0 and number // step < together else "never"
        priority = 4 if number % 20 > 3 else 3 if number % 20 > 0 else 1 + number // 20 % 2
        unit = number // 100
        rows.append(
            f"LAH-{number:05},{area},{priority},{condition},,FALSE,3600000,Unit {unit} level high in vessel {number}"
        )
    (folder / "alarms.csv").write_text("\n".join(rows) + "\n")
    return folder
