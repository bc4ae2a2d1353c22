"""What the tests of the whole share: a plant of its own for each, a configuration, a gateway as a process."""

from __future__ import annotations

import asyncio
import contextlib
import re
import shutil
import subprocess
import threading
import time
from collections.abc import Callable
from pathlib import Path

from alarmd_gateway.config import Config

ROOT = Path(__file__).resolve().parents[2]
LIMIT = 600.0
"""Seconds for which a test waits for what has to come, on however busy a machine."""
PATIENCE = 1000 * int(LIMIT)  # milliseconds for which a gateway waits for an answer of alarmd


def plant_copy(name: str, folder: Path, epoch: str = "2020-01-01T00:00:00Z") -> Path:
    """An example's files in a folder, with another epoch."""
    shutil.copytree(ROOT / "examples" / name, folder / "plant")
    path = folder / "plant" / "plant.toml"
    path.write_text(re.sub(r'(?m)^epoch = ".*"$', f'epoch = "{epoch}"', path.read_text()))
    return path


def without_programs(folder: Path) -> Path:
    """A plant of alarms on inputs alone."""
    path = plant_copy("built_in", folder)
    (path.parent / "p.st").write_text("VAR_GLOBAL a AT %ID0 : DINT; c AT %IX0.0 : BOOL; END_VAR\n")
    return path


def config_for(alarmd: Path, plant: Path, **others: int | bool | Path) -> Config:
    """A configuration beside the plant's folder."""
    folder = plant.parent.parent
    config = Config(alarmd, plant, folder / "record", folder, patience_ms=PATIENCE, period_ms=50)
    for key, value in others.items():
        object.__setattr__(config, key, value)
    return config


def config_file(alarmd: Path, plant: Path, **others: int | bool) -> Path:
    """The same as a file."""
    path = plant.parent.parent / "gateway.toml"
    keys = {"patience_ms": PATIENCE, "period_ms": 50, **others}
    lines = [f'alarmd = "{alarmd}"', f'plant = "{plant}"', 'record = "record"']
    lines += [f"{key} = {str(value).lower()}" for key, value in keys.items()]
    path.write_text("\n".join(lines) + "\n")
    return path


async def until(condition: Callable[[], object], what: str = "the condition") -> None:
    """Waits until something holds, within the limit."""
    end = time.monotonic() + LIMIT
    while not condition():
        assert time.monotonic() < end, f"{what} didn't come"
        await asyncio.sleep(0.01)


class Gateway:
    """`gateway serve CONFIG` as a process, with its standard input open and its outputs gathered."""

    def __init__(self, config: Path, *words: str, stdout: int | None = None) -> None:
        self.process = subprocess.Popen(
            [ROOT / "gateway" / "gateway", "serve", str(config), *words],
            stdin=subprocess.PIPE,
            stdout=subprocess.PIPE if stdout is None else stdout,
            stderr=subprocess.PIPE,
            process_group=0,
        )
        self.out: list[str] = []
        self.err: list[str] = []
        self._gather(self.process.stdout, self.out)
        self._gather(self.process.stderr, self.err)

    def _gather(self, stream: object, lines: list[str]) -> None:
        def gather() -> None:
            for line in stream:  # type: ignore[attr-defined]
                lines.append(line.decode().rstrip("\n"))

        if stream is not None:
            threading.Thread(target=gather, daemon=True).start()

    def give(self, text: str) -> None:
        """Writes to the gateway's input."""
        assert self.process.stdin is not None
        self.process.stdin.write(text.encode())
        self.process.stdin.flush()

    def end_input(self) -> None:
        """The gateway's input ends."""
        assert self.process.stdin is not None
        self.process.stdin.close()

    def wait_for(self, pattern: str, lines: list[str] | None = None, after: int = 0) -> str:
        """Waits for a line of the output (or of these lines) that a pattern is found in."""
        where = self.out if lines is None else lines
        end = time.monotonic() + LIMIT
        while time.monotonic() < end:
            for line in where[after:]:
                if re.search(pattern, line):
                    return line
            time.sleep(0.01)
        raise AssertionError(f"{pattern!r} isn't in {self.out} nor in {self.err}")

    def server_pid(self) -> int:
        """The process of alarmd."""
        end = time.monotonic() + LIMIT
        path = Path(f"/proc/{self.process.pid}/task/{self.process.pid}/children")
        while time.monotonic() < end:
            for word in path.read_text().split():
                with contextlib.suppress(OSError):  # it may end meanwhile
                    if "\0run\0" in Path(f"/proc/{word}/cmdline").read_text():
                        return int(word)
            time.sleep(0.01)
        raise AssertionError("no alarmd runs")

    def wait(self) -> int:
        """The status of the process, once it has ended."""
        status = self.process.wait(LIMIT)
        time.sleep(0.05)
        return status

    def kill(self) -> None:
        """Ends the process at once."""
        self.process.kill()
        self.process.wait(LIMIT)


def run(config: Path, text: str, *words: str) -> tuple[int, list[str], list[str]]:
    """A gateway with this input to its end: its status, and the lines of both outputs."""
    done = subprocess.run(
        [ROOT / "gateway" / "gateway", "serve", str(config), *words],
        input=text.encode(),
        capture_output=True,
        timeout=LIMIT,
        check=False,
    )
    return done.returncode, done.stdout.decode().splitlines(), done.stderr.decode().splitlines()
