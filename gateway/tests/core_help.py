"""A core of a test's own, that runs while the test looks on; and what a fresh server says to its record."""

from __future__ import annotations

import asyncio
import subprocess
from pathlib import Path
from typing import Any

from around import PATIENCE

from alarmd_gateway.config import Config
from alarmd_gateway.core import Core


def config_of(alarmd: Path, plant: Path, folder: Path, **more: Any) -> Config:
    """A configuration whose record is in a folder."""
    words: dict[str, Any] = {"period_ms": 20, "patience_ms": PATIENCE, "yes": True, **more}
    return Config(alarmd, plant, folder / "record", folder, **words)


class Served:
    """A core at work, with a part around it."""

    def __init__(self, core: Core) -> None:
        self.core = core
        self._task = asyncio.create_task(core.run())

    async def close(self) -> None:
        self.core.stop()
        await self._task


def by_record(config: Config) -> list[str]:
    """What a fresh server answers to `list` and `journal` after the record."""
    commands = config.record.read_bytes() + b"scan 4000000000001\nlist\njournal\n"
    words = [str(config.alarmd), "run", str(config.plant)]
    done = subprocess.run(words, input=commands, capture_output=True, check=True, timeout=600)
    lines = done.stdout.decode().splitlines()
    return lines[len(lines) - lines[::-1].index("REFUSED E2") :]


def by_core(core: Core) -> list[str]:
    """What the core says that these are."""
    rows = list(core.journal.lines())
    return [*core.state.listing(), *rows, f"END {len(rows)}"]
