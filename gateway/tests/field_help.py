"""What the tests of sources share: a core that only writes down, ports, and waiting for what comes."""

from __future__ import annotations

import asyncio
import socket
import time
from collections.abc import Callable
from dataclasses import dataclass, field

from alarmd_gateway.commands import fit
from alarmd_gateway.model import Plant, Sample, Value
from alarmd_gateway.samples import Ages
from alarmd_gateway.fields.source import Intake, Source
from alarmd_gateway.troubles import Troubles

PATIENCE = 60.0  # seconds until something that has to come counts as not coming


@dataclass
class Kept:
    """A core that judges samples as the core does, and keeps them."""

    plant: Plant
    troubles: Troubles = field(default_factory=Troubles)
    samples: list[tuple[str, Value]] = field(default_factory=list)
    kept: list[tuple[str, Value]] = field(default_factory=list)  # those that weren't fresh
    outputs: dict[str, Value] = field(default_factory=dict)

    async def offer(self, sample: Sample) -> None:
        variable, value = fit(self.plant, sample.name, sample.value)
        self.samples.append((variable.name, value))
        if not sample.fresh:
            self.kept.append((variable.name, value))

    def intake(self, limits: dict[str, float] | None = None) -> Intake:
        return Intake(self, Ages(limits or {}, time.monotonic()))

    def standing(self) -> list[tuple[str, str]]:
        """Kind and subject of each trouble that stands."""
        return [(trouble.kind.value, trouble.subject) for trouble in self.troubles]

    def texts(self) -> str:
        return "\n".join(trouble.text for trouble in self.troubles)


async def until(what: Callable[[], object], seconds: float = PATIENCE) -> None:
    """Waits until something is so; a failure of the test where it never is."""
    end = time.monotonic() + seconds
    while not what():
        assert time.monotonic() < end, "it never came"
        await asyncio.sleep(0.01)


def free_port() -> int:
    """A port of the loopback address that nobody has now."""
    with socket.socket() as one:
        one.bind(("127.0.0.1", 0))
        return int(one.getsockname()[1])


class Running:
    """A source that runs while a test looks on."""

    def __init__(self, source: Source, kept: Kept) -> None:
        self.source = source
        self.task = asyncio.create_task(source.run(lambda: dict(kept.outputs)))

    async def close(self) -> None:
        self.task.cancel()
        await asyncio.gather(self.task, return_exceptions=True)
        self.source.close()
