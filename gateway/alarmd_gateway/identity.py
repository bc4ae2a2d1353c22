"""What has to be the same for all gateways of a shared log: the plant's files and the program `alarmd`, by their SHA-256."""

from __future__ import annotations

import hashlib
from collections.abc import Mapping, Sequence
from pathlib import Path

from .etcd import Body, Kept, put, valued
from .log_view import Keys
from .model import GatewayFault, Plant
from .record_head import sums


class OtherPlant(GatewayFault):
    """The log is another plant's, whose files have the sums `known`."""

    def __init__(self, words: str, known: Mapping[str, str]) -> None:
        super().__init__(words, 2)
        self.known = known


class Identity:
    """The plant and the program of this gateway, as they were at its start."""

    def __init__(self, keys: Keys, plant: Plant, program: Path) -> None:
        """Raises GatewayFault (status 2) where the program can't be read."""
        self._keys = keys
        self._path = program
        self._files = sums(plant)
        self._program = {"sha256": program_sum(program)}

    def begin(self) -> list[Body]:
        """What a log that begins has of it."""
        return [put(self._keys.files, self._files), self.program()]

    def program(self) -> Body:
        """Writes that the log goes on with this program."""
        return put(self._keys.program, self._program)

    def holds(self) -> Body:
        """Holds while the log goes on with this program."""
        return valued(self._keys.program, self._program)

    def files_of(self, plant: Plant) -> Body:
        """Writes that the log goes on with another plant, and is of that from then on."""
        self._files = sums(plant)
        return put(self._keys.files, self._files)

    def judge_files(self, kept: Kept) -> None:
        """Raises OtherPlant where the log is another plant's."""
        own = self._files
        changed = [name for name in {**own, **kept.value} if own.get(name) != kept.value.get(name)]
        if changed:
            words = f"the log {self._keys.prefix} is of another plant: {changed[0]} differs. Where a plant was taken up since its record began, copy record.plants from a gateway that has it"
            raise OtherPlant(words, kept.value)

    def judge_program(self, kept: Sequence[Kept]) -> None:
        """Raises GatewayFault (status 2) where the log goes on with another program."""
        known = str(kept[0].value.get("sha256")) if kept else ""
        if known != self._program["sha256"]:
            own = self._program["sha256"]
            words = f"the log {self._keys.prefix} goes on with another alarmd ({known[:12]}.. by its SHA-256, here {own[:12]}..)"
            raise GatewayFault(
                f"{words}. `gateway serve --new-alarmd` has it go on with this one", 2
            )

    def check(self) -> None:
        """Raises GatewayFault (status 2) where another program stands there by now."""
        if program_sum(self._path) != self._program["sha256"]:
            raise GatewayFault(f"{self._path} has changed since this gateway began", 2)


def program_sum(path: Path) -> str:
    """The sum of a program's file. Raises GatewayFault (status 2)."""
    try:
        return hashlib.sha256(path.read_bytes()).hexdigest()
    except OSError as fault:
        raise GatewayFault(f"{path}: {fault.strerror}", 2) from None
