"""Small plants that are changed while they are served, and servers that know `reload`: the second reading of the rules, and alarmd where it
does."""

from __future__ import annotations

import dataclasses
import os
import subprocess
from pathlib import Path

import pytest
from around import ROOT

from alarmd_gateway import plant as plants
from alarmd_gateway.model import Texts

READING = ROOT / "tools" / "reference" / "serve.py"
"""Serves as alarmd does, by the second reading of the rules; it knows `reload`, unless WITHOUT is in the environment."""

WITHOUT = "ALARMD_WITHOUT_RELOAD"
HEADER = "tag,area,priority,condition,suppress,latch,max_shelve_ms,text"
FIRST = "a AT %ID0 : DINT; y AT %QD0 : DINT := 7; c : BOOL;"
CONSOLES = ((1, "north"), (2, "south"))


@dataclasses.dataclass(frozen=True)
class Small:
    """A plant like the built-in one: T1 in north, on `c`, which is whether 100 / a is above a limit."""

    limit: int = 10
    variables: str = FIRST
    body: str = ""
    rows: tuple[str, ...] = ("T1,north,2,c,,FALSE,5000,Feed ratio high",)
    consoles: tuple[tuple[int, str], ...] = CONSOLES
    epoch: str = "2020-01-01T00:00:00Z"
    program: str = "p"

    def write(self, folder: Path) -> Path:
        """The files in a folder, in place of those that are there; gives the plant file."""
        folder.mkdir(parents=True, exist_ok=True)
        tables = "".join(
            f'[[console]]\nnumber = {number}\nareas = ["{area}"]\n'
            for number, area in self.consoles
        )
        keys = 'areas = ["north", "south"]\nsources = ["p.st"]\nalarms = "alarms.csv"\n'
        head = f'name = "P"\nepoch = "{self.epoch}"\n'
        body = self.body or f"c := 100 / a > {self.limit}; y := y + 1;"
        (folder / "plant.toml").write_text(head + keys + tables)
        (folder / "alarms.csv").write_text("\n".join([HEADER, *self.rows, ""]))
        (folder / "p.st").write_text(
            f"VAR_GLOBAL {self.variables} END_VAR\nPROGRAM {self.program}\n{body}\nEND_PROGRAM\n"
        )
        return folder / "plant.toml"

    def texts(self, folder: Path) -> Texts:
        """The texts of these files."""
        return plants.texts_of(self.write(folder))


def latched(*rows: str) -> tuple[str, ...]:
    """The rows with T1 latching."""
    return ("T1,north,2,c,,TRUE,5000,Feed ratio high", *rows)


@pytest.fixture(params=["reading", pytest.param("alarmd", marks=pytest.mark.server)])
def reloads(request: pytest.FixtureRequest) -> Path:
    """A server that knows `reload`; alarmd is passed over where it doesn't yet."""
    if request.param == "reading":
        return READING
    program: Path = request.getfixturevalue("alarmd")
    if os.path.samefile(program, READING):
        pytest.skip("it is the second reading")
    plant = ROOT / "examples" / "tank" / "plant.toml"
    done = subprocess.run(
        [program, "run", plant], input=b"reload 0 0\n", capture_output=True, check=False
    )
    if done.stdout != b"CONFIG C2\n":
        pytest.skip("this alarmd knows no `reload`")
    return program
