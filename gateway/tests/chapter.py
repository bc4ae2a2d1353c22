"""The commands of a chapter of OPERATION, as they stand there."""

from __future__ import annotations

import re
from dataclasses import dataclass, field
from typing import Final

from package_help import GATEWAY

ONE: Final = "## One machine, from an empty Debian to alarms on the page"
THREE: Final = "### Three machines, each from an empty Debian"
REPLACED: Final = "### A machine that never comes back"


@dataclass
class Step:
    """A command, and what it is said to print."""

    command: str
    printed: list[str] = field(default_factory=list)


def steps(chapter: str) -> dict[int, list[Step]]:
    """The commands by the chapter's numbered parts. What stands up to END is input of the command above."""
    text = (GATEWAY.parent / "docs" / "OPERATION.md").read_text()
    whole = re.split(r"\n##+ ", text[text.index(chapter) + len(chapter) :])[0]
    found: dict[int, list[Step]] = {}
    for line in whole.splitlines():
        if number := re.match(r"\*\*(\d+)\.", line):
            part = found.setdefault(int(number[1]), [])
        elif line.startswith("    # "):
            part.append(Step(line[6:]))
        elif line.startswith("    ") and "<<END" in part[-1].command and not ended(part[-1]):
            part[-1].command += f"\n{line[4:]}"
        elif line.startswith("    "):
            part[-1].printed.append(line[4:])
    return found


def ended(step: Step) -> bool:
    """Whether the input of a command is whole."""
    return step.command.endswith("\nEND")
